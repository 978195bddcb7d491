/* What the tests in C share that fold: the fold by both engines, which answer alike. */
#ifndef ENGINES_H
#define ENGINES_H

#include <string.h>

#include "check.h"
#include "hours.h"

/* The longest slices that are lent here. */
enum { ROOM = 20000, COUNT = HOURS_FOLD_NUMBERS + 1 };

/* A slice without elements may be null, which memcpy and memcmp don't take. */
static void copy(void *to, const void *from, size_t length)
{
    if (length > 0) {
        memcpy(to, from, length);
    }
}

static bool same(const void *one, const void *other, size_t length)
{
    return length == 0 || memcmp(one, other, length) == 0;
}

/* hours_fold, after hours_fold_plain was lent the same slices with the same in them: what a test sees of one holds of the other. What
 * the plain engine writes behind the slices stays there, for the test to see. */
static bool fold(uint64_t form, const uint8_t *sheet, size_t sheet_length, uint8_t *out, size_t out_length, uint64_t *numbers,
                 size_t numbers_length)
{
    static uint8_t out_before[ROOM], out_by_plain[ROOM];
    static uint64_t numbers_before[COUNT], numbers_by_plain[COUNT];
    const size_t numbers_size = numbers_length * sizeof numbers[0];
    bool plain, told;

    copy(out_before, out, out_length);
    copy(numbers_before, numbers, numbers_size);
    plain = hours_fold_plain(form, sheet, sheet_length, out, out_length, numbers, numbers_length);
    copy(out_by_plain, out, out_length);
    copy(numbers_by_plain, numbers, numbers_size);

    copy(out, out_before, out_length);
    copy(numbers, numbers_before, numbers_size);
    told = hours_fold(form, sheet, sheet_length, out, out_length, numbers, numbers_length);
    CHECK(plain == told);
    CHECK(same(out_by_plain, out, out_length));
    CHECK(same(numbers_by_plain, numbers, numbers_size));
    return told;
}

#endif
