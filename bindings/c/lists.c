/* Document 02's room for lists, from C: 512 that differ and one more, and lists that come and go. Compiles as C and as C++. */
#include <stdlib.h>

#include "sheet.h"

enum { NORMAL = 0, ADDITIONAL = 1, DIMENSIONS = 4 };

/* Years, months, weeks and weekdays, in the order of a rule's counts. */
static const unsigned lowest[DIMENSIONS] = {1900, 1, 1, 0};
static const unsigned highest[DIMENSIONS] = {9999, 12, 53, 6};

/* 512 boxes, and 513. */
static const unsigned climb_512[DIMENSIONS] = {8, 8, 8, 1};
static const unsigned climb_513[DIMENSIONS] = {3, 3, 19, 3};

static void put_item(int dimension, unsigned start, unsigned end)
{
    static const unsigned widths[DIMENSIONS] = {14, 4, 6, 3};

    if (dimension == 1) {
        put(2, 0);
    }
    if (dimension == 3) {
        put(1, 0);
    }
    put(widths[dimension], start);
    put(widths[dimension], end);
    if (dimension == 0) {
        put(16, 1);
    }
    if (dimension == 2) {
        put(8, 1);
    }
    if (dimension == 3) {
        put(16, 0);
        put(10, 0x3FF);
    }
}

/* Open all day, on every day. */
static void put_everywhere(enum hours_form form, unsigned operator_, unsigned comment)
{
    static const unsigned none[DIMENSIONS] = {0, 0, 0, 0};

    put_head(form, operator_, comment, none);
    put_span(0, 1440);
}

/* Open all day, from a value of one dimension on. */
static void put_from(enum hours_form form, unsigned comment, int dimension, unsigned start)
{
    unsigned counts[DIMENSIONS] = {0, 0, 0, 0};

    counts[dimension] = 1;
    put_head(form, ADDITIONAL, comment, counts);
    put_item(dimension, start, highest[dimension]);
    put_span(0, 1440);
}

/* For each interval of each dimension but the first a rule from there on: each box has a list of its own, the first box the empty one. */
static void put_climb(enum hours_form form, const unsigned shape[DIMENSIONS])
{
    unsigned comment = 1;

    for (int dimension = 0; dimension < DIMENSIONS; dimension++) {
        for (unsigned number = 1; number < shape[dimension]; number++) {
            comment++;
            put_from(form, comment, dimension, lowest[dimension] + number);
        }
    }
}

/* So often a rule that replaces all lists and 512 lists upon it. */
static void put_rounds(enum hours_form form, unsigned rounds)
{
    begin(form, 22 * rounds);
    for (unsigned round = 0; round < rounds; round++) {
        put_everywhere(form, NORMAL, 1);
        put_climb(form, climb_512);
    }
}

static void check_refused(enum hours_form form)
{
    for (int with_room = 0; with_room < 2; with_room++) {
        CHECK(fold_into(form, with_room ? sizeof out : 0) == HOURS_MANY_LISTS);
        CHECK(numbers[HOURS_FOLD_PLACE] == 24);
        CHECK(numbers[HOURS_FOLD_DRAINED] == 0 && numbers[HOURS_FOLD_BYTES] == 0 && numbers[HOURS_FOLD_WHY] == 0);
        CHECK(painted(out, sizeof out));
    }
    CHECK(hours_lookup(form, sheet, sheet_length(), 2000, 2, 29, 720, numbers, HOURS_LOOKUP_NUMBERS));
    CHECK(numbers[HOURS_LOOKUP_CODE] == HOURS_MANY_LISTS && numbers[HOURS_LOOKUP_PLACE] == 24);
    CHECK(hours_lookup(form, sheet, sheet_length(), 1900, 2, 29, 720, numbers, HOURS_LOOKUP_NUMBERS));
    CHECK(numbers[HOURS_LOOKUP_CODE] == HOURS_NO_DATE);
    CHECK(hours_write_back(form, sheet, sheet_length(), out, sizeof out, numbers, HOURS_WRITE_BACK_NUMBERS));
    CHECK(numbers[HOURS_WRITE_BACK_CODE] == HOURS_DONE);
}

static void test_limit(enum hours_form form)
{
    CHECK(HOURS_MANY_LISTS == 14);

    begin(form, 22);
    put_everywhere(form, ADDITIONAL, 1);
    put_climb(form, climb_512);
    CHECK(fold_into(form, sizeof out) == HOURS_DONE);
    CHECK(numbers[HOURS_FOLD_DRAINED] == 22);

    /* 512 lists and the empty one, which the next rule fills. */
    begin(form, 24);
    put_climb(form, climb_513);
    CHECK(fold_into(form, sizeof out) == HOURS_DONE);
    CHECK(numbers[HOURS_FOLD_DRAINED] == 24);

    begin(form, 25);
    put_climb(form, climb_513);
    put_everywhere(form, ADDITIONAL, 1);
    check_refused(form);
}

/* What the last round says is what all say: 5,632 lists in all, of which 512 stand. */
static void test_rounds(enum hours_form form)
{
    static uint8_t once[ROOM];
    uint64_t bytes;

    put_rounds(form, 1);
    CHECK(fold_into(form, sizeof out) == HOURS_DONE);
    bytes = numbers[HOURS_FOLD_BYTES];
    memcpy(once, out, sizeof once);

    put_rounds(form, 11);
    CHECK(fold_into(form, sizeof out) == HOURS_DONE);
    CHECK(numbers[HOURS_FOLD_DRAINED] == 242);
    CHECK(numbers[HOURS_FOLD_BYTES] == bytes);
    CHECK(memcmp(out, once, sizeof out) == 0);
}

int main(void)
{
    static const enum hours_form forms[] = {HOURS_FORM_1, HOURS_FORM_2};

    for (size_t i = 0; i < sizeof forms / sizeof forms[0]; i++) {
        test_limit(forms[i]);
        test_rounds(forms[i]);
    }
    return failures == 0 ? EXIT_SUCCESS : EXIT_FAILURE;
}
