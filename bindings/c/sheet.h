/* What the tests in C share that write sheets and fold them: a sheet that is written field by field, and its fold. */
#ifndef SHEET_H
#define SHEET_H

#include <string.h>

#include "check.h"
#include "engines.h"
#include "hours.h"

enum { SHEET = 40000 };

/* A sheet that is written field by field, the most significant bit first. */
static uint8_t sheet[SHEET];
static size_t written;

static void put(unsigned width, unsigned long value)
{
    while (width-- > 0) {
        sheet[written / 8] |= (uint8_t)(((value >> width) & 1) << (7 - written % 8));
        written++;
    }
}

static size_t sheet_length(void)
{
    return (written + 7) / 8;
}

static void begin(enum hours_form form, unsigned rules)
{
    memset(sheet, 0, sizeof sheet);
    written = 0;
    if (form == HOURS_FORM_2) {
        put(4, 2);
    }
    put(form == HOURS_FORM_2 ? 24 : 16, rules);
}

/* An Open rule's operator and comment, its counts of years, months, weeks and weekdays, and that of one span; its items follow. */
static void put_head(enum hours_form form, unsigned operator_, unsigned comment, const unsigned counts[4])
{
    const unsigned width = form == HOURS_FORM_2 ? 12 : 10;

    put(2, operator_);
    put(2, HOURS_OPEN);
    put(form == HOURS_FORM_2 ? 24 : 16, comment);
    for (int sort = 0; sort < 4; sort++) {
        put(width, counts[sort]);
    }
    put(width, 1);
}

/* The rule's one span. */
static void put_span(unsigned start, unsigned end)
{
    put(13, start);
    put(13, end);
    put(2, 0);
}

static uint8_t out[ROOM];
static uint64_t numbers[HOURS_FOLD_NUMBERS];

static uint64_t fold_into(enum hours_form form, size_t room)
{
    memset(out, PAINT, sizeof out);
    CHECK(fold(form, sheet, sheet_length(), out, room, numbers, HOURS_FOLD_NUMBERS));
    return numbers[HOURS_FOLD_CODE];
}

#endif
