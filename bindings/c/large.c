/* Document 02's larger sheets, from C: 256 rules and one more, and results at what form 1 can count. Compiles as C and as C++. */
#include <stdlib.h>

#include "sheet.h"

enum { ITEMS = 16 };

/* Open 10:00-18:00, on so many years from one on, each two after the one before. */
static void put_rule(enum hours_form form, unsigned operator_, unsigned years, unsigned first)
{
    const unsigned counts[4] = {years, 0, 0, 0};

    put_head(form, operator_, 0, counts);
    for (unsigned i = 0; i < years; i++) {
        put(14, first + 2 * i);
        put(14, first + 2 * i);
        put(16, 1);
    }
    put_span(600, 1080);
}

/* So many years, a multiple of sixteen or one less, and a rule left behind them. */
static void put_years(enum hours_form form, unsigned years)
{
    const unsigned rules = (years + ITEMS - 1) / ITEMS;

    begin(form, rules + 1);
    for (unsigned rule = 0; rule < rules; rule++) {
        const unsigned before = rule * ITEMS;
        const unsigned rest = years - before;
        const unsigned here = rest < ITEMS ? rest : (unsigned)ITEMS;

        put_rule(form, 0, here, 1901 + 2 * before);
    }
    put_rule(form, 2, 0, 0);
}

static void check_folded(enum hours_form form)
{
    CHECK(fold_into(form, sizeof out) == HOURS_DONE);
    CHECK(numbers[HOURS_FOLD_DRAINED] == 64);
    CHECK(numbers[HOURS_FOLD_EMITTED] == 1);
    CHECK(numbers[HOURS_FOLD_LEFT] == 1);
    CHECK(numbers[HOURS_FOLD_WHY] == HOURS_WHY_FALLBACK);
    CHECK(fold_into(form, 0) == HOURS_NO_ROOM);
}

static void test_past_counts(void)
{
    put_years(HOURS_FORM_1, 1023);
    check_folded(HOURS_FORM_1);
    put_years(HOURS_FORM_2, 1024);
    check_folded(HOURS_FORM_2);

    put_years(HOURS_FORM_1, 1024);
    CHECK(HOURS_PAST_COUNTS == 13);
    for (int with_room = 0; with_room < 2; with_room++) {
        CHECK(fold_into(HOURS_FORM_1, with_room ? sizeof out : 0) == HOURS_PAST_COUNTS);
        for (int i = HOURS_FOLD_DRAINED; i < HOURS_FOLD_NUMBERS; i++) {
            CHECK(numbers[i] == 0);
        }
        CHECK(painted(out, sizeof out));
    }
    CHECK(hours_lookup(HOURS_FORM_1, sheet, sheet_length(), 1901, 1, 1, 720, numbers, HOURS_LOOKUP_NUMBERS));
    CHECK(numbers[HOURS_LOOKUP_CODE] == HOURS_UNSETTLED);
    CHECK(hours_convert(HOURS_FORM_1, sheet, sheet_length(), out, sizeof out, numbers, HOURS_CONVERT_NUMBERS));
    CHECK(numbers[HOURS_CONVERT_CODE] == HOURS_DONE);
}

static void test_rules(void)
{
    static const enum hours_form forms[] = {HOURS_FORM_1, HOURS_FORM_2};

    for (size_t i = 0; i < sizeof forms / sizeof forms[0]; i++) {
        for (unsigned rules = 256; rules <= 257; rules++) {
            begin(forms[i], rules);
            for (unsigned rule = 0; rule < rules; rule++) {
                put_rule(forms[i], 0, 0, 0);
            }
            CHECK(fold_into(forms[i], sizeof out) == (uint64_t)(rules == 256 ? HOURS_DONE : HOURS_OVER_LIMIT));
            CHECK(numbers[HOURS_FOLD_DRAINED] == (rules == 256 ? 256 : 0));
            CHECK(numbers[HOURS_FOLD_PLACE] == (uint64_t)(rules == 257 && forms[i] == HOURS_FORM_2 ? 4 : 0));
        }
    }
}

int main(void)
{
    test_past_counts();
    test_rules();
    return failures == 0 ? EXIT_SUCCESS : EXIT_FAILURE;
}
