/* The header held against the archive: every function called with every sort of slice, folds by both engines. Compiles as C and C++. */
#include <stdlib.h>
#include <string.h>

#include "check.h"
#include "engines.h"
#include "hours.h"

/* One Normal Open rule, 00:00-24:00. */
static const uint8_t always[] = {0x00, 0x01, 0x00, 0x00, 0x00, 0x00, 0x00, 0x00, 0x00, 0x00, 0x04, 0x00, 0x05, 0xA0, 0x00};

/* Longer than any sheet here, so that bytes are left after every result. */
static uint8_t out[32];
static uint64_t numbers[HOURS_FOLD_NUMBERS + 1];

static void paint(void)
{
    memset(out, PAINT, sizeof out);
    memset(numbers, PAINT, sizeof numbers);
}

static bool numbers_painted_from(size_t first)
{
    return painted(numbers + first, sizeof numbers - first * sizeof numbers[0]);
}

static void test_fold(void)
{
    paint();
    CHECK(fold(HOURS_FORM_1, always, sizeof always, out, sizeof out, numbers, HOURS_FOLD_NUMBERS + 1));
    CHECK(numbers[HOURS_FOLD_CODE] == HOURS_DONE);
    CHECK(numbers[HOURS_FOLD_DRAINED] == 1);
    CHECK(numbers[HOURS_FOLD_EMITTED] == 1);
    CHECK(numbers[HOURS_FOLD_LEFT] == 0);
    CHECK(numbers[HOURS_FOLD_BYTES] == sizeof always);
    CHECK(numbers[HOURS_FOLD_PLACE] == 0);
    CHECK(numbers[HOURS_FOLD_WHY] == HOURS_WHY_NOTHING);
    CHECK(numbers_painted_from(HOURS_FOLD_NUMBERS));
    CHECK(memcmp(out, always, sizeof always) == 0);
    CHECK(out[sizeof always] == PAINT);

    paint();
    CHECK(fold(HOURS_FORM_1, always, sizeof always, out, sizeof always - 1, numbers, HOURS_FOLD_NUMBERS));
    CHECK(numbers[HOURS_FOLD_CODE] == HOURS_NO_ROOM);
    CHECK(numbers[HOURS_FOLD_PLACE] == sizeof always);
    CHECK(painted(out, sizeof out));

    paint();
    CHECK(HOURS_FOLD_NUMBERS == 7);
    CHECK(!fold(HOURS_FORM_1, always, sizeof always, out, sizeof out, numbers, 6));
    CHECK(painted(out, sizeof out) && numbers_painted_from(0));
}

/* A sheet of one rule that stops, so that its fold is the sheet itself. */
struct stopped {
    enum hours_why why;
    const char *sheet;
    size_t length;
};

/* A string literal ends in a zero byte that is not the sheet's. */
#define STOPPED(why, sheet) {why, sheet, sizeof sheet - 1}

static void test_why(void)
{
    static const struct stopped each[] = {
        STOPPED(HOURS_WHY_FALLBACK, "\x00\x01\x80\x00\x00\x00\x00\x00\x00\x00\x04\x4B\x04\x38\x00"),
        STOPPED(HOURS_WHY_TIME, "\x00\x01\x00\x00\x00\x00\x00\x00\x00\x00\x04\x87\x05\xA1\x00"),
        STOPPED(HOURS_WHY_YEAR_STEP, "\x00\x01\x00\x00\x00\x04\x00\x00\x00\x00\x04\x7D\x01\xF6\x80\x00\x84\xB0\x43\x80"),
        /* of a year */
        STOPPED(HOURS_WHY_MONTHDAY, "\x00\x01\x00\x00\x00\x00\x01\x00\x00\x00\x05\x12\x1F\xA8\x4B\x04\x38\x00"),
        /* by reference */
        STOPPED(HOURS_WHY_MONTHDAY, "\x00\x01\x00\x00\x00\x00\x01\x00\x00\x00\x06\x00\x00\x00\x00\x12\xC1\x0E\x00"),
        STOPPED(HOURS_WHY_WEEK_STEP, "\x00\x01\x00\x00\x00\x00\x00\x00\x40\x00\x04\x1D\x40\x84\xB0\x43\x80"),
        STOPPED(HOURS_WHY_HOLIDAY, "\x00\x01\x00\x00\x00\x00\x00\x00\x00\x10\x07\x00\x00\x12\xC1\x0E\x00"),
        /* with an offset */
        STOPPED(HOURS_WHY_HOLIDAY, "\x00\x01\x00\x00\x00\x00\x00\x00\x00\x10\x06\xFF\xFF\x12\xC1\x0E\x00"),
        STOPPED(HOURS_WHY_WEEKDAY_OFFSET, "\x00\x01\x00\x00\x00\x00\x00\x00\x00\x10\x04\x00\x00\x0F\xFE\x25\x82\x1C\x00"),
        STOPPED(HOURS_WHY_NTH, "\x00\x01\x00\x00\x00\x00\x00\x00\x00\x10\x04\x00\x00\x07\xC2\x25\x82\x1C\x00"),
        /* before a year step */
        STOPPED(HOURS_WHY_TIME, "\x00\x01\x00\x00\x00\x04\x00\x00\x00\x00\x08\x7D\x01\xF6\x80\x00\x84\xB0\x43\x80\x87\x05\xA1\x00"),
    };

    for (size_t i = 0; i < sizeof each / sizeof each[0]; i++) {
        const uint8_t *sheet = (const uint8_t *)each[i].sheet;
        const size_t length = each[i].length;

        paint();
        CHECK(fold(HOURS_FORM_1, sheet, length, out, sizeof out, numbers, HOURS_FOLD_NUMBERS));
        CHECK(numbers[HOURS_FOLD_CODE] == HOURS_DONE);
        CHECK(numbers[HOURS_FOLD_LEFT] == 1);
        CHECK(numbers[HOURS_FOLD_WHY] == (uint64_t)each[i].why);
        CHECK(numbers_painted_from(HOURS_FOLD_NUMBERS));
        CHECK(memcmp(out, sheet, length) == 0);

        CHECK(fold(HOURS_FORM_1, sheet, length, out, length - 1, numbers, HOURS_FOLD_NUMBERS));
        CHECK(numbers[HOURS_FOLD_CODE] == HOURS_NO_ROOM);
        CHECK(numbers[HOURS_FOLD_WHY] == HOURS_WHY_NOTHING);
    }
}

/* Additional Open, 10:00-12:00 with `open_end`: Mo-We,Tu-Th, and Mo-We,Th-Fr, which only touch. */
static const uint8_t sharing[] = {0x00, 0x01, 0x40, 0x00, 0x00, 0x00, 0x00, 0x00, 0x00, 0x20, 0x04, 0x10,
                                  0x00, 0x07, 0xFE, 0x2C, 0x00, 0x03, 0xFF, 0x12, 0xC0, 0xB4, 0x20};
static const uint8_t touching[] = {0x00, 0x01, 0x40, 0x00, 0x00, 0x00, 0x00, 0x00, 0x00, 0x20, 0x04, 0x10,
                                   0x00, 0x07, 0xFE, 0x70, 0x00, 0x03, 0xFF, 0x12, 0xC0, 0xB4, 0x20};

static void test_overlap(void)
{
    paint();
    CHECK(fold(HOURS_FORM_1, sharing, sizeof sharing, out, 0, numbers, HOURS_FOLD_NUMBERS));
    CHECK(numbers[HOURS_FOLD_CODE] == HOURS_OVERLAP);
    CHECK(HOURS_OVERLAP == 11);
    CHECK(numbers[HOURS_FOLD_DRAINED] == 0);
    CHECK(numbers[HOURS_FOLD_PLACE] == 0);
    CHECK(painted(out, sizeof out) && numbers_painted_from(HOURS_FOLD_NUMBERS));

    CHECK(fold(HOURS_FORM_1, touching, sizeof touching, out, sizeof out, numbers, HOURS_FOLD_NUMBERS));
    CHECK(numbers[HOURS_FOLD_CODE] == HOURS_DONE);
    CHECK(numbers[HOURS_FOLD_EMITTED] == 1);

    CHECK(hours_lookup(HOURS_FORM_1, sharing, sizeof sharing, 2000, 2, 29, 660, numbers, HOURS_LOOKUP_NUMBERS));
    CHECK(numbers[HOURS_LOOKUP_CODE] == HOURS_OVERLAP);
    CHECK(hours_lookup(HOURS_FORM_1, sharing, sizeof sharing, 1900, 2, 29, 660, numbers, HOURS_LOOKUP_NUMBERS));
    CHECK(numbers[HOURS_LOOKUP_CODE] == HOURS_NO_DATE);
    CHECK(hours_lookup(HOURS_FORM_1, touching, sizeof touching, 2000, 2, 29, 660, numbers, HOURS_LOOKUP_NUMBERS));
    CHECK(numbers[HOURS_LOOKUP_CODE] == HOURS_UNSETTLED);

    CHECK(hours_write_back(HOURS_FORM_1, sharing, sizeof sharing, out, sizeof out, numbers, HOURS_WRITE_BACK_NUMBERS));
    CHECK(numbers[HOURS_WRITE_BACK_CODE] == HOURS_DONE);
    CHECK(hours_line(HOURS_FORM_1, sharing, sizeof sharing, out, sizeof out, numbers, HOURS_LINE_NUMBERS));
    CHECK(numbers[HOURS_LINE_CODE] == HOURS_NO_LINE);
}

static void test_lookup(void)
{
    paint();
    CHECK(hours_lookup(HOURS_FORM_1, always, sizeof always, 2000, 2, 29, 1439, numbers, HOURS_LOOKUP_NUMBERS));
    CHECK(numbers[HOURS_LOOKUP_CODE] == HOURS_DONE);
    CHECK(numbers[HOURS_LOOKUP_KIND] == HOURS_OPEN);
    CHECK(numbers[HOURS_LOOKUP_COMMENT] == 0);
    CHECK(numbers[HOURS_LOOKUP_PLACE] == 0);
    CHECK(numbers_painted_from(HOURS_LOOKUP_NUMBERS));

    CHECK(hours_lookup(HOURS_FORM_1, always, sizeof always, 1900, 2, 29, 1439, numbers, HOURS_LOOKUP_NUMBERS));
    CHECK(numbers[HOURS_LOOKUP_CODE] == HOURS_NO_DATE);

    paint();
    CHECK(!hours_lookup(HOURS_FORM_1, always, sizeof always, 2000, 2, 29, 1439, numbers, HOURS_LOOKUP_NUMBERS - 1));
    CHECK(numbers_painted_from(0));
}

static void test_write_back(void)
{
    paint();
    CHECK(hours_write_back(HOURS_FORM_1, always, sizeof always, out, sizeof out, numbers, HOURS_WRITE_BACK_NUMBERS));
    CHECK(numbers[HOURS_WRITE_BACK_CODE] == HOURS_DONE);
    CHECK(numbers[HOURS_WRITE_BACK_BYTES] == sizeof always);
    CHECK(numbers[HOURS_WRITE_BACK_PLACE] == 0);
    CHECK(numbers_painted_from(HOURS_WRITE_BACK_NUMBERS));
    CHECK(memcmp(out, always, sizeof always) == 0);
    CHECK(out[sizeof always] == PAINT);

    paint();
    CHECK(!hours_write_back(HOURS_FORM_1, always, sizeof always, out, sizeof out, numbers, HOURS_WRITE_BACK_NUMBERS - 1));
    CHECK(painted(out, sizeof out) && numbers_painted_from(0));
}

static void test_line(void)
{
    /* The empty sheet has an empty line, so that no byte is needed. */
    static const uint8_t empty[] = {0x00, 0x00};
    /* The operator is Additional. */
    static const uint8_t additional[] = {0x00, 0x01, 0x40, 0x00, 0x00, 0x00, 0x00, 0x00, 0x00, 0x00, 0x04, 0x00, 0x05, 0xA0, 0x00};
    static const char text[] = "00:00-24:00";
    const size_t needed = strlen(text);

    paint();
    CHECK(hours_line(HOURS_FORM_1, always, sizeof always, out, sizeof out, numbers, HOURS_LINE_NUMBERS + 1));
    CHECK(numbers[HOURS_LINE_CODE] == HOURS_DONE);
    CHECK(numbers[HOURS_LINE_BYTES] == needed);
    CHECK(numbers[HOURS_LINE_PLACE] == 0);
    CHECK(numbers_painted_from(HOURS_LINE_NUMBERS));
    CHECK(memcmp(out, text, needed) == 0);
    CHECK(painted(out + needed, sizeof out - needed));

    paint();
    CHECK(hours_line(HOURS_FORM_1, always, sizeof always, out, needed, numbers, HOURS_LINE_NUMBERS));
    CHECK(numbers[HOURS_LINE_CODE] == HOURS_DONE);
    CHECK(memcmp(out, text, needed) == 0);

    paint();
    CHECK(hours_line(HOURS_FORM_1, always, sizeof always, out, needed - 1, numbers, HOURS_LINE_NUMBERS));
    CHECK(numbers[HOURS_LINE_CODE] == HOURS_NO_ROOM);
    CHECK(numbers[HOURS_LINE_BYTES] == 0);
    CHECK(numbers[HOURS_LINE_PLACE] == needed);
    CHECK(painted(out, sizeof out));

    CHECK(hours_line(HOURS_FORM_1, additional, sizeof additional, out, 0, numbers, HOURS_LINE_NUMBERS));
    CHECK(numbers[HOURS_LINE_CODE] == HOURS_NO_LINE);
    CHECK(numbers[HOURS_LINE_PLACE] == 0);

    CHECK(hours_line(HOURS_FORM_1, empty, sizeof empty, NULL, 0, numbers, HOURS_LINE_NUMBERS));
    CHECK(numbers[HOURS_LINE_CODE] == HOURS_DONE);
    CHECK(numbers[HOURS_LINE_BYTES] == 0);

    paint();
    CHECK(!hours_line(HOURS_FORM_1, always, sizeof always, out, sizeof out, numbers, HOURS_LINE_NUMBERS - 1));
    CHECK(painted(out, sizeof out) && numbers_painted_from(0));
}

/* The same rule in form 2, and Closed "65536" in its place. */
static const uint8_t always_2[] = {0x20, 0x00, 0x00, 0x10, 0x00, 0x00, 0x00, 0x00, 0x00, 0x00, 0x00, 0x00, 0x00, 0x00, 0x10, 0x00, 0x16, 0x80};
static const uint8_t commented[] = {0x20, 0x00, 0x00, 0x11, 0x01, 0x00, 0x00, 0x00, 0x00, 0x00, 0x00, 0x00, 0x00, 0x00, 0x10, 0x00, 0x16, 0x80};

static void test_form_2(void)
{
    static const char text[] = "00:00-24:00 off \"65536\"";

    CHECK(HOURS_FORM_1 == 1 && HOURS_FORM_2 == 2);
    paint();
    CHECK(fold(HOURS_FORM_2, commented, sizeof commented, out, sizeof out, numbers, HOURS_FOLD_NUMBERS));
    CHECK(numbers[HOURS_FOLD_CODE] == HOURS_DONE);
    CHECK(numbers[HOURS_FOLD_BYTES] == sizeof commented);
    CHECK(memcmp(out, commented, sizeof commented) == 0);
    CHECK(out[sizeof commented] == PAINT);

    CHECK(hours_lookup(HOURS_FORM_2, commented, sizeof commented, 2000, 2, 29, 0, numbers, HOURS_LOOKUP_NUMBERS));
    CHECK(numbers[HOURS_LOOKUP_CODE] == HOURS_DONE);
    CHECK(numbers[HOURS_LOOKUP_KIND] == HOURS_CLOSED);
    CHECK(numbers[HOURS_LOOKUP_COMMENT] == 65536);

    CHECK(hours_line(HOURS_FORM_2, commented, sizeof commented, out, sizeof out, numbers, HOURS_LINE_NUMBERS));
    CHECK(numbers[HOURS_LINE_BYTES] == strlen(text));
    CHECK(memcmp(out, text, strlen(text)) == 0);

    CHECK(hours_write_back(HOURS_FORM_2, commented, sizeof commented, out, sizeof out, numbers, HOURS_WRITE_BACK_NUMBERS));
    CHECK(numbers[HOURS_WRITE_BACK_BYTES] == sizeof commented);
    CHECK(memcmp(out, commented, sizeof commented) == 0);
}

/* A sheet moved from a form, with bytes to spare, exactly enough, and one too few. */
static void check_convert(uint64_t form, const uint8_t *sheet, size_t length, const uint8_t *moved, size_t needed)
{
    paint();
    CHECK(hours_convert(form, sheet, length, out, sizeof out, numbers, HOURS_CONVERT_NUMBERS));
    CHECK(numbers[HOURS_CONVERT_CODE] == HOURS_DONE);
    CHECK(numbers[HOURS_CONVERT_BYTES] == needed);
    CHECK(numbers[HOURS_CONVERT_PLACE] == 0);
    CHECK(numbers_painted_from(HOURS_CONVERT_NUMBERS));
    CHECK(memcmp(out, moved, needed) == 0);
    CHECK(painted(out + needed, sizeof out - needed));

    paint();
    CHECK(hours_convert(form, sheet, length, out, needed, numbers, HOURS_CONVERT_NUMBERS));
    CHECK(numbers[HOURS_CONVERT_CODE] == HOURS_DONE);
    CHECK(memcmp(out, moved, needed) == 0);

    paint();
    CHECK(hours_convert(form, sheet, length, out, needed - 1, numbers, HOURS_CONVERT_NUMBERS));
    CHECK(numbers[HOURS_CONVERT_CODE] == HOURS_NO_ROOM);
    CHECK(numbers[HOURS_CONVERT_BYTES] == 0);
    CHECK(numbers[HOURS_CONVERT_PLACE] == needed);
    CHECK(painted(out, sizeof out));
}

static void test_convert(void)
{
    check_convert(HOURS_FORM_1, always, sizeof always, always_2, sizeof always_2);
    check_convert(HOURS_FORM_2, always_2, sizeof always_2, always, sizeof always);

    /* The comment is refused before the buffer is. */
    paint();
    CHECK(hours_convert(HOURS_FORM_2, commented, sizeof commented, out, 0, numbers, HOURS_CONVERT_NUMBERS));
    CHECK(numbers[HOURS_CONVERT_CODE] == HOURS_LONG_COMMENT);
    CHECK(HOURS_LONG_COMMENT == 12);
    CHECK(numbers[HOURS_CONVERT_PLACE] == 0);
    CHECK(painted(out, sizeof out));

    paint();
    CHECK(!hours_convert(HOURS_FORM_1, always, sizeof always, out, sizeof out, numbers, HOURS_CONVERT_NUMBERS - 1));
    CHECK(painted(out, sizeof out) && numbers_painted_from(0));
}

/* A sheet in a form that is not its own, and in forms that are none. */
static void test_other_forms(void)
{
    static const uint64_t none[] = {0, 3, UINT64_C(4294967297), UINT64_MAX};

    CHECK(fold(HOURS_FORM_2, always, sizeof always, out, sizeof out, numbers, HOURS_FOLD_NUMBERS));
    CHECK(numbers[HOURS_FOLD_CODE] == HOURS_UNLAWFUL && numbers[HOURS_FOLD_PLACE] == 0);
    CHECK(fold(HOURS_FORM_1, always_2, sizeof always_2, out, sizeof out, numbers, HOURS_FOLD_NUMBERS));
    CHECK(numbers[HOURS_FOLD_CODE] == HOURS_OVER_LIMIT && numbers[HOURS_FOLD_PLACE] == 0);

    for (size_t i = 0; i < sizeof none / sizeof none[0]; i++) {
        paint();
        CHECK(fold(none[i], always, sizeof always, out, sizeof out, numbers, HOURS_FOLD_NUMBERS));
        CHECK(numbers[HOURS_FOLD_CODE] == HOURS_UNLAWFUL && numbers[HOURS_FOLD_PLACE] == 0);
        CHECK(hours_lookup(none[i], always, sizeof always, 1900, 2, 29, 0, numbers, HOURS_LOOKUP_NUMBERS));
        CHECK(numbers[HOURS_LOOKUP_CODE] == HOURS_UNLAWFUL && numbers[HOURS_LOOKUP_PLACE] == 0);
        CHECK(hours_write_back(none[i], NULL, 0, out, sizeof out, numbers, HOURS_WRITE_BACK_NUMBERS));
        CHECK(numbers[HOURS_WRITE_BACK_CODE] == HOURS_UNLAWFUL && numbers[HOURS_WRITE_BACK_PLACE] == 0);
        CHECK(hours_line(none[i], always, sizeof always, out, 0, numbers, HOURS_LINE_NUMBERS));
        CHECK(numbers[HOURS_LINE_CODE] == HOURS_UNLAWFUL && numbers[HOURS_LINE_PLACE] == 0);
        CHECK(hours_convert(none[i], always, sizeof always, out, sizeof out, numbers, HOURS_CONVERT_NUMBERS));
        CHECK(numbers[HOURS_CONVERT_CODE] == HOURS_UNLAWFUL && numbers[HOURS_CONVERT_PLACE] == 0);
        CHECK(painted(out, sizeof out));

        paint();
        CHECK(!fold(none[i], always, sizeof always, out, sizeof out, numbers, HOURS_FOLD_NUMBERS - 1));
        CHECK(painted(out, sizeof out) && numbers_painted_from(0));
    }
}

static void test_null(void)
{
    CHECK(fold(HOURS_FORM_1, NULL, 0, NULL, 0, numbers, HOURS_FOLD_NUMBERS));
    CHECK(numbers[HOURS_FOLD_CODE] == HOURS_PAST_END);
    CHECK(numbers[HOURS_FOLD_PLACE] == 0);

    CHECK(fold(HOURS_FORM_1, always, sizeof always, NULL, 0, numbers, HOURS_FOLD_NUMBERS));
    CHECK(numbers[HOURS_FOLD_CODE] == HOURS_NO_ROOM);
    CHECK(numbers[HOURS_FOLD_PLACE] == sizeof always);

    CHECK(!fold(HOURS_FORM_1, NULL, 0, NULL, 0, NULL, 0));
    CHECK(!hours_lookup(HOURS_FORM_1, NULL, 0, 2000, 2, 29, 0, NULL, 0));
    CHECK(!hours_write_back(HOURS_FORM_1, NULL, 0, NULL, 0, NULL, 0));
    CHECK(!hours_line(HOURS_FORM_1, NULL, 0, NULL, 0, NULL, 0));
    CHECK(!hours_convert(HOURS_FORM_1, NULL, 0, NULL, 0, NULL, 0));
}

int main(void)
{
    test_fold();
    test_why();
    test_overlap();
    test_lookup();
    test_write_back();
    test_line();
    test_form_2();
    test_convert();
    test_other_forms();
    test_null();
    return failures == 0 ? EXIT_SUCCESS : EXIT_FAILURE;
}
