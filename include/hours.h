/* The fold of landing-site hours, for C and C++: what the archive libhours.a exports.
 *
 * `bindings/archive.sh` proves it and writes target/staticlib/libhours.a, x86-64 code with the System V calling convention:
 *
 *     cc -Iinclude program.c target/staticlib/libhours.a
 *
 * What a packed sheet, its fold and its line are stands in crates/definition/specs. Of all six functions:
 *
 * - The caller says in `form` of which form the sheet is: HOURS_FORM_1 or HOURS_FORM_2, an hours_form. What a function writes as a sheet
 *   is of the same form, but for hours_convert, which writes the other one.
 * - Every byte string, form, date and length gets an answer; a sheet may hold anything.
 * - The answer goes into `numbers`, in the order of the enumerations below, and the function returns `true`. A `numbers` that is too
 *   short for it is answered `false`, and nothing is written anywhere. A longer one keeps its later numbers.
 * - A slice is a pointer and the count of its elements. A pointer with a count of 0 is not followed, and may be null.
 * - `out` and `numbers` must overlap neither each other nor `sheet`. So a sheet can't be folded in place.
 * - Nothing is kept between calls, nothing allocated, and nothing called but memset and memmove. Threads may call at once, each with its
 *   own `out` and `numbers`; they may share a `sheet` that nothing writes meanwhile.
 * - The stack must have HOURS_STACK bytes left.
 *
 * A call that was made before there were two forms gets HOURS_FORM_1 in front. A sheet that was accepted by the limits of before, 64 rules
 * and 1,024 boxes, is answered as it was, with the same numbers and bytes, unless HOURS_MANY_LISTS is now given; now a sheet may have 256
 * rules, and its fold 4,096 boxes.
 */
#ifndef HOURS_H
#define HOURS_H

#include <stdbool.h>
#include <stddef.h>
#include <stdint.h>

#ifdef __cplusplus
extern "C" {
#endif

/* The form of a packed sheet. Form 2 begins with the four bits 0010; its rule count has 24 bits where form 1's has 16, its comments 24
 * where form 1's have 16, and the five counts of a rule 12 where form 1's have 10. All else is the same, the limits too. */
enum hours_form {
    HOURS_FORM_1 = 1, /* comments up to 65,535 */
    HOURS_FORM_2 = 2  /* comments up to 16,777,215 */
};

/* The code of an answer: done, or the first reason to refuse: first 2 where `form` is neither 1 nor 2, then 1, 2 and 4 as met from the
 * first bit on, then 3, 8, 11, 5, then 6 and 14 rule by rule, 6 first at the same rule, then 9, 10, 12, 13, 7. The place that goes with it
 * stands in brackets; bits and rules are counted from 0, bits from the most significant one on. */
enum hours_code {
    HOURS_DONE = 0,          /* done [0] */
    HOURS_PAST_END = 1,      /* a field runs past the end [its first bit] */
    HOURS_UNLAWFUL = 2,      /* `form` is neither 1 nor 2 [0], or a field that isn't a count holds an unlawful value [its first bit]; form
                                2's first four bits are such a field */
    HOURS_BAD_END = 3,       /* a padding bit is set, or bytes follow [the first such bit, else the first bit after the padding] */
    HOURS_OVER_LIMIT = 4,    /* a count passes its limit: 256 rules, 16 items of each sort, 16 spans [its first bit] */
    HOURS_MANY_BOXES = 5,    /* the drained rules cut over 4,096 boxes [the number of boxes] */
    HOURS_LONG_LIST = 6,     /* some point's list passes 32 entries after a drained rule [that rule's index] */
    HOURS_NO_ROOM = 7,       /* `out` is shorter than the result [bytes needed] */
    HOURS_NO_DATE = 8,       /* lookup only: no such date or minute [0] */
    HOURS_UNSETTLED = 9,     /* lookup only: a rule is left, or the point's list holds a span that isn't simple [0] */
    HOURS_NO_LINE = 10,      /* line only: a rule holds what no line says [the first such rule's index] */
    HOURS_OVERLAP = 11,      /* fold and lookup only: two ranges of one day selector of a drained rule share a value, so that a day is
                                named twice; ranges that only touch are fine [the first such rule's index] */
    HOURS_LONG_COMMENT = 12, /* convert from form 2 only: a comment is above 65,535 [the first such rule's index] */
    HOURS_PAST_COUNTS = 13,  /* fold of form 1 only: the result has more rules or items than form 1 can count, 65,535 rules, those left
                                among them, or 1,023 items of a sort in a rule [0] */
    HOURS_MANY_LISTS = 14    /* fold and lookup only: after a drained rule more than 512 lists that aren't empty stand at the points, each
                                counted once; lists differ by the indexes of their rules [that rule's index] */
};

/* Bytes of stack: more than twice what the deepest call of the bench took (oracle/README.md). That a stack is deep enough is not
 * proved. */
enum { HOURS_STACK = 3000000 };

/* What a moment is. */
enum hours_kind {
    HOURS_OPEN = 0,
    HOURS_CLOSED = 1,
    HOURS_UNKNOWN = 2
};

/* Why a fold stopped: of the first rule left, the first reason that applies in this order. */
enum hours_why {
    HOURS_WHY_NOTHING = 0,        /* no rule is left, or the fold is refused */
    HOURS_WHY_FALLBACK = 1,       /* the operator is Fallback */
    HOURS_WHY_TIME = 2,           /* a span may reach tomorrow */
    HOURS_WHY_YEAR_STEP = 3,      /* a step of years other than 1 */
    HOURS_WHY_MONTHDAY = 4,       /* a month range of a year, or a reference to a dated range */
    HOURS_WHY_WEEK_STEP = 5,      /* a step of weeks other than 1 */
    HOURS_WHY_HOLIDAY = 6,        /* a holiday, with an offset or without */
    HOURS_WHY_WEEKDAY_OFFSET = 7, /* a weekday offset other than 0 */
    HOURS_WHY_NTH = 8             /* an unset nth bit of a weekday */
};

/* The numbers of a fold, and how many they are. */
enum hours_fold_number {
    HOURS_FOLD_CODE,    /* an hours_code: 0 to 7, 11, 13 or 14 */
    HOURS_FOLD_DRAINED, /* rules before the first one that can't be folded exactly */
    HOURS_FOLD_EMITTED, /* rules that these were folded to */
    HOURS_FOLD_LEFT,    /* rules copied as they came, from the first one that can't be folded on */
    HOURS_FOLD_BYTES,   /* bytes written */
    HOURS_FOLD_PLACE,   /* the code's place */
    HOURS_FOLD_WHY,     /* an hours_why */
    HOURS_FOLD_NUMBERS
};

/* The numbers of a lookup, and how many they are. */
enum hours_lookup_number {
    HOURS_LOOKUP_CODE,    /* an hours_code: 0 to 6, 8, 9, 11 or 14 */
    HOURS_LOOKUP_KIND,    /* an hours_kind */
    HOURS_LOOKUP_COMMENT, /* the comment's number, 0 for none */
    HOURS_LOOKUP_PLACE,   /* the code's place */
    HOURS_LOOKUP_NUMBERS
};

/* The numbers of a write-back, and how many they are. */
enum hours_write_back_number {
    HOURS_WRITE_BACK_CODE,  /* an hours_code: 0 to 4 or 7 */
    HOURS_WRITE_BACK_BYTES, /* bytes written */
    HOURS_WRITE_BACK_PLACE, /* the code's place */
    HOURS_WRITE_BACK_NUMBERS
};

/* The numbers of a line, and how many they are. */
enum hours_line_number {
    HOURS_LINE_CODE,  /* an hours_code: 0 to 4, 7 or 10 */
    HOURS_LINE_BYTES, /* bytes written */
    HOURS_LINE_PLACE, /* the code's place */
    HOURS_LINE_NUMBERS
};

/* The numbers of a conversion, and how many they are. */
enum hours_convert_number {
    HOURS_CONVERT_CODE,  /* an hours_code: 0 to 4, 7 or 12 */
    HOURS_CONVERT_BYTES, /* bytes written */
    HOURS_CONVERT_PLACE, /* the code's place */
    HOURS_CONVERT_NUMBERS
};

/* Folds a sheet's rules up to the first one that can't be folded exactly, and copies the rules from there on.
 *
 * Answers the HOURS_FOLD_NUMBERS numbers of hours_fold_number. On HOURS_DONE the folded sheet stands at the front of `out`, in as many
 * bytes as HOURS_FOLD_BYTES says, and later bytes are unchanged. On any other code `out` is unchanged, and every number but code and
 * place is 0. The result may be longer than the sheet, and have more rules and items than a sheet may; with an `out` of 0 bytes,
 * HOURS_NO_ROOM tells the bytes needed. What HOURS_PAST_COUNTS refuses can be folded in form 2: move the sheet there by hours_convert. */
bool hours_fold(uint64_t form, const uint8_t *sheet, size_t sheet_length, uint8_t *out, size_t out_length, uint64_t *numbers,
                size_t numbers_length);

/* The same by a second, plain engine, which answers as hours_fold does in every case: the same numbers and the same bytes, on each refusal
 * too. It keeps a list for each box and looks at all boxes for each rule and for each group, so it is slower, the more so the more boxes
 * and groups there are, and takes more stack. It is for a bench that wants to read what it runs; others take hours_fold. */
bool hours_fold_plain(uint64_t form, const uint8_t *sheet, size_t sheet_length, uint8_t *out, size_t out_length, uint64_t *numbers,
                      size_t numbers_length);

/* The state at a minute (0 to 1439) of a Gregorian date (years 1900 to 9999, months and days from 1), by a sheet without a rule that
 * can't be folded exactly. A date's week is that of ISO 8601, its year that of the calendar: 1 January 2027 is in week 53 and in 2027.
 *
 * Answers the HOURS_LOOKUP_NUMBERS numbers of hours_lookup_number. On HOURS_DONE kind and comment are those of the last span that
 * covers the minute, HOURS_CLOSED and 0 where none does. On any other code both are 0. */
bool hours_lookup(uint64_t form, const uint8_t *sheet, size_t sheet_length, uint64_t year, uint64_t month, uint64_t day, uint64_t minute,
                  uint64_t *numbers, size_t numbers_length);

/* Reads a sheet and writes it again: an accepted sheet comes back byte for byte.
 *
 * Answers the HOURS_WRITE_BACK_NUMBERS numbers of hours_write_back_number. On HOURS_DONE the sheet stands at the front of `out`, and
 * later bytes are unchanged. On any other code `out` is unchanged, and the bytes written are 0. */
bool hours_write_back(uint64_t form, const uint8_t *sheet, size_t sheet_length, uint8_t *out, size_t out_length, uint64_t *numbers,
                      size_t numbers_length);

/* Writes a sheet as one line of text, in the notation of the public OpenStreetMap opening_hours specification. The sheet itself is
 * written and not its fold: to show a fold, fold the sheet first; one that has more rules, items or spans than a sheet may is refused by
 * HOURS_OVER_LIMIT. No rules give an empty line.
 *
 * The line is for people to read. A program that reads that notation takes a few lines for others without saying so, such as
 * `10:00-12:00, 13:00-14:00 unknown`; docs/DIFFERENCES.md says which ones, and what to write instead.
 *
 * HOURS_NO_LINE is given exactly when some rule, whether it can be folded or not, holds a month range of a year, a reference to a dated
 * range, a holiday, a weekday offset, an unset nth bit, a variable time or repeats, or has no spans, or when the first rule isn't Normal.
 *
 * Answers the HOURS_LINE_NUMBERS numbers of hours_line_number. On HOURS_DONE the text, in ASCII and without a zero byte or a newline at
 * its end, stands at the front of `out`, and later bytes are unchanged. On any other code `out` is unchanged, and the bytes written are
 * 0. With an `out` of 0 bytes, HOURS_NO_ROOM tells the bytes needed. */
bool hours_line(uint64_t form, const uint8_t *sheet, size_t sheet_length, uint8_t *out, size_t out_length, uint64_t *numbers,
                size_t numbers_length);

/* Moves a sheet to the other form: `form` is the sheet's. A sheet that is moved and moved back is the same byte for byte.
 *
 * HOURS_LONG_COMMENT is given exactly when the sheet is of form 2 and some rule, whether it can be folded or not, has a comment above
 * 65,535.
 *
 * Answers the HOURS_CONVERT_NUMBERS numbers of hours_convert_number. On HOURS_DONE the sheet stands in the other form at the front of
 * `out`, and later bytes are unchanged. On any other code `out` is unchanged, and the bytes written are 0. With an `out` of 0 bytes,
 * HOURS_NO_ROOM tells the bytes needed. */
bool hours_convert(uint64_t form, const uint8_t *sheet, size_t sheet_length, uint8_t *out, size_t out_length, uint64_t *numbers,
                   size_t numbers_length);

#ifdef __cplusplus
}
#endif

#endif
