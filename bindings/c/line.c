/* Folds document 01's P2, Mo-Fr 10:00-18:00 Open and then Tu 12:00-13:00 Closed, and prints the fold as one line of text. */
#include <inttypes.h>
#include <stdio.h>
#include <stdlib.h>

#include "hours.h"

int main(void)
{
    static const uint8_t sheet[] = {
        0x00, 0x02, 0x00, 0x00, 0x00, 0x00, 0x00, 0x00, 0x00, 0x10, 0x04, 0x20, 0x00, 0x07, 0xFE, 0x25, 0x82, 0x1C,
        0x02, 0x00, 0x00, 0x00, 0x00, 0x00, 0x00, 0x02, 0x00, 0x89, 0x00, 0x00, 0xFF, 0xC5, 0xA0, 0x30, 0xC0,
    };
    static uint8_t folded[65536];
    static uint8_t text[65536];
    uint64_t fold[HOURS_FOLD_NUMBERS];
    uint64_t line[HOURS_LINE_NUMBERS];

    if (!hours_fold(HOURS_FORM_1, sheet, sizeof sheet, folded, sizeof folded, fold, HOURS_FOLD_NUMBERS) ||
        !hours_line(HOURS_FORM_1, folded, fold[HOURS_FOLD_BYTES], text, sizeof text, line, HOURS_LINE_NUMBERS)) {
        fprintf(stderr, "too few numbers were lent\n");
        return EXIT_FAILURE;
    }
    if (fold[HOURS_FOLD_CODE] != HOURS_DONE || line[HOURS_LINE_CODE] != HOURS_DONE) {
        fprintf(stderr, "fold: code %" PRIu64 ", line: code %" PRIu64 "\n", fold[HOURS_FOLD_CODE], line[HOURS_LINE_CODE]);
        return EXIT_FAILURE;
    }

    printf("%.*s\n", (int)line[HOURS_LINE_BYTES], (const char *)text);
    return EXIT_SUCCESS;
}
