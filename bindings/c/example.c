/* Folds document 01's example, a sheet of one Normal Open rule 00:00-24:00, and prints what the program foldsheet prints for it. */
#include <inttypes.h>
#include <stdio.h>
#include <stdlib.h>

#include "hours.h"

static void print_hex(const uint8_t *bytes, uint64_t count)
{
    for (uint64_t i = 0; i < count; i++) {
        printf("%02X", bytes[i]);
    }
    printf("\n");
}

int main(void)
{
    static const uint8_t sheet[] = {0x00, 0x01, 0x00, 0x00, 0x00, 0x00, 0x00, 0x00, 0x00, 0x00, 0x04, 0x00, 0x05, 0xA0, 0x00};
    static uint8_t out[65536];
    uint64_t numbers[HOURS_FOLD_NUMBERS];

    if (!hours_fold(HOURS_FORM_1, sheet, sizeof sheet, out, sizeof out, numbers, HOURS_FOLD_NUMBERS)) {
        fprintf(stderr, "too few numbers were lent\n");
        return EXIT_FAILURE;
    }

    printf("code %" PRIu64 " drained %" PRIu64 " emitted %" PRIu64 " left %" PRIu64 " bytes %" PRIu64 " place %" PRIu64
           " why %" PRIu64 "\n",
           numbers[HOURS_FOLD_CODE], numbers[HOURS_FOLD_DRAINED], numbers[HOURS_FOLD_EMITTED], numbers[HOURS_FOLD_LEFT],
           numbers[HOURS_FOLD_BYTES], numbers[HOURS_FOLD_PLACE], numbers[HOURS_FOLD_WHY]);

    if (numbers[HOURS_FOLD_CODE] == HOURS_DONE) {
        print_hex(out, numbers[HOURS_FOLD_BYTES]);
    } else {
        printf("-\n");
    }
    return EXIT_SUCCESS;
}
