/* Moves document 01's example, a sheet of form 1 with one Normal Open rule 00:00-24:00, to form 2 and back, and prints both in hex. */
#include <inttypes.h>
#include <stdio.h>
#include <stdlib.h>

#include "hours.h"

/* Prints the sheet in the other form, and leaves it in `out`; its bytes, or 0 where it is refused, which no sheet takes. */
static uint64_t move(uint64_t form, const uint8_t *sheet, size_t length, uint8_t *out, size_t room)
{
    uint64_t numbers[HOURS_CONVERT_NUMBERS];

    if (!hours_convert(form, sheet, length, out, room, numbers, HOURS_CONVERT_NUMBERS)) {
        fprintf(stderr, "too few numbers were lent\n");
        return 0;
    }
    if (numbers[HOURS_CONVERT_CODE] != HOURS_DONE) {
        fprintf(stderr, "convert: code %" PRIu64 ", place %" PRIu64 "\n", numbers[HOURS_CONVERT_CODE], numbers[HOURS_CONVERT_PLACE]);
        return 0;
    }

    for (uint64_t i = 0; i < numbers[HOURS_CONVERT_BYTES]; i++) {
        printf("%02X", out[i]);
    }
    printf("\n");
    return numbers[HOURS_CONVERT_BYTES];
}

int main(void)
{
    static const uint8_t sheet[] = {0x00, 0x01, 0x00, 0x00, 0x00, 0x00, 0x00, 0x00, 0x00, 0x00, 0x04, 0x00, 0x05, 0xA0, 0x00};
    uint8_t moved[32];
    uint8_t back[32];
    const uint64_t bytes = move(HOURS_FORM_1, sheet, sizeof sheet, moved, sizeof moved);

    return bytes > 0 && move(HOURS_FORM_2, moved, bytes, back, sizeof back) > 0 ? EXIT_SUCCESS : EXIT_FAILURE;
}
