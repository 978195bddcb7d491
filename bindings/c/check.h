/* What the tests in C share: conditions that are counted where they don't hold, and paint. */
#ifndef CHECK_H
#define CHECK_H

#include <stdbool.h>
#include <stddef.h>
#include <stdio.h>

/* What stands in a lent slice before a call, so that a write shows. */
enum { PAINT = 0xC3 };

static int failures = 0;

static void check(bool holds, const char *what)
{
    if (!holds) {
        printf("does not hold: %s\n", what);
        failures++;
    }
}

#define CHECK(condition) check(condition, #condition)

static bool painted(const void *memory, size_t length)
{
    const unsigned char *bytes = (const unsigned char *)memory;

    for (size_t i = 0; i < length; i++) {
        if (bytes[i] != PAINT) {
            return false;
        }
    }
    return true;
}

#endif
