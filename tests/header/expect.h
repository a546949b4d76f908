/* What the tries of include/rushhopper.h share: expectations, and whether a call has touched an output. */
#ifndef EXPECT_H
#define EXPECT_H

#include <stddef.h>
#include <stdint.h>
#include <stdio.h>

/* Writes an expectation that fails; `failed` is then what the program ends with. */
#define EXPECT(what) expect((what), #what, __LINE__)

/* What an output is filled with first, to see what a call has touched. */
enum { UNTOUCHED = 165 };

static int failed;

static void expect(int holds, const char *what, int line)
{
    if (!holds) {
        printf("line %d: %s\n", line, what);
        failed = 1;
    }
}

static int is_untouched(const void *output, size_t length)
{
    const uint8_t *const bytes = (const uint8_t *)output;
    size_t i;

    for (i = 0; i < length; i++)
        if (bytes[i] != UNTOUCHED)
            return 0;
    return 1;
}

#endif
