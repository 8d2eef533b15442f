/* How the examples speak: each answer is printed, and where it is not what is due, that too. */
#ifndef SAY_H
#define SAY_H

#include <inttypes.h>
#include <stdint.h>
#include <stdio.h>

/* The exit status: 0 as long as every answer was right. */
static int wrong;

static void say(const char *what, int64_t is, int64_t due)
{
    printf("%s: %" PRId64 "\n", what, is);
    if (is != due) {
        printf("  should be %" PRId64 "\n", due);
        wrong = 1;
    }
}

#endif
