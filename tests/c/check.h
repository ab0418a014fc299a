/*
 * Counting checks, for the C and C++ programs of this folder.
 */
#ifndef CHECK_H
#define CHECK_H

#include <stdbool.h>
#include <stdio.h>

static unsigned passed;
static unsigned failed;

/* Counts a check, and tells its name if it failed. */
static void check(bool holds, const char *name)
{
    if (holds) {
        passed++;
    } else {
        failed++;
        printf("FAILED: %s\n", name);
    }
}

/* Prints 'N passed, M failed'; the exit status. */
static int conclude(void)
{
    printf("%u passed, %u failed\n", passed, failed);
    return failed == 0 ? 0 : 1;
}

#endif
