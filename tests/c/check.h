/* Counts what passed and failed; for a C test of one file. */
#ifndef CHECK_H
#define CHECK_H

#include <stdio.h>

static int passed;
static int failed;

static void check(int holds, const char *what) {
    if (holds) {
        passed++;
    } else {
        failed++;
        printf("failed: %s\n", what);
    }
}

/* The last line of a test, and what its main returns. */
static int finish(void) {
    printf("%d passed, %d failed\n", passed, failed);
    return failed != 0;
}

#endif
