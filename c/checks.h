/* Checks that are counted, and reported where they fail. */
#include <stdio.h>

static int checks, faults;

static void check(int holds, const char *what, const char *of) {
    checks++;
    if (!holds) {
        faults++;
        fprintf(stderr, "FAIL %s: %s\n", what, of);
    }
}
