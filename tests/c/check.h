/* CHECK(what) counts what holds; the first that does not is named, and ends the run. */
#ifndef CHECK_H
#define CHECK_H

#include <stdio.h>
#include <stdlib.h>

static unsigned long checks;

static void check(int holds, const char *what, const char *file, int line)
{
    checks++;
    if (!holds) {
        fprintf(stderr, "%s:%d: does not hold: %s\n", file, line, what);
        exit(1);
    }
}
#define CHECK(what) check((what) ? 1 : 0, #what, __FILE__, __LINE__)

#endif
