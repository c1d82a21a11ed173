/* Counts what a test expects, and tells what does not hold, with its file and line. */
#ifndef EXPECT_H
#define EXPECT_H

#include <stdbool.h>
#include <stdio.h>

static unsigned passed, failed;

#define EXPECT(holds) expect((holds), #holds, __FILE__, __LINE__)

static void expect(bool holds, const char *what, const char *file, int line)
{
    if (holds) {
        passed++;
    } else {
        failed++;
        printf("%s:%d: %s\n", file, line, what);
    }
}

#endif
