/* What the tests share: checks that count and say where they failed, and random numbers from a seed. */
#ifndef COMMON_H
#define COMMON_H

#include <stdint.h>
#include <stdio.h>
#include <string.h>

static unsigned long checks, failures;

/* Two numbers that have to be the same. */
#define SAME(got, expected) same(__FILE__, __LINE__, #got, (got), (expected))

static inline void same(const char *file, int line, const char *what, unsigned long got, unsigned long expected)
{
    checks++;
    if (got == expected)
        return;
    failures++;
    printf("%s:%d: %s is %lu and not %lu\n", file, line, what, got, expected);
}

/* Two stretches of memory that have to be the same. */
#define SAME_BYTES(got, expected, count) SAME(memcmp((got), (expected), (count)) == 0, 1)

/* The last line of a test, and its exit status. */
static inline int verdict(const char *name)
{
    printf("%s: %lu checks, %lu failed\n", name, checks, failures);
    return failures != 0 || checks == 0;
}

#endif
