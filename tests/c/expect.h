/* For the tests in C: what a call must answer, and what must stand in an area. */
#ifndef EXPECT_H
#define EXPECT_H

#include <stdio.h>
#include <string.h>

#include "caisson.h"

static int failures;
static int answers;

static void expect(const char *what, caisson_answer got, uint32_t number, size_t place, size_t count)
{
    answers++;
    if (got.number == number && got.place == place && got.count == count)
        return;
    fprintf(stderr, "%s: number %u place %zu count %zu, expected number %u place %zu count %zu\n", what,
            (unsigned)got.number, got.place, got.count, (unsigned)number, place, count);
    failures++;
}

static void expect_bytes(const char *what, const uint8_t *got, const uint8_t *expected, size_t length)
{
    if (memcmp(got, expected, length) == 0)
        return;
    fprintf(stderr, "%s: other bytes than expected\n", what);
    failures++;
}

/* Says how many answers were as expected, and gives the status of the whole test. */
static int report(const char *what)
{
    if (failures == 0)
        printf("%s: %d answers as expected\n", what, answers);
    return failures != 0;
}

#endif
