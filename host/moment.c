#define _POSIX_C_SOURCE 200809L

#include "moment.h"

#include <stdio.h>
#include <string.h>

#include "clock.h"

#define SECOND 1000000000L /* nanoseconds */
#define CYCLES_A_SECOND ((uint64_t)(SECOND / CLOCK_PERIOD))
#define FRACTION 6u /* characters behind the second: .060Z and the NUL */

/* Without what stands behind the second. Empty where the system has no such moment. */
static void second_write(char words[MOMENT_ROOM], time_t seconds)
{
    struct tm parts;

    if (gmtime_r(&seconds, &parts) == NULL || strftime(words, MOMENT_ROOM - FRACTION, "%Y-%m-%dT%H:%M:%S", &parts) == 0)
        words[0] = '\0';
}

void moment_now(char words[MOMENT_ROOM])
{
    second_write(words, time(NULL));
    (void)strcat(words, "Z");
}

void moment_of_cycle(char words[MOMENT_ROOM], struct timespec first, uint64_t cycle)
{
    long nanoseconds = first.tv_nsec + (long)((cycle - 1) % CYCLES_A_SECOND) * CLOCK_PERIOD;
    size_t length;

    second_write(words, first.tv_sec + (time_t)((cycle - 1) / CYCLES_A_SECOND) + nanoseconds / SECOND);
    length = strlen(words);
    (void)snprintf(words + length, MOMENT_ROOM - length, ".%03ldZ", nanoseconds % SECOND / 1000000L);
}
