#define _POSIX_C_SOURCE 200809L

#include "clock.h"

#include <errno.h>
#include <string.h>

#include "say.h"

#define SECOND 1000000000L /* nanoseconds */

static enum status broken(int error)
{
    say("the clock: %s\n", strerror(error));
    return STATUS_INPUT;
}

static struct timespec later(struct timespec time, long nanoseconds)
{
    time.tv_nsec += nanoseconds;
    if (time.tv_nsec >= SECOND) {
        time.tv_nsec -= SECOND;
        time.tv_sec++;
    }
    return time;
}

/* Nanoseconds from one time to another. */
static int64_t between(struct timespec from, struct timespec to)
{
    return (int64_t)(to.tv_sec - from.tv_sec) * SECOND + (to.tv_nsec - from.tv_nsec);
}

enum status cycle_clock_start(struct cycle_clock *clock)
{
    *clock = (struct cycle_clock){0};
    /* The monotonic clock: setting the time of day must not stop or hurry the cycles. */
    if (clock_gettime(CLOCK_MONOTONIC, &clock->due) != 0 || clock_gettime(CLOCK_REALTIME, &clock->first) != 0)
        return broken(errno);
    return STATUS_DONE;
}

enum status cycle_clock_wait(struct cycle_clock *clock)
{
    struct timespec now;
    int64_t late;
    int error;

    /* An absolute time: a signal that interrupts the wait does not lengthen it. */
    do
        error = clock_nanosleep(CLOCK_MONOTONIC, TIMER_ABSTIME, &clock->due, NULL);
    while (error == EINTR);
    if (error != 0)
        return broken(error);
    if (clock_gettime(CLOCK_MONOTONIC, &now) != 0)
        return broken(errno);
    late = between(clock->due, now);
    if (late > CLOCK_GRACE)
        lateness_add(&clock->late, late);
    clock->due = later(clock->due, CLOCK_PERIOD);
    return STATUS_DONE;
}
