/*
 * clock.h: when cycles start.
 *
 * The times are fixed at the start, CLOCK_PERIOD apart. Waiting for one never moves the next, so
 * that neither the work of a cycle nor a late one makes the clock drift.
 */
#ifndef CLOCK_H
#define CLOCK_H

#include <stdint.h>
#include <time.h>

#include "caisson.h"
#include "lateness.h"
#include "status.h"

#define CLOCK_PERIOD 10000000L /* nanoseconds from one cycle to the next: 100 cycles a second */
#define CLOCK_GRACE 1000000L   /* a cycle that starts more than so many nanoseconds after its time is late */

struct cycle_clock {
    struct timespec due; /* when the next cycle starts */
    struct timespec first; /* when the first one did, on the wall clock */
    struct lateness late;  /* of those that started late */
};

/* The first cycle is due at once. STATUS_INPUT, with a message, where the system has no such clock. */
CAISSON_LOOK_AT_ANSWER
enum status cycle_clock_start(struct cycle_clock *clock);

/* Waits until the next cycle is due, or not at all where that has passed. */
CAISSON_LOOK_AT_ANSWER
enum status cycle_clock_wait(struct cycle_clock *clock);

#endif
