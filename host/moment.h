/* moment.h: moments of the wall clock (UTC), as records have them. */
#ifndef MOMENT_H
#define MOMENT_H

#include <stdint.h>
#include <time.h>

#include "caisson.h"

#define MOMENT_ROOM 48u /* characters, with the NUL */

/* The present one to the second: 2026-11-17T12:00:00Z. */
void moment_now(char words[MOMENT_ROOM]);

/* When a cycle was due, to the millisecond, if cycle 1 was at `first` and each other one CLOCK_PERIOD behind the one
   before it: what a cycle waited for does not show. */
void moment_of_cycle(char words[MOMENT_ROOM], struct timespec first, uint64_t cycle);

#endif
