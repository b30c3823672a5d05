/*
 * readings.h: where readings come from. This is what a host with drivers of its own implements; trace.c does it for
 * a file, feed.c for lines that come on standard input or from one sender, sources.c for several senders.
 *
 * An implementation has struct readings as its first member and fills it in. Its functions are called between two
 * cycles, so none of them may wait.
 */
#ifndef READINGS_H
#define READINGS_H

#include <stdbool.h>
#include <stddef.h>
#include <stdint.h>

struct reading {
    uint64_t cycle; /* written before this cycle; from 1 */
    uint32_t reg;
    uint32_t value; /* of a reading below zero its two's complement */
    uint64_t line;  /* where it stands in its source; from 1 */
};

struct readings {
    const char *name; /* for messages: of the source or, of several, of that which the last reading came from */
    bool judged;      /* all of them were judged before the first cycle: one that is refused ends the cycles */
    uint64_t made;    /* how many were taken, without those gone back over */

    /* Takes the next one that is to be made before this cycle; false where there is none, or none yet. */
    bool (*take)(struct readings *readings, uint64_t cycle, struct reading *reading);

    /* The first cycle that may have another one, if the next to be run is this; UINT64_MAX where none will. */
    uint64_t (*next)(const struct readings *readings, uint64_t cycle);

    /* The cycle of the last one; 0 where there is none, UINT64_MAX while more may come. */
    uint64_t (*last)(const struct readings *readings);

    /* How many are known that were not taken. */
    uint64_t (*left)(const struct readings *readings);

    /* Takes back those of cycles behind this one; NULL where that cannot be done. */
    void (*back)(struct readings *readings, uint64_t cycle);
};

#endif
