/* lateness.h: how late cycles were. */
#ifndef LATENESS_H
#define LATENESS_H

#include <stdbool.h>
#include <stdint.h>

#include "caisson.h"
#include "text.h"

#define LATENESS_KINDS 32u

struct lateness {
    uint64_t count;                 /* of late cycles */
    uint64_t kinds[LATENESS_KINDS]; /* those that were late by 1 to 2 ms, 2 to 4 ms and so on; the last has the rest */
    int64_t largest;                /* nanoseconds */
};

/* A cycle that was so many nanoseconds late, a millisecond at least. */
void lateness_add(struct lateness *lateness, int64_t nanoseconds);

/* All kinds that there were, as `1 to 2 ms: 3, 4 to 8 ms: 1; at most 5.250 ms`. False where there is no memory. */
CAISSON_LOOK_AT_ANSWER
bool lateness_words(const struct lateness *lateness, struct text *words);

#endif
