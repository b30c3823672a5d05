/*
 * journal.h: the areas as they were before each of the last cycles, to go back to.
 *
 * The library never writes over a full journal. So a host that keeps the last cycles has two, which take turns:
 * once the present one is full, the earlier one is begun anew and is the present one from then on. A journal is
 * begun by setting its count to 0. No other byte of one is written here: box.c lends them to the library's
 * calls, which do.
 */
#ifndef JOURNAL_H
#define JOURNAL_H

#include "caisson.h"
#include "status.h"

struct journal {
    uint8_t *present; /* what the next cycle is saved in */
    uint8_t *earlier; /* the cycles just before those of the present one, or none */
    size_t length;    /* bytes of each */
    uint32_t cycles;  /* that each has room for */
};

/* Two empty ones, for areas of so many bytes together. STATUS_INPUT, with a message, where there is no memory.
   In either case journal_free is to be called. */
CAISSON_LOOK_AT_ANSWER
enum status journal_start(struct journal *journal, uint32_t cycles, size_t saved_length);

void journal_free(struct journal *journal);

/* How many cycles the present one counts. */
uint32_t journal_count(const struct journal *journal);

/* How many cycles there are to go back. */
uint64_t journal_reach(const struct journal *journal);

/* How many cycles the present one has room for. */
uint32_t journal_room(const struct journal *journal);

/* Forgets the cycles of the earlier one and begins it anew as the present one, for the cycles to come. */
void journal_turn(struct journal *journal);

/* Forgets the cycles of the present one, and the earlier one is the present one again. */
void journal_return(struct journal *journal);

#endif
