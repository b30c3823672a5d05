/*
 * pair.h: two boxes, with one design or the second with the design as a neighbour has edited it. Ports at or
 * below a level are written alike in both, the others each as chance has it, by port writes or by the records of
 * a trace that is replayed; the same cycles are journalled, and both go back by equal numbers at equal moments.
 * The registers at or below the level must stay the same, and of a design with parameters the states that the
 * level sees, with the registers bound to them.
 */
#ifndef PAIR_H
#define PAIR_H

#include <stdbool.h>

#include "box.h"
#include "design.h"
#include "names.h"

struct pair {
    struct box boxes[2];
    struct journal journals[2];
    const struct names *names; /* of the first */
    const uint8_t *image; /* of the first; the second has the same labels, registers and state records */
    size_t level;
    uint64_t random;
    uint32_t low_ports[CAISSON_REGISTERS];
    uint32_t high_ports[CAISSON_REGISTERS];
    size_t low_count;
    size_t high_count;
    size_t low_registers;  /* ports and inner ones */
    bool edited[CAISSON_STATES]; /* the states that have another body in the second */
    size_t edited_count;
    uint64_t cycles;       /* of each box */
    uint64_t samples;
    uint64_t writes;
    uint64_t journalled;   /* of the cycles */
    uint64_t replays;      /* in each box */
    uint64_t records;      /* of the traces of both */
    uint64_t steps_back;   /* how often both went back, by one cycle or more */
    uint64_t gone_back;    /* cycles */
    uint64_t high_differs; /* samples at which registers out of sight differ */
    uint64_t edited_turns; /* samples at which the targets of a box lead to an edited state */
};

/* Takes designs that caisson_check has accepted, with equal records as neighbour.h has it, which must outlive the
   pair. False, with a message, where a call is refused, here and below, or where there is no memory. In either
   case pair_end is to be called. */
CAISSON_LOOK_AT_ANSWER
bool pair_start(struct pair *pair, const struct design *const designs[2], const struct names *names, size_t level,
                uint64_t seed);

/* Whether all edited bodies are out of sight of the level; otherwise the lowest state whose body is not. */
bool pair_hides_edits(const struct pair *pair, size_t *state);

/*
 * Whether the comparison can fail: one box is given low writes and cycles that the other is not, until
 * a register in sight differs after a cycle. Both boxes are reset afterwards.
 */
CAISSON_LOOK_AT_ANSWER
bool pair_can_differ(struct pair *pair, bool *can);

/* Writes, then cycles, a replay or a step back, and a sample. False also where the boxes differ at the level. */
CAISSON_LOOK_AT_ANSWER
bool pair_round(struct pair *pair);

void pair_end(struct pair *pair);

#endif
