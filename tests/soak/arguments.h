/* arguments.h: what the soak is asked for, and how it ends. */
#ifndef ARGUMENTS_H
#define ARGUMENTS_H

#include <stdbool.h>
#include <stdint.h>

#include "caisson.h"

enum ending {
    ENDING_EQUAL = 0,     /* equal at every level with a register in sight and a port or all edits out of it */
    ENDING_DIFFERENT = 1, /* the boxes differed, or the library refused a design or a call */
    ENDING_INPUT = 2,     /* wrong usage, an input that cannot be read, an output that cannot be written */
    ENDING_NOTHING = 3    /* no difference, but a level or an edit could not have shown one, or none was tried */
};

struct arguments {
    const char *design;
    const char *neighbour; /* of the second box; NULL where that has the same design */
    uint64_t seconds; /* for all levels together */
    uint64_t seed;
    const char *level; /* a label's name or number; NULL: each level in turn */
    bool help;
};

extern const char arguments_usage[];

/* False, with a message, where they are wrong. */
CAISSON_LOOK_AT_ANSWER
bool arguments_read(struct arguments *arguments, int argc, char **argv);

#endif
