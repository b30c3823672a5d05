/* status.h: how the program ends, and how its parts tell each other. */
#ifndef STATUS_H
#define STATUS_H

enum status {
    STATUS_DONE = 0,    /* everything asked for was done */
    STATUS_REFUSED = 1, /* the library refused the design or a call */
    STATUS_INPUT = 2    /* wrong usage, an input that cannot be read, or an output that cannot be written */
};

#endif
