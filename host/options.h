/* options.h: the arguments of the program. README.md describes them. */
#ifndef OPTIONS_H
#define OPTIONS_H

#include <stdbool.h>

#include "parties.h"
#include "places.h"
#include "source.h"
#include "status.h"

struct options {
    const char *design; /* path of the design */
    const char *trace;  /* path of the trace; NULL: there is none */
    bool feed;          /* readings come on standard input */
    struct source *sources; /* or each sender has a source of its own */
    size_t source_count;
    const char *records; /* a folder for the parties' files; NULL: standard output */
    bool help;          /* only say how the program is used */
    bool fast;          /* do not wait between cycles */
    bool whole;         /* to the last cycle that has a reading */
    bool limited;       /* `cycles` was given */
    uint64_t cycles;    /* how many to run */
    bool forever;       /* until a signal */
    uint64_t every;     /* a sample after each so many cycles; at least 1 */
    bool replay;        /* through caisson_replay, not by port writes and runs */
    bool console;       /* take commands afterwards */
    uint64_t journal;   /* keep a journal of so many cycles; 0: none */
    bool timed;         /* records have the time at which a cycle was due */
    const char *alive;  /* a file to touch while the cycles run; NULL: none */
    struct place *places; /* folders and groups of parties' own */
    size_t place_count;
    struct party *parties;
    size_t party_count; /* 0: one party for each label */
};

/* STATUS_INPUT, with a message, on wrong usage. In either case options_free is to be called. */
CAISSON_LOOK_AT_ANSWER
enum status options_read(struct options *options, int argc, char **argv);

void options_free(struct options *options);

/* How the program is used. */
extern const char options_usage[];

#endif
