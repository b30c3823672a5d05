/*
 * feed.h: readings from one stream, a line REGISTER VALUE each, made before the cycle that comes next: standard input,
 * or a source that one sender has for its own.
 *
 * Nothing waits for a line. A line that is wrong is told to the notices and left out, and so is one for a port that is
 * not the sender's own. An end is told on standard error. README.md describes them.
 */
#ifndef FEED_H
#define FEED_H

#include <time.h>

#include "names.h"
#include "notices.h"
#include "parties.h"
#include "readings.h"
#include "source.h"

#define FEED_LONGEST_LINE 1000u /* bytes, the line feed not counted */
#define FEED_AT_ONCE 4096u      /* bytes taken before a cycle at most: a sender must not hold the cycles */

struct feed {
    struct readings source;
    char title[PARTY_LONGEST_NAME + sizeof "readings "]; /* of a sender's own source, for messages */
    const struct names *names;
    struct notices *notices;
    int file;
    bool common;  /* any port may be written, and a last line may lack its line feed */
    bool returns; /* a FIFO: another writer may come where one went */
    bool tells;   /* its end is told */
    bool own[CAISSON_REGISTERS]; /* the ports of a source that is not common */
    char bytes[FEED_AT_ONCE]; /* that were read, of which those from `at` on are not looked at yet */
    size_t at;
    size_t held;
    char line[FEED_LONGEST_LINE]; /* the line that is coming in */
    size_t length;
    bool too_long;   /* and the rest of it is left out */
    bool absent;     /* nobody writes to it now */
    bool ended;      /* there is no more input */
    bool broken;     /* since it could not be read */
    bool told;       /* that it is absent or ended */
    bool any;        /* such a thing was told before */
    struct timespec said; /* when */
    uint64_t lines;  /* that have come, whole or cut */
    uint64_t asked;  /* the cycle before which the input was read last */
    uint64_t latest; /* the cycle of the last reading */
};

/* Standard input, as the common stream. Its end is told where the cycles go on behind it. Names and notices must
   outlive it. */
void feed_start(struct feed *feed, const struct names *names, struct notices *notices, bool goes_on);

/* One that is a sender's own, without ports and not open yet. */
void feed_start_own(struct feed *feed, const struct source *source, const struct names *names,
                    struct notices *notices);

#endif
