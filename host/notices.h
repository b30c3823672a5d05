/*
 * notices.h: what is told on standard error while the cycles run.
 *
 * A box that runs for years must not fill a log: with --forever there is at most a line a minute, with counts since
 * the start. Else a line of the input that is wrong is told at once, and the rest at the end.
 */
#ifndef NOTICES_H
#define NOTICES_H

#include <stdbool.h>
#include <stdint.h>
#include <time.h>

#include "lateness.h"
#include "records.h"

#define NOTICES_SECONDS 60 /* from one line to the next, at least */

struct notices {
    bool rare;
    bool paced; /* no cycle waits for standard error */
    bool any; /* one was said */
    struct timespec said;
    uint64_t late; /* what was told of each */
    uint64_t lost;
    uint64_t bad_told;
    uint64_t bad; /* lines of the input left out */
    char words[200]; /* on the last of them */
};

/* A line of a source of readings that was left out. */
void notices_bad_line(struct notices *notices, const char *source, uint64_t line, const char *words);

/* Between two cycles: tells what is new, if it is time. */
void notices_tell(struct notices *notices, uint64_t cycle, const struct lateness *late, const struct records *records);

#endif
