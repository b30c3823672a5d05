/* records.h: where the samples go: to standard output, or to a file for each party. */
#ifndef RECORDS_H
#define RECORDS_H

#include <time.h>

#include "box.h"
#include "design.h"
#include "names.h"
#include "options.h"
#include "status.h"
#include "text.h"
#include "writer.h"

struct records {
    const struct party *parties;
    size_t count;
    const struct names *names;
    struct text line;
    struct sink *sinks;     /* one for each party; NULL: standard output */
    struct writer *writers; /* of the sinks, one for each */
    bool paced;             /* a line that does not fit is dropped at once; else it is waited for, a second */
    bool timed;             /* lines have the time at which their cycle was due */
    struct timespec first;  /* when cycle 1 was due, on the wall clock */
};

/*
 * With files, where the options name a folder: all of them are open behind this, each with its first line.
 * STATUS_INPUT, with a message, where one cannot be opened. In either case records_close is to be called. What is
 * handed over must outlive the records.
 */
CAISSON_LOOK_AT_ANSWER
enum status records_open(struct records *records, const struct options *options, const struct names *names,
                         const struct design *design);

/* A line for each party. STATUS_INPUT, with a message, where standard output cannot be written; a file that cannot
   be written ends nothing. */
CAISSON_LOOK_AT_ANSWER
enum status records_sample(struct records *records, const struct box *box, uint64_t cycle);

/* Hands the samples on: without files, to the system. */
CAISSON_LOOK_AT_ANSWER
enum status records_flush(struct records *records);

/* Opens the files anew, if there are any, before this cycle. */
void records_reopen(struct records *records, uint64_t cycle);

/* Between two cycles, the next of which is given: what is due of the files, and says which could not be opened anew. */
void records_pass(struct records *records, uint64_t cycle);

/* How many lines were lost so far, and of the first file that does not take its lines now, path and error. */
uint64_t records_lost(const struct records *records);
const char *records_failing(const struct records *records, int *error);

/* Writes what is left, for a second at most or, if it is not hurried, for as long as a file takes something each
   second; and says for each file how many lines it has and how many were lost. Answers how many in all. */
uint64_t records_close(struct records *records, bool hurried);

#endif
