/*
 * sink.h: the file of one party's record, with a memory between the cycles and the file.
 *
 * The cycles put whole lines into the memory and never wait. The sink's own writer takes them out and writes them, as
 * far as the file takes them. The two share nothing but `head` and `tail`, so that no lock is needed: either one is
 * changed by one side alone. What a file does not take stays in the memory; once that is full, lines are dropped
 * whole, and the first one that fits again stands behind a line with the cycles that were lost.
 *
 * Sinks share nothing with each other.
 */
#ifndef SINK_H
#define SINK_H

#include <stdatomic.h>
#include <stdbool.h>
#include <stdint.h>
#include <sys/types.h>

#include "caisson.h"
#include "status.h"
#include "text.h"

#define SINK_MEMORY 262144u /* bytes for each party; more than any line of a record has */
#define SINK_REASONS 4u     /* that are kept of why lines were lost */

struct sink {
    struct text path;
    const gid_t *group; /* that the file is to have; NULL: any */
    struct text first;  /* the first line of a file, without the line feed */
    int file;           /* -1: not open */
    char *memory;
    /* Bytes put in and taken out since the start. */
    atomic_size_t head; /* changed by the cycles */
    atomic_size_t tail; /* changed by the writer: always behind a whole line */
    atomic_size_t taken; /* by files, parts of lines and lines written again too; changed by the writer */
    /* How often the file was to be opened anew, and was, or could not be. While the two are equal, the next two
       are the cycles', else the writer's. */
    atomic_uint asked;  /* changed by the cycles */
    atomic_uint opened; /* changed by the writer */
    size_t mark;        /* where the new file begins */
    uint64_t cycle;     /* that comes there */
    atomic_int refusal; /* why the file could not be opened anew, until the cycles have told it; 0: it could */
    /* The writer's alone. */
    size_t sent;     /* of the line at the tail, if the file has taken only a part */
    atomic_int last; /* the error of the last write, 0 where it went well */
    /* The cycles' alone, and the writer's once there are no more. */
    uint64_t lines;     /* put in */
    uint64_t lost;      /* dropped */
    uint64_t gap_first; /* the cycle of the first line dropped since one was put in; 0: none was */
    uint64_t gap_last;
    int reasons[SINK_REASONS]; /* errors that lines were dropped with, in the order in which they came */
    size_t reason_count;
    bool due;     /* the file is to be opened anew, once it was for the time before */
    bool stalled; /* the file has taken nothing for so long that it is not waited for, where it ever is */
};

/* Opens the file. Path and group are the caller's to fill in, in a sink that is else all zero but for the file, -1.
   STATUS_INPUT, with a message, where that fails. sink_close is to be called in either case. */
CAISSON_LOOK_AT_ANSWER
enum status sink_open(struct sink *sink);

/* Writes the first line, which the caller has filled in. STATUS_INPUT, with a message, where that fails. */
CAISSON_LOOK_AT_ANSWER
enum status sink_begin(struct sink *sink);

/* Puts in the line of a cycle; false where it is dropped. `woken` is set where the writer may be asleep. */
bool sink_put(struct sink *sink, const struct text *line, uint64_t cycle, bool *woken);

/* Whether there is room for a line of so many bytes, and for the line of a gap before it. */
bool sink_has_room(const struct sink *sink, size_t length);

/* Puts in the line of a gap, where there is one and room for it, and no other line follows. */
void sink_end_gap(struct sink *sink);

/* Asks to open the file anew, with this cycle as the first in it, unless that was asked and not done yet; false
   then. */
bool sink_ask(struct sink *sink, uint64_t cycle);

/*
 * Writes what the file takes of the bytes put in so far, without waiting for it; whether that was anything. For the
 * writer. Where it was asked, the file is opened anew under its path: what is before the mark is written to the old
 * one, if that takes it, and the first line names the cycle that follows it. Where that fails the old one stays.
 */
bool sink_write(struct sink *sink);

/* Whether the writer has nothing to do. */
bool sink_is_idle(const struct sink *sink);

bool sink_is_empty(const struct sink *sink);

/* An error of a write in words. */
const char *sink_error(int error);

/* Why lines were lost, in words. False where there is no memory. */
CAISSON_LOOK_AT_ANSWER
bool sink_reasons(const struct sink *sink, struct text *words);

/* How many lines are still in the memory. When the writer has ended. */
uint64_t sink_unwritten(const struct sink *sink);

void sink_close(struct sink *sink);

#endif
