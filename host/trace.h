/*
 * trace.h: port writes to be made, from a text file. README.md describes the file.
 *
 * Whether a register is a port, and a value within its width, is not judged here: the library does
 * that.
 */
#ifndef TRACE_H
#define TRACE_H

#include "caisson.h"
#include "names.h"
#include "readings.h"
#include "status.h"

#define TRACE_LONGEST_LINE 1000u /* bytes, the line feed not counted */

struct trace {
    struct readings source;   /* the trace as any source of readings */
    struct reading *readings; /* no later one has a lower cycle */
    size_t count;
    size_t room; /* how many readings fit before more is allocated */
};

/* One without readings. */
void trace_start(struct trace *trace, const char *path);

/*
 * Reads a whole file into one without readings. STATUS_INPUT, with a message that names file and line, where it
 * cannot be read or a line is wrong. In either case trace_free is to be called.
 */
CAISSON_LOOK_AT_ANSWER
enum status trace_read(struct trace *trace, const struct names *names);

void trace_free(struct trace *trace);

#endif
