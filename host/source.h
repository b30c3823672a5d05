/* source.h: a sender of readings, as the arguments name it. */
#ifndef SOURCE_H
#define SOURCE_H

#include <stdbool.h>
#include <stddef.h>

#include "caisson.h"

struct source {
    const char *name; /* not ended by a NUL */
    size_t name_length; /* from 1 to PARTY_LONGEST_NAME */
    const char *path;  /* NULL: none was given */
    const char *ports; /* PORT,PORT..; NULL: none were listed */
};

/* Reads NAME=VALUE; the source keeps a pointer into the text. What stands behind the sign, or NULL where that is
   nothing or the name is none. */
CAISSON_LOOK_AT_ANSWER
const char *source_read(struct source *source, const char *text);

/* The one of the same name among so many, or the place behind them. */
struct source *source_find(struct source *sources, size_t count, const struct source *source);

#endif
