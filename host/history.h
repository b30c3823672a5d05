/* history.h: the commands that a console was given, numbered from 1. */
#ifndef HISTORY_H
#define HISTORY_H

#include "caisson.h"
#include "status.h"

#define HISTORY_LINES 100u        /* how many are kept: the last */
#define HISTORY_LONGEST_LINE 200u /* characters */

struct history {
    char lines[HISTORY_LINES][HISTORY_LONGEST_LINE + 1u];
    uint64_t count; /* of all commands so far */
};

/* Adds a line of at most HISTORY_LONGEST_LINE characters. */
void history_add(struct history *history, const char *line);

/* The command of a number, or NULL where there is none, or none any more. */
const char *history_line(const struct history *history, uint64_t number);

/* Writes all that are kept, with their numbers; STATUS_INPUT, with a message, where that fails. */
CAISSON_LOOK_AT_ANSWER
enum status history_write(const struct history *history);

#endif
