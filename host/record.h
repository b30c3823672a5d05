/* record.h: a line of a party's flow record; and what a console writes beside it, on standard output. */
#ifndef RECORD_H
#define RECORD_H

#include "box.h"
#include "names.h"
#include "parties.h"
#include "status.h"
#include "text.h"

/*
 * Adds the line of a party after a cycle, with the registers at or below its level and no other, and of a design
 * with parameters the states that it may have seen run, with the registers bound to them. By name where there are
 * names, and with the time of the cycle unless that is empty. False where there is no memory.
 */
CAISSON_LOOK_AT_ANSWER
bool record_add(struct text *text, const struct box *box, const struct names *names, uint64_t cycle,
                const char *when, const struct party *party);

/* Writes beside the records, for a console. STATUS_INPUT, with a message, where it cannot be written. */
#if defined(__GNUC__) || defined(__clang__)
__attribute__((format(printf, 1, 2)))
#endif
CAISSON_LOOK_AT_ANSWER
enum status record_line(const char *format, ...);

/* Hands all that was written so far to the system; STATUS_INPUT, with a message, where that fails. */
CAISSON_LOOK_AT_ANSWER
enum status record_flush(void);

#endif
