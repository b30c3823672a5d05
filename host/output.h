/*
 * output.h: standard output.
 *
 * What is added is written once there is much of it, or when it is asked for. It is waited for, in pieces: a slow
 * reader is waited for as long as it takes any, also where the program is to end.
 */
#ifndef OUTPUT_H
#define OUTPUT_H

#include <stddef.h>

#include "caisson.h"
#include "status.h"

/* STATUS_INPUT, with a message, where it cannot be written; so is the next. */
CAISSON_LOOK_AT_ANSWER
enum status output_add(const char *characters, size_t length);

/* Hands all that was added so far to the system. */
CAISSON_LOOK_AT_ANSWER
enum status output_flush(void);

#endif
