/* signals.h: what signals ask of the cycles, and how long the program may take to end. README.md has the table. */
#ifndef SIGNALS_H
#define SIGNALS_H

#include <stdbool.h>

#include "status.h"

/* A pipe without a reader or a file that may not grow is an error of a write from now on, and ends nothing. */
void signals_start_writes(void);

/* From now on SIGTERM and SIGINT ask the cycles to end; a second one ends the program, and so do five seconds in which
   it could not, since a reader of its output has stopped. */
void signals_start(void);

/* With files for the records: SIGHUP asks to open them anew. */
void signals_start_files(void);

/* As before, for what is not a matter of cycles. */
void signals_end(void);

bool signals_stop(void);

/* Whether a SIGHUP has come since it was asked last. */
bool signals_reopen(void);

/* The cycles are over: five seconds in which nothing is written end the program from now on, with this status. */
void signals_end_within(enum status status);

/* Something was written: five seconds more, where they count. */
void signals_progress(void);

#endif
