/* console.h: a site by hand, for commissioning. README.md has the commands. */
#ifndef CONSOLE_H
#define CONSOLE_H

#include "cycles.h"
#include "status.h"

/*
 * Takes commands from standard input, a line each, until `quit` or its end. The site must have a journal. A
 * command that is wrong or refused is answered by a message and changes nothing; the next one is taken all the
 * same. STATUS_INPUT, with a message, where the input cannot be read or the output cannot be written.
 */
CAISSON_LOOK_AT_ANSWER
enum status console_run(struct site *site);

#endif
