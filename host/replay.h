/* replay.h: a trace through caisson_replay, in the place of port writes and runs. */
#ifndef REPLAY_H
#define REPLAY_H

#include "cycles.h"
#include "status.h"

/*
 * The cycles and samples of the site's whole trace; the records are those of cycles_run. Everything is first
 * done on a copy of the box, so that a refusal comes before the first sample: STATUS_REFUSED, with a message
 * that names file and line where it is of a reading. Says at the end what was done, with the readings
 * superseded.
 */
CAISSON_LOOK_AT_ANSWER
enum status replay_run(struct site *site);

#endif
