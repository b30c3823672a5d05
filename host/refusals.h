/* refusals.h: refusals in words. */
#ifndef REFUSALS_H
#define REFUSALS_H

#include "box.h"
#include "names.h"

/*
 * Says the number, the place and what it is, the rule in one sentence, and a line feed. `box` is the one
 * whose areas were lent to a port write, a run or a replay, of any other call NULL. The number of a place in 14
 * does not tell a register from a state; the areas do. Of a label, register or state the name follows its number,
 * where there are names; `names` may be NULL.
 */
void refusal_say(caisson_answer answer, const struct box *box, const struct names *names);

/* The same of a replay, whose 13 and 17 are at a record of the trace and not at a register. */
void replay_refusal_say(caisson_answer answer, const struct box *box, const struct names *names);

#endif
