/*
 * neighbour.h: two designs, of which the second is the first as a neighbour has edited it. A level for which
 * request E14's premise holds must see equal runs: labels, registers and state records apart from command
 * numbers are equal, and so are all bodies, apart from node numbers, but those of states whose fixed label is
 * not at or below the level. Only for images that caisson_check has accepted.
 */
#ifndef NEIGHBOUR_H
#define NEIGHBOUR_H

#include <stdbool.h>
#include <stddef.h>
#include <stdint.h>

/* What records are unlike, in words for a message; NULL where none are. */
const char *neighbour_unlike_records(const uint8_t *image, const uint8_t *other);

/* Below, designs with equal records. */

/* Whether a state has the same commands in both, whatever numbers their nodes have. */
bool neighbour_same_body(const uint8_t *image, const uint8_t *other, size_t state);

/* Whether another body of the state is in sight of the level. So it is where the label is a parameter's, which is
   not fixed. */
bool neighbour_shows_edit(const uint8_t *image, size_t level, size_t state);

#endif
