/* shown.h: levels and states as the soak tells them: by name or, where there are no names, by number. */
#ifndef SHOWN_H
#define SHOWN_H

#include "names.h"

#define SHOWN_DIGITS 24u /* room for a number */

/* The digits are used where there is no name. */
const char *level_shown(const struct names *names, size_t level, char digits[SHOWN_DIGITS]);
const char *state_shown(const struct names *names, size_t state, char digits[SHOWN_DIGITS]);

/* The level that was asked for by its name or number. False, with a message, where the design has none such. */
CAISSON_LOOK_AT_ANSWER
bool level_find(const struct names *names, const char *text, size_t labels, size_t *level);

#endif
