/*
 * names.h: the names of a design's labels, registers and states, from the file beside its table.
 *
 * `caisson assemble` writes TABLE.names. Where there is none, everything is shown by its number. The library never
 * sees a name.
 */
#ifndef NAMES_H
#define NAMES_H

#include <stdbool.h>

#include "caisson.h"
#include "design.h"
#include "status.h"

#define NAMES_LARGEST_FILE 1048576u /* bytes, as docs/FORMAT.md has it */

struct names {
    char *text; /* of the file, which the names below lie in; NULL: there are no names */
    const char *labels[CAISSON_LABELS];
    const char *registers[CAISSON_REGISTERS];
    const char *states[CAISSON_STATES];
    const char *parameters[CAISSON_STATES][CAISSON_PARAMETERS];
};

/*
 * Reads the file beside a table, if there is one. The design must have been accepted, or refused by another rule
 * than 1: its directory is then sound. STATUS_INPUT, with a message that names file and line, where the file cannot
 * be read, is none of names, is not of this table, or was changed. In either case names_free is to be called.
 */
CAISSON_LOOK_AT_ANSWER
enum status names_load(struct names *names, const char *table, const struct design *design);

void names_free(struct names *names);

/* The name of each, or NULL where there are no names; `names` itself may be NULL. */
const char *name_of_label(const struct names *names, size_t label);
const char *name_of_register(const struct names *names, size_t reg);
const char *name_of_state(const struct names *names, size_t state);

/* The number of a name of so many characters; false where it is none of the design's. */
CAISSON_LOOK_AT_ANSWER
bool label_named(const struct names *names, const char *name, size_t length, size_t *label);
CAISSON_LOOK_AT_ANSWER
bool register_named(const struct names *names, const char *name, size_t length, size_t *reg);

/* Whether so many characters are a NAME of the text form: a letter or _, then letters, digits and _. */
bool is_name(const char *characters, size_t length);

#endif
