/* fields.h: the fields of a line that has a reading, with blanks between them. */
#ifndef FIELDS_H
#define FIELDS_H

#include <stdbool.h>

#include "caisson.h"
#include "names.h"

/* What is left of a line. */
struct fields {
    const char *at;
    const char *end;
};

/* The line without its comment and without the blanks before the first field. */
struct fields fields_of(const char *characters, size_t length);

bool fields_left(const struct fields *fields);

/* A number from 0 to `most`, with nothing but blanks behind it. */
CAISSON_LOOK_AT_ANSWER
bool field_number(struct fields *fields, uint64_t most, uint64_t *number);

/* A register by its number or, where there are names, by its name. What is wrong with it, or NULL. */
CAISSON_LOOK_AT_ANSWER
const char *field_register(struct fields *fields, const struct names *names, uint32_t *reg);

/* A value, which may be below zero. What is wrong with it, or NULL. */
CAISSON_LOOK_AT_ANSWER
const char *field_value(struct fields *fields, uint32_t *value);

#endif
