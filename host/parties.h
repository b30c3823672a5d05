/* parties.h: who gets a flow record, and at which level. */
#ifndef PARTIES_H
#define PARTIES_H

#include <stdbool.h>
#include <sys/types.h>

#include "caisson.h"
#include "names.h"
#include "status.h"

#define PARTY_LONGEST_NAME 63u /* characters */

struct party {
    const char *name; /* not ended by a NUL */
    size_t name_length; /* from 1 to PARTY_LONGEST_NAME */
    const char *level_name; /* the label as it was given by name; NULL: by number */
    uint32_t level; /* a label; of one given by name not before parties_judge */
    const char *folder; /* for its record; NULL: the common one */
    bool grouped;       /* its record has a group of its own */
    gid_t group;
};

/*
 * Reads NAME:LEVEL. A name is letters, digits, and the signs - _ . so that it cannot be taken for
 * another part of a record, and a level is a label's name or number, which parties_judge judges. The party keeps a
 * pointer into the text. False where it is no party.
 */
CAISSON_LOOK_AT_ANSWER
bool party_read(struct party *party, const char *text);

bool party_same_name(const struct party *party, const struct party *other);

/* How many characters of a text are those of a name. */
size_t party_name_span(const char *text);

/* One party for each label of a checked image, named as the label is, or label0 and so on; answers how many. */
size_t parties_of_labels(struct party parties[CAISSON_LABELS], const uint8_t *image, const struct names *names);

/* Finds the levels that were given by name. STATUS_INPUT, with a message, where a party's level is no label of a
   checked image. */
CAISSON_LOOK_AT_ANSWER
enum status parties_judge(struct party *parties, size_t count, const uint8_t *image, const struct names *names);

#endif
