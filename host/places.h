/* places.h: a folder and a group of a party's own, for its record. */
#ifndef PLACES_H
#define PLACES_H

#include "caisson.h"
#include "parties.h"
#include "status.h"

struct place {
    struct party party; /* its name alone */
    bool group;         /* what it is given is a group, else a folder */
    const char *value;
};

/* Reads NAME=GROUP or NAME=DIR, and keeps pointers into the text. False where it is neither. */
CAISSON_LOOK_AT_ANSWER
bool place_read(struct place *place, const char *text, bool group);

/* Gives the parties what is theirs. STATUS_INPUT, with a message, where there is no such party or group, or a party
   is given two. */
CAISSON_LOOK_AT_ANSWER
enum status places_settle(const struct place *places, size_t place_count, struct party *parties, size_t count);

#endif
