#define _POSIX_C_SOURCE 200809L

#include "places.h"

#include <grp.h>
#include <stdlib.h>

#include "numbers.h"
#include "say.h"

bool place_read(struct place *place, const char *text, bool group)
{
    size_t length = party_name_span(text);

    *place = (struct place){.party = {.name = text, .name_length = length}, .group = group};
    if (length == 0 || text[length] != '=' || text[length + 1] == '\0')
        return false;
    place->value = text + length + 1;
    return true;
}

static enum status wrong(const struct place *place, const char *what)
{
    say("party %.*s: %s %s\n", (int)place->party.name_length, place->party.name, what, place->value);
    return STATUS_INPUT;
}

static enum status group_settle(const struct place *place, struct party *party)
{
    const struct group *found = getgrnam(place->value);
    uint64_t number;

    if (found == NULL && !number_read_all(place->value, UINT32_MAX - 1, &number))
        return wrong(place, "no such group:");
    if (party->grouped)
        return wrong(place, "a second group:");
    party->group = found != NULL ? found->gr_gid : (gid_t)number;
    party->grouped = true;
    return STATUS_DONE;
}

static enum status place_settle(const struct place *place, struct party *party)
{
    if (place->group)
        return group_settle(place, party);
    if (party->folder != NULL)
        return wrong(place, "a second folder:");
    party->folder = place->value;
    return STATUS_DONE;
}

enum status places_settle(const struct place *places, size_t place_count, struct party *parties, size_t count)
{
    for (size_t i = 0; i < place_count; i++) {
        enum status status;
        size_t at = 0;

        while (at < count && !party_same_name(&places[i].party, &parties[at]))
            at++;
        status = at < count ? place_settle(&places[i], &parties[at]) : wrong(&places[i], "has no record:");
        if (status != STATUS_DONE)
            return status;
    }
    return STATUS_DONE;
}
