#include "source.h"

#include <string.h>

#include "parties.h"

const char *source_read(struct source *source, const char *text)
{
    *source = (struct source){.name = text, .name_length = party_name_span(text)};
    if (source->name_length == 0 || source->name_length > PARTY_LONGEST_NAME || text[source->name_length] != '=' ||
        text[source->name_length + 1] == '\0')
        return NULL;
    return text + source->name_length + 1;
}

struct source *source_find(struct source *sources, size_t count, const struct source *source)
{
    for (size_t i = 0; i < count; i++) {
        if (sources[i].name_length == source->name_length &&
            memcmp(sources[i].name, source->name, source->name_length) == 0)
            return &sources[i];
    }
    return &sources[count];
}
