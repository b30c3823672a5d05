#include "lateness.h"

#include <inttypes.h>

#define MILLISECOND 1000000 /* nanoseconds */

void lateness_add(struct lateness *lateness, int64_t nanoseconds)
{
    size_t kind = 0;

    for (int64_t doubled = nanoseconds / MILLISECOND; doubled > 1 && kind < LATENESS_KINDS - 1; doubled /= 2)
        kind++;
    lateness->kinds[kind]++;
    lateness->count++;
    if (nanoseconds > lateness->largest)
        lateness->largest = nanoseconds;
}

bool lateness_words(const struct lateness *lateness, struct text *words)
{
    const char *between = "";

    for (size_t kind = 0; kind < LATENESS_KINDS; kind++) {
        uint64_t from = (uint64_t)1 << kind;

        if (lateness->kinds[kind] == 0)
            continue;
        if (!text_add(words, "%s%" PRIu64 " to %" PRIu64 " ms: %" PRIu64, between, from, 2 * from,
                      lateness->kinds[kind]))
            return false;
        between = ", ";
    }
    return text_add(words, "; at most %" PRId64 ".%03" PRId64 " ms", lateness->largest / MILLISECOND,
                    lateness->largest % MILLISECOND / 1000);
}
