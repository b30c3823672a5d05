#define _POSIX_C_SOURCE 200809L

#include "notices.h"

#include <inttypes.h>
#include <stdio.h>

#include "say.h"

#define LONGEST 4000 /* characters of a line: a pipe that is ready takes so many at once */

void notices_bad_line(struct notices *notices, const char *source, uint64_t line, const char *words)
{
    (void)snprintf(notices->words, sizeof notices->words, "%s:%" PRIu64 ": %s", source, line, words);
    notices->bad++;
    if (!notices->rare && (!notices->paced || say_is_ready()))
        say("%s\n", notices->words);
}

/* Whether a minute has gone, and standard error would not keep the cycles waiting. */
static bool may_say(struct notices *notices)
{
    struct timespec now;

    if (clock_gettime(CLOCK_MONOTONIC, &now) != 0)
        return false;
    if (notices->any && now.tv_sec - notices->said.tv_sec <= NOTICES_SECONDS)
        return false;
    if (!say_is_ready())
        return false;
    notices->any = true;
    notices->said = now;
    return true;
}

/* The line, without its line feed. */
static bool line_make(struct text *line, const struct notices *notices, uint64_t cycle, const struct lateness *late,
                      const struct records *records)
{
    int error;
    const char *failing = records_failing(records, &error);
    bool whole = text_add(line, "cycle %" PRIu64 ": %" PRIu64 " late cycles", cycle, late->count);

    if (whole && late->count > 0)
        whole = text_add(line, " (") && lateness_words(late, line) && text_add(line, ")");
    if (whole)
        whole = text_add(line, ", %" PRIu64 " lines of records lost", records_lost(records));
    if (whole && failing != NULL)
        whole = text_add(line, "; %s: %s", failing, sink_error(error));
    if (whole && notices->bad > notices->bad_told)
        whole = text_add(line, "; %" PRIu64 " lines of readings left out, the last %s", notices->bad, notices->words);
    return whole;
}

void notices_tell(struct notices *notices, uint64_t cycle, const struct lateness *late, const struct records *records)
{
    uint64_t lost = records_lost(records);
    struct text line = {0};

    if (!notices->rare ||
        (late->count == notices->late && lost == notices->lost && notices->bad == notices->bad_told) ||
        !may_say(notices))
        return;
    if (line_make(&line, notices, cycle, late, records))
        say("%.*s\n", LONGEST, line.characters);
    text_free(&line);
    notices->late = late->count;
    notices->lost = lost;
    notices->bad_told = notices->bad;
}
