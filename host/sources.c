#define _POSIX_C_SOURCE 200809L

#include "sources.h"

#include <errno.h>
#include <fcntl.h>
#include <stdio.h>
#include <stdlib.h>
#include <string.h>
#include <sys/stat.h>
#include <unistd.h>

#include "numbers.h"
#include "say.h"
#include "table.h"

/* The register that an item of a list names; false where the design has none such. */
static bool register_read(const char *item, size_t length, size_t registers, const struct names *names, size_t *reg)
{
    const char *cursor = item;
    uint64_t number;

    if (register_named(names, item, length, reg))
        return true;
    if (!number_read(&cursor, item + length, UINT32_MAX, &number) || cursor != item + length || number >= registers)
        return false;
    *reg = (size_t)number;
    return true;
}

/* The source that has a port already, or NULL. */
static const struct feed *owner(const struct sources *sources, size_t reg)
{
    for (size_t i = 0; i < sources->count; i++) {
        if (sources->feeds[i].own[reg])
            return &sources->feeds[i];
    }
    return NULL;
}

static enum status port_add(struct sources *sources, struct feed *feed, const char *item, size_t length,
                            const uint8_t *image, const struct names *names)
{
    const struct feed *other;
    size_t reg;

    if (!register_read(item, length, table_registers(image), names, &reg) || !table_is_port(image, reg)) {
        say("%s: %.*s is no port of the design\n", feed->source.name, (int)length, item);
        return STATUS_INPUT;
    }
    other = owner(sources, reg);
    if (other != NULL) {
        say("%s: port %.*s belongs to %s already\n", feed->source.name, (int)length, item,
            other == feed ? "it" : other->source.name);
        return STATUS_INPUT;
    }
    feed->own[reg] = true;
    return STATUS_DONE;
}

/* PORT,PORT.. of one source. */
static enum status ports_add(struct sources *sources, struct feed *feed, const char *list, const uint8_t *image,
                             const struct names *names)
{
    for (;;) {
        size_t length = strcspn(list, ",");
        enum status status = port_add(sources, feed, list, length, image, names);

        if (status != STATUS_DONE || list[length] == '\0')
            return status;
        list += length + 1;
    }
}

static enum status not_opened(const struct feed *feed, const char *path, const char *why)
{
    say("%s: %s cannot be opened: %s\n", feed->source.name, path, why);
    return STATUS_INPUT;
}

static enum status source_open(struct feed *feed, const char *path)
{
    struct stat found;

    feed->file = open(path, O_RDONLY | O_NONBLOCK | O_NOCTTY | O_CLOEXEC);
    if (feed->file < 0)
        return not_opened(feed, path, strerror(errno));
    if (fstat(feed->file, &found) != 0)
        return not_opened(feed, path, strerror(errno));
    if (!S_ISFIFO(found.st_mode) && !S_ISREG(found.st_mode) && !S_ISCHR(found.st_mode))
        return not_opened(feed, path, "it is no FIFO, no file and no character device");
    feed->returns = S_ISFIFO(found.st_mode);
    return STATUS_DONE;
}

/* From one feed to the next; each has at most its own budget before a cycle. */
static bool take(struct readings *readings, uint64_t cycle, struct reading *reading)
{
    struct sources *sources = (struct sources *)readings;

    if (sources->asked != cycle) {
        sources->asked = cycle;
        sources->at = 0;
    }
    for (; sources->at < sources->count; sources->at++) {
        struct readings *source = &sources->feeds[sources->at].source;

        if (source->take(source, cycle, reading)) {
            readings->name = source->name;
            readings->made++;
            return true;
        }
    }
    return false;
}

static uint64_t next(const struct readings *readings, uint64_t cycle)
{
    const struct sources *sources = (const struct sources *)readings;
    uint64_t first = UINT64_MAX;

    for (size_t i = 0; i < sources->count; i++) {
        const struct readings *source = &sources->feeds[i].source;
        uint64_t own = source->next(source, cycle);

        first = own < first ? own : first;
    }
    return first;
}

/* What a sender does must not decide how many cycles there are. */
static uint64_t last(const struct readings *readings)
{
    (void)readings;
    return UINT64_MAX;
}

static uint64_t left(const struct readings *readings)
{
    (void)readings;
    return 0;
}

enum status sources_open(struct sources *sources, const struct options *options, const uint8_t *image,
                         const struct names *names, struct notices *notices)
{
    enum status status = STATUS_DONE;

    *sources = (struct sources){.source = {.name = "readings", .take = take, .next = next, .last = last, .left = left}};
    sources->feeds = calloc(options->source_count + 1, sizeof *sources->feeds);
    if (sources->feeds == NULL) {
        say("no memory for the sources of readings\n");
        return STATUS_INPUT;
    }
    for (; status == STATUS_DONE && sources->count < options->source_count; sources->count++)
        feed_start_own(&sources->feeds[sources->count], &options->sources[sources->count], names, notices);
    for (size_t i = 0; status == STATUS_DONE && i < sources->count; i++)
        status = ports_add(sources, &sources->feeds[i], options->sources[i].ports, image, names);
    for (size_t i = 0; status == STATUS_DONE && i < sources->count; i++)
        status = source_open(&sources->feeds[i], options->sources[i].path);
    return status;
}

bool sources_broken(const struct sources *sources)
{
    for (size_t i = 0; i < sources->count; i++) {
        if (sources->feeds[i].broken)
            return true;
    }
    return false;
}

void sources_close(struct sources *sources)
{
    for (size_t i = 0; i < sources->count; i++) {
        if (sources->feeds[i].file >= 0)
            (void)close(sources->feeds[i].file);
    }
    free(sources->feeds);
    *sources = (struct sources){0};
}
