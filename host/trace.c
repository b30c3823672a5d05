#include "trace.h"

#include <errno.h>
#include <stdbool.h>
#include <stdio.h>
#include <stdlib.h>
#include <string.h>

#include "fields.h"
#include "lines.h"
#include "say.h"

/* What is wrong with a line that has a reading, or NULL. */
static const char *reading_read(struct reading *reading, struct fields *fields, const struct names *names)
{
    const char *wrong;

    if (!field_number(fields, UINT64_MAX, &reading->cycle) || reading->cycle == 0)
        return "the cycle is no number from 1 to 18446744073709551615";
    wrong = field_register(fields, names, &reading->reg);
    if (wrong == NULL)
        wrong = field_value(fields, &reading->value);
    if (wrong == NULL && fields_left(fields))
        wrong = "more than the three numbers CYCLE REGISTER VALUE";
    return wrong;
}

/* What hinders adding a reading, or NULL. */
static const char *trace_add(struct trace *trace, const struct reading *reading)
{
    if (trace->count > 0 && reading->cycle < trace->readings[trace->count - 1].cycle)
        return "the cycle is lower than that of the reading before it";
    if (trace->count == trace->room) {
        size_t room = trace->room == 0 ? 64 : 2 * trace->room;
        struct reading *readings = NULL;

        if (room <= SIZE_MAX / sizeof *readings)
            readings = realloc(trace->readings, room * sizeof *readings);
        if (readings == NULL)
            return "no memory for so many readings";
        trace->readings = readings;
        trace->room = room;
    }
    trace->readings[trace->count++] = *reading;
    return NULL;
}

/* Takes a line into the trace; what is wrong with it, or NULL. */
static const char *line_take(struct trace *trace, const struct names *names, struct fields fields, size_t line)
{
    struct reading reading = {.line = line};
    const char *wrong;

    if (!fields_left(&fields))
        return NULL;
    wrong = reading_read(&reading, &fields, names);
    return wrong != NULL ? wrong : trace_add(trace, &reading);
}

/* A directory opens like a file and is known by its first read. */
static enum status not_read(const char *path)
{
    if (errno == EISDIR)
        say("%s: is a directory, not a trace\n", path);
    else
        say("%s: cannot be read: %s\n", path, strerror(errno));
    return STATUS_INPUT;
}

static enum status lines_read(struct trace *trace, FILE *file, const struct names *names)
{
    const char *path = trace->source.name;
    char characters[TRACE_LONGEST_LINE];

    for (size_t line = 1;; line++) {
        const char *wrong = NULL;
        size_t length;

        errno = 0;
        switch (line_read(file, characters, sizeof characters, &length)) {
        case LINE_NONE:
            return STATUS_DONE;
        case LINE_READ:
            wrong = line_take(trace, names, fields_of(characters, length), line);
            break;
        case LINE_TOO_LONG:
            wrong = "the line is too long";
            break;
        case LINE_BROKEN:
            return not_read(path);
        }
        if (wrong != NULL) {
            say("%s:%zu: %s\n", path, line, wrong);
            return STATUS_INPUT;
        }
    }
}

enum status trace_read(struct trace *trace, const struct names *names)
{
    const char *path = trace->source.name;
    FILE *file = fopen(path, "r");
    enum status status;

    if (file == NULL) {
        say("%s: cannot be opened: %s\n", path, strerror(errno));
        return STATUS_INPUT;
    }
    status = lines_read(trace, file, names);
    if (fclose(file) != 0 && status == STATUS_DONE) {
        say("%s: cannot be closed: %s\n", path, strerror(errno));
        status = STATUS_INPUT;
    }
    return status;
}

/* The source is the first member of its trace. */
static bool take(struct readings *readings, uint64_t cycle, struct reading *reading)
{
    const struct trace *trace = (const struct trace *)readings;

    if (readings->made == trace->count || trace->readings[readings->made].cycle > cycle)
        return false;
    *reading = trace->readings[readings->made++];
    return true;
}

static uint64_t next(const struct readings *readings, uint64_t cycle)
{
    const struct trace *trace = (const struct trace *)readings;

    (void)cycle;
    return readings->made < trace->count ? trace->readings[readings->made].cycle : UINT64_MAX;
}

static uint64_t last(const struct readings *readings)
{
    const struct trace *trace = (const struct trace *)readings;

    return trace->count > 0 ? trace->readings[trace->count - 1].cycle : 0;
}

static uint64_t left(const struct readings *readings)
{
    return ((const struct trace *)readings)->count - readings->made;
}

static void back(struct readings *readings, uint64_t cycle)
{
    const struct trace *trace = (const struct trace *)readings;

    while (readings->made > 0 && trace->readings[readings->made - 1].cycle > cycle)
        readings->made--;
}

void trace_start(struct trace *trace, const char *path)
{
    *trace = (struct trace){.source = {.name = path,
                                       .judged = true,
                                       .take = take,
                                       .next = next,
                                       .last = last,
                                       .left = left,
                                       .back = back}};
}

void trace_free(struct trace *trace)
{
    free(trace->readings);
    *trace = (struct trace){0};
}
