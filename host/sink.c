#define _POSIX_C_SOURCE 200809L

#include "sink.h"

#include <errno.h>
#include <inttypes.h>
#include <stdio.h>
#include <stdlib.h>
#include <string.h>
#include <unistd.h>

#include "record_file.h"
#include "say.h"

#define GAP_ROOM 80u /* bytes of the line of a gap at most */

/* A pipe, which nobody can look back into, is cut where a line was. */
static bool cuts_line(const struct sink *sink, int file)
{
    return record_file_ends_in_line(file) || (sink->sent > 0 && lseek(file, 0, SEEK_CUR) < 0);
}

/* The first line at once and whole, with a cycle where the file continues another; 0 or the reason why not. */
static int first_write(const struct sink *sink, int file, uint64_t cycle)
{
    struct text line = {0};
    int error = ENOMEM;

    if ((!cuts_line(sink, file) || text_add(&line, "\n")) && text_add(&line, "%s", sink->first.characters) &&
        (cycle == 0 || text_add(&line, ", continued, cycle %" PRIu64, cycle)) && text_add(&line, "\n")) {
        ssize_t written = write(file, line.characters, line.length);

        error = written == (ssize_t)line.length ? 0 : written < 0 ? errno : ENOSPC;
    }
    text_free(&line);
    return error;
}

enum status sink_open(struct sink *sink)
{
    const char *path = sink->path.characters;
    int reason;

    sink->memory = malloc(SINK_MEMORY);
    sink->file = record_file_open(path, sink->group, &reason);
    if (sink->memory == NULL) {
        say("%s: no memory for its lines\n", path);
        return STATUS_INPUT;
    }
    if (sink->file < 0) {
        say("%s: cannot be opened: %s\n", path, record_file_reason(reason));
        return STATUS_INPUT;
    }
    return STATUS_DONE;
}

enum status sink_begin(struct sink *sink)
{
    int error = first_write(sink, sink->file, 0);

    if (error == 0)
        return STATUS_DONE;
    say("%s: cannot be written: %s\n", sink->path.characters, strerror(error));
    return STATUS_INPUT;
}

void sink_close(struct sink *sink)
{
    if (sink->file >= 0)
        (void)close(sink->file);
    sink->file = -1;
    free(sink->memory);
    sink->memory = NULL;
    text_free(&sink->path);
    text_free(&sink->first);
}

static size_t room(const struct sink *sink)
{
    return SINK_MEMORY - (atomic_load(&sink->head) - atomic_load(&sink->tail));
}

bool sink_has_room(const struct sink *sink, size_t length)
{
    return room(sink) >= GAP_ROOM + length;
}

/* The head moves once the whole is there: half a line is never seen by the writer. */
static void bytes_put(struct sink *sink, size_t *head, const char *bytes, size_t length)
{
    size_t at = *head % SINK_MEMORY;
    size_t before = length < SINK_MEMORY - at ? length : SINK_MEMORY - at;

    memcpy(sink->memory + at, bytes, before);
    memcpy(sink->memory, bytes + before, length - before);
    *head += length;
}

static void gap_put(struct sink *sink, size_t *head)
{
    char gap[GAP_ROOM];
    int length;

    if (sink->gap_first == 0)
        return;
    length = snprintf(gap, sizeof gap, "# lost cycles %" PRIu64 " to %" PRIu64 "\n", sink->gap_first, sink->gap_last);
    bytes_put(sink, head, gap, (size_t)length);
    sink->gap_first = 0;
}

static void reason_keep(struct sink *sink, int reason)
{
    for (size_t i = 0; i < sink->reason_count; i++) {
        if (sink->reasons[i] == reason)
            return;
    }
    if (sink->reason_count < SINK_REASONS)
        sink->reasons[sink->reason_count++] = reason;
}

static void drop(struct sink *sink, uint64_t cycle)
{
    if (sink->gap_first == 0)
        sink->gap_first = cycle;
    sink->gap_last = cycle;
    sink->lost++;
    reason_keep(sink, atomic_load(&sink->last));
}

bool sink_put(struct sink *sink, const struct text *line, uint64_t cycle, bool *woken)
{
    size_t before = atomic_load(&sink->head);
    size_t head = before;

    *woken = false;
    if (!sink_has_room(sink, line->length)) {
        drop(sink, cycle);
        return false;
    }
    gap_put(sink, &head);
    bytes_put(sink, &head, line->characters, line->length);
    atomic_store(&sink->head, head);
    /* Looked at behind the head: a writer that has missed this line has taken all before it. */
    *woken = atomic_load(&sink->tail) == before;
    sink->lines++;
    return true;
}

void sink_end_gap(struct sink *sink)
{
    size_t head = atomic_load(&sink->head);

    if (!sink_has_room(sink, 0))
        return;
    gap_put(sink, &head);
    atomic_store(&sink->head, head);
}

/* What was taken counts once its line is whole, so that a line can be written again to a file that is new. */
static void sent_add(struct sink *sink, size_t count)
{
    size_t tail = atomic_load(&sink->tail);

    sink->sent += count;
    for (size_t length = sink->sent; length > sink->sent - count; length--) {
        if (sink->memory[(tail + length - 1) % SINK_MEMORY] == '\n') {
            sink->sent -= length;
            atomic_store(&sink->tail, tail + length);
            return;
        }
    }
}

/* Up to so many bytes since the start. */
static bool write_up_to(struct sink *sink, size_t end)
{
    bool any = false;

    for (;;) {
        size_t from = atomic_load(&sink->tail) + sink->sent;
        size_t count = end - from;
        size_t at = from % SINK_MEMORY;
        ssize_t written;

        if (count == 0)
            return any;
        if (count > SINK_MEMORY - at)
            count = SINK_MEMORY - at;
        written = write(sink->file, sink->memory + at, count);
        if (written <= 0) {
            int error = written == 0 ? ENOSPC : errno;

            atomic_store(&sink->last, error);
            /* The next reader of a pipe begins with a whole line. */
            if (error == EPIPE)
                sink->sent = 0;
            return any;
        }
        atomic_store(&sink->last, 0);
        atomic_fetch_add(&sink->taken, (size_t)written);
        sent_add(sink, (size_t)written);
        any = true;
    }
}

/* The first cycle that is still in the memory, which a line or a gap begins with; else that of the mark. */
static uint64_t next_cycle(const struct sink *sink)
{
    size_t at = atomic_load(&sink->tail);
    uint64_t cycle = 0;

    if (at == sink->mark)
        return sink->cycle;
    while (sink->memory[at % SINK_MEMORY] < '0' || sink->memory[at % SINK_MEMORY] > '9')
        at++;
    for (char digit; digit = sink->memory[at % SINK_MEMORY], digit >= '0' && digit <= '9'; at++)
        cycle = 10 * cycle + (uint64_t)(digit - '0');
    return cycle;
}

static int reopen(struct sink *sink)
{
    int file, error;

    if (sink->mark > atomic_load(&sink->tail) + sink->sent)
        (void)write_up_to(sink, sink->mark);
    file = record_file_open(sink->path.characters, sink->group, &error);
    if (file < 0)
        return error;
    error = first_write(sink, file, next_cycle(sink));
    if (error != 0) {
        (void)close(file);
        return error;
    }
    (void)close(sink->file);
    sink->file = file;
    sink->sent = 0;
    return 0;
}

bool sink_ask(struct sink *sink, uint64_t cycle)
{
    if (atomic_load(&sink->asked) != atomic_load(&sink->opened))
        return false;
    sink->mark = atomic_load(&sink->head);
    sink->cycle = cycle;
    atomic_fetch_add(&sink->asked, 1);
    return true;
}

bool sink_write(struct sink *sink)
{
    /* The head before the question: lines behind a mark are put in behind it. */
    size_t end = atomic_load(&sink->head);
    unsigned asked = atomic_load(&sink->asked);

    if (asked != atomic_load(&sink->opened)) {
        int error = reopen(sink);

        if (error != 0)
            atomic_store(&sink->refusal, error);
        atomic_store(&sink->opened, asked);
    }
    return end - atomic_load(&sink->tail) > sink->sent && write_up_to(sink, end);
}

bool sink_is_empty(const struct sink *sink)
{
    return atomic_load(&sink->head) == atomic_load(&sink->tail);
}

bool sink_is_idle(const struct sink *sink)
{
    return sink_is_empty(sink) && atomic_load(&sink->asked) == atomic_load(&sink->opened);
}

const char *sink_error(int error)
{
    if (error == 0)
        return "it takes its lines too slowly";
    return error == EAGAIN || error == EWOULDBLOCK ? "its reader does not read" : record_file_reason(error);
}

bool sink_reasons(const struct sink *sink, struct text *words)
{
    bool whole = sink->reason_count > 0 || text_add(words, "%s", sink_error(atomic_load(&sink->last)));

    for (size_t i = 0; whole && i < sink->reason_count; i++)
        whole = text_add(words, "%s%s", i == 0 ? "" : ", ", sink_error(sink->reasons[i]));
    return whole;
}

uint64_t sink_unwritten(const struct sink *sink)
{
    uint64_t lines = 0;
    bool starts = true;

    for (size_t at = atomic_load(&sink->tail); at != atomic_load(&sink->head); at++) {
        char character = sink->memory[at % SINK_MEMORY];

        /* The lines of gaps are none of a cycle. */
        lines += starts && character != '#';
        starts = character == '\n';
    }
    return lines;
}
