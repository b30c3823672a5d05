#define _POSIX_C_SOURCE 200809L

#include "records.h"

#include <inttypes.h>
#include <stdlib.h>

#include "folder.h"
#include "library.h"
#include "moment.h"
#include "output.h"
#include "record.h"
#include "say.h"
#include "sha256.h"
#include "signals.h"

/* What tells one run from another in a file that has several. Nothing in it may depend on another party. */
static bool first_add(struct text *first, const struct party *party, const struct names *names, const char *started)
{
    const char *level = name_of_label(names, party->level);
    char version[LIBRARY_LONGEST_VERSION];

    return text_add(first, "# caisson record, party %.*s, level ", (int)party->name_length, party->name) &&
           (level != NULL ? text_add(first, "%s", level) : text_add(first, "%" PRIu32, party->level)) &&
           text_add(first, ", library %s, started %s", library_version(version), started);
}

static enum status no_memory(void)
{
    say("no memory for the records\n");
    return STATUS_INPUT;
}

static enum status file_open(struct sink *sink, const struct party *party, const char *common)
{
    const char *folder = party->folder != NULL ? party->folder : common;
    enum status status = folder_lock(folder);

    if (status != STATUS_DONE)
        return status;
    if (!text_add(&sink->path, "%s/%.*s.record", folder, (int)party->name_length, party->name))
        return no_memory();
    sink->group = party->grouped ? &party->group : NULL;
    return sink_open(sink);
}

static enum status files_open(struct records *records, const char *folder)
{
    enum status status = STATUS_DONE;

    for (size_t i = 0; status == STATUS_DONE && i < records->count; i++)
        status = file_open(&records->sinks[i], &records->parties[i], folder);
    return status;
}

/* Once all are open, so that a run that does not start leaves no first line; and all with one time, since how long
   a file took is seen by its own party alone. */
static enum status files_begin(struct records *records)
{
    enum status status = STATUS_DONE;
    char started[MOMENT_ROOM];

    moment_now(started);
    for (size_t i = 0; status == STATUS_DONE && i < records->count; i++) {
        struct sink *sink = &records->sinks[i];
        bool whole = first_add(&sink->first, &records->parties[i], records->names, started);

        status = whole ? sink_begin(sink) : no_memory();
    }
    for (size_t i = 0; status == STATUS_DONE && i < records->count; i++)
        status = writer_start(&records->writers[i], &records->sinks[i]);
    return status;
}

/* Waits for the writers, and for none that a disk holds. */
static void writers_end(struct records *records, bool hurried)
{
    bool over;

    for (size_t i = 0; i < records->count; i++) {
        if (records->writers[i].started)
            writer_end(&records->writers[i], hurried);
    }
    do {
        over = true;
        for (size_t i = 0; i < records->count; i++)
            over &= writer_is_over(&records->writers[i]);
        if (!over)
            thread_pause();
    } while (!over);
}

/* A writer that a disk holds still has its sink. */
static void files_close(struct records *records)
{
    bool held = false;

    for (size_t i = 0; i < records->count; i++) {
        held |= records->writers[i].started;
        if (!records->writers[i].started)
            sink_close(&records->sinks[i]);
    }
    if (!held) {
        free(records->sinks);
        free(records->writers);
    }
    records->sinks = NULL;
}

/* For who operates the box, and in no party's file: an edit for one party changes the sum for all. */
static void design_say(const struct records *records, const char *path, const struct design *design)
{
    char sum[SHA256_DIGITS + 1u];

    sha256_digits(design->image, design->length, sum);
    if (!records->paced || say_is_ready())
        say("%s: design sha256 %s\n", path, sum);
}

enum status records_open(struct records *records, const struct options *options, const struct names *names,
                         const struct design *design)
{
    enum status status;

    *records = (struct records){.parties = options->parties,
                                .count = options->party_count,
                                .names = names,
                                .paced = !options->fast && !options->replay,
                                .timed = options->timed};
    if (options->records == NULL)
        return STATUS_DONE;
    signals_start_files();
    records->sinks = calloc(records->count, sizeof *records->sinks);
    records->writers = calloc(records->count, sizeof *records->writers);
    if (records->sinks == NULL || records->writers == NULL) {
        free(records->sinks);
        free(records->writers);
        records->sinks = NULL;
        return no_memory();
    }
    for (size_t i = 0; i < records->count; i++)
        records->sinks[i].file = -1;
    status = files_open(records, options->records);
    if (status == STATUS_DONE)
        status = files_begin(records);
    if (status == STATUS_DONE) {
        design_say(records, options->design, design);
        return STATUS_DONE;
    }
    writers_end(records, true);
    files_close(records);
    return status;
}

/* Without a clock to keep, a file that takes its lines slowly is waited for: until a second has gone without any. */
static void wait_for_room(struct sink *sink, size_t length)
{
    size_t taken = atomic_load(&sink->taken);
    long pauses = 0;

    while (!sink_has_room(sink, length) && !sink->stalled && !signals_stop()) {
        thread_pause();
        pauses = atomic_load(&sink->taken) != taken ? 0 : pauses + 1;
        taken = atomic_load(&sink->taken);
        sink->stalled = pauses >= THREAD_SECOND;
    }
}

static void file_line(struct records *records, size_t i, uint64_t cycle)
{
    struct sink *sink = &records->sinks[i];
    bool woken;

    if (!records->paced)
        wait_for_room(sink, records->line.length);
    if (sink_put(sink, &records->line, cycle, &woken))
        sink->stalled = false;
    if (woken)
        writer_wake(&records->writers[i]);
}

enum status records_sample(struct records *records, const struct box *box, uint64_t cycle)
{
    char when[MOMENT_ROOM] = "";

    if (records->timed)
        moment_of_cycle(when, records->first, cycle);
    for (size_t i = 0; i < records->count; i++) {
        enum status status = STATUS_DONE;

        records->line.length = 0;
        if (!record_add(&records->line, box, records->names, cycle, when, &records->parties[i]))
            return no_memory();
        if (records->sinks != NULL)
            file_line(records, i, cycle);
        else
            status = output_add(records->line.characters, records->line.length);
        if (status != STATUS_DONE)
            return status;
    }
    return STATUS_DONE;
}

enum status records_flush(struct records *records)
{
    return records->sinks == NULL ? output_flush() : STATUS_DONE;
}

void records_reopen(struct records *records, uint64_t cycle)
{
    for (size_t i = 0; records->sinks != NULL && i < records->count; i++)
        records->sinks[i].due = true;
    records_pass(records, cycle);
}

static void refusal_tell(struct sink *sink)
{
    int error = atomic_load(&sink->refusal);

    if (error == 0 || !say_is_ready())
        return;
    atomic_store(&sink->refusal, 0);
    say("%s: cannot be opened anew: %s; the old file is written on\n", sink->path.characters, sink_error(error));
}

void records_pass(struct records *records, uint64_t cycle)
{
    for (size_t i = 0; records->sinks != NULL && i < records->count; i++) {
        struct sink *sink = &records->sinks[i];

        if (sink->due && sink_ask(sink, cycle)) {
            sink->due = false;
            writer_wake(&records->writers[i]);
        }
        refusal_tell(sink);
    }
}

uint64_t records_lost(const struct records *records)
{
    uint64_t lost = 0;

    for (size_t i = 0; records->sinks != NULL && i < records->count; i++)
        lost += records->sinks[i].lost;
    return lost;
}

const char *records_failing(const struct records *records, int *error)
{
    for (size_t i = 0; records->sinks != NULL && i < records->count; i++) {
        *error = atomic_load(&records->sinks[i].last);
        if (*error != 0 && !sink_is_empty(&records->sinks[i]))
            return records->sinks[i].path.characters;
    }
    return NULL;
}

/* What became of a file; answers how many lines were lost. */
static uint64_t file_say(const struct sink *sink, bool held)
{
    uint64_t unwritten = sink_unwritten(sink);
    uint64_t lost = sink->lost + unwritten;
    struct text why = {0};

    if (held)
        say("%s: the disk holds it: what it has not taken is lost\n", sink->path.characters);
    if (lost > 0 && sink_reasons(sink, &why))
        say("%s: %" PRIu64 " lines, %" PRIu64 " lost: %s\n", sink->path.characters, sink->lines - unwritten, lost,
            why.characters);
    else
        say("%s: %" PRIu64 " lines, %" PRIu64 " lost\n", sink->path.characters, sink->lines - unwritten, lost);
    text_free(&why);
    return lost;
}

uint64_t records_close(struct records *records, bool hurried)
{
    uint64_t lost = 0;

    text_free(&records->line);
    if (records->sinks == NULL)
        return 0;
    writers_end(records, hurried);
    for (size_t i = 0; i < records->count; i++) {
        refusal_tell(&records->sinks[i]);
        lost += file_say(&records->sinks[i], records->writers[i].started);
    }
    files_close(records);
    return lost;
}
