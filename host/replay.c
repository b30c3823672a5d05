#include "replay.h"

#include <inttypes.h>
#include <stdlib.h>

#include "refusals.h"
#include "say.h"
#include "signals.h"
#include "table.h"

struct replay {
    struct site *site;
    caisson_record *records; /* room for all readings of the trace */
    size_t written;          /* readings of the trace so far */
    uint64_t last;           /* cycle to end with */
    uint64_t superseded;
};

/* Readings count cycles from 1 and in 64 bits, a replay from 0 and in 32. One that is further off than that is
   behind every replay. */
static uint32_t recounted(const struct site *site, const struct reading *reading)
{
    uint64_t cycle = reading->cycle - 1 - site->done;

    return cycle < UINT32_MAX ? (uint32_t)cycle : UINT32_MAX;
}

/* The trace divided: the readings before the next so many cycles as records. The last cycles are given all that
   are left, so that one behind them is refused and not passed over. Answers how many. */
static size_t records_make(const struct replay *replay, uint32_t cycles)
{
    const struct site *site = replay->site;
    const struct trace *trace = site->trace;
    uint64_t end = site->done + cycles;
    size_t count = 0;

    for (size_t i = replay->written; i < trace->count; i++) {
        const struct reading *reading = &trace->readings[i];

        if (reading->cycle > end && end < replay->last)
            break;
        replay->records[count++] = (caisson_record){recounted(site, reading), reading->reg, reading->value};
    }
    return count;
}

static bool is_of_record(uint32_t number)
{
    return number == CAISSON_TRACE_CYCLE || number == CAISSON_NO_PORT || number == CAISSON_PORT_VALUE;
}

/* A place in this part of the trace is one in the whole, and the file has the line of its reading. */
static void record_refused(const struct replay *replay, caisson_answer answer)
{
    const struct site *site = replay->site;
    const struct reading *reading;

    answer.place += replay->written;
    reading = &site->trace->readings[answer.place];
    say("%s:%" PRIu64 ": ", site->options->trace, reading->line);
    replay_refusal_say(answer, site->box, site->names);
    if (answer.number == CAISSON_PORT_VALUE)
        reading_too_large(site, reading->reg, reading->value);
    if (answer.number == CAISSON_TRACE_CYCLE)
        say("  the reading is for cycle %" PRIu64 ", and %" PRIu64 " cycles are to be replayed\n", reading->cycle,
            replay->last);
}

static enum status refused(const struct replay *replay, caisson_answer answer)
{
    if (is_of_record(answer.number)) {
        record_refused(replay, answer);
    } else {
        say("before cycle %" PRIu64 ": ", replay->site->done + 1);
        replay_refusal_say(answer, replay->site->box, replay->site->names);
    }
    return STATUS_REFUSED;
}

static enum status part(struct replay *replay, uint32_t cycles)
{
    struct site *site = replay->site;
    size_t count = records_make(replay, cycles);
    caisson_answer answer = box_replay(site->box, replay->records, count, cycles);

    if (answer.number != CAISSON_ACCEPTED)
        return refused(replay, answer);
    site->done += cycles;
    replay->written += count;
    replay->superseded += answer.count;
    return STATUS_DONE;
}

static uint32_t lower(uint64_t left, uint64_t right)
{
    return (uint32_t)(left < right ? left : right);
}

/* How many cycles one replay makes at most. */
static uint32_t longest(const struct replay *replay)
{
    return lower(CYCLES_AT_ONCE, replay->last - replay->site->done);
}

/* How many to the next sample. Of a design with parameters the last cycle before it is replayed by itself, since
   the sample shows what that one began with. */
static uint32_t to_sample(const struct replay *replay)
{
    const struct site *site = replay->site;
    uint64_t cycles = site->options->every - site->done % site->options->every;

    if (cycles > 1 && table_has_parameters(site->box->image))
        cycles--;
    return lower(longest(replay), cycles);
}

/* Without samples, on a copy; also where there is no cycle. */
static enum status rehearse(const struct replay *replay)
{
    struct box box = *replay->site->box;
    struct site site = *replay->site;
    struct replay copy = *replay;
    enum status status;

    site.box = &box;
    copy.site = &site;
    do
        status = part(&copy, longest(&copy));
    while (status == STATUS_DONE && site.done < copy.last && !signals_stop());
    return status;
}

static enum status step(struct replay *replay)
{
    const struct site *site = replay->site;
    enum status status = part(replay, to_sample(replay));

    if (status == STATUS_DONE && site->done % site->options->every == 0)
        status = records_sample(site->records, site->box, site->done);
    if (signals_reopen())
        records_reopen(site->records, site->done + 1);
    records_pass(site->records, site->done + 1);
    return status;
}

static enum status run(struct replay *replay)
{
    const struct site *site = replay->site;
    enum status status = rehearse(replay);

    if (status != STATUS_DONE)
        return status;
    while (status == STATUS_DONE && site->done < replay->last && !signals_stop())
        status = step(replay);
    if (status == STATUS_DONE)
        status = records_flush(site->records);
    say("%" PRIu64 " cycles, %zu records replayed, %" PRIu64 " of them superseded\n", site->done, replay->written,
        replay->superseded);
    return status;
}

enum status replay_run(struct site *site)
{
    struct replay replay = {.site = site, .last = cycles_last(site)};
    enum status status;

    /* Room for none may be NULL. */
    replay.records = calloc(site->trace->count + 1, sizeof *replay.records);
    if (replay.records == NULL) {
        say("no memory for a table of %zu records\n", site->trace->count);
        return STATUS_INPUT;
    }
    status = run(&replay);
    free(replay.records);
    return status;
}
