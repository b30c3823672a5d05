#include "cycles.h"

#include <inttypes.h>
#include <stdio.h>

#include "clock.h"
#include "refusals.h"
#include "say.h"
#include "signals.h"
#include "table.h"

void reading_too_large(const struct site *site, uint32_t reg, uint32_t value)
{
    const uint8_t *image = site->box->image;
    const char *name = name_of_register(site->names, reg);

    say("  register %" PRIu32 "%s%s%s has width %" PRIu32 ": it takes 0 to %" PRIu32 ", not %" PRIu32 "\n", reg,
        name == NULL ? "" : " (", name == NULL ? "" : name, name == NULL ? "" : ")", table_width(image, reg),
        table_most(image, reg), value);
}

void reading_refused(const struct site *site, uint32_t reg, uint32_t value, caisson_answer answer)
{
    refusal_say(answer, site->box, site->names);
    if (answer.number == CAISSON_PORT_VALUE)
        reading_too_large(site, reg, value);
}

enum status cycles_rehearse(const struct site *site, const struct trace *trace)
{
    struct box copy = *site->box;

    for (size_t i = 0; i < trace->count; i++) {
        const struct reading *reading = &trace->readings[i];
        caisson_answer answer = box_write_port(&copy, reading->reg, reading->value);

        if (answer.number != CAISSON_ACCEPTED) {
            say("%s:%" PRIu64 ": ", trace->source.name, reading->line);
            reading_refused(site, reading->reg, reading->value, answer);
            return STATUS_REFUSED;
        }
    }
    return STATUS_DONE;
}

/* Whether the cycles keep time, and with their end the program is to end: it must not live on without control. */
static bool is_control(const struct site *site)
{
    return !site->options->fast && !site->options->console;
}

static enum status refused(const struct site *site, caisson_answer answer)
{
    if (is_control(site))
        signals_end_within(STATUS_REFUSED);
    say("before cycle %" PRIu64 ": ", site->done + 1);
    refusal_say(answer, site->box, site->names);
    return STATUS_REFUSED;
}

/* A reading that nobody could judge before is left out, and the cycles go on. */
static void left_out(struct site *site, const struct reading *reading, caisson_answer answer)
{
    char words[120];

    if (answer.number == CAISSON_PORT_VALUE)
        (void)snprintf(words, sizeof words, "refused by rule 17: the port takes 0 to %" PRIu32 ", not %" PRIu32,
                       table_most(site->box->image, reading->reg), reading->value);
    else if (answer.number == CAISSON_NO_PORT)
        (void)snprintf(words, sizeof words, "refused by rule 13: the register is no port");
    else
        (void)snprintf(words, sizeof words, "refused by rule %u", (unsigned)answer.number);
    notices_bad_line(site->notices, site->readings->name, reading->line, words);
    site->readings->made--;
}

/* The readings that come before the next cycle. */
static enum status readings_write(struct site *site)
{
    struct readings *readings = site->readings;
    struct reading reading;

    while (readings->take(readings, site->done + 1, &reading)) {
        caisson_answer answer = box_write_port(site->box, reading.reg, reading.value);

        if (answer.number == CAISSON_ACCEPTED)
            continue;
        if (readings->judged)
            return refused(site, answer);
        left_out(site, &reading, answer);
    }
    return STATUS_DONE;
}

static uint64_t lower(uint64_t left, uint64_t right)
{
    return left < right ? left : right;
}

/*
 * How many cycles to run before something else is to be done. One call for many cycles judges the
 * image once for all of them.
 */
static uint32_t stride(const struct site *site, uint64_t last, bool paced)
{
    uint64_t cycles = lower(CYCLES_AT_ONCE, last - site->done);

    if (paced)
        return 1;
    cycles = lower(cycles, site->options->every - site->done % site->options->every);
    cycles = lower(cycles, site->readings->next(site->readings, site->done + 1) - 1 - site->done);
    return (uint32_t)cycles;
}

static caisson_answer run(struct site *site, uint32_t cycles)
{
    return site->journal == NULL ? box_run(site->box, cycles)
                                 : box_run_journalled(site->box, site->journal, cycles);
}

/* From one wait, reading or sample to the next, once the readings are made. */
static enum status step(struct site *site, uint64_t last, bool paced)
{
    caisson_answer answer = run(site, stride(site, last, paced));
    enum status status;

    if (answer.number != CAISSON_ACCEPTED)
        return refused(site, answer);
    site->done += answer.count;
    if (site->done % site->options->every != 0)
        return STATUS_DONE;
    status = records_sample(site->records, site->box, site->done);
    /* A site that is stopped keeps the samples it had. */
    return status == STATUS_DONE && paced ? records_flush(site->records) : status;
}

static void late_say(const struct lateness *late)
{
    struct text words = {0};

    if (late->count > 0 && lateness_words(late, &words))
        say("late by %s\n", words.characters);
    text_free(&words);
}

static void summary_say(const struct site *site, const struct cycle_clock *clock)
{
    uint64_t left = site->readings->left(site->readings);

    say("%" PRIu64 " cycles, %" PRIu64 " port writes, %" PRIu64 " late cycles\n", site->done, site->readings->made,
        clock->late.count);
    late_say(&clock->late);
    /* A console makes them as it steps. */
    if (left > 0 && !site->options->console)
        say("%" PRIu64 " port writes of the trace come later and were not made\n", left);
    if (site->notices->bad > 0)
        say("%" PRIu64 " lines of readings were left out\n", site->notices->bad);
    if (site->journal != NULL)
        say("the journal has the last %" PRIu64 " cycles\n", journal_reach(site->journal));
}

uint64_t cycles_last(const struct site *site)
{
    if (site->options->forever)
        return UINT64_MAX;
    return site->options->limited ? site->options->cycles : site->readings->last(site->readings);
}

/* What signals have asked for, and what there is to tell, between two cycles. */
static void pass(struct site *site, const struct cycle_clock *clock)
{
    if (signals_reopen())
        records_reopen(site->records, site->done + 1);
    records_pass(site->records, site->done + 1);
    notices_tell(site->notices, site->done, &clock->late, site->records);
    if (site->alive != NULL)
        alive_beat(site->alive);
}

enum status cycles_run(struct site *site)
{
    struct cycle_clock clock;
    enum status status = cycle_clock_start(&clock);
    bool paced = !site->options->fast;

    site->records->first = clock.first;
    while (status == STATUS_DONE && site->done < cycles_last(site) && !signals_stop()) {
        if (paced)
            status = cycle_clock_wait(&clock);
        if (status == STATUS_DONE)
            status = readings_write(site);
        /* Readings that come as they come may have ended. */
        if (status == STATUS_DONE && site->done < cycles_last(site))
            status = step(site, cycles_last(site), paced);
        if (status == STATUS_DONE)
            pass(site, &clock);
    }
    if (status == STATUS_DONE)
        status = records_flush(site->records);
    if (is_control(site))
        signals_end_within(status == STATUS_DONE ? STATUS_INPUT : status);
    summary_say(site, &clock);
    return status;
}

enum status cycles_step(struct site *site, uint64_t cycles)
{
    uint64_t last = site->done + cycles;
    enum status status = STATUS_DONE;

    while (status == STATUS_DONE && site->done < last) {
        status = readings_write(site);
        if (status == STATUS_DONE)
            status = step(site, last, false);
    }
    return status;
}

caisson_answer cycles_back(struct site *site, uint32_t cycles)
{
    caisson_answer answer = box_step_back(site->box, site->journal, cycles);

    site->done -= answer.count;
    /* What was saved before a cycle has the readings before it, so that these are not made again. */
    if (answer.count > 0)
        site->readings->back(site->readings, site->done + 1);
    return answer;
}
