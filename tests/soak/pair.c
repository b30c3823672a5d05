#include "pair.h"

#include <inttypes.h>
#include <string.h>

#include "neighbour.h"
#include "refusals.h"
#include "say.h"
#include "shown.h"
#include "table.h"

#define LONGEST_RUN 4096u /* cycles between two samples, at most */
#define WRITES 4u         /* port writes between two samples, at most */
#define RESETS 1024u      /* one sample in so many is followed by a reset */
#define ATTEMPTS 1024u    /* at a difference made on purpose */
#define JOURNAL 256u      /* cycles that a journal keeps at least */
#define STEPS_BACK 4u     /* one sample in so many comes behind a step back, not behind cycles */
#define REPLAYS 4u        /* and of the others one in so many behind a replay */
#define RECORDS 16u       /* of a trace for ports in sight, at most, and as many for the others */

/* splitmix64 */
static uint64_t random_next(struct pair *pair)
{
    uint64_t bits = pair->random += 0x9e3779b97f4a7c15u;

    bits = (bits ^ bits >> 30) * 0xbf58476d1ce4e5b9u;
    bits = (bits ^ bits >> 27) * 0x94d049bb133111ebu;
    return bits ^ bits >> 31;
}

static uint32_t random_below(struct pair *pair, uint32_t bound)
{
    return (uint32_t)(random_next(pair) % bound);
}

/* A value for a port: often 0 or 1, which conditions tell apart, and otherwise any that its width holds. */
static uint32_t random_value(struct pair *pair, uint32_t reg)
{
    uint32_t choice = random_below(pair, 4);

    return choice < 2 ? choice : (uint32_t)random_next(pair) & table_most(pair->image, reg);
}

/* `box` is NULL for a call other than port write and run, as in refusals.h. */
static bool accepted(const struct pair *pair, const char *what, caisson_answer answer, const struct box *box)
{
    if (answer.number == CAISSON_ACCEPTED)
        return true;
    say("%s: ", what);
    refusal_say(answer, box, pair->names);
    return false;
}

/* The same of a replay. */
static bool replayed(const struct pair *pair, caisson_answer answer, const struct box *box)
{
    if (answer.number == CAISSON_ACCEPTED)
        return true;
    say("replay: ");
    replay_refusal_say(answer, box, pair->names);
    return false;
}

/* The bytes of a record at most: a value for each register; for each state its number and what is bound to it. */
#define LOW_RECORD (CAISSON_REGISTERS * CAISSON_WORD + CAISSON_STATES * (1u + CAISSON_PARAMETERS))

/* Of a design with parameters the states that the level may have seen run in the last cycle, with their
   bindings. */
static size_t low_states(const struct pair *pair, const struct box *box, uint8_t *record)
{
    uint8_t states[CAISSON_STATES];
    size_t count = box_path(box, pair->level, states);
    size_t length = 0;

    for (size_t i = 0; i < count; i++) {
        record[length++] = states[i];
        for (size_t own = 0; own < table_parameters(pair->image, states[i]); own++)
            record[length++] = (uint8_t)table_bound(pair->image, box->targets_before, states[i], own);
    }
    return length;
}

/* The values at or below the level, one after the other, and the states; answers how many bytes they take. */
static size_t low_record(const struct pair *pair, const struct box *box, uint8_t *record)
{
    size_t length = 0;

    for (size_t reg = 0; reg < box_registers(box); reg++) {
        if (table_sees(pair->image, pair->level, reg)) {
            memcpy(record + length, box->registers + CAISSON_WORD * reg, CAISSON_WORD);
            length += CAISSON_WORD;
        }
    }
    return table_has_parameters(pair->image) ? length + low_states(pair, box, record + length) : length;
}

static bool low_equal(const struct pair *pair)
{
    uint8_t records[2][LOW_RECORD];
    size_t length = low_record(pair, &pair->boxes[0], records[0]);

    return low_record(pair, &pair->boxes[1], records[1]) == length && memcmp(records[0], records[1], length) == 0;
}

static bool both_reset(struct pair *pair)
{
    return accepted(pair, "reset", box_reset(&pair->boxes[0]), NULL) &&
           accepted(pair, "reset", box_reset(&pair->boxes[1]), NULL);
}

static bool write_port(struct pair *pair, int box, uint32_t reg, uint32_t value)
{
    pair->writes++;
    return accepted(pair, "port write", box_write_port(&pair->boxes[box], reg, value), &pair->boxes[box]);
}

static bool run(struct pair *pair, int box, uint32_t cycles, bool journalled)
{
    caisson_answer answer = journalled ? box_run_journalled(&pair->boxes[box], &pair->journals[box], cycles)
                                       : box_run(&pair->boxes[box], cycles);

    if (!accepted(pair, "run", answer, &pair->boxes[box]))
        return false;
    if (answer.count != cycles)
        say("run: %zu cycles done of %" PRIu32 "\n", answer.count, cycles);
    return answer.count == cycles;
}

static uint32_t low_port(struct pair *pair)
{
    return pair->low_ports[random_below(pair, (uint32_t)pair->low_count)];
}

static uint32_t high_port(struct pair *pair)
{
    return pair->high_ports[random_below(pair, (uint32_t)pair->high_count)];
}

/* A low port is given one value in both boxes. */
static bool low_write(struct pair *pair)
{
    uint32_t reg = low_port(pair);
    uint32_t value = random_value(pair, reg);

    return write_port(pair, 0, reg, value) && write_port(pair, 1, reg, value);
}

/* A high port is given some value in one box, and nothing is said to the other. */
static bool high_write(struct pair *pair, int box)
{
    uint32_t reg = high_port(pair);

    return write_port(pair, box, reg, random_value(pair, reg));
}

static bool random_writes(struct pair *pair)
{
    for (uint32_t left = random_below(pair, WRITES + 1); left > 0; left--) {
        if (pair->low_count > 0 && !low_write(pair))
            return false;
        for (int box = 0; box < 2; box++) {
            if (pair->high_count > 0 && random_below(pair, 4) > 0 && !high_write(pair, box))
                return false;
        }
    }
    return true;
}

/*
 * The same number of cycles in both boxes, with a journal in both or in none; the second makes them in two
 * runs, with a high write between, which must not show either.
 */
static bool random_cycles(struct pair *pair)
{
    uint32_t cycles = 1 + random_below(pair, LONGEST_RUN);
    uint32_t before = random_below(pair, cycles + 1);
    bool journalled = random_below(pair, 2) == 0;

    pair->cycles += cycles;
    if (journalled)
        pair->journalled += cycles;
    return run(pair, 0, cycles, journalled) && run(pair, 1, before, journalled) &&
           (pair->high_count == 0 || high_write(pair, 1)) && run(pair, 1, cycles - before, journalled);
}

/* A trace that is being made. */
struct trace {
    caisson_record records[2 * RECORDS];
    size_t count;
};

static void record_add(struct pair *pair, struct trace *trace, uint32_t cycle, uint32_t reg, uint32_t value)
{
    trace->records[trace->count++] = (caisson_record){cycle, reg, value};
    pair->records++;
}

/* Low records for one cycle are the same in both traces, high ones each as chance has it. */
static void records_add(struct pair *pair, struct trace traces[2], uint32_t cycle)
{
    if (pair->low_count > 0) {
        uint32_t reg = low_port(pair);
        uint32_t value = random_value(pair, reg);

        record_add(pair, &traces[0], cycle, reg, value);
        record_add(pair, &traces[1], cycle, reg, value);
    }
    for (int box = 0; box < 2; box++) {
        if (pair->high_count > 0 && random_below(pair, 4) > 0) {
            uint32_t reg = high_port(pair);

            record_add(pair, &traces[box], cycle, reg, random_value(pair, reg));
        }
    }
}

/* As many cycles in both boxes, each with its own trace, and one cycle more by a run, which shows the states. */
static bool random_replay(struct pair *pair)
{
    uint32_t cycles = 1 + random_below(pair, LONGEST_RUN);
    struct trace traces[2] = {{.count = 0}, {.count = 0}};
    uint32_t cycle = 0;

    for (uint32_t left = random_below(pair, RECORDS + 1); left > 0; left--) {
        /* The next one often belongs to the same cycle. */
        if (random_below(pair, 2) == 0)
            cycle += random_below(pair, cycles - cycle);
        records_add(pair, traces, cycle);
    }
    pair->replays++;
    pair->cycles += cycles + 1;
    for (int box = 0; box < 2; box++) {
        caisson_answer answer = box_replay(&pair->boxes[box], traces[box].records, traces[box].count, cycles);

        if (!replayed(pair, answer, &pair->boxes[box]) || !run(pair, box, 1, false))
            return false;
    }
    return true;
}

/* Both go back by one number, also over cycles that were not journalled, port writes and resets. */
static bool random_back(struct pair *pair)
{
    uint32_t cycles = random_below(pair, (uint32_t)journal_reach(&pair->journals[0]) + 1);

    pair->steps_back += cycles > 0;
    pair->gone_back += cycles;
    for (int box = 0; box < 2; box++) {
        if (!accepted(pair, "going back", box_step_back(&pair->boxes[box], &pair->journals[box], cycles), NULL))
            return false;
    }
    return true;
}

/* Whether the next cycle of a box may run an edited body: the targets lead there. */
static bool leads_to_edited(const struct pair *pair, const struct box *box)
{
    size_t state = 0;

    while (!pair->edited[state] && box->targets[state] != state)
        state = box->targets[state];
    return pair->edited[state];
}

static bool sample(struct pair *pair)
{
    if (!low_equal(pair)) {
        char digits[SHOWN_DIGITS];

        say("the boxes differ at level %s after %" PRIu64 " cycles and %" PRIu64 " steps back, at sample %" PRIu64
            "\n",
            level_shown(pair->names, pair->level, digits), pair->cycles, pair->steps_back, pair->samples);
        return false;
    }
    pair->samples++;
    pair->high_differs += memcmp(pair->boxes[0].registers, pair->boxes[1].registers,
                                 pair->boxes[0].registers_length) != 0;
    pair->edited_turns += leads_to_edited(pair, &pair->boxes[0]) || leads_to_edited(pair, &pair->boxes[1]);
    return true;
}

/* The ports at or below the level, and the others. */
static void sort_registers(struct pair *pair)
{
    for (uint32_t reg = 0; reg < box_registers(&pair->boxes[0]); reg++) {
        bool low = table_sees(pair->image, pair->level, reg);

        pair->low_registers += low;
        if (!table_is_port(pair->image, reg))
            continue;
        if (low)
            pair->low_ports[pair->low_count++] = reg;
        else
            pair->high_ports[pair->high_count++] = reg;
    }
}

static void find_edits(struct pair *pair, const uint8_t *other)
{
    for (size_t state = 0; state < table_states(pair->image); state++) {
        pair->edited[state] = !neighbour_same_body(pair->image, other, state);
        pair->edited_count += pair->edited[state];
    }
}

bool pair_hides_edits(const struct pair *pair, size_t *state)
{
    for (*state = 0; *state < table_states(pair->image); ++*state) {
        if (pair->edited[*state] && neighbour_shows_edit(pair->image, pair->level, *state))
            return false;
    }
    return true;
}

bool pair_start(struct pair *pair, const struct design *const designs[2], const struct names *names, size_t level,
                uint64_t seed)
{
    *pair = (struct pair){.names = names, .image = designs[0]->image, .level = level, .random = seed};
    for (int box = 0; box < 2; box++) {
        if (!accepted(pair, "reset", box_start(&pair->boxes[box], designs[box]->image, designs[box]->length), NULL))
            return false;
    }
    sort_registers(pair);
    find_edits(pair, designs[1]->image);
    for (int box = 0; box < 2; box++) {
        size_t saved_length = pair->boxes[box].registers_length + pair->boxes[box].targets_length;

        if (journal_start(&pair->journals[box], JOURNAL, saved_length) != STATUS_DONE)
            return false;
    }
    return true;
}

void pair_end(struct pair *pair)
{
    journal_free(&pair->journals[0]);
    journal_free(&pair->journals[1]);
}

/* A low write, or in turns with it one cycle more, in the first box alone. */
static bool first_alone(struct pair *pair, uint32_t attempt)
{
    if (pair->low_count > 0 && attempt % 2 == 0) {
        uint32_t reg = low_port(pair);

        return write_port(pair, 0, reg, random_value(pair, reg));
    }
    return run(pair, 0, 1, false);
}

bool pair_can_differ(struct pair *pair, bool *can)
{
    *can = false;
    for (uint32_t attempt = 0; attempt < ATTEMPTS && !*can; attempt++) {
        if (!first_alone(pair, attempt) || !run(pair, 0, 1, false) || !run(pair, 1, 1, false))
            return false;
        *can = !low_equal(pair);
    }
    pair->writes = 0;
    return both_reset(pair);
}

static bool random_step(struct pair *pair)
{
    if (random_below(pair, STEPS_BACK) == 0)
        return random_back(pair);
    return random_below(pair, REPLAYS) == 0 ? random_replay(pair) : random_cycles(pair);
}

bool pair_round(struct pair *pair)
{
    if (random_below(pair, RESETS) == 0 && !both_reset(pair))
        return false;
    return random_writes(pair) && random_step(pair) && sample(pair);
}
