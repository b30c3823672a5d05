#include "box.h"

#include <string.h>

#include "table.h"

caisson_answer box_start(struct box *box, const uint8_t *image, size_t image_length)
{
    box->image = image;
    box->image_length = image_length;
    /* Of a refused image both are 0, and the reset refuses it again. */
    box->registers_length = caisson_registers_length(image, image_length).count;
    box->targets_length = caisson_targets_length(image, image_length).count;
    /* A library with larger limits than the header's must not be lent more than there is. */
    if (box->registers_length > sizeof box->registers || box->targets_length > sizeof box->targets)
        return (caisson_answer){.number = CAISSON_AREA};
    return box_reset(box);
}

caisson_answer box_reset(struct box *box)
{
    caisson_answer answer = caisson_reset(box->image, box->image_length, box->registers, box->registers_length,
                                          box->targets, box->targets_length);

    memcpy(box->targets_before, box->targets, sizeof box->targets);
    return answer;
}

caisson_answer box_write_port(struct box *box, uint32_t reg, uint32_t value)
{
    return caisson_write_port(box->image, box->image_length, box->registers, box->registers_length, reg, value);
}

static caisson_answer run_present(struct box *box, struct journal *journal, uint32_t cycles)
{
    return caisson_run_journalled(box->image, box->image_length, box->registers, box->registers_length, box->targets,
                                  box->targets_length, journal->present, journal->length, cycles);
}

/* As many cycles at a time as the present journal has room for. */
static caisson_answer run_journalled(struct box *box, struct journal *journal, uint32_t cycles)
{
    uint32_t left = cycles;
    caisson_answer answer;

    do {
        uint32_t part;

        if (journal_room(journal) == 0)
            journal_turn(journal);
        part = left < journal_room(journal) ? left : journal_room(journal);
        answer = run_present(box, journal, part);
        if (answer.number != CAISSON_ACCEPTED)
            return answer;
        left -= part;
    } while (left > 0);
    answer.count = cycles;
    return answer;
}

/* With a journal or, where that is NULL, without. */
static caisson_answer run(struct box *box, struct journal *journal, uint32_t cycles)
{
    if (journal == NULL)
        return caisson_run(box->image, box->image_length, box->registers, box->registers_length, box->targets,
                           box->targets_length, cycles);
    /* Nothing is forgotten for a run of none, nor for one that is refused. */
    if (cycles == 0 || cycles > CAISSON_CYCLES)
        return run_present(box, journal, cycles);
    return run_journalled(box, journal, cycles);
}

/* The last cycle is run by itself where a record shows what it began with. */
static caisson_answer run_to_last(struct box *box, struct journal *journal, uint32_t cycles)
{
    caisson_answer answer;

    if (cycles == 0 || cycles > CAISSON_CYCLES || !table_has_parameters(box->image))
        return run(box, journal, cycles);
    answer = run(box, journal, cycles - 1);
    if (answer.number != CAISSON_ACCEPTED)
        return answer;
    memcpy(box->targets_before, box->targets, sizeof box->targets);
    answer = run(box, journal, 1);
    if (answer.number == CAISSON_ACCEPTED)
        answer.count = cycles;
    return answer;
}

caisson_answer box_run(struct box *box, uint32_t cycles)
{
    return run_to_last(box, NULL, cycles);
}

caisson_answer box_run_journalled(struct box *box, struct journal *journal, uint32_t cycles)
{
    return run_to_last(box, journal, cycles);
}

caisson_answer box_replay(struct box *box, const caisson_record *trace, size_t count, uint32_t cycles)
{
    uint8_t before[sizeof box->targets];
    caisson_answer answer;

    memcpy(before, box->targets, sizeof before);
    answer = caisson_replay(box->image, box->image_length, box->registers, box->registers_length, box->targets,
                            box->targets_length, trace, count, cycles);
    if (answer.number == CAISSON_ACCEPTED && cycles == 1)
        memcpy(box->targets_before, before, sizeof before);
    return answer;
}

static caisson_answer step_back(struct box *box, uint8_t *journal, size_t length, uint32_t cycles)
{
    caisson_answer answer =
        caisson_step_back(box->image, box->image_length, box->registers, box->registers_length, box->targets,
                          box->targets_length, journal, length, cycles);

    if (answer.number == CAISSON_ACCEPTED && cycles > 0)
        memcpy(box->targets_before, box->targets, sizeof box->targets);
    return answer;
}

/* Where the present journal does not reach so far, the earlier one alone has the state to be restored. */
caisson_answer box_step_back(struct box *box, struct journal *journal, uint32_t cycles)
{
    uint32_t count = journal_count(journal);
    caisson_answer answer;

    if (cycles <= count)
        return step_back(box, journal->present, journal->length, cycles);
    answer = step_back(box, journal->earlier, journal->length, cycles - count);
    if (answer.number != CAISSON_ACCEPTED)
        return answer;
    journal_return(journal);
    answer.count = cycles;
    return answer;
}

size_t box_path(const struct box *box, size_t level, uint8_t states[CAISSON_STATES])
{
    const uint8_t *targets = box->targets_before;
    size_t count = 0;
    size_t state = 0;

    while (table_sees_state(box->image, targets, level, state)) {
        states[count++] = (uint8_t)state;
        if (targets[state] == state)
            break;
        state = targets[state];
    }
    return count;
}

size_t box_registers(const struct box *box)
{
    return box->registers_length / CAISSON_WORD;
}

uint32_t box_value(const struct box *box, size_t reg)
{
    const uint8_t *word = box->registers + CAISSON_WORD * reg;

    return (uint32_t)word[0] | (uint32_t)word[1] << 8 | (uint32_t)word[2] << 16 | (uint32_t)word[3] << 24;
}

bool box_within_widths(const struct box *box)
{
    for (size_t reg = 0; reg < box_registers(box); reg++) {
        if (box_value(box, reg) > table_most(box->image, reg))
            return false;
    }
    return true;
}
