/*
 * box.h: a design with the two areas that are its state.
 *
 * The areas are changed by the functions below and by nothing else. That is more than tidiness: the
 * promise that parties are kept apart is about areas that only reset, port write, run, replay and going back
 * have changed.
 */
#ifndef BOX_H
#define BOX_H

#include <stdbool.h>

#include "caisson.h"
#include "journal.h"

struct box {
    const uint8_t *image; /* must outlive the box */
    size_t image_length;
    size_t registers_length; /* as the library tells it for the image; so is the next */
    size_t targets_length;
    uint8_t registers[CAISSON_REGISTERS * CAISSON_WORD];
    uint8_t targets[CAISSON_STATES * CAISSON_TARGET_LENGTH];
    /* Of a design with parameters, the targets and bindings that the last cycle began with; after a reset and
       after going back, those that the next one begins with. A replay of more than one cycle leaves them. */
    uint8_t targets_before[CAISSON_STATES * CAISSON_TARGET_LENGTH];
};

/* Takes an image and the lengths of its areas, and resets these. A refused image is refused here. */
CAISSON_LOOK_AT_ANSWER
caisson_answer box_start(struct box *box, const uint8_t *image, size_t image_length);

CAISSON_LOOK_AT_ANSWER
caisson_answer box_reset(struct box *box);

CAISSON_LOOK_AT_ANSWER
caisson_answer box_write_port(struct box *box, uint32_t reg, uint32_t value);

CAISSON_LOOK_AT_ANSWER
caisson_answer box_run(struct box *box, uint32_t cycles);

/* So many cycles, each with its records of the trace before it. Of a single one it is known which targets it began
   with. */
CAISSON_LOOK_AT_ANSWER
caisson_answer box_replay(struct box *box, const caisson_record *trace, size_t count, uint32_t cycles);

/* Runs, and each cycle is saved in the journal. Where that is full, its oldest cycles are forgotten. */
CAISSON_LOOK_AT_ANSWER
caisson_answer box_run_journalled(struct box *box, struct journal *journal, uint32_t cycles);

/* Back by so many cycles of the journal: the areas as they were before them, ports too. */
CAISSON_LOOK_AT_ANSWER
caisson_answer box_step_back(struct box *box, struct journal *journal, uint32_t cycles);

/*
 * Of a design with parameters: the states along the targets that the last cycle began with, from the root on,
 * as long as they lie at or below a level by the labels that the bindings gave them then. Answers how many.
 * The states that ran in that cycle are the first of them; the library does not tell how many.
 */
size_t box_path(const struct box *box, size_t level, uint8_t states[CAISSON_STATES]);

/* How many registers there are; at most CAISSON_REGISTERS. */
size_t box_registers(const struct box *box);

/* The value of a register, whose number must be below that. */
uint32_t box_value(const struct box *box, size_t reg);

/* Whether every register is within its width, as each is after a reset, a port write and a run. Only
   for an accepted image. */
bool box_within_widths(const struct box *box);

#endif
