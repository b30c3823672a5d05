/*
 * table.h: what a host has to know of the records in a design table.
 *
 * Only for an image that caisson_check has accepted. Nothing is checked here: offsets and labels are
 * taken as they stand, and the acceptance is the reason why they lie within the image. Register, label
 * and state numbers given must be below the counts. The lengths of the areas are the library's to tell:
 * box.h has them.
 */
#ifndef TABLE_H
#define TABLE_H

#include <stdbool.h>
#include <stddef.h>
#include <stdint.h>

size_t table_labels(const uint8_t *image); /* how many labels; from 1 to CAISSON_LABELS */

size_t table_registers(const uint8_t *image); /* how many registers; at most CAISSON_REGISTERS */

/* Whether label `from` flows to label `to`, that is, lies at or below it. */
bool table_flows(const uint8_t *image, size_t from, size_t to);

/* Whether a register lies at or below a level: whether a party of that level sees it. */
bool table_sees(const uint8_t *image, size_t level, size_t reg);

/* Whether a register is a port; caisson_write_port refuses every other one. */
bool table_is_port(const uint8_t *image, size_t reg);

/* How many bits a register has; from 1 to CAISSON_WIDTH. */
uint32_t table_width(const uint8_t *image, size_t reg);

/* The largest value of a register: all bits of its width. caisson_write_port refuses a larger one. */
uint32_t table_most(const uint8_t *image, size_t reg);

size_t table_states(const uint8_t *image); /* how many states; from 1 to CAISSON_STATES */

/* How many parameters a state has of its own; from 0 to CAISSON_PARAMETERS. */
size_t table_parameters(const uint8_t *image, size_t state);

/* Whether any state has one. */
bool table_has_parameters(const uint8_t *image);

/* The register that is bound to a state's own parameter, from 0, by a target area that a reset or a run has
   left. */
size_t table_bound(const uint8_t *image, const uint8_t *targets, size_t state, size_t parameter);

/*
 * Whether a state along the targets of such an area lies at or below a level: whether a party of that level
 * sees it run. Where its label is a parameter's, it is that of the register bound.
 */
bool table_sees_state(const uint8_t *image, const uint8_t *targets, size_t level, size_t state);

#endif
