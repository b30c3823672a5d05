#include "neighbour.h"

#include <string.h>

#include "caisson.h"
#include "table.h"

/* The directory: pairs of 16-bit offset and length, in this order. docs/FORMAT.md has the records. */
enum section { LABELS, REGISTERS, STATES, COMMANDS, EXPRESSIONS };

enum {
    DIRECTORY_PAIR = 4, /* bytes of a pair */
    STATE_LABEL = 1,    /* where the label stands in a state's record */
    STATE_COMMAND = 2,  /* where the command number stands */
    STATE_REST = 4,     /* where the fields behind it begin */
    NODE_A = 2,         /* where the fields of a node stand; a constant fills the last two */
    NODE_B = 4,
    NODE_C = 6
};

enum command { ASSIGN = 1, SEQUENCE = 2, IF = 5 };
enum expression { CONSTANT = 0, READ = 1 };

static size_t number_at(const uint8_t *bytes)
{
    return bytes[0] | (size_t)bytes[1] << 8;
}

static const uint8_t *records(const uint8_t *image, enum section section)
{
    return image + number_at(image + DIRECTORY_PAIR * section);
}

static const uint8_t *state_record(const uint8_t *image, size_t state)
{
    return records(image, STATES) + CAISSON_STATE_LENGTH * state;
}

static const uint8_t *node(const uint8_t *image, enum section section, size_t number)
{
    return records(image, section) + CAISSON_NODE_LENGTH * number;
}

static bool same_section(const uint8_t *image, const uint8_t *other, enum section section)
{
    size_t length = number_at(image + DIRECTORY_PAIR * section + 2);

    return number_at(other + DIRECTORY_PAIR * section + 2) == length &&
           memcmp(records(image, section), records(other, section), length) == 0;
}

/* Apart from command numbers. */
static bool same_states(const uint8_t *image, const uint8_t *other)
{
    if (table_states(image) != table_states(other))
        return false;
    for (size_t state = 0; state < table_states(image); state++) {
        const uint8_t *record = state_record(image, state);
        const uint8_t *beside = state_record(other, state);

        if (memcmp(record, beside, STATE_COMMAND) != 0 ||
            memcmp(record + STATE_REST, beside + STATE_REST, CAISSON_STATE_LENGTH - STATE_REST) != 0)
            return false;
    }
    return true;
}

const char *neighbour_unlike_records(const uint8_t *image, const uint8_t *other)
{
    if (!same_section(image, other, LABELS))
        return "labels";
    if (!same_section(image, other, REGISTERS))
        return "registers";
    return same_states(image, other) ? NULL : "states";
}

/* Two nodes, each with the image that it stands in. */
struct both {
    const uint8_t *images[2];
    const uint8_t *nodes[2];
};

/* The parts that a field names. */
static struct both parts(struct both both, enum section section, size_t field)
{
    for (int side = 0; side < 2; side++)
        both.nodes[side] = node(both.images[side], section, number_at(both.nodes[side] + field));
    return both;
}

/* Kind and byte 1, or the bytes of a field and those behind it. */
static bool same_head(struct both both)
{
    return memcmp(both.nodes[0], both.nodes[1], NODE_A) == 0;
}

static bool same_from(struct both both, size_t field)
{
    return memcmp(both.nodes[0] + field, both.nodes[1] + field, CAISSON_NODE_LENGTH - field) == 0;
}

/* Accepted designs nest to a depth of CAISSON_DEPTH, and use every node once. */
static bool same_expression(struct both both)
{
    if (!same_head(both))
        return false;
    switch (both.nodes[0][0]) {
    case CONSTANT:
    case READ:
        return same_from(both, NODE_A);
    default:
        return same_expression(parts(both, EXPRESSIONS, NODE_A)) && same_expression(parts(both, EXPRESSIONS, NODE_B));
    }
}

static bool same_command(struct both both)
{
    if (!same_head(both))
        return false;
    switch (both.nodes[0][0]) {
    case ASSIGN:
        return same_expression(parts(both, EXPRESSIONS, NODE_A));
    case SEQUENCE:
        return same_command(parts(both, COMMANDS, NODE_A)) && same_command(parts(both, COMMANDS, NODE_B));
    case IF:
        return same_expression(parts(both, EXPRESSIONS, NODE_A)) && same_command(parts(both, COMMANDS, NODE_B)) &&
               same_command(parts(both, COMMANDS, NODE_C));
    default: /* skip and fall; goto, which has arguments there */
        return same_from(both, NODE_A);
    }
}

bool neighbour_same_body(const uint8_t *image, const uint8_t *other, size_t state)
{
    struct both both = {{image, other}, {state_record(image, state), state_record(other, state)}};

    return same_command(parts(both, COMMANDS, STATE_COMMAND));
}

bool neighbour_shows_edit(const uint8_t *image, size_t level, size_t state)
{
    size_t label = state_record(image, state)[STATE_LABEL];

    return label >= CAISSON_PARAMETER_LABEL || table_flows(image, label, level);
}
