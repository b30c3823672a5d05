#include "table.h"

#include "caisson.h"

/* The directory: pairs of 16-bit offset and length, in this order. docs/FORMAT.md has the records. */
enum section { LABELS = 0, REGISTERS = 1, STATES = 2 };

enum {
    DIRECTORY_PAIR = 4, /* bytes of a pair */
    REGISTER_LABEL = 0, /* where the label stands in a register's record */
    REGISTER_KIND = 1,  /* where the kind stands */
    REGISTER_WIDTH = 6, /* where the width stands, behind the reset value */
    KIND_PORT = 1,      /* the kind of a port */
    STATE_PARENT = 0,   /* where the parent stands in a state's record */
    STATE_LABEL = 1,    /* where the label stands */
    STATE_COUNT = 4     /* where the number of its parameters stands */
};

static size_t number_at(const uint8_t *bytes)
{
    return bytes[0] | (size_t)bytes[1] << 8;
}

static const uint8_t *records(const uint8_t *image, enum section section)
{
    return image + number_at(image + DIRECTORY_PAIR * section);
}

static uint8_t register_field(const uint8_t *image, size_t reg, size_t field)
{
    return records(image, REGISTERS)[CAISSON_REGISTER_LENGTH * reg + field];
}

static uint8_t state_field(const uint8_t *image, size_t state, size_t field)
{
    return records(image, STATES)[CAISSON_STATE_LENGTH * state + field];
}

size_t table_labels(const uint8_t *image)
{
    return number_at(image + DIRECTORY_PAIR * LABELS + 2) / CAISSON_LABEL_LENGTH;
}

size_t table_registers(const uint8_t *image)
{
    return number_at(image + DIRECTORY_PAIR * REGISTERS + 2) / CAISSON_REGISTER_LENGTH;
}

bool table_flows(const uint8_t *image, size_t from, size_t to)
{
    return number_at(records(image, LABELS) + CAISSON_LABEL_LENGTH * from) >> to & 1;
}

bool table_sees(const uint8_t *image, size_t level, size_t reg)
{
    return table_flows(image, register_field(image, reg, REGISTER_LABEL), level);
}

bool table_is_port(const uint8_t *image, size_t reg)
{
    return register_field(image, reg, REGISTER_KIND) == KIND_PORT;
}

uint32_t table_width(const uint8_t *image, size_t reg)
{
    return register_field(image, reg, REGISTER_WIDTH);
}

uint32_t table_most(const uint8_t *image, size_t reg)
{
    return UINT32_MAX >> (CAISSON_WIDTH - table_width(image, reg));
}

size_t table_states(const uint8_t *image)
{
    return number_at(image + DIRECTORY_PAIR * STATES + 2) / CAISSON_STATE_LENGTH;
}

size_t table_parameters(const uint8_t *image, size_t state)
{
    return state_field(image, state, STATE_COUNT);
}

bool table_has_parameters(const uint8_t *image)
{
    for (size_t state = 0; state < table_states(image); state++) {
        if (table_parameters(image, state) > 0)
            return true;
    }
    return false;
}

/* How many parameters the states above a state have. */
static size_t inherited(const uint8_t *image, size_t state)
{
    size_t count = 0;

    while (state != 0) {
        state = state_field(image, state, STATE_PARENT);
        count += table_parameters(image, state);
    }
    return count;
}

size_t table_bound(const uint8_t *image, const uint8_t *targets, size_t state, size_t parameter)
{
    return targets[table_states(image) + CAISSON_PARAMETERS * state + parameter];
}

/* The register bound to a parameter in scope: of the state itself, or of one above it. */
static size_t bound_in_scope(const uint8_t *image, const uint8_t *targets, size_t state, size_t number)
{
    while (inherited(image, state) > number)
        state = state_field(image, state, STATE_PARENT);
    return table_bound(image, targets, state, number - inherited(image, state));
}

bool table_sees_state(const uint8_t *image, const uint8_t *targets, size_t level, size_t state)
{
    size_t label = state_field(image, state, STATE_LABEL);

    if (label < CAISSON_PARAMETER_LABEL)
        return table_flows(image, label, level);
    return table_sees(image, level, bound_in_scope(image, targets, state, label - CAISSON_PARAMETER_LABEL));
}
