#include "shown.h"

#include <stdio.h>
#include <string.h>

#include "numbers.h"
#include "say.h"

static const char *shown(const char *name, size_t number, char digits[SHOWN_DIGITS])
{
    if (name != NULL)
        return name;
    (void)snprintf(digits, SHOWN_DIGITS, "%zu", number);
    return digits;
}

const char *level_shown(const struct names *names, size_t level, char digits[SHOWN_DIGITS])
{
    return shown(name_of_label(names, level), level, digits);
}

const char *state_shown(const struct names *names, size_t state, char digits[SHOWN_DIGITS])
{
    return shown(name_of_state(names, state), state, digits);
}

bool level_find(const struct names *names, const char *text, size_t labels, size_t *level)
{
    uint64_t number;

    if (label_named(names, text, strlen(text), level))
        return true;
    if (!number_read_all(text, UINT32_MAX, &number)) {
        if (name_of_label(names, 0) == NULL)
            say("level %s is no number, and the design has no names file\n", text);
        else
            say("level %s is no label of the design\n", text);
        return false;
    }
    *level = (size_t)number;
    if (number >= labels)
        say("level %s is no label of the design, which has labels 0 to %zu\n", text, labels - 1);
    return number < labels;
}
