#include "names.h"

#include <stdlib.h>
#include <string.h>

static bool is_letter(char character)
{
    return (character >= 'a' && character <= 'z') || (character >= 'A' && character <= 'Z') || character == '_';
}

bool is_name(const char *characters, size_t length)
{
    if (length == 0 || !is_letter(characters[0]))
        return false;
    for (size_t i = 1; i < length; i++) {
        if (!is_letter(characters[i]) && (characters[i] < '0' || characters[i] > '9'))
            return false;
    }
    return true;
}

void names_free(struct names *names)
{
    free(names->text);
    *names = (struct names){0};
}

/* Numbers above the counts come from refusals of bytes that no name is for. */
static const char *name_at(const struct names *names, const char *const *list, size_t most, size_t number)
{
    return names == NULL || number >= most ? NULL : list[number];
}

const char *name_of_label(const struct names *names, size_t label)
{
    return name_at(names, names == NULL ? NULL : names->labels, CAISSON_LABELS, label);
}

const char *name_of_register(const struct names *names, size_t reg)
{
    return name_at(names, names == NULL ? NULL : names->registers, CAISSON_REGISTERS, reg);
}

const char *name_of_state(const struct names *names, size_t state)
{
    return name_at(names, names == NULL ? NULL : names->states, CAISSON_STATES, state);
}

static bool named(const char *const *list, size_t most, const char *name, size_t length, size_t *number)
{
    for (*number = 0; *number < most && list[*number] != NULL; ++*number) {
        if (strlen(list[*number]) == length && memcmp(list[*number], name, length) == 0)
            return true;
    }
    return false;
}

bool label_named(const struct names *names, const char *name, size_t length, size_t *label)
{
    return names != NULL && named(names->labels, CAISSON_LABELS, name, length, label);
}

bool register_named(const struct names *names, const char *name, size_t length, size_t *reg)
{
    return names != NULL && named(names->registers, CAISSON_REGISTERS, name, length, reg);
}
