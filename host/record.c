#include "record.h"

#include <inttypes.h>
#include <stdarg.h>

#include "output.h"
#include "say.h"
#include "table.h"

/* By name, or by number behind a letter: ` timer` or ` r0`. */
static bool thing_add(struct text *text, const char *before, const char *name, char letter, size_t number)
{
    return name != NULL ? text_add(text, "%s%s", before, name) : text_add(text, "%s%c%zu", before, letter, number);
}

/* Of a state with parameters which it is and the registers bound to them: ` s2(r4,r5)`. */
static bool state_add(struct text *text, const struct box *box, const struct names *names, size_t state)
{
    size_t parameters = table_parameters(box->image, state);

    if (parameters == 0)
        return true;
    if (!thing_add(text, " ", name_of_state(names, state), 's', state))
        return false;
    for (size_t i = 0; i < parameters; i++) {
        size_t bound = table_bound(box->image, box->targets_before, state, i);

        if (!thing_add(text, i == 0 ? "(" : ",", name_of_register(names, bound), 'r', bound))
            return false;
    }
    return text_add(text, ")");
}

static bool states_add(struct text *text, const struct box *box, const struct names *names, uint32_t level)
{
    uint8_t states[CAISSON_STATES];
    size_t count = box_path(box, level, states);

    for (size_t i = 0; i < count; i++) {
        if (!state_add(text, box, names, states[i]))
            return false;
    }
    return true;
}

bool record_add(struct text *text, const struct box *box, const struct names *names, uint64_t cycle,
                const char *when, const struct party *party)
{
    size_t registers = box_registers(box);

    if (!text_add(text, "cycle %" PRIu64 "%s%s party %.*s:", cycle, when[0] == '\0' ? "" : " at ", when,
                  (int)party->name_length, party->name))
        return false;
    for (size_t reg = 0; reg < registers; reg++) {
        if (table_sees(box->image, party->level, reg) &&
            (!thing_add(text, " ", name_of_register(names, reg), 'r', reg) ||
             !text_add(text, "=%" PRIu32, box_value(box, reg))))
            return false;
    }
    if (table_has_parameters(box->image) && !states_add(text, box, names, party->level))
        return false;
    return text_add(text, "\n");
}

enum status record_line(const char *format, ...)
{
    struct text line = {0};
    enum status status = STATUS_INPUT;
    va_list arguments;

    va_start(arguments, format);
    if (text_add_list(&line, format, arguments))
        status = output_add(line.characters, line.length);
    else
        say("no memory for a line\n");
    va_end(arguments);
    text_free(&line);
    return status;
}

enum status record_flush(void)
{
    return output_flush();
}
