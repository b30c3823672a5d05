#include "refusals.h"

#include "say.h"

/* What the place of a refusal is, as caisson_refusals.def names it. */
enum place {
    PLACE_NONE,
    PLACE_LABEL,
    PLACE_REGISTER,
    PLACE_STATE,
    PLACE_NODE, /* a command, or from CAISSON_EXPRESSION_PLACE on an expression */
    PLACE_AREA, /* 0 for a length, else a register or a state */
    PLACE_PARAMETER, /* a state, else a node */
    PLACE_RECORD, /* of a port trace */
    PLACE_WRITE, /* a register, or of a replay a record */
    PLACE_WIRE  /* of a gate table, which this host does not run */
};

struct rule {
    enum place place;
    const char *words;
};

static const struct rule rules[] = {
#define CAISSON_REFUSAL(number, constant, name, kind, place, wrong, more) [constant] = {PLACE_##kind, wrong},
#include "caisson_refusals.def"
};

/*
 * The lengths of a box are those that the library has told. So the place is a register where one holds
 * a value too large for its width, which is judged first, and a state where none does.
 */
static enum place area_place(const struct box *box)
{
    if (box == NULL)
        return PLACE_AREA;
    return box_within_widths(box) ? PLACE_STATE : PLACE_REGISTER;
}

static void node_say(size_t number)
{
    if (number < CAISSON_EXPRESSION_PLACE)
        say(" at command %zu", number);
    else
        say(" at expression %zu", number - CAISSON_EXPRESSION_PLACE);
}

/* Behind a number the name of what has it. */
static void named_say(const char *kind, size_t number, const char *name)
{
    say(" %s %zu", kind, number);
    if (name != NULL)
        say(" (%s)", name);
}

static void place_say(enum place place, size_t number, const struct names *names)
{
    switch (place) {
    case PLACE_NONE:
    case PLACE_WRITE: /* the call has told which */
        break;
    case PLACE_LABEL:
        named_say("at label", number, name_of_label(names, number));
        break;
    case PLACE_REGISTER:
        named_say("at register", number, name_of_register(names, number));
        break;
    case PLACE_STATE:
        named_say("at state", number, name_of_state(names, number));
        break;
    case PLACE_NODE:
        node_say(number);
        break;
    case PLACE_AREA:
        if (number == 0) {
            say(" at a length, register 0 or state 0");
        } else {
            named_say("at register", number, name_of_register(names, number));
            named_say("or state", number, name_of_state(names, number));
        }
        break;
    case PLACE_PARAMETER:
        /* The image tells which; `caisson explain` reads it. */
        if (number < CAISSON_STATES) {
            named_say("at state", number, name_of_state(names, number));
            say(" or command %zu", number);
        } else {
            node_say(number);
        }
        break;
    case PLACE_RECORD:
        say(" at record %zu", number);
        break;
    case PLACE_WIRE:
        say(" at wire %zu", number);
        break;
    }
}

/* What the call tells of a place, beside its number: `write` is that of 13 and 17. */
static enum place place_known(enum place place, const struct box *box, enum place write)
{
    if (place == PLACE_AREA)
        return area_place(box);
    return place == PLACE_WRITE ? write : place;
}

static void answer_say(caisson_answer answer, const struct box *box, const struct names *names, enum place write)
{
    say("refused by rule %u", (unsigned)answer.number);
    /* A later library may have more rules than this table. */
    if (answer.number >= sizeof rules / sizeof rules[0] || rules[answer.number].words == NULL) {
        say(" at place %zu, which this host has no words for.\n", answer.place);
        return;
    }
    place_say(place_known(rules[answer.number].place, box, write), answer.place, names);
    say(": %s\n", rules[answer.number].words);
}

void refusal_say(caisson_answer answer, const struct box *box, const struct names *names)
{
    answer_say(answer, box, names, PLACE_REGISTER);
}

void replay_refusal_say(caisson_answer answer, const struct box *box, const struct names *names)
{
    answer_say(answer, box, names, PLACE_RECORD);
}
