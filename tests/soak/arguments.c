#include "arguments.h"

#include <string.h>

#include "names.h"
#include "numbers.h"
#include "say.h"

const char arguments_usage[] =
    "usage: soak DESIGN [--neighbour DESIGN] [--seconds N] [--seed N] [--level LABEL]\n"
    "  --neighbour DESIGN  what the second box runs: the design as a neighbour has edited it, with the\n"
    "                      same labels, registers and states; soak at the levels that see no edited body\n"
    "  --seconds N         run so long, 60 if not given, in equal parts for the levels\n"
    "  --seed N            what chance starts from, 1 if not given\n"
    "  --level LABEL       soak at this level only, not at each in turn: its number or, with DESIGN.names,\n"
    "                      its name\n"
    "  --help              print this\n"
    "It ends with\n"
    "  0  equal at every level that has a register in sight, and a port or all edited bodies out of sight\n"
    "  1  the boxes differed, or the library refused a design or a call\n"
    "  2  wrong usage, an input that cannot be read, or an output that cannot be written\n"
    "  3  no difference, but at some level nothing in sight changes, so that none could have been\n"
    "     seen, or no edited state had its turn; or no level could be tried\n";

static bool wrong(const char *what, const char *argument)
{
    say("soak: %s%s\n%s", what, argument, arguments_usage);
    return false;
}

static bool takes_value(const char *name)
{
    return strcmp(name, "--neighbour") == 0 || strcmp(name, "--seconds") == 0 || strcmp(name, "--seed") == 0 ||
           strcmp(name, "--level") == 0;
}

static bool valued_read(struct arguments *arguments, const char *name, const char *value)
{
    if (strcmp(name, "--neighbour") == 0) {
        arguments->neighbour = value;
    } else if (strcmp(name, "--seconds") == 0) {
        if (!number_read_all(value, UINT32_MAX, &arguments->seconds) || arguments->seconds == 0)
            return wrong("--seconds takes a number of seconds from 1 on, not ", value);
    } else if (strcmp(name, "--seed") == 0) {
        if (!number_read_all(value, UINT64_MAX, &arguments->seed))
            return wrong("--seed takes a number, not ", value);
    } else {
        uint64_t number;

        arguments->level = value;
        if (!is_name(value, strlen(value)) && !number_read_all(value, UINT32_MAX, &number))
            return wrong("--level takes the name or number of a label, not ", value);
    }
    return true;
}

/* Reads the argument at `at`, with its value, and answers where the next one stands in `next`. */
static bool argument_read(struct arguments *arguments, int argc, char **argv, int at, int *next)
{
    const char *argument = argv[at];

    *next = at + 1;
    if (argument[0] != '-') {
        if (arguments->design != NULL)
            return wrong("a second design: ", argument);
        arguments->design = argument;
        return true;
    }
    if (strcmp(argument, "--help") == 0) {
        arguments->help = true;
        return true;
    }
    if (!takes_value(argument))
        return wrong("unknown option ", argument);
    if (*next >= argc)
        return wrong("no value after ", argument);
    *next = at + 2;
    return valued_read(arguments, argument, argv[at + 1]);
}

bool arguments_read(struct arguments *arguments, int argc, char **argv)
{
    *arguments = (struct arguments){.seconds = 60, .seed = 1};
    for (int at = 1; at < argc;) {
        if (!argument_read(arguments, argc, argv, at, &at))
            return false;
    }
    return arguments->design != NULL || arguments->help || wrong("a design is needed", "");
}
