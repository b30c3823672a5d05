#include "options.h"

#include <stdlib.h>
#include <string.h>

#include "numbers.h"
#include "say.h"

#define LONGEST_JOURNAL 1000000u /* cycles */
#define CONSOLE_JOURNAL 1000u    /* where a console has to do without --journal */

const char options_usage[] =
    "usage: outstation DESIGN TRACE (--cycles N | --cycles trace | --forever) [--fast] [--every K]\n"
    "                  [--party NAME:LEVEL]... [--records DIR [--group NAME=GROUP | --folder NAME=DIR]...]\n"
    "                  [--time] [--alive FILE] [--journal N]\n"
    "       outstation DESIGN --readings - [the same options]\n"
    "       outstation DESIGN {--readings NAME=PATH --ports NAME=PORT,PORT..}... [the same options]\n"
    "       outstation DESIGN [TRACE] --console [--fast] [--cycles N] [--every K] [--party NAME:LEVEL]...\n"
    "                  [--journal N]\n"
    "       outstation DESIGN TRACE --replay (--cycles N | --cycles trace) [--every K] [--party NAME:LEVEL]...\n"
    "                  [--records DIR]\n"
    "  --fast              run as fast as possible, not 100 cycles a second\n"
    "  --cycles N          stop after N cycles\n"
    "  --cycles trace      stop after the last cycle that has a reading, whoever's it is\n"
    "  --forever           run on until SIGTERM or SIGINT, whatever the readings; at most a message a minute\n"
    "  --every K           a sample after each K cycles, not after each cycle\n"
    "  --party NAME:LEVEL  a flow record at this label, by its name or number, not one for each label; may be\n"
    "                      repeated\n"
    "  --records DIR       a file DIR/NAME.record for each party, not standard output; no cycle waits for it,\n"
    "                      and SIGHUP opens the files anew\n"
    "  --group NAME=GROUP  the record of this party is a file that only this group may read\n"
    "  --folder NAME=DIR   and stands in this folder\n"
    "  --time              records have the time at which a cycle was due\n"
    "  --alive FILE        touch this file each second while the cycles run\n"
    "  --readings -        readings from standard input as they come, not from a trace\n"
    "  --readings NAME=PATH  readings of one sender, from a FIFO, a file or a device of its own; may be repeated\n"
    "  --ports NAME=PORT,PORT..  the ports that this sender may write, by name or number; no other may\n"
    "  --journal N         keep a journal of the last N cycles at least, to go back to\n"
    "  --console           take commands from standard input afterwards, with a journal of 1000 cycles if\n"
    "                      none is asked for; `help` lists them\n"
    "  --replay            hand the trace to the library, which makes the port writes and the cycles in one\n"
    "                      call from sample to sample, as fast as possible\n"
    "  --help              print this, and the version of the library\n"
    "A line of TRACE is CYCLE REGISTER VALUE, one of standard input REGISTER VALUE: a register by its number or,\n"
    "with DESIGN.names, by its name. A VALUE below zero, as -40, is written to the port as its two's complement.\n";

static enum status wrong(const char *what, const char *argument)
{
    say("outstation: %s%s\n%s", what, argument, options_usage);
    return STATUS_INPUT;
}

/* Two parties of one name would have records that nobody can tell apart. */
static enum status party_add(struct options *options, const char *text)
{
    struct party *party = &options->parties[options->party_count];

    if (!party_read(party, text))
        return wrong("--party takes NAME:LEVEL, a name of letters, digits, - _ . and a label, not ", text);
    for (size_t i = 0; i < options->party_count; i++) {
        if (party_same_name(party, &options->parties[i]))
            return wrong("a second party of the same name: ", text);
    }
    options->party_count++;
    return STATUS_DONE;
}

/* The source of a name, which may have been named before by the other of its two options. */
static struct source *source_of(struct options *options, const struct source *given)
{
    struct source *source = source_find(options->sources, options->source_count, given);

    if (source->name == NULL) {
        *source = *given;
        options->source_count++;
    }
    return source;
}

static enum status readings_add(struct options *options, const char *text)
{
    struct source given, *source;
    const char *path = source_read(&given, text);

    if (strcmp(text, "-") == 0) {
        options->feed = true;
        return STATUS_DONE;
    }
    if (path == NULL)
        return wrong("--readings takes -, standard input, or NAME=PATH, not ", text);
    source = source_of(options, &given);
    if (source->path != NULL)
        return wrong("a second source of the same name: ", text);
    source->path = path;
    return STATUS_DONE;
}

static enum status ports_add(struct options *options, const char *text)
{
    struct source given, *source;
    const char *ports = source_read(&given, text);

    if (ports == NULL)
        return wrong("--ports takes NAME=PORT,PORT.., not ", text);
    source = source_of(options, &given);
    if (source->ports != NULL)
        return wrong("a second list of ports for the same name: ", text);
    source->ports = ports;
    return STATUS_DONE;
}

static enum status place_add(struct options *options, const char *name, const char *value)
{
    bool group = strcmp(name, "--group") == 0;

    if (!place_read(&options->places[options->place_count], value, group))
        return group ? wrong("--group takes NAME=GROUP, a party and a group of the system, not ", value)
                     : wrong("--folder takes NAME=DIR, a party and a folder, not ", value);
    options->place_count++;
    return STATUS_DONE;
}

/* An option with a value. */
static enum status valued_read(struct options *options, const char *name, const char *value)
{
    if (strcmp(name, "--cycles") == 0) {
        options->whole = strcmp(value, "trace") == 0;
        options->limited = !options->whole;
        if (options->limited && !number_read_all(value, UINT64_MAX, &options->cycles))
            return wrong("--cycles takes a number of cycles or `trace`, not ", value);
    } else if (strcmp(name, "--group") == 0 || strcmp(name, "--folder") == 0) {
        return place_add(options, name, value);
    } else if (strcmp(name, "--alive") == 0) {
        options->alive = value;
    } else if (strcmp(name, "--every") == 0) {
        if (!number_read_all(value, UINT64_MAX, &options->every) || options->every == 0)
            return wrong("--every takes a number of cycles from 1 on, not ", value);
    } else if (strcmp(name, "--journal") == 0) {
        if (!number_read_all(value, LONGEST_JOURNAL, &options->journal) || options->journal == 0)
            return wrong("--journal takes a number of cycles from 1 to 1000000, not ", value);
    } else if (strcmp(name, "--records") == 0) {
        options->records = value;
        if (value[0] == '\0')
            return wrong("--records takes a folder", "");
    } else if (strcmp(name, "--readings") == 0) {
        return readings_add(options, value);
    } else if (strcmp(name, "--ports") == 0) {
        return ports_add(options, value);
    } else {
        return party_add(options, value);
    }
    return STATUS_DONE;
}

static enum status path_read(struct options *options, const char *path)
{
    if (options->design == NULL)
        options->design = path;
    else if (options->trace == NULL)
        options->trace = path;
    else
        return wrong("a third file: ", path);
    return STATUS_DONE;
}

static bool takes_value(const char *name)
{
    return strcmp(name, "--cycles") == 0 || strcmp(name, "--every") == 0 || strcmp(name, "--party") == 0 ||
           strcmp(name, "--journal") == 0 || strcmp(name, "--records") == 0 || strcmp(name, "--readings") == 0 ||
           strcmp(name, "--ports") == 0 || strcmp(name, "--group") == 0 || strcmp(name, "--folder") == 0 ||
           strcmp(name, "--alive") == 0;
}

/* An option without a value; false where it is none. */
static bool flag_read(struct options *options, const char *name)
{
    if (strcmp(name, "--fast") == 0)
        options->fast = true;
    else if (strcmp(name, "--console") == 0)
        options->console = true;
    else if (strcmp(name, "--replay") == 0)
        options->replay = true;
    else if (strcmp(name, "--forever") == 0)
        options->forever = true;
    else if (strcmp(name, "--time") == 0)
        options->timed = true;
    else if (strcmp(name, "--help") == 0)
        options->help = true;
    else
        return false;
    return true;
}

/* Reads the argument at `at`, with its value, and answers where the next one stands in `next`. */
static enum status argument_read(struct options *options, int argc, char **argv, int at, int *next)
{
    const char *argument = argv[at];

    *next = at + 1;
    if (argument[0] != '-')
        return path_read(options, argument);
    if (flag_read(options, argument))
        return STATUS_DONE;
    if (!takes_value(argument))
        return wrong("unknown option ", argument);
    if (*next >= argc)
        return wrong("no value after ", argument);
    *next = at + 2;
    return valued_read(options, argument, argv[at + 1]);
}

/* A source may write the ports that are listed for it and no others, so that one without a list is a slip. */
static const char *sources_contradiction(const struct options *options)
{
    for (size_t i = 0; i < options->source_count; i++) {
        if (options->sources[i].path == NULL)
            return "--ports NAME=.. needs --readings NAME=PATH";
        if (options->sources[i].ports == NULL)
            return "--readings NAME=PATH needs --ports NAME=PORT,PORT..";
    }
    if (options->source_count == 0)
        return NULL;
    if (options->feed || options->trace != NULL)
        return "readings come from a trace, from standard input or from sources of their own: one of the three";
    if (options->console || options->replay)
        return "--readings NAME=PATH goes with neither --console nor --replay";
    if (!options->forever && !options->limited)
        return "with --readings NAME=PATH either --cycles N or --forever says how many cycles there are";
    return NULL;
}

/* What does not go together, or is missing; NULL where all is well. */
static const char *contradiction(const struct options *options)
{
    const char *of_sources = sources_contradiction(options);

    if (of_sources != NULL)
        return of_sources;
    if (options->replay && (options->console || options->journal > 0))
        return "--replay keeps no journal and goes with no console";
    if (options->replay && (options->feed || options->forever))
        return "--replay is for a trace that ends: neither --readings nor --forever goes with it";
    if (options->console && options->feed)
        return "--console takes standard input, and so does --readings";
    if (options->console && (options->forever || options->records != NULL))
        return "--console shows the records of cycles that end: neither --forever nor --records goes with it";
    if (options->forever && (options->limited || options->whole))
        return "either --cycles or --forever";
    if (options->feed && options->trace != NULL)
        return "readings come from a trace or from standard input, not from both";
    if ((options->console || options->feed || options->source_count > 0) && options->design == NULL)
        return "a design is needed";
    if (options->trace == NULL && !options->console && !options->feed && options->source_count == 0)
        return "a design and a trace are needed";
    if (options->place_count > 0 && options->records == NULL)
        return "--group and --folder are for files: --records is needed";
    if ((options->timed || options->alive != NULL) && (options->fast || options->replay || options->console))
        return "--time and --alive are for cycles that keep time: neither --fast nor --replay nor --console goes with "
               "them";
    if (!options->whole && !options->limited && !options->forever && !options->console)
        return "how many cycles? --cycles N, --cycles trace or --forever says it";
    return NULL;
}

enum status options_read(struct options *options, int argc, char **argv)
{
    const char *against;

    *options = (struct options){.every = 1};
    /* No more parties and sources than arguments, and at least one, since room for none may be NULL. */
    options->parties = calloc((size_t)argc + 1, sizeof *options->parties);
    options->sources = calloc((size_t)argc + 1, sizeof *options->sources);
    options->places = calloc((size_t)argc + 1, sizeof *options->places);
    if (options->parties == NULL || options->sources == NULL || options->places == NULL)
        return wrong("no memory for the options", "");
    for (int at = 1; at < argc;) {
        enum status status = argument_read(options, argc, argv, at, &at);

        if (status != STATUS_DONE)
            return status;
    }
    if (options->help)
        return STATUS_DONE;
    against = contradiction(options);
    if (against != NULL)
        return wrong(against, "");
    if (options->console && options->journal == 0)
        options->journal = CONSOLE_JOURNAL;
    /* A console begins at once where no cycles before it are asked for. */
    if (options->console && !options->whole)
        options->limited = true;
    return STATUS_DONE;
}

void options_free(struct options *options)
{
    free(options->parties);
    free(options->sources);
    free(options->places);
    *options = (struct options){0};
}
