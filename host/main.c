/*
 * outstation: checks a design, takes the readings of the undertakings at a site from a trace or as they come, runs
 * the design's cycles and writes each party's flow record; then, where it is asked to, it takes commands.
 * README.md describes it.
 */
#include "console.h"
#include "cycles.h"
#include "design.h"
#include "feed.h"
#include "library.h"
#include "record.h"
#include "refusals.h"
#include "replay.h"
#include "say.h"
#include "signals.h"
#include "sources.h"
#include "streams.h"

/* What is read before the first cycle. */
struct inputs {
    struct design design;
    struct names names;
    struct trace trace;
    struct feed feed;
    struct sources sources;
};

static enum status refused(const char *path, caisson_answer answer, const struct names *names)
{
    say("%s: ", path);
    refusal_say(answer, NULL, names);
    return STATUS_REFUSED;
}

/* The options with a party for each label where none was given; `each_label` must outlive them. */
static struct options with_parties(const struct options *options, struct party each_label[CAISSON_LABELS],
                                   const struct inputs *inputs)
{
    struct options chosen = *options;

    if (chosen.party_count == 0) {
        chosen.parties = each_label;
        chosen.party_count = parties_of_labels(each_label, inputs->design.image, &inputs->names);
    }
    return chosen;
}

/* The cycles, and then the console, which a signal ends as any program. */
static enum status site_run(struct site *site)
{
    enum status status = cycles_run(site);

    if (status != STATUS_DONE || !site->options->console || signals_stop())
        return status;
    signals_end();
    return console_run(site);
}

/* With a journal, where the options ask for one. */
static enum status site_operate(struct site *site)
{
    const struct box *box = site->box;
    struct journal journal;
    enum status status;

    if (site->options->journal == 0)
        return site_run(site);
    status = journal_start(&journal, (uint32_t)site->options->journal, box->registers_length + box->targets_length);
    site->journal = &journal;
    if (status == STATUS_DONE)
        status = site_run(site);
    journal_free(&journal);
    site->journal = NULL;
    return status;
}

/* With the records open. Lines that were lost are a failure, and so is an input that broke, unless the site was
   asked to end. */
static enum status site_record(struct site *site, const struct inputs *inputs)
{
    static struct records records; /* a writer that a disk holds still has it */
    static struct alive alive;     /* and so has what tells that the cycles run */
    enum status status;
    uint64_t lost;

    signals_start();
    status = records_open(&records, site->options, site->names, &inputs->design);
    site->records = &records;
    site->alive = &alive;
    if (status == STATUS_DONE)
        status = alive_start(&alive, site->options->alive);
    if (status == STATUS_DONE)
        status = site->options->replay ? replay_run(site) : site_operate(site);
    alive_end(&alive);
    /* After a refusal there is no control: nobody is waited for. */
    lost = records_close(&records, signals_stop() || status == STATUS_REFUSED);
    if (status == STATUS_DONE && !signals_stop() &&
        (lost > 0 || inputs->feed.broken || sources_broken(&inputs->sources)))
        return STATUS_INPUT;
    return status;
}

static struct readings *readings_of(const struct options *options, struct inputs *inputs)
{
    if (options->source_count > 0)
        return &inputs->sources.source;
    return options->feed ? &inputs->feed.source : &inputs->trace.source;
}

/* Judges everything before the first cycle: the parties' levels, the ports of each source, all port writes of a
   trace. */
static enum status operate(const struct options *options, struct inputs *inputs)
{
    const struct design *design = &inputs->design;
    struct party each_label[CAISSON_LABELS];
    struct options chosen = with_parties(options, each_label, inputs);
    struct notices notices = {.rare = options->forever, .paced = !options->fast};
    struct box box;
    struct site site = {.box = &box,
                        .trace = &inputs->trace,
                        .readings = readings_of(options, inputs),
                        .names = &inputs->names,
                        .options = &chosen,
                        .notices = &notices};
    enum status status = parties_judge(chosen.parties, chosen.party_count, design->image, &inputs->names);
    caisson_answer answer;

    if (status == STATUS_DONE)
        status = places_settle(options->places, options->place_count, chosen.parties, chosen.party_count);
    if (status != STATUS_DONE)
        return status;
    feed_start(&inputs->feed, &inputs->names, &notices, options->forever || options->limited);
    status = sources_open(&inputs->sources, options, design->image, &inputs->names, &notices);
    if (status != STATUS_DONE)
        return status;
    answer = box_start(&box, design->image, design->length);
    if (answer.number != CAISSON_ACCEPTED)
        return refused(options->design, answer, &inputs->names);
    if (!options->replay)
        status = cycles_rehearse(&site, &inputs->trace);
    return status == STATUS_DONE ? site_record(&site, inputs) : status;
}

/* The design is judged, and its names are read. Without the shape of a design there are no names for its places. */
static enum status design_take(const char *path, struct inputs *inputs)
{
    enum status status = design_load(&inputs->design, path);
    caisson_answer answer;

    if (status != STATUS_DONE)
        return status;
    answer = caisson_check(inputs->design.image, inputs->design.length);
    if (answer.number != CAISSON_DIRECTORY)
        status = names_load(&inputs->names, path, &inputs->design);
    if (status != STATUS_DONE)
        return status;
    return answer.number == CAISSON_ACCEPTED ? STATUS_DONE : refused(path, answer, &inputs->names);
}

static enum status help(void)
{
    char version[LIBRARY_LONGEST_VERSION];
    enum status status = record_line("%sThe library is of version %s, format %u.\n", options_usage,
                                     library_version(version), (unsigned)caisson_format());

    return status == STATUS_DONE ? record_flush() : status;
}

/* The design comes first: its names may stand in the trace. */
static enum status outstation(const struct options *options)
{
    static struct inputs inputs;
    enum status status;

    if (options->help)
        return help();
    trace_start(&inputs.trace, options->trace);
    status = design_take(options->design, &inputs);
    if (status == STATUS_DONE && options->trace != NULL)
        status = trace_read(&inputs.trace, &inputs.names);
    if (status == STATUS_DONE)
        status = operate(options, &inputs);
    sources_close(&inputs.sources);
    trace_free(&inputs.trace);
    names_free(&inputs.names);
    return status;
}

int main(int argc, char **argv)
{
    struct options options = {0};
    enum status status;

    streams_keep();
    signals_start_writes();
    status = library_judge();
    if (status == STATUS_DONE)
        status = options_read(&options, argc, argv);
    if (status == STATUS_DONE)
        status = outstation(&options);
    options_free(&options);
    return (int)status;
}
