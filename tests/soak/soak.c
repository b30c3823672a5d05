/*
 * The soak: two boxes with one design, or with a design and a neighbour's edit of it, run side by side for as
 * long as it is told to, at each level of the design in turn or at one. `soak --help` says how it is used and how
 * it ends. Level and seed in its output make the same calls again.
 */
#define _POSIX_C_SOURCE 200809L

#include <inttypes.h>
#include <stdio.h>
#include <time.h>

#include "arguments.h"
#include "design.h"
#include "names.h"
#include "neighbour.h"
#include "pair.h"
#include "refusals.h"
#include "say.h"
#include "shown.h"
#include "table.h"

#define PROGRESS_SECONDS 5.0
#define CYCLES_A_SECOND 100.0 /* of an outstation */
#define SECONDS_A_YEAR (365.25 * 24 * 60 * 60)

/* What can be done at a level. */
enum trial {
    TRIAL_READY,
    TRIAL_SEEN,  /* an edited body is in sight */
    TRIAL_NONE,  /* nothing is out of sight, or nothing in sight */
    TRIAL_STILL, /* nothing in sight changes */
    TRIAL_BROKEN /* a call was refused */
};

struct level {
    struct pair pair;
    enum trial trial;
};

struct soak {
    const struct arguments *arguments;
    const struct design *designs[2]; /* of either box */
    const struct names *names;       /* of the first */
    struct level levels[CAISSON_LABELS];
    size_t first; /* of those asked for */
    size_t end;   /* behind the last */
    size_t ready;
    size_t still;
    size_t idle; /* where no edited state had its turn */
};

/* Makes the two boxes of a level, and judges whether they could show anything. */
static enum trial level_start(const struct soak *soak, size_t level, struct pair *pair)
{
    size_t state;
    bool can_differ;

    if (!pair_start(pair, soak->designs, soak->names, level, soak->arguments->seed))
        return TRIAL_BROKEN;
    if (!pair_hides_edits(pair, &state))
        return TRIAL_SEEN;
    if ((pair->high_count == 0 && pair->edited_count == 0) || pair->low_registers == 0)
        return TRIAL_NONE;
    if (!pair_can_differ(pair, &can_differ))
        return TRIAL_BROKEN;
    return can_differ ? TRIAL_READY : TRIAL_STILL;
}

/* Seconds on a clock that nobody sets. */
static bool seconds_now(double *seconds)
{
    struct timespec now;

    if (clock_gettime(CLOCK_MONOTONIC, &now) != 0) {
        say("the clock cannot be read\n");
        return false;
    }
    *seconds = (double)now.tv_sec + 1e-9 * (double)now.tv_nsec;
    return true;
}

static bool progress_print(const struct pair *pair, double seconds)
{
    char digits[SHOWN_DIGITS];

    return printf("level %s, %.0f s: %" PRIu64 " cycles in each box, %" PRIu64 " samples equal\n",
                  level_shown(pair->names, pair->level, digits), seconds, pair->cycles, pair->samples) >= 0 &&
           fflush(stdout) == 0;
}

static bool edits_print(const struct pair *pair)
{
    return pair->edited_count == 0 ||
           printf("  %zu %s another body in the second box; at %" PRIu64 " of the samples the targets led to one\n",
                  pair->edited_count, pair->edited_count == 1 ? "state has" : "states have",
                  pair->edited_turns) >= 0;
}

static bool summary_print(const struct pair *pair, double seconds)
{
    char digits[SHOWN_DIGITS];

    return printf("level %s: %" PRIu64 " cycles in each of two boxes, %" PRIu64 " port writes, %" PRIu64
                  " samples: equal\n",
                  level_shown(pair->names, pair->level, digits), pair->cycles, pair->writes, pair->samples) >= 0 &&
           printf("  at %" PRIu64 " of the samples registers out of sight differed\n", pair->high_differs) >= 0 &&
           printf("  %" PRIu64 " of the cycles journalled, %" PRIu64 " steps back over %" PRIu64 " cycles\n",
                  pair->journalled, pair->steps_back, pair->gone_back) >= 0 &&
           printf("  %" PRIu64 " replays in each box, of traces with %" PRIu64 " records in all\n", pair->replays,
                  pair->records) >= 0 &&
           edits_print(pair) &&
           printf("  %.0f cycles a second in each box\n", (double)pair->cycles / seconds) >= 0 &&
           printf("  %.4f years of operation at 100 cycles a second\n",
                  (double)pair->cycles / CYCLES_A_SECOND / SECONDS_A_YEAR) >= 0 &&
           fflush(stdout) == 0;
}

static enum ending level_run(struct pair *pair, double seconds, uint64_t seed)
{
    char digits[SHOWN_DIGITS];
    double start, now, shown;

    if (!seconds_now(&start))
        return ENDING_INPUT;
    now = shown = start;
    while (now - start < seconds) {
        if (!pair_round(pair)) {
            say("stopped: --level %s --seed %" PRIu64 " makes the same calls again\n",
                level_shown(pair->names, pair->level, digits), seed);
            return ENDING_DIFFERENT;
        }
        if (!seconds_now(&now))
            return ENDING_INPUT;
        if (now - shown >= PROGRESS_SECONDS) {
            if (!progress_print(pair, now - start))
                return ENDING_INPUT;
            shown = now;
        }
    }
    return summary_print(pair, now - start) ? ENDING_EQUAL : ENDING_INPUT;
}

/* Why a level is left out. */
static bool left_out_print(const struct level *level)
{
    const struct pair *pair = &level->pair;
    char level_digits[SHOWN_DIGITS], state_digits[SHOWN_DIGITS];
    const char *name = level_shown(pair->names, pair->level, level_digits);
    size_t state;
    const char *why = level->trial == TRIAL_STILL
                          ? "nothing in sight changes, whatever is written and run: no difference could be seen"
                      : level->pair.high_count == 0 && level->pair.edited_count == 0
                          ? "no port is out of sight: nothing to try"
                          : "no register is in sight: nothing to compare";

    if (!pair_hides_edits(pair, &state))
        return printf("level %s: the other body of state %s is in sight: nothing is promised\n", name,
                      state_shown(pair->names, state, state_digits)) >= 0 &&
               fflush(stdout) == 0;
    return printf("level %s: %s\n", name, why) >= 0 && fflush(stdout) == 0;
}

/* Judges a design, and reads its names. Without the shape of a design there are none for its places. */
static enum ending design_take(const struct design *design, const char *path, struct names *names)
{
    caisson_answer answer = caisson_check(design->image, design->length);

    if (answer.number != CAISSON_DIRECTORY && names_load(names, path, design) != STATUS_DONE)
        return ENDING_INPUT;
    if (answer.number == CAISSON_ACCEPTED)
        return ENDING_EQUAL;
    say("%s: ", path);
    refusal_say(answer, NULL, names);
    return ENDING_DIFFERENT;
}

/* Both designs are accepted, and the second has the records of the first. */
static enum ending designs_judge(const struct soak *soak, struct names names[2])
{
    const struct arguments *arguments = soak->arguments;
    const char *unlike;
    enum ending ending = design_take(soak->designs[0], arguments->design, &names[0]);

    if (ending == ENDING_EQUAL && arguments->neighbour != NULL)
        ending = design_take(soak->designs[1], arguments->neighbour, &names[1]);
    if (ending != ENDING_EQUAL)
        return ending;
    unlike = neighbour_unlike_records(soak->designs[0]->image, soak->designs[1]->image);
    if (unlike == NULL)
        return ENDING_EQUAL;
    say("%s has other %s than %s: nothing is promised at any level\n", arguments->neighbour, unlike,
        arguments->design);
    return ENDING_NOTHING;
}

/* The levels asked for, made ready before the first is soaked, since they share the seconds. */
static enum ending soak_start(struct soak *soak)
{
    const struct arguments *arguments = soak->arguments;
    size_t seen = 0;
    size_t labels = table_labels(soak->designs[0]->image);

    soak->end = labels;
    if (arguments->level != NULL) {
        if (!level_find(soak->names, arguments->level, labels, &soak->first))
            return ENDING_INPUT;
        soak->end = soak->first + 1;
    }
    for (size_t at = soak->first; at < soak->end; at++) {
        soak->levels[at].trial = level_start(soak, at, &soak->levels[at].pair);
        if (soak->levels[at].trial == TRIAL_BROKEN)
            return ENDING_DIFFERENT;
        soak->ready += soak->levels[at].trial == TRIAL_READY;
        soak->still += soak->levels[at].trial == TRIAL_STILL;
        seen += soak->levels[at].trial == TRIAL_SEEN;
    }
    if (seen < soak->end - soak->first)
        return ENDING_EQUAL;
    say("%s has other bodies than %s in sight of %s: nothing is promised\n", arguments->neighbour, arguments->design,
        arguments->level != NULL ? "the level" : "every level");
    return ENDING_NOTHING;
}

static bool names_print(const struct arguments *arguments)
{
    return printf("%s", arguments->design) >= 0 &&
           (arguments->neighbour == NULL || printf(", neighbour %s", arguments->neighbour) >= 0) &&
           printf(", seed %" PRIu64 "\n", arguments->seed) >= 0;
}

static enum ending soak_run(struct soak *soak)
{
    enum ending ending = ENDING_EQUAL;

    if (!names_print(soak->arguments))
        return ENDING_INPUT;
    for (size_t at = soak->first; at < soak->end && ending == ENDING_EQUAL; at++) {
        struct level *level = &soak->levels[at];

        if (level->trial == TRIAL_READY) {
            ending = level_run(&level->pair, (double)soak->arguments->seconds / (double)soak->ready,
                               soak->arguments->seed);
            soak->idle += level->pair.edited_count > 0 && level->pair.edited_turns == 0;
        } else if (!left_out_print(level))
            ending = ENDING_INPUT;
    }
    if (ending == ENDING_EQUAL && (soak->ready == 0 || soak->still > 0 || soak->idle > 0))
        return ENDING_NOTHING;
    return ending;
}

/* What was printed must have been written, whatever was found. */
static int finish(enum ending ending)
{
    if (fflush(stdout) == 0 && !ferror(stdout))
        return (int)ending;
    say("standard output: cannot be written\n");
    return ending == ENDING_DIFFERENT ? ENDING_DIFFERENT : ENDING_INPUT;
}

static void soak_end(struct soak *soak)
{
    for (size_t at = 0; at < CAISSON_LABELS; at++)
        pair_end(&soak->levels[at].pair);
}

int main(int argc, char **argv)
{
    static struct soak soak;
    static struct design designs[2];
    static struct names names[2];
    struct arguments arguments;
    enum ending ending;

    if (!arguments_read(&arguments, argc, argv))
        return ENDING_INPUT;
    if (arguments.help)
        return finish(fputs(arguments_usage, stdout) == EOF ? ENDING_INPUT : ENDING_EQUAL);
    if (design_load(&designs[0], arguments.design) != STATUS_DONE ||
        (arguments.neighbour != NULL && design_load(&designs[1], arguments.neighbour) != STATUS_DONE))
        return ENDING_INPUT;
    soak.arguments = &arguments;
    soak.designs[0] = &designs[0];
    soak.designs[1] = arguments.neighbour == NULL ? &designs[0] : &designs[1];
    soak.names = &names[0];
    ending = designs_judge(&soak, names);
    if (ending == ENDING_EQUAL)
        ending = soak_start(&soak);
    if (ending == ENDING_EQUAL)
        ending = soak_run(&soak);
    soak_end(&soak);
    names_free(&names[0]);
    names_free(&names[1]);
    return finish(ending);
}
