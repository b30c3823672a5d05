/* cycles.h: the readings, cycles and samples of a site, in their order. */
#ifndef CYCLES_H
#define CYCLES_H

#include "alive.h"
#include "box.h"
#include "names.h"
#include "notices.h"
#include "options.h"
#include "records.h"
#include "status.h"
#include "trace.h"

/* Run by one call at most, so that signals are looked at. How cycles are grouped changes nothing. */
#define CYCLES_AT_ONCE 10000u

/* A site and how far it has come. */
struct site {
    struct box *box;
    struct journal *journal; /* NULL: none is kept */
    const struct trace *trace; /* without readings, where these come as they come */
    struct readings *readings;
    const struct names *names;     /* all NULL where there is no names file */
    const struct options *options; /* with at least one party, if the design has labels */
    struct records *records;
    struct notices *notices;
    struct alive *alive; /* NULL: nobody is told that the cycles run */
    uint64_t done; /* cycles, without those gone back over */
};

/* What the library refuses a port write by, and of a value too large what its port would take. */
void reading_refused(const struct site *site, uint32_t reg, uint32_t value, caisson_answer answer);

/* The latter alone: what a port takes, and not this value. */
void reading_too_large(const struct site *site, uint32_t reg, uint32_t value);

/* The cycle to end with, as far as it is known. */
uint64_t cycles_last(const struct site *site);

/*
 * Makes every port write of the trace on a copy of the box, so that a register that is no port is
 * found before the first cycle. STATUS_REFUSED, with a message that names file and line, at the first
 * one that the library refuses.
 */
CAISSON_LOOK_AT_ANSWER
enum status cycles_rehearse(const struct site *site, const struct trace *trace);

/*
 * Before each cycle its readings, then the cycle, then its sample where one is due; as many cycles as the
 * options say, or until a signal. Says at the end what was done, with the late cycles.
 */
CAISSON_LOOK_AT_ANSWER
enum status cycles_run(struct site *site);

/* So many cycles more, in the same way, as fast as possible. */
CAISSON_LOOK_AT_ANSWER
enum status cycles_step(struct site *site, uint64_t cycles);

/* Back by so many cycles of the site's journal, and in the trace too. */
CAISSON_LOOK_AT_ANSWER
caisson_answer cycles_back(struct site *site, uint32_t cycles);

#endif
