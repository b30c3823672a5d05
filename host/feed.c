#define _POSIX_C_SOURCE 200809L

#include "feed.h"

#include <errno.h>
#include <inttypes.h>
#include <poll.h>
#include <stdio.h>
#include <string.h>
#include <unistd.h>

#include "fields.h"
#include "say.h"

/* The rest of a line that its sender will not end: a value may be cut in it. */
static void line_drop(struct feed *feed)
{
    if (feed->length > 0 || feed->too_long)
        notices_bad_line(feed->notices, feed->source.name, ++feed->lines, "the line was cut: it has no line feed");
    feed->length = 0;
    feed->too_long = false;
}

/* Nothing more comes, for good or until another writer does. */
static void input_ends(struct feed *feed)
{
    if (!feed->common)
        line_drop(feed);
    if (feed->returns)
        feed->absent = true;
    else
        feed->ended = true;
}

/* Standard input may be one whose reads wait; a sender's own source is not. */
static bool would_wait(const struct feed *feed)
{
    struct pollfd input = {.fd = feed->file, .events = POLLIN};

    return feed->common && (poll(&input, 1, 0) <= 0 || input.revents == 0);
}

/* What is there by now, without waiting for more. Once for each cycle. */
static void input_read(struct feed *feed)
{
    ssize_t count;

    if (would_wait(feed))
        return;
    count = read(feed->file, feed->bytes, sizeof feed->bytes);
    if (count > 0) {
        feed->at = 0;
        feed->held = (size_t)count;
    } else if (count == 0) {
        input_ends(feed);
        return;
    } else if (errno != EINTR && errno != EAGAIN && errno != EWOULDBLOCK) {
        char words[120];

        (void)snprintf(words, sizeof words, "cannot be read: %s", strerror(errno));
        notices_bad_line(feed->notices, feed->source.name, feed->lines + 1, words);
        feed->ended = true;
        feed->broken = true;
    }
    /* A FIFO without a writer reads as ended, so one has come. */
    if (feed->absent && !feed->ended)
        feed->absent = feed->told = false;
}

/* At most once a minute: a sender may open its FIFO for each line. Standard error must not keep the cycles waiting. */
static void end_tell(struct feed *feed)
{
    struct timespec now;

    if (!feed->tells || feed->told || (!feed->absent && !feed->ended) || clock_gettime(CLOCK_MONOTONIC, &now) != 0)
        return;
    if ((feed->any && now.tv_sec - feed->said.tv_sec <= NOTICES_SECONDS) || !say_is_ready())
        return;
    say("%s: %s before cycle %" PRIu64 "; %s keep their values\n", feed->source.name,
        feed->ended ? "ended" : "nobody writes to it", feed->asked, feed->common ? "all ports" : "its ports");
    feed->told = feed->any = true;
    feed->said = now;
}

/* What is wrong with a line that has a reading, or NULL. */
static const char *reading_read(const struct feed *feed, struct fields *fields, struct reading *reading)
{
    const char *wrong = field_register(fields, feed->names, &reading->reg);

    if (wrong == NULL)
        wrong = field_value(fields, &reading->value);
    if (wrong == NULL && fields_left(fields))
        wrong = "more than REGISTER VALUE";
    if (wrong == NULL && !feed->common && (reading->reg >= CAISSON_REGISTERS || !feed->own[reading->reg]))
        wrong = "the register is no port of this source";
    return wrong;
}

/* Whether the line that has come has a reading. */
static bool line_take(struct feed *feed, struct reading *reading)
{
    struct fields fields = fields_of(feed->line, feed->length);
    bool too_long = feed->too_long;
    const char *wrong = NULL;
    bool empty = !fields_left(&fields);

    feed->lines++;
    feed->length = 0;
    feed->too_long = false;
    *reading = (struct reading){.cycle = feed->asked, .line = feed->lines};
    if (too_long)
        wrong = "the line is too long";
    else if (!empty)
        wrong = reading_read(feed, &fields, reading);
    if (wrong != NULL)
        notices_bad_line(feed->notices, feed->source.name, feed->lines, wrong);
    return wrong == NULL && !empty;
}

/* Whether the bytes held end a line; those up to its end are taken into it. */
static bool line_comes(struct feed *feed)
{
    while (feed->at < feed->held) {
        char character = feed->bytes[feed->at++];

        if (character == '\n')
            return true;
        if (feed->length < sizeof feed->line)
            feed->line[feed->length++] = character;
        else
            feed->too_long = true;
    }
    /* A last line of the common stream may lack its line feed. */
    return feed->common && feed->ended && (feed->length > 0 || feed->too_long);
}

static bool take(struct readings *readings, uint64_t cycle, struct reading *reading)
{
    struct feed *feed = (struct feed *)readings;

    if (feed->asked != cycle) {
        feed->asked = cycle;
        if (feed->at == feed->held && !feed->ended)
            input_read(feed);
        end_tell(feed);
    }
    while (line_comes(feed)) {
        if (line_take(feed, reading)) {
            feed->latest = cycle;
            readings->made++;
            return true;
        }
    }
    return false;
}

static uint64_t next(const struct readings *readings, uint64_t cycle)
{
    return ((const struct feed *)readings)->ended ? UINT64_MAX : cycle + 1;
}

static uint64_t last(const struct readings *readings)
{
    const struct feed *feed = (const struct feed *)readings;

    return feed->ended ? feed->latest : UINT64_MAX;
}

static uint64_t left(const struct readings *readings)
{
    (void)readings;
    return 0;
}

/* One that has nothing yet. */
static struct feed feed_of(const struct names *names, struct notices *notices)
{
    return (struct feed){.source = {.take = take, .next = next, .last = last, .left = left},
                         .names = names,
                         .notices = notices};
}

void feed_start(struct feed *feed, const struct names *names, struct notices *notices, bool goes_on)
{
    *feed = feed_of(names, notices);
    feed->source.name = "standard input";
    feed->file = STDIN_FILENO;
    feed->common = true;
    feed->tells = goes_on;
}

void feed_start_own(struct feed *feed, const struct source *source, const struct names *names,
                    struct notices *notices)
{
    *feed = feed_of(names, notices);
    (void)snprintf(feed->title, sizeof feed->title, "readings %.*s", (int)source->name_length, source->name);
    feed->source.name = feed->title;
    feed->file = -1;
    feed->tells = true;
}
