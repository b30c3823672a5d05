/*
 * sources.h: readings from several senders, each with a source of its own and the ports that it may write.
 *
 * A source is a FIFO, a file or a character device, opened so that no read waits. Each has its own line and its own
 * budget of bytes before a cycle, so that what one sends, or does not, delays or spoils nothing of another. Each port
 * belongs to one source at most: so it does not matter in which order the sources are read. README.md describes them.
 */
#ifndef SOURCES_H
#define SOURCES_H

#include "feed.h"
#include "options.h"

struct sources {
    struct readings source;
    struct feed *feeds; /* in the order of the command line */
    size_t count;
    size_t at; /* the feed that is asked next */
    uint64_t asked; /* the cycle that they are asked for */
};

/*
 * Judges the lists of ports on a checked image, and opens every source. STATUS_INPUT, with a message, where one is no
 * port, stands twice, or a source cannot be opened. Options, names and notices must outlive it. In either case
 * sources_close is to be called.
 */
CAISSON_LOOK_AT_ANSWER
enum status sources_open(struct sources *sources, const struct options *options, const uint8_t *image,
                         const struct names *names, struct notices *notices);

/* Whether one of them could not be read to its end. */
bool sources_broken(const struct sources *sources);

void sources_close(struct sources *sources);

#endif
