#include "journal.h"

#include <stdlib.h>
#include <string.h>

#include "say.h"

enum status journal_start(struct journal *journal, uint32_t cycles, size_t saved_length)
{
    *journal = (struct journal){.cycles = cycles};
    if (cycles <= (SIZE_MAX - CAISSON_JOURNAL_COUNT_LENGTH) / saved_length) {
        journal->length = CAISSON_JOURNAL_COUNT_LENGTH + cycles * saved_length;
        journal->present = calloc(journal->length, 1);
        journal->earlier = calloc(journal->length, 1);
    }
    if (journal->present != NULL && journal->earlier != NULL)
        return STATUS_DONE;
    say("no memory for a journal of %lu cycles\n", (unsigned long)cycles);
    return STATUS_INPUT;
}

void journal_free(struct journal *journal)
{
    free(journal->present);
    free(journal->earlier);
    *journal = (struct journal){0};
}

static uint32_t count_of(const uint8_t *bytes)
{
    return (uint32_t)bytes[0] | (uint32_t)bytes[1] << 8 | (uint32_t)bytes[2] << 16 | (uint32_t)bytes[3] << 24;
}

uint32_t journal_count(const struct journal *journal)
{
    return count_of(journal->present);
}

uint64_t journal_reach(const struct journal *journal)
{
    return (uint64_t)count_of(journal->present) + count_of(journal->earlier);
}

uint32_t journal_room(const struct journal *journal)
{
    return journal->cycles - journal_count(journal);
}

static void exchange(struct journal *journal)
{
    uint8_t *present = journal->present;

    journal->present = journal->earlier;
    journal->earlier = present;
}

void journal_turn(struct journal *journal)
{
    memset(journal->earlier, 0, CAISSON_JOURNAL_COUNT_LENGTH);
    exchange(journal);
}

void journal_return(struct journal *journal)
{
    memset(journal->present, 0, CAISSON_JOURNAL_COUNT_LENGTH);
    exchange(journal);
}
