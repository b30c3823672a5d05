#include "history.h"

#include <inttypes.h>
#include <string.h>

#include "record.h"

void history_add(struct history *history, const char *line)
{
    char *place = history->lines[history->count % HISTORY_LINES];

    strncpy(place, line, HISTORY_LONGEST_LINE);
    place[HISTORY_LONGEST_LINE] = '\0';
    history->count++;
}

const char *history_line(const struct history *history, uint64_t number)
{
    if (number == 0 || number > history->count || history->count - number >= HISTORY_LINES)
        return NULL;
    return history->lines[(number - 1) % HISTORY_LINES];
}

enum status history_write(const struct history *history)
{
    uint64_t number = history->count > HISTORY_LINES ? history->count - HISTORY_LINES + 1 : 1;
    enum status status = STATUS_DONE;

    for (; status == STATUS_DONE && number <= history->count; number++)
        status = record_line("%5" PRIu64 "  %s\n", number, history_line(history, number));
    return status;
}
