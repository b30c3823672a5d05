#define _POSIX_C_SOURCE 200809L

#include "console.h"

#include <errno.h>
#include <inttypes.h>
#include <stdio.h>
#include <string.h>
#include <unistd.h>

#include "history.h"
#include "lines.h"
#include "numbers.h"
#include "record.h"
#include "refusals.h"
#include "say.h"

#define WORDS 4u /* of a line: more than any command has */

struct console {
    struct site *site;
    struct history history;
    bool terminal; /* somebody sits at it */
    bool quit;
};

/* What a command does with the words behind its name. It says what is wrong, and is done all the same: another
   status ends the console. */
typedef enum status perform(struct console *console, char *const *words, size_t count);

struct command {
    const char *name;
    const char *takes; /* what stands behind the name */
    const char *help;
    size_t fewest; /* words behind the name */
    size_t most;
    perform *perform;
};

/* The present values, as the record of each party has them, and how far one can go back. */
static enum status show(struct console *console, char *const *words, size_t count)
{
    const struct site *site = console->site;
    enum status status = records_sample(site->records, site->box, site->done);

    (void)words;
    (void)count;
    if (status != STATUS_DONE)
        return status;
    return record_line("cycle %" PRIu64 ": the journal goes back %" PRIu64 " cycles\n", site->done,
                       journal_reach(site->journal));
}

static enum status step(struct console *console, char *const *words, size_t count)
{
    uint64_t cycles = 1;
    enum status status;

    if (count > 0 && !number_read_all(words[0], CAISSON_CYCLES, &cycles)) {
        say("step takes a number of cycles from 0 to %u, not %s\n", CAISSON_CYCLES, words[0]);
        return STATUS_DONE;
    }
    status = cycles_step(console->site, cycles);
    return status == STATUS_REFUSED ? STATUS_DONE : status;
}

static enum status back(struct console *console, char *const *words, size_t count)
{
    uint64_t cycles;
    caisson_answer answer;

    if (!number_read_all(words[0], UINT32_MAX, &cycles)) {
        say("back takes a number of cycles from 0 to %" PRIu32 ", not %s\n", UINT32_MAX, words[0]);
        return STATUS_DONE;
    }
    answer = cycles_back(console->site, (uint32_t)cycles);
    if (answer.number == CAISSON_ACCEPTED)
        return show(console, words, count);
    /* A place of 14 is one of the saved state, which the areas do not tell. */
    refusal_say(answer, NULL, console->site->names);
    if (answer.number == CAISSON_STEPS_BACK)
        say("  the journal goes back %" PRIu64 " cycles, not %" PRIu64 "\n", journal_reach(console->site->journal),
            cycles);
    return STATUS_DONE;
}

/* A register by its name, as its number or as records without names have it: reading, 2 or r2. */
static bool register_read(const struct names *names, const char *word, uint32_t *reg)
{
    uint64_t number;
    size_t named;

    if (register_named(names, word, strlen(word), &named)) {
        *reg = (uint32_t)named;
        return true;
    }
    if (!number_read_all(word[0] == 'r' ? word + 1 : word, UINT32_MAX, &number))
        return false;
    *reg = (uint32_t)number;
    return true;
}

static bool value_read(const char *word, uint32_t *value)
{
    const char *end = word + strlen(word);

    return number_read_word(&word, end, value) && word == end;
}

static enum status written(const struct names *names, uint32_t reg, uint32_t value)
{
    const char *name = name_of_register(names, reg);

    return name != NULL ? record_line("%s=%" PRIu32 "\n", name, value)
                        : record_line("r%" PRIu32 "=%" PRIu32 "\n", reg, value);
}

static enum status write_port(struct console *console, char *const *words, size_t count)
{
    const struct names *names = console->site->names;
    struct box *box = console->site->box;
    uint32_t reg, value;
    caisson_answer answer;

    (void)count;
    if (!register_read(names, words[0], &reg)) {
        say("write takes a register %sas its number, 2 or r2, not %s\n",
            name_of_register(names, 0) != NULL ? "by its name or " : "", words[0]);
        return STATUS_DONE;
    }
    if (!value_read(words[1], &value)) {
        say("write takes a value from -2147483648 to 4294967295, not %s\n", words[1]);
        return STATUS_DONE;
    }
    answer = box_write_port(box, reg, value);
    if (answer.number == CAISSON_ACCEPTED)
        return written(names, reg, value);
    reading_refused(console->site, reg, value, answer);
    return STATUS_DONE;
}

static enum status reset(struct console *console, char *const *words, size_t count)
{
    caisson_answer answer = box_reset(console->site->box);

    if (answer.number == CAISSON_ACCEPTED)
        return show(console, words, count);
    refusal_say(answer, NULL, console->site->names);
    return STATUS_DONE;
}

static enum status history(struct console *console, char *const *words, size_t count)
{
    (void)words;
    (void)count;
    return history_write(&console->history);
}

static enum status quit(struct console *console, char *const *words, size_t count)
{
    (void)words;
    (void)count;
    console->quit = true;
    return STATUS_DONE;
}

static perform help;

static const char write_help[] = "write a port: 2 or r2, and a value that its width holds";
static const char named_write_help[] = "write a port: its name, 2 or r2, and a value that its width holds";

static const struct command commands[] = {
    {"step", "[N]", "run N cycles, 1 if it is not given, with the readings of the trace", 0, 1, step},
    {"back", "K", "go back K cycles: values and ports as they were before the last K", 1, 1, back},
    {"write", "REGISTER VALUE", write_help, 2, 2, write_port},
    {"show", "", "the values that each party sees now", 0, 0, show},
    {"reset", "", "reset values everywhere; one can go back to before it", 0, 0, reset},
    {"history", "", "the commands so far; !N does one again, !! the last", 0, 0, history},
    {"help", "", "this list", 0, 0, help},
    {"quit", "", "end, as the end of the input does", 0, 0, quit},
};

enum { COMMANDS = sizeof commands / sizeof commands[0] };

static enum status help(struct console *console, char *const *words, size_t count)
{
    bool named = name_of_register(console->site->names, 0) != NULL;

    (void)words;
    (void)count;
    for (size_t i = 0; i < COMMANDS; i++) {
        const char *text = named && commands[i].help == write_help ? named_write_help : commands[i].help;
        enum status status = record_line("%-8s%-16s%s\n", commands[i].name, commands[i].takes, text);

        if (status != STATUS_DONE)
            return status;
    }
    return STATUS_DONE;
}

static const struct command *command_named(const char *name)
{
    for (size_t i = 0; i < COMMANDS; i++) {
        if (strcmp(commands[i].name, name) == 0)
            return &commands[i];
    }
    return NULL;
}

/* Cuts a line into its words, of which there is at least one. Answers how many, WORDS where there are more. */
static size_t words_cut(char *line, char *words[WORDS])
{
    size_t count = 0;

    for (char *word = strtok(line, " "); word != NULL && count < WORDS; word = strtok(NULL, " "))
        words[count++] = word;
    return count;
}

static enum status line_perform(struct console *console, const char *line)
{
    char copy[HISTORY_LONGEST_LINE + 1u];
    char *words[WORDS];
    const struct command *command;
    size_t count;

    strcpy(copy, line);
    count = words_cut(copy, words);
    command = command_named(words[0]);
    if (command == NULL) {
        say("unknown command %s; help lists those that there are\n", words[0]);
        return STATUS_DONE;
    }
    if (count - 1 < command->fewest || count - 1 > command->most) {
        say("usage: %s%s%s\n", command->name, command->takes[0] != '\0' ? " " : "", command->takes);
        return STATUS_DONE;
    }
    return command->perform(console, words + 1, count - 1);
}

/* The line that !! or !N stands for, or NULL with a message. */
static const char *line_again(const struct history *history, const char *line)
{
    uint64_t number = history->count;
    const char *again;

    if (strcmp(line, "!!") != 0 && !number_read_all(line + 1, UINT64_MAX, &number)) {
        say("!! is the last command and !N that of a number, not %s\n", line);
        return NULL;
    }
    again = history_line(history, number);
    if (again == NULL)
        say("no command for %s; history lists those that there are\n", line);
    return again;
}

/* A command that is done again is shown first, and stands in the history as what it was. */
static enum status line_take(struct console *console, const char *line)
{
    char again[HISTORY_LONGEST_LINE + 1u];
    enum status status;

    if (line[0] == '!') {
        line = line_again(&console->history, line);
        if (line == NULL)
            return STATUS_DONE;
        strcpy(again, line);
        line = again;
        status = record_line("%s\n", line);
        if (status == STATUS_DONE)
            status = record_flush();
        if (status != STATUS_DONE)
            return status;
    }
    history_add(&console->history, line);
    return line_perform(console, line);
}

/*
 * Makes a text of the characters: without a comment and without blanks at both ends, all blanks spaces. False,
 * with a message, where one is not ASCII that can be printed: it would not be seen in a message either.
 */
static bool line_clean(char *line, size_t length)
{
    const char *comment = memchr(line, '#', length);
    size_t start = 0;

    if (comment != NULL)
        length = (size_t)(comment - line);
    for (size_t i = 0; i < length; i++) {
        if (is_blank(line[i]))
            line[i] = ' ';
        if (line[i] < ' ' || line[i] > '~') {
            say("a character that is none of a command\n");
            return false;
        }
    }
    while (length > 0 && line[length - 1] == ' ')
        length--;
    while (start < length && line[start] == ' ')
        start++;
    memmove(line, line + start, length - start);
    line[length - start] = '\0';
    return true;
}

static enum status prompt(const struct console *console)
{
    enum status status = console->terminal ? record_line("%" PRIu64 "> ", console->site->done) : STATUS_DONE;

    /* Standard error is not kept back, so that both are read in their order. */
    return status == STATUS_DONE ? record_flush() : status;
}

static enum status next(struct console *console)
{
    char line[HISTORY_LONGEST_LINE + 1u];
    size_t length;

    errno = 0;
    switch (line_read(stdin, line, HISTORY_LONGEST_LINE, &length)) {
    case LINE_NONE:
        console->quit = true;
        /* Where somebody has typed the end, what follows begins a line. */
        return console->terminal ? record_line("\n") : STATUS_DONE;
    case LINE_BROKEN:
        say("standard input: cannot be read: %s\n", strerror(errno));
        return STATUS_INPUT;
    case LINE_TOO_LONG:
        line_skip(stdin);
        say("the line is too long: a command has at most %u characters\n", HISTORY_LONGEST_LINE);
        return STATUS_DONE;
    case LINE_READ:
        break;
    }
    if (!line_clean(line, length) || line[0] == '\0')
        return STATUS_DONE;
    return line_take(console, line);
}

enum status console_run(struct site *site)
{
    struct console console = {.site = site, .terminal = isatty(STDIN_FILENO) == 1};
    enum status status = console.terminal ? record_line("help lists the commands\n") : STATUS_DONE;

    while (status == STATUS_DONE && !console.quit) {
        status = prompt(&console);
        if (status == STATUS_DONE)
            status = next(&console);
    }
    return status == STATUS_DONE ? record_flush() : status;
}
