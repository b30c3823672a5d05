/*
 * names_file.c: a names file, read and judged line by line. The first line has the version, the checksum of the table
 * and the counts, the second the name of the text; then there is a line for each label, register and state, with its
 * number, name and line in the text, and for each parameter, with its state. The last line has the checksum of all
 * lines above it.
 */
#include <errno.h>
#include <stdarg.h>
#include <stdio.h>
#include <stdlib.h>
#include <string.h>

#include "names.h"
#include "numbers.h"
#include "say.h"
#include "sha256.h"
#include "table.h"

/* A file that is being read: what is left of it, and the line that is read. */
struct reader {
    char *path;
    char *at;
    char *end;
    size_t line;
    char sum[SHA256_DIGITS + 1u]; /* of all that stands above the last line, before a line was looked at */
};

#if defined(__GNUC__) || defined(__clang__)
__attribute__((format(printf, 2, 3)))
#endif
static bool wrong(const struct reader *reader, const char *format, ...)
{
    char words[400];
    va_list arguments;

    va_start(arguments, format);
    (void)vsnprintf(words, sizeof words, format, arguments);
    va_end(arguments);
    say("%s:%zu: %s\n", reader->path, reader->line, words);
    return false;
}

/* The next line, ended by a NUL in the place of its line feed; NULL at the end of the file. */
static char *line_next(struct reader *reader)
{
    char *line = reader->at;
    char *feed = memchr(line, '\n', (size_t)(reader->end - line));

    reader->line++;
    if (feed == NULL)
        return NULL;
    *feed = '\0';
    reader->at = feed + 1;
    /* A NUL of the file itself would hide what stands behind it. */
    return strlen(line) == (size_t)(feed - line) ? line : NULL;
}

/* Takes a word and the space behind it, or the word at the end of the line. */
static bool word_take(char **at, const char *word)
{
    size_t length = strlen(word);

    if (strncmp(*at, word, length) != 0 || ((*at)[length] != ' ' && (*at)[length] != '\0'))
        return false;
    *at += length + ((*at)[length] == ' ');
    return true;
}

static bool number_take(char **at, uint64_t *number)
{
    const char *cursor = *at;

    if (!number_read(&cursor, cursor + strlen(cursor), UINT32_MAX, number) || (*cursor != ' ' && *cursor != '\0') ||
        (**at == '0' && cursor - *at > 1))
        return false;
    *at = (char *)cursor + (*cursor == ' ');
    return true;
}

/* Also no space behind the last word, which a word that was taken has with it. */
static bool at_end(const char *at)
{
    return at[0] == '\0' && at[-1] != ' ';
}

static bool count_judge(const struct reader *reader, char **at, const char *kind, size_t count)
{
    uint64_t number;

    if (!word_take(at, kind) || !number_take(at, &number))
        return wrong(reader, "is not of a design: the first line has no number of %s", kind);
    if (number != count)
        return wrong(reader, "has %llu %s, and the table has %zu", (unsigned long long)number, kind, count);
    return true;
}

static bool first_line(struct reader *reader, const struct design *design)
{
    char sum[SHA256_DIGITS + 1u];
    char *at = line_next(reader);
    uint64_t version;

    if (at == NULL || !word_take(&at, "caisson") || !word_take(&at, "names") || !number_take(&at, &version))
        return wrong(reader, "is no names file: it does not begin with `caisson names`");
    if (version == 1)
        return wrong(reader, "is a names file of version 1, which has no sum of itself; assemble it again or remove "
                             "the names file");
    if (version != 2)
        return wrong(reader, "is a names file of version %llu; only 2 is known", (unsigned long long)version);
    if (!word_take(&at, "sha256") || strspn(at, "0123456789abcdef") != SHA256_DIGITS)
        return wrong(reader, "is no names file: the first line has no checksum");
    sha256_digits(design->image, design->length, sum);
    if (!word_take(&at, sum))
        return wrong(reader, "is not of this table: it was made for another, or the table was changed; assemble it "
                             "again or remove the names file");
    if (!count_judge(reader, &at, "labels", table_labels(design->image)) ||
        !count_judge(reader, &at, "registers", table_registers(design->image)) ||
        !count_judge(reader, &at, "states", table_states(design->image)))
        return false;
    return at_end(at) || wrong(reader, "more than the counts stands in the first line");
}

static bool source_line(struct reader *reader)
{
    char *at = line_next(reader);

    return (at != NULL && word_take(&at, "source") && *at != '\0' && strchr(at, ' ') == NULL) ||
           wrong(reader, "the line `source FILE` is missing");
}

/* NAME LINE, the end of each line. */
static bool name_take(const struct reader *reader, char *at, const char *head, const char **name)
{
    size_t length = strcspn(at, " ");
    char *behind = at + length;
    uint64_t number;

    if (*behind == ' ')
        behind++;
    if (!is_name(at, length) || !number_take(&behind, &number) || number == 0 || !at_end(behind))
        return wrong(reader, "a name and the line of its declaration are expected behind `%s`", head);
    at[length] = '\0';
    *name = at;
    return true;
}

static bool is_new(const struct reader *reader, const char *kind, const char *const *list, size_t before)
{
    for (size_t i = 0; i < before; i++) {
        if (strcmp(list[i], list[before]) == 0)
            return wrong(reader, "the %s name %.200s stands here a second time", kind, list[before]);
    }
    return true;
}

/* The line that begins so, with a name that none before it in the list has. */
static bool entry_line(struct reader *reader, const char *kind, const char *head, const char **list, size_t place)
{
    char *at = line_next(reader);

    if (at == NULL)
        return wrong(reader, "the file ends where `%s` is expected", head);
    if (!word_take(&at, head))
        return wrong(reader, "`%s` is expected here, in the order of the numbers, not `%.100s`", head, at);
    return name_take(reader, at, head, &list[place]) && is_new(reader, kind, list, place);
}

static bool kind_lines(struct reader *reader, const char *kind, const char **list, size_t count)
{
    for (size_t i = 0; i < count; i++) {
        char head[40];

        (void)snprintf(head, sizeof head, "%s %zu", kind, i);
        if (!entry_line(reader, kind, head, list, i))
            return false;
    }
    return true;
}

static bool parameter_lines(struct reader *reader, struct names *names, const uint8_t *image)
{
    for (size_t state = 0; state < table_states(image); state++) {
        for (size_t own = 0; own < table_parameters(image, state) && own < CAISSON_PARAMETERS; own++) {
            char head[40];

            (void)snprintf(head, sizeof head, "parameter %zu %zu", state, own);
            if (!entry_line(reader, "parameter", head, names->parameters[state], own))
                return false;
        }
    }
    return true;
}

/* Two names that were exchanged are still names of the table: nothing but this line tells. */
static bool sum_line(struct reader *reader)
{
    char *at = line_next(reader);

    if (at == NULL)
        return wrong(reader, "the file ends where `sum SHA256` is expected");
    if (!word_take(&at, "sum") || strspn(at, "0123456789abcdef") != SHA256_DIGITS || at[SHA256_DIGITS] != '\0')
        return wrong(reader, "`sum SHA256` is expected here, not `%.100s`", at);
    return strcmp(at, reader->sum) == 0 ||
           wrong(reader, "the sum is not that of the lines above: the names file was changed; assemble it again or "
                         "remove the names file");
}

static bool lines_read(struct reader *reader, struct names *names, const struct design *design)
{
    const uint8_t *image = design->image;

    if (!first_line(reader, design) || !source_line(reader) ||
        !kind_lines(reader, "label", names->labels, table_labels(image)) ||
        !kind_lines(reader, "register", names->registers, table_registers(image)) ||
        !kind_lines(reader, "state", names->states, table_states(image)) || !parameter_lines(reader, names, image) ||
        !sum_line(reader))
        return false;
    reader->line++;
    return reader->at == reader->end || wrong(reader, "a line too many");
}

/* The checksum of what stands above the last line. */
static void lines_sum(struct reader *reader)
{
    const char *last = reader->end;

    if (last > reader->at)
        last--;
    while (last > reader->at && last[-1] != '\n')
        last--;
    sha256_digits((const uint8_t *)reader->at, (size_t)(last - reader->at), reader->sum);
}

/* The whole file in memory; false, with a message, where that fails. */
static bool file_read(struct reader *reader, struct names *names, FILE *file)
{
    size_t length;

    names->text = malloc(NAMES_LARGEST_FILE + 1u);
    if (names->text == NULL) {
        say("%s: no memory to read it\n", reader->path);
        return false;
    }
    errno = 0;
    length = fread(names->text, 1, NAMES_LARGEST_FILE + 1u, file);
    if (ferror(file)) {
        say("%s: cannot be read: %s\n", reader->path, strerror(errno));
        return false;
    }
    if (length > NAMES_LARGEST_FILE) {
        say("%s: is larger than %u bytes, which no names file is\n", reader->path, NAMES_LARGEST_FILE);
        return false;
    }
    reader->at = names->text;
    reader->end = names->text + length;
    lines_sum(reader);
    return true;
}

enum status names_load(struct names *names, const char *table, const struct design *design)
{
    struct reader reader = {.path = malloc(strlen(table) + sizeof ".names")};
    bool done;
    FILE *file;

    *names = (struct names){0};
    if (reader.path == NULL) {
        say("%s: no memory for its names\n", table);
        return STATUS_INPUT;
    }
    strcat(strcpy(reader.path, table), ".names");
    file = fopen(reader.path, "rb");
    done = file == NULL && errno == ENOENT;
    if (file == NULL && !done)
        say("%s: cannot be opened: %s\n", reader.path, strerror(errno));
    if (file != NULL) {
        done = file_read(&reader, names, file) && lines_read(&reader, names, design);
        (void)fclose(file);
    }
    free(reader.path);
    if (done)
        return STATUS_DONE;
    names_free(names);
    return STATUS_INPUT;
}
