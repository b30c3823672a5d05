/* Journals from C: what a journalled run saves and where, going back, what 14, 21 and 22 refuse and in which
   order, and which bytes change. It is started in the folder that has `designs`. */
#define _DEFAULT_SOURCE
#include <stdlib.h>
#include <sys/mman.h>

#include "expect.h"

/* A byte of a journal that nobody has written, and how many cycles the journals here have room for. */
enum { UNTOUCHED = 0xA5, ROOM = 8 };

/* designs/slot: two labels, ports and inner registers, a state with a parameter. */
static uint8_t image[CAISSON_LARGEST_IMAGE];
static size_t image_len;

/* Everything that is lent, as one object, so that two of them are compared at once. */
struct lent {
    uint8_t registers[CAISSON_REGISTERS * CAISSON_WORD];
    uint8_t targets[CAISSON_STATES * CAISSON_TARGET_LENGTH];
    uint8_t journal[CAISSON_JOURNAL_COUNT_LENGTH +
                    ROOM * (CAISSON_REGISTERS * CAISSON_WORD + CAISSON_STATES * CAISSON_TARGET_LENGTH)];
};
static struct lent box;
static size_t registers_len, targets_len, saved_len, journal_len;

static void design_read(const char *path)
{
    FILE *file = fopen(path, "rb");

    image_len = file == NULL ? 0 : fread(image, 1, sizeof image, file);
    if (file != NULL)
        fclose(file);
    expect(path, caisson_check(image, image_len), CAISSON_ACCEPTED, 0, 0);
    registers_len = caisson_registers_length(image, image_len).count;
    targets_len = caisson_targets_length(image, image_len).count;
    saved_len = registers_len + targets_len;
    journal_len = CAISSON_JOURNAL_COUNT_LENGTH + ROOM * saved_len;
}

static void reset(void)
{
    expect("reset", caisson_reset(image, image_len, box.registers, registers_len, box.targets, targets_len),
           CAISSON_ACCEPTED, 0, 0);
}

static void write_port(uint32_t reg, uint32_t value)
{
    expect("a port write", caisson_write_port(image, image_len, box.registers, registers_len, reg, value),
           CAISSON_ACCEPTED, 0, 0);
}

static caisson_answer run(uint32_t cycles)
{
    return caisson_run(image, image_len, box.registers, registers_len, box.targets, targets_len, cycles);
}

static caisson_answer run_journalled(size_t length, uint32_t cycles)
{
    return caisson_run_journalled(image, image_len, box.registers, registers_len, box.targets, targets_len,
                                  box.journal, length, cycles);
}

static caisson_answer step_back(size_t length, uint32_t cycles)
{
    return caisson_step_back(image, image_len, box.registers, registers_len, box.targets, targets_len, box.journal,
                             length, cycles);
}

static void count_set(uint8_t *journal, uint32_t count)
{
    for (size_t i = 0; i < CAISSON_JOURNAL_COUNT_LENGTH; i++)
        journal[i] = (uint8_t)(count >> 8 * i);
}

static uint8_t *saved(struct lent *lent, size_t number)
{
    return lent->journal + CAISSON_JOURNAL_COUNT_LENGTH + number * saved_len;
}

/* A box after a reset, with an empty journal whose other bytes nobody has written. */
static void begin(void)
{
    memset(&box, UNTOUCHED, sizeof box);
    reset();
    count_set(box.journal, 0);
}

static void expect_same(const char *what, const struct lent *expected)
{
    expect_bytes(what, (const uint8_t *)&box, (const uint8_t *)expected, sizeof box);
}

/* A refusal with place 0 that must leave every byte as it was. */
static void expect_refused(const char *what, const struct lent *before, caisson_answer answer, uint32_t number)
{
    expect(what, answer, number, 0, 0);
    expect_same(what, before);
}

/* What a journalled run must leave, by runs of one cycle, where the journal counts so many saved states. */
static void run_by_hand(uint32_t counted, uint32_t cycles)
{
    for (uint32_t i = 0; i < cycles; i++) {
        memcpy(saved(&box, counted + i), box.registers, registers_len);
        memcpy(saved(&box, counted + i) + registers_len, box.targets, targets_len);
        expect("a cycle", run(1), CAISSON_ACCEPTED, 0, 1);
    }
    count_set(box.journal, counted + cycles);
}

/* Registers first, the oldest first, before every cycle; and two runs are one. */
static void saves(void)
{
    struct lent expected, before;

    begin();
    write_port(3, 1);
    before = box;
    run_by_hand(0, 5);
    expected = box;
    for (uint32_t first = 0; first <= 5; first++) {
        box = before;
        expect("journalled cycles", run_journalled(journal_len, first), CAISSON_ACCEPTED, 0, first);
        expect("and more of them", run_journalled(journal_len, 5 - first), CAISSON_ACCEPTED, 0, 5 - first);
        expect_same("areas and journal after 5 cycles in two runs", &expected);
    }
    if (memcmp(saved(&expected, 0), saved(&expected, 1), saved_len) == 0 ||
        memcmp(saved(&expected, 3), saved(&expected, 4), saved_len) == 0) {
        fprintf(stderr, "the saved states do not differ: nothing was shown\n");
        failures++;
    }
}

/* Back by each number: the areas as they were saved, and of the journal the count alone. */
static void goes_back(void)
{
    struct lent states[6], expected;

    begin();
    for (int i = 0; i < 5; i++) {
        if (i == 2)
            write_port(3, 1);
        states[i] = box;
        expect("a journalled cycle", run_journalled(journal_len, 1), CAISSON_ACCEPTED, 0, 1);
    }
    states[5] = box;
    for (uint32_t back = 0; back <= 5; back++) {
        box = expected = states[5];
        memcpy(expected.registers, states[5 - back].registers, sizeof expected.registers);
        memcpy(expected.targets, states[5 - back].targets, sizeof expected.targets);
        count_set(expected.journal, 5 - back);
        expect("going back", step_back(journal_len, back), CAISSON_ACCEPTED, 0, back);
        expect_same("areas and journal after going back", &expected);
        expect_refused("further back than counted", &expected, step_back(journal_len, 6 - back), CAISSON_STEPS_BACK);
        expect_refused("as far as the numbers go", &expected, step_back(journal_len, UINT32_MAX), CAISSON_STEPS_BACK);
        /* The same cycles again, but for the port write that was made between them. */
        if (back <= 3) {
            expect("forward again", run_journalled(journal_len, back), CAISSON_ACCEPTED, 0, back);
            expect_same("areas and journal as before", &states[5]);
        }
    }
    /* What the areas hold does not matter, sound or not. */
    box = states[5];
    memset(box.registers, 0xFF, registers_len);
    memset(box.targets, 0xFF, targets_len);
    expect("going back from areas that are not sound", step_back(journal_len, 4), CAISSON_ACCEPTED, 0, 4);
    expect_bytes("their registers", box.registers, states[1].registers, registers_len);
    expect_bytes("their targets", box.targets, states[1].targets, targets_len);
    /* But with 0 nothing is restored. */
    memset(box.registers, 0xFF, registers_len);
    expected = box;
    expect("going back by 0", step_back(journal_len, 0), CAISSON_ACCEPTED, 0, 0);
    expect_same("after going back by 0", &expected);
}

/* Port writes, resets and runs without the journal leave it as it is, and are undone by going back. */
static void not_counted(void)
{
    struct lent before, after;

    begin();
    expect("two journalled cycles", run_journalled(journal_len, 2), CAISSON_ACCEPTED, 0, 2);
    before = box;
    expect("a journalled cycle", run_journalled(journal_len, 1), CAISSON_ACCEPTED, 0, 1);
    after = box;
    expect("cycles without the journal", run(7), CAISSON_ACCEPTED, 0, 7);
    write_port(3, 1);
    reset();
    expect("cycles after a reset", run(1), CAISSON_ACCEPTED, 0, 1);
    expect_bytes("the journal", box.journal, after.journal, sizeof box.journal);
    after = box;
    expect("going back by 0", step_back(journal_len, 0), CAISSON_ACCEPTED, 0, 0);
    expect_same("after going back by 0", &after);
    expect("going back over a reset", step_back(journal_len, 1), CAISSON_ACCEPTED, 0, 1);
    memcpy(before.journal, after.journal, sizeof before.journal);
    count_set(before.journal, 2);
    expect_same("as before the third journalled cycle", &before);
}

/* Lengths of a journal: under 4 bytes, exact room, one byte short, and longer; for runs and for going back. */
static void room(void)
{
    struct lent empty, two;
    const size_t count_len = CAISSON_JOURNAL_COUNT_LENGTH;

    begin();
    empty = box;
    expect("no journal",
           caisson_run_journalled(image, image_len, box.registers, registers_len, box.targets, targets_len, NULL, 0, 0),
           CAISSON_JOURNAL_AREA, 0, 0);
    expect("no journal to go back in",
           caisson_step_back(image, image_len, box.registers, registers_len, box.targets, targets_len, NULL, 0, 0),
           CAISSON_JOURNAL_AREA, 0, 0);
    expect_refused("3 bytes", &empty, run_journalled(count_len - 1, 0), CAISSON_JOURNAL_AREA);
    expect_refused("3 bytes to go back in", &empty, step_back(count_len - 1, 0), CAISSON_JOURNAL_AREA);
    expect("4 bytes for no cycle", run_journalled(count_len, 0), CAISSON_ACCEPTED, 0, 0);
    expect("4 bytes to go back by 0", step_back(count_len, 0), CAISSON_ACCEPTED, 0, 0);
    expect_same("after no cycle", &empty);
    expect_refused("4 bytes for a cycle", &empty, run_journalled(count_len, 1), CAISSON_JOURNAL_AREA);
    expect_refused("4 bytes to go back by 1", &empty, step_back(count_len, 1), CAISSON_STEPS_BACK);
    expect_refused("one byte short for 2", &empty, run_journalled(count_len + 2 * saved_len - 1, 2),
                   CAISSON_JOURNAL_AREA);
    expect("exact room for 2", run_journalled(count_len + 2 * saved_len, 2), CAISSON_ACCEPTED, 0, 2);
    two = box;
    expect("a full journal and no cycle", run_journalled(count_len + 2 * saved_len, 0), CAISSON_ACCEPTED, 0, 0);
    expect_refused("a full journal", &two, run_journalled(count_len + 2 * saved_len, 1), CAISSON_JOURNAL_AREA);
    expect_refused("one byte short for 1 more", &two, run_journalled(count_len + 3 * saved_len - 1, 1),
                   CAISSON_JOURNAL_AREA);
    expect_refused("too short for its count", &two, run_journalled(count_len + 2 * saved_len - 1, 0),
                   CAISSON_JOURNAL_AREA);
    /* 21 is judged before 22, and with 0 too. */
    for (uint32_t back = 0; back <= 3; back++)
        expect_refused("too short to go back", &two, step_back(count_len + 2 * saved_len - 1, back),
                       CAISSON_JOURNAL_AREA);
    expect("exact room to go back", step_back(count_len + 2 * saved_len, 2), CAISSON_ACCEPTED, 0, 2);
    /* Each byte of the count counts. */
    box = two;
    box.journal[3] = 1;
    two = box;
    expect_refused("a count with a high byte", &two, run_journalled(journal_len, 0), CAISSON_JOURNAL_AREA);
    expect_refused("a count with a high byte to go back", &two, step_back(journal_len, 1), CAISSON_JOURNAL_AREA);
    box = empty;
    expect("room for the last", run_journalled(journal_len, ROOM), CAISSON_ACCEPTED, 0, ROOM);
    expect_bytes("the byte behind the journal", box.journal + journal_len, (const uint8_t[]){UNTOUCHED}, 1);
}

/* A run's refusals come before 21, and those of the image and of lengths before all in going back. */
static void order(void)
{
    struct lent before;
    uint8_t cut[sizeof image];

    begin();
    before = box;
    memcpy(cut, image, image_len);
    expect_refused("too many cycles and no room", &before, run_journalled(3, CAISSON_CYCLES + 1), CAISSON_CYCLE_COUNT);
    expect_refused("as many as one run may have, and no room", &before, run_journalled(journal_len, CAISSON_CYCLES),
                   CAISSON_JOURNAL_AREA);
    expect_refused("15 does not limit going back", &before, step_back(journal_len, CAISSON_CYCLES + 1),
                   CAISSON_STEPS_BACK);
    expect("an image cut short",
           caisson_run_journalled(cut, image_len - 1, box.registers, registers_len, box.targets, targets_len,
                                  box.journal, 3, 1),
           CAISSON_DIRECTORY, 0, 0);
    expect("an image cut short",
           caisson_step_back(cut, image_len - 1, box.registers, 0, box.targets, 0, box.journal, 3, 1),
           CAISSON_DIRECTORY, 0, 0);
    for (int longer = 0; longer <= 1; longer++) {
        size_t off = longer ? 1 : (size_t)-1;

        expect("a wrong register length",
               caisson_run_journalled(image, image_len, box.registers, registers_len + off, box.targets, targets_len,
                                      box.journal, 3, 1),
               CAISSON_AREA, 0, 0);
        expect("a wrong register length",
               caisson_step_back(image, image_len, box.registers, registers_len + off, box.targets, targets_len,
                                 box.journal, 3, 1),
               CAISSON_AREA, 0, 0);
        expect("a wrong target length",
               caisson_run_journalled(image, image_len, box.registers, registers_len, box.targets, targets_len + off,
                                      box.journal, 3, 1),
               CAISSON_AREA, 0, 0);
        expect("a wrong target length",
               caisson_step_back(image, image_len, box.registers, registers_len, box.targets, targets_len + off,
                                 box.journal, 3, 1),
               CAISSON_AREA, 0, 0);
    }
    expect_same("after refusals", &before);
    box.targets[targets_len - 1] = CAISSON_REGISTERS; /* the second binding of the last state, which is none */
    expect("an unsound area and no room", run_journalled(3, 1), CAISSON_AREA,
           targets_len / CAISSON_TARGET_LENGTH - 1, 0);
}

/* The state to be restored, and no other, is judged as a run judges an area. */
static void unsound(void)
{
    const size_t states = targets_len / CAISSON_TARGET_LENGTH;
    struct lent before;

    begin();
    expect("journalled cycles", run_journalled(journal_len, 3), CAISSON_ACCEPTED, 0, 3);
    saved(&box, 1)[saved_len - 1] = CAISSON_REGISTERS; /* a binding of the last state to no register */
    expect("a binding", step_back(journal_len, 2), CAISSON_AREA, states - 1, 0);
    saved(&box, 1)[registers_len + 1] = 0; /* state 1 has no child: its target is 1 */
    expect("a target before a binding", step_back(journal_len, 2), CAISSON_AREA, 1, 0);
    saved(&box, 1)[CAISSON_WORD - 1] = 0x80; /* the highest bit of register 0, which has two */
    before = box;
    expect("a value before a target", step_back(journal_len, 2), CAISSON_AREA, 0, 0);
    expect_same("after 14", &before);
    expect_refused("22 before it", &before, step_back(journal_len, 4), CAISSON_STEPS_BACK);
    expect_refused("21 before it", &before, step_back(3, 2), CAISSON_JOURNAL_AREA);
    expect("going back by 0", step_back(journal_len, 0), CAISSON_ACCEPTED, 0, 0);
    expect("a run that does not restore it", run_journalled(journal_len, 1), CAISSON_ACCEPTED, 0, 1);
    expect("going back to a later one", step_back(journal_len, 2), CAISSON_ACCEPTED, 0, 2);
    expect("going back over it", step_back(journal_len, 2), CAISSON_ACCEPTED, 0, 2);
}

/* The count is all that 32 bits hold, in a journal of some 26 GB, of which a few pages are used. So a count that
   passes 32 bits is refused where there is room. */
static void largest_count(void)
{
    const size_t length = CAISSON_JOURNAL_COUNT_LENGTH + ((size_t)UINT32_MAX + 1) * CAISSON_TARGET_LENGTH * 2;
    static const uint8_t smallest[] = {
        20, 0, 2, 0, 22, 0, 0, 0, 22, 0, 18, 0, 40, 0, 16, 0, 56, 0, 0, 0,
        1, 0,
        0, 0, 0, 0, 0, 0, 0, 0, 0,
        0, 0, 1, 0, 0, 0, 0, 0, 0,
        3, 0, 0, 0, 0, 0, 0, 0,
        4, 1, 0, 0, 0, 0, 0, 0,
    };
    uint8_t targets[2 * CAISSON_TARGET_LENGTH];
    uint8_t *journal = mmap(NULL, length, PROT_READ | PROT_WRITE, MAP_PRIVATE | MAP_ANONYMOUS | MAP_NORESERVE, -1, 0);

    if (journal == MAP_FAILED) {
        printf("no room for a journal of %zu bytes: the largest count is not tried\n", length);
        return;
    }
    expect("reset", caisson_reset(smallest, sizeof smallest, NULL, 0, targets, sizeof targets), CAISSON_ACCEPTED, 0, 0);
    count_set(journal, UINT32_MAX - 1);
    expect("the last cycle that is counted",
           caisson_run_journalled(smallest, sizeof smallest, NULL, 0, targets, sizeof targets, journal, length, 1),
           CAISSON_ACCEPTED, 0, 1);
    expect_bytes("the largest count", journal, (const uint8_t[]){255, 255, 255, 255}, 4);
    expect_bytes("the last saved state",
                 journal + CAISSON_JOURNAL_COUNT_LENGTH + ((size_t)UINT32_MAX - 1) * sizeof targets, targets,
                 sizeof targets);
    expect("one more, though there is room",
           caisson_run_journalled(smallest, sizeof smallest, NULL, 0, targets, sizeof targets, journal, length, 1),
           CAISSON_JOURNAL_AREA, 0, 0);
    expect("and none", caisson_run_journalled(smallest, sizeof smallest, NULL, 0, targets, sizeof targets, journal,
                                              length, 0),
           CAISSON_ACCEPTED, 0, 0);
    expect("going back from there",
           caisson_step_back(smallest, sizeof smallest, NULL, 0, targets, sizeof targets, journal, length, 1),
           CAISSON_ACCEPTED, 0, 1);
    expect("to a state that is no sound one",
           caisson_step_back(smallest, sizeof smallest, NULL, 0, targets, sizeof targets, journal, length,
                             UINT32_MAX - 1),
           CAISSON_AREA, 0, 0);
    munmap(journal, length);
}

int main(void)
{
    design_read("designs/slot.table");
    saves();
    goes_back();
    not_counted();
    room();
    order();
    unsound();
    largest_count();
    return report("journals from C");
}
