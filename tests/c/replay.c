/* Replays from C: what a trace does and what of it is superseded, that it is port writes and single cycles made by
   hand, in one call or divided, what 23, 13 and 17 refuse, at which record and in which order, and that nothing
   changes then. It is started in the folder that has `designs`. */
#include "expect.h"

/* A byte behind the areas, which nobody writes. */
enum { UNTOUCHED = 0xA5 };

/* Of designs/slot: ports of 4 bits and of 1 bit, an inner register, and how many registers there are. */
enum { ALLOWED = 2, LEAK = 3, INNER = 0, REGISTERS = 6 };

static uint8_t image[CAISSON_LARGEST_IMAGE];
static size_t image_len;

/* Everything that is lent to be written, as one object, so that two of them are compared at once. */
struct lent {
    uint8_t registers[CAISSON_REGISTERS * CAISSON_WORD];
    uint8_t targets[CAISSON_STATES * CAISSON_TARGET_LENGTH];
};
static struct lent box;
static size_t registers_len, targets_len;

/* A trace for 9 cycles, of which 4 and 8 have no records. The two ports take turns within a cycle. */
enum { CYCLES = 9, RECORDS = 13, SUPERSEDED = 4 };
static const caisson_record trace[RECORDS] = {
    {0, LEAK, 1},    {0, ALLOWED, 3}, {1, LEAK, 0}, {2, LEAK, 0}, {2, ALLOWED, 5}, {2, LEAK, 1},    {2, ALLOWED, 7},
    {2, LEAK, 1},    {3, LEAK, 0},    {5, LEAK, 1}, {6, LEAK, 0}, {7, ALLOWED, 9}, {7, ALLOWED, 15},
};

static void design_read(const char *path)
{
    FILE *file = fopen(path, "rb");

    image_len = file == NULL ? 0 : fread(image, 1, sizeof image, file);
    if (file != NULL)
        fclose(file);
    expect(path, caisson_check(image, image_len), CAISSON_ACCEPTED, 0, 0);
    registers_len = caisson_registers_length(image, image_len).count;
    targets_len = caisson_targets_length(image, image_len).count;
    expect(path, caisson_registers_length(image, image_len), CAISSON_ACCEPTED, 0, REGISTERS * CAISSON_WORD);
}

static void begin(void)
{
    memset(&box, UNTOUCHED, sizeof box);
    expect("reset", caisson_reset(image, image_len, box.registers, registers_len, box.targets, targets_len),
           CAISSON_ACCEPTED, 0, 0);
}

static void write_port(uint32_t reg, uint32_t value)
{
    expect("a port write", caisson_write_port(image, image_len, box.registers, registers_len, reg, value),
           CAISSON_ACCEPTED, 0, 0);
}

static caisson_answer run(uint32_t cycles)
{
    return caisson_run(image, image_len, box.registers, registers_len, box.targets, targets_len, cycles);
}

static caisson_answer replay(const caisson_record *records, size_t count, uint32_t cycles)
{
    return caisson_replay(image, image_len, box.registers, registers_len, box.targets, targets_len, records, count,
                          cycles);
}

static void expect_same(const char *what, const struct lent *expected)
{
    expect_bytes(what, (const uint8_t *)&box, (const uint8_t *)expected, sizeof box);
}

static void expect_other(const char *what, const struct lent *expected)
{
    if (memcmp(&box, expected, sizeof box) != 0)
        return;
    fprintf(stderr, "%s: the same bytes, so that nothing was shown\n", what);
    failures++;
}

/* A refusal, which must leave every byte as it was, those of the trace too. */
static void expect_refused(const char *what, const caisson_record *records, size_t count, uint32_t cycles,
                           uint32_t number, size_t place)
{
    struct lent before = box;
    caisson_record copy[RECORDS];

    if (count > 0)
        memcpy(copy, records, count * sizeof *records);
    expect(what, replay(records, count, cycles), number, place, 0);
    expect_same(what, &before);
    if (count > 0)
        expect_bytes(what, (const uint8_t *)records, (const uint8_t *)copy, count * sizeof *records);
}

/* The records of some cycles, as port writes. */
static void write_records(uint32_t first, uint32_t end)
{
    for (size_t i = 0; i < RECORDS; i++) {
        if (trace[i].cycle >= first && trace[i].cycle < end)
            write_port(trace[i].reg, trace[i].value);
    }
}

/* What a replay must leave: port writes and single cycles. */
static void by_hand(uint32_t cycles)
{
    for (uint32_t cycle = 0; cycle < cycles; cycle++) {
        write_records(cycle, cycle + 1);
        expect("a cycle", run(1), CAISSON_ACCEPTED, 0, 1);
    }
}

/* As by hand, for each number of cycles that the trace has and for more; and not as in the ways that are wrong. */
static void as_by_hand(void)
{
    struct lent expected;

    for (uint32_t cycles = 0; cycles <= CYCLES + 4; cycles++) {
        size_t count = 0, superseded = 0;

        while (count < RECORDS && trace[count].cycle < cycles)
            count++;
        for (size_t i = 0; i < count; i++)
            superseded += i == 3 || i == 4 || i == 5 || i == 11; /* by 5, 6, 7 and 12 */
        begin();
        by_hand(cycles);
        expected = box;
        begin();
        expect("a replay", replay(trace, count, cycles), CAISSON_ACCEPTED, 0, superseded);
        expect_same("areas after a replay", &expected);
    }
    begin();
    write_records(0, CYCLES);
    expect("cycles", run(CYCLES + 4), CAISSON_ACCEPTED, 0, CYCLES + 4);
    expect_other("all records first", &expected);
    begin();
    for (uint32_t cycle = 0; cycle < CYCLES + 4; cycle++) {
        expect("a cycle", run(1), CAISSON_ACCEPTED, 0, 1);
        write_records(cycle, cycle + 1);
    }
    expect_other("records after their cycle", &expected);
}

/* Divided at each cycle, and the second part recounted: the areas of both together, and the counts add up. */
static void divided(void)
{
    struct lent expected;

    begin();
    expect("a replay", replay(trace, RECORDS, CYCLES), CAISSON_ACCEPTED, 0, SUPERSEDED);
    expected = box;
    for (uint32_t first = 0; first <= CYCLES; first++) {
        caisson_record rest[RECORDS];
        caisson_answer one, other;
        size_t part = 0;

        while (part < RECORDS && trace[part].cycle < first)
            part++;
        for (size_t i = part; i < RECORDS; i++)
            rest[i - part] = (caisson_record){trace[i].cycle - first, trace[i].reg, trace[i].value};
        begin();
        one = replay(trace, part, first);
        other = replay(rest, RECORDS - part, CYCLES - first);
        expect("the first part", one, CAISSON_ACCEPTED, 0, one.count);
        expect("the rest", other, CAISSON_ACCEPTED, 0, SUPERSEDED - one.count);
        expect_same("areas after two replays", &expected);
    }
}

/* What is superseded: for one cycle and port, whatever stands between. */
static void counts(void)
{
    static const struct {
        const char *what;
        caisson_record records[5];
        size_t count, superseded;
    } cases[] = {
        {"one record", {{0, LEAK, 1}}, 1, 0},
        {"two for one cycle and port", {{0, LEAK, 1}, {0, LEAK, 0}}, 2, 1},
        {"three", {{1, LEAK, 1}, {1, LEAK, 0}, {1, LEAK, 1}}, 3, 2},
        {"equal values", {{1, LEAK, 1}, {1, LEAK, 1}}, 2, 1},
        {"two ports", {{0, LEAK, 1}, {0, ALLOWED, 1}}, 2, 0},
        {"two cycles", {{0, LEAK, 1}, {1, LEAK, 1}}, 2, 0},
        {"another port between", {{0, LEAK, 1}, {0, ALLOWED, 1}, {0, LEAK, 0}}, 3, 1},
        {"both ports in turns", {{0, LEAK, 1}, {0, ALLOWED, 1}, {0, LEAK, 0}, {0, ALLOWED, 2}}, 4, 2},
        {"the last of one cycle and the first of the next",
         {{0, LEAK, 1}, {0, LEAK, 0}, {1, LEAK, 1}, {1, LEAK, 0}, {1, ALLOWED, 1}},
         5, 2},
    };

    for (size_t i = 0; i < sizeof cases / sizeof *cases; i++) {
        begin();
        expect(cases[i].what, replay(cases[i].records, cases[i].count, 2), CAISSON_ACCEPTED, 0, cases[i].superseded);
    }
    /* The later of two stays. */
    begin();
    expect("the later", replay((caisson_record[]){{0, ALLOWED, 9}, {0, ALLOWED, 4}}, 2, 1), CAISSON_ACCEPTED, 0, 1);
    expect_bytes("the later of two", box.registers + CAISSON_WORD * ALLOWED, (const uint8_t[]){4, 0, 0, 0},
                 CAISSON_WORD);
}

/* No records, no cycles, as many cycles as there may be. */
static void extremes(void)
{
    struct lent expected;

    begin();
    expected = box;
    expect("no cycles and no records", replay(NULL, 0, 0), CAISSON_ACCEPTED, 0, 0);
    expect_same("after no cycles", &expected);
    expect_refused("a record and no cycles", trace, 1, 0, CAISSON_TRACE_CYCLE, 0);
    expect("cycles", run(5), CAISSON_ACCEPTED, 0, 5);
    expected = box;
    begin();
    expect("no records", replay(NULL, 0, 5), CAISSON_ACCEPTED, 0, 0);
    expect_same("a replay without records", &expected);

    begin();
    expect("the most cycles but one", run(CAISSON_CYCLES - 1), CAISSON_ACCEPTED, 0, CAISSON_CYCLES - 1);
    write_port(LEAK, 1);
    expect("the last", run(1), CAISSON_ACCEPTED, 0, 1);
    expected = box;
    begin();
    expect("a record in the last cycle",
           replay((caisson_record[]){{CAISSON_CYCLES - 1, LEAK, 1}}, 1, CAISSON_CYCLES), CAISSON_ACCEPTED, 0, 0);
    expect_same("after the most cycles", &expected);
    expect_refused("one cycle more", NULL, 0, CAISSON_CYCLES + 1, CAISSON_CYCLE_COUNT, 0);
    expect_refused("all that 32 bits hold", NULL, 0, UINT32_MAX, CAISSON_CYCLE_COUNT, 0);
}

/* 23 on either side: cycles that stay and fall, that are the last and reach n. */
static void cycles_refused(void)
{
    begin();
    expect("the last cycle", replay((caisson_record[]){{2, LEAK, 1}}, 1, 3), CAISSON_ACCEPTED, 0, 0);
    expect_refused("a record at n", (caisson_record[]){{3, LEAK, 1}}, 1, 3, CAISSON_TRACE_CYCLE, 0);
    expect_refused("the largest cycle", (caisson_record[]){{UINT32_MAX, LEAK, 1}}, 1, 3, CAISSON_TRACE_CYCLE, 0);
    expect_refused("only the last reaches n", (caisson_record[]){{0, LEAK, 1}, {2, LEAK, 1}, {3, LEAK, 0}}, 3, 3,
                   CAISSON_TRACE_CYCLE, 2);
    expect("cycles that stay", replay((caisson_record[]){{1, LEAK, 1}, {1, ALLOWED, 1}}, 2, 3), CAISSON_ACCEPTED, 0, 0);
    expect_refused("a cycle that falls", (caisson_record[]){{1, LEAK, 1}, {0, ALLOWED, 1}}, 2, 3, CAISSON_TRACE_CYCLE,
                   1);
    /* The lowest of both kinds, and only the record before it matters. */
    expect_refused("falls before it reaches", (caisson_record[]){{1, LEAK, 1}, {0, LEAK, 1}, {3, LEAK, 1}}, 3, 3,
                   CAISSON_TRACE_CYCLE, 1);
    expect_refused("reaches before it falls", (caisson_record[]){{1, LEAK, 1}, {3, LEAK, 1}, {0, LEAK, 1}}, 3, 3,
                   CAISSON_TRACE_CYCLE, 1);
    expect_refused("falls and rises again", (caisson_record[]){{2, LEAK, 1}, {0, LEAK, 1}, {1, LEAK, 1}}, 3, 3,
                   CAISSON_TRACE_CYCLE, 1);
}

/* 13 and 17 on either side, at the lowest record that breaks one of them, whatever register it names. */
static void records_refused(void)
{
    static const uint32_t no_ports[] = {INNER, 1, REGISTERS - 1, REGISTERS, 64, 256 + LEAK, 65536 + LEAK, UINT32_MAX};

    for (size_t i = 0; i < sizeof no_ports / sizeof *no_ports; i++) {
        begin();
        expect_refused("no port", (caisson_record[]){{0, LEAK, 1}, {1, ALLOWED, 2}, {1, no_ports[i], 0}}, 3, 2,
                       CAISSON_NO_PORT, 2);
        expect_refused("no port and a large value", (caisson_record[]){{0, no_ports[i], UINT32_MAX}}, 1, 2,
                       CAISSON_NO_PORT, 0);
    }
    begin();
    expect("the largest values", replay((caisson_record[]){{0, ALLOWED, 15}, {0, LEAK, 1}}, 2, 1), CAISSON_ACCEPTED, 0,
           0);
    expect_refused("16 for 4 bits", (caisson_record[]){{0, LEAK, 1}, {0, ALLOWED, 16}}, 2, 1, CAISSON_PORT_VALUE, 1);
    expect_refused("2 for 1 bit", (caisson_record[]){{0, LEAK, 2}}, 1, 1, CAISSON_PORT_VALUE, 0);
    expect_refused("32 bits", (caisson_record[]){{0, ALLOWED, 1}, {0, ALLOWED, 2}, {0, LEAK, UINT32_MAX}}, 3, 1,
                   CAISSON_PORT_VALUE, 2);
    /* One pass for both. */
    expect_refused("17 and then 13", (caisson_record[]){{0, LEAK, 2}, {0, INNER, 1}}, 2, 1, CAISSON_PORT_VALUE, 0);
    expect_refused("13 and then 17", (caisson_record[]){{0, INNER, 1}, {0, LEAK, 2}}, 2, 1, CAISSON_NO_PORT, 0);
    expect_refused("two of 13", (caisson_record[]){{0, LEAK, 0}, {0, REGISTERS, 1}, {0, INNER, 1}}, 3, 1,
                   CAISSON_NO_PORT, 1);
    /* What is superseded is judged too, and what comes late before the first cycle. */
    expect_refused("superseded", (caisson_record[]){{0, LEAK, 2}, {0, LEAK, 1}}, 2, 1, CAISSON_PORT_VALUE, 0);
    expect_refused("in the last cycle", (caisson_record[]){{0, LEAK, 1}, {8, LEAK, 2}}, 2, 9, CAISSON_PORT_VALUE, 1);
}

/* The image, 14, 15, 23, then 13 and 17: each before those behind it. */
static void order(void)
{
    /* Record 0 names no port, record 1 falls. */
    static const caisson_record worst[] = {{1, INNER, 0}, {0, LEAK, 2}};
    const size_t states = targets_len / CAISSON_TARGET_LENGTH;
    struct lent before;

    begin();
    expect_refused("23 before 13 and 17", worst, 2, 5, CAISSON_TRACE_CYCLE, 1);
    expect_refused("23 before 13 of the same record", worst, 1, 1, CAISSON_TRACE_CYCLE, 0);
    expect_refused("15 before 23", worst, 2, CAISSON_CYCLES + 1, CAISSON_CYCLE_COUNT, 0);
    before = box;
    expect("an image cut short",
           caisson_replay(image, image_len - 1, box.registers, 0, box.targets, 0, worst, 2, CAISSON_CYCLES + 1),
           CAISSON_DIRECTORY, 0, 0);
    for (int longer = 0; longer <= 1; longer++) {
        size_t off = longer ? 1 : (size_t)-1;

        expect("a wrong register length",
               caisson_replay(image, image_len, box.registers, registers_len + off, box.targets, targets_len, worst, 2,
                              CAISSON_CYCLES + 1),
               CAISSON_AREA, 0, 0);
        expect("a wrong target length",
               caisson_replay(image, image_len, box.registers, registers_len, box.targets, targets_len + off, worst, 2,
                              CAISSON_CYCLES + 1),
               CAISSON_AREA, 0, 0);
    }
    expect_same("after refusals", &before);
    box.targets[targets_len - 1] = CAISSON_REGISTERS; /* the second binding of the last state, which is none */
    expect_refused("a binding", worst, 2, CAISSON_CYCLES + 1, CAISSON_AREA, states - 1);
    box.targets[1] = 0; /* state 1 has no child: its target is 1 */
    expect_refused("a target before a binding", worst, 2, CAISSON_CYCLES + 1, CAISSON_AREA, 1);
    box.registers[CAISSON_WORD - 1] = 0x80; /* the highest bit of register 0, which has two */
    expect_refused("a value before a target", worst, 2, CAISSON_CYCLES + 1, CAISSON_AREA, 0);
    /* A port that is to be written is judged as it stands. */
    begin();
    box.registers[CAISSON_WORD * LEAK] = 2;
    expect_refused("a port out of its width", (caisson_record[]){{0, LEAK, 1}}, 1, 1, CAISSON_AREA, LEAK);
}

/* Records of a high port do not show at a lower level, and the count tells of them. */
static void levels(void)
{
    static const caisson_record one[] = {{0, LEAK, 1}, {0, ALLOWED, 3}, {4, ALLOWED, 9}, {9, LEAK, 0}};
    static const caisson_record other[] = {{0, ALLOWED, 3}, {2, LEAK, 1}, {2, LEAK, 1}, {4, ALLOWED, 9}};
    static const size_t low[] = {0, 1, ALLOWED, 4};
    struct lent first;

    begin();
    expect("one trace", replay(one, 4, 12), CAISSON_ACCEPTED, 0, 0);
    first = box;
    begin();
    expect("the other", replay(other, 4, 12), CAISSON_ACCEPTED, 0, 1);
    for (size_t i = 0; i < sizeof low / sizeof *low; i++)
        expect_bytes("a low register", box.registers + CAISSON_WORD * low[i], first.registers + CAISSON_WORD * low[i],
                     CAISSON_WORD);
    expect_other("the high registers", &first);
}

int main(void)
{
    _Static_assert(sizeof(caisson_record) == 12 && _Alignof(caisson_record) == 4, "a record has 12 bytes");
    design_read("designs/slot.table");
    as_by_hand();
    divided();
    counts();
    extremes();
    cycles_refused();
    records_refused();
    order();
    levels();
    return report("replays from C");
}
