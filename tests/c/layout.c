/* The structs that cross the boundary: calls whose answers tell each field from every other, and records whose fields
   could not be taken for one another; and that library and header are of one version. */
#include "expect.h"

/* A design from its file; how many bytes it has. */
static size_t load(const char *path, uint8_t image[CAISSON_LARGEST_IMAGE])
{
    FILE *file = fopen(path, "rb");
    size_t length = file == NULL ? 0 : fread(image, 1, CAISSON_LARGEST_IMAGE, file);

    if (length == 0) {
        fprintf(stderr, "%s: cannot be read\n", path);
        failures++;
    }
    if (file != NULL)
        fclose(file);
    return length;
}

static void expect_number(const char *what, size_t got, size_t expected)
{
    answers++;
    if (got == expected)
        return;
    fprintf(stderr, "%s: %zu, expected %zu\n", what, got, expected);
    failures++;
}

static uint8_t lease[CAISSON_LARGEST_IMAGE];
static uint8_t groups[CAISSON_LARGEST_IMAGE];
static uint8_t registers[8];
static uint8_t targets[15];

static void versions(void)
{
    expect_number("the library's version", caisson_version(), CAISSON_VERSION_NUMBER);
    expect_number("the library's format", caisson_format(), CAISSON_FORMAT);
    expect_number("header and library match", (size_t)caisson_matches(), 1);
}

/* A number and a place without a count, and a count without either. */
static void fields_of_answers(size_t length)
{
    uint8_t damaged[CAISSON_LARGEST_IMAGE];

    memcpy(damaged, lease, length);
    damaged[211] = 12; /* the kind of expression 3 */
    expect("a place", caisson_check(damaged, length), CAISSON_NODE_RECORD, CAISSON_EXPRESSION_PLACE + 3, 0);
    expect("a length", caisson_registers_length(lease, length), CAISSON_ACCEPTED, 0, sizeof registers);
    expect("another", caisson_targets_length(lease, length), CAISSON_ACCEPTED, 0, sizeof targets);
    expect("a reset", caisson_reset(lease, length, registers, sizeof registers, targets, sizeof targets),
           CAISSON_ACCEPTED, 0, 0);
    expect("cycles", caisson_run(lease, length, registers, sizeof registers, targets, sizeof targets, 7),
           CAISSON_ACCEPTED, 0, 7);
    expect("a register", caisson_write_port(lease, length, registers, sizeof registers, 5, 9), CAISSON_NO_PORT, 5, 0);
}

/* By the names of the fields, wherever the header has them. */
static caisson_record record(uint32_t cycle, uint32_t reg, uint32_t value)
{
    caisson_record made;

    made.cycle = cycle;
    made.reg = reg;
    made.value = value;
    return made;
}

static caisson_answer replay(size_t length, const caisson_record *trace, size_t count)
{
    return caisson_replay(lease, length, registers, sizeof registers, targets, sizeof targets, trace, count, 5);
}

/* Port 1 before cycle 4 of 5: with two fields exchanged a record would name no port, or a cycle that there is not. */
static void fields_of_records(size_t length)
{
    const uint8_t seven[4] = {7, 0, 0, 0};
    caisson_record trace[2];

    trace[0] = record(4, 1, 9);
    trace[1] = record(4, 1, 7);
    expect("a reset", caisson_reset(lease, length, registers, sizeof registers, targets, sizeof targets),
           CAISSON_ACCEPTED, 0, 0);
    expect("two records", replay(length, trace, 2), CAISSON_ACCEPTED, 0, 1);
    expect_bytes("the port after a replay", registers + 4, seven, sizeof seven);
    trace[1].cycle = 5;
    expect("a cycle behind the last", replay(length, trace, 2), CAISSON_TRACE_CYCLE, 1, 0);
    trace[1] = record(4, 0, 7);
    expect("a register that is no port", replay(length, trace, 2), CAISSON_NO_PORT, 1, 0);
}

/* Two images of unlike lengths, in both orders. */
static void fields_of_which(size_t length, size_t other)
{
    caisson_which which = caisson_which_earlier(lease, length, groups, other);
    caisson_part part = caisson_earlier(groups, other, lease, length);

    expect_number("the first is the earlier", which.second, 0);
    expect_number("and its length", which.len, length);
    which = caisson_which_earlier(groups, other, lease, length);
    expect_number("the second is the earlier", which.second, 1);
    expect_number("and its length", which.len, length);
    expect_number("a part of it", part.bytes == lease, 1);
    expect_number("all of it", part.len, length);
}

int main(void)
{
    size_t length = load("designs/lease.table", lease);
    size_t other = load("designs/two_groups.table", groups);

    versions();
    if (failures == 0) {
        fields_of_answers(length);
        fields_of_records(length);
        fields_of_which(length, other);
    }
    return report("structs, field by field");
}
