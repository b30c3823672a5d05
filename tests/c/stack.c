/* How much stack a call takes, for each design named and on the largest gate table: a thread runs it on a
   painted stack, and the paint that is left is counted. What the thread takes without a call is subtracted. */
#define _POSIX_C_SOURCE 200809L
#include <pthread.h>
#include <stdio.h>
#include <stdlib.h>
#include <string.h>

#include "caisson.h"
#include "table.h"

enum { CYCLES = 1000, EVERY = 100, STACK = 1 << 20, PAGE = 4096, PAINT = 0xA5 };

/* One byte more than the largest image has, so that a longer file is refused. */
static uint8_t image[CAISSON_LARGEST_IMAGE + 1u], written[CAISSON_LARGEST_IMAGE + 1u];
static uint8_t registers[CAISSON_REGISTERS * CAISSON_WORD], targets[CAISSON_STATES * CAISSON_TARGET_LENGTH];
static uint8_t journal[CAISSON_JOURNAL_COUNT_LENGTH + CYCLES * (sizeof registers + sizeof targets)];
static size_t image_len, registers_len, targets_len;
static uint32_t port;
static uint8_t gates[CAISSON_GATES_LARGEST_TABLE], inputs[CAISSON_GATES_INPUTS];
static uint8_t flipflops[CAISSON_GATES_FLIPFLOPS * CAISSON_GATES_PAIR];
static caisson_answer answer;

static void *nothing(void *unused) { return unused; }

static void *check(void *unused) {
    answer = caisson_check(image, image_len);
    return unused;
}

static void *registers_length(void *unused) {
    answer = caisson_registers_length(image, image_len);
    return unused;
}

static void *targets_length(void *unused) {
    answer = caisson_targets_length(image, image_len);
    return unused;
}

static void *reset(void *unused) {
    answer = caisson_reset(image, image_len, registers, registers_len, targets, targets_len);
    return unused;
}

static void *write_port(void *unused) {
    answer = caisson_write_port(image, image_len, registers, registers_len, port, 1);
    return unused;
}

static void *run(void *unused) {
    answer = caisson_run(image, image_len, registers, registers_len, targets, targets_len, CYCLES);
    return unused;
}

/* With a record for the port before every hundredth cycle. */
static void *replay(void *unused) {
    static caisson_record trace[CYCLES / EVERY];
    for (uint32_t i = 0; i < CYCLES / EVERY; i++)
        trace[i] = (caisson_record){i * EVERY, port, 1};
    answer = caisson_replay(image, image_len, registers, registers_len, targets, targets_len, trace, CYCLES / EVERY,
                            CYCLES);
    return unused;
}

/* Into an empty journal, whatever the one before has left. */
static void *run_journalled(void *unused) {
    memset(journal, 0, CAISSON_JOURNAL_COUNT_LENGTH);
    answer = caisson_run_journalled(image, image_len, registers, registers_len, targets, targets_len, journal,
                                    sizeof journal, CYCLES);
    return unused;
}

/* It comes behind a journalled run. */
static void *step_back(void *unused) {
    answer = caisson_step_back(image, image_len, registers, registers_len, targets, targets_len, journal,
                               sizeof journal, CYCLES);
    return unused;
}

static void *raise_labels(void *unused) {
    answer = caisson_raise(image, image_len, written, image_len);
    return unused;
}

static void *prune(void *unused) {
    answer = caisson_prune(image, image_len, written, image_len);
    return unused;
}

static void *file(void *unused) {
    answer = caisson_file(image, image_len, written, image_len);
    return unused;
}

/* An image beside itself: the forms are equal, so that all of both is gone through. */
static void *earlier(void *unused) {
    caisson_part part = caisson_earlier(image, image_len, image, image_len);
    answer.number = part.len == image_len ? CAISSON_ACCEPTED : CAISSON_DIRECTORY;
    return unused;
}

static void *gates_check(void *unused) {
    answer = caisson_gates_check(gates, sizeof gates);
    return unused;
}

static void *gates_reset(void *unused) {
    answer = caisson_gates_reset(gates, sizeof gates, flipflops, sizeof flipflops);
    return unused;
}

static void *gates_cycle(void *unused) {
    answer = caisson_gates_cycle(gates, sizeof gates, inputs, sizeof inputs, flipflops, sizeof flipflops);
    return unused;
}

static void fail(const char *what) {
    perror(what);
    exit(2);
}

/* The bytes of the stack that were written. */
static size_t used(void *(*call)(void *)) {
    uint8_t *stack = aligned_alloc(PAGE, STACK);
    if (!stack)
        fail("stack");
    memset(stack, PAINT, STACK);
    pthread_attr_t attributes;
    pthread_t thread;
    if (pthread_attr_init(&attributes) || pthread_attr_setstack(&attributes, stack, STACK) ||
        pthread_create(&thread, &attributes, call, NULL) || pthread_join(thread, NULL))
        fail("thread");
    pthread_attr_destroy(&attributes);
    size_t left = 0;
    while (left < STACK && stack[left] == PAINT)
        left++;
    free(stack);
    return STACK - left;
}

/* A call that is refused would be measured in the place of another. */
static void expect_accepted(const char *path, const char *what) {
    if (answer.number == CAISSON_ACCEPTED)
        return;
    fprintf(stderr, "%s: %s is refused by %u at %zu\n", path, what, (unsigned)answer.number,
            answer.place);
    exit(2);
}

/* Reads a design with a port and asks for the lengths of its areas. */
static void read_design(const char *path) {
    FILE *file = fopen(path, "rb");
    if (!file)
        fail(path);
    image_len = fread(image, 1, sizeof image, file);
    fclose(file);
    registers_length(NULL);
    expect_accepted(path, "registers_length");
    registers_len = answer.count;
    targets_length(NULL);
    expect_accepted(path, "targets_length");
    targets_len = answer.count;
    port = 0;
    while (CAISSON_WORD * (port + 1) < registers_len && !table_is_port(image, port))
        port++;
}

static size_t put(size_t at, size_t number) {
    gates[at] = (uint8_t)number;
    gates[at + 1] = (uint8_t)(number >> 8);
    return at + 2;
}

/* Every count is the most. Each gate reads the two wires below it, and the flip-flops take the last gates. */
static void write_gates(void) {
    static const size_t lengths[] = {CAISSON_GATES_INPUTS * CAISSON_GATES_INPUT_LENGTH,
                                     CAISSON_GATES_FLIPFLOPS * CAISSON_GATES_FLIPFLOP_LENGTH,
                                     CAISSON_GATES_GATES * CAISSON_GATES_GATE_LENGTH};
    const size_t first_gate = CAISSON_GATES_INPUTS + CAISSON_GATES_FLIPFLOPS;
    const size_t wires = first_gate + CAISSON_GATES_GATES;
    size_t at = 0, offset = CAISSON_GATES_DIRECTORY_LENGTH;
    for (size_t section = 0; section < sizeof lengths / sizeof *lengths; section++) {
        at = put(at, offset);
        at = put(at, lengths[section]);
        offset += lengths[section];
    }
    for (size_t input = 0; input < CAISSON_GATES_INPUTS; input++)
        gates[at++] = input % 2 ? CAISSON_UNTRUSTED : CAISSON_TRUSTED;
    for (size_t flipflop = 0; flipflop < CAISSON_GATES_FLIPFLOPS; flipflop++) {
        at = put(at, wires - 1 - flipflop);
        gates[at++] = flipflop % 2;
        gates[at++] = CAISSON_TRUSTED;
    }
    for (size_t wire = first_gate; wire < wires; wire++) {
        at = put(at, wire - 1);
        at = put(at, wire - 2);
    }
}

struct measured {
    const char *name;
    void *(*call)(void *);
};

static void measure(const char *what, const struct measured *calls, size_t count) {
    size_t without = used(nothing);
    for (size_t k = 0; k < count; k++) {
        size_t with = used(calls[k].call);
        expect_accepted(what, calls[k].name);
        printf("%s: %s takes %zu bytes\n", what, calls[k].name, with - without);
    }
}

int main(int count, char **paths) {
    static const struct measured of_designs[] = {{"check", check},
                                                 {"registers_length", registers_length},
                                                 {"targets_length", targets_length},
                                                 {"reset", reset},
                                                 {"write_port", write_port},
                                                 {"run", run},
                                                 {"replay", replay},
                                                 {"run_journalled", run_journalled},
                                                 {"step_back", step_back},
                                                 {"prune", prune},
                                                 {"file", file},
                                                 {"earlier", earlier},
                                                 {"raise", raise_labels}};
    static const struct measured of_gates[] = {
        {"gates_check", gates_check}, {"gates_reset", gates_reset}, {"gates_cycle", gates_cycle}};
    for (int i = 1; i < count; i++) {
        read_design(paths[i]);
        /* The last call is refused where there are parameters. */
        measure(paths[i], of_designs, sizeof of_designs / sizeof *of_designs - table_has_parameters(image));
    }
    write_gates();
    measure("the largest gate table", of_gates, sizeof of_gates / sizeof *of_gates);
    return 0;
}
