/* States with parameters from C: the bindings behind the targets, what 14, 16 and 19 refuse, and one body for two
   parties beside two bodies. It is started in the folder that has `designs`. */
#include "expect.h"

/* Labels 0 and 1, 1 above 0. Inner registers r0 of label 0, r1 of label 1 and width 1, r3 of label 0 and width 2;
   the port r2 of label 0. State 1 binds r0 or r1 to the first parameter of state 2 and r3 to the second, which
   state 2 counts until it is 0 again. State 3, its child, has the label of the first parameter and adds to
   it. State 4 goes to itself with its two parameters exchanged. */
static const uint8_t shared[] = {
    20, 0, 4, 0, 24, 0, 28, 0, 52, 0, 45, 0, 97, 0, 104, 0, 201, 0, 64, 0,
    /* labels */
    3, 0, 2, 0,
    /* registers: label, kind, reset, width */
    0, 0, 0, 0, 0, 0, 32,
    1, 0, 0, 0, 0, 0, 1,
    0, 1, 0, 0, 0, 0, 32,
    0, 0, 0, 0, 0, 0, 2,
    /* states: parent, label, command, count, lower and upper bounds */
    0, 0, 0, 0, 0, 0, 0, 0, 0,
    0, 0, 3, 0, 0, 0, 0, 0, 0,
    0, 0, 8, 0, 2, 0, 1, 0, 0,
    2, 16, 11, 0, 0, 0, 0, 0, 0,
    0, 0, 12, 0, 2, 0, 0, 0, 0,
    /* commands */
    3, 0, 0, 0, 0, 0, 0, 0,   /* 0: fall */
    4, 2, 0, 0, 3, 0, 0, 0,   /* 1: goto 2(r0, r3) */
    4, 2, 1, 0, 3, 0, 0, 0,   /* 2: goto 2(r1, r3) */
    5, 0, 0, 0, 1, 0, 2, 0,   /* 3: if e0 then 1 else 2 */
    1, 65, 3, 0, 0, 0, 0, 0,  /* 4: parameter 1 := e3 */
    3, 0, 0, 0, 0, 0, 0, 0,   /* 5: fall */
    4, 1, 0, 0, 0, 0, 0, 0,   /* 6: goto 1 */
    5, 0, 4, 0, 5, 0, 6, 0,   /* 7: if e4 then 5 else 6 */
    2, 0, 4, 0, 7, 0, 0, 0,   /* 8: 4; 7 */
    1, 64, 7, 0, 0, 0, 0, 0,  /* 9: parameter 0 := e7 */
    4, 3, 0, 0, 0, 0, 0, 0,   /* 10: goto 3 */
    2, 0, 9, 0, 10, 0, 0, 0,  /* 11: 9; 10 */
    4, 4, 65, 0, 64, 0, 0, 0, /* 12: goto 4(parameter 1, parameter 0) */
    /* expressions */
    1, 2, 0, 0, 0, 0, 0, 0,  /* 0: r2 */
    1, 65, 0, 0, 0, 0, 0, 0, /* 1: parameter 1 */
    0, 0, 0, 0, 1, 0, 0, 0,  /* 2: 1 */
    2, 0, 1, 0, 2, 0, 0, 0,  /* 3: e1 + e2 */
    1, 65, 0, 0, 0, 0, 0, 0, /* 4: parameter 1 */
    1, 64, 0, 0, 0, 0, 0, 0, /* 5: parameter 0 */
    0, 0, 0, 0, 1, 0, 0, 0,  /* 6: 1 */
    2, 0, 5, 0, 6, 0, 0, 0,  /* 7: e5 + e6 */
};

enum { STATES = 52, COMMANDS = 97, EXPRESSIONS = 201 };               /* where the sections begin */
enum { LABEL = 1, COUNT = 4, LOWER = 5, UPPER = 6, SECOND_UPPER = 8 }; /* bytes of a state */
enum { WHICH = 1, FIELD_A = 2, FIELD_B = 4, FIELD_C = 6 };             /* bytes of a node */
enum { REGISTERS_LENGTH = 16, TARGETS_LENGTH = 15, BINDINGS = 5 };     /* areas; the targets come first */

static uint8_t registers[REGISTERS_LENGTH], targets[TARGETS_LENGTH];

static void reset(void)
{
    expect("reset", caisson_reset(shared, sizeof shared, registers, sizeof registers, targets, sizeof targets),
           CAISSON_ACCEPTED, 0, 0);
}

static caisson_answer run(uint32_t cycles)
{
    return caisson_run(shared, sizeof shared, registers, sizeof registers, targets, sizeof targets, cycles);
}

/* Register 0, 1, 3, the targets of states 0 and 2, and what is bound to state 2, after each cycle. Nothing else
   changes: no other state is bound, and the bindings stay where the box goes back to state 1. */
static void bindings(void)
{
    static const uint8_t after[][7] = {
        {0, 0, 0, 2, 3, 1, 3}, {0, 1, 1, 2, 3, 1, 3}, {0, 0, 2, 2, 3, 1, 3}, {0, 1, 3, 2, 3, 1, 3},
        {0, 1, 0, 1, 3, 1, 3}, {0, 1, 0, 2, 3, 0, 3}, {1, 1, 1, 2, 3, 0, 3}, {2, 1, 2, 2, 3, 0, 3},
    };
    uint8_t expected_registers[REGISTERS_LENGTH] = {0};
    uint8_t expected_targets[TARGETS_LENGTH] = {1, 1, 3, 3, 4};

    expect("the design", caisson_check(shared, sizeof shared), CAISSON_ACCEPTED, 0, 0);
    expect("the targets' length", caisson_targets_length(shared, sizeof shared), CAISSON_ACCEPTED, 0, TARGETS_LENGTH);
    memset(targets, 0xA5, sizeof targets);
    reset();
    expect_bytes("targets and bindings after reset", targets, expected_targets, sizeof targets);
    for (size_t i = 0; i < sizeof after / sizeof after[0]; i++) {
        if (i == 5) {
            expect("a port write", caisson_write_port(shared, sizeof shared, registers, sizeof registers, 2, 1),
                   CAISSON_ACCEPTED, 0, 0);
            expected_registers[4 * 2] = 1;
        }
        expect("a cycle", run(1), CAISSON_ACCEPTED, 0, 1);
        expected_registers[0] = after[i][0];
        expected_registers[4 * 1] = after[i][1]; /* cut to 1 bit */
        expected_registers[4 * 3] = after[i][2]; /* cut to 2 bits */
        expected_targets[0] = after[i][3];
        expected_targets[2] = after[i][4];
        memcpy(expected_targets + BINDINGS + 2 * 2, after[i] + 5, 2);
        expect_bytes("registers after a cycle", registers, expected_registers, sizeof registers);
        expect_bytes("targets and bindings after a cycle", targets, expected_targets, sizeof targets);
    }
}

/* All arguments are read before any is bound. */
static void exchanged(void)
{
    reset();
    targets[0] = 4;
    targets[BINDINGS + 2 * 4] = 3;
    expect("a cycle", run(1), CAISSON_ACCEPTED, 0, 1);
    expect_bytes("exchanged", targets + BINDINGS + 2 * 4, (const uint8_t[]){0, 3}, 2);
    expect("two cycles", run(2), CAISSON_ACCEPTED, 0, 2);
    expect_bytes("and back", targets + BINDINGS + 2 * 4, (const uint8_t[]){0, 3}, 2);
}

/* A run on areas as after a reset with a target of the root and a binding byte changed. */
static caisson_answer bound(uint8_t target, size_t state, size_t parameter, uint8_t binding)
{
    reset();
    targets[0] = target;
    targets[BINDINGS + 2 * state + parameter] = binding;
    return run(1);
}

static void unsound(void)
{
    uint8_t before[TARGETS_LENGTH];

    /* Of every state: 0 or the number of a register, of which there are four. */
    expect("a register of a state without parameters", bound(1, 0, 0, 3), CAISSON_ACCEPTED, 0, 1);
    expect("a binding to no register", bound(1, 0, 1, 4), CAISSON_AREA, 0, 0);
    expect("a binding to no register, off the path", bound(1, 4, 1, 255), CAISSON_AREA, 4, 0);
    /* Along the targets: no port, and within the bounds. */
    expect("a port, off the path", bound(1, 2, 0, 2), CAISSON_ACCEPTED, 0, 1);
    expect("a port", bound(2, 2, 0, 2), CAISSON_AREA, 2, 0);
    expect("a label above the bounds, off the path", bound(1, 2, 1, 1), CAISSON_ACCEPTED, 0, 1);
    expect("a label above the bounds", bound(2, 2, 1, 1), CAISSON_AREA, 2, 0);
    expect("a label within the bounds", bound(2, 2, 0, 1), CAISSON_ACCEPTED, 0, 1);
    expect("another state along the targets", bound(4, 4, 0, 1), CAISSON_AREA, 4, 0);
    /* The lowest state; targets before bindings; 15 behind both. */
    reset();
    targets[BINDINGS + 2 * 3] = targets[BINDINGS + 2 * 1] = 4;
    expect("the lowest state", run(1), CAISSON_AREA, 1, 0);
    expect("a binding and too many cycles", run(CAISSON_CYCLES + 1), CAISSON_AREA, 1, 0);
    expect("a run of 0", run(0), CAISSON_AREA, 1, 0);
    targets[4] = 0;
    memcpy(before, targets, sizeof targets);
    expect("a target before a binding", run(1), CAISSON_AREA, 4, 0);
    expect_bytes("targets and bindings after 14", targets, before, sizeof targets);
    expect("a target area without bindings",
           caisson_run(shared, sizeof shared, registers, sizeof registers, targets, BINDINGS, 1), CAISSON_AREA, 0, 0);
}

/* The verdict on the design with one byte changed. */
static caisson_answer changed(size_t at, uint8_t byte)
{
    uint8_t image[sizeof shared];

    memcpy(image, shared, sizeof shared);
    image[at] = byte;
    return caisson_check(image, sizeof image);
}

static size_t state(size_t number) { return STATES + CAISSON_STATE_LENGTH * number; }
static size_t command(size_t number) { return COMMANDS + CAISSON_NODE_LENGTH * number; }
static size_t expression(size_t number) { return EXPRESSIONS + CAISSON_NODE_LENGTH * number; }

static void refused_states(void)
{
    expect("a count of 3", changed(state(2) + COUNT, 3), CAISSON_PARAMETER, 2, 0);
    expect("a parameter of the root", changed(state(0) + COUNT, 1), CAISSON_PARAMETER, 0, 0);
    expect("a parameter of a default child", changed(state(1) + COUNT, 1), CAISSON_PARAMETER, 1, 0);
    expect("three parameters in scope", changed(state(3) + COUNT, 1), CAISSON_PARAMETER, 3, 0);
    expect("a bound that is no label", changed(state(2) + UPPER, 2), CAISSON_PARAMETER, 2, 0);
    expect("a lower bound above the upper", changed(state(4) + LOWER, 1), CAISSON_PARAMETER, 4, 0);
    expect("an unused bound", changed(state(1) + SECOND_UPPER, 1), CAISSON_PARAMETER, 1, 0);
    expect("the label of no parameter", changed(state(1) + LABEL, CAISSON_PARAMETER_LABEL), CAISSON_PARAMETER, 1, 0);
    expect("that label in the root", changed(state(0) + LABEL, CAISSON_PARAMETER_LABEL + 1), CAISSON_PARAMETER, 0, 0);
    expect("a label that is none", changed(state(1) + LABEL, 2), CAISSON_STATE_RECORD, 1, 0);
    expect("a label behind the parameters'", changed(state(3) + LABEL, 18), CAISSON_STATE_RECORD, 3, 0);
    expect("the label of the other parameter", changed(state(3) + LABEL, CAISSON_PARAMETER_LABEL + 1),
           CAISSON_ACCEPTED, 0, 0);
}

static void refused_nodes(void)
{
    const size_t first = CAISSON_PARAMETER_REGISTER;

    expect("an argument above its bounds", changed(command(2) + FIELD_B, 1), CAISSON_PARAMETER, 2, 0);
    expect("an argument that is no register", changed(command(1) + FIELD_A, 4), CAISSON_PARAMETER, 1, 0);
    expect("a parameter out of scope", changed(command(1) + FIELD_A, (uint8_t)first), CAISSON_PARAMETER, 1, 0);
    expect("an unused field", changed(command(6) + FIELD_B, 1), CAISSON_PARAMETER, 6, 0);
    expect("field c", changed(command(6) + FIELD_C, 1), CAISSON_NODE_RECORD, 6, 0);
    expect("a port as an argument", changed(command(1) + FIELD_A, 2), CAISSON_PORT_ASSIGNED, 1, 0);
    expect("a port in an unused field", changed(command(6) + FIELD_A, 2), CAISSON_PARAMETER, 6, 0);
    expect("a parameter read out of scope", changed(expression(0) + WHICH, (uint8_t)first), CAISSON_PARAMETER,
           CAISSON_EXPRESSION_PLACE, 0);
    expect("a byte behind the parameters", changed(command(4) + WHICH, (uint8_t)first + 2), CAISSON_NODE_RECORD, 4, 0);
}

/* For each choice of labels within the bounds, and the default child likewise. */
static void flows(void)
{
    expect("a state that has its first parameter's label", changed(state(2) + LABEL, CAISSON_PARAMETER_LABEL),
           CAISSON_ASSIGN_FLOW, 4, 0);
    expect("an assignment to the lower parameter", changed(command(9) + WHICH, CAISSON_PARAMETER_REGISTER + 1),
           CAISSON_ASSIGN_FLOW, 9, 0);
    expect("a goto to a state of label 0", changed(state(3) + LABEL, 0), CAISSON_ACCEPTED, 0, 0);
    expect("a condition on the parameter", changed(expression(4) + WHICH, CAISSON_PARAMETER_REGISTER),
           CAISSON_FALL_FLOW, 5, 0);
}

/* A design of the folder. */
struct design {
    uint8_t image[CAISSON_LARGEST_IMAGE];
    size_t length;
    uint8_t registers[CAISSON_REGISTERS * CAISSON_WORD];
    uint8_t targets[CAISSON_STATES * CAISSON_TARGET_LENGTH];
    size_t registers_length;
    size_t targets_length;
};

static void design_reset(struct design *design, const char *path)
{
    FILE *file = fopen(path, "rb");
    caisson_answer answer;

    design->length = file == NULL ? 0 : fread(design->image, 1, sizeof design->image, file);
    if (file != NULL)
        fclose(file);
    answer = caisson_registers_length(design->image, design->length);
    design->registers_length = answer.count;
    expect(path, answer, CAISSON_ACCEPTED, 0, answer.count);
    answer = caisson_targets_length(design->image, design->length);
    design->targets_length = answer.count;
    expect(path, answer, CAISSON_ACCEPTED, 0, answer.count);
    expect("reset",
           caisson_reset(design->image, design->length, design->registers, design->registers_length, design->targets,
                         design->targets_length),
           CAISSON_ACCEPTED, 0, 0);
}

/*
 * Figure 2(c) beside figure 2(b) of document 004: designs/two_groups_shared with one body for both parties,
 * designs/two_groups with one for each. Registers 0 to 3 are the same in both, and the states correspond: 2 and
 * 3 of the two bodies are 2 of the one, 4 and 6 are 3, 5 and 7 are 4. Equal registers and equal targets
 * before every cycle give equal walks.
 */
static void two_groups(void)
{
    static const uint8_t corresponding[] = {0, 1, 2, 2, 3, 4, 3, 4};
    static struct design apart, together;
    uint32_t random = 1;

    design_reset(&apart, "designs/two_groups.table");
    design_reset(&together, "designs/two_groups_shared.table");
    for (int cycle = 0; cycle < 1000; cycle++) {
        uint8_t group = apart.targets[0];

        /* The states that a fall goes to now, and the register that the group is bound to: r4 for the first
           party, r5 for the second. */
        expect_bytes("the root's target", together.targets, corresponding + group, 1);
        if (group == 2 || group == 3) {
            expect_bytes("the group's target", together.targets + 2, corresponding + apart.targets[group], 1);
            expect_bytes("the group's binding", together.targets + 5 + 2 * 2, (const uint8_t[]){2 + group}, 1);
        }
        for (uint32_t port = 2; port < 4; port++) {
            random = random * 1103515245u + 12345u;
            for (int i = 0; i < 2; i++) {
                struct design *design = i ? &together : &apart;

                expect("a reading",
                       caisson_write_port(design->image, design->length, design->registers, design->registers_length,
                                          port, random >> 16 & 1),
                       CAISSON_ACCEPTED, 0, 0);
            }
        }
        for (int i = 0; i < 2; i++) {
            struct design *design = i ? &together : &apart;

            expect("a cycle",
                   caisson_run(design->image, design->length, design->registers, design->registers_length,
                               design->targets, design->targets_length, 1),
                   CAISSON_ACCEPTED, 0, 1);
        }
        expect_bytes("registers of both designs", together.registers, apart.registers, 4 * CAISSON_WORD);
    }
}

int main(void)
{
    bindings();
    exchanged();
    unsound();
    refused_states();
    refused_nodes();
    flows();
    two_groups();
    return report("states with parameters from C");
}
