/*
 * caisson.h: designs in Caisson tables, checked and run for a C host; and gate tables, which stand for
 * themselves at the end: what is said up to there is about designs.
 *
 * A design is a binary image of at most CAISSON_LARGEST_IMAGE bytes. The library keeps no state and
 * allocates nothing: a call works on the slices that it is lent and on its own stack, ends, and
 * relies on no earlier call. Each call makes its image checks again. The stack that a call takes is
 * measured, not proved: `make stack` shows less than 22 KB on the deepest design, and where a call has tables
 * of its own beside those of the image checks more: less than 23 KB for caisson_prune, 26 KB for caisson_file
 * and, which has those of two images, 38 KB for caisson_earlier.
 *
 * A slice is a pointer and a length in bytes, that of a port trace in records. The pointer may be NULL where
 * the length is 0. The slices of one call must not overlap. Nothing is read or written outside them.
 *
 * Every call answers a caisson_answer, but for caisson_version, caisson_format and caisson_matches, which are about
 * the library itself, and for caisson_earlier, which hands back a part of what it is lent, with
 * caisson_earlier_part and caisson_which_earlier. `number` is 0 on acceptance, else the refusal's number, one of the
 * caisson_refusal values below: of those that apply, the one judged first. Every call begins with the image
 * checks, in this order: 1 to 8, then 16, then 19, then 9, then 10 to 12 in one pass in reading order: state
 * by state from number 0 on, and in each the commands as they are written, an if's first branch before its
 * second. caisson_raise alone leaves out 10 to 12, the flow, which it is there to put right. What a call
 * judges after them stands at the call. `place` says where:
 *
 *   a label, register or state   its number, from 0
 *   a command                    its node number, from 0
 *   an expression                CAISSON_EXPRESSION_PLACE plus its node number
 *   a record of a port trace     its number in the trace, from 0
 *   nothing of these             0
 *
 * It is the lowest that breaks the rule; of 10 to 12 it is the first in reading order that breaks one
 * of them, whatever its number. Whether that of 14 is a register or a state, its words below say. That of
 * 19 is a state where the record of one breaks the rule, else a node. That of 13 and 17 is a register in a
 * port write and a record in a replay.
 * `count` is the cycles that were run or gone back, the records that a replay superseded, the length that
 * was asked for or the bytes of a pruned image or of a filing form, and 0 on every refusal. A refusal changes
 * no byte of the areas, nor of a journal, nor of the area that caisson_raise, caisson_prune or caisson_file
 * writes.
 *
 * The state of a design is two areas that the host owns and lends to each call: registers,
 * CAISSON_WORD bytes each, least significant byte first; and targets, one byte for each state, with
 * CAISSON_PARAMETERS bytes for each state behind them, in the order of the states: the registers that are
 * bound to its own parameters, the first one first. Their lengths are those that caisson_registers_length
 * and caisson_targets_length answer, neither more nor less. An area of length 0 may be NULL. The host may
 * read both between calls.
 *
 * A state may have parameters, at most CAISSON_PARAMETERS in scope along a line from the root: those of the
 * states above it, then its own, numbered from 0. Each has a lower and an upper label and stands for an
 * inner register whose label lies between them. In a body it is read and assigned as that register is, and
 * a value assigned to it is cut to that register's width. The label of a state may be a parameter's: then
 * it is the label of the register bound. A goto names a register, or a parameter that is in scope where it
 * stands, for each parameter of the state that it goes to; all of them are read before any is bound. Ports
 * are never bound, and the root and default children have no parameters. A body is accepted if it keeps
 * every rule for each choice of labels within the bounds in scope. Bindings are 0 at a reset, and nothing
 * but the arguments of a goto sets them: a goto leaves those of all other states as they are, and the second
 * byte of a state that has one parameter.
 *
 * What a party sees of a cycle are the values of the registers at or below its level after it, and the
 * states that ran and lie at or below the level, each with the numbers, not the contents, of the registers
 * bound to its own parameters as it ran. A state whose label is a parameter's is seen by the label that its
 * binding gave it then.
 *
 * A host may also lend a journal to its runs, a third area into which the library saves both others before
 * each cycle, so that caisson_step_back can restore them later. Its bytes stand at caisson_run_journalled. A
 * host that does not go back needs none.
 *
 * Readings that were kept, as a table of records in the order of their cycles, can be run again by
 * caisson_replay, which makes the port writes and the cycles in one call. It reads the table and writes both
 * areas.
 *
 * The parties are kept apart from a reset on, while nothing but caisson_reset, caisson_write_port,
 * caisson_run, caisson_replay, caisson_run_journalled and caisson_step_back changes the areas, and while the
 * journal began empty, with a count of 0, and nothing but the last two has written it. So a host never
 * restores areas in another way, be it from a saved copy, a file or another box, and never a journal. A run
 * refuses targets and bindings that are not sound and no others, and so does going back of those that were
 * saved: some that are sound, but that no run from reset comes to, can show a low party a high register.
 * After a power failure, and whenever anything else may have written an area or a journal, the host resets,
 * and begins with an empty journal.
 *
 * A party sees the same of two such hosts if their calls agree in all that it may see, and if both journal
 * the same cycles and go back by equal numbers at equal moments. So nothing hidden may decide when a host
 * journals, or when and how far it goes back. A journal has the registers of all levels in it: it is shown
 * to nobody who may not see them all. A replay may stand among the other calls: in the comparison an accepted
 * one is taken as the port writes and cycles that it makes, and a refused one is struck out, as any refused
 * call is. This is proved of lists of all six calls. So two replays from reset, of as many cycles and of traces
 * that are equal in the records of the ports at or below a level, show that level the same, where neither is
 * refused. How many records were superseded, and whether a trace is refused, depends on the records of all
 * levels: it is told to nobody who may not see them all.
 *
 * Each register has a width of 1 to CAISSON_WIDTH bits and holds values below 2 to the power of it. In
 * the area it takes CAISSON_WORD bytes all the same, with zeros above its width. An assignment stores
 * its value modulo 2 to the power of the width. A reset, an accepted port write, run or replay and going
 * back, where it restores a state, leave every register within its width. So 14 is answered for contents
 * only where a register area was not reset, or where the host has filled or changed it, or a journal, by
 * itself.
 *
 * A value has 32 bits, and some operations of a design read them as signed, in two's complement. So a
 * host hands a reading of -40 over as (uint32_t)-40, to a port of width CAISSON_WIDTH: no narrower
 * register holds a value below zero.
 *
 * Two calls at the same time are safe if they are lent no area and no journal in common.
 */
#ifndef CAISSON_H
#define CAISSON_H

#include <stddef.h>
#include <stdint.h>

#ifdef __cplusplus
extern "C" {
#endif

/* The version of this header and the number of the image's format. CHANGELOG.md says when each moves;
   docs/FORMAT.md has the format byte by byte. The number of a version is its first number times 1,000,000, its
   second times 1,000 and its third, added up. caisson_version and caisson_format answer the library's own. */
#define CAISSON_VERSION "3.6.0"
#define CAISSON_VERSION_NUMBER 3006000u
#define CAISSON_FORMAT 3

/* Limits of a design table. */
#define CAISSON_LABELS 16u        /* most labels; at least 1 */
#define CAISSON_REGISTERS 64u     /* most registers */
#define CAISSON_STATES 64u        /* most states; at least 1 */
#define CAISSON_COMMANDS 1024u    /* most commands */
#define CAISSON_EXPRESSIONS 2048u /* most expressions */
#define CAISSON_DEPTH 64u         /* how deep commands and expressions nest */
#define CAISSON_WIDTH 32u         /* most bits of a register; at least 1 */
#define CAISSON_PARAMETERS 2u     /* most parameters of a state, and in scope along a line from the root */

/* Lengths in bytes: of the directory, of each record, of the largest image. */
#define CAISSON_DIRECTORY_LENGTH 20u
#define CAISSON_LABEL_LENGTH 2u
#define CAISSON_REGISTER_LENGTH 7u
#define CAISSON_STATE_LENGTH 9u
#define CAISSON_NODE_LENGTH 8u /* a command or an expression */
#define CAISSON_LARGEST_IMAGE 25652u

/* Bytes of the target area for each state: its target, and a binding for each parameter. */
#define CAISSON_TARGET_LENGTH 3u

/* The byte that names parameter 0 in the place of a register, and of a state's label; the next one names
   parameter 1. */
#define CAISSON_PARAMETER_REGISTER 64u
#define CAISSON_PARAMETER_LABEL 16u

#define CAISSON_EXPRESSION_PLACE 1024u /* an expression's place is this plus its number */
#define CAISSON_WORD 4u                /* bytes of a register in its area */
#define CAISSON_CYCLES 1000000u        /* most cycles of one run or replay */

/* Bytes of the count that a journal begins with. */
#define CAISSON_JOURNAL_COUNT_LENGTH 4u

/* Limits of a gate table; each count may be 0. */
#define CAISSON_GATES_INPUTS 256u    /* most inputs */
#define CAISSON_GATES_FLIPFLOPS 256u /* most flip-flops */
#define CAISSON_GATES_GATES 4096u    /* most gates */

/* Lengths in bytes: of the directory, of each record, of the largest gate table. */
#define CAISSON_GATES_DIRECTORY_LENGTH 12u
#define CAISSON_GATES_INPUT_LENGTH 1u
#define CAISSON_GATES_FLIPFLOP_LENGTH 4u
#define CAISSON_GATES_GATE_LENGTH 4u
#define CAISSON_GATES_LARGEST_TABLE 17676u

#define CAISSON_GATES_PAIR 2u /* bytes of a flip-flop in its area: its value, its mark */
#define CAISSON_TRUSTED 0u    /* the marks of a wire */
#define CAISSON_UNTRUSTED 1u

/* What is wrong, and where `place` points. 1 to 12, 16 and 19 are about the image: they are the image
   checks. 21 and 22 are about journals, 23 about port traces, 24 about output areas, 25 and 26 about gate
   tables. caisson_refusals.def has the same words for a program to show. */
enum caisson_refusal {
    CAISSON_ACCEPTED = 0,
    /* The directory, a count of records or the length of a section is wrong. The directory is five
       pairs of 16-bit offset and length, sorted: the first offset is 20, each later one the sum of
       the pair before it, and the last section ends at the image's end. The length of a section is
       a whole number of records, and their count is within its limits. Place: 0. */
    CAISSON_DIRECTORY = 1,
    /* The label rows are no lattice with label 0 least. No row has a bit at or above the label
       count; the rows are reflexive, antisymmetric and transitive; row 0 is full; each two labels
       have a least common label above them. Place: the lowest label whose row, or whose rule with
       it first, fails. */
    CAISSON_LABEL_ROW = 2,
    /* A register has a label that the design does not have, a kind that is neither 0 (inner) nor 1
       (port), a width that is not from 1 to 32, or a reset value that is too large for its width. A
       register of width w holds values below 2 to the power of w. Place: the register. */
    CAISSON_REGISTER_RECORD = 3,
    /* A state has a parent, a label or a command number that it cannot have. State 0 is the root,
       with parent 0 and label 0; any other parent has a lower number than its child. The label byte
       is a label that the design has, or 16 or 17, a parameter's, which 19 judges, in the root too.
       The command number is that of a command. Count and bounds of parameters are judged by 19.
       Place: the state. */
    CAISSON_STATE_RECORD = 4,
    /* A node has an unknown kind, a byte set that its kind does not use, or the number of a part,
       register or state that it cannot have. The numbers are of parts, registers and states that
       the design has, and a part of the same family has a lower number than its owner. A register
       byte may also be 64 or 65, a parameter; whether it is in scope is judged by 19, and so are
       fields a and b of a goto, its arguments. Field c of a goto is 0. Place: the node. */
    CAISSON_NODE_RECORD = 5,
    /* A node is not used exactly once, by a state or as one part of another node. Place: the
       node. */
    CAISSON_NODE_USE = 6,
    /* A command or expression is nested deeper than 64. A node without parts of its own family has
       depth 1, any other one more than its deepest such part. Place: the node. */
    CAISSON_TOO_DEEP = 7,
    /* A command does not end in a fall or goto where it must, does so where it must not, or holds a
       fall or goto that its state cannot make. A state's command ends in a fall or goto, the first
       part of a sequence does not, and of an if's branches both do or none. A fall needs a child. A
       goto names a sibling or the state itself and does not stand in the root. Place: the node: of
       a state its command, of a sequence or an if the whole. */
    CAISSON_SHAPE = 8,
    /* The label of the default child of a state that holds a fall is not at or above that state's
       label. A state holds a fall where one stands anywhere in its body. The default child is the
       lowest-numbered child. All other children may have any label. Where a label is a parameter's,
       it is so for each choice of a label within the bounds. Place: the child. */
    CAISSON_CHILD_LABEL = 9,
    /* The context of an assignment, or a register that it reads, does not flow to the label of the
       register written. The context is the state's label and the labels of all registers read in
       the conditions of the ifs around. A parameter has the label of the register bound to it, and
       the flow holds for each choice of labels within the bounds of the parameters in scope. Place:
       the node. */
    CAISSON_ASSIGN_FLOW = 10,
    /* The context of a goto does not flow to the label of the state that it names. The context is
       the state's label and the labels of all registers read in the conditions of the ifs around. A
       parameter has the label of the register bound to it, and the flow holds for each choice of
       labels within the bounds of the parameters in scope. Where the label of the state named is
       its own parameter's, it is the label of the argument. Place: the node. */
    CAISSON_GOTO_FLOW = 11,
    /* The context of a fall does not flow to the label of its own state. The context is the state's
       label and the labels of all registers read in the conditions of the ifs around. A parameter
       has the label of the register bound to it, and the flow holds for each choice of labels
       within the bounds of the parameters in scope. Place: the node. */
    CAISSON_FALL_FLOW = 12,
    /* A port write or a record of a port trace names a register that does not exist or that is
       inner. It is judged after 14. A replay judges it after 23, in one pass with 17: the lowest
       record that breaks either is answered. Place: the register number given; of a replay the
       record, numbered from 0. */
    CAISSON_NO_PORT = 13,
    /* An area has the wrong length, a register holds a value that is too large for its width, or a
       run or going back finds a target or a binding that is not sound. They are judged in this
       order: lengths by every call that takes an area, values by a port write and a run, targets
       and then bindings by a run. So where the lengths are right, the place is a register if some
       register holds a value too large, and a state if none does. The target of a state with
       children is one of its children, that of any other state is its own number. A binding byte is
       0 or the number of a register. Of the states along the current targets, from the root to a
       state without children, each parameter is bound to a register that the design has, that is no
       port and whose label lies within the bounds. The area for a raised image is exactly as long
       as the image; those for a pruned one and for a filing form are judged by 24. A journalled run
       and a replay judge what a run does. Going back judges the lengths of both areas before 21,
       and after 22 values, targets and bindings as a run does, not those of the areas but those of
       the saved state that it is to restore. A gate table is lent one byte for each input and two
       for each flip-flop; only their lengths are judged by 14. Place: 0 for a length; the lowest
       register for a value; the lowest state for a target or a binding. */
    CAISSON_AREA = 14,
    /* A run asks for more than 1,000,000 cycles. It refuses a journalled run and a replay too.
       Going back has no such limit. Place: 0. */
    CAISSON_CYCLE_COUNT = 15,
    /* An assignment names a port, or a goto has a port as an argument. Ports belong to the host:
       only a reset, a port write, the records of a replay and going back change them. Any
       expression may read them. The arguments of a goto are its fields a and b, as many of them as
       the count of the state named says, and both where it is above 2. It is judged after 8 and
       before 19 and 9. Place: the assignment or the goto. */
    CAISSON_PORT_ASSIGNED = 16,
    /* A port write or a record of a port trace has a value that is too large for the width of its
       port. A port of width w takes values below 2 to the power of w. It is judged after 14 and 13.
       A replay judges it after 23, in one pass with 13: the lowest record that breaks either is
       answered. Place: the register number given; of a replay the record, numbered from 0. */
    CAISSON_PORT_VALUE = 17,
    /* No raising of the image is accepted. A raising is the same image with labels of inner
       registers raised, never lowered; the labels of ports and states are fixed. It is judged after
       the image checks up to 9, 16 and 19 included, and after 20 and 14. Place: 0. */
    CAISSON_NO_RAISING = 18,
    /* A parameter count, bound, scope or argument is wrong. A state has at most two parameters, and
       at most two are in scope along a line from the root: of a state its own and those of all
       states above it, its own last, numbered 0 and 1. The root and default children have none.
       Each has a lower and an upper label, and the lower flows to the upper; the bytes of an unused
       pair are 0. The label bytes 16 and 17 and the register bytes 64 and 65 name the parameters 0
       and 1, which are in scope of the state. A goto has as many arguments as the state that it
       names has parameters, and an unused field is 0. An argument is a register whose label lies
       within the bounds that it is given to, or 64 or 65, a parameter in scope that lies within
       them for its every choice. It is judged after 16 and before 9, the records of states before
       the nodes. Place: the lowest state, else the lowest node. */
    CAISSON_PARAMETER = 19,
    /* An image to be raised has a state with parameters. Raising is for designs without parameters.
       It is judged after the image checks up to 9, 16 and 19 included, and before 14. Place: 0. */
    CAISSON_RAISE_PARAMETERS = 20,
    /* A journal has less than 4 bytes, is too short for its count and the cycles to run, or would
       count more than 32 bits hold. The first 4 bytes of a journal are the count of its saved
       states, and each of these takes as many bytes as both areas together. A journalled run needs
       room for those counted and one more for each cycle to run, going back for those counted. It
       is judged after 15, by a journalled run of 0 cycles too; in going back it is judged after the
       lengths of both areas. Place: 0. */
    CAISSON_JOURNAL_AREA = 21,
    /* Going back asks for more cycles than the journal counts. It is judged after 21, and before 14
       of the saved state that is to be restored. Place: 0. */
    CAISSON_STEPS_BACK = 22,
    /* The cycle of a record of a port trace is below that of the record before it, or not below the
       number of cycles to replay. The records of one cycle may be any number, and a cycle may have
       none. With no cycles to replay every record is refused. It is judged after 15, and before 13
       and 17. Place: the lowest such record of the trace, numbered from 0. */
    CAISSON_TRACE_CYCLE = 23,
    /* An output area is shorter than what is written to it. A pruned image is never longer than the
       image that is pruned, and a filing form is as long as the image that is filed. A longer area
       is accepted, and its bytes beyond what is written keep their values. It is judged after the
       image checks. Place: 0. */
    CAISSON_OUTPUT_AREA = 24,
    /* The directory of a gate table, a count of records or the length of a section is wrong. The
       directory is three pairs of 16-bit offset and length, sorted: the first offset is 12, each
       later one the sum of the pair before it, and the last section ends at the table's end. The
       length of a section is a whole number of records. There are at most 256 inputs, 256
       flip-flops and 4,096 gates, and each may be none. Place: 0. */
    CAISSON_GATE_DIRECTORY = 25,
    /* A wire, a value or a mark of a gate table, or a value or a mark that a cycle is lent, is out
       of range. Wires are numbered from 0: inputs, then flip-flops, then gates. The next wire of a
       flip-flop is any wire of the table; the two wires of a gate are lower than its own. A value
       is 0 or 1, a mark 0 (trusted) or 1 (untrusted). The table is judged after 25 and before 14,
       what a cycle is lent after 14. Place: the lowest wire whose record or lent bytes hold it. */
    CAISSON_GATE_WIRE = 26
};

/* What a call answers. */
typedef struct {
    uint32_t number; /* 0: accepted; otherwise a caisson_refusal */
    size_t place;    /* where; 0 on acceptance */
    size_t count;    /* accepted: of a run its cycles, with a journal or without, of going back the cycles
                        gone back, of a replay the records superseded, of a length call the length in
                        bytes, of a pruning or a filing the bytes of the result, of every other call 0;
                        refused: 0 */
} caisson_answer;

/* A record of a port trace: a port write to be made before a cycle. */
typedef struct {
    uint32_t cycle; /* from 0: the first cycle of a replay has number 0 */
    uint32_t reg;   /* the register's number, which must be a port */
    uint32_t value; /* its new value, within the port's width */
} caisson_record;

/* What is handed back of two lent images: a part of the first or of the second, from its start. */
typedef struct {
    const uint8_t *bytes; /* where that image was lent */
    size_t len;           /* all of its bytes, or 0 */
} caisson_part;

/* The same without a pointer. */
typedef struct {
    uint32_t second; /* 0: a part of the first image; 1: of the second */
    size_t len;      /* all of its bytes, or 0 */
} caisson_which;

/* The library reads and writes these structs by the places of their fields, as they are on x86-64. A compiler of C11
   or C++11 or later refuses to build where they are others; an earlier one does not look. */
#if defined(__cplusplus)
#if __cplusplus >= 201103L
#define CAISSON_ASSERT(holds, words) static_assert(holds, words)
#endif
#elif defined(__STDC_VERSION__) && __STDC_VERSION__ >= 201112L
#define CAISSON_ASSERT(holds, words) _Static_assert(holds, words)
#endif
#ifdef CAISSON_ASSERT
#define CAISSON_FIELD(type, field, place, length)                                                  \
    CAISSON_ASSERT(offsetof(type, field) == (place) && sizeof(((type *)0)->field) == (length),     \
                   "the library has " #field " of " #type " elsewhere")
#define CAISSON_LENGTH(type, length) CAISSON_ASSERT(sizeof(type) == (length), "the library's " #type " is another")
CAISSON_FIELD(caisson_answer, number, 0, 4);
CAISSON_FIELD(caisson_answer, place, 8, 8);
CAISSON_FIELD(caisson_answer, count, 16, 8);
CAISSON_LENGTH(caisson_answer, 24);
CAISSON_FIELD(caisson_record, cycle, 0, 4);
CAISSON_FIELD(caisson_record, reg, 4, 4);
CAISSON_FIELD(caisson_record, value, 8, 4);
CAISSON_LENGTH(caisson_record, 12);
CAISSON_FIELD(caisson_part, bytes, 0, 8);
CAISSON_FIELD(caisson_part, len, 8, 8);
CAISSON_LENGTH(caisson_part, 16);
CAISSON_FIELD(caisson_which, second, 0, 4);
CAISSON_FIELD(caisson_which, len, 8, 8);
CAISSON_LENGTH(caisson_which, 16);
#undef CAISSON_LENGTH
#undef CAISSON_FIELD
#undef CAISSON_ASSERT
#endif

#if defined(__GNUC__) || defined(__clang__)
#define CAISSON_LOOK_AT_ANSWER __attribute__((warn_unused_result))
#else
#define CAISSON_LOOK_AT_ANSWER
#endif

/*
 * The version of the library that is linked, as a number: 3006000 is version 3.6.0. It is a constant of the library.
 * One without this call, of version 3.4.1 or before, does not link.
 */
CAISSON_LOOK_AT_ANSWER
uint32_t caisson_version(void);

/* The number of the format of images that the library reads, a constant too. */
CAISSON_LOOK_AT_ANSWER
uint32_t caisson_format(void);

/*
 * Whether library and header are of one version and one format: 1, or 0 where they are not. A host asks before its
 * first other call, and makes none where the answer is 0: the areas, the records and the numbers of refusals may be
 * others than the header says, and what is shown to one party may be another's. Versions that differ in the third
 * number alone do not match either: to build again is little work.
 */
CAISSON_LOOK_AT_ANSWER
static inline int caisson_matches(void)
{
    return caisson_version() == CAISSON_VERSION_NUMBER && caisson_format() == (uint32_t)CAISSON_FORMAT;
}

/*
 * Accepts an image exactly when it keeps the rules 1 to 12, 16 and 19, or refuses it. Whatever the bytes
 * and the length, the answer is defined. Each pass looks at each record a fixed number of times,
 * within the limits above. Refusals: the image checks.
 */
CAISSON_LOOK_AT_ANSWER
caisson_answer caisson_check(const uint8_t *image, /* the image's bytes */
                             size_t image_len);    /* how many there are */

/*
 * Answers the length in bytes of the register area as `count`: CAISSON_WORD for each register of the
 * image, so 0 for an image without registers and never more than CAISSON_REGISTERS * CAISSON_WORD.
 * Refusals: the image checks, as from caisson_check.
 */
CAISSON_LOOK_AT_ANSWER
caisson_answer caisson_registers_length(const uint8_t *image, /* the image's bytes */
                                        size_t image_len);    /* how many there are */

/*
 * Answers the length in bytes of the target area as `count`: CAISSON_TARGET_LENGTH for each state of the
 * image, whether or not it has parameters, so at least CAISSON_TARGET_LENGTH and never more than
 * CAISSON_STATES * CAISSON_TARGET_LENGTH. Refusals: the image checks, as from caisson_check.
 */
CAISSON_LOOK_AT_ANSWER
caisson_answer caisson_targets_length(const uint8_t *image, /* the image's bytes */
                                      size_t image_len);    /* how many there are */

/*
 * Writes each register's reset value and each state's default target: its lowest-numbered child, or
 * its own number where it has none; and 0 for every binding. What the areas held before does not matter.
 * Afterwards every register is within its width. Refusals: the image checks, then 14 for a length.
 */
CAISSON_LOOK_AT_ANSWER
caisson_answer caisson_reset(const uint8_t *image, size_t image_len,
                             uint8_t *registers, size_t registers_len,
                             uint8_t *targets, size_t targets_len);

/*
 * Sets one register, which must be a port, to a value within the port's width, and changes nothing
 * else. A value too large is refused, not cut; docs/FORMAT.md says where the width stands in the
 * image. The call takes the register area only and judges all of it: every register must be within its
 * width, and stays so. No design changes a port: it keeps the value until the next write to it, a
 * record of a replay for it, the next reset, or going back to a cycle before the write. Refusals: the
 * image checks, then 14 for the area's length, 14 for a value too large in it, then 13, then 17 for the
 * value given, both at the register number given.
 */
CAISSON_LOOK_AT_ANSWER
caisson_answer caisson_write_port(const uint8_t *image, size_t image_len,
                                  uint8_t *registers, size_t registers_len,
                                  uint32_t reg,    /* the register's number */
                                  uint32_t value); /* its new value */

/*
 * Runs so many cycles, from 0 to CAISSON_CYCLES, and answers that number as `count`. Each cycle runs
 * the root's command and goes on along the targets; what it leaves in the areas is what the next one
 * starts from. A run, of however many cycles, leaves every port as it was and every register within
 * its width. A run of 0 changes nothing, and judges the same. The image is judged once for all cycles
 * of a run. Refusals: the image checks, then 14 for a length, 14 for a value too large, 14 for an
 * unsound target, 14 for an unsound binding, then 15.
 */
CAISSON_LOOK_AT_ANSWER
caisson_answer caisson_run(const uint8_t *image, size_t image_len,
                           uint8_t *registers, size_t registers_len,
                           uint8_t *targets, size_t targets_len,
                           uint32_t cycles); /* how many */

/*
 * Replays a port trace: runs so many cycles, from 0 to CAISSON_CYCLES, numbered from 0, and before each makes
 * the port writes of its records. It leaves in both areas what a host would have by making these port writes
 * with caisson_write_port, in the order of the records, and each cycle with caisson_run.
 *
 * A trace is a table of caisson_record, in the order of their cycles, in which each cycle has any number of
 * records or none. It is read as it is lent, and not written. Its length is the number of records, and it is
 * aligned as C aligns a caisson_record, to 4 bytes, as every array of them is; without records it may be NULL.
 *
 * Of two records for one cycle and port the later supersedes the earlier, whatever stands between them, and
 * whether or not their values differ. `count` is the number of records superseded: of three for one cycle and
 * port it is 2, and records for other ports or other cycles are not counted together. A record that was
 * superseded is judged like every other.
 *
 * A replay of n cycles and then one of m leave what one of n + m leaves, where the trace is divided at cycle
 * n: the records below n are for the first and all others for the second, with n taken from the cycle of each.
 * That is how a trace of more than CAISSON_CYCLES cycles is replayed. A replay of 0 cycles changes nothing and
 * judges the same, so that every record is refused.
 *
 * Whether it is refused is known before the first cycle, so that a refusal changes nothing, whichever record
 * it is of. Time is linear in the cycles and the records together, however many of these one cycle has. The
 * call takes some 2,000 bytes of stack more than caisson_run, measured as above. No journal is kept. Refusals:
 * those of caisson_run in their order, 15 last; then 23 at the lowest record whose cycle is below that of the
 * record before it, or not below `cycles`; then 13 and 17 in one pass, at the lowest record that names no port
 * (13), or whose value is too large for its port (17). The place of all three is the number of the record,
 * from 0, and not a register.
 */
CAISSON_LOOK_AT_ANSWER
caisson_answer caisson_replay(const uint8_t *image, size_t image_len,
                              uint8_t *registers, size_t registers_len,
                              uint8_t *targets, size_t targets_len,
                              const caisson_record *trace, size_t trace_count, /* the records, and how many */
                              uint32_t cycles);                                /* how many to run */

/*
 * A run that can be gone back over: it does to both areas what caisson_run does, and also saves them into a
 * journal before every cycle.
 *
 * A journal begins with CAISSON_JOURNAL_COUNT_LENGTH bytes that count the cycles saved in it, least
 * significant byte first. Behind the count stand the saved states, the oldest first and without gaps, each
 * registers_len + targets_len bytes: the register area and then the target area, as they were before the
 * cycle. So a journal for n cycles has at least
 * CAISSON_JOURNAL_COUNT_LENGTH + n * (registers_len + targets_len) bytes; it may be longer. The host begins
 * a journal by setting its count to 0, and what its other bytes hold then does not matter. A journal belongs
 * to one design: for another, begin a new one.
 *
 * On acceptance the journal counts `cycles` more, and behind the saved states that it counted stands one for
 * each of these cycles. Its other bytes keep their values, those behind the last saved state too. The areas
 * and `count` are those that caisson_run gives. A run of 0 changes nothing, and judges the same. Two such
 * runs, one after the other, leave what one of all their cycles leaves. No other call but caisson_step_back
 * is lent the journal: port writes, resets, replays and runs by caisson_run leave it as it is, and the cycles
 * of those replays and runs are not counted.
 *
 * The bytes of the journal are taken as lent: of the saved states that it counts already, nothing is judged
 * here. Refusals: those of caisson_run in their order, then 21 with place 0: the journal has less than
 * CAISSON_JOURNAL_COUNT_LENGTH bytes, or is too short for its count and `cycles` more, or its new count
 * would be above UINT32_MAX. A full journal is never written over: the host lends a longer one, goes back,
 * begins a new one or runs without.
 */
CAISSON_LOOK_AT_ANSWER
caisson_answer caisson_run_journalled(const uint8_t *image, size_t image_len,
                                      uint8_t *registers, size_t registers_len,
                                      uint8_t *targets, size_t targets_len,
                                      uint8_t *journal, size_t journal_len, /* count and saved states */
                                      uint32_t cycles);                     /* how many to run */

/*
 * Goes back: restores both areas, every byte of them, ports too, as the journal saved them before the
 * k-th last of the cycles that it counts, where k is `cycles`, and answers k as `count`. By 1 it goes to
 * before the last cycle in the journal, by as many as the journal counts to before the first. In the journal only
 * the count changes, which is lowered by `cycles`. The saved states that it no longer counts stay where they
 * were until a later journalled run writes there: no call goes forward to them again.
 *
 * Only cycles in the journal are counted. Whatever happened since the state was saved is undone: cycles,
 * port writes, runs without the journal, and resets. So a host can go back over a reset, to before it.
 * With 0 nothing changes, also where runs without the journal or port writes came last. 15 does not limit
 * `cycles`.
 *
 * What the areas hold does not matter, since they are overwritten whole: only their lengths are judged. The
 * saved state is taken as the journal is lent, and judged as a run would judge an area with these bytes.
 * Refusals: the image checks, then 14 for the length of an area, with place 0, then 21 with place 0 for a
 * journal that has less than CAISSON_JOURNAL_COUNT_LENGTH bytes or is too short for its own count, then 22
 * with place 0 where `cycles` is above the count, then, unless `cycles` is 0, 14 for a value too large in
 * the saved state, 14 for an unsound target in it, 14 for an unsound binding in it.
 */
CAISSON_LOOK_AT_ANSWER
caisson_answer caisson_step_back(const uint8_t *image, size_t image_len,
                                 uint8_t *registers, size_t registers_len,
                                 uint8_t *targets, size_t targets_len,
                                 uint8_t *journal, size_t journal_len, /* count and saved states */
                                 uint32_t cycles);                     /* how many to go back */

/*
 * Writes the same image with labels of inner registers raised, never lowered, so that the whole is
 * accepted: for a designer who knows the labels of ports and states and leaves the rest to the library.
 *
 * A raising of an image has its length and its bytes, except labels of inner registers, each of which
 * is at or above the old one. The labels of ports and states are fixed. On acceptance `out` holds the
 * least accepted raising: caisson_check accepts it, and every accepted raising gives each register a
 * label at or above the one in `out`. So an accepted image comes back unchanged, byte for byte, and
 * raising the result again changes nothing more. 18 is answered exactly if no accepted raising exists:
 * then the design itself, or a label of a port or a state, has to change.
 *
 * The image may break 10 to 12, the flow; everything else it must keep, and no state of it has parameters:
 * 20 refuses any other, whether or not its labels would have to rise. `out` is exactly as long as the
 * image and does not overlap it. What it held before does not matter: on acceptance every byte of it is
 * written, on a refusal none. The call goes over the bodies at most CAISSON_REGISTERS * CAISSON_LABELS =
 * 1,024 times, again only where some label has risen, which on most designs is a few times. It takes
 * about as much stack as caisson_check, measured: 7,664 bytes on the lease design and 11,568 on the
 * deepest one. Refusals: the image checks 1 to 8, 16, 19 and 9, then 20, then 14 for the length of `out`,
 * then 18, all three with place 0.
 */
CAISSON_LOOK_AT_ANSWER
caisson_answer caisson_raise(const uint8_t *image, size_t image_len, /* the image to raise */
                             uint8_t *out, size_t out_len);          /* where the raised one goes */

/*
 * Drops what can never run: writes the image with the reached states only, and answers its length in bytes as
 * `count`.
 *
 * Reached are the root, the default child of a reached state that holds a fall, and the states that the gotos
 * of a reached state name; no others are. A state holds the falls and gotos that stand anywhere in its body,
 * also in a branch that no value takes. So no child of a state that is not reached is reached, and none of a
 * state that holds no fall.
 *
 * The result has all labels and all registers of the image, its reached states with the commands and the
 * expressions of their bodies, and nothing else. States, commands and expressions are closed up: each family
 * is numbered from 0 without gaps, in the order that it had, and whatever names one of them has the new number.
 * The arguments of a goto are registers or parameters and stay. caisson_check accepts the result. From reset,
 * port writes and runs answer the same on both images and leave the same registers, and each cycle walks the
 * same states, under the new numbers. Pruning the result again changes nothing more, and an image all of whose
 * states are reached comes back unchanged, byte for byte.
 *
 * The result is a design of its own. Its register area is as long as that of the image; its target area has
 * CAISSON_TARGET_LENGTH bytes for each state that stays, with the new numbers in them. So neither areas nor
 * journals are taken over: a host that goes over to the result resets, and begins with an empty journal.
 *
 * `out` may be longer than the result, and its bytes beyond the result keep their values. One as long as the
 * image is never too short, so that CAISSON_LARGEST_IMAGE bytes are enough for every image. What it held
 * before does not matter, and on a refusal no byte of it is written. It must not overlap the image, as said
 * above of all slices: what is written where they overlap is not defined. Refusals: the image checks, as from
 * caisson_check, for states that would go too; then 24 with place 0 where `out` is shorter than the result. How
 * long that would be, 24 does not tell.
 */
CAISSON_LOOK_AT_ANSWER
caisson_answer caisson_prune(const uint8_t *image, size_t image_len, /* the image to prune */
                             uint8_t *out, size_t out_len);          /* where the pruned one goes */

/*
 * Writes the filing form of an image: the same design with its nodes in one fixed order, for a library that
 * files a design once however its nodes were numbered. It answers the length of the form in bytes, which is
 * that of the image, as `count`.
 *
 * The form numbers commands state by state, from state 0 on, and in each body parts before the whole and the
 * first part first: of a sequence the first command before the second, of an if the first branch before the
 * second. It numbers expressions in the order of the new numbers of the commands that use them, so that the
 * condition of an if stands behind the expressions of its branches; within one expression again parts before
 * the whole, the first part first. Whatever names a node has its new number. All else stays: labels, registers
 * and states keep their numbers, and their records all bytes but the command number of a state.
 *
 * Two accepted images have the same form, byte for byte, exactly when they differ at most in node numbers.
 * caisson_check accepts the form. The form of a form is itself. Names, comments and layout are in no image, and
 * a design whose labels, registers or states stand in another order is another design.
 *
 * `out` may be longer than the form, and its bytes beyond the form keep their values. CAISSON_LARGEST_IMAGE
 * bytes are enough for every image. What it held before does not matter, and on a refusal no byte of it is
 * written. It must not overlap the image, as said above of all slices. Refusals: the image checks, as from
 * caisson_check, then 24 with place 0 where `out` is shorter than the form, so shorter than the image.
 */
CAISSON_LOOK_AT_ANSWER
caisson_answer caisson_file(const uint8_t *image, size_t image_len, /* the image to file */
                            uint8_t *out, size_t out_len);          /* where its filing form goes */

/*
 * The proved call behind caisson_earlier, for hosts that have no use of the function below: it puts the part into
 * *part. What *part holds before must be a slice as said above, as {first, 0} is; it is not read. The empty part of
 * a `first` that is NULL has another pointer than NULL, to no byte at all.
 */
void caisson_earlier_part(const uint8_t *first, size_t first_len,   /* one image */
                          const uint8_t *second, size_t second_len, /* and another */
                          caisson_part *part);                      /* where the part goes */

/*
 * caisson_earlier without pointers, for hosts in other languages: which image it hands back a part of, and how
 * many bytes of it.
 */
CAISSON_LOOK_AT_ANSWER
caisson_which caisson_which_earlier(const uint8_t *first, size_t first_len,    /* one image */
                                    const uint8_t *second, size_t second_len); /* and another */

/*
 * Hands back the earlier of two lent images, as it was lent: its own pointer and its length, not a copy and not
 * its form.
 *
 * Images are ordered by the bytes of their filing forms: at the first byte in which two forms differ the lower
 * one is the earlier, and a form that is a proper beginning of another comes before it. Equal are images that
 * differ at most in node numbers; of equal ones the first is handed back. So the order does not depend on node
 * numbers, and any two accepted images are equal or one is the earlier, whichever is lent as the first.
 *
 * Both images are judged by the image checks. If either is refused, an empty part of the first is handed back:
 * `bytes` is `first` and `len` is 0. No image has 0 bytes, so `len` is 0 in no other case; caisson_check tells
 * which image it was, and why. Nothing that the host owns is written: the call has the forms, or what it needs
 * of them, on its own stack. The two may be one image or overlap, since both are only read. What is handed back is
 * the host's own memory, and lasts as long as that does.
 */
CAISSON_LOOK_AT_ANSWER
static inline caisson_part caisson_earlier(const uint8_t *first, size_t first_len,   /* one image */
                                           const uint8_t *second, size_t second_len) /* and another */
{
    caisson_part part = {first, 0};

    caisson_earlier_part(first, first_len, second, second_len, &part);
    if (part.len == 0)
        part.bytes = first; /* NULL too, for which the library has a pointer of its own */
    return part;
}

/*
 * Gate tables: logic as NAND gates with trust marks.
 *
 * A gate table is an image of its own, of at most CAISSON_GATES_LARGEST_TABLE bytes; docs/FORMAT.md has
 * it byte by byte. It has inputs, flip-flops and gates, and each of them is a wire: numbered from 0,
 * first the inputs, then the flip-flops, then the gates. On a wire stand a value, 0 or 1, and a mark,
 * CAISSON_TRUSTED or CAISSON_UNTRUSTED. The table has each input's mark, of each flip-flop the wire that
 * it takes next and the value and mark that it starts with, and of each gate the two wires that it
 * reads, which are lower than its own.
 *
 * The state of a gate table is one area that the host owns and lends: CAISSON_GATES_PAIR bytes for each
 * flip-flop, in their order, the value first and the mark behind it. An area of length 0 may be NULL.
 *
 * These calls judge in this order: 25 with place 0, then 26 for the table at the lowest wire at fault,
 * then 14 with place 0 for a length, then 26 for the bytes that a cycle is lent, at the lowest wire at
 * fault. They give no other refusal, and `count` is always 0. The image checks are not made. A refusal
 * changes no byte of the area. As above, no call relies on an earlier one, each judges the table again,
 * nothing is read or written outside the slices, and the slices of one call must not overlap.
 *
 * What the marks are worth: take two runs of one accepted table whose areas are equal in all marks, and
 * equal in the values that are marked trusted. Let each cycle of the two be lent inputs that are equal
 * where the table marks them trusted, and be accepted in both. Then the areas are again equal in this way after
 * any number of cycles: what is marked trusted does not depend on what is not. A cycle that is refused changes
 * nothing, and an untrusted input alone may be why: where it is refused in one run only, the areas may differ.
 */

/*
 * Accepts a gate table exactly when directory, counts and sections are right (25) and every wire, value
 * and mark in its records is in range (26), or refuses it. Whatever the bytes and the length, the answer
 * is defined. Each record is looked at once. Refusals: 25, then 26 for the table.
 */
CAISSON_LOOK_AT_ANSWER
caisson_answer caisson_gates_check(const uint8_t *table, /* the table's bytes */
                                   size_t table_len);    /* how many there are */

/*
 * Writes each flip-flop's start value and start mark. What the area held before does not matter and is
 * not judged. Refusals: 25, then 26 for the table, then 14 where the area is not CAISSON_GATES_PAIR
 * bytes long for each flip-flop of the table.
 */
CAISSON_LOOK_AT_ANSWER
caisson_answer caisson_gates_reset(const uint8_t *table, size_t table_len,
                                   uint8_t *flipflops, size_t flipflops_len); /* the area */

/*
 * Runs one cycle. An input has the value lent for it and the mark of the table; a flip-flop has the
 * value and the mark of the area; a gate has the NAND of the two values that it reads. A gate's output is
 * trusted if both that it reads are, or if one of them is a trusted 0, since then the other cannot change
 * it; else it is untrusted. After all gates every flip-flop takes value and mark of its next wire, all of
 * them together: one that follows another takes what that had before.
 *
 * `inputs` has one value byte for each input of the table, and the marks of the inputs are never lent.
 * A value is 0 or 1, a mark CAISSON_TRUSTED or CAISSON_UNTRUSTED, else the wire is refused by 26, inputs
 * before flip-flops. Time is linear in the table. The values and marks of all wires lie on the call's own
 * stack: it takes 4,760 bytes of it, measured as above. Refusals: 25, then 26 for the table,
 * then 14 for the length of `inputs` or of the area, then 26 for the lent bytes.
 */
CAISSON_LOOK_AT_ANSWER
caisson_answer caisson_gates_cycle(const uint8_t *table, size_t table_len,
                                   const uint8_t *inputs, size_t inputs_len,  /* a value for each input */
                                   uint8_t *flipflops, size_t flipflops_len); /* the area */

#ifdef __cplusplus
}
#endif

#endif
