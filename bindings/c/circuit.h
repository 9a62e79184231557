/* Faust circuits on 32-bit integer samples: tables, flat code, walker and runner.
 *
 * Link with target/staticlib/libcircuit.a (x86-64 Linux), which `tools/build archive` writes. What each function
 * does is proved, for all numbers in the buffers: the contracts are in crates/circuit/src/lib.rt.
 *
 * Numbers. The numbers of tables, codes, probes, cells, inputs, controls, outputs and recordings are int32_t, since a
 * sample is a 32-bit two's complement whole number and a child or a value in a table may be negative. The engine works on
 * the same 32 bits as words; C lets an object be reached as its signed or its unsigned type, and both are passed alike.
 * Ticks and counts are uint32_t: a negative one is a large one, and refused as such.
 *
 * Buffers. A buffer is a pointer and its length in elements, a size_t. Of an empty buffer only the length is looked
 * at: its pointer may be NULL. The buffers that are written are those without const; none of them may overlap another
 * buffer of the same call. One that is longer than needed keeps its content past the needed part.
 *
 * Answers. Every call is answered by one uint64_t. Bits 0 to 31 are the count that the call calls for, or the refusal's
 * place as a 32-bit two's complement number: the line or node for refusals 1 to 9, the node for 16, else -1. Bits 32 to 47
 * are the refusal's number, 0 if there is none. Bits 48 to 63 are the count of ticks with a clipped delay, 0 where nothing of
 * the kind is reported. circuit_count, circuit_place, circuit_refusal and circuit_clipped read them. A refused call writes to
 * no buffer. Each function names its refusals in the order in which they are looked for; "the table's" are 3 to 9 and 16 as
 * circuit_check has them. docs/FORMAT.md is the reference.
 *
 * Calls from an audio thread. The functions keep no state of their own, allocate nothing, take no lock and make no
 * system call; of the C library they call memcpy, memset and the like, which compilers call unasked. Calls on different
 * buffers may run at the same time. circuit_run does not recurse: it checks the code once a call, then works each
 * instruction at most once a tick, so that its time grows with the instructions, and with the ticks times the sum of
 * instructions, inputs and outputs, and with nothing else. Samples decide which bodies of an ondemand are skipped, those
 * whose clock is 0, which is less work, and which case of a delay, a quotient, a remainder or a selector is taken, a few
 * machine instructions. Before the first call that must be in time make one on the same buffers: memory is provided
 * when it is first touched, and the dynamic linker looks memset up at the first call.
 */
#ifndef CIRCUIT_H
#define CIRCUIT_H

#include <stddef.h>
#include <stdint.h>

#ifdef __cplusplus
extern "C" {
#endif

/* Limits, and the buffer sizes that are always enough. */
#define CIRCUIT_NODES 512          /* nodes of a table, lines of a file */
#define CIRCUIT_TABLE_NUMBERS 1536 /* three for each node */
#define CIRCUIT_FILE_BYTES 20992   /* 41 for each line */
#define CIRCUIT_WIDTH 32           /* inputs, and outputs, of a node */
#define CIRCUIT_INSTRUCTIONS 2048
#define CIRCUIT_HEADER_NUMBERS 4      /* of a code: inputs, outputs, instructions, cells */
#define CIRCUIT_INSTRUCTION_NUMBERS 6 /* of an instruction */
#define CIRCUIT_CODE_NUMBERS (CIRCUIT_HEADER_NUMBERS + CIRCUIT_INSTRUCTION_NUMBERS * CIRCUIT_INSTRUCTIONS + CIRCUIT_WIDTH)
#define CIRCUIT_CELLS 16384
#define CIRCUIT_TICKS 4096  /* of one call */
#define CIRCUIT_CONTROLS 16 /* exactly so many */
#define CIRCUIT_COUNTS 4    /* that the check reports */
#define CIRCUIT_PROBES 16   /* of one call */
#define CIRCUIT_PROBE_NUMBERS (2 * CIRCUIT_PROBES)                 /* a node and an output for each */
#define CIRCUIT_RECORDING_NUMBERS (CIRCUIT_TICKS * CIRCUIT_PROBES) /* of one call */

/* Bytes of stack for a thread that does nothing but such a call, on x86-64: what the call itself uses at most, which
 * stands behind the number, and 12 KiB, rounded up to pages of 4 KiB. Of the 12 KiB the start of a thread takes 4.4 with
 * the GNU C library, and its dynamic linker, which looks memset up at the first call, 3.1; the rest is spare. A caller's
 * own frames and signal handlers come on top.
 *
 * Translator and walker have a frame of 1.2 and 1.3 KiB for each node on the way from the circuit down, whatever the
 * node is. A way has at most 497 of the 512 nodes: an ondemand adds an input, of which there are at most 32, so that 15
 * nodes on it must have a second child. The stack of the others does not depend on what they are given.
 * circuit_walk_probed has the walker's stack. bindings/c/stack_test.c measures all of them, on the deepest circuit, and
 * calls each with just this stack. */
#define CIRCUIT_STACK_TRANSLATE (588 * 1024) /* 576 KiB */
#define CIRCUIT_STACK_WALK (660 * 1024)      /* 647 KiB */
#define CIRCUIT_STACK_RUN (32 * 1024)        /* 20 KiB */
#define CIRCUIT_STACK_CHECK (24 * 1024)      /* 11 KiB */
#define CIRCUIT_STACK_JOIN (32 * 1024)       /* 17 KiB */
#define CIRCUIT_STACK_READ (16 * 1024)       /* below 1 KiB */
#define CIRCUIT_STACK_WRITE (16 * 1024)      /* below 1 KiB */
#define CIRCUIT_STACK_LOAD (16 * 1024)       /* below 1 KiB */

/* The refusals by number. */
enum {
    CIRCUIT_MALFORMED_LINE = 1,         /* a line that is not 41 bytes, or a column that is no 32-bit number of the form */
    CIRCUIT_WRONG_NODE_NUMBER = 2,      /* a node number that is not the line's place */
    CIRCUIT_WRONG_NODE_COUNT = 3,       /* no line or node, more than 512, or numbers that are no multiple of three */
    CIRCUIT_UNKNOWN_KIND = 4,           /* a kind that is not 1 to 12 */
    CIRCUIT_WRONG_FIELD = 5,            /* a used field out of range, or an unused field that is not 0 */
    CIRCUIT_WRONG_CHILD = 6,            /* a child that is negative, not lower, named twice, or taken before */
    CIRCUIT_NO_ARITY_RULE = 7,          /* no arity rule fits */
    CIRCUIT_TOO_WIDE = 8,               /* inputs or outputs above 32 */
    CIRCUIT_LOOSE_NODE = 9,             /* a node other than the last that is nobody's child, of several the lowest */
    CIRCUIT_TOO_MANY_INSTRUCTIONS = 10, /* more than 2,048 instructions */
    CIRCUIT_TOO_MANY_CELLS = 11,        /* cells that are not 0 to 16,384 */
    CIRCUIT_SHORT_BUFFER = 12,          /* the buffer to be filled or changed is shorter than needed */
    CIRCUIT_WRONG_CODE = 13,            /* numbers that are no flat code */
    CIRCUIT_WRONG_BLOCK = 14,           /* ticks not 0 to 4,096, inputs that are not ticks times the circuit's, or controls that are not 16 */
    CIRCUIT_WRONG_PROBES = 15,          /* an odd count of probe numbers, more than 16 probes, or one that names no output of the table */
    CIRCUIT_EMPTY_FEEDBACK = 16,        /* a recursion whose right side has neither inputs nor outputs */
    CIRCUIT_TOO_MANY_JOINED = 17        /* two tables to be joined whose nodes and the joining one are more than 512 */
};

/* The refusal's number, 0 for an accepted call. */
static inline uint32_t circuit_refusal(uint64_t answer) {
    return (uint32_t)(answer >> 32) & 0xffff;
}

/* The line or node of a refusal, or -1. */
static inline int32_t circuit_place(uint64_t answer) {
    uint32_t place = (uint32_t)answer;
    return place <= INT32_MAX ? (int32_t)place : -1;
}

/* The count of an accepted call. */
static inline uint32_t circuit_count(uint64_t answer) {
    return (uint32_t)answer;
}

/* In how many ticks of an accepted walk or run at least one delay was clipped: worked with an amount outside 0 to D, which
 * is then taken as 0 or as D. A delay in a body without demand, or in what a code skips, is not worked. Over several walks
 * or runs of one circuit since a load, if nothing else has written its cells, these add up to the number that the circuit
 * has over all their ticks. 0 for a refused call and for any other. */
uint32_t circuit_clipped(uint64_t answer);

/* Checks a table, three numbers to a node, and writes inputs, outputs, instructions and cells into the first four of
 * counts. Answers 4. The reported instructions and cells may lie above the limits.
 * Refusals: 3; node by node 4 to 7, 16, 8; 9; 12. */
uint64_t circuit_check(const int32_t *table, size_t table_numbers, uint32_t *counts, size_t counts_length);

/* Reads a column file into a table. Answers with the count of nodes n; 3n numbers are written.
 * Refusals: 3, 1 and 2 line by line; 12. CIRCUIT_FILE_BYTES + 1 bytes of a longer file decide. */
uint64_t circuit_read(const uint8_t *file, size_t file_bytes, int32_t *table, size_t table_numbers);

/* Writes a table as a column file. Answers with the count of bytes, 41 a node; there is no closing 0.
 * Refusals: 3; 12. Of the table only the count of numbers is checked. */
uint64_t circuit_write(const int32_t *table, size_t table_numbers, uint8_t *file, size_t file_bytes);

/* Joins two tables by a composition, `kind` 7 to 11: writes the first table's nodes, the second's with child numbers moved
 * on by the count of the first's nodes, then a node of this kind, whose first is the first table's last node and whose
 * second the second's. Answers with the count of numbers, those of both tables and three. The joined table is accepted
 * where the two can be composed, and its samples are the composition of what the two give. A table may be joined with
 * itself: `first` and `second` may be the same buffer or overlap, `joined` may overlap neither.
 * Refusals: the first table's; the second's; 17; the joined table's; 12. The place is a node of the table that is refused, in
 * its own numbering: of the first or of the second, which circuit_check tells apart; of the joined table the joining node, the
 * last, with 4 or 5 for a kind other than 7 to 11, else with 7, 16 or 8. Instructions and cells are not held to their limits:
 * there is no 10 or 11. */
uint64_t circuit_join(int32_t kind, const int32_t *first, size_t first_numbers, const int32_t *second,
                      size_t second_numbers, int32_t *joined, size_t joined_numbers);

/* Translates a table into flat code: inputs, outputs, count of instructions, count of cells; the instructions, six
 * numbers each; the output registers. Answers with the count of numbers.
 * Refusals: the table's; 10; 11; 12. */
uint64_t circuit_translate(const int32_t *table, size_t table_numbers, int32_t *code, size_t code_numbers);

/* Sets the first `named` cells to 0 and touches no others. Answers with `named`. A circuit starts from cells that were
 * loaded with at least its count.
 * Refusals: 11; 12. */
uint64_t circuit_load(uint32_t named, int32_t *cells, size_t cells_length);

/* Walks a table for a block of ticks. `inputs` has the circuit's n inputs of each tick, tick after tick; `controls`
 * holds for the whole call; the cells, at least as many as the table's count, go on from the last call; `outputs`, at
 * least ticks x m long, takes the m outputs of each tick. Answers with the count of output samples, and that of the ticks
 * with a clipped delay.
 * Refusals: the table's; 11; 14; 12. */
uint64_t circuit_walk(const int32_t *table, size_t table_numbers, uint32_t ticks, const int32_t *inputs,
                      size_t inputs_length, const int32_t *controls, size_t controls_length, int32_t *cells,
                      size_t cells_length, int32_t *outputs, size_t outputs_length);

/* Walks a table as circuit_walk does, with the same samples, cells and answer, and records up to CIRCUIT_PROBES wires.
 * `probes` has two numbers for each, a node and an output of it, counted from 0; a wire may be named twice, and no probe
 * is allowed too. `latest`, at least a number a probe, holds what each wire shows: its value at the tick or, in the body
 * of an ondemand, at the latest demand that reached it. `recording`, at least ticks x probes long, takes the list as it is
 * after each tick, in the order of the probes. Set the list to 0 with each load, and let it go on from call to call with
 * the same table and probes: a wire that no demand has reached shows what stood there.
 * Refusals: the table's; 11; 14; 15; 12. */
uint64_t circuit_walk_probed(const int32_t *table, size_t table_numbers, const int32_t *probes, size_t probe_numbers,
                             uint32_t ticks, const int32_t *inputs, size_t inputs_length, const int32_t *controls,
                             size_t controls_length, int32_t *cells, size_t cells_length, int32_t *outputs,
                             size_t outputs_length, int32_t *latest, size_t latest_length, int32_t *recording,
                             size_t recording_length);

/* Runs a flat code for a block of ticks: as circuit_walk, with n, m and the count of cells of the code's header, and with
 * the same answer; of its delays those count as clipped that are not skipped. Any numbers may be given as code.
 * Refusals: 13; 14; 12. */
uint64_t circuit_run(const int32_t *code, size_t code_numbers, uint32_t ticks, const int32_t *inputs,
                     size_t inputs_length, const int32_t *controls, size_t controls_length, int32_t *cells,
                     size_t cells_length, int32_t *outputs, size_t outputs_length);

#ifdef __cplusplus
}
#endif

#endif
