/* The stack that the header states for each function, on x86-64 Linux: what it uses is measured with plenty and must
 * leave a page to spare; then it is called with just the stated stack, below which a page may not be touched. Half of
 * it, where a thread may have so little and that is not enough, must crash. Each call has a process of its own, so that
 * the dynamic linker looks memset up within the thread. */
#define _GNU_SOURCE
#include "circuit.h"

#include <pthread.h>
#include <signal.h>
#include <stdio.h>
#include <stdlib.h>
#include <sys/mman.h>
#include <sys/wait.h>
#include <unistd.h>

#define GUARD 4096
#define SPARE 4096
#define PLENTY (4 * 1024 * 1024)
#define PAINT 0x0123456789abcdefu
#define CRASHED SIZE_MAX

static int32_t table[CIRCUIT_TABLE_NUMBERS], again[CIRCUIT_TABLE_NUMBERS];
static char file[CIRCUIT_FILE_BYTES + 64];
static int32_t code[CIRCUIT_CODE_NUMBERS], translated[CIRCUIT_CODE_NUMBERS];
static int32_t cells[CIRCUIT_CELLS], controls[CIRCUIT_CONTROLS], inputs[CIRCUIT_WIDTH] = {1}, outputs[CIRCUIT_WIDTH];
static int32_t probes[CIRCUIT_PROBE_NUMBERS], latest[CIRCUIT_PROBES], recording[CIRCUIT_PROBES];
static uint32_t counts[CIRCUIT_COUNTS];
static int32_t nodes;

/* A node, and its line of the file; answers with its number. */
static int32_t node(int32_t kind, int32_t first, int32_t second) {
    int32_t *numbers = &table[3 * nodes];
    numbers[0] = kind, numbers[1] = first, numbers[2] = second;
    snprintf(&file[41 * nodes], 64, "%4d%12d%12d%12d\n", (int)nodes, (int)kind, (int)first, (int)second);
    return nodes++;
}

/* The deepest circuit, 497 nodes one below the other: a number 7 within ondemands, each with one clock more; where there
 * are 32, a number 1 is split onto all of them. An ondemand takes one node for a level, a split two. */
static void deepest_circuit(void) {
    int32_t last = node(1, 7, 0);
    for (int width = 0; nodes < CIRCUIT_NODES; width++) {
        if (width == CIRCUIT_WIDTH) {
            last = node(9, node(1, 1, 0), last);
            width = 0;
        }
        last = node(12, last, 0);
    }
}

/* As many probes as there may be, over the whole depth; each node of the deepest circuit has one output. */
static void most_probes(void) {
    for (int i = 0; i < CIRCUIT_PROBES; i++)
        probes[2 * i] = i * (CIRCUIT_NODES - 1) / (CIRCUIT_PROBES - 1);
}

/* The largest code: as many instructions `number 7`, 32 inputs, 32 outputs. */
static void largest_code(void) {
    code[0] = CIRCUIT_WIDTH, code[1] = CIRCUIT_WIDTH, code[2] = CIRCUIT_INSTRUCTIONS, code[3] = CIRCUIT_CELLS;
    int32_t *next = &code[CIRCUIT_HEADER_NUMBERS];
    for (int i = 0; i < CIRCUIT_INSTRUCTIONS; i++, next += CIRCUIT_INSTRUCTION_NUMBERS)
        next[0] = 1, next[1] = 7;
    for (int i = 0; i < CIRCUIT_WIDTH; i++)
        next[i] = CIRCUIT_WIDTH + i;
}

/* Each call answers whether it did its work. */
static int check(void) {
    return circuit_check(table, CIRCUIT_TABLE_NUMBERS, counts, CIRCUIT_COUNTS) == CIRCUIT_COUNTS && counts[0] == 1;
}

static int read_file(void) {
    return circuit_read((uint8_t *)file, CIRCUIT_FILE_BYTES, again, CIRCUIT_TABLE_NUMBERS) == CIRCUIT_NODES;
}

static int write_file(void) {
    return circuit_write(table, CIRCUIT_TABLE_NUMBERS, (uint8_t *)file, CIRCUIT_FILE_BYTES) == CIRCUIT_FILE_BYTES;
}

/* Of the deepest circuit the part up to node 508, an ondemand, which takes 32 clocks and gives a number; and the part up to
 * node 1, which takes that for its clock: 512 nodes in all. */
static int join(void) {
    return circuit_join(7, table, 3 * 509, table, 3 * 2, again, CIRCUIT_TABLE_NUMBERS) == CIRCUIT_TABLE_NUMBERS;
}

/* An instruction for each of the 16 numbers, three for each of the 481 ondemands, one output. */
static int translate(void) {
    uint64_t numbers = CIRCUIT_HEADER_NUMBERS + CIRCUIT_INSTRUCTION_NUMBERS * (16 + 3 * 481) + 1;
    return circuit_translate(table, CIRCUIT_TABLE_NUMBERS, translated, CIRCUIT_CODE_NUMBERS) == numbers;
}

static int load(void) {
    return circuit_load(CIRCUIT_CELLS, cells, CIRCUIT_CELLS) == CIRCUIT_CELLS;
}

static int walk(void) {
    uint64_t samples = circuit_walk(table, CIRCUIT_TABLE_NUMBERS, 1, inputs, 1, controls, CIRCUIT_CONTROLS, cells,
                                    CIRCUIT_CELLS, outputs, CIRCUIT_WIDTH);
    return samples == 1 && outputs[0] == 7;
}

/* The first probe is the number at the bottom, the last the circuit. */
static int walk_probed(void) {
    uint64_t samples = circuit_walk_probed(table, CIRCUIT_TABLE_NUMBERS, probes, CIRCUIT_PROBE_NUMBERS, 1, inputs, 1,
                                           controls, CIRCUIT_CONTROLS, cells, CIRCUIT_CELLS, outputs, CIRCUIT_WIDTH,
                                           latest, CIRCUIT_PROBES, recording, CIRCUIT_PROBES);
    return samples == 1 && outputs[0] == 7 && recording[0] == 7 && recording[CIRCUIT_PROBES - 1] == 7;
}

static int run(void) {
    uint64_t samples = circuit_run(code, CIRCUIT_CODE_NUMBERS, 1, inputs, CIRCUIT_WIDTH, controls, CIRCUIT_CONTROLS,
                                   cells, CIRCUIT_CELLS, outputs, CIRCUIT_WIDTH);
    return samples == CIRCUIT_WIDTH && outputs[CIRCUIT_WIDTH - 1] == 7;
}

struct entry {
    const char *name;
    int (*call)(void);
    size_t stated;
};

static const struct entry entries[] = {
    {"check", check, CIRCUIT_STACK_CHECK},
    {"read", read_file, CIRCUIT_STACK_READ},
    {"write", write_file, CIRCUIT_STACK_WRITE},
    {"join", join, CIRCUIT_STACK_JOIN},
    {"translate", translate, CIRCUIT_STACK_TRANSLATE},
    {"load", load, CIRCUIT_STACK_LOAD},
    {"walk", walk, CIRCUIT_STACK_WALK},
    {"walk_probed", walk_probed, CIRCUIT_STACK_WALK},
    {"run", run, CIRCUIT_STACK_RUN},
};

static void *called(void *entry) {
    return ((const struct entry *)entry)->call() ? entry : NULL;
}

/* Calls the entry in a thread with so many bytes of stack; answers how many were used, 0 for a wrong answer. */
static size_t used(const struct entry *entry, size_t bytes) {
    char *low = mmap(NULL, GUARD + bytes, PROT_READ | PROT_WRITE, MAP_PRIVATE | MAP_ANONYMOUS, -1, 0);
    uint64_t *stack = (uint64_t *)(low + GUARD);
    size_t words = bytes / sizeof *stack, untouched = 0;
    pthread_attr_t attributes;
    pthread_t thread;
    void *result;
    if (low == MAP_FAILED || mprotect(low, GUARD, PROT_NONE) != 0)
        return 0;
    for (size_t i = 0; i < words; i++)
        stack[i] = PAINT;
    if (pthread_attr_init(&attributes) != 0 || pthread_attr_setstack(&attributes, stack, bytes) != 0 ||
        pthread_create(&thread, &attributes, called, (void *)entry) != 0 || pthread_join(thread, &result) != 0)
        return 0;
    while (untouched < words && stack[untouched] == PAINT)
        untouched++;
    return result == NULL ? 0 : bytes - untouched * sizeof *stack;
}

/* The same in a process of its own; answers CRASHED where that has ended with SIGSEGV. */
static size_t used_alone(const struct entry *entry, size_t bytes) {
    static size_t *answer;
    int status;
    if (answer == NULL)
        answer = mmap(NULL, sizeof *answer, PROT_READ | PROT_WRITE, MAP_SHARED | MAP_ANONYMOUS, -1, 0);
    *answer = 0;
    pid_t child = fork();
    if (child == 0) {
        *answer = used(entry, bytes);
        _exit(0);
    }
    if (child < 0 || waitpid(child, &status, 0) != child)
        exit(2);
    return WIFSIGNALED(status) && WTERMSIG(status) == SIGSEGV ? CRASHED : *answer;
}

static int wrong(const struct entry *entry, const char *what) {
    printf("stack of %s: %s\n", entry->name, what);
    return 1;
}

static int failed(const struct entry *entry) {
    size_t stated = entry->stated, half = stated / 2, needed = used_alone(entry, PLENTY);
    if (needed == 0 || needed == CRASHED)
        return wrong(entry, "the call did not do its work");
    printf("stack of %s: %zu of %zu bytes\n", entry->name, needed, stated);
    fflush(stdout);
    if (needed > stated - SPARE)
        return wrong(entry, "less than a page to spare");
    size_t exactly = used_alone(entry, stated);
    if (exactly == 0 || exactly == CRASHED)
        return wrong(entry, "the stated stack does not do");
    if ((size_t)sysconf(_SC_THREAD_STACK_MIN) <= half && half < needed && used_alone(entry, half) != CRASHED)
        return wrong(entry, "half of it should not do");
    return 0;
}

int main(void) {
    int failures = 0;
    deepest_circuit();
    most_probes();
    largest_code();
    for (size_t i = 0; i < sizeof entries / sizeof *entries; i++)
        failures += failed(&entries[i]);
    return failures != 0;
}
