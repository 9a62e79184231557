/* Runs a circuit on samples: example FILE < SAMPLES
 * FILE is a column file; SAMPLES are decimal numbers, each tick's inputs one after another. Each tick's outputs are
 * printed on a line. Without inputs there is nothing to wait for: one block is run. */
#include "circuit.h"

#include <inttypes.h>
#include <stdio.h>

#define BLOCK 64 /* ticks of a call */

static uint8_t file[CIRCUIT_FILE_BYTES + 1];
static int32_t table[CIRCUIT_TABLE_NUMBERS];
static int32_t code[CIRCUIT_CODE_NUMBERS];
static int32_t cells[CIRCUIT_CELLS];
static int32_t controls[CIRCUIT_CONTROLS];
static int32_t inputs[BLOCK * CIRCUIT_WIDTH];
static int32_t outputs[BLOCK * CIRCUIT_WIDTH];

static int refused(const char *what, uint64_t answer) {
    if (circuit_refusal(answer) == 0)
        return 0;
    fprintf(stderr, "%s: refusal %" PRIu32 ", place %" PRId32 "\n", what, circuit_refusal(answer), circuit_place(answer));
    return 1;
}

/* Whole ticks from standard input, at most a block of them. */
static uint32_t ticks_read(uint32_t n) {
    uint32_t got = 0;
    while (got < BLOCK * n && scanf("%" SCNd32, &inputs[got]) == 1)
        got++;
    return got / n;
}

int main(int argc, char **argv) {
    FILE *in = argc == 2 ? fopen(argv[1], "rb") : NULL;
    if (in == NULL) {
        fprintf(stderr, "usage: example FILE < SAMPLES\n");
        return 2;
    }
    size_t bytes = fread(file, 1, sizeof file, in);
    fclose(in);

    uint64_t nodes = circuit_read(file, bytes, table, CIRCUIT_TABLE_NUMBERS);
    if (refused("read", nodes))
        return 1;
    uint64_t numbers = circuit_translate(table, 3 * (size_t)circuit_count(nodes), code, CIRCUIT_CODE_NUMBERS);
    if (refused("translate", numbers))
        return 1;
    uint32_t n = (uint32_t)code[0], m = (uint32_t)code[1], count = (uint32_t)code[3];
    if (refused("load", circuit_load(count, cells, CIRCUIT_CELLS)))
        return 1;

    uint32_t ticks = n == 0 ? BLOCK : ticks_read(n);
    while (ticks > 0) {
        uint64_t samples = circuit_run(code, circuit_count(numbers), ticks, inputs, (size_t)ticks * n, controls,
                                       CIRCUIT_CONTROLS, cells, CIRCUIT_CELLS, outputs, BLOCK * CIRCUIT_WIDTH);
        if (refused("run", samples))
            return 1;
        for (uint32_t tick = 0; tick < ticks; tick++)
            for (uint32_t i = 0; i < m; i++)
                printf("%" PRId32 "%c", outputs[tick * m + i], i + 1 < m ? ' ' : '\n');
        ticks = n == 0 ? 0 : ticks_read(n);
    }
    return 0;
}
