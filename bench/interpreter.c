// A hand-written interpreter of flat code. It tests nothing: the code has passed the check and the buffers fit.
// The code is decoded once a call, so that one switch serves both the code and the op of an instruction.
// (A switch over the numbers as they stand, with a second one over the op, was slower where operations abound.)
#include "circuit.h"

#include <stddef.h>
#include <stdint.h>
#include <string.h>

enum { REGISTERS = CIRCUIT_WIDTH + CIRCUIT_INSTRUCTIONS };

enum { NUMBER = 1, CONTROL, OPERATION, DELAY, READ, WRITE, SKIP, OPS = SKIP };

enum { ADD = OPS + 1, SUBTRACT, MULTIPLY, QUOTIENT, REMAINDER, LESS, EQUAL, ABSOLUTE, NEGATE, SELECT };

struct instruction {
    uint32_t what, a, b, c, d;
};

// The third register of an operation is the sixth number, 0 but for a selector.
static void decode(const uint32_t *x, uint32_t count, struct instruction *to) {
    for (uint32_t i = 0; i < count; i++, x += CIRCUIT_INSTRUCTION_NUMBERS, to++) {
        if (x[0] == OPERATION)
            *to = (struct instruction){OPS + x[1], x[2], x[3], x[5], 0};
        else
            *to = (struct instruction){x[0], x[1], x[2], x[3], x[4]};
    }
}

static uint32_t quotient(int32_t a, int32_t b) {
    return b == 0 ? 0 : b == -1 ? 0 - (uint32_t)a : (uint32_t)(a / b);
}

static uint32_t modulo(int32_t a, int32_t b) {
    return b == 0 || b == -1 ? 0 : (uint32_t)(a % b);
}

// Both values are at hand, so that the compiler needs no jump.
static uint32_t selected(uint32_t first, uint32_t second, uint32_t third) {
    return first == 0 ? second : third;
}

// Sets *clipped where the amount is outside 0 to d: as an unsigned number, a negative one is above every d.
static uint32_t delay(uint32_t *line, uint32_t d, uint32_t input, uint32_t amount, uint32_t *clipped) {
    *clipped |= amount > d;
    if (d == 0)
        return input;
    uint32_t *ring = line + 1;
    uint32_t p = line[0] < d ? line[0] : 0;
    uint32_t back = (int32_t)amount < 0 ? 0 : amount < d ? amount : d;
    uint32_t value = back == 0 ? input : ring[p < back ? p + d - back : p - back];
    ring[p] = input;
    line[0] = p + 1 < d ? p + 1 : 0;
    return value;
}

// The instructions from x to end; the first writes the register *own. Skipped ones have 0 in theirs. Was a delay clipped?
static uint32_t tick(const struct instruction *x, const struct instruction *end, const uint32_t *controls,
                     uint32_t *own, uint32_t *r, uint32_t *cells) {
    uint32_t clipped = 0;
    for (; x < end; x++, own++) {
        switch (x->what) {
        case NUMBER: *own = x->a; break;
        case CONTROL: *own = controls[x->a]; break;
        case DELAY: *own = delay(cells + x->c, x->d, r[x->a], r[x->b], &clipped); break;
        case READ: *own = cells[x->a]; break;
        case WRITE: cells[x->a] = r[x->b]; *own = 0; break;
        case SKIP:
            *own = 0;
            if (r[x->a] == 0) {
                memset(own + 1, 0, x->b * sizeof *own);
                own += x->b;
                x += x->b;
            }
            break;
        case ADD: *own = r[x->a] + r[x->b]; break;
        case SUBTRACT: *own = r[x->a] - r[x->b]; break;
        case MULTIPLY: *own = r[x->a] * r[x->b]; break;
        case QUOTIENT: *own = quotient((int32_t)r[x->a], (int32_t)r[x->b]); break;
        case REMAINDER: *own = modulo((int32_t)r[x->a], (int32_t)r[x->b]); break;
        case LESS: *own = (int32_t)r[x->a] < (int32_t)r[x->b]; break;
        case EQUAL: *own = r[x->a] == r[x->b]; break;
        case ABSOLUTE: *own = (int32_t)r[x->a] < 0 ? 0 - r[x->a] : r[x->a]; break;
        case NEGATE: *own = 0 - r[x->a]; break;
        case SELECT: *own = selected(r[x->a], r[x->b], r[x->c]); break;
        }
    }
    return clipped;
}

// A block of ticks; answers as circuit_run does, with the counts of output samples and of ticks with a clipped delay.
uint64_t run_c(const uint32_t *code, uint32_t ticks, const uint32_t *inputs, const uint32_t *controls,
               uint32_t *cells, uint32_t *outputs) {
    uint32_t n = code[0], m = code[1], count = code[2], clipped = 0;
    const uint32_t *results = code + CIRCUIT_HEADER_NUMBERS + (size_t)CIRCUIT_INSTRUCTION_NUMBERS * count;
    struct instruction program[CIRCUIT_INSTRUCTIONS];
    uint32_t registers[REGISTERS];
    decode(code + CIRCUIT_HEADER_NUMBERS, count, program);
    for (uint32_t t = 0; t < ticks; t++) {
        for (uint32_t i = 0; i < n; i++)
            registers[i] = *inputs++;
        clipped += tick(program, program + count, controls, registers + n, registers, cells);
        for (uint32_t i = 0; i < m; i++)
            *outputs++ = registers[results[i]];
    }
    return ((uint64_t)clipped << 48) | ticks * m;
}
