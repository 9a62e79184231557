/* What the header says of buffers and answers: empty ones, lengths of 64 bits, refusals that write nothing. And a
 * selector, in a table and in codes; probes; clipped delays; and joined tables. */
#include "circuit.h"

#include <stdio.h>

static int failures;

static void expect(const char *what, uint64_t answer, uint32_t number, int32_t place_or_count) {
    int32_t got = circuit_refusal(answer) == 0 ? (int32_t)circuit_count(answer) : circuit_place(answer);
    if (circuit_refusal(answer) == number && got == place_or_count)
        return;
    printf("%s: %u %d, expected %u %d\n", what, (unsigned)circuit_refusal(answer), (int)got, (unsigned)number, (int)place_or_count);
    failures++;
}

static void same(const char *what, int32_t got, int32_t expected) {
    if (got == expected)
        return;
    printf("%s: %d, expected %d\n", what, (int)got, (int)expected);
    failures++;
}

static void empty_buffers(void) {
    static const int32_t number[] = {1, 7, 0};
    static const int32_t controls[CIRCUIT_CONTROLS];
    static const int32_t nothing[] = {0, 0, 0, 0};
    expect("check", circuit_check(NULL, 0, NULL, 0), 3, 0);
    expect("check into nothing", circuit_check(number, 3, NULL, 0), 12, -1);
    expect("read", circuit_read(NULL, 0, NULL, 0), 3, 0);
    expect("write", circuit_write(NULL, 0, NULL, 0), 3, 0);
    expect("write into nothing", circuit_write(number, 3, NULL, 0), 12, -1);
    expect("join", circuit_join(7, NULL, 0, NULL, 0, NULL, 0), 3, 0);
    expect("join with nothing", circuit_join(7, number, 3, NULL, 0, NULL, 0), 3, 0);
    expect("join into nothing", circuit_join(8, number, 3, number, 3, NULL, 0), 12, -1);
    expect("translate", circuit_translate(NULL, 0, NULL, 0), 3, 0);
    expect("translate into nothing", circuit_translate(number, 3, NULL, 0), 12, -1);
    expect("load", circuit_load(0, NULL, 0), 0, 0);
    expect("load into nothing", circuit_load(1, NULL, 0), 12, -1);
    expect("walk", circuit_walk(number, 3, 0, NULL, 0, controls, 16, NULL, 0, NULL, 0), 0, 0);
    expect("walk of nothing", circuit_walk(NULL, 0, 0, NULL, 0, NULL, 0, NULL, 0, NULL, 0), 3, 0);
    expect("probed walk", circuit_walk_probed(number, 3, NULL, 0, 0, NULL, 0, controls, 16, NULL, 0, NULL, 0, NULL, 0, NULL, 0), 0, 0);
    expect("probed walk of nothing", circuit_walk_probed(NULL, 0, NULL, 0, 0, NULL, 0, NULL, 0, NULL, 0, NULL, 0, NULL, 0, NULL, 0), 3, 0);
    expect("run", circuit_run(nothing, 4, 0, NULL, 0, controls, 16, NULL, 0, NULL, 0), 0, 0);
    expect("run of nothing", circuit_run(NULL, 0, 0, NULL, 0, NULL, 0, NULL, 0, NULL, 0), 13, -1);
}

/* Were a length cut to 32 bits, the table would have 9 numbers and the cells would be none. Only the first three cells are touched. */
static void long_lengths(void) {
    static const int32_t integrator[] = {3, 1, 0, 5, 0, 0, 11, 0, 1};
    uint32_t counts[CIRCUIT_COUNTS] = {9, 9, 9, 9};
    int32_t cells[] = {9, 9, 9, 9};
    expect("a long table", circuit_check(integrator, ((size_t)1 << 33) + 9, counts, CIRCUIT_COUNTS), 3, 0);
    expect("a long table to be joined", circuit_join(7, integrator, 9, integrator, ((size_t)1 << 32) + 9, cells, 4), 3, 0);
    expect("long cells", circuit_load(3, cells, (size_t)1 << 32), 0, 3);
    same("cell 2", cells[2], 0);
    same("cell 3", cells[3], 9);
}

static void counts_and_refusals(void) {
    static const int32_t integrator[] = {3, 1, 0, 5, 0, 0, 11, 0, 1};
    static const int32_t loose[] = {5, 0, 0, 5, 0, 0};
    static const int32_t several[] = {5, 0, 0, 1, 4, 0, 12, 0, 0, 2, 3, 0, 12, 2, 0};
    static const int32_t empty[] = {1, 7, 0, 6, 0, 0, 7, 0, 1, 5, 0, 0, 11, 3, 2};
    uint32_t counts[] = {9, 9, 9, 9, 9};
    expect("a short report", circuit_check(integrator, 9, counts, 3), 12, -1);
    expect("a loose node", circuit_check(loose, 6, counts, 5), 9, 0);
    expect("loose nodes 1 and 3", circuit_check(several, 15, counts, 5), 9, 1);
    expect("empty feedback", circuit_check(empty, 15, counts, 5), CIRCUIT_EMPTY_FEEDBACK, 4);
    same("counts after refusals", (int32_t)counts[0], 9);
    expect("the check", circuit_check(integrator, 9, counts, 5), 0, 4);
    same("inputs", (int32_t)counts[0], 1);
    same("outputs", (int32_t)counts[1], 1);
    same("instructions", (int32_t)counts[2], 3);
    same("cells", (int32_t)counts[3], 1);
    same("past the report", (int32_t)counts[4], 9);
}

/* A code of three inputs and one instruction, whose register, 3, is the output: one tick on 0, 7 and 8. */
static uint64_t run_one(const int32_t *instruction, size_t numbers, int32_t *output) {
    static const int32_t controls[CIRCUIT_CONTROLS], inputs[] = {0, 7, 8};
    int32_t code[CIRCUIT_HEADER_NUMBERS + CIRCUIT_INSTRUCTION_NUMBERS + 1] = {3, 1, 1, 0};
    size_t length = CIRCUIT_HEADER_NUMBERS;
    for (size_t i = 0; i < numbers; i++)
        code[length++] = instruction[i];
    code[length++] = 3;
    return circuit_run(code, length, 1, inputs, 3, controls, CIRCUIT_CONTROLS, NULL, 0, output, 1);
}

static void codes_of_a_selector(void) {
    static const int32_t good[] = {3, 10, 0, 1, 0, 2};
    static const int32_t wrong[][CIRCUIT_INSTRUCTION_NUMBERS] = {
        {3, 1, 0, 1, 0, 2},  /* a third register for an addition */
        {3, 9, 0, 0, 0, 1},  /* and for a negation */
        {3, 10, 0, 1, 2, 0}, /* the fifth number */
        {3, 10, 0, 1, 0, 3}, /* its own register */
        {3, 11, 0, 1, 0, 2}, /* no op */
    };
    static const int32_t old[] = {3, 1, 0, 1, 0};
    int32_t output = 9;
    for (size_t i = 0; i < sizeof wrong / sizeof *wrong; i++)
        expect("a wrong code", run_one(wrong[i], CIRCUIT_INSTRUCTION_NUMBERS, &output), 13, -1);
    expect("a code of five numbers an instruction", run_one(old, sizeof old / sizeof *old, &output), 13, -1);
    same("output after refusals", output, 9);
    expect("a selector's code", run_one(good, CIRCUIT_INSTRUCTION_NUMBERS, &output), 0, 1);
    same("its output", output, 7);
}

static void selector(void) {
    static const int32_t table[] = {3, 10, 0}, op_11[] = {3, 11, 0};
    static const int32_t expected[] = {3, 1, 1, 0, 3, 10, 0, 1, 0, 2, 3, 9};
    static const int32_t inputs[] = {0, INT32_MAX, INT32_MIN, 1, INT32_MAX, INT32_MIN, -1, 7, 8, INT32_MIN, 7, INT32_MAX};
    static const int32_t samples[] = {INT32_MAX, INT32_MIN, 8, INT32_MAX};
    static const int32_t controls[CIRCUIT_CONTROLS];
    uint32_t counts[CIRCUIT_COUNTS] = {9, 9, 9, 9};
    int32_t code[12], walked[4] = {9}, ran[4] = {9};
    for (int i = 0; i < 12; i++)
        code[i] = 9;
    expect("op 11", circuit_check(op_11, 3, counts, CIRCUIT_COUNTS), 5, 0);
    expect("a selector", circuit_check(table, 3, counts, CIRCUIT_COUNTS), 0, 4);
    for (int i = 0; i < CIRCUIT_COUNTS; i++)
        same("its counts", (int32_t)counts[i], expected[i]);
    expect("its translation", circuit_translate(table, 3, code, 12), 0, 11);
    for (int i = 0; i < 12; i++)
        same("its code", code[i], expected[i]);
    expect("its walk", circuit_walk(table, 3, 4, inputs, 12, controls, 16, NULL, 0, walked, 4), 0, 4);
    expect("its run", circuit_run(code, 11, 4, inputs, 12, controls, 16, NULL, 0, ran, 4), 0, 4);
    for (int i = 0; i < 4; i++) {
        same("walked", walked[i], samples[i]);
        same("ran", ran[i], samples[i]);
    }
}

/* Two ticks of an integrator on demand, the second with demand: nodes addition, cable, recursion, ondemand. */
struct probed {
    int32_t cells[3], outputs[3], latest[5], recording[9];
    size_t cells_length, outputs_length, latest_length, recording_length;
    uint32_t ticks;
};

static const struct probed before = {{0, 0, 9}, {9, 9, 9}, {7, 0, 8, 0, 9}, {9, 9, 9, 9, 9, 9, 9, 9, 9}, 3, 3, 5, 9, 2};

static uint64_t walk_probed(struct probed *p, const int32_t *probes, size_t numbers) {
    static const int32_t table[] = {3, 1, 0, 5, 0, 0, 11, 0, 1, 12, 2, 0};
    static const int32_t controls[CIRCUIT_CONTROLS], inputs[] = {0, 5, 1, 6};
    return circuit_walk_probed(table, 12, probes, numbers, p->ticks, inputs, 4, controls, CIRCUIT_CONTROLS, p->cells,
                               p->cells_length, p->outputs, p->outputs_length, p->latest, p->latest_length, p->recording,
                               p->recording_length);
}

static void same_numbers(const char *what, const int32_t *got, const int32_t *expected, size_t count) {
    for (size_t i = 0; i < count; i++)
        same(what, got[i], expected[i]);
}

/* The addition twice, the ondemand, the cable: what stands in the list until the demand, and past the needed parts. */
static void probes(void) {
    static const int32_t named[] = {0, 0, 3, 0, 0, 0, 1, 0};
    static const struct probed after = {{6, 6, 9}, {0, 6, 9}, {6, 6, 6, 0, 9}, {7, 0, 8, 0, 6, 6, 6, 0, 9}, 3, 3, 5, 9, 2};
    struct probed walked = before;
    expect("a probed walk", walk_probed(&walked, named, 8), 0, 2);
    same_numbers("its cells", walked.cells, after.cells, 3);
    same_numbers("its samples", walked.outputs, after.outputs, 3);
    same_numbers("its list", walked.latest, after.latest, 5);
    same_numbers("its recording", walked.recording, after.recording, 9);
}

static void untouched(const struct probed *walked) {
    same_numbers("cells after a refusal", walked->cells, before.cells, 3);
    same_numbers("outputs after a refusal", walked->outputs, before.outputs, 3);
    same_numbers("list after a refusal", walked->latest, before.latest, 5);
    same_numbers("recording after a refusal", walked->recording, before.recording, 9);
}

/* Buffers that are too short do not come before the probes. */
static void wrong_probes(void) {
    static const int32_t wrong[][2] = {{4, 0}, {0, 1}, {-1, 0}, {0, -1}, {INT32_MIN, 0}, {0, INT32_MIN}};
    static const int32_t many[CIRCUIT_PROBE_NUMBERS + 2];
    struct probed walked = before;
    walked.cells_length = walked.outputs_length = walked.latest_length = walked.recording_length = 0;
    for (size_t i = 0; i < sizeof wrong / sizeof *wrong; i++)
        expect("a probe of nothing", walk_probed(&walked, wrong[i], 2), 15, -1);
    expect("an odd count", walk_probed(&walked, many, 3), 15, -1);
    expect("17 probes", walk_probed(&walked, many, CIRCUIT_PROBE_NUMBERS + 2), 15, -1);
    expect("a long list of probes", walk_probed(&walked, many, ((size_t)1 << 32) + 2), 15, -1);
    expect("16 probes, short buffers", walk_probed(&walked, many, CIRCUIT_PROBE_NUMBERS), 12, -1);
    walked.ticks = CIRCUIT_TICKS + 1;
    expect("a wrong block first", walk_probed(&walked, many, 3), 14, -1);
    untouched(&walked);
}

/* Each buffer one too short. */
static void short_for_probes(void) {
    static const int32_t named[] = {0, 0, 3, 0, 0, 0, 1, 0};
    struct probed walked[4] = {before, before, before, before};
    walked[0].cells_length = 1;
    walked[1].outputs_length = 1;
    walked[2].latest_length = 3;
    walked[3].recording_length = 7;
    for (int i = 0; i < 4; i++) {
        expect("a short buffer", walk_probed(&walked[i], named, 8), 12, -1);
        untouched(&walked[i]);
    }
}

/* What an answer reports; a refused call reports nothing. */
static void report(const char *what, uint64_t answer, uint32_t number, int32_t place_or_count, int32_t clipped) {
    expect(what, answer, number, place_or_count);
    same(what, (int32_t)circuit_clipped(answer), clipped);
}

/* A delay with D = 2 on demand: the clock 1 1 0 1 1, the amount 3 2 3 -1 3, so that it is clipped at three demands. */
static void clipped_delays(void) {
    static const int32_t table[] = {4, 2, 0, 12, 0, 0}, named[] = {1, 0}, controls[CIRCUIT_CONTROLS];
    static const int32_t inputs[] = {1, 10, 3, 1, 20, 2, 0, 30, 3, 1, 40, -1, 1, 50, 3};
    int32_t code[CIRCUIT_HEADER_NUMBERS + 4 * CIRCUIT_INSTRUCTION_NUMBERS + 1];
    int32_t walked[4] = {0}, probed[4] = {0}, ran[4] = {0}, outputs[5], latest[1] = {0}, recording[5];
    size_t numbers = sizeof code / sizeof *code;
    report("a translation", circuit_translate(table, 6, code, numbers), 0, (int32_t)numbers, 0);
    report("a walk", circuit_walk(table, 6, 5, inputs, 15, controls, 16, walked, 4, outputs, 5), 0, 5, 3);
    report("a probed walk",
           circuit_walk_probed(table, 6, named, 2, 5, inputs, 15, controls, 16, probed, 4, outputs, 5, latest, 1, recording, 5),
           0, 5, 3);
    report("a run of two ticks", circuit_run(code, numbers, 2, inputs, 6, controls, 16, ran, 4, outputs, 5), 0, 2, 1);
    report("a run of no ticks", circuit_run(code, numbers, 0, inputs, 0, controls, 16, ran, 4, outputs, 5), 0, 0, 0);
    report("a run of three", circuit_run(code, numbers, 3, inputs + 6, 9, controls, 16, ran, 4, outputs, 5), 0, 3, 2);
    for (int i = 0; i < 4; i++) {
        same("cells with probes", probed[i], walked[i]);
        same("cells of the runs", ran[i], walked[i]);
    }
    report("a refused table", circuit_walk(table, 5, 5, inputs, 15, controls, 16, walked, 4, outputs, 5), 3, 0, 0);
    report("a refused block", circuit_walk(table, 6, 4, inputs, 15, controls, 16, walked, 4, outputs, 5), 14, -1, 0);
    report("a short buffer", circuit_run(code, numbers, 5, inputs, 15, controls, 16, ran, 3, outputs, 5), 12, -1, 0);
    report("a refused code", circuit_run(code, numbers - 1, 5, inputs, 15, controls, 16, ran, 4, outputs, 5), 13, -1, 0);
}

/* A table, and its count of numbers. */
struct drawing {
    size_t numbers;
    int32_t table[CIRCUIT_TABLE_NUMBERS];
};

static const struct drawing number = {3, {1, 7, 0}}, cable = {3, {5, 0, 0}}, add = {3, {3, 1, 0}};
static const struct drawing two_cables = {9, {5, 0, 0, 5, 0, 0, 8, 0, 1}}, integrator = {9, {3, 1, 0, 5, 0, 0, 11, 0, 1}};

/* Two tables joined into so many numbers of a buffer that were 9; if they are refused it stays as it was, else past the
 * count answered. */
static int32_t joined[CIRCUIT_TABLE_NUMBERS + 1];

static uint64_t join(int32_t kind, const struct drawing *first, const struct drawing *second, size_t numbers) {
    for (size_t i = 0; i <= CIRCUIT_TABLE_NUMBERS; i++)
        joined[i] = 9;
    uint64_t answer = circuit_join(kind, first->table, first->numbers, second->table, second->numbers, joined, numbers);
    for (size_t i = circuit_refusal(answer) == 0 ? circuit_count(answer) : 0; i <= CIRCUIT_TABLE_NUMBERS; i++)
        same("past what is joined", joined[i], 9);
    return answer;
}

/* Every kind; a value and a body in the second; a table with itself. Into a buffer as long as needed, and a longer one. */
static void joins(void) {
    static const struct drawing negation = {3, {3, 9, 0}}, on_demand = {6, {1, 1, 0, 12, 0, 0}};
    static const struct {
        int32_t kind;
        const struct drawing *first, *second;
        struct drawing joined;
    } all[] = {
        {7, &number, &negation, {9, {1, 7, 0, 3, 9, 0, 7, 0, 1}}},
        {8, &cable, &integrator, {15, {5, 0, 0, 3, 1, 0, 5, 0, 0, 11, 1, 2, 8, 0, 3}}},
        {9, &integrator, &add, {15, {3, 1, 0, 5, 0, 0, 11, 0, 1, 3, 1, 0, 9, 2, 3}}},
        {10, &two_cables, &cable, {15, {5, 0, 0, 5, 0, 0, 8, 0, 1, 5, 0, 0, 10, 2, 3}}},
        {11, &add, &cable, {9, {3, 1, 0, 5, 0, 0, 11, 0, 1}}},
        {8, &two_cables, &on_demand, {18, {5, 0, 0, 5, 0, 0, 8, 0, 1, 1, 1, 0, 12, 3, 0, 8, 2, 4}}},
        {7, &integrator, &integrator, {21, {3, 1, 0, 5, 0, 0, 11, 0, 1, 3, 1, 0, 5, 0, 0, 11, 3, 4, 7, 2, 5}}},
    };
    for (size_t i = 0; i < sizeof all / sizeof *all; i++)
        for (size_t more = 0; more < 2; more++) {
            size_t numbers = all[i].joined.numbers;
            expect("a join", join(all[i].kind, all[i].first, all[i].second, numbers + more), 0, (int32_t)numbers);
            same_numbers("what is joined", joined, all[i].joined.table, numbers);
        }
}

/* A drawing of so many nodes: cables in a row, around them an ondemand if the count is even. */
static struct drawing row(int32_t nodes) {
    struct drawing row = cable;
    for (int32_t last = 0; last + 1 < nodes; last = (int32_t)row.numbers / 3 - 1) {
        int32_t *next = &row.table[row.numbers];
        if (last + 2 < nodes)
            next[0] = 5, next[3] = 7, next[4] = last, next[5] = last + 1, row.numbers += 6;
        else
            next[0] = 12, next[1] = last, row.numbers += 3;
    }
    return row;
}

/* 17 follows the refusals of both tables, and comes before those of the joined one and before 12. */
static void too_many_joined(void) {
    static const struct drawing wrong = {6, {5, 0, 0, 13, 0, 0}};
    struct drawing all = row(512), some = row(256), others = row(255), more = row(257);
    expect("512 nodes joined", join(7, &some, &others, CIRCUIT_TABLE_NUMBERS), 0, CIRCUIT_TABLE_NUMBERS);
    expect("513 nodes joined", join(7, &more, &others, CIRCUIT_TABLE_NUMBERS), CIRCUIT_TOO_MANY_JOINED, -1);
    expect("512 nodes and one", join(7, &all, &cable, CIRCUIT_TABLE_NUMBERS), 17, -1);
    expect("one node and 512", join(8, &cable, &all, CIRCUIT_TABLE_NUMBERS), 17, -1);
    expect("513 nodes, no kind, no buffer", join(13, &more, &others, 0), 17, -1);
    expect("513 nodes, no rule", join(7, &two_cables, &all, CIRCUIT_TABLE_NUMBERS), 17, -1);
    expect("a wrong second table first", join(7, &all, &wrong, CIRCUIT_TABLE_NUMBERS), 4, 1);
    expect("a wrong first table first", join(7, &wrong, &all, CIRCUIT_TABLE_NUMBERS), 4, 1);
}

/* The first table's, the second's in its own numbering, and the joined table's at the joining node; 12 is the last. */
static void refused_joins(void) {
    static const struct drawing loose = {6, {5, 0, 0, 5, 0, 0}}, nothing = {0, {0}}, empty = {9, {1, 7, 0, 6, 0, 0, 7, 0, 1}};
    static const int32_t unknown[] = {0, 13, -1, 263, INT32_MIN, INT32_MAX}, with_fields[] = {1, 2, 3, 4, 5, 6, 12};
    struct drawing wide = cable;
    for (int32_t last = 0; last < 2 * (CIRCUIT_WIDTH - 1); last += 2, wide.numbers += 6) {
        int32_t *next = &wide.table[wide.numbers];
        next[0] = 5, next[3] = 8, next[4] = last, next[5] = last + 1;
    }
    expect("a refused first", join(13, &loose, &nothing, 0), 9, 0);
    expect("a refused second", join(13, &integrator, &loose, 0), 9, 0);
    for (size_t i = 0; i < sizeof unknown / sizeof *unknown; i++)
        expect("no kind", join(unknown[i], &integrator, &cable, 0), 4, 4);
    for (size_t i = 0; i < sizeof with_fields / sizeof *with_fields; i++)
        expect("no composition", join(with_fields[i], &cable, &integrator, 0), 5, 4);
    expect("no rule", join(7, &two_cables, &cable, 0), 7, 4);
    expect("empty feedback", join(11, &cable, &empty, 0), 16, 4);
    expect("32 and one", join(8, &wide, &cable, 0), 8, 64);
    expect("a short buffer", join(7, &integrator, &cable, 14), 12, -1);
}

/* The four parts of an answer, each at its bits. */
static void parts_of_an_answer(void) {
    uint64_t accepted = ((uint64_t)4096 << 48) | 131072, refused = ((uint64_t)9 << 32) | 7;
    same("clipped ticks", (int32_t)circuit_clipped(accepted), 4096);
    same("refusal of an accepted call", (int32_t)circuit_refusal(accepted), 0);
    same("count", (int32_t)circuit_count(accepted), 131072);
    same("clipped ticks of a refusal", (int32_t)circuit_clipped(refused), 0);
    same("refusal", (int32_t)circuit_refusal(refused), 9);
    same("place", circuit_place(refused), 7);
}

int main(void) {
    empty_buffers();
    long_lengths();
    counts_and_refusals();
    codes_of_a_selector();
    selector();
    probes();
    wrong_probes();
    short_for_probes();
    clipped_delays();
    joins();
    too_many_joined();
    refused_joins();
    parts_of_an_answer();
    return failures != 0;
}
