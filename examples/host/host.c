/*
 * A host in C. It reads two stations' texts and the public one, repeats the giant step's circuit from the fresh state until the closing
 * mark or the budget, and prints the answer as the pair program does. It then takes the same steps without a circuit, ten at a time, solves at
 * once, and compares.
 * Use: host-c LEFT RIGHT PUBLIC BUDGET. `make examples` builds it.
 */
#include "forkhemit.h"
#include "host.h"
#include "texts.h"
#include <stdio.h>
#include <stdlib.h>
#include <string.h>

/* How every call names the tables. */
#define TABLES FORKHEMIT_TABLES(d, left, right, public_table)

/* What a proved library never brings about. */
static int wrong(const char *what)
{
    fprintf(stderr, "%s\n", what);
    return 1;
}

int main(int count, char **arguments)
{
    if (count != 5) {
        fputs("use: host-c LEFT RIGHT PUBLIC BUDGET\n", stderr);
        return 1;
    }
    uint64_t budget = number_of("BUDGET", arguments[4]);

    /* The texts become tables: two words a row, positive then negative. */
    uint8_t *left_text = room(TEXT_LIMIT + 1, 1), *right_text = room(TEXT_LIMIT + 1, 1), *public_text = room(TEXT_LIMIT + 1, 1);
    size_t left_length = read_text(arguments[1], left_text), right_length = read_text(arguments[2], right_text);
    size_t public_length = read_text(arguments[3], public_text);
    uint32_t left[ROW_WORDS] = {0}, right[ROW_WORDS] = {0}, public_table[ROW_WORDS] = {0};
    uint64_t d[4] = {0}; /* n, left rows, right rows, public rows */
    uint8_t refusal = forkhemit_read_tables(left_text, left_length, right_text, right_length, public_text, public_length,
                                            left, ROW_WORDS, right, ROW_WORDS, public_table, ROW_WORDS, d);
    if (refusal != 0)
        return refused(refusal); /* what was lent is freed as the process ends */

    /* Room for the circuit, for the packed inputs and for all wires: what n and the row counts alone tell. */
    uint64_t sizes[4] = {0}; /* gate ceiling, words for its gates, input wires, state wires */
    refusal = forkhemit_sizes(d[0], d[1], d[2], d[3], sizes);
    if (refusal != 0)
        return refused(refusal);
    size_t gate_words = sizes[1], inputs = sizes[2], wire_count = inputs + sizes[0];
    uint32_t *gates = room(gate_words, sizeof *gates);
    uint8_t *bytes = room(inputs, 1), *wires = room(wire_count, 1);

    /* Repeats, until the mark says that the run is closed or the budget is spent. */
    uint32_t run[FORKHEMIT_RUN_WORDS] = {0}, plain[FORKHEMIT_RUN_WORDS] = {0};
    refusal = forkhemit_fresh(d[0], run);
    if (refusal != 0)
        return refused(refusal);
    memcpy(plain, run, sizeof run);
    uint64_t repeated[2] = {0}; /* repeats, last mark */
    refusal = forkhemit_repeat(TABLES, budget, gates, gate_words, bytes, inputs, wires, wire_count, run, repeated);
    if (refusal != 0)
        return refused(refusal);

    /* Giant steps without a circuit, ten at a time, end in the same state. Between two calls a host may show how far it is, or stop. */
    uint64_t steps = 0, continued[2] = {0}; /* steps taken, 1 if the run is closed */
    while (steps < budget && continued[1] == 0) {
        uint64_t times = budget - steps < 10 ? budget - steps : 10;
        refusal = forkhemit_continue(TABLES, times, plain, continued);
        if (refusal != 0)
            return refused(refusal);
        steps += continued[0];
    }
    if (steps != repeated[0] || memcmp(run, plain, sizeof run) != 0)
        return wrong("the circuit's state is not the plain run's");

    /* The answer: the number of repeats, the standing (word 1) as verdict, and the model of a satisfied run. */
    uint64_t verdict = run[1], model[1] = {0};
    if (verdict == FORKHEMIT_SATISFIABLE) {
        refusal = forkhemit_model(run, model);
        if (refusal != 0)
            return refused(refusal);
    }

    /* The budgeted run gives the same. */
    uint64_t answer[3] = {0};
    refusal = forkhemit_solve(TABLES, budget, answer);
    if (refusal != 0)
        return refused(refusal);
    if (answer[0] != repeated[0] || answer[1] != verdict || answer[2] != model[0])
        return wrong("the budgeted run answers otherwise");

    uint8_t text[FORKHEMIT_ANSWER_BYTES];
    uint64_t length[1] = {0};
    refusal = forkhemit_answer(d[0], repeated[0], verdict, model[0], text, length);
    if (refusal != 0)
        return refused(refusal);
    fwrite(text, 1, length[0], stdout);

    free(wires);
    free(bytes);
    free(gates);
    free(public_text);
    free(right_text);
    free(left_text);
    return finished();
}
