/*
 * A host in C for a late condition. It solves two stations' texts and the public one step by step, each step a repeat of the circuit; after
 * so many steps a station puts a clause in the place of one of its padding rows, and the run goes on. It prints how many rows are not met
 * after each step, what was replaced, and the answer. Beside it, over tables of its own, goes a run with an index, and it compares.
 * Use: late-c LEFT RIGHT PUBLIC STEPS STATION ROW LITERAL.. with STATION left or right, ROW counted from 1 over all tables.
 * `make examples` builds it.
 */
#include "forkhemit.h"
#include "host.h"
#include "texts.h"
#include <inttypes.h>
#include <stdio.h>
#include <stdlib.h>
#include <string.h>

/* How every call names the tables, first those of the circuit's run, then those of the run with the index. */
#define TABLES FORKHEMIT_TABLES(d, left, right, public_table)
#define OTHER_TABLES FORKHEMIT_TABLES(d, other_left, other_right, public_table)

/* Ends the host where a call is refused that should be taken. */
static void taken(uint8_t refusal)
{
    if (refusal != 0)
        exit(refused(refusal));
}

/* Ends the host where something is what a proved library never brings about. */
static void same(const void *one, const void *other, size_t size, const char *what)
{
    if (memcmp(one, other, size) != 0) {
        fprintf(stderr, "%s\n", what);
        exit(1);
    }
}

int main(int count, char **arguments)
{
    if (count < 7) {
        fputs("use: late-c LEFT RIGHT PUBLIC STEPS STATION ROW LITERAL..\n", stderr);
        return 1;
    }
    uint64_t late = number_of("STEPS", arguments[4]), row = number_of("ROW", arguments[6]);
    uint64_t station = strcmp(arguments[5], "right") == 0;
    if (station == 0 && strcmp(arguments[5], "left") != 0) {
        fprintf(stderr, "STATION is left or right, and not '%s'\n", arguments[5]);
        return 1;
    }
    uint32_t clause[2] = {0}; /* positive, negative */
    for (int k = 7; k < count; k++) {
        int negative = arguments[k][0] == '-';
        uint64_t variable = number_of("LITERAL", arguments[k] + negative);
        if (variable < 1 || variable > 32) {
            fprintf(stderr, "'%s' is no literal\n", arguments[k]);
            return 1;
        }
        clause[negative] |= (uint32_t)1 << (variable - 1);
    }

    /* The texts become tables. */
    uint8_t *texts[3];
    size_t lengths[3];
    for (int k = 0; k < 3; k++) {
        texts[k] = room(TEXT_LIMIT + 1, 1);
        lengths[k] = read_text(arguments[k + 1], texts[k]);
    }
    uint32_t left[ROW_WORDS] = {0}, right[ROW_WORDS] = {0}, public_table[ROW_WORDS] = {0};
    uint64_t d[4] = {0}; /* n, left rows, right rows, public rows */
    taken(forkhemit_read_tables(texts[0], lengths[0], texts[1], lengths[1], texts[2], lengths[2], left, ROW_WORDS, right, ROW_WORDS,
                                public_table, ROW_WORDS, d));

    /* Room for the circuit, made once: no late condition changes it. */
    uint64_t sizes[4] = {0}; /* gate ceiling, words for its gates, input wires, state wires */
    taken(forkhemit_sizes(d[0], d[1], d[2], d[3], sizes));
    size_t gate_words = sizes[1], inputs = sizes[2], wire_count = inputs + sizes[0];
    uint32_t *gates = room(gate_words, sizeof *gates);
    uint8_t *bytes = room(inputs, 1), *wires = room(wire_count, 1);

    /* Two fresh runs: one for the circuit, one with an index and the number of rows that are not met, over tables of its own. */
    uint32_t run[FORKHEMIT_RUN_WORDS] = {0}, other_run[FORKHEMIT_RUN_WORDS] = {0};
    uint32_t other_left[ROW_WORDS], other_right[ROW_WORDS];
    memcpy(other_left, left, sizeof left);
    memcpy(other_right, right, sizeof right);
    taken(forkhemit_fresh(d[0], run));
    taken(forkhemit_fresh(d[0], other_run));
    uint64_t index[FORKHEMIT_INDEX_WORDS] = {0}, number[1] = {0}, other_number[1] = {0};
    taken(forkhemit_index(OTHER_TABLES, index));
    taken(forkhemit_unsatisfied(OTHER_TABLES, other_run, other_number));

    uint64_t steps = 0, repeated[2] = {0}; /* repeats, last mark */
    for (;;) {
        /* Between two repeats, never during one: the next repeat packs the tables as they are now. */
        if (steps == late) {
            uint8_t refusal = forkhemit_replace(TABLES, run, station, row, clause[0], clause[1]);
            if (forkhemit_replace_indexed(OTHER_TABLES, other_run, station, row, clause[0], clause[1], index, other_number) != refusal)
                return 1;
            if (refusal != 0) {
                printf("c row %" PRIu64 " stays as it is: refused %u, %s\n", row, refusal, sentence(refusal));
            } else {
                taken(forkhemit_unsatisfied(TABLES, run, number));
                printf("c the %s station has a clause for its padding row %" PRIu64 ": rows not met %" PRIu64 "\n", arguments[5], row,
                       number[0]);
            }
        }
        if (repeated[1] == 1)
            break;
        taken(forkhemit_repeat(TABLES, 1, gates, gate_words, bytes, inputs, wires, wire_count, run, repeated));
        taken(forkhemit_step_indexed(OTHER_TABLES, index, other_run, other_number));
        taken(forkhemit_unsatisfied(TABLES, run, number));
        same(run, other_run, sizeof run, "the circuit's state is not that of the run with the index");
        same(number, other_number, sizeof number, "the number of rows that are not met is not the index's");
        steps++;
        printf("c step %" PRIu64 ": rows not met %" PRIu64 "\n", steps, number[0]);
    }

    /* The answer is about the tables as they are at the close. */
    uint64_t model[1] = {0}, length[1] = {0};
    uint8_t text[FORKHEMIT_ANSWER_BYTES];
    if (run[1] == FORKHEMIT_SATISFIED)
        taken(forkhemit_model(run, model));
    taken(forkhemit_answer(d[0], steps, run[1], model[0], text, length));
    fwrite(text, 1, length[0], stdout);

    free(wires);
    free(bytes);
    free(gates);
    for (int k = 0; k < 3; k++)
        free(texts[k]);
    return finished();
}
