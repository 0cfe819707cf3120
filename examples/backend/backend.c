/*
 * What a back end is tried with: the circuit's text for any size, each station's own input bits, the states and marks to expect, the answer.
 * `make examples` builds it, `make drill` uses it. Uses, with bits as one line of 0 and 1 in the order of the wires:
 *   backend circuit N LEFT RIGHT PUBLIC         the circuit as Bristol Fashion text; LEFT, RIGHT, PUBLIC are row counts
 *   backend station N FILE                      a station's own bits, from its own file alone
 *   backend columns N FILE                      the same by way of columns
 *   backend public N FILE                       the public rows' bits
 *   backend fresh N                             the bits of the state to start from
 *   backend expected LEFT RIGHT PUBLIC TIMES    for each repeat the state's bits and the mark; LEFT, RIGHT, PUBLIC are files from here on
 *   backend answer N COUNT                      the answer, of the last state's bits on standard input
 *   backend whole LEFT RIGHT PUBLIC BUDGET      the answer of the circuit repeated through the whole budget
 */
#include "../host/host.h"
#include "../host/texts.h"
#include "forkhemit.h"
#include <inttypes.h>

#define TABLES FORKHEMIT_TABLES(d, left, right, public_table)
#define STANDING 1

static uint32_t left[ROW_WORDS], right[ROW_WORDS], public_table[ROW_WORDS], run[FORKHEMIT_RUN_WORDS];
static uint64_t d[4]; /* n, left rows, right rows, public rows */
static uint64_t sizes[4]; /* gate ceiling, words for its gates, input wires, state wires */
static uint8_t *bytes; /* as many as input wires */

/* Ends with status 1 where a call is refused: no answer is asked for here, so that a refusal is a wrong use. */
static void taken(uint8_t refusal)
{
    if (refusal != 0) {
        fprintf(stderr, "refused %u: %s\n", refusal, sentence(refusal));
        exit(1);
    }
}

/* Bytes of wires as 0 and 1, and what ends them. */
static void print_bits(const uint8_t *wires, size_t count, const char *end)
{
    for (size_t k = 0; k < count; k++)
        putchar('0' + wires[k]);
    fputs(end, stdout);
}

/* The circuit's text, as many lines at a time as fit. Nothing but the four numbers goes into it. */
static void print_circuit(void)
{
    static uint8_t lines[FORKHEMIT_TEXT_BYTES];
    uint64_t count[1] = {0}, written[2] = {0}; /* gates; lines and bytes */
    taken(forkhemit_sizes(d[0], d[1], d[2], d[3], sizes));
    uint32_t *gates = room(sizes[1], sizeof *gates);
    taken(forkhemit_generate(d[0], d[1], d[2], d[3], gates, sizes[1], count));
    for (uint64_t line = 0;; line += written[0]) {
        taken(forkhemit_write_lines(d[0], d[1], d[2], d[3], gates, 3 * count[0], line, lines, sizeof lines, written));
        if (written[0] == 0)
            break;
        fwrite(lines, 1, written[1], stdout);
    }
    free(gates);
}

/* The tables of three texts, a fresh run and room for the inputs. */
static void read_tables(const uint8_t *const texts[3], const size_t lengths[3])
{
    taken(forkhemit_read_tables(texts[0], lengths[0], texts[1], lengths[1], texts[2], lengths[2], left, ROW_WORDS, right, ROW_WORDS,
                                public_table, ROW_WORDS, d));
    taken(forkhemit_sizes(d[0], d[1], d[2], d[3], sizes));
    taken(forkhemit_fresh(d[0], run));
    bytes = room(sizes[2], 1);
}

static void read_files(char **paths)
{
    static uint8_t texts[3][TEXT_LIMIT + 1];
    size_t lengths[3];
    for (int k = 0; k < 3; k++)
        lengths[k] = read_text(paths[k], texts[k]);
    read_tables((const uint8_t *const[3]){texts[0], texts[1], texts[2]}, lengths);
}

/* One file in its own place among the three tables, or none; a padding row for each station that is not there. */
static void read_own(const char *n, const char *path, int place)
{
    static uint8_t own[TEXT_LIMIT + 1];
    char padding[64], none[64];
    uint64_t variables = number_of("N", n);
    size_t padded = (size_t)snprintf(padding, sizeof padding, "p cnf %" PRIu64 " 1\n1 -1 0\n", variables);
    const uint8_t *texts[3] = {(uint8_t *)padding, (uint8_t *)padding, (uint8_t *)none};
    size_t lengths[3] = {padded, padded, (size_t)snprintf(none, sizeof none, "p cnf %" PRIu64 " 0\n", variables)};
    if (path != NULL) {
        texts[place] = own;
        lengths[place] = read_text(path, own);
    }
    read_tables(texts, lengths);
    taken(forkhemit_pack(TABLES, run, bytes, sizes[2]));
}

/* The rows' bits once more, from the planes of columns: the word of a variable holds it over 32 rows. */
static void bits_by_columns(void)
{
    uint32_t planes[4 * 64] = {0};
    taken(forkhemit_columns(d[0], d[1], left, ROW_WORDS, planes, 4 * 64));
    memset(bytes, 0, sizes[2]);
    uint8_t *next = bytes;
    for (uint64_t row = 0; row < d[1]; row++)
        for (int sign = 0; sign < 2; sign++)
            for (uint64_t variable = 0; variable < d[0]; variable++)
                *next++ = planes[64 * (row / 32) + 32 * sign + variable] >> row % 32 & 1;
}

/* Plain steps, whose states the circuit's are to be: at most so many, up to the one that closes the run. */
static void print_expected(uint64_t times)
{
    for (uint64_t k = 0; k < times && run[STANDING] == FORKHEMIT_OPEN; k++) {
        taken(forkhemit_step(TABLES, run));
        taken(forkhemit_pack(TABLES, run, bytes, sizes[2]));
        print_bits(bytes + sizes[2] - sizes[3], sizes[3], run[STANDING] == FORKHEMIT_OPEN ? " 0\n" : " 1\n");
    }
}

static void print_answer(uint64_t n, uint64_t count, uint64_t verdict, uint64_t model)
{
    uint8_t text[FORKHEMIT_ANSWER_BYTES];
    uint64_t length[1] = {0};
    taken(forkhemit_answer(n, count, verdict, model, text, length));
    fwrite(text, 1, length[0], stdout);
}

/* The answer that the last state's bits hold. */
static void print_answer_of_state(uint64_t n, uint64_t count)
{
    uint8_t state[4096];
    uint64_t model[1] = {0};
    size_t length = fread(state, 1, sizeof state, stdin);
    for (size_t k = 0; k < length; k++)
        state[k] -= '0';
    taken(forkhemit_read_back(n, state, length, run));
    if (run[STANDING] == FORKHEMIT_SATISFIED)
        taken(forkhemit_model(run, model));
    print_answer(n, count, run[STANDING], model[0]);
}

static void print_whole(uint64_t budget)
{
    uint64_t answer[3] = {0}; /* the budget, verdict, model */
    uint32_t *gates = room(sizes[1], sizeof *gates);
    uint8_t *wires = room(sizes[2] + sizes[0], 1);
    taken(forkhemit_solve_whole(TABLES, budget, gates, sizes[1], bytes, sizes[2], wires, sizes[2] + sizes[0], answer));
    print_answer(d[0], answer[0], answer[1], answer[2]);
    free(wires);
    free(gates);
}

int main(int count, char **arguments)
{
    const char *use = count < 2 ? "" : arguments[1];
    if (count == 6 && strcmp(use, "circuit") == 0) {
        for (int k = 0; k < 4; k++)
            d[k] = number_of("SIZE", arguments[k + 2]);
        print_circuit();
    } else if (count == 4 && (strcmp(use, "station") == 0 || strcmp(use, "columns") == 0)) {
        read_own(arguments[2], arguments[3], 0);
        if (strcmp(use, "columns") == 0)
            bits_by_columns();
        print_bits(bytes, 2 * d[0] * d[1], "\n");
    } else if (count == 4 && strcmp(use, "public") == 0) {
        read_own(arguments[2], arguments[3], 2);
        print_bits(bytes + 2 * d[0] * (d[1] + d[2]), 2 * d[0] * d[3], "\n");
    } else if (count == 3 && strcmp(use, "fresh") == 0) {
        read_own(arguments[2], NULL, 0);
        print_bits(bytes + sizes[2] - sizes[3], sizes[3], "\n");
    } else if (count == 6 && strcmp(use, "expected") == 0) {
        uint64_t times = number_of("TIMES", arguments[5]);
        read_files(arguments + 2);
        print_expected(times);
    } else if (count == 4 && strcmp(use, "answer") == 0) {
        print_answer_of_state(number_of("N", arguments[2]), number_of("COUNT", arguments[3]));
    } else if (count == 6 && strcmp(use, "whole") == 0) {
        uint64_t budget = number_of("BUDGET", arguments[5]);
        read_files(arguments + 2);
        print_whole(budget);
    } else {
        fputs("use: backend circuit|station|columns|public|fresh|expected|answer|whole ..\n", stderr);
        return 1;
    }
    free(bytes);
    return finished();
}
