/*
 * A desk listing: a run step by step, as a planner reads it. For a test desk where both stations' texts are at hand; the circuit and the
 * pair program show none of this.
 * Use: desk [-w] LEFT RIGHT PUBLIC BUDGET; with -w the run has the weighted choice. `make examples` builds it, and holds what it prints of
 * examples/harbour to the files `listing` and `listing-weighted`.
 * Status: 0 for a listing, whatever the verdict, and for texts that are turned back; 1 for wrong arguments, or where the output could not be
 * written.
 */
#include "forkhemit.h"
#include "../host/host.h"
#include "../host/texts.h"
#include <inttypes.h>
#include <stdio.h>
#include <stdlib.h>
#include <string.h>

#define STANDING 1
#define DEPTH 4
#define LEVELS 5
#define CHOSEN 5 /* the number of rule 4 in the explanation of a step */
#define CLAUSE_COLUMNS 120 /* what is shown of a clause at most: 32 literals typed with single spaces have 119 bytes */

/* How every call names the tables. */
#define TABLES d[0], d[1], d[2], d[3], left, ROW_WORDS, right, ROW_WORDS, public_table, ROW_WORDS

/* The tables of three texts, and the texts of both stations. */
static uint8_t left_text[TEXT_LIMIT + 1], right_text[TEXT_LIMIT + 1], public_text[TEXT_LIMIT + 1];
static size_t left_length, right_length, public_length;
static uint32_t left[ROW_WORDS], right[ROW_WORDS], public_table[ROW_WORDS];
static uint64_t d[4]; /* n, left rows, right rows, public rows */

/* The rules by their numbers in the explanation of a step. */
static const char *const rules[] = {"closed  ", "all true", "conflict", "conflict", "forced  ", "chosen  "};

/* A row's literals as the table has them. */
static void print_literals(const uint32_t *words)
{
    for (unsigned variable = 1; variable <= d[0]; variable++) {
        if (words[0] >> (variable - 1) & 1)
            printf(" %u", variable);
        if (words[1] >> (variable - 1) & 1)
            printf(" -%u", variable);
    }
    putchar(')');
}

/* A space, a tab or another byte that moves a terminal on. */
static int is_blank(uint8_t byte)
{
    return byte == ' ' || (byte >= '\t' && byte <= '\r');
}

/* The bytes of a clause that a terminal may be sent. A remark inside a clause can hold anything: what is no letter, digit or sign of ASCII is
 * a `?`, blanks and line ends between words are one space, so that no remark looks like a row of the listing, and what is long is cut. */
static void print_bytes(const uint8_t *bytes, uint64_t length)
{
    unsigned columns = 0;
    for (uint64_t i = 0; i < length; i++) {
        if (is_blank(bytes[i]) && i + 1 < length && is_blank(bytes[i + 1]))
            continue;
        if (columns++ == CLAUSE_COLUMNS) {
            printf("...");
            return;
        }
        putchar(is_blank(bytes[i]) ? ' ' : bytes[i] > ' ' && bytes[i] <= '~' ? bytes[i] : '?');
    }
}

/* The clause as it was typed. A public row has no clause in the stations' texts, and a row that was replaced has another now than its text:
 * both are shown as the table has them. */
static void print_clause(uint64_t row)
{
    static uint8_t clause[TEXT_LIMIT];
    uint64_t length[1] = {0};
    if (row > d[1] + d[2]) {
        printf("  (public:");
        print_literals(public_table + 2 * (row - d[1] - d[2] - 1));
        return;
    }
    uint8_t refusal = forkhemit_excerpt(TABLES, left_text, left_length, right_text, right_length, row, clause, sizeof clause, length);
    if (refusal != 0) {
        printf("  (refused %u)", refusal);
        return;
    }
    if (length[0] == 0) {
        printf("  (replaced:");
        print_literals(row <= d[1] ? left + 2 * (row - 1) : right + 2 * (row - d[1] - 1));
        return;
    }
    printf("  ");
    print_bytes(clause, length[0]);
}

/* One line a step: its number, how deep the run is then, the rule, what was set, the row and its clause. */
static void print_step(uint64_t step, const uint32_t *run, const uint64_t *told)
{
    printf("%4" PRIu64 " %5" PRIu32 "  %s", step, run[DEPTH], rules[told[0]]);
    if (told[2] != 0)
        printf("  %2" PRIu64 " %s", told[2], told[3] != 0 ? "true" : "false");
    if (told[1] != 0) {
        printf("%*s  row %-3" PRIu64, told[2] == 0 ? 10 : told[3] != 0 ? 1 : 0, "", told[1]);
        print_clause(told[1]);
    }
    putchar('\n');
}

/* A step with the weighted choice. Its other rules are the plain step's, which explains them; a choice is read off the new level. */
static uint8_t step_weighted(uint32_t *run, uint64_t *told)
{
    uint32_t plain[FORKHEMIT_RUN_WORDS];
    memcpy(plain, run, sizeof plain);
    uint8_t refusal = forkhemit_step_explained(TABLES, plain, told);
    if (refusal == 0)
        refusal = forkhemit_step_weighted(TABLES, run);
    if (refusal == 0 && told[0] == CHOSEN)
        told[2] = run[LEVELS + 3 * (run[DEPTH] - 1) + 2] + 1;
    return refusal;
}

/* How the run ended, and the roster if it is satisfied. */
static void print_end(const uint32_t *run)
{
    static const char *const standings[] = {"open after the budget", "satisfiable", "unsatisfiable"};
    uint64_t model[1] = {0};
    puts(standings[run[STANDING]]);
    if (forkhemit_model(run, model) != 0)
        return;
    putchar('v');
    for (unsigned variable = 1; variable <= d[0]; variable++)
        printf(" %s%u", model[0] >> (variable - 1) & 1 ? "" : "-", variable);
    puts(" 0");
}

/* The run step by step, a line each; a refusal's number, or 0. */
static uint8_t list(int weighted, uint64_t budget)
{
    uint32_t run[FORKHEMIT_RUN_WORDS] = {0};
    uint8_t refusal = forkhemit_fresh(d[0], run);
    if (refusal == 0)
        puts("step depth  rule      set       row and clause as typed");
    for (uint64_t step = 1; refusal == 0 && step <= budget && run[STANDING] == FORKHEMIT_OPEN; step++) {
        uint64_t told[4] = {0}; /* rule, row, variable, value */
        refusal = weighted ? step_weighted(run, told) : forkhemit_step_explained(TABLES, run, told);
        if (refusal == 0)
            print_step(step, run, told);
    }
    if (refusal == 0)
        print_end(run);
    return refusal;
}

int main(int count, char **arguments)
{
    int weighted = count > 1 && strcmp(arguments[1], "-w") == 0;
    arguments += weighted;
    if (count - weighted != 5) {
        fputs("use: desk [-w] LEFT RIGHT PUBLIC BUDGET\n", stderr);
        return 1;
    }
    uint64_t budget = number_of("budget", arguments[4]);
    left_length = read_text(arguments[1], left_text);
    right_length = read_text(arguments[2], right_text);
    public_length = read_text(arguments[3], public_text);
    uint8_t refusal = forkhemit_read_tables(left_text, left_length, right_text, right_length, public_text, public_length,
                                            left, ROW_WORDS, right, ROW_WORDS, public_table, ROW_WORDS, d);
    if (refusal == 0)
        refusal = list(weighted, budget);
    return refusal == 0 ? finished() : refused(refusal);
}
