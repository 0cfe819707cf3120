/*
 * Each function of the library once, over buffers that nobody has set: what a call only writes need not be. For a memory checker, which says
 * where an unset byte decides something. The answer is compared with that of repeats in two parts, whose counts add up.
 */
#include <forkhemit.h>
#include <stdio.h>
#include <stdlib.h>
#include <string.h>

/* A buffer of so many elements, unset. */
#define UNSET(type, name, count) type *name = malloc((count) * sizeof *name)
/* A call that is taken. */
#define TAKEN(call) taken(call, #call)
/* A text lent. */
#define TEXT(text) (const uint8_t *)(text), strlen(text)
/* The tables and what is known of them, as they are lent. */
#define SIZES d[0], d[1], d[2], d[3]
#define TABLES SIZES, left, FORKHEMIT_TABLE_WORDS, right, FORKHEMIT_TABLE_WORDS, public_table, FORKHEMIT_TABLE_WORDS

static void same(int holds, const char *what)
{
    if (!holds) {
        fprintf(stderr, "%s\n", what);
        exit(1);
    }
}

static void taken(uint8_t refusal, const char *call)
{
    same(refusal == FORKHEMIT_TAKEN, call);
}

int main(void)
{
    UNSET(uint32_t, left, FORKHEMIT_TABLE_WORDS);
    UNSET(uint32_t, right, FORKHEMIT_TABLE_WORDS);
    UNSET(uint32_t, public_table, FORKHEMIT_TABLE_WORDS);
    UNSET(uint64_t, d, 4);
    const char *left_text = "p cnf 4 3\n1 2 0 -1 3 0 2 -2 0\n", *right_text = "p cnf 4 2\n-2 -3 0 4 1 0\n";
    TAKEN(forkhemit_read_tables(TEXT(left_text), TEXT(right_text), TEXT("p cnf 4 1\n-4 -2 0\n"), left, FORKHEMIT_TABLE_WORDS,
                                right, FORKHEMIT_TABLE_WORDS, public_table, FORKHEMIT_TABLE_WORDS, d));
    TAKEN(forkhemit_accept(TABLES));

    /* rows judged and counted */
    UNSET(uint64_t, judged, 4);
    TAKEN(forkhemit_judge(3, 4, 1, 2, judged));
    same(judged[0] == 1 && judged[1] == 1 && judged[2] == 4 && judged[3] == 1, "a row judged");
    UNSET(uint32_t, run, FORKHEMIT_RUN_WORDS);
    TAKEN(forkhemit_fresh(d[0], run));
    UNSET(uint8_t, counts, 6);
    TAKEN(forkhemit_count_free(TABLES, run, counts, 6));
    same(memcmp(counts, "\2\2\2\2\2\2", 6) == 0, "free literals counted");

    /* the left table by columns and back: three rows, one square */
    UNSET(uint32_t, planes, FORKHEMIT_TABLE_WORDS);
    UNSET(uint32_t, again, 6);
    TAKEN(forkhemit_columns(d[0], d[1], left, FORKHEMIT_TABLE_WORDS, planes, FORKHEMIT_TABLE_WORDS));
    same(planes[0] == 1 && planes[1] == 5 && planes[2] == 2 && planes[32] == 2 && planes[33] == 4 && planes[63] == 0, "a table by columns");
    TAKEN(forkhemit_rows(d[0], d[1], planes, FORKHEMIT_TABLE_WORDS, again, 6));
    same(memcmp(left, again, 6 * sizeof *left) == 0, "its rows again");

    /* the answer, by the scan and with an index; a step of each */
    UNSET(uint64_t, answer, 3);
    TAKEN(forkhemit_solve(TABLES, 1000, answer));
    UNSET(uint64_t, indexed, 3);
    TAKEN(forkhemit_solve_indexed(TABLES, 1000, indexed));
    same(memcmp(answer, indexed, 3 * sizeof *answer) == 0, "the same answer with an index");
    UNSET(uint64_t, index, FORKHEMIT_INDEX_WORDS);
    TAKEN(forkhemit_index(TABLES, index));
    UNSET(uint64_t, number, 1);
    TAKEN(forkhemit_unsatisfied(TABLES, run, number));
    UNSET(uint32_t, other, FORKHEMIT_RUN_WORDS);
    TAKEN(forkhemit_fresh(d[0], other));
    TAKEN(forkhemit_step_indexed(TABLES, index, other, number));
    UNSET(uint32_t, sliced, FORKHEMIT_RUN_WORDS);
    UNSET(uint64_t, continued, 2);
    uint64_t steps = 0;
    TAKEN(forkhemit_fresh(d[0], sliced));
    for (uint64_t part = 2; part <= 1000; part += 998) {
        TAKEN(forkhemit_continue(TABLES, part, sliced, continued));
        same(continued[1] == (sliced[1] != FORKHEMIT_OPEN), "it is said whether the run is closed");
        steps += continued[0];
    }
    same(steps == answer[0] && sliced[1] == answer[1], "steps in two parts add up");

    /* the step that tells its rule, the clause as typed, and a late condition, in both forms: row 3 is padding */
    UNSET(uint32_t, explained, FORKHEMIT_RUN_WORDS);
    UNSET(uint64_t, explanation, 4);
    TAKEN(forkhemit_fresh(d[0], explained));
    TAKEN(forkhemit_step_explained(TABLES, explained, explanation));
    same(memcmp(explained, other, 4 * FORKHEMIT_RUN_WORDS) == 0 && explanation[0] == FORKHEMIT_CHOSEN, "the same step, explained");
    UNSET(uint64_t, place, 3);
    TAKEN(forkhemit_clause(TABLES, TEXT(left_text), TEXT(right_text), 5, place));
    same(place[0] == 1 && place[1] == 18 && place[2] == 5 && memcmp(right_text + 18, "4 1 0", 5) == 0, "the clause of row 5");
    UNSET(uint8_t, clause, 6);
    UNSET(uint64_t, clause_length, 1);
    clause[5] = '.';
    TAKEN(forkhemit_excerpt(TABLES, TEXT(left_text), TEXT(right_text), 5, clause, 6, clause_length));
    same(clause_length[0] == 5 && memcmp(clause, "4 1 0.", 6) == 0, "its bytes");
    uint64_t before = number[0];
    TAKEN(forkhemit_replace(TABLES, explained, 0, 3, 8, 8));
    TAKEN(forkhemit_index(TABLES, index));
    TAKEN(forkhemit_replace_indexed(TABLES, explained, 0, 3, 2, 2, index, number));
    same(number[0] == before && left[4] == 2 && left[5] == 2, "one padding row for another, and back");

    /* the step by the circuit's parts */
    UNSET(uint64_t, sizes, 4);
    TAKEN(forkhemit_sizes(SIZES, sizes));
    UNSET(uint32_t, gates, sizes[1]);
    UNSET(uint64_t, count, 1);
    TAKEN(forkhemit_generate(SIZES, gates, sizes[1], count));
    UNSET(uint8_t, bytes, sizes[2]);
    UNSET(uint8_t, wires, sizes[2] + count[0]);
    TAKEN(forkhemit_pack(TABLES, run, bytes, sizes[2]));
    TAKEN(forkhemit_evaluate(gates, 3 * count[0], bytes, sizes[2], wires, sizes[2] + count[0]));
    UNSET(uint32_t, back, FORKHEMIT_RUN_WORDS);
    TAKEN(forkhemit_read_back(d[0], wires + sizes[2] + count[0] - sizes[3] - 1, sizes[3], back));
    TAKEN(forkhemit_step(TABLES, run));
    same(memcmp(run, other, 4 * FORKHEMIT_RUN_WORDS) == 0 && memcmp(run, back, 4 * FORKHEMIT_RUN_WORDS) == 0, "the same step three ways");

    /* repeats in two parts, and none of a closed run */
    UNSET(uint32_t, own_gates, sizes[1]);
    UNSET(uint8_t, own_bytes, sizes[2]);
    UNSET(uint8_t, own_wires, sizes[2] + count[0]);
    UNSET(uint64_t, repeated, 2);
    uint64_t repeats = 0;
    TAKEN(forkhemit_fresh(d[0], run));
    for (uint64_t part = 2; part <= 1000; part += 998) {
        TAKEN(forkhemit_repeat(TABLES, part, own_gates, sizes[1], own_bytes, sizes[2], own_wires, sizes[2] + count[0], run, repeated));
        same(repeated[1] == (run[1] != FORKHEMIT_OPEN), "the mark says whether the run is closed");
        repeats += repeated[0];
    }
    same(repeats == answer[0] && run[1] == answer[1], "repeats in two parts add up");
    TAKEN(forkhemit_repeat(TABLES, 1000, own_gates, sizes[1], own_bytes, sizes[2], own_wires, sizes[2] + count[0], run, repeated));
    same(repeated[0] == 0 && repeated[1] == 1, "a closed run has no repeat, and its mark is 1");

    /* the same through a whole budget, and nothing left of it */
    UNSET(uint32_t, whole_gates, sizes[1]);
    UNSET(uint8_t, whole_bytes, sizes[2]);
    UNSET(uint8_t, whole_wires, sizes[2] + count[0]);
    UNSET(uint64_t, whole, 3);
    TAKEN(forkhemit_solve_whole(TABLES, 50, whole_gates, sizes[1], whole_bytes, sizes[2], whole_wires, sizes[2] + count[0], whole));
    same(whole[0] == 50 && whole[1] == answer[1] && whole[2] == answer[2], "the same answer, its count the budget");
    same(memcmp(whole_gates, gates, 12 * count[0]) == 0, "the same circuit");
    uint8_t left_over = 0;
    for (uint64_t i = 0; i < sizes[2]; i++) left_over |= whole_bytes[i];
    for (uint64_t i = 0; i < sizes[2] + count[0]; i++) left_over |= whole_wires[i];
    same(left_over == 0, "zeros where it worked");

    /* the model */
    UNSET(uint64_t, model, 1);
    TAKEN(forkhemit_model(run, model));
    same(model[0] == answer[2], "the same model");

    /* its page, two pilots with two watches each, and the model on it */
    UNSET(uint8_t, page, 2 * FORKHEMIT_PAGE_LINE_BYTES);
    TAKEN(forkhemit_page(run, 2, 2, page, 2 * FORKHEMIT_PAGE_LINE_BYTES));
    fwrite(page, 1, 2 * FORKHEMIT_PAGE_LINE_BYTES, stdout);
    UNSET(uint64_t, shown, 1);
    TAKEN(forkhemit_read_page(d[0], 2, 2, page, 2 * FORKHEMIT_PAGE_LINE_BYTES, shown));
    same(shown[0] == model[0], "the model on its page");

    /* texts */
    UNSET(uint8_t, text, FORKHEMIT_ANSWER_BYTES);
    UNSET(uint64_t, length, 1);
    TAKEN(forkhemit_answer(d[0], answer[0], answer[1], answer[2], text, length));
    fwrite(text, 1, length[0], stdout);
    UNSET(uint8_t, line, FORKHEMIT_LINE_BYTES);
    TAKEN(forkhemit_write_line(SIZES, gates, 3 * count[0], 2, line, FORKHEMIT_LINE_BYTES, length));
    fwrite(line, 1, length[0], stdout);
    UNSET(uint8_t, lines, 4 * FORKHEMIT_LINE_BYTES);
    UNSET(uint64_t, written, 2);
    TAKEN(forkhemit_write_lines(SIZES, gates, 3 * count[0], 4, lines, 4 * FORKHEMIT_LINE_BYTES, written));
    fwrite(lines, 1, written[1], stdout);
    UNSET(uint64_t, budget, 1);
    TAKEN(forkhemit_read_budget(TEXT("77\n"), budget));
    same(budget[0] == 77, "the budget");
    return 0;
}
