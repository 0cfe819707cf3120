/*
 * A host in C that prints the roster as the page that pilots read. It reads two stations' texts and the public one, takes giant steps from
 * the fresh run until it closes or the budget is spent, and prints the page of its model, a line a pilot: 80 bytes each. It then reads the model
 * off the page again, and compares.
 * Use: page-c LEFT RIGHT PUBLIC BUDGET PILOTS WATCHES. `make examples` builds it.
 */
#include "forkhemit.h"
#include "host.h"
#include "texts.h"
#include <stdio.h>
#include <stdlib.h>

int main(int count, char **arguments)
{
    if (count != 7) {
        fputs("use: page-c LEFT RIGHT PUBLIC BUDGET PILOTS WATCHES\n", stderr);
        return 1;
    }
    uint64_t budget = number_of("BUDGET", arguments[4]);
    uint64_t pilots = number_of("PILOTS", arguments[5]), watches = number_of("WATCHES", arguments[6]);

    /* The texts become tables, and a run over them is closed or ends with its budget. */
    uint8_t *texts[3] = {0};
    size_t lengths[3] = {0};
    for (int k = 0; k < 3; k++) {
        texts[k] = room(TEXT_LIMIT + 1, 1);
        lengths[k] = read_text(arguments[1 + k], texts[k]);
    }
    uint32_t left[ROW_WORDS] = {0}, right[ROW_WORDS] = {0}, public_table[ROW_WORDS] = {0};
    uint64_t d[4] = {0}; /* n, left rows, right rows, public rows */
    uint8_t refusal = forkhemit_read_tables(texts[0], lengths[0], texts[1], lengths[1], texts[2], lengths[2],
                                            left, ROW_WORDS, right, ROW_WORDS, public_table, ROW_WORDS, d);
    for (int k = 0; k < 3; k++)
        free(texts[k]);
    if (refusal != 0)
        return refused(refusal);
    uint32_t run[FORKHEMIT_RUN_WORDS] = {0};
    uint64_t continued[2] = {0}; /* steps taken, 1 if the run is closed */
    refusal = forkhemit_fresh(d[0], run);
    if (refusal == 0)
        refusal = forkhemit_continue(d[0], d[1], d[2], d[3], left, ROW_WORDS, right, ROW_WORDS, public_table, ROW_WORDS, budget,
                                     run, continued);
    if (refusal != 0)
        return refused(refusal);

    /* The page of its model. 32 pilots are the most that there can be: other numbers are refused with 25. */
    uint8_t page[32 * FORKHEMIT_PAGE_LINE_BYTES] = {0};
    refusal = forkhemit_page(run, pilots, watches, page, sizeof page);
    if (refusal != 0)
        return refused(refusal); /* without a roster 14 */
    fwrite(page, FORKHEMIT_PAGE_LINE_BYTES, pilots, stdout);

    /* What is read off the page is the run's model. */
    uint64_t model[1] = {0}, shown[1] = {0};
    if (forkhemit_model(run, model) != 0 || forkhemit_read_page(d[0], pilots, watches, page, sizeof page, shown) != 0 || shown[0] != model[0]) {
        fputs("the page shows another model\n", stderr);
        return 1;
    }
    return finished();
}
