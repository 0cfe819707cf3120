/*
 * A host in C that checks a proof from another solver: a DRAT text, as `cadical --no-binary` writes it, against two stations' texts and the
 * public one. It prints whether the proof is accepted, and then what it shows.
 * Use: proof-c LEFT RIGHT PUBLIC PROOF
 * `make examples` builds it.
 */
#include "forkhemit.h"
#include "host.h"
#include "texts.h"
#include <inttypes.h>
#include <stdio.h>
#include <stdlib.h>

int main(int count, char **arguments)
{
    if (count != 5) {
        fputs("use: proof-c LEFT RIGHT PUBLIC PROOF\n", stderr);
        return 1;
    }

    /* Four texts; three of them become tables. */
    uint8_t *texts[4];
    size_t lengths[4];
    for (int k = 0; k < 4; k++) {
        texts[k] = room(TEXT_LIMIT + 1, 1);
        lengths[k] = read_text(arguments[k + 1], texts[k]);
    }
    uint32_t left[ROW_WORDS], right[ROW_WORDS], public_table[ROW_WORDS];
    uint64_t d[4]; /* n, left rows, right rows, public rows */
    uint8_t refusal = forkhemit_read_tables(texts[0], lengths[0], texts[1], lengths[1], texts[2], lengths[2], left, ROW_WORDS, right,
                                            ROW_WORDS, public_table, ROW_WORDS, d);

    /* The tables are lent as they are, and nothing is written: a proof that is accepted shows that no assignment makes all rows true. */
    if (refusal == 0)
        refusal = forkhemit_check_proof(FORKHEMIT_TABLES(d, left, right, public_table), texts[3], lengths[3]);
    for (int k = 0; k < 4; k++)
        free(texts[k]);
    if (refusal != 0)
        return refused(refusal);
    printf("c %s: accepted, no roster meets all %" PRIu64 " rows\ns UNSATISFIABLE\n", arguments[4], d[1] + d[2] + d[3]);
    return finished();
}
