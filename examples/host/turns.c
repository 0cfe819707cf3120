/*
 * A host in C that asks who can force the roster. It reads a QDIMACS text, in which two sides fix the variables in turn, and prints the side
 * that can force its aim; where that side moves first, the first variable too, with a minus if it is to be false.
 * Use: turns-c TEXT. `make examples` builds it.
 */
#include "forkhemit.h"
#include "host.h"
#include "texts.h"
#include <inttypes.h>
#include <stdio.h>
#include <stdlib.h>

int main(int count, char **arguments)
{
    if (count != 2) {
        fputs("use: turns-c TEXT\n", stderr);
        return 1;
    }
    uint8_t *text = room(TEXT_LIMIT + 1, 1);
    size_t length = read_text(arguments[1], text);
    uint64_t answer[3] = {0}; /* winner, first variable, its value */
    uint8_t refusal = forkhemit_game(text, length, answer);
    free(text);
    if (refusal != 0)
        return refused(refusal);
    printf("s %s\n", answer[0] == FORKHEMIT_EXISTENTIAL ? "EXISTENTIAL" : "UNIVERSAL");
    if (answer[1] != 0)
        printf("v %s%" PRIu64 " 0\n", answer[2] == 1 ? "" : "-", answer[1]);
    return finished();
}
