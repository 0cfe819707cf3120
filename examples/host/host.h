/*
 * What the example hosts do with what goes wrong. A wrong use, such as a budget that is none, and output that fails end with a sentence on
 * standard error and status 1. A refusal of texts is an answer, printed as the pair program prints it, with its sentence beside it.
 */
#ifndef HOST_H
#define HOST_H

#include "forkhemit.h"
#include <stdio.h>
#include <stdlib.h>
#include <string.h>

#define SENTENCE(number, sentence)                                                                                                          \
    case number:                                                                                                                            \
        return sentence;

/* What a refusal's number says. */
static inline const char *sentence(uint8_t number)
{
    switch (number) {
        FORKHEMIT_REFUSALS(SENTENCE)
    }
    return "taken";
}

/* The status to end with: 1 where something that was printed could not be written, as on a full disk. */
static inline int finished(void)
{
    int failed = ferror(stdout) != 0;
    if (fclose(stdout) != 0 || failed) {
        fputs("the output cannot be written\n", stderr);
        return 1;
    }
    return 0;
}

/* A refusal as the pair program prints it, and the status to end with. */
static inline int refused(uint8_t number)
{
    printf("c refused %u\ns UNKNOWN\n", number);
    fprintf(stderr, "refused %u: %s\n", number, sentence(number));
    return finished();
}

/* A number that was given as an argument. The library judges it as it judges a budget line: strtoull would take `abc` as 0, and -5. */
static inline uint64_t number_of(const char *name, const char *argument)
{
    uint8_t line[101];
    size_t length = strlen(argument) < 100 ? strlen(argument) : 100; /* with its LF 101 bytes, which is too long */
    memcpy(line, argument, length);
    line[length] = '\n';
    uint64_t number[1] = {0};
    uint8_t refusal = forkhemit_read_budget(line, length + 1, number);
    if (refusal != 0) {
        fprintf(stderr, "%s '%s': refused %u: %s\n", name, argument, refusal, sentence(refusal));
        exit(1);
    }
    return number[0];
}

#endif
