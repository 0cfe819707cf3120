/*
 * Forkhemit for hosts in C and C++: two stations' clause tables and the public one, the giant step, its circuit and the texts. Every
 * function is proved to meet its contract. The contracts are in the crates whose names begin with host_.
 *
 * `make lib` writes the archive to link, target/lib/libforkhemit.a, for x86-64-v2 Linux. It needs C's memcpy, memmove and memset and
 * nothing else. docs/HOSTS.md has the calls in the order in which a host makes them. examples/host has hosts in C, in Rust and in Python.
 * For Python there is a module over the shared library, python/forkhemit.py.
 *
 * `make install PREFIX=/DIR` puts this header, the archive and the shared library there. `pkg-config --cflags --libs forkhemit` then says
 * how to compile and link, and the guide and the examples are in share/doc/forkhemit. These flags link the shared library, which the loader
 * must find: run `ldconfig` once, or set LD_LIBRARY_PATH (docs/HOSTS.md, "Linking"). If you name the archive instead, you need set nothing.
 *
 * What stays the same within version 1
 * - Every function keeps its name, its parameters, the layout of its buffers, its refusal numbers and their order, and its results. Every
 *   macro and enum constant keeps its name and value, but for the version; the sentences of FORKHEMIT_REFUSALS may get clearer.
 * - The programs pair, whole and circuit keep the form of their input and the bytes that they print, circuit but for its gates.
 *   forkhemit-plan keeps its commands, options and exit statuses. The module for Python keeps its names, arguments and results.
 * - The circuit keeps its input and output wires, what it computes and its gate ceiling. Its gates, their number and their order may change
 *   with the second number of the version, and CHANGES.md then says so. With the third number the circuit's text does not change by a byte.
 * - With the second number new functions may come, and new refusal numbers that only new functions return. A host that was built with one
 *   version 1 works with every later one as it is: the soname has the first number alone.
 * - Not promised: speed, the use of the stack, the wording of what forkhemit-plan prints, and the crates of which the library is made.
 *
 * Rules for every call
 * - An array, such as `uint64_t sizes[4]`, is lent as a pointer to at least so many elements. Any other buffer is lent as a pointer and
 *   then its length, counted in elements. The pointer must not be null and must be aligned for its type, with length 0 too. A buffer that a
 *   call writes may overlap no other buffer of the same call.
 * - The function returns 0 where the call was taken, else one number of forkhemit_refusal_number. On a refusal nothing is written. There is
 *   one exception, forkhemit_version, which takes nothing and returns the version.
 * - A call that is taken fills an array of numbers whole (of a text its front), and the front of a buffer with a length. The rest stays as
 *   it was.
 * - What a call only writes, results and scratch alike, need not be set before. You may use it again for the next call as it is.
 * - No function keeps a pointer, allocates memory or has a state of its own: calls in several threads over different buffers are safe.
 *   forkhemit_evaluate, forkhemit_repeat and forkhemit_solve_whole use about 320 KiB of the caller's stack.
 *
 * How to read the comments: `sizes: ..` says what the buffer of that name holds after the call. "Refusals:" lists the numbers that the
 * function may return, in the order in which they are judged.
 *
 * Tables: n variables, 1 to 32; each station has 1 to 128 rows. The public table, known to both stations, has 0 to 128 rows. It comes after
 * the right one and is judged after it, so there are at most 384 rows in all. A row is two words, the variables that it holds positive and
 * those that it holds negative; bit i - 1 is variable i. A row that holds a variable in both words is padding: it is always satisfied and
 * says nothing. A table of r rows is 2 * r words; words past them are not read.
 */
#ifndef FORKHEMIT_H
#define FORKHEMIT_H

#include <stddef.h>
#include <stdint.h>

/* The version, as CHANGES.md numbers it. The top of this file says what stays the same while the first number does. */
#define FORKHEMIT_VERSION_MAJOR 1
#define FORKHEMIT_VERSION_MINOR 0
#define FORKHEMIT_VERSION_PATCH 0
/* The same as one number that grows, for #if: 1.0.0 is 10000. */
#define FORKHEMIT_VERSION (FORKHEMIT_VERSION_MAJOR * 10000 + FORKHEMIT_VERSION_MINOR * 100 + FORKHEMIT_VERSION_PATCH)

/* The most bytes that a DIMACS text may have, remarks included, and that a proof may have. A host needs to read at most one byte more than
 * this of a file. */
#define FORKHEMIT_TEXT_BYTES 65536
/* The words of a table of 128 rows. They are enough for any table, and for the planes of any. */
#define FORKHEMIT_TABLE_WORDS 256
/* Bytes that take any one line of the circuit text. */
#define FORKHEMIT_LINE_BYTES 128
/* Bytes that take any answer. */
#define FORKHEMIT_ANSWER_BYTES 256
/* The greatest budget that forkhemit_solve_whole goes through. */
#define FORKHEMIT_MOST_WHOLE 65535
/* Bytes of a line of the watch page: its 79 columns and a line feed. */
#define FORKHEMIT_PAGE_LINE_BYTES 80

/* The ten arguments that name the tables, made of the four sizes that forkhemit_read_tables fills in and three buffers of
 * FORKHEMIT_TABLE_WORDS: forkhemit_solve(FORKHEMIT_TABLES(sizes, left, right, public_table), budget, answer). */
#define FORKHEMIT_TABLES(sizes, left, right, public_table)                                                                                  \
    (sizes)[0], (sizes)[1], (sizes)[2], (sizes)[3], (left), FORKHEMIT_TABLE_WORDS, (right), FORKHEMIT_TABLE_WORDS, (public_table),          \
        FORKHEMIT_TABLE_WORDS

/* A sentence for each number of forkhemit_refusal_number but 0, for hosts to show: FORKHEMIT_REFUSALS(X) is X(1, "..") X(2, "..") and so
 * on.
 *   #define SENTENCE(number, sentence) case number: return sentence;
 *   const char *sentence(uint8_t number) { switch (number) { FORKHEMIT_REFUSALS(SENTENCE) } return "taken"; } */
#define FORKHEMIT_REFUSALS(X)                                                                                                               \
    X(1, "the number of variables is not 1 to 32")                                                                                          \
    X(2, "a station's row count is not 1 to 128, or the public one is above 128")                                                           \
    X(3, "a row has a variable above n")                                                                                                    \
    X(4, "a buffer is too short for its rows")                                                                                              \
    X(5, "a text is malformed, longer than 65,536 bytes or cannot be read")                                                                 \
    X(6, "the texts do not have the same number of variables")                                                                              \
    X(7, "the gate buffer is too short for the circuit")                                                                                    \
    X(8, "a number is not digits alone, up to 18446744073709551615, or its line is malformed")                                              \
    X(9, "the words are no gates of a circuit")                                                                                             \
    X(10, "a buffer of wires or counts is too short, or an input byte is not 0 or 1")                                                       \
    X(11, "a line or a clause is longer than the lent bytes")                                                                               \
    X(12, "the run is not well-formed, or the index or the number of unsatisfied rows is not that of tables and run")                       \
    X(13, "the run was made for another number of variables")                                                                               \
    X(14, "a run that is open or refuted has no model")                                                                                     \
    X(15, "the row is no padding row of that station")                                                                                      \
    X(16, "the run is closed, and no row can be replaced")                                                                                  \
    X(17, "the row is neither station's, or a text is not the one that its table was read from")                                            \
    X(18, "the proof is malformed or too long, or has more than 256 additions")                                                             \
    X(19, "an addition of the proof does not follow")                                                                                       \
    X(20, "the proof does not add the empty clause")                                                                                        \
    X(21, "a game has at most 12 variables")                                                                                                \
    X(22, "a variable stands on the lines of a game's text twice, or is not 1 to n")                                                        \
    X(23, "the budget of a run through the whole of it is above 65,535")                                                                    \
    X(24, "the planes have a bit beyond the rows or beyond n")                                                                              \
    X(25, "pilots times watches is not the number of variables")                                                                            \
    X(26, "the page is shorter than 80 bytes a pilot")                                                                                      \
    X(27, "the bytes are no watch page")

#ifdef __cplusplus
extern "C" {
#endif

/* Why a call was refused. The lowest number that applies is returned, with these exceptions. 4 comes before 3, and the 3 of a new row last.
 * Of three texts, whatever refuses the left one comes first, then the right one, then the public one. In a text, a header's 1 or 2 comes
 * before 5, and an overlong text is 5 before all else. forkhemit_clause and forkhemit_excerpt judge overlong texts first, then the tables,
 * then the texts. In a game's text 21 comes right after the header's 1 and 2 and before 5, and 22 last. 23 comes right after 8, and so
 * before 10. */
enum forkhemit_refusal_number {
    FORKHEMIT_TAKEN = 0,            /* taken */
    FORKHEMIT_VARIABLES = 1,        /* n outside 1 to 32 */
    FORKHEMIT_ROW_COUNT = 2,        /* a station's row count outside 1 to 128, or a public one above 128 */
    FORKHEMIT_ROW_BIT = 3,          /* a row bit at or above n */
    FORKHEMIT_ROW_BUFFER = 4,       /* a row buffer shorter than 2 * rows words, or planes shorter than their squares */
    FORKHEMIT_TEXT = 5,             /* malformed or overlong DIMACS text */
    FORKHEMIT_TEXTS_DIFFER = 6,     /* two of the texts differ in n */
    FORKHEMIT_GATE_BUFFER = 7,      /* gate buffer below three words for each gate of the ceiling */
    FORKHEMIT_NUMBER_LINE = 8,      /* malformed budget line */
    FORKHEMIT_GATES = 9,            /* words that are no gates */
    FORKHEMIT_WIRES = 10,           /* wire buffer or count buffer too short, or an input byte that is not 0 or 1 */
    FORKHEMIT_LINE_BUFFER = 11,     /* text line, or a clause, longer than the lent bytes */
    FORKHEMIT_STATE = 12,           /* state not well-formed, or an index or a number that is not the one of tables and state */
    FORKHEMIT_OTHER_VARIABLES = 13, /* state made for another n */
    FORKHEMIT_NO_MODEL = 14,        /* model wanted while open or refuted */
    FORKHEMIT_NOT_PADDING = 15,     /* the row to be replaced is no padding row of that station */
    FORKHEMIT_CLOSED = 16,          /* a row was to be replaced in a closed run */
    FORKHEMIT_NO_CLAUSE = 17,       /* row of neither station, or a text whose n or row count is not its table's */
    FORKHEMIT_PROOF_TEXT = 18,      /* malformed or overlong proof, or more than 256 additions in it */
    FORKHEMIT_NOT_FOLLOWING = 19,   /* an addition that does not follow, up to the empty clause */
    FORKHEMIT_NO_EMPTY_CLAUSE = 20, /* no empty clause added */
    FORKHEMIT_GAME_VARIABLES = 21,  /* a game of more than 12 variables */
    FORKHEMIT_LINE_VARIABLES = 22,  /* a variable on the lines of a game's text twice or outside 1 to n */
    FORKHEMIT_WHOLE_BUDGET = 23,    /* a budget above 65,535 that is to be gone through whole */
    FORKHEMIT_PLANE_BITS = 24,      /* a bit in the planes beyond the row count or beyond n */
    FORKHEMIT_WATCH_COUNT = 25,     /* pilots times watches is not n */
    FORKHEMIT_PAGE_BUFFER = 26,     /* page of fewer than 80 bytes a pilot */
    FORKHEMIT_PAGE_FORM = 27        /* bytes that are no watch page */
};

/*
 * A run in memory: FORKHEMIT_RUN_WORDS words of 32 bits.
 *   word 0              n
 *   word 1              standing: one of forkhemit_standing
 *   word 2, word 3      T, the variables set true, and F, those set false
 *   word 4              depth: how many levels are used
 *   word 5 + 3 * level  T and F from before the level's choice, and the chosen variable, from 0; level from 0 to 31, unused ones zero
 */
#define FORKHEMIT_RUN_WORDS 101

enum forkhemit_standing {
    FORKHEMIT_OPEN = 0,
    FORKHEMIT_SATISFIED = 1,
    FORKHEMIT_REFUTED = 2
};

/* A verdict has the number of the standing that it follows from. */
enum forkhemit_verdict {
    FORKHEMIT_UNKNOWN = 0,
    FORKHEMIT_SATISFIABLE = 1,
    FORKHEMIT_UNSATISFIABLE = 2
};

/* The sides of a game: the first wants all rows true, the second wants to prevent that. */
enum forkhemit_side {
    FORKHEMIT_EXISTENTIAL = 1,
    FORKHEMIT_UNIVERSAL = 2
};

/* ---- version */

/* FORKHEMIT_VERSION of the library that is linked or loaded. It is not the number of a refusal. Compare it with the header's, with which
 * the host was compiled: the shared library may be a later version 1. */
uint64_t forkhemit_version(void);

/* ---- tables */

/* sizes: the gate ceiling, which no circuit of this size exceeds; the words that forkhemit_generate needs, three for each gate of the
 * ceiling; input wires; state wires. The largest, for n = 32 and 384 rows: 880704, 2642112, 27747, 3171.
 * Refusals: 1, 2. */
uint8_t forkhemit_sizes(uint64_t n, uint64_t left_rows, uint64_t right_rows, uint64_t public_rows, uint64_t sizes[4]);

/* Reads three DIMACS texts into tables. sizes: n, left rows, right rows, public rows; a public text may have none. FORKHEMIT_TABLE_WORDS
 * for each table are enough for any texts. A text of more than FORKHEMIT_TEXT_BYTES is 5, whatever it holds.
 * Refusals: the left text's 1, 2 or 5, the right's, the public one's, then 4 where a table has too few words for its rows, then 6. */
uint8_t forkhemit_read_tables(const uint8_t *left_text, size_t left_text_length, const uint8_t *right_text, size_t right_text_length,
                              const uint8_t *public_text, size_t public_text_length, uint32_t *left, size_t left_length,
                              uint32_t *right, size_t right_length, uint32_t *public_table, size_t public_length, uint64_t sizes[4]);

/* Whether the three tables are accepted. Refusals: 1, 2, 4, 3. */
uint8_t forkhemit_accept(uint64_t n, uint64_t left_rows, uint64_t right_rows, uint64_t public_rows,
                         const uint32_t *left, size_t left_length, const uint32_t *right, size_t right_length,
                         const uint32_t *public_table, size_t public_length);

/* judged: what T and F make of a row of these two words, in four numbers.
 *   satisfied  1 where the row is satisfied, else 0
 *   free       how many of its literals have their variable in neither T nor F, 0 to 64, in padding and satisfied rows too; a variable in
 *              both words counts twice
 *   variables  the variables of those literals, as a word
 *   variable   the variable to look at, 1 to 32: the lowest in both words, or else the lowest that satisfies the row, or else the lowest of
 *              those literals; 0 where there is none
 * All bits are looked at, there is no n. It is never refused. */
uint8_t forkhemit_judge(uint32_t positive, uint32_t negative, uint32_t t, uint32_t f, uint64_t judged[4]);

/* ---- runs */

/* run: the fresh run of n variables. Refusals: 1. */
uint8_t forkhemit_fresh(uint64_t n, uint32_t run[FORKHEMIT_RUN_WORDS]);

/* run: after one giant step, in place. A run that is closed already stays as it is, and the call is taken: look at word 1 before you count
 * a step.
 * Refusals: 1, 2, 4, 3, 12, 13. */
uint8_t forkhemit_step(uint64_t n, uint64_t left_rows, uint64_t right_rows, uint64_t public_rows,
                       const uint32_t *left, size_t left_length, const uint32_t *right, size_t right_length,
                       const uint32_t *public_table, size_t public_length, uint32_t run[FORKHEMIT_RUN_WORDS]);

/* A fresh run until it closes or the budget of steps is spent. 2^(k+1) - 1 steps are always enough, where k is the number of variables in
 * rows that are no padding, at most n; where k is 0, one step is.
 * answer: steps taken, verdict (forkhemit_verdict), model as a word, 0 without one.
 * Every call begins with a fresh run and keeps nothing. To go on where a budget ended, keep a run of your own, made by forkhemit_fresh.
 * Give it more steps with forkhemit_continue, or more repeats with forkhemit_repeat: it goes on from where it is, and the counts add up.
 * Refusals: 1, 2, 4, 3. */
uint8_t forkhemit_solve(uint64_t n, uint64_t left_rows, uint64_t right_rows, uint64_t public_rows,
                        const uint32_t *left, size_t left_length, const uint32_t *right, size_t right_length,
                        const uint32_t *public_table, size_t public_length, uint64_t budget, uint64_t answer[3]);

/* model: the variables that a satisfied run makes true, as a word. Refusals: 12, 14. */
uint8_t forkhemit_model(const uint32_t run[FORKHEMIT_RUN_WORDS], uint64_t model[1]);

/* counts: for each row, left ones, right ones, public ones, how many of its literals have their variable in neither T nor F of the run,
 * whatever its standing: a byte a row, as forkhemit_judge counts.
 * Refusals: 1, 2, 4, 3, 10 (fewer bytes than rows), 12, 13. */
uint8_t forkhemit_count_free(uint64_t n, uint64_t left_rows, uint64_t right_rows, uint64_t public_rows,
                             const uint32_t *left, size_t left_length, const uint32_t *right, size_t right_length,
                             const uint32_t *public_table, size_t public_length,
                             const uint32_t run[FORKHEMIT_RUN_WORDS], uint8_t *counts, size_t counts_length);

/* ---- runs with an index */

/*
 * The index of tables: FORKHEMIT_INDEX_WORDS words of 64 bits. For each of 64 literals it has the set of rows that hold it, in six words.
 *   literal i - 1       variable i; literal 32 + i - 1 its negation
 *   word 6 * literal    its rows 0 to 63; the next word rows 64 to 127, and so on up to row 383
 * Rows count from 0: the left ones, then the right ones, then the public ones. Row r is bit r % 64 of word 6 * literal + r / 64. Bits of
 * variables above n and of rows past the last are zero.
 * Keep an index with the tables while you ask which rows a variable touches, or want a run's number of unsatisfied rows after every step. A
 * call that judges a lent index reads all rows for it and is slower than forkhemit_step. Where only the answer counts, call
 * forkhemit_solve_indexed: it makes its own index once and keeps it to the end of the run. For a run of your own call forkhemit_continue,
 * which does so for as many steps as you ask for.
 */
#define FORKHEMIT_INDEX_WORDS 384

/* index: the index of the three tables. Refusals: 1, 2, 4, 3. */
uint8_t forkhemit_index(uint64_t n, uint64_t left_rows, uint64_t right_rows, uint64_t public_rows,
                        const uint32_t *left, size_t left_length, const uint32_t *right, size_t right_length,
                        const uint32_t *public_table, size_t public_length, uint64_t index[FORKHEMIT_INDEX_WORDS]);

/* number: how many rows are unsatisfied under the run's T and F, whatever its standing; padding is satisfied.
 * Refusals: 1, 2, 4, 3, 12, 13. */
uint8_t forkhemit_unsatisfied(uint64_t n, uint64_t left_rows, uint64_t right_rows, uint64_t public_rows,
                              const uint32_t *left, size_t left_length, const uint32_t *right, size_t right_length,
                              const uint32_t *public_table, size_t public_length,
                              const uint32_t run[FORKHEMIT_RUN_WORDS], uint64_t number[1]);

/* run: after one giant step, in place, as forkhemit_step leaves it. number: lend the number of rows that are unsatisfied under the run, as
 * forkhemit_unsatisfied counts them; after the call it is their number under the run after the step. Each call judges the whole index and
 * the number against tables and run.
 * Refusals: 1, 2, 4, 3, 12 (the run is not well-formed, the index is not the tables', or the number is not the run's), 13. */
uint8_t forkhemit_step_indexed(uint64_t n, uint64_t left_rows, uint64_t right_rows, uint64_t public_rows,
                               const uint32_t *left, size_t left_length, const uint32_t *right, size_t right_length,
                               const uint32_t *public_table, size_t public_length, const uint64_t index[FORKHEMIT_INDEX_WORDS],
                               uint32_t run[FORKHEMIT_RUN_WORDS], uint64_t number[1]);

/* answer: as of forkhemit_solve, which reads every row in every step. Here a step reads only the rows of the variable that is set. To go on
 * after a budget, see there.
 * Refusals: 1, 2, 4, 3. */
uint8_t forkhemit_solve_indexed(uint64_t n, uint64_t left_rows, uint64_t right_rows, uint64_t public_rows,
                                const uint32_t *left, size_t left_length, const uint32_t *right, size_t right_length,
                                const uint32_t *public_table, size_t public_length, uint64_t budget, uint64_t answer[3]);

/* run: goes on, in place, by the giant steps of forkhemit_solve_indexed through the one that closes it, at most `times`. With 0 times, or
 * closed already, it stays as it is. continued: how many steps were taken; 1 if the run is closed then, else 0.
 * Between two calls a host may show how far it is, stop, or take late conditions, and then call again: `a` times and then `b` times leave
 * the run that `a + b` times leave, and the numbers of steps add up. From the fresh run by a budget they are the count of forkhemit_solve,
 * and word 1 of the run is its verdict. Slices that add up to 2^(k+1) - 1 close it. Each call judges tables and run once, and makes its
 * index once: let it take some hundred steps or more.
 * Refusals: 1, 2, 4, 3, 12, 13. */
uint8_t forkhemit_continue(uint64_t n, uint64_t left_rows, uint64_t right_rows, uint64_t public_rows,
                           const uint32_t *left, size_t left_length, const uint32_t *right, size_t right_length,
                           const uint32_t *public_table, size_t public_length, uint64_t times,
                           uint32_t run[FORKHEMIT_RUN_WORDS], uint64_t continued[2]);

/* ---- runs with the weighted choice */

/*
 * The two-sided Jeroslow-Wang choice, in place of rule 4's lowest variable. Each unsatisfied row adds 2 to the power minus its number of
 * free literals to every free variable that it holds. The greatest sum wins, the lowest variable among equals, and it is set true. Rules 1
 * to 3 are the same. Over tables that stay as they are, the verdict is that of forkhemit_solve whenever both close, within the same bound.
 * The steps differ and are most often fewer, and the model may be another one. The circuit does not use this choice.
 */

/* run: after one step with the weighted choice, in place; closed runs as in forkhemit_step. Refusals: 1, 2, 4, 3, 12, 13. */
uint8_t forkhemit_step_weighted(uint64_t n, uint64_t left_rows, uint64_t right_rows, uint64_t public_rows,
                                const uint32_t *left, size_t left_length, const uint32_t *right, size_t right_length,
                                const uint32_t *public_table, size_t public_length, uint32_t run[FORKHEMIT_RUN_WORDS]);

/* A fresh run by such steps until it closes or the budget is spent. The bound on the steps is that of forkhemit_solve. It keeps an index as
 * forkhemit_solve_indexed does. It weighs rows only where it chooses, and only the unsatisfied ones.
 * answer: steps taken, verdict (forkhemit_verdict), model as a word, 0 without one.
 * Refusals: 1, 2, 4, 3. */
uint8_t forkhemit_solve_weighted(uint64_t n, uint64_t left_rows, uint64_t right_rows, uint64_t public_rows,
                                 const uint32_t *left, size_t left_length, const uint32_t *right, size_t right_length,
                                 const uint32_t *public_table, size_t public_length, uint64_t budget, uint64_t answer[3]);

/* run: goes on by weighted steps, as forkhemit_continue does by giant ones. continued: how many were taken; 1 if the run is closed then,
 * else 0.
 * Refusals: 1, 2, 4, 3, 12, 13. */
uint8_t forkhemit_continue_weighted(uint64_t n, uint64_t left_rows, uint64_t right_rows, uint64_t public_rows,
                                    const uint32_t *left, size_t left_length, const uint32_t *right, size_t right_length,
                                    const uint32_t *public_table, size_t public_length, uint64_t times,
                                    uint32_t run[FORKHEMIT_RUN_WORDS], uint64_t continued[2]);

/* ---- late conditions */

/*
 * While its run is open, a station may put another row in the place of one of its own padding rows. Steps and repeats read the tables as
 * they are when they begin, so call these between two of them, never during one. Satisfiable and unsatisfiable are then about the tables as
 * they are when the run closes. 2^(k+1) - 1 steps from the fresh run are still enough, with k by these tables. Row counts do not change, so
 * neither does the circuit: leave padding rows in the tables from the start.
 *   station   0 the left one, 1 the right one
 *   row       its number, from 1 over all tables: the left rows, then the right ones, then the public ones, which nobody replaces
 */

/* left, right: the two words of that row are positive and negative, all others as they were. The new row may be padding or empty.
 * Refusals: 1, 2, 4, 3, 12, 13, 15 (no padding row of that station), 16 (the run is closed), 3 (the new row has a bit at or above n). */
uint8_t forkhemit_replace(uint64_t n, uint64_t left_rows, uint64_t right_rows, uint64_t public_rows,
                          uint32_t *left, size_t left_length, uint32_t *right, size_t right_length,
                          const uint32_t *public_table, size_t public_length, const uint32_t run[FORKHEMIT_RUN_WORDS],
                          uint64_t station, uint64_t row, uint32_t positive, uint32_t negative);

/* The same with a lent index and number, which are judged as forkhemit_step_indexed judges them. index, number: those of the tables as they
 * then are, brought up to date with the row.
 * Refusals: 1, 2, 4, 3, 12, 13, 15, 16, 3. */
uint8_t forkhemit_replace_indexed(uint64_t n, uint64_t left_rows, uint64_t right_rows, uint64_t public_rows,
                                  uint32_t *left, size_t left_length, uint32_t *right, size_t right_length,
                                  const uint32_t *public_table, size_t public_length, const uint32_t run[FORKHEMIT_RUN_WORDS],
                                  uint64_t station, uint64_t row, uint32_t positive, uint32_t negative,
                                  uint64_t index[FORKHEMIT_INDEX_WORDS], uint64_t number[1]);

/* ---- the rule of each step */

/* The rule of the giant step that a step followed. These numbers are not those of the four rules in docs/PLANNERS.md: the second one there
 * is 2 and 3 here. */
enum forkhemit_rule {
    FORKHEMIT_NO_RULE = 0,                /* the run was closed already */
    FORKHEMIT_ALL_SATISFIED = 1,          /* all rows are satisfied: the run closes */
    FORKHEMIT_CONFLICT_WITH_LEVEL = 2,    /* a row is in conflict: the last level is removed and its variable goes to F */
    FORKHEMIT_CONFLICT_WITHOUT_LEVEL = 3, /* a row is in conflict and no level is left: the run closes */
    FORKHEMIT_FORCED = 4,                 /* a row forces a literal */
    FORKHEMIT_CHOSEN = 5                  /* a variable is chosen and goes to T */
};

/* run: after one giant step, in place, as forkhemit_step leaves it. explanation: rule, row, variable, value.
 *   rule      one of forkhemit_rule
 *   row       the lowest row in conflict, or the lowest that forces the very literal taken, its sign included; 0 where there is none.
 *             Rows count from 1: the left ones, then the right ones, then the public ones
 *   variable  the variable set, from 1, and value its value, 0 or 1: where a literal was forced or chosen, that one; in a conflict with a
 *             level the variable that goes to F, with 0; else 0 and 0
 * The rows are looked at twice, so forkhemit_step is faster.
 * Refusals: 1, 2, 4, 3, 12, 13. */
uint8_t forkhemit_step_explained(uint64_t n, uint64_t left_rows, uint64_t right_rows, uint64_t public_rows,
                                 const uint32_t *left, size_t left_length, const uint32_t *right, size_t right_length,
                                 const uint32_t *public_table, size_t public_length,
                                 uint32_t run[FORKHEMIT_RUN_WORDS], uint64_t explanation[4]);

/* Where the clause of a row is in the text that it was read from; rows count from 1, the left ones first, then the right ones.
 * place: station, 0 left or 1 right; the clause's first byte in that station's text, from 0; how many bytes, from the first literal through
 * the closing 0, with any remarks inside it. An empty clause is its 0. Start and length are 0 where the table's row no longer has the
 * clause's two words.
 * Refusals: 5 for an overlong text, the tables' 1, 2, 4, 3, then the left text's 1, 2 or 5, the right text's, 6, 17. */
uint8_t forkhemit_clause(uint64_t n, uint64_t left_rows, uint64_t right_rows, uint64_t public_rows,
                         const uint32_t *left, size_t left_length, const uint32_t *right, size_t right_length,
                         const uint32_t *public_table, size_t public_length, const uint8_t *left_text, size_t left_text_length,
                         const uint8_t *right_text, size_t right_text_length, uint64_t row, uint64_t place[3]);

/* The clause itself. bytes: those at the place that forkhemit_clause gives, copied over the front; the rest stays as it was. length: how
 * many they are; 0 where the table's row no longer has the clause's two words, and then no byte is written. FORKHEMIT_TEXT_BYTES take any
 * clause.
 * The refusals of forkhemit_clause, in its order, then 11 where the clause has more bytes than are lent. */
uint8_t forkhemit_excerpt(uint64_t n, uint64_t left_rows, uint64_t right_rows, uint64_t public_rows,
                          const uint32_t *left, size_t left_length, const uint32_t *right, size_t right_length,
                          const uint32_t *public_table, size_t public_length, const uint8_t *left_text, size_t left_text_length,
                          const uint8_t *right_text, size_t right_text_length, uint64_t row,
                          uint8_t *bytes, size_t bytes_length, uint64_t length[1]);

/* ---- proofs from other solvers */

/*
 * A public solver that says unsatisfiable writes why as a DRAT text, which is checked here against the tables. 0 says that no assignment
 * makes all their rows true, whoever wrote the text. Nothing is written, and the solver need not be trusted. Only the text form is read, as
 * `cadical --no-binary` writes it: a line is literals closed by 0, after `d` and a space where a clause is deleted. Spaces and tabs
 * separate the numbers and may begin or end a line, a CR may close it, and a line with nothing else is skipped.
 * A clause is added only if it follows from the rows present, the tables' and those added before. It follows if it holds a variable in both
 * signs, or if its negation and what rows then force, literal by literal, leave some row without a literal (RUP). The wider rule of the
 * format (RAT) is not accepted. A deletion removes one row of the same literals, a table's or an added one, or nothing where there is none;
 * unit clauses too.
 */

/* 0 where every clause that is added up to the empty one follows, and the empty one is added; lines after it are read for form only.
 * Refusals: 1, 2, 4, 3, 18 (malformed anywhere, as a literal above n; above FORKHEMIT_TEXT_BYTES; more than 256 additions), 19 (an addition
 * that does not follow), 20 (no empty clause). */
uint8_t forkhemit_check_proof(uint64_t n, uint64_t left_rows, uint64_t right_rows, uint64_t public_rows,
                              const uint32_t *left, size_t left_length, const uint32_t *right, size_t right_length,
                              const uint32_t *public_table, size_t public_length, const uint8_t *text, size_t text_length);

/* ---- who can force the roster */

/* Two sides fix the variables of one QDIMACS text in turn. The existential side wants all rows true, the universal side wants to prevent
 * that. Who can force its aim, whatever the other does?
 * The text is a DIMACS text of 1 to 128 rows and at most 12 variables with lines between header and clauses, such as `e 1 2 0` or `a 3 0`.
 * The letter is the line's first byte and says whose variables follow, at least one, closed by 0. They are fixed in the order of the lines.
 * Variables on no line are the existential side's and come first, by number. Remark lines may come anywhere, lines of separators alone
 * before any line.
 * answer: the winner, one of forkhemit_side; the first variable in that order, from 1, where the winner fixes it, else 0; a value with
 * which the winner still wins, 1 if both do, 0 where there is no variable.
 * Refusals: 5 for an overlong text, then 1, 2, 21, 5, 22. */
uint8_t forkhemit_game(const uint8_t *text, size_t text_length, uint64_t answer[3]);

/* ---- a table by columns */

/* planes: one table of 0 to 128 rows in squares of 32 rows by 32 variables, so that a word holds one variable over 32 rows. A square is 64
 * words, 32 of its positive plane and then 32 of its negative one, variable 1's word first in each, the first row in the lowest bit.
 * Squares follow in row order, (rows + 31) / 32 of them, and rows past the last are zero bits. Counted from 0, variable v of row r is bit
 * r % 32 of word 64 * (r / 32) + v where it is positive, and of the word 32 further on where it is negative. No rows have no square. Words
 * past the squares stay as they were, and words of the table past its rows are not read.
 * Refusals: 1, 2 (above 128), 4 for either buffer, 3. */
uint8_t forkhemit_columns(uint64_t n, uint64_t rows, const uint32_t *table, size_t table_length, uint32_t *planes, size_t planes_length);

/* table: the rows of such planes, two words a row: the inverse of forkhemit_columns, for every table and for all planes that are accepted.
 * Words past the rows stay as they were, and words of the planes past the squares are not read.
 * Refusals: 1, 2 (above 128), 4 for either buffer, 24. */
uint8_t forkhemit_rows(uint64_t n, uint64_t rows, const uint32_t *planes, size_t planes_length, uint32_t *table, size_t table_length);

/* ---- the circuit */

/* gates: the giant step's circuit, three words a gate: kind (0 XOR, 1 AND, 2 INV), first wire, second wire (0 for INV). count: how many
 * gates. forkhemit_evaluate and the line writers take 3 * count as gates_length, not the length of the whole buffer.
 * Refusals: 1, 2, 7. */
uint8_t forkhemit_generate(uint64_t n, uint64_t left_rows, uint64_t right_rows, uint64_t public_rows,
                           uint32_t *gates, size_t gates_length, uint64_t count[1]);

/* bytes: left rows, right rows, public rows and run, a byte a wire: the circuit's inputs, as many as forkhemit_sizes says.
 * Refusals: 1, 2, 4, 3, 10, 12, 13. */
uint8_t forkhemit_pack(uint64_t n, uint64_t left_rows, uint64_t right_rows, uint64_t public_rows,
                       const uint32_t *left, size_t left_length, const uint32_t *right, size_t right_length,
                       const uint32_t *public_table, size_t public_length,
                       const uint32_t run[FORKHEMIT_RUN_WORDS], uint8_t *bytes, size_t bytes_length);

/* wires: the inputs, then each gate's value, a byte each. All of inputs are inputs, and wires has room for inputs and gates. With the giant
 * step's circuit, i inputs, g gates and s state wires (forkhemit_sizes, forkhemit_generate):
 *   wires 0 to i - 1                  the inputs, as forkhemit_pack writes them. Left rows, right rows, public rows: for each row n wires for the
 *                                     variables that it holds positive, then n for those that it holds negative, variable 1 first. Then the state:
 *                                     T and F (n each); the depth (n + 1 wires, one of them 1, depth 0 first); for each of n levels T, F and the
 *                                     chosen variable (n each, of the last one wire is 1 where the level is used); satisfied, refuted
 *   wires i to i + g - 1              the gates' values, in the order of the gates
 *   wires i + g - s - 1 to i + g - 2  the next state, in the same order: lend it to forkhemit_read_back, or as the last s inputs once more
 *   wire i + g - 1                    the mark: 1 if the next state is closed, else 0.
 * Refusals: 9, 10. */
uint8_t forkhemit_evaluate(const uint32_t *gates, size_t gates_length, const uint8_t *inputs, size_t inputs_length,
                           uint8_t *wires, size_t wires_length);

/* run: the state of n variables that the front of the bytes holds, a byte a wire. Refusals: 1, 10, 12. */
uint8_t forkhemit_read_back(uint64_t n, const uint8_t *bytes, size_t bytes_length, uint32_t run[FORKHEMIT_RUN_WORDS]);

/* The circuit repeated on the run, in place, until the run is closed, at most so many times. In each repeat rows and run are packed, the
 * gates evaluated, and the next run is read back from the last wires. gates: the circuit, as forkhemit_generate writes it, whether or not
 * there is a repeat. bytes, wires: inputs and all wires of the last repeat; as they were without one. repeated: how many repeats were made,
 * the last mark: 1 if the run is closed, else 0.
 * Repeats end with the one that closes the run, or when they are as many as `times`; a run that is closed already has none, and its mark is
 * 1. With mark 0 call again with the same run to go on: the numbers of repeats add up.
 * Refusals: 1, 2, 4, 3, 7, 10 (bytes for the inputs, wires for inputs and gates), 12, 13. */
uint8_t forkhemit_repeat(uint64_t n, uint64_t left_rows, uint64_t right_rows, uint64_t public_rows,
                         const uint32_t *left, size_t left_length, const uint32_t *right, size_t right_length,
                         const uint32_t *public_table, size_t public_length, uint64_t times,
                         uint32_t *gates, size_t gates_length, uint8_t *bytes, size_t bytes_length,
                         uint8_t *wires, size_t wires_length, uint32_t run[FORKHEMIT_RUN_WORDS], uint64_t repeated[2]);

/* The circuit applied to a fresh run exactly as often as the budget says, at most FORKHEMIT_MOST_WHOLE times. It goes on after the run is
 * closed, and gives out no mark and no run, so nothing shows how many steps were needed. Verdict and model are those of forkhemit_solve
 * under the same budget.
 * gates: the circuit, as forkhemit_generate writes it. bytes, wires: zeros for the inputs, and for inputs and gates, with budget 0 too:
 * what a repeat leaves there would tell the rows and when the run closed. Time and stack are no part of this: see docs/BACKENDS.md.
 * answer: the budget, verdict (forkhemit_verdict), model as a word, 0 without one.
 * Refusals: 1, 2, 4, 3, 7, 23, 10 (bytes for the inputs, wires for inputs and gates). */
uint8_t forkhemit_solve_whole(uint64_t n, uint64_t left_rows, uint64_t right_rows, uint64_t public_rows,
                              const uint32_t *left, size_t left_length, const uint32_t *right, size_t right_length,
                              const uint32_t *public_table, size_t public_length, uint64_t budget,
                              uint32_t *gates, size_t gates_length, uint8_t *bytes, size_t bytes_length,
                              uint8_t *wires, size_t wires_length, uint64_t answer[3]);

/* ---- texts */

/* bytes: the line of this number, from 0, of the circuit text, with its LF: four lines, then one a gate. length: its bytes; 0 past the last
 * line. FORKHEMIT_LINE_BYTES take any line.
 * Refusals: 1, 2, 9, 11. */
uint8_t forkhemit_write_line(uint64_t n, uint64_t left_rows, uint64_t right_rows, uint64_t public_rows,
                             const uint32_t *gates, size_t gates_length, uint64_t line,
                             uint8_t *bytes, size_t bytes_length, uint64_t length[1]);

/* bytes: as many whole lines as fit, from that line on. written: lines, then bytes; 0 and 0 past the last line.
 * Refusals: 1, 2, 9, 11 where not even one line fits. */
uint8_t forkhemit_write_lines(uint64_t n, uint64_t left_rows, uint64_t right_rows, uint64_t public_rows,
                              const uint32_t *gates, size_t gates_length, uint64_t line,
                              uint8_t *bytes, size_t bytes_length, uint64_t written[2]);

/* budget: the number of a budget line, digits and LF, at most 100 bytes; bytes after the LF are not read. Refusals: 8. */
uint8_t forkhemit_read_budget(const uint8_t *line, size_t line_length, uint64_t budget[1]);

/* text: the answer as the pair program prints it, over the front; the rest stays as it was. length: its bytes, at most
 * FORKHEMIT_ANSWER_BYTES. A verdict that is no forkhemit_verdict is unknown; with satisfiable, the first n variables of the model are
 * printed.
 * Refusals: 1. */
uint8_t forkhemit_answer(uint64_t n, uint64_t count, uint64_t verdict, uint64_t model, uint8_t text[FORKHEMIT_ANSWER_BYTES],
                         uint64_t length[1]);

/* ---- the watch page */

/*
 * The roster as pilots read it. For p pilots and s watches with p * s = n, variable (i - 1) * s + j is pilot i on watch j. A line for each
 * pilot: the number right-aligned in 3 columns, for each watch a space and `#` for true or `.` for false, spaces up to column 79, and a
 * line feed. The page is FORKHEMIT_PAGE_LINE_BYTES times p bytes, without a closing 0. The two calls undo each other: the model that is
 * read off a page is the one that it was made from, and bytes that are read as a model are that model's page.
 */

/* page: that of the run's model, over the front of the lent bytes; a variable that the run left free is false.
 * Refusals: 12, 14 (the run is open or refuted), 25 (pilots times watches, as numbers, is not the run's n), 26 (fewer bytes are lent). */
uint8_t forkhemit_page(const uint32_t run[FORKHEMIT_RUN_WORDS], uint64_t pilots, uint64_t watches, uint8_t *page, size_t page_length);

/* model: the variables that the page shows as true, as a word. Bytes after the page are not read.
 * Refusals: 1, 25, 26, 27 (the first 80 bytes a pilot are no page of this form: every number, mark, space and line feed counts). */
uint8_t forkhemit_read_page(uint64_t n, uint64_t pilots, uint64_t watches, const uint8_t *page, size_t page_length, uint64_t model[1]);

#ifdef __cplusplus
}
#endif

#endif
