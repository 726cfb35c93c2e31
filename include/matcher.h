/*
 * The matcher for programs in C: every way in which patterns with metavariables and one-place functions fit expressions, in a fixed order.
 * docs/FORMAT.md says what the bytes mean and which refusal comes when; docs/TRUST.md what is proved of these functions and what is not.
 *
 * A problem is its bytes. A search of it goes from place to place:
 *
 *     uint64_t place[MATCHER_PLACE_WORDS], row[MATCHER_PLACE_WORDS];
 *     uint8_t text[MATCHER_LARGEST_WRITTEN];
 *     size_t written;
 *     uint32_t answer = matcher_start(problem, len, place, MATCHER_PLACE_WORDS);
 *     if (answer != MATCHER_OK) { puts(matcher_meaning(answer)); return; }
 *     do {
 *         answer = matcher_search(problem, len, place, MATCHER_PLACE_WORDS, row, MATCHER_PLACE_WORDS, 1000000);
 *         if (answer == MATCHER_FOUND) { matcher_write(problem, len, row, MATCHER_PLACE_WORDS, text, sizeof text, &written); .. }
 *     } while (answer == MATCHER_FOUND || answer == MATCHER_PAUSED);
 *
 * host/examples/list.c is a whole program. For x86-64 Linux:
 *
 *     tools/staticlib
 *     cc -Iinclude program.c target/staticlib/libtivagyesz.a
 *
 * Every function takes any bytes, words and buffers, and answers a number: MATCHER_OK, an answer of 256 or more, or a refusal. Of several
 * refusals that apply the first is given, in the order in which the function's description names them. After a refusal no buffer is changed.
 * A call that takes a problem takes it anew, and none keeps anything, so that calls may run side by side, in any thread. None allocates
 * memory. A thread with 192 KB of stack is enough: in tests none took more than 108.
 *
 * The caller owes what C cannot check:
 * - each pointer has as many elements as the length after it says (one, where there is none), and is not null even where that is 0;
 * - what a function writes to overlaps nothing else that it is given: so one buffer cannot be both `place` and `row`.
 */
#ifndef MATCHER_H
#define MATCHER_H

#include <stddef.h>
#include <stdint.h>

#ifdef __cplusplus
extern "C" {
#endif

/* Of this header. It rises whenever a number, a layout or a function in it changes. */
#define MATCHER_VERSION 3

/* Fields. A field is a tag, 1 byte; the length of its content, 2 bytes, high byte first; and its content:

       tag                             content
       MATCHER_SYMBOL          a term  number, 2 bytes, or 4 where it is 65,536 or more
       MATCHER_VARIABLE        a term  number, 2 bytes
       MATCHER_APPLICATION     a term  1 or more terms
       MATCHER_BINDER          a term  binder number, 2 bytes; bound variable, 2 bytes; one term
       MATCHER_METAVARIABLE    a term  number, 1 byte, 0 to 31; in patterns only
       MATCHER_FUNCTION        a term  number, 1 byte, 0 to 31; one term, the argument; in patterns only, and in no argument
       MATCHER_CONSTRAINT              a pattern, then the expression that it shall equal
       MATCHER_VALUE                   number, 1 byte; an expression
       MATCHER_BODY                    number, 1 byte; an expression in which MATCHER_HOLE may stand for a term
       MATCHER_HOLE            a term  nothing; in bodies only
       MATCHER_OPEN                    number, 1 byte

   A problem is constraints; a solution text is values, bodies and open metavariables, by ascending number. */
#define MATCHER_SYMBOL 1
#define MATCHER_VARIABLE 2
#define MATCHER_APPLICATION 3
#define MATCHER_BINDER 4
#define MATCHER_METAVARIABLE 5
#define MATCHER_FUNCTION 6
#define MATCHER_CONSTRAINT 7
#define MATCHER_VALUE 8
#define MATCHER_BODY 9
#define MATCHER_HOLE 10
#define MATCHER_OPEN 11

/* Limits, in bytes: the largest problem, the largest text that is checked, and the largest that is written. */
#define MATCHER_LARGEST_PROBLEM 4096
#define MATCHER_LARGEST_TEXT 8192
#define MATCHER_LARGEST_WRITTEN 4224

/* Limits on a problem: constraints, depth of terms, metavariables, functions, and nodes of what a function's first application faces. */
#define MATCHER_MAX_CONSTRAINTS 16
#define MATCHER_MAX_DEPTH 32
#define MATCHER_METAVARIABLES 32
#define MATCHER_MAX_FUNCTIONS 8
#define MATCHER_MAX_FACE_NODES 256

/* The words of a set of nodes of a face: node 64 * i + j is bit 63 - j of word i, so that node 0 is the highest bit of the first. */
#define MATCHER_SET_WORDS 4

/* A place is so many words: the set of holes of each of 8 functions by ascending metavariable number, then 0 for a row or 1 for past the last.
   So words 4 * k to 4 * k + 3 say which nodes of the k-th function's face, from 0, are holes; sets past the last function are empty. A row is
   a place that names a row. Past the last is 32 words 0 and then 1. Fewer words, or another 33rd, are no such place. A buffer may have more:
   those after the 33 are neither read nor changed. */
#define MATCHER_PLACE_WORDS 33

/* Done: what matcher_start, matcher_write and matcher_longest answer when they do not refuse. */
#define MATCHER_OK 0

/* Answers of matcher_search. */
#define MATCHER_FOUND 256
#define MATCHER_PAUSED 257
#define MATCHER_END 258

/* Answers of matcher_check. */
#define MATCHER_YES 259
#define MATCHER_NO 260

/* Refusals of a problem, by every function that takes one: the first that is met in reading, 1 to 11 or 25, then 13, then 14. There is no
   12: a problem in which a metavariable stands both as a function and alone is accepted, and has no rows, so that its search ends at once
   and no text passes. */
#define MATCHER_PROBLEM_TOO_LONG 1
#define MATCHER_HEAD_CUT_OFF 2
#define MATCHER_LENGTH_PAST_END 3
#define MATCHER_TAG_OUT_OF_PLACE 4
#define MATCHER_TOO_DEEP 5
#define MATCHER_FIXED_PART 6
#define MATCHER_INNER_FIELDS 7
#define MATCHER_PATTERN_IN_EXPRESSION 8
#define MATCHER_FUNCTION_IN_ARGUMENT 9
#define MATCHER_METAVARIABLE_OVER_31 10
#define MATCHER_TOO_MANY_CONSTRAINTS 11
#define MATCHER_TOO_MANY_FUNCTIONS 13
#define MATCHER_FACE_TOO_LARGE 14
#define MATCHER_SYMBOL_TOO_WIDE 25

/* Refusals of what else a function is given. */
#define MATCHER_NO_ALLOWANCE 15
#define MATCHER_NO_SUCH_PLACE 16
#define MATCHER_NOT_A_SOLUTION 17
#define MATCHER_BUFFER_TOO_SHORT 18
#define MATCHER_TEXT_TOO_LONG 19
#define MATCHER_TEXT_MALFORMED 20
#define MATCHER_TEXT_OUT_OF_ORDER 27
#define MATCHER_NODES_OUT_OF_RANGE 28
#define MATCHER_PROBLEM_BUFFER_TOO_SHORT 29

/* What a refusal means, in words; of a number that is no refusal it says so. */
static inline const char *matcher_meaning(uint32_t refusal) {
    switch (refusal) {
    case MATCHER_PROBLEM_TOO_LONG: return "the problem has over 4,096 bytes";
    case MATCHER_HEAD_CUT_OFF: return "only 1 or 2 bytes are left where a field begins";
    case MATCHER_LENGTH_PAST_END: return "a field's length goes past the enclosing end";
    case MATCHER_TAG_OUT_OF_PLACE: return "a tag has no place where it stands";
    case MATCHER_TOO_DEEP: return "a term stands deeper than 32";
    case MATCHER_FIXED_PART: return "a field's fixed part has a length that its tag does not allow, or an application is empty";
    case MATCHER_INNER_FIELDS: return "no inner field is left where one is due, or bytes are left after the last";
    case MATCHER_PATTERN_IN_EXPRESSION: return "a metavariable or function application stands in an expression";
    case MATCHER_FUNCTION_IN_ARGUMENT: return "a function application stands in an argument";
    case MATCHER_METAVARIABLE_OVER_31: return "a metavariable's number is over 31";
    case MATCHER_TOO_MANY_CONSTRAINTS: return "there is a 17th constraint";
    case MATCHER_TOO_MANY_FUNCTIONS: return "there are over 8 functions";
    case MATCHER_FACE_TOO_LARGE: return "a function's first application faces over 256 nodes";
    case MATCHER_NO_ALLOWANCE: return "the allowance is 0";
    case MATCHER_NO_SUCH_PLACE: return "there is no such place or row in this problem";
    case MATCHER_NOT_A_SOLUTION: return "the row is not a solution row";
    case MATCHER_BUFFER_TOO_SHORT: return "the buffer is too short";
    case MATCHER_TEXT_TOO_LONG: return "the text has over 8,192 bytes";
    case MATCHER_TEXT_MALFORMED:
        return "the text is not values, bodies and open metavariables with their contents, at most 32 deep and numbered at most 31";
    case MATCHER_SYMBOL_TOO_WIDE: return "a symbol's number below 65,536 has four bytes";
    case MATCHER_TEXT_OUT_OF_ORDER: return "a metavariable's number in the text is not above the one before it";
    case MATCHER_NODES_OUT_OF_RANGE: return "the number of nodes is not from 1 to 256";
    case MATCHER_PROBLEM_BUFFER_TOO_SHORT: return "the buffer is shorter than the problem";
    default: return "no refusal has this number";
    }
}

/* The start of the problem into `place`: its first row, or past the last if there is none.
   MATCHER_OK, or refused: 1 to 14 or 25; 18 where `words` is below MATCHER_PLACE_WORDS. */
uint32_t matcher_start(const uint8_t *problem, size_t len, uint64_t *place, size_t words);

/* The first solution row at or after `place`, looking at n rows before it pauses:
   - MATCHER_FOUND: the row in `row`, and the place after it in `place`;
   - MATCHER_PAUSED: at least n rows were passed with no solution row among them, and `place` is the row after them;
   - MATCHER_END: there is none, and `place` is past the last.
   `row` is written on MATCHER_FOUND only. Refused: 1 to 14 or 25; 15 if n is 0; 16 if `place` is no such place; 18 where `row_words` is below
   MATCHER_PLACE_WORDS, whatever the answer would have been.
   How long n rows take: a row some 0.3 microseconds on small problems and up to 50 on the largest, and reading the problem, once a call, 2 to
   20 microseconds and at worst 350, as measured on one machine. */
uint32_t matcher_search(const uint8_t *problem, size_t len, uint64_t *place, size_t words, uint64_t *row, size_t row_words, uint32_t n);

/* The text of the solution of `row` at the front of `out`, its length in `*written`, and no byte of `out` after it changed; with
   MATCHER_LARGEST_WRITTEN bytes there is room for every text. MATCHER_OK, or refused: 1 to 14 or 25; 16 if `row` is no such row, past the
   last included; 17 if it is not a solution row; 18 if `out` is too short. */
uint32_t matcher_write(const uint8_t *problem, size_t len, const uint64_t *row, size_t words, uint8_t *out, size_t out_len,
                       size_t *written);

/* Whether the filling that the text names is a solution of the problem: MATCHER_YES or MATCHER_NO. Metavariable numbers must rise from
   field to field, and bound names are free: two texts that pass name the same solution exactly when they differ only in bound names. A
   wrong or missing metavariable is a no. Refused: 1 to 14 or 25; 19 a text over 8,192 bytes; 20 a malformed one; 27 one whose numbers do
   not rise. */
uint32_t matcher_check(const uint8_t *problem, size_t len, const uint8_t *text, size_t text_len);

/* The problem with the longest list for n nodes at the front of `out`, its length in `*written`, and no byte of `out` after it changed: P(X)
   shall equal a symbol, for n = 1, or an application of n - 1 equal symbols; P, X and the symbol are 0, 1 and 0. It has 2^(n-1) + 1
   solutions, and P(X) against any other expression of n nodes has at most as many. With MATCHER_LARGEST_PROBLEM bytes there is room for it.
   MATCHER_OK, or refused: 28 if n is not from 1 to 256; 29 if `out` is too short. */
uint32_t matcher_longest(uint32_t n, uint8_t *out, size_t out_len, size_t *written);

#ifdef __cplusplus
}
#endif

#endif
