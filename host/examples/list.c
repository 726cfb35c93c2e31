/*
 * Lists the solutions of the problem on standard input, as document 01's program `readings` does, but goes on after a pause:
 *
 *     tools/staticlib
 *     cc -Iinclude -o target/list host/examples/list.c target/staticlib/libtivagyesz.a
 *     target/list < crates/readings/stdin
 */
#include "matcher.h"

#include <stdio.h>

/* One byte more than a problem may have: a longer one is then refused and not cut off. */
static uint8_t problem[MATCHER_LARGEST_PROBLEM + 1];

static int refused(uint32_t refusal) {
    printf("refused %u\n", (unsigned)refusal);
    fprintf(stderr, "list: %s\n", matcher_meaning(refusal));
    return 1;
}

static int print_solution(size_t len, const uint64_t *row, unsigned long number) {
    static uint8_t text[MATCHER_LARGEST_WRITTEN];
    size_t written;
    uint32_t answer = matcher_write(problem, len, row, MATCHER_PLACE_WORDS, text, sizeof text, &written);
    if (answer != MATCHER_OK) {
        return refused(answer);
    }
    printf("solution %lu:", number);
    for (size_t k = 0; k < written; k++) {
        printf("%02X", text[k]);
    }
    printf("\n");
    return 0;
}

static int list(size_t len) {
    uint64_t place[MATCHER_PLACE_WORDS], row[MATCHER_PLACE_WORDS];
    unsigned long found = 0;
    uint32_t answer = matcher_start(problem, len, place, MATCHER_PLACE_WORDS);
    if (answer != MATCHER_OK) {
        return refused(answer);
    }
    do {
        answer = matcher_search(problem, len, place, MATCHER_PLACE_WORDS, row, MATCHER_PLACE_WORDS, 1000000);
        if (answer == MATCHER_FOUND && print_solution(len, row, ++found) != 0) {
            return 1;
        }
    } while (answer == MATCHER_FOUND || answer == MATCHER_PAUSED);
    if (answer != MATCHER_END) {
        return refused(answer);
    }
    printf("end %lu\n", found);
    return 0;
}

int main(void) {
    size_t len = fread(problem, 1, sizeof problem, stdin);
    if (ferror(stdin)) {
        fprintf(stderr, "list: standard input cannot be read\n");
        return 2;
    }
    int status = list(len);
    if (fflush(stdout) != 0) {
        fprintf(stderr, "list: standard output cannot be written\n");
        return 2;
    }
    return status;
}
