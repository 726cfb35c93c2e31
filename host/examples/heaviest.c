/*
 * Counts the solutions of the problem with the longest list for a number of nodes, and has each one checked:
 *
 *     tools/staticlib
 *     cc -Iinclude -o target/heaviest host/examples/heaviest.c target/staticlib/libtivagyesz.a
 *     target/heaviest 12
 */
#include "matcher.h"

#include <errno.h>
#include <stdio.h>
#include <stdlib.h>

static uint8_t problem[MATCHER_LARGEST_PROBLEM];

static int refused(uint32_t refusal) {
    fprintf(stderr, "heaviest: refused %u: %s\n", (unsigned)refusal, matcher_meaning(refusal));
    return 1;
}

/* Whether the text of a row passes: MATCHER_YES or MATCHER_NO, or a refusal. */
static uint32_t checked(size_t len, const uint64_t *row) {
    static uint8_t text[MATCHER_LARGEST_WRITTEN];
    size_t written;
    uint32_t answer = matcher_write(problem, len, row, MATCHER_PLACE_WORDS, text, sizeof text, &written);
    return answer == MATCHER_OK ? matcher_check(problem, len, text, written) : answer;
}

static int count(size_t len) {
    uint64_t place[MATCHER_PLACE_WORDS], row[MATCHER_PLACE_WORDS];
    unsigned long passed = 0;
    uint32_t answer = matcher_start(problem, len, place, MATCHER_PLACE_WORDS);
    if (answer != MATCHER_OK) {
        return refused(answer);
    }
    do {
        answer = matcher_search(problem, len, place, MATCHER_PLACE_WORDS, row, MATCHER_PLACE_WORDS, 1000000);
        passed += answer == MATCHER_FOUND && checked(len, row) == MATCHER_YES;
    } while (answer == MATCHER_FOUND || answer == MATCHER_PAUSED);
    if (answer != MATCHER_END) {
        return refused(answer);
    }
    printf("%lu solutions\n", passed);
    return 0;
}

int main(int argc, char **argv) {
    char *end = NULL;
    errno = 0;
    unsigned long nodes = argc == 2 ? strtoul(argv[1], &end, 10) : 0;
    if (argc != 2 || end == argv[1] || *end != '\0' || errno != 0 || nodes > UINT32_MAX) {
        fprintf(stderr, "usage: heaviest NODES, a number from 1 to 256\n");
        return 2;
    }
    size_t len;
    uint32_t answer = matcher_longest((uint32_t)nodes, problem, sizeof problem, &len);
    return answer == MATCHER_OK ? count(len) : refused(answer);
}
