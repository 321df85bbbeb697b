/* What the library does for a C program, call by call: target/c/example target/c/day */
#include "record_seals.h"

#include <inttypes.h>
#include <stdio.h>
#include <stdlib.h>

static void print_words(const char *what, const uint64_t *words, size_t n) {
    printf("%s:", what);
    for (size_t i = 0; i < n; i++)
        printf(" %" PRIu64, words[i]);
    printf("\n");
}

/* The program hands over what fits, so that a refusal is a mistake of its own. */
static void must(uint8_t answer) {
    if (answer != SEALS_GRANTED) {
        fprintf(stderr, "refused with %d\n", answer);
        exit(1);
    }
}

static void permute_and_back(void) {
    uint64_t state[12];
    for (size_t i = 0; i < 12; i++)
        state[i] = i;
    must(rpo128_permute_state(state, 12));
    print_words("permuted", state, 12);
    must(rpo128_reverse_state(state, 12));
    print_words("reversed", state, 12);
}

static void print_check(const uint64_t root[4], const uint64_t record[3], const uint64_t path[4]) {
    size_t index = 0;
    uint8_t answer = rpo128_check(root, 4, 1, 0, true, record, 3, path, 4, &index);
    if (answer == SEALS_ACCEPTED)
        printf("accepted\n");
    else if (answer == SEALS_NOT_ACCEPTED)
        printf("not accepted\n");
    else if (answer == SEALS_NOT_ELEMENT)
        printf("refused with %d, word %zu\n", answer, index);
    else
        printf("refused with %d\n", answer);
}

/* Two records, the root of the tree over them, and the opening of the first. */
static void tree_of_two(void) {
    uint64_t first[3] = {4123, 4127, 4119};
    const uint64_t second[2] = {992, 993};
    uint64_t left[4], right[4], root[4];
    must(rpo128_digest(first, 3, left, 4));
    must(rpo128_digest(second, 2, right, 4));
    must(rpo128_pair(left, 4, right, 4, root, 4));
    print_words("digest", left, 4);
    print_words("root", root, 4);
    print_check(root, first, right);
    first[1]++;
    print_check(root, first, right);
    first[1] = SEALS_P;
    print_check(root, first, right);
}

/* Under the drill kind clashes are easy: two openings of place 1 that one root fits. */
static void clash(void) {
    const uint64_t root[1] = {28}, first[2] = {4, 5}, first_path[1] = {0}, second[2] = {13, 0}, second_path[1] = {2};
    uint64_t pairs[4];
    uint8_t kind = 0;
    size_t level = 0, index = 0;
    must(drill_find(root, 1, 1, 1, true, first, 2, first_path, 1, true, second, 2, second_path, 1, pairs, 4, &kind, &level, &index));
    printf("clash %d at level %zu\n", kind, level);
    print_words("pairs", pairs, 4);
}

/* The lines of a script: first how long they are, then they. */
static void day(const uint8_t *script, size_t n) {
    size_t size = 0;
    if (script_lines(script, n, NULL, 0, &size) != SEALS_BAD_BUFFER)
        return;
    uint8_t *lines = malloc(size);
    if (lines == NULL)
        exit(1);
    must(script_lines(script, n, lines, size, &size));
    fwrite(lines, 1, size, stdout);
    free(lines);
}

int main(int argc, char **argv) {
    static uint8_t script[65537];
    FILE *file = argc == 2 ? fopen(argv[1], "rb") : NULL;
    if (file == NULL) {
        fprintf(stderr, "usage: example SCRIPT\n");
        return 1;
    }
    size_t n = fread(script, 1, sizeof script, file);
    fclose(file);
    permute_and_back();
    tree_of_two();
    clash();
    day(script, n);
    return 0;
}
