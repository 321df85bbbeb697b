/*
 * Makes the calls that its input asks for, a line each, and prints what they answer and leave. tools/from_c compares that with the
 * reference model. A list is its length and its words; "-" is NULL with length 0. Room for an answer is filled with 1000, 1001, ..
 */
#include "record_seals.h"

#include <inttypes.h>
#include <stdio.h>
#include <stdlib.h>
#include <string.h>

struct list {
    uint64_t *words;
    size_t n;
};

struct kind {
    uint8_t (*digest)(const uint64_t *, size_t, uint64_t *, size_t);
    uint8_t (*pair)(const uint64_t *, size_t, const uint64_t *, size_t, uint64_t *, size_t);
    uint8_t (*permute)(uint64_t *, size_t);
    uint8_t (*reverse)(uint64_t *, size_t);
    uint8_t (*check)(const uint64_t *, size_t, size_t, size_t, bool, const uint64_t *, size_t, const uint64_t *, size_t, size_t *);
    uint8_t (*find)(const uint64_t *, size_t, size_t, size_t, bool, const uint64_t *, size_t, const uint64_t *, size_t, bool,
                    const uint64_t *, size_t, const uint64_t *, size_t, uint64_t *, size_t, uint8_t *, size_t *, size_t *);
};

static const struct kind kinds[3] = {
    {drill_digest, drill_pair, drill_permute_state, NULL, drill_check, drill_find},
    {rpo128_digest, rpo128_pair, rpo128_permute_state, rpo128_reverse_state, rpo128_check, rpo128_find},
    {rpo160_digest, rpo160_pair, rpo160_permute_state, rpo160_reverse_state, rpo160_check, rpo160_find},
};

static const char *take(void) {
    const char *token = strtok(NULL, " \n");
    if (token == NULL) {
        fprintf(stderr, "a line is cut short\n");
        exit(1);
    }
    return token;
}

static uint64_t take_number(void) { return strtoull(take(), NULL, 10); }

static void *block(size_t n, size_t size) {
    void *p = calloc(n + 1, size);
    if (p == NULL)
        exit(1);
    return p;
}

/* Room for as many words as are told; "-" is NULL with length 0. Memory is not given back: the program ends soon. */
static struct list take_size(void) {
    const char *token = take();
    if (strcmp(token, "-") == 0)
        return (struct list){NULL, 0};
    struct list list = {NULL, strtoull(token, NULL, 10)};
    list.words = block(list.n, sizeof *list.words);
    return list;
}

static struct list take_list(void) {
    struct list list = take_size();
    for (size_t i = 0; i < list.n; i++)
        list.words[i] = take_number();
    return list;
}

static struct list take_room(void) {
    struct list list = take_size();
    for (size_t i = 0; i < list.n; i++)
        list.words[i] = 1000 + i;
    return list;
}

static void print_words(struct list list) {
    for (size_t i = 0; i < list.n; i++)
        printf(" %" PRIu64, list.words[i]);
    printf("\n");
}

static void digest(const struct kind *kind) {
    struct list words = take_list(), out = take_room();
    printf("%d", kind->digest(words.words, words.n, out.words, out.n));
    print_words(out);
}

static void pair(const struct kind *kind) {
    struct list a = take_list(), b = take_list(), out = take_room();
    printf("%d", kind->pair(a.words, a.n, b.words, b.n, out.words, out.n));
    print_words(out);
}

static void mix(uint8_t (*call)(uint64_t *, size_t)) {
    struct list state = take_list();
    printf("%d", call(state.words, state.n));
    print_words(state);
}

static void check(const struct kind *kind) {
    struct list root = take_list();
    size_t depth = take_number(), place = take_number(), index = 999;
    bool has_record = take_number();
    struct list record = take_list(), path = take_list();
    uint8_t answer =
        kind->check(root.words, root.n, depth, place, has_record, record.words, record.n, path.words, path.n, &index);
    printf("%d %zu\n", answer, index);
}

static void find(const struct kind *kind) {
    struct list root = take_list();
    size_t depth = take_number(), place = take_number(), level = 998, index = 999;
    bool first_has = take_number();
    struct list first = take_list(), first_path = take_list();
    bool second_has = take_number();
    struct list second = take_list(), second_path = take_list(), out = take_room();
    uint8_t clash = 97;
    uint8_t answer = kind->find(root.words, root.n, depth, place, first_has, first.words, first.n, first_path.words, first_path.n,
                                second_has, second.words, second.n, second_path.words, second_path.n, out.words, out.n, &clash,
                                &level, &index);
    printf("%d %d %zu %zu", answer, clash, level, index);
    print_words(out);
}

/* Bytes as a list of numbers. */
static uint8_t *bytes_of(struct list list) {
    uint8_t *bytes = list.words == NULL ? NULL : block(list.n, 1);
    for (size_t i = 0; i < list.n; i++)
        bytes[i] = (uint8_t)list.words[i];
    return bytes;
}

static void script(void) {
    struct list commands = take_list(), out = take_room();
    uint8_t *from = bytes_of(commands), *to = bytes_of(out);
    size_t written = 997;
    printf("%d", script_lines(from, commands.n, to, out.n, &written));
    printf(" %zu", written);
    for (size_t i = 0; i < out.n; i++)
        out.words[i] = to[i];
    print_words(out);
}

static void answer(const char *call, const struct kind *kind) {
    if (strcmp(call, "digest") == 0)
        digest(kind);
    else if (strcmp(call, "pair") == 0)
        pair(kind);
    else if (strcmp(call, "permute") == 0)
        mix(kind->permute);
    else if (strcmp(call, "reverse") == 0)
        mix(kind->reverse);
    else if (strcmp(call, "check") == 0)
        check(kind);
    else if (strcmp(call, "find") == 0)
        find(kind);
    else
        script();
}

int main(void) {
    static char line[1 << 20];
    while (fgets(line, sizeof line, stdin) != NULL) {
        const char *call = strtok(line, " \n");
        if (call != NULL)
            answer(call, &kinds[take_number() % 3]);
    }
    return 0;
}
