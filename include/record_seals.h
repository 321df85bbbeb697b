/*
 * Proved seals for records: what a C program calls. The library is written in Rattle, and each function below is proved to
 * answer and to leave exactly what its definition says. docs/FROM-C.md says how to build and link it.
 *
 * Kinds. drill_ is the kind for drills and tests, rpo128_ and rpo160_ are Rescue-Prime Optimized.
 *
 *     kind       digest: w words   state: m words
 *     drill      1                 3
 *     rpo128     4                 12
 *     rpo160     5                 16
 *
 * A word is an element where it is below SEALS_P.
 *
 * Answers. Each function answers by number: 0, or why it did nothing (enum seals_answer). Where several causes are there, the
 * first in the order that is given at the function decides. A call that is refused leaves every buffer as it was. SEALS_NOT_ELEMENT
 * speaks of the first word that is no element: the check and the finder tell its index; else it is the first in what was handed
 * over, a before b.
 *
 * Buffers. A pointer and the number of words behind it, or of bytes for a script. With number 0 the pointer is not followed and may
 * be NULL: that is an empty buffer, refused by its length where it must not be empty. What a caller owes and no call can test:
 *   - a pointer with a number above 0 leads to that many words or bytes, aligned as their type asks;
 *   - index, clash, level and written lead to a variable each, never NULL;
 *   - what a call writes lies apart from everything else that it is handed.
 *
 * A call keeps nothing for the next one, so that threads may call at the same time, each with buffers of its own.
 */
#ifndef RECORD_SEALS_H
#define RECORD_SEALS_H

#include <stddef.h>
#include <stdint.h>

#ifndef __cplusplus
#include <stdbool.h>
#endif

#ifdef __cplusplus
extern "C" {
#endif

/* 2^64 - 2^32 + 1 */
#define SEALS_P UINT64_C(0xFFFFFFFF00000001)

enum seals_answer {
    SEALS_GRANTED = 0,
    SEALS_ACCEPTED = 0,             /* of a check */
    SEALS_DEPTH_TOO_LARGE = 1,      /* a depth above 8 */
    SEALS_NO_SUCH_PLACE = 3,        /* a place that is not below 2^depth */
    SEALS_BAD_LENGTH = 4,           /* a record of 0 words or of more than 4,096 */
    SEALS_NOT_ELEMENT = 7,          /* a word that is not below SEALS_P */
    SEALS_BAD_BUFFER = 10,          /* a buffer of the wrong length */
    SEALS_FIRST_NOT_ACCEPTED = 11,  /* of the finder: the first opening comes to another root */
    SEALS_SECOND_NOT_ACCEPTED = 12, /* of the finder: the second opening does */
    SEALS_OPENINGS_ALIKE = 13,      /* of the finder: both openings are one */
    SEALS_NOT_ACCEPTED = 200,       /* of a check: nothing is refused, and the opening comes to another root */
    SEALS_NO_MEMORY = 201           /* of a script: malloc gave no memory */
};

/*
 * The digest of a record of 1 to 4,096 words; out has w words.
 * Order: BAD_LENGTH, BAD_BUFFER, NOT_ELEMENT.
 */
uint8_t drill_digest(const uint64_t *words, size_t words_len, uint64_t *out, size_t out_len);
uint8_t rpo128_digest(const uint64_t *words, size_t words_len, uint64_t *out, size_t out_len);
uint8_t rpo160_digest(const uint64_t *words, size_t words_len, uint64_t *out, size_t out_len);

/*
 * The two-to-one hash of a and b; a, b and out have w words each.
 * Order: BAD_BUFFER, NOT_ELEMENT.
 */
uint8_t drill_pair(const uint64_t *a, size_t a_len, const uint64_t *b, size_t b_len, uint64_t *out, size_t out_len);
uint8_t rpo128_pair(const uint64_t *a, size_t a_len, const uint64_t *b, size_t b_len, uint64_t *out, size_t out_len);
uint8_t rpo160_pair(const uint64_t *a, size_t a_len, const uint64_t *b, size_t b_len, uint64_t *out, size_t out_len);

/*
 * The permutation of a state of m words in place, and its reverse, which undoes it; the drill kind has no reverse.
 * Order: BAD_BUFFER, NOT_ELEMENT.
 */
uint8_t drill_permute_state(uint64_t *state, size_t state_len);
uint8_t rpo128_permute_state(uint64_t *state, size_t state_len);
uint8_t rpo160_permute_state(uint64_t *state, size_t state_len);
uint8_t rpo128_reverse_state(uint64_t *state, size_t state_len);
uint8_t rpo160_reverse_state(uint64_t *state, size_t state_len);

/*
 * The check of an opening: whether a claim at a place of a tree belongs to a root. SEALS_ACCEPTED, and no other answer, says that
 * it does. The claim is the record where has_record is true, else that the place is empty; the record is not looked at then.
 * root has w words, path depth * w, the leaf's sibling first.
 * A root belongs to one depth: under the same root a check at another depth can accept a record that nobody measured, as two
 * neighbouring nodes pass for a record at a smaller depth. So depth, as the kind, has to come from where the root comes from, and
 * never from whoever hands over the opening.
 * Order: DEPTH_TOO_LARGE, NO_SUCH_PLACE, BAD_LENGTH, BAD_BUFFER, NOT_ELEMENT, NOT_ACCEPTED.
 * With NOT_ELEMENT *index is where the word stands, counted through root, record (if one is claimed) and path; with any other answer
 * it is as it was.
 */
uint8_t drill_check(const uint64_t *root, size_t root_len, size_t depth, size_t place, bool has_record,
                    const uint64_t *record, size_t record_len, const uint64_t *path, size_t path_len, size_t *index);
uint8_t rpo128_check(const uint64_t *root, size_t root_len, size_t depth, size_t place, bool has_record,
                     const uint64_t *record, size_t record_len, const uint64_t *path, size_t path_len, size_t *index);
uint8_t rpo160_check(const uint64_t *root, size_t root_len, size_t depth, size_t place, bool has_record,
                     const uint64_t *record, size_t record_len, const uint64_t *path, size_t path_len, size_t *index);

/* What the finder shows. */
enum seals_clash {
    SEALS_CLASH_PAIRS = 1,       /* two different pairs of digests with one two-to-one hash */
    SEALS_CLASH_RECORDS = 2,     /* the two records, which differ and have one digest */
    SEALS_CLASH_FIRST_ZERO = 3,  /* the first record, whose digest is all zeros */
    SEALS_CLASH_SECOND_ZERO = 4  /* the second record, whose digest is all zeros */
};

/*
 * The finder: the first clash from the root downward that two openings of one place show, both accepted and different. Claims and
 * paths are as for the check; out has 4 * w words. Granted, *clash is one of enum seals_clash. With SEALS_CLASH_PAIRS *level is the
 * level of the pairs, 0 that of the leaves, and out holds both, the first opening's first; with any other *level and out are as
 * they were.
 * Order: DEPTH_TOO_LARGE, NO_SUCH_PLACE, BAD_LENGTH, BAD_BUFFER, NOT_ELEMENT, FIRST_NOT_ACCEPTED, SECOND_NOT_ACCEPTED,
 * OPENINGS_ALIKE. With NOT_ELEMENT *index is where the word stands, counted through root, first record, first path, second record
 * and second path, the records that are claimed; with any other answer it is as it was.
 */
uint8_t drill_find(const uint64_t *root, size_t root_len, size_t depth, size_t place, bool first_has_record,
                   const uint64_t *first_record, size_t first_record_len, const uint64_t *first_path, size_t first_path_len,
                   bool second_has_record, const uint64_t *second_record, size_t second_record_len,
                   const uint64_t *second_path, size_t second_path_len, uint64_t *out, size_t out_len, uint8_t *clash,
                   size_t *level, size_t *index);
uint8_t rpo128_find(const uint64_t *root, size_t root_len, size_t depth, size_t place, bool first_has_record,
                    const uint64_t *first_record, size_t first_record_len, const uint64_t *first_path, size_t first_path_len,
                    bool second_has_record, const uint64_t *second_record, size_t second_record_len,
                    const uint64_t *second_path, size_t second_path_len, uint64_t *out, size_t out_len, uint8_t *clash,
                    size_t *level, size_t *index);
uint8_t rpo160_find(const uint64_t *root, size_t root_len, size_t depth, size_t place, bool first_has_record,
                    const uint64_t *first_record, size_t first_record_len, const uint64_t *first_path, size_t first_path_len,
                    bool second_has_record, const uint64_t *second_record, size_t second_record_len,
                    const uint64_t *second_path, size_t second_path_len, uint64_t *out, size_t out_len, uint8_t *clash,
                    size_t *level, size_t *index);

/*
 * A lot by script: runs a script of commands (docs/SCRIPT.md) on a new lot and puts all its lines at the front of out, one for each
 * command, each ended by a line feed and no byte 0 after the last. A command that is refused has its line too, and the answer is
 * granted all the same. *written is how many bytes the lines have. Where out has fewer the answer is BAD_BUFFER, out is as it was,
 * and *written says what is needed, so that a first call with NULL and 0 asks for it. No line has more than 1,024 bytes.
 * The only call that takes memory (malloc, realloc and free, all given back at its end): with NO_MEMORY out and *written are as they
 * were. Not for a signal handler, nor for the forked child of a process with threads.
 */
uint8_t script_lines(const uint8_t *script, size_t script_len, uint8_t *out, size_t out_len, size_t *written);

#ifdef __cplusplus
}
#endif

#endif
