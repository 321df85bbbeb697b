/*
 * Runs a script with more and more memory: until it is enough, SEALS_NO_MEMORY leaves the buffer and `written` as they were.
 * tools/from_c links it so that the library's malloc and realloc are those below.
 */
#include "record_seals.h"

#include <stdio.h>
#include <stdlib.h>

static int blocks_left;

void *__real_malloc(size_t n);
void *__real_realloc(void *block, size_t n);

void *__wrap_malloc(size_t n) { return blocks_left-- > 0 ? __real_malloc(n) : NULL; }

void *__wrap_realloc(void *block, size_t n) { return blocks_left-- > 0 ? __real_realloc(block, n) : NULL; }

int main(void) {
    const uint8_t script[3] = {1, 0, 0};
    for (int blocks = 0; blocks < 100; blocks++) {
        uint8_t out[4] = "....";
        size_t written = 77;
        blocks_left = blocks;
        uint8_t answer = script_lines(script, 3, out, 4, &written);
        printf("%d %zu %.2s\n", answer, written, (const char *)out);
        if (answer != SEALS_NO_MEMORY)
            return 0;
    }
    return 1;
}
