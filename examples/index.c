/* The header's example of an index: of the vectors on standard input, ten bytes each, the numbers of the error vectors, a line for each. */
#include "holzmotte.h"

#include <stdio.h>

static void show(uint64_t vector) { printf("vector %llu\n", (unsigned long long)vector); }

static uint64_t show_errors(const uint8_t *vectors, size_t vectors_len, const uint8_t *index, size_t index_len,
                            uint64_t a, uint64_t b)
{
    uint8_t before[HOLZMOTTE_COUNT_SUMMARY_BYTES], inside[HOLZMOTTE_COUNT_SUMMARY_BYTES], found[HOLZMOTTE_FIND_SUMMARY_BYTES];
    uint64_t result = holzmotte_count(vectors, vectors_len, index, index_len, a, b, inside, sizeof inside);
    if (result == HOLZMOTTE_DONE)
        result = holzmotte_count(vectors, vectors_len, index, index_len, 0, a, before, sizeof before);
    for (uint64_t i = 1; result == HOLZMOTTE_DONE && i <= holzmotte_word(inside, HOLZMOTTE_COUNTED_ERRORS); i++) {
        uint64_t n = holzmotte_word(before, HOLZMOTTE_COUNTED_ERRORS) + i;
        result = holzmotte_find_error(vectors, vectors_len, index, index_len, n, found, sizeof found);
        if (result == HOLZMOTTE_DONE)
            show(holzmotte_word(found, HOLZMOTTE_FOUND_VECTOR));
    }
    return result;
}

int main(void)
{
    static uint8_t vectors[HOLZMOTTE_MAX_VECTOR_BYTES + 1], index[HOLZMOTTE_INDEX_BYTES(HOLZMOTTE_MAX_VECTOR_BYTES + 1)];
    size_t vectors_len = fread(vectors, 1, sizeof vectors, stdin), index_len = HOLZMOTTE_INDEX_BYTES(vectors_len);
    uint64_t result = holzmotte_index(vectors, vectors_len, index, index_len);
    if (result == HOLZMOTTE_DONE)
        result = show_errors(vectors, vectors_len, index, index_len, 0, vectors_len / HOLZMOTTE_VECTOR_BYTES);
    if (result != HOLZMOTTE_DONE)
        fprintf(stderr, "index: %s\n", holzmotte_refusal_text(HOLZMOTTE_NUMBER(result)));
    return result != HOLZMOTTE_DONE || fflush(stdout) != 0;
}
