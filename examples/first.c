/* The README's eleven lines: a line of nine zero bytes is received. */
#include "holzmotte.h"

#include <stdio.h>

int main(void)
{
    uint8_t line[9] = {0}, vectors[HOLZMOTTE_VECTOR_ROOM(sizeof line)], summary[HOLZMOTTE_RECEIVE_SUMMARY_BYTES];
    uint8_t counters[HOLZMOTTE_COUNTERS_BYTES] = {0}; /* a total over all calls that lend it */
    uint64_t result = holzmotte_receive(HOLZMOTTE_EDITION_OLD, line, sizeof line, vectors, sizeof vectors, summary, sizeof summary,
                                        counters, sizeof counters);
    if (result != HOLZMOTTE_DONE) {
        printf("refused %d at %llu\n", HOLZMOTTE_NUMBER(result), (unsigned long long)HOLZMOTTE_PLACE(result));
        return 1;
    }
    for (uint64_t i = 0; i < 10 * holzmotte_word(summary, HOLZMOTTE_RECEIVE_VECTORS); i++)
        printf("%02x", vectors[i]);
    printf(" locked %d\n", (int)holzmotte_word(summary, HOLZMOTTE_RECEIVE_LOCKED));
    return 0;
}
