/* The header's example of bursts: the line bytes on standard input are received as they come, and each vector is printed when it is known. */
#include "holzmotte.h"

#include <stdio.h>

static size_t came(uint8_t *bytes, size_t most) { return fread(bytes, 1, most, stdin); }

static void show(const uint8_t *vectors, uint64_t count)
{
    for (uint64_t i = 0; i < 10 * count; i++)
        printf(i % 10 == 9 ? "%02x\n" : "%02x", vectors[i]);
}

static uint64_t receive_as_it_comes(void)
{
    uint8_t state[HOLZMOTTE_STATE_BYTES], summary[HOLZMOTTE_RECEIVE_SUMMARY_BYTES], counters[HOLZMOTTE_COUNTERS_BYTES] = {0};
    uint8_t bytes[512], vectors[HOLZMOTTE_BURST_ROOM(sizeof bytes)];
    uint64_t result = holzmotte_begin(HOLZMOTTE_EDITION_OLD, state, sizeof state), before = 0;
    for (size_t n = 1; n > 0 && result == HOLZMOTTE_DONE;) {
        n = came(bytes, sizeof bytes);
        result = n > 0 ? holzmotte_burst(state, sizeof state, bytes, n, vectors, sizeof vectors, summary, sizeof summary,
                                         counters, sizeof counters)
                       : holzmotte_close(state, sizeof state, vectors, sizeof vectors, summary, sizeof summary,
                                         counters, sizeof counters);
        if (result == HOLZMOTTE_DONE) {
            uint64_t handed = holzmotte_word(summary, HOLZMOTTE_RECEIVE_VECTORS);
            show(vectors, handed - before);
            before = handed;
        }
    }
    return result;
}

int main(void)
{
    uint64_t result = receive_as_it_comes();
    if (result != HOLZMOTTE_DONE)
        fprintf(stderr, "in_bursts: %s\n", holzmotte_refusal_text(HOLZMOTTE_NUMBER(result)));
    return result != HOLZMOTTE_DONE || fflush(stdout) != 0;
}
