/* The header's example of frames: the vectors on standard input, ten bytes each, are listed as frames, a line for each. */
#include "holzmotte.h"

#include <stdio.h>

static void show(uint32_t word, uint32_t octets, uint32_t good)
{
    printf("word %lu: %lu octets, %s\n", (unsigned long)word, (unsigned long)octets, good ? "good" : "bad");
}

static uint64_t show_frames(const uint8_t *vectors, size_t vectors_len, uint8_t *list, size_t list_len)
{
    uint8_t summary[HOLZMOTTE_FRAMES_SUMMARY_BYTES];
    uint64_t result = holzmotte_frames(vectors, vectors_len, list, list_len, summary, sizeof summary);
    for (uint64_t i = 0; i < holzmotte_word(summary, HOLZMOTTE_FRAMES_NUMBER); i++)
        show(holzmotte_frame(list, i, HOLZMOTTE_FRAME_WORD), holzmotte_frame(list, i, HOLZMOTTE_FRAME_OCTETS),
             holzmotte_frame(list, i, HOLZMOTTE_FRAME_GOOD));
    return result;
}

int main(void)
{
    static uint8_t vectors[HOLZMOTTE_MAX_VECTOR_BYTES + 1], list[HOLZMOTTE_FRAMES_ROOM(HOLZMOTTE_MAX_VECTOR_BYTES)];
    uint64_t result = show_frames(vectors, fread(vectors, 1, sizeof vectors, stdin), list, sizeof list);
    if (result != HOLZMOTTE_DONE)
        fprintf(stderr, "frames: %s\n", holzmotte_refusal_text(HOLZMOTTE_NUMBER(result)));
    return result != HOLZMOTTE_DONE || fflush(stdout) != 0;
}
