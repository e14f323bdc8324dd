/* The header's example of records: the capture on standard input is read record by record, and a line is printed for each. */
#include "holzmotte.h"

#include <stdio.h>

static void show(uint64_t kind, const uint8_t *body, uint64_t bytes)
{
    printf("kind %d, %lu bytes:", (int)kind, (unsigned long)bytes);
    for (uint64_t i = 0; i < bytes && i < 8; i++)
        printf(" %02x", body[i]);
    puts(bytes > 8 ? " .." : "");
}

static uint64_t read_all(const uint8_t *file, size_t file_len)
{
    uint8_t summary[HOLZMOTTE_READ_SUMMARY_BYTES];
    uint64_t place = 0, result;
    while ((result = holzmotte_read_record(file, file_len, place, summary, sizeof summary)) == HOLZMOTTE_DONE &&
           holzmotte_word(summary, HOLZMOTTE_READ_FOUND)) {
        show(holzmotte_word(summary, HOLZMOTTE_READ_KIND), file + holzmotte_word(summary, HOLZMOTTE_READ_START),
             holzmotte_word(summary, HOLZMOTTE_READ_LENGTH));
        place = holzmotte_word(summary, HOLZMOTTE_READ_NEXT);
    }
    return result;
}

int main(void)
{
    static uint8_t file[1000000];
    uint64_t result = read_all(file, fread(file, 1, sizeof file, stdin));
    if (result != HOLZMOTTE_DONE)
        fprintf(stderr, "records: %s, at byte %lu\n", holzmotte_refusal_text(HOLZMOTTE_NUMBER(result)), (unsigned long)HOLZMOTTE_PLACE(result));
    return result != HOLZMOTTE_DONE || fflush(stdout) != 0;
}
