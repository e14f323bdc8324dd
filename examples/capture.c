/* capture SCENE: writes a small capture file to standard output, for linkwatch to read. The library sends a list of vectors: idles,
 * a far end that reports Remote Fault, frames. The scenes:
 *   clean    the line as it was sent
 *   noise    a header bit of a frame's block is flipped, and a stretch of the line is noise
 *   fibre    one bit in 3,001 is flipped, from block 70 on
 *   sender   the line is whole, and the far end sends five errors before its last idles
 *   cut      the capture stops with the byte in which the last frame's Terminate ends
 *   fault    another list: the far end reports Local Fault, and two flipped bits make a Remote Fault of one (the header's example)
 *   faults   the same, with two flipped bits in the second word: the first stays a Local Fault
 *   saving   another list, sent in the new edition: between its frames the link goes into low power idle, and idles wake it */
#include "holzmotte.h"

#include <stdio.h>
#include <string.h>

static uint8_t vectors[HOLZMOTTE_MAX_VECTOR_BYTES], line[HOLZMOTTE_MAX_LINE_BYTES], summary[HOLZMOTTE_SEND_SUMMARY_BYTES];
static size_t vectors_len;

static const uint8_t IDLE[] = HOLZMOTTE_IDLE_VECTOR, LOW_POWER[] = HOLZMOTTE_LOW_POWER_IDLE_VECTOR, ERROR[] = HOLZMOTTE_ERROR_VECTOR;
static const uint8_t LOCAL_FAULT[] = HOLZMOTTE_LOCAL_FAULT_VECTOR, REMOTE_FAULT[] = HOLZMOTTE_REMOTE_FAULT_VECTOR;
static const uint8_t START[] = {0x01, HOLZMOTTE_START, 0x55, 0x55, 0x55, 0x00, 0x55, 0x55, 0x55, 0xd5};
static const uint8_t DATA[] = {0x00, 'H', 'o', 'l', 'z', 0x00, 'm', 'o', 't', 't'};
static const uint8_t TERMINATE[] = {0x0f, HOLZMOTTE_TERMINATE, HOLZMOTTE_IDLE, HOLZMOTTE_IDLE, HOLZMOTTE_IDLE, HOLZMOTTE_IDLE_WORD};

static void add(const uint8_t *vector, size_t count)
{
    for (size_t i = 0; i < count; i++, vectors_len += 10)
        memcpy(vectors + vectors_len, vector, 10);
}

/* A frame of 8 * n octets after its preamble. */
static void frame(size_t n)
{
    add(START, 1);
    add(DATA, n);
    add(TERMINATE, 1);
}

/* The line as records that phones not yet updated read too. */
static void write_records(size_t len)
{
    static uint8_t record[HOLZMOTTE_RECORD_BYTES(HOLZMOTTE_OLD_MAX_RECORD_BODY)];
    for (size_t at = 0; at < len; at += HOLZMOTTE_OLD_MAX_RECORD_BODY) {
        size_t body = len - at < HOLZMOTTE_OLD_MAX_RECORD_BODY ? len - at : HOLZMOTTE_OLD_MAX_RECORD_BODY;
        if (holzmotte_write_record(HOLZMOTTE_KIND_LINE, line + at, body, 0, record, sizeof record) == HOLZMOTTE_DONE)
            fwrite(record, 1, HOLZMOTTE_RECORD_BYTES(body), stdout);
    }
}

static void noise(void)
{
    uint32_t random = 1;
    line[33 * 50] ^= 1; /* the header of block 200 */
    for (size_t i = 33 * 100; i < 33 * 130; i++)
        line[i] = (uint8_t)((random = random * 1664525 + 1013904223) >> 24);
}

static void flip(size_t bit) { line[bit / 8] ^= (uint8_t)(1 << bit % 8); }

static void flips(size_t len)
{
    for (size_t bit = 66 * 70; bit < 8 * len; bit += 3001)
        flip(bit);
}

static void local_faults(void)
{
    add(IDLE, 72);
    add(LOCAL_FAULT, 16);
    add(IDLE, 12);
}

static void saved_energy(void)
{
    add(IDLE, 80);
    frame(8);
    add(LOW_POWER, 400);
    add(IDLE, 20);
    frame(188);
    frame(8);
    add(IDLE, 2);
    add(LOW_POWER, 300);
    add(IDLE, 20);
    frame(8);
    add(LOW_POWER, 60);
    add(IDLE, 4 - vectors_len / 10 % 4);
}

/* The bytes of line up to the end of the last frame. */
static size_t frames(size_t errors)
{
    add(IDLE, 80);
    add(REMOTE_FAULT, 24);
    add(IDLE, 12);
    frame(8);
    add(IDLE, 2);
    frame(188);
    frame(8);
    add(IDLE, 800);
    frame(8);
    size_t bits = vectors_len / 10 * 66;
    add(IDLE, 70);
    add(ERROR, errors);
    add(IDLE, 4 - vectors_len / 10 % 4);
    return (bits + 7) / 8;
}

int main(int argc, char **argv)
{
    const char *scene = argc == 2 ? argv[1] : "clean";
    size_t frames_len = 0, fault = strcmp(scene, "fault") == 0 ? 26 : strcmp(scene, "faults") == 0 ? 58 : 0; /* a bit of block 80 */
    int saving = strcmp(scene, "saving") == 0;
    if (saving)
        saved_energy();
    else if (fault > 0)
        local_faults();
    else
        frames_len = frames(strcmp(scene, "sender") == 0 ? 5 : 0);

    uint64_t start = fault > 0 ? 0 : 0x2a5a5a5a5a5a5a5, edition = saving ? HOLZMOTTE_EDITION_NEW : HOLZMOTTE_EDITION_OLD;
    uint64_t result = holzmotte_send(edition, vectors, vectors_len, start, line, sizeof line, summary, sizeof summary);
    if (result != HOLZMOTTE_DONE) {
        fprintf(stderr, "capture: %s\n", holzmotte_refusal_text(HOLZMOTTE_NUMBER(result)));
        return 1;
    }
    size_t len = HOLZMOTTE_LINE_ROOM(vectors_len);
    if (strcmp(scene, "noise") == 0)
        noise();
    if (strcmp(scene, "fibre") == 0)
        flips(len);
    if (strcmp(scene, "cut") == 0)
        len = frames_len;
    if (fault > 0) {
        flip(66 * 80 + fault);
        flip(66 * 80 + fault + 1);
    }
    write_records(len);
    return fflush(stdout) != 0 || ferror(stdout);
}
