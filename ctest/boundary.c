/* Sending and receiving from C, by the header alone. What the bytes should be is in the comparison with the second program; here it is what
 * may be touched, what is refused, what stays as it was, and what the header says in numbers and examples. */
#include "lent.h"

#define ROOM 0xa5
#define SUMMARY 0x5a
#define COUNTERS 0xc3

/* The buffers of one call: `in` is read, `out`, `summary` and receiving's `counters` are lent. */
static uint8_t *in, *out, *summary, *counters;
static size_t in_len, out_len, summary_len, counters_len;
static uint8_t old_counters[64]; /* as they were before the call */

/* Lends counters, every byte the same. */
static void lend_counters(size_t bytes, uint8_t byte)
{
    counters = guarded(counters_len = bytes);
    memset(counters, byte, counters_len);
}

static void lend(size_t in_bytes, size_t out_bytes, size_t summary_bytes)
{
    in = guarded(in_len = in_bytes);
    out = guarded(out_len = out_bytes);
    summary = guarded(summary_len = summary_bytes);
    memset(out, ROOM, out_len);
    memset(summary, SUMMARY, summary_len);
    lend_counters(HOLZMOTTE_COUNTERS_BYTES, 0);
}

/* Eight idles, again and again; a length that is no multiple of ten ends inside one. */
static void idles(void)
{
    for (size_t i = 0; i < in_len; i++)
        in[i] = IDLE[i % 10];
}

/* Noise, in vectors too: their control bytes stay below 16. */
static void noise(int of_vectors)
{
    for (size_t i = 0; i < in_len; i++)
        in[i] = (uint8_t)(rand() % (of_vectors && i % 5 == 0 ? 16 : 256));
}

static uint64_t sends(uint64_t start)
{
    return holzmotte_send(edition, in, in_len, start, out, out_len, summary, summary_len);
}

static uint64_t receives(void)
{
    memcpy(old_counters, counters, counters_len);
    return holzmotte_receive(edition, in, in_len, out, out_len, summary, summary_len, counters, counters_len);
}

/* Lends the line that was just sent to receiving. */
static void lend_line(void)
{
    const uint8_t *line = out;
    size_t line_len = out_len;
    lend(line_len, HOLZMOTTE_VECTOR_ROOM(line_len), HOLZMOTTE_RECEIVE_SUMMARY_BYTES);
    memcpy(in, line, line_len);
}

/* The room as it was, and zeros in a summary that has room for `words` bytes of them, else a summary as it was. */
static int refused(size_t words)
{
    size_t zeros = summary_len < words ? 0 : words;
    return all(out, out_len, ROOM) && all(summary, zeros, 0) && all(summary + zeros, summary_len - zeros, SUMMARY);
}

/* Is one bad block counted under this word of receiving's summary and none under the others? None at all where the word is 0. */
static int only_fault(int word)
{
    for (int i = HOLZMOTTE_RECEIVE_HEADER_FAULTS; i <= HOLZMOTTE_RECEIVE_SET_CODE_FAULTS; i++)
        if (holzmotte_word(summary, i) != (i == word))
            return 0;
    return 1;
}

/* Are the counters from byte `from` on as they were? */
static int kept(size_t from) { return memcmp(counters + from, old_counters + from, counters_len - from) == 0; }

/* The word of receiving's summary that is added to each number of the counters. */
static const int ADDED[] = {
    [HOLZMOTTE_COUNT_TESTED] = HOLZMOTTE_RECEIVE_TESTED,
    [HOLZMOTTE_COUNT_SLIPS] = HOLZMOTTE_RECEIVE_SLIPS,
    [HOLZMOTTE_COUNT_HEADER_FAULTS] = HOLZMOTTE_RECEIVE_HEADER_FAULTS,
    [HOLZMOTTE_COUNT_TYPE_FAULTS] = HOLZMOTTE_RECEIVE_TYPE_FAULTS,
    [HOLZMOTTE_COUNT_CONTROL_CODE_FAULTS] = HOLZMOTTE_RECEIVE_CONTROL_CODE_FAULTS,
    [HOLZMOTTE_COUNT_SET_CODE_FAULTS] = HOLZMOTTE_RECEIVE_SET_CODE_FAULTS,
    [HOLZMOTTE_COUNT_BEGUN] = HOLZMOTTE_RECEIVE_BEGUN,
    [HOLZMOTTE_COUNT_REPLACED] = HOLZMOTTE_RECEIVE_REPLACED,
};

/* Is each number of the counters its old one plus its word, or full where that would pass it, and all behind them kept? */
static int counted(void)
{
    for (int i = 0; i < 8; i++) {
        uint64_t sum = holzmotte_counter(old_counters, i) + holzmotte_word(summary, ADDED[i]);
        if (holzmotte_counter(counters, i) != (sum < HOLZMOTTE_COUNTER_FULL ? sum : HOLZMOTTE_COUNTER_FULL))
            return 0;
    }
    return kept(HOLZMOTTE_COUNTERS_BYTES);
}

static void whole_calls(void)
{
    for (size_t vectors = 4; vectors <= 400; vectors += 4) {
        lend(10 * vectors, HOLZMOTTE_LINE_ROOM(10 * vectors), HOLZMOTTE_SEND_SUMMARY_BYTES);
        idles();
        CHECK(sends(0) == HOLZMOTTE_DONE);
        CHECK(holzmotte_word(summary, HOLZMOTTE_SEND_STATE) < HOLZMOTTE_START_STATES);
        CHECK(holzmotte_word(summary, HOLZMOTTE_SEND_DIAGRAM) == HOLZMOTTE_C);
        CHECK(holzmotte_word(summary, HOLZMOTTE_SEND_REPLACED) == 0);
        lend_line();
        CHECK(receives() == HOLZMOTTE_DONE);
        CHECK(out_len == 10 * vectors);
        CHECK(holzmotte_word(summary, HOLZMOTTE_RECEIVE_TESTED) == vectors);
        CHECK(holzmotte_word(summary, HOLZMOTTE_RECEIVE_VECTORS) == vectors);
        CHECK(holzmotte_word(summary, HOLZMOTTE_RECEIVE_SLIPS) == 0);
        CHECK(holzmotte_word(summary, HOLZMOTTE_RECEIVE_LOCKED) == (vectors >= 64));
        CHECK(holzmotte_word(summary, HOLZMOTTE_RECEIVE_HIGH) == 0);
        CHECK(holzmotte_word(summary, HOLZMOTTE_RECEIVE_ALONE) == 0);
        CHECK(holzmotte_word(summary, HOLZMOTTE_RECEIVE_BEGUN) == 0 && holzmotte_word(summary, HOLZMOTTE_RECEIVE_REPLACED) == 0);
        CHECK(only_fault(0));
        CHECK(counted());
        CHECK(out[out_len - 1] == (vectors >= 64 ? 0x07 : 0x01));
    }
    group("lists of 4 to 400 vectors sent and received, every buffer exact");
}

static void lines_of_every_length(void)
{
    for (size_t n = 0; n <= 700; n++) {
        lend(n, HOLZMOTTE_VECTOR_ROOM(n), HOLZMOTTE_RECEIVE_SUMMARY_BYTES);
        noise(0);
        CHECK(receives() == HOLZMOTTE_DONE);
        size_t written = HOLZMOTTE_VECTOR_BYTES * (size_t)holzmotte_word(summary, HOLZMOTTE_RECEIVE_VECTORS);
        CHECK(written <= out_len && all(out + written, out_len - written, ROOM));
        CHECK(counted());
    }
    group("noise of 0 to 700 bytes received, every buffer exact");
}

static void the_longest(void)
{
    lend(HOLZMOTTE_MAX_VECTOR_BYTES, HOLZMOTTE_MAX_LINE_BYTES, HOLZMOTTE_SEND_SUMMARY_BYTES);
    idles();
    CHECK(sends(HOLZMOTTE_START_STATES - 1) == HOLZMOTTE_DONE);
    lend_line();
    CHECK(out_len == HOLZMOTTE_MAX_VECTOR_BYTES);
    CHECK(receives() == HOLZMOTTE_DONE);
    CHECK(holzmotte_word(summary, HOLZMOTTE_RECEIVE_VECTORS) == 100000);
    CHECK(holzmotte_counter(counters, HOLZMOTTE_COUNT_TESTED) == 100000 && counted());
    group("100,000 vectors and their line");
}

static void empty_slices(void)
{
    lend(0, 0, HOLZMOTTE_SEND_SUMMARY_BYTES);
    CHECK(sends(7) == HOLZMOTTE_DONE);
    CHECK(holzmotte_word(summary, HOLZMOTTE_SEND_STATE) == 7);
    CHECK(holzmotte_word(summary, HOLZMOTTE_SEND_DIAGRAM) == HOLZMOTTE_INIT);
    CHECK(holzmotte_word(summary, HOLZMOTTE_SEND_REPLACED) == 0);
    lend(0, 0, HOLZMOTTE_RECEIVE_SUMMARY_BYTES);
    CHECK(receives() == HOLZMOTTE_DONE);
    CHECK(all(summary, summary_len, 0) && all(counters, counters_len, 0));
    lend(0, 0, 0);
    CHECK(sends(0) == HOLZMOTTE_NO_ROOM);
    CHECK(receives() == HOLZMOTTE_NO_ROOM);
    lend_counters(0, 0);
    CHECK(receives() == HOLZMOTTE_NO_ROOM);
    group("empty slices");
}

static void longer_slices(void)
{
    lend(40, 33 + 100, HOLZMOTTE_SEND_SUMMARY_BYTES + 9);
    idles();
    CHECK(sends(0) == HOLZMOTTE_DONE);
    CHECK(all(out + 33, 100, ROOM));
    CHECK(all(summary + 24, 9, SUMMARY) && !all(summary, 24, SUMMARY));
    lend(9, 10 + 100, HOLZMOTTE_RECEIVE_SUMMARY_BYTES + 9);
    lend_counters(HOLZMOTTE_COUNTERS_BYTES + 9, COUNTERS);
    memset(in, 0, in_len);
    CHECK(receives() == HOLZMOTTE_DONE);
    CHECK(memcmp(out, LOCAL_FAULT, 10) == 0);
    CHECK(all(out + 10, 100, ROOM));
    CHECK(holzmotte_word(summary, HOLZMOTTE_RECEIVE_TESTED) == 1 && holzmotte_word(summary, HOLZMOTTE_RECEIVE_SLIPS) == 1);
    CHECK(only_fault(HOLZMOTTE_RECEIVE_HEADER_FAULTS));
    CHECK(all(summary + 96, 9, SUMMARY));
    CHECK(counted() && all(counters + 32, 9, COUNTERS));
    group("longer slices keep their rest");
}

/* Receives one block, its payload scrambled from state 0, and looks for the word that counts it. */
static void counts(unsigned header, uint64_t payload, int word)
{
    uint64_t scrambled = payload ^ payload << 39 ^ payload << 58;
    lend(9, 10, HOLZMOTTE_RECEIVE_SUMMARY_BYTES);
    in[0] = (uint8_t)(header | scrambled << 2);
    for (int i = 1; i < 9; i++)
        in[i] = (uint8_t)(scrambled >> (8 * i - 2));
    CHECK(receives() == HOLZMOTTE_DONE);
    CHECK(only_fault(word));
}

#define CONTROL 1 /* first bit lowest: 1, then 0 */
#define DATA 2

static void bad_blocks(void)
{
    int in_old = edition == HOLZMOTTE_EDITION_OLD ? HOLZMOTTE_RECEIVE_CONTROL_CODE_FAULTS : 0;
    counts(DATA, 0x00, 0);
    counts(CONTROL, 0x1e, 0);
    counts(0, 0x1e, HOLZMOTTE_RECEIVE_HEADER_FAULTS);
    counts(3, 0x1e, HOLZMOTTE_RECEIVE_HEADER_FAULTS);
    counts(CONTROL, 0x00, HOLZMOTTE_RECEIVE_TYPE_FAULTS);
    counts(CONTROL, 0x011e, HOLZMOTTE_RECEIVE_CONTROL_CODE_FAULTS);             /* code 01 */
    counts(CONTROL, 0x3c78f1e3c78f1e1e, HOLZMOTTE_RECEIVE_CONTROL_CODE_FAULTS); /* the error block */
    counts(CONTROL, 0x061e, in_old);                                            /* code 06 */
    counts(CONTROL, 0x0c183060c183061e, in_old);                                /* low power idle */
    counts(CONTROL, 0x30087, in_old);                                           /* code 06 behind a Terminate */
    counts(CONTROL, 0x3c183060c183061e, HOLZMOTTE_RECEIVE_CONTROL_CODE_FAULTS); /* seven codes 06, and 1e */
    counts(CONTROL, 0x010000004b, HOLZMOTTE_RECEIVE_SET_CODE_FAULTS);           /* ordered set code 1 */
    counts(CONTROL, 0x110000004b, HOLZMOTTE_RECEIVE_CONTROL_CODE_FAULTS);       /* and code 01 */
    group("bad blocks, one at a time, each counted under its reason");
}

/* The line of idles and a frame of two vectors, up to its end and longer by every number of bytes up to four blocks. The block after
 * the frame is whole with its ninth byte. */
static void last_frame(void)
{
    lend(10 * 72, HOLZMOTTE_LINE_ROOM(10 * 72), HOLZMOTTE_SEND_SUMMARY_BYTES);
    idles();
    memcpy(in + 10 * 66, START TERMINATE, 20);
    CHECK(sends(0) == HOLZMOTTE_DONE);
    const uint8_t *line = out;
    for (size_t n = 33 * 17; n <= 33 * 18; n++) {
        lend(n, HOLZMOTTE_VECTOR_ROOM(n), HOLZMOTTE_RECEIVE_SUMMARY_BYTES);
        memcpy(in, line, n);
        CHECK(receives() == HOLZMOTTE_DONE);
        CHECK(memcmp(out + 10 * 66, START TERMINATE, 20) == 0);
        CHECK(holzmotte_word(summary, HOLZMOTTE_RECEIVE_ALONE) == (n < 33 * 17 + 9));
    }
    group("a line that stops at the end of a frame, and longer ones");
}

/* Lends vectors: idles, three errors, three frames. */
static void lend_frame_vectors(void)
{
    lend(10 * 76, HOLZMOTTE_LINE_ROOM(10 * 76), HOLZMOTTE_SEND_SUMMARY_BYTES);
    idles();
    memcpy(in + 10 * 64, ERRORS ERRORS ERRORS, 30);
    memcpy(in + 10 * 68, START TERMINATE START TERMINATE, 40);
    memcpy(in + 10 * 73, START TERMINATE, 20);
}

/* Lends their line, for calls that lend counters of their own. Block 72 has an invalid header. So the second frame's Terminate is answered
 * as an error too, and so is the third frame's Start. */
static void lend_frames(void)
{
    lend_frame_vectors();
    CHECK(sends(0) == HOLZMOTTE_DONE);
    lend_line();
    in[33 * 18] ^= 1;
}

/* What it adds to the counters. */
static const uint32_t FRAMES[] = {76, 0, 1, 0, 3, 0, 2, 6};

static void receive_frames(void)
{
    CHECK(receives() == HOLZMOTTE_DONE);
    for (int i = 0; i < 8; i++)
        CHECK(holzmotte_word(summary, ADDED[i]) == FRAMES[i]);
    CHECK(counted());
}

/* Puts a number into the counters. */
static void put(int i, uint32_t number)
{
    for (int k = 0; k < 4; k++)
        counters[4 * i + k] = (uint8_t)(number >> 8 * k);
}

static void running_total(void)
{
    lend_frames();
    for (uint32_t calls = 1; calls <= 5; calls++) {
        receive_frames();
        for (int i = 0; i < 8; i++)
            CHECK(holzmotte_counter(counters, i) == calls * FRAMES[i]);
    }
    /* each number at the top, one below, and so near that the call just reaches it or just does not; the others from 0 */
    for (int i = 0; i < 8; i++)
        for (uint32_t below = 0; below <= 77; below++) {
            lend_counters(HOLZMOTTE_COUNTERS_BYTES, 0);
            put(i, HOLZMOTTE_COUNTER_FULL - below);
            receive_frames();
        }
    lend_counters(HOLZMOTTE_COUNTERS_BYTES, 0xff);
    receive_frames();
    CHECK(all(counters, counters_len, 0xff));
    group("the counters over several calls, and numbers near and at the top");
}

static void unaligned_counters(void)
{
    lend_frames();
    /* up to the protected page, where buffers end at one */
    for (size_t more = 0; more <= 16; more++) {
        lend_counters(HOLZMOTTE_COUNTERS_BYTES + more, COUNTERS);
        receive_frames();
    }
    /* exact, the bytes on both sides not lent */
    for (size_t at = 0; at <= 8; at++) {
        lend_counters(HOLZMOTTE_COUNTERS_BYTES + 8, COUNTERS);
        uint8_t *around = counters;
        counters += at, counters_len = HOLZMOTTE_COUNTERS_BYTES;
        receive_frames();
        CHECK(all(around, at, COUNTERS) && all(counters + counters_len, 8 - at, COUNTERS));
    }
    group("counters at every alignment, exact and longer");
}

/* Is this the result of a call that an edition refuses with this number and place? Where there is no such edition, it is 13 and 0. */
static int is_refusal(uint64_t result, int number, uint64_t place)
{
    if (edition > HOLZMOTTE_EDITION_NEW)
        number = HOLZMOTTE_NO_EDITION, place = 0;
    return HOLZMOTTE_NUMBER(result) == number && HOLZMOTTE_PLACE(result) == place;
}

/* Sends idles, with one control byte spoilt where `spoilt` is an offset in them, and looks for a refusal. */
static void send_refused(size_t bytes, size_t spoilt, uint64_t start, size_t room, size_t words, int number, uint64_t place)
{
    lend(bytes, room, words);
    idles();
    if (spoilt < bytes)
        in[spoilt] = 16;
    CHECK(is_refusal(sends(start), number, place));
    CHECK(refused(HOLZMOTTE_SEND_SUMMARY_BYTES));
}

#define NOT_SPOILT SIZE_MAX
#define TOO_HIGH HOLZMOTTE_START_STATES
#define TOO_MANY (HOLZMOTTE_MAX_VECTOR_BYTES + 1)

static void send_refusals(void)
{
    /* with summaries that are exact, longer, one byte short and empty */
    for (int i = 0; i < 4; i++) {
        size_t words = (const size_t[]){24, 30, 23, 0}[i];
        send_refused(TOO_MANY, 0, TOO_HIGH, 0, words, HOLZMOTTE_TOO_LONG, 0);
        send_refused(HOLZMOTTE_MAX_VECTOR_BYTES + 40, NOT_SPOILT, 0, 825033, words, HOLZMOTTE_TOO_LONG, 0);
        send_refused(79, 0, TOO_HIGH, 0, words, HOLZMOTTE_RAGGED, 0);
        send_refused(10, NOT_SPOILT, 0, 33, words, HOLZMOTTE_RAGGED, 0);
        send_refused(80, 0, TOO_HIGH, 0, words, HOLZMOTTE_START_STATE, 0);
        send_refused(80, NOT_SPOILT, UINT64_MAX, 66, words, HOLZMOTTE_START_STATE, 0);
        send_refused(80, 0, 0, 65, words, HOLZMOTTE_NO_ROOM, 0);
        send_refused(80, NOT_SPOILT, 0, 0, words, HOLZMOTTE_NO_ROOM, 0);
    }
    for (size_t words = 0; words < 24; words++)
        send_refused(80, 0, 0, 66, words, HOLZMOTTE_NO_ROOM, 0);
    for (size_t place = 0; place < 80; place += 5)
        send_refused(80, place, 0, 66, 24, HOLZMOTTE_CONTROL_BYTE, place);
    send_refused(HOLZMOTTE_MAX_VECTOR_BYTES, 999995, 0, 825000, 25, HOLZMOTTE_CONTROL_BYTE, 999995);
}

static void sending_refusals(void)
{
    send_refusals();
    group("sending's refusals, in their order, with short summaries");
}

static void receive_refused(size_t bytes, size_t room, size_t words, size_t counts, int number)
{
    lend(bytes, room, words);
    lend_counters(counts, COUNTERS);
    CHECK(is_refusal(receives(), number, 0));
    CHECK(refused(HOLZMOTTE_RECEIVE_SUMMARY_BYTES) && kept(0));
}

static void receive_refusals(void)
{
    for (int i = 0; i < 16; i++) {
        size_t words = (const size_t[]){96, 104, 95, 0}[i % 4], counts = (const size_t[]){32, 40, 31, 0}[i / 4];
        receive_refused(HOLZMOTTE_MAX_LINE_BYTES + 1, 0, words, counts, HOLZMOTTE_TOO_LONG);
        receive_refused(HOLZMOTTE_MAX_LINE_BYTES + 1, 1000010, words, counts, HOLZMOTTE_TOO_LONG);
        receive_refused(9, 9, words, counts, HOLZMOTTE_NO_ROOM);
        receive_refused(33, 39, words, counts, HOLZMOTTE_NO_ROOM);
        receive_refused(HOLZMOTTE_MAX_LINE_BYTES, 999999, words, counts, HOLZMOTTE_NO_ROOM);
    }
    for (size_t words = 0; words < 96; words++)
        receive_refused(33, 40, words, 32, HOLZMOTTE_NO_ROOM);
    for (size_t counts = 0; counts < 32; counts++)
        receive_refused(33, 40, 96, counts, HOLZMOTTE_NO_ROOM);
}

static void receiving_refusals(void)
{
    receive_refusals();
    group("receiving's refusals, in their order, with short summaries and counters");
}

/* Every call that is refused in an edition, and calls that are not. Cut to 8 or 32 bits, the last three would be one. */
static void no_such_edition(void)
{
    static const uint64_t UNKNOWN[] = {2, 3, UINT64_MAX, 256, (uint64_t)1 << 32, ((uint64_t)1 << 32) + 1};
    for (size_t i = 0; i < sizeof UNKNOWN / sizeof *UNKNOWN; i++) {
        edition = UNKNOWN[i];
        send_refusals();
        send_refused(80, NOT_SPOILT, 0, 66, 24, HOLZMOTTE_DONE, 0);
        send_refused(0, NOT_SPOILT, 0, 0, 24, HOLZMOTTE_DONE, 0);
        receive_refusals();
        receive_refused(33, 40, 96, 32, HOLZMOTTE_DONE);
        receive_refused(0, 0, 96, 32, HOLZMOTTE_DONE);
        group("no such edition: refused with 13, before every other refusal");
    }
}

/* What document 01 calls these, and the example of reading a vector that stands in the header. */
static void named_octets(void)
{
    CHECK(memcmp(IDLE, "\x0f\x07\x07\x07\x07\x0f\x07\x07\x07\x07", 10) == 0 && sizeof IDLE == 10);
    CHECK(memcmp(LOW_POWER, "\x0f\x06\x06\x06\x06\x0f\x06\x06\x06\x06", 10) == 0 && sizeof LOW_POWER == 10);
    CHECK(memcmp(ERROR, "\x0f\xfe\xfe\xfe\xfe\x0f\xfe\xfe\xfe\xfe", 10) == 0 && sizeof ERROR == 10);
    CHECK(memcmp(LOCAL_FAULT, "\x01\x9c\x00\x00\x01\x01\x9c\x00\x00\x01", 10) == 0 && sizeof LOCAL_FAULT == 10);
    CHECK(memcmp(REMOTE_FAULT, "\x01\x9c\x00\x00\x02\x01\x9c\x00\x00\x02", 10) == 0 && sizeof REMOTE_FAULT == 10);
    CHECK(HOLZMOTTE_IDLE == 0x07 && HOLZMOTTE_ERROR == 0xfe && HOLZMOTTE_START == 0xfb && HOLZMOTTE_TERMINATE == 0xfd);
    CHECK(HOLZMOTTE_SEQUENCE == 0x9c && HOLZMOTTE_SIGNAL == 0x5c && HOLZMOTTE_LOW_POWER_IDLE == 0x06);
    const uint8_t example[] = {0x0f, 0x07, 0x07, 0x07, 0x07, 0x01, 0xfb, 0x55, 0x55, 0x55};
    for (int i = 0; i < 8; i++) {
        CHECK(holzmotte_is_control(example, i) == (i <= 4));
        CHECK(holzmotte_octet(example, i) == (i < 4 ? HOLZMOTTE_IDLE : i == 4 ? HOLZMOTTE_START : 0x55));
    }
    group("octets, words and vectors are what document 01 calls them");
}

/* A vector of each sort that the header names, sent after idles. The library knows them all: all but the error come back as sent. */
static void named_vectors(void)
{
    static const uint8_t NAMED[8][10] = {
        HOLZMOTTE_LOCAL_FAULT_VECTOR,
        HOLZMOTTE_REMOTE_FAULT_VECTOR,
        {0x01, HOLZMOTTE_SEQUENCE, 0, 0, 3, HOLZMOTTE_IDLE_WORD},
        {HOLZMOTTE_IDLE_WORD, 0x01, HOLZMOTTE_SIGNAL, 1, 2, 3},
        {HOLZMOTTE_IDLE_WORD, 0x01, HOLZMOTTE_START, 0x55, 0x55, 0x55},
        {0x00, 0x55, 0x55, 0x55, 0xd5, 0x0e, 7, HOLZMOTTE_TERMINATE, HOLZMOTTE_IDLE, HOLZMOTTE_IDLE},
        HOLZMOTTE_IDLE_VECTOR,
        HOLZMOTTE_ERROR_VECTOR,
    };
    lend(10 * 72, HOLZMOTTE_LINE_ROOM(10 * 72), HOLZMOTTE_SEND_SUMMARY_BYTES);
    idles();
    memcpy(in + 10 * 64, NAMED, sizeof NAMED);
    CHECK(sends(0) == HOLZMOTTE_DONE);
    CHECK(holzmotte_word(summary, HOLZMOTTE_SEND_REPLACED) == 1 && holzmotte_word(summary, HOLZMOTTE_SEND_DIAGRAM) == HOLZMOTTE_E);
    lend_line();
    CHECK(receives() == HOLZMOTTE_DONE);
    for (int i = 0; i < 63; i++)
        CHECK(memcmp(out + 10 * i, LOCAL_FAULT, 10) == 0);
    CHECK(memcmp(out + 10 * 63, IDLE, 10) == 0);
    CHECK(memcmp(out + 10 * 64, NAMED, sizeof NAMED) == 0);
    CHECK(holzmotte_word(summary, HOLZMOTTE_RECEIVE_BEGUN) == 1 && holzmotte_word(summary, HOLZMOTTE_RECEIVE_REPLACED) == 1);
    group("a vector of each sort that the header names");
}

static void flip(size_t block, size_t bit)
{
    size_t n = 66 * block + bit;
    in[n / 8] ^= (uint8_t)(1 << n % 8);
}

/* The header's words: "72 idle, 16 Local Fault, 12 idle from state 0, bits 26 and 27 of block 80 flipped: vector 80 comes back as a Remote
 * Fault (its first word; vector 81 is the error vector)". The second word of vector 80 is no fault at all. */
static void fault_becomes_another(void)
{
    uint8_t sent[10 * 100];
    lend(sizeof sent, HOLZMOTTE_LINE_ROOM(sizeof sent), HOLZMOTTE_SEND_SUMMARY_BYTES);
    idles();
    for (int i = 72; i < 88; i++)
        memcpy(in + 10 * i, LOCAL_FAULT, 10);
    memcpy(sent, in, sizeof sent);
    CHECK(sends(0) == HOLZMOTTE_DONE);
    lend_line();
    CHECK(receives() == HOLZMOTTE_DONE);
    CHECK(memcmp(out + 10 * 63, sent + 10 * 63, 10 * 37) == 0);
    flip(80, 26);
    flip(80, 27);
    CHECK(receives() == HOLZMOTTE_DONE);
    CHECK(memcmp(out + 10 * 80, REMOTE_FAULT, 5) == 0);
    CHECK(memcmp(out + 10 * 80 + 5, "\x01\x9c\x00\x00\x81", 5) == 0);
    CHECK(memcmp(out + 10 * 81, ERROR, 10) == 0);
    CHECK(memcmp(out + 10 * 63, sent + 10 * 63, 10 * 17) == 0);
    CHECK(memcmp(out + 10 * 82, sent + 10 * 82, 10 * 18) == 0);
    CHECK(holzmotte_word(summary, HOLZMOTTE_RECEIVE_LOCKED) == 1 && holzmotte_word(summary, HOLZMOTTE_RECEIVE_HIGH) == 0);
    group("two flipped bits make a Remote Fault of a Local Fault");
}

/* The header's words: "72 idle from state 0, bits 17 and 18 of block 65 flipped (line bits 4307 and 4308): vector 66 comes back with 06 as
 * character 0, and idles. The old edition answers it as the error vector, and both answer vector 65 so". */
static void idle_becomes_low_power(void)
{
    static const uint8_t ONE_06[] = {0x0f, HOLZMOTTE_LOW_POWER_IDLE, 0x07, 0x07, 0x07, HOLZMOTTE_IDLE_WORD};
    lend(10 * 72, HOLZMOTTE_LINE_ROOM(10 * 72), HOLZMOTTE_SEND_SUMMARY_BYTES);
    idles();
    CHECK(sends(0) == HOLZMOTTE_DONE);
    lend_line();
    flip(0, 4307);
    flip(65, 18);
    CHECK(receives() == HOLZMOTTE_DONE);
    for (int i = 63; i < 72; i++) {
        const uint8_t *answer = edition == HOLZMOTTE_EDITION_NEW ? ONE_06 : ERROR;
        CHECK(memcmp(out + 10 * i, i == 65 ? ERROR : i == 66 ? answer : IDLE, 10) == 0);
    }
    group("two flipped bits make low power idle of an idle in the new edition, and an error in the old one");
}

/* Sends vectors `from` to `to` of a list of idles, a frame of six vectors from number 4 on, and idles; the line goes to `line`. The end
 * state. */
static uint64_t send_part(int from, int to, uint64_t start, uint8_t *line)
{
    uint8_t list[10 * 16];
    for (int i = 0; i < 16; i++)
        memcpy(list + 10 * i, i == 4 ? (const uint8_t *)START : i == 9 ? (const uint8_t *)TERMINATE : IDLE, 10);
    memset(list + 10 * 5, 0, 10 * 4);
    lend(10 * (size_t)(to - from), HOLZMOTTE_LINE_ROOM(10 * (to - from)), HOLZMOTTE_SEND_SUMMARY_BYTES);
    memcpy(in, list + 10 * from, in_len);
    CHECK(sends(start) == HOLZMOTTE_DONE);
    memcpy(line, out, out_len);
    return holzmotte_word(summary, HOLZMOTTE_SEND_STATE);
}

/* One call, and two calls with the scrambler's state handed on, cut between frames and inside the frame. */
static void lists_in_two_calls(void)
{
    uint8_t whole[33 * 4], parts[33 * 4];
    uint64_t end = send_part(0, 16, 5, whole);
    CHECK(holzmotte_word(summary, HOLZMOTTE_SEND_REPLACED) == 0);
    for (int cut = 0; cut <= 16; cut += 4) {
        uint64_t middle = send_part(0, cut, 5, parts), inside = cut == 8;
        CHECK((holzmotte_word(summary, HOLZMOTTE_SEND_DIAGRAM) == HOLZMOTTE_D) == inside);
        uint64_t last = send_part(cut, 16, middle, parts + HOLZMOTTE_LINE_ROOM(10 * cut));
        CHECK(holzmotte_word(summary, HOLZMOTTE_SEND_REPLACED) == inside);
        CHECK((memcmp(parts, whole, sizeof whole) != 0) == inside);
        CHECK((last != end) == inside);
    }
    group("lists sent in two calls: between frames as in one call, inside a frame with one vector replaced");
}

/* Lends vectors: 64 idle; a frame, low power idle, a Local Fault and idles that wake the link; a frame and low power idle. */
#define SAVING 76
static void lend_saving_vectors(void)
{
    lend(10 * SAVING, HOLZMOTTE_LINE_ROOM(10 * SAVING), HOLZMOTTE_SEND_SUMMARY_BYTES);
    idles();
    memcpy(in + 10 * 64, START OCTETS TERMINATE LOW LOW LOW LOCAL IDLES START TERMINATE LOW LOW, 10 * 12);
}

/* Sends them in one edition and receives their line in another. Where both are the new one, all comes back. Else low power idle is an
 * error, sent or received, and so is each Terminate, of which it is the next block. */
static void save(uint64_t sender, uint64_t receiver)
{
    int whole = sender == HOLZMOTTE_EDITION_NEW && receiver == HOLZMOTTE_EDITION_NEW;
    edition = sender;
    lend_saving_vectors();
    const uint8_t *sent = in;
    CHECK(sends(0) == HOLZMOTTE_DONE);
    CHECK(holzmotte_word(summary, HOLZMOTTE_SEND_DIAGRAM) == (sender == HOLZMOTTE_EDITION_NEW ? HOLZMOTTE_LI : HOLZMOTTE_E));
    CHECK(holzmotte_word(summary, HOLZMOTTE_SEND_REPLACED) == (sender == HOLZMOTTE_EDITION_NEW ? 0 : 5));
    edition = receiver;
    lend_line();
    CHECK(receives() == HOLZMOTTE_DONE);
    for (int i = 63; i < SAVING; i++) {
        int error = !whole && ((i >= 66 && i < 70) || i >= 73);
        CHECK(memcmp(out + 10 * i, error ? ERROR : sent + 10 * i, 10) == 0);
    }
    static const uint32_t WHOLE[] = {SAVING, 0, 0, 0, 0, 0, 2, 0}, OTHERWISE[] = {SAVING, 0, 0, 0, 5, 0, 2, 7};
    for (int i = 0; i < 8; i++)
        CHECK(holzmotte_counter(counters, i) == (whole ? WHOLE : OTHERWISE)[i]);
    CHECK(counted() && holzmotte_word(summary, HOLZMOTTE_RECEIVE_ALONE) == 0);
}

static void saving_link(void)
{
    for (uint64_t both = 0; both < 4; both++)
        save(both / 2, both % 2);
    group("low power idle comes back in the new edition, and is an error where an end has the old one");
}

/* Vectors with 06 of each kind: C four times, S, T, LI, and E for its error character. */
static void low_power_in_each_kind(void)
{
    static const uint8_t OF_EACH[8][10] = {
        {0x0f, 0x06, 0x07, 0x07, 0x07, HOLZMOTTE_IDLE_WORD},
        {HOLZMOTTE_LOW_POWER_IDLE_WORD, 0x0f, 0x06, 0x06, 0x06, 0x1c},
        {HOLZMOTTE_LOCAL_FAULT_WORD, HOLZMOTTE_LOW_POWER_IDLE_WORD},
        {HOLZMOTTE_LOW_POWER_IDLE_WORD, 0x01, HOLZMOTTE_SIGNAL, 1, 2, 3},
        {HOLZMOTTE_LOW_POWER_IDLE_WORD, 0x01, HOLZMOTTE_START, 0x55, 0x55, 0x55},
        {0x00, 0x55, 0x55, 0x55, 0xd5, 0x0e, 7, HOLZMOTTE_TERMINATE, 0x06, 0x06},
        HOLZMOTTE_LOW_POWER_IDLE_VECTOR,
        {HOLZMOTTE_LOW_POWER_IDLE_WORD, 0x0f, 0x06, 0x06, 0x06, HOLZMOTTE_ERROR},
    };
    int is_new = edition == HOLZMOTTE_EDITION_NEW;
    lend(10 * 72, HOLZMOTTE_LINE_ROOM(10 * 72), HOLZMOTTE_SEND_SUMMARY_BYTES);
    idles();
    memcpy(in + 10 * 64, OF_EACH, sizeof OF_EACH);
    CHECK(sends(0) == HOLZMOTTE_DONE);
    CHECK(holzmotte_word(summary, HOLZMOTTE_SEND_REPLACED) == (is_new ? 1 : 8));
    lend_line();
    CHECK(receives() == HOLZMOTTE_DONE);
    CHECK(holzmotte_word(summary, HOLZMOTTE_RECEIVE_CONTROL_CODE_FAULTS) == (is_new ? 1 : 8));
    for (int i = 0; i < 8; i++)
        CHECK(memcmp(out + 10 * (64 + i), is_new && i < 7 ? OF_EACH[i] : ERROR, 10) == 0);
    group("06 in vectors of each kind: as sent in the new edition, errors in the old one");
}

/* To each state but INIT a way from INIT, and to which state each kind leads from there in the new edition. */
static const struct {
    const char *way;
    enum holzmotte_diagram to[6];
} FROM[] = {
    {IDLES IDLES IDLES, {HOLZMOTTE_C, HOLZMOTTE_D, HOLZMOTTE_E, HOLZMOTTE_E, HOLZMOTTE_E, HOLZMOTTE_LI}},
    {IDLES IDLES START, {HOLZMOTTE_E, HOLZMOTTE_E, HOLZMOTTE_D, HOLZMOTTE_T, HOLZMOTTE_E, HOLZMOTTE_E}},
    {IDLES START TERMINATE, {HOLZMOTTE_C, HOLZMOTTE_D, HOLZMOTTE_E, HOLZMOTTE_E, HOLZMOTTE_E, HOLZMOTTE_LI}},
    {IDLES IDLES ERRORS, {HOLZMOTTE_C, HOLZMOTTE_E, HOLZMOTTE_D, HOLZMOTTE_T, HOLZMOTTE_E, HOLZMOTTE_LI}},
    {IDLES IDLES LOW, {HOLZMOTTE_C, HOLZMOTTE_E, HOLZMOTTE_E, HOLZMOTTE_E, HOLZMOTTE_E, HOLZMOTTE_LI}},
};
static const char *const OF_KIND[] = {IDLES, START, OCTETS, TERMINATE, ERRORS, LOW};

/* The state in which four vectors end. */
static enum holzmotte_diagram end_of(const char *three, const char *last)
{
    lend(40, 33, HOLZMOTTE_SEND_SUMMARY_BYTES);
    memcpy(in, three, 30);
    memcpy(in + 30, last, 10);
    CHECK(sends(0) == HOLZMOTTE_DONE);
    return (enum holzmotte_diagram)holzmotte_word(summary, HOLZMOTTE_SEND_DIAGRAM);
}

/* In the old edition low power idle is of kind E, and there is no way to LI. */
static void transmit_diagram(void)
{
    int is_new = edition == HOLZMOTTE_EDITION_NEW;
    for (size_t from = 0; from < (is_new ? 5 : 4); from++)
        for (int kind = 0; kind < 6; kind++)
            CHECK(end_of(FROM[from].way, OF_KIND[kind]) == (kind == 5 && !is_new ? HOLZMOTTE_E : FROM[from].to[kind]));
    CHECK(end_of(LOW LOW LOW, LOW) == (is_new ? HOLZMOTTE_LI : HOLZMOTTE_E));
    CHECK(holzmotte_word(summary, HOLZMOTTE_SEND_REPLACED) == (is_new ? 1 : 4));
    group("the transmit diagram, from each state by a vector of each kind");
}

/* Is the line of two lists of four vectors, sent one after the other, that of both in one call? */
static int joins(const char *first, const char *second)
{
    lend(80, 66, HOLZMOTTE_SEND_SUMMARY_BYTES);
    memcpy(in, first, 40);
    memcpy(in + 40, second, 40);
    CHECK(sends(0) == HOLZMOTTE_DONE);
    const uint8_t *whole = out;
    lend(40, 33, HOLZMOTTE_SEND_SUMMARY_BYTES);
    memcpy(in, first, 40);
    CHECK(sends(0) == HOLZMOTTE_DONE);
    CHECK(memcmp(out, whole, 33) == 0);
    uint64_t middle = holzmotte_word(summary, HOLZMOTTE_SEND_STATE);
    lend(40, 33, HOLZMOTTE_SEND_SUMMARY_BYTES);
    memcpy(in, second, 40);
    CHECK(sends(middle) == HOLZMOTTE_DONE);
    return memcmp(out, whole + 33, 33) == 0;
}

/* Lists that end in C, T and LI, each with one that begins with idles, a Start and low power idle. */
static void low_power_in_two_calls(void)
{
    static const char *const ENDS[] = {IDLES IDLES IDLES IDLES, IDLES IDLES START TERMINATE, IDLES IDLES LOW LOW};
    edition = HOLZMOTTE_EDITION_NEW;
    for (int i = 0; i < 3; i++) {
        CHECK(joins(ENDS[i], IDLES IDLES IDLES IDLES));
        CHECK(joins(ENDS[i], START TERMINATE IDLES IDLES) == (i < 2));
        CHECK(!joins(ENDS[i], LOW LOW LOW LOW));
    }
    group("low power idle at the seam of two calls");
}

/* A Start straight behind low power idle, its block sent by a second call, is good and out of turn. */
static void start_behind_low_power(void)
{
    edition = HOLZMOTTE_EDITION_NEW;
    lend(10 * 68, HOLZMOTTE_LINE_ROOM(10 * 68), HOLZMOTTE_SEND_SUMMARY_BYTES);
    idles();
    memcpy(in + 10 * 66, LOW LOW, 20);
    CHECK(sends(0) == HOLZMOTTE_DONE);
    const uint8_t *line = out;
    uint64_t middle = holzmotte_word(summary, HOLZMOTTE_SEND_STATE);
    lend(40, 33, HOLZMOTTE_SEND_SUMMARY_BYTES);
    memcpy(in, START OCTETS TERMINATE IDLES, 40);
    CHECK(sends(middle) == HOLZMOTTE_DONE);
    const uint8_t *next = out;
    lend(33 * 18, 10 * 72, HOLZMOTTE_RECEIVE_SUMMARY_BYTES);
    memcpy(in, line, 33 * 17);
    memcpy(in + 33 * 17, next, 33);
    CHECK(receives() == HOLZMOTTE_DONE);
    CHECK(memcmp(out + 10 * 66, LOW LOW ERRORS OCTETS TERMINATE IDLES, 60) == 0);
    CHECK(only_fault(0) && holzmotte_word(summary, HOLZMOTTE_RECEIVE_BEGUN) == 0);
    group("a Start straight behind low power idle is answered as an error");
}

/* Did vector n come back as demand 3 has it, with this payload bit of the line flipped, or none where it is negative? The data octets of
 * a saving link stand in their blocks where they stand in their vectors. */
static int stands(const uint8_t *sent, int n, int flipped)
{
    const uint8_t *was = sent + 10 * n, *is = out + 10 * n;
    if (memcmp(is, ERROR, 10) == 0)
        return 1;
    if (is[0] != was[0] || is[5] != was[5])
        return 0;
    for (int bit = 0; bit < 64; bit++) {
        int i = bit / 8, behind = 64 * n + bit - flipped;
        int hit = flipped >= 0 && !holzmotte_is_control(was, i) && (behind == 0 || behind == 39 || behind == 58);
        if (((holzmotte_octet(was, i) ^ holzmotte_octet(is, i)) >> bit % 8 & 1) != hit)
            return 0;
    }
    return 1;
}

/* A receiver that answers errors alone would do all this but for the last: one flipped bit makes at most three errors. */
static void one_flip(void)
{
    edition = HOLZMOTTE_EDITION_NEW;
    lend_saving_vectors();
    const uint8_t *sent = in;
    CHECK(sends(0) == HOLZMOTTE_DONE);
    lend_line();
    for (int n = 66 * 64; n < 66 * SAVING; n++) {
        int bit = n % 66;
        flip(0, (size_t)n);
        CHECK(receives() == HOLZMOTTE_DONE);
        for (int i = 63; i < SAVING; i++)
            CHECK(stands(sent, i, bit < 2 ? -1 : 64 * (n / 66) + bit - 2));
        CHECK(holzmotte_word(summary, HOLZMOTTE_RECEIVE_REPLACED) <= 3);
        flip(0, (size_t)n);
    }
    group("each bit of a saving link's line flipped, in the new edition: errors or changed data octets, and nothing else");
}

/* The bytes of a file of the stored runs. */
static uint8_t file[1 << 18];
static size_t file_len;

static void read_run(const char *program, const char *name, const char *stream)
{
    char path[64];
    snprintf(path, sizeof path, "runs/%s/%s/%s", program, name, stream);
    FILE *stored = fopen(path, "rb");
    file_len = stored ? fread(file, 1, sizeof file, stored) : 0;
    CHECK(stored && file_len > 0 && fclose(stored) == 0);
}

/* Of the records that were read only the bodies stay. */
static void keep_bodies(void)
{
    size_t len = 0;
    for (size_t at = 0, body; at < file_len; at += 4 + body, len += body) {
        body = file[at] + 256u * file[at + 1];
        memmove(file + len, file + at + 4, body);
    }
    file_len = len;
}

static void stored_sending(const char *name)
{
    read_run("sender", name, "stdin");
    keep_bodies();
    lend(file_len, HOLZMOTTE_LINE_ROOM(file_len), HOLZMOTTE_SEND_SUMMARY_BYTES);
    memcpy(in, file, file_len);
    CHECK(sends(0) == HOLZMOTTE_DONE);
    read_run("sender", name, "stdout");
    keep_bodies();
    CHECK(file_len == out_len && memcmp(file, out, out_len) == 0);
}

static void stored_receiving(const char *name)
{
    static const char *const NAMES[] = {"tested", "slips", "locked", "high"};
    static char text[1 << 18];
    size_t len = 0;
    read_run("receiver", name, "stdin");
    keep_bodies();
    lend(file_len, HOLZMOTTE_VECTOR_ROOM(file_len), HOLZMOTTE_RECEIVE_SUMMARY_BYTES);
    memcpy(in, file, file_len);
    CHECK(receives() == HOLZMOTTE_DONE);
    for (size_t i = 0; i < 10 * holzmotte_word(summary, HOLZMOTTE_RECEIVE_VECTORS); i++)
        len += (size_t)sprintf(text + len, "%02x%s", out[i], i % 10 == 9 ? "\n" : "");
    for (int i = 0; i < 4; i++)
        len += (size_t)sprintf(text + len, "%s %d\n", NAMES[i], (int)holzmotte_word(summary, i));
    read_run("receiver", name, "stdout");
    CHECK(file_len == len && memcmp(file, text, len) == 0);
}

static void stored_runs(void)
{
    edition = HOLZMOTTE_EDITION_OLD;
    stored_sending("limit");
    stored_receiving("damaged");
    stored_receiving("empty_records");
    stored_receiving("last_frame");
    stored_receiving("limit");
    group("the stored runs of the two programs, in the old edition");
}

static uint64_t sends_from_0(void) { return sends(0); }

/* The most that the calls took so far. */
static size_t sending_took, receiving_took;

/* Sends what is lent, and receives its line. */
static void both_on_painted_stack(void)
{
    size_t took = stack_of(sends_from_0);
    sending_took = took > sending_took ? took : sending_took;
    lend_line();
    took = stack_of(receives);
    receiving_took = took > receiving_took ? took : receiving_took;
}

static void stack_use(void)
{
    lend(40000, HOLZMOTTE_LINE_ROOM(40000), HOLZMOTTE_SEND_SUMMARY_BYTES);
    idles();
    both_on_painted_stack();
    lend(40000, HOLZMOTTE_LINE_ROOM(40000), HOLZMOTTE_SEND_SUMMARY_BYTES);
    noise(1);
    both_on_painted_stack();
    lend_frame_vectors();
    both_on_painted_stack();
    lend(40000, 0, HOLZMOTTE_SEND_SUMMARY_BYTES); /* refused, and an empty line */
    both_on_painted_stack();
    lend(HOLZMOTTE_MAX_LINE_BYTES + 1, HOLZMOTTE_MAX_LINE_BYTES + 1, HOLZMOTTE_SEND_SUMMARY_BYTES); /* both refused */
    both_on_painted_stack();
    CHECK(sending_took <= HOLZMOTTE_STACK_BYTES);
    CHECK(receiving_took <= HOLZMOTTE_STACK_BYTES);
    printf("stack: sending took %zu bytes, receiving %zu\n", sending_took, receiving_took);
    group("both functions keep to the stack that the header states");
}

static void version_and_texts(void)
{
    char version[16];
    snprintf(version, sizeof version, "%d.%d.%d", HOLZMOTTE_VERSION_MAJOR, HOLZMOTTE_VERSION_MINOR, HOLZMOTTE_VERSION_PATCH);
    CHECK(strcmp(version, HOLZMOTTE_VERSION) == 0);
    for (int i = -1; i <= 14; i++) {
        CHECK((strcmp(holzmotte_refusal_text(i), "unknown") == 0) == (i < 0 || i == 14));
        for (int k = -1; k < i; k++)
            CHECK(strcmp(holzmotte_refusal_text(i), holzmotte_refusal_text(k)) != 0 || strcmp(holzmotte_refusal_text(i), "unknown") == 0);
    }
    group("the version's numbers and text; a text of its own for each refusal");
}

static void in_each_edition(void)
{
    whole_calls();
    lines_of_every_length();
    the_longest();
    empty_slices();
    longer_slices();
    bad_blocks();
    last_frame();
    running_total();
    unaligned_counters();
    sending_refusals();
    receiving_refusals();
    named_vectors();
    fault_becomes_another();
    idle_becomes_low_power();
    lists_in_two_calls();
    low_power_in_each_kind();
    transmit_diagram();
    stack_use();
}

/* Groups that choose their editions, or call no function. */
static void besides(void)
{
    no_such_edition();
    saving_link();
    low_power_in_two_calls();
    start_behind_low_power();
    one_flip();
    stored_runs();
    named_octets();
    version_and_texts();
}

int main(void) { return run_groups(in_each_edition, besides); }
