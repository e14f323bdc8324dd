/* Frames through C, by the header alone. */
#include "lent.h"

#include <limits.h>

static uint8_t *vectors, *list, *summary;
static size_t vectors_len, list_len, summary_len;

#define MARK 0xa5

/* Words by name, five bytes each. */
#define W_IDLE "\x0f\x07\x07\x07\x07"
#define W_START "\x01\xfb\x55\x55\x55"
#define W_DATA "\x00\x01\x02\x03\x04"
#define W_END "\x0f\xfd\x07\x07\x07"
#define W_END_LATE "\x08\x05\x06\x07\xfd"
#define W_FAULT "\x01\x9c\x00\x00\x01"
#define W_SIGNAL "\x01\x5c\x00\x00\x01"
#define W_ERROR "\x02\x08\xfe\x09\x0a"

static void lend_list(size_t n)
{
    list = guarded(n), list_len = n;
    memset(list, MARK, n);
}

static void lend_summary(size_t n)
{
    summary = guarded(n), summary_len = n;
    memset(summary, MARK, n);
}

static void lend_idles(size_t bytes)
{
    vectors = guarded(bytes), vectors_len = bytes;
    for (size_t at = 0; at < bytes; at += 5)
        memcpy(vectors + at, W_IDLE, 5);
}

/* Vectors of these words, and idles up to whole fours. */
static void lend_words(const char *words, size_t bytes)
{
    lend_idles((bytes + 39) / 40 * 40);
    memcpy(vectors, words, bytes);
}

static uint64_t frames(void) { return holzmotte_frames(vectors, vectors_len, list, list_len, summary, summary_len); }

/* Lists into a list of so many bytes, with a summary that is long enough. The vectors stay as they were. */
static uint64_t list_into(size_t bytes)
{
    static uint8_t before[HOLZMOTTE_MAX_VECTOR_BYTES];
    lend_list(bytes);
    lend_summary(HOLZMOTTE_FRAMES_SUMMARY_BYTES);
    memcpy(before, vectors, vectors_len);
    uint64_t result = frames();
    CHECK(memcmp(before, vectors, vectors_len) == 0);
    return result;
}

static int entry_is(size_t i, uint32_t word, uint32_t octets, uint32_t good)
{
    return holzmotte_frame(list, i, HOLZMOTTE_FRAME_WORD) == word && holzmotte_frame(list, i, HOLZMOTTE_FRAME_OCTETS) == octets &&
           holzmotte_frame(list, i, HOLZMOTTE_FRAME_GOOD) == good;
}

/* These words have so many frames: their entries in a list with 7 bytes to spare, which stay as they were. */
static int listed(const char *words, size_t bytes, size_t number)
{
    size_t room = HOLZMOTTE_FRAME_BYTES * number + 7;
    lend_words(words, bytes);
    return list_into(room) == HOLZMOTTE_DONE && holzmotte_word(summary, HOLZMOTTE_FRAMES_NUMBER) == number &&
           all(list + room - 7, 7, MARK);
}

#define LISTED(words, number) listed(words, sizeof(words) - 1, number)

static void begins(void)
{
    CHECK(LISTED("", 0) && LISTED(W_IDLE W_IDLE, 0));
    CHECK(LISTED(W_IDLE W_START W_DATA W_END, 1) && entry_is(0, 1, 7, 1));
    CHECK(LISTED(W_FAULT W_START W_DATA W_END, 1) && entry_is(0, 1, 7, 1));
    CHECK(LISTED(W_START W_DATA W_END, 0));
    CHECK(LISTED(W_DATA W_START W_END, 0) && LISTED(W_SIGNAL W_START W_END, 0) && LISTED(W_END W_START W_END, 0));
    CHECK(LISTED("\x0f\x07\x07\x07\xfe" W_START W_END, 0));
    CHECK(LISTED("\x03\x9c\x07\x00\x01" W_START W_END, 0));
    CHECK(LISTED("\x00\x9c\x00\x00\x01" W_START W_END, 0));
    CHECK(LISTED(W_IDLE "\x02\x07\xfb\x55\x55" W_END, 0) && LISTED(W_IDLE "\x00\xfb\x55\x55\x55" W_END, 0));
    group("a frame begins with Start in lane 0 after four idles or a sequence ordered set");
}

static void ends(void)
{
    CHECK(LISTED(W_IDLE W_START W_END_LATE, 1) && entry_is(0, 1, 6, 1));
    CHECK(LISTED(W_IDLE "\x03\xfb\xfd\x01\x02" W_IDLE, 1) && entry_is(0, 1, 0, 1));
    CHECK(LISTED(W_IDLE "\x0b\xfb\xfe\x01\xfd" W_IDLE, 1) && entry_is(0, 1, 1, 0));
    CHECK(LISTED(W_IDLE W_START W_ERROR W_END, 1) && entry_is(0, 1, 6, 0));
    CHECK(LISTED(W_IDLE W_START W_DATA W_IDLE, 1) && entry_is(0, 1, 7, 0));
    CHECK(LISTED(W_IDLE W_START W_DATA W_FAULT, 1) && entry_is(0, 1, 7, 0));
    CHECK(LISTED(W_IDLE W_START W_START W_END, 1) && entry_is(0, 1, 3, 0));
    CHECK(LISTED(W_IDLE W_START W_IDLE W_START W_END, 2) && entry_is(0, 1, 3, 0) && entry_is(1, 3, 3, 1));
    CHECK(LISTED(W_IDLE W_START W_FAULT W_START W_END, 2) && entry_is(0, 1, 3, 0) && entry_is(1, 3, 3, 1));
    CHECK(LISTED(W_IDLE W_IDLE W_IDLE W_IDLE W_IDLE W_IDLE W_IDLE W_START, 1) && entry_is(0, 7, 3, 0));
    CHECK(LISTED(W_IDLE W_IDLE W_IDLE W_IDLE W_IDLE W_START W_DATA W_DATA, 1) && entry_is(0, 5, 11, 0));
    CHECK(LISTED(W_IDLE W_IDLE W_IDLE W_IDLE W_IDLE W_START W_DATA W_END, 1) && entry_is(0, 5, 7, 1));
    group("a frame ends at the first control character that is no error, and is good or bad");
}

/* Idles and frames of one word in turn, as many as fit. */
static void lend_most(size_t bytes)
{
    lend_idles(bytes);
    for (size_t at = 5; at < vectors_len; at += 10)
        memcpy(vectors + at, W_START, 5);
}

static void rooms(void)
{
    lend_most(400);
    for (size_t bytes = 0; bytes < 12 * 40; bytes++) {
        CHECK(list_into(bytes) == HOLZMOTTE_NO_ROOM + 256 * 40);
        CHECK(all(list, bytes, MARK) && all(summary, summary_len, 0));
    }
    for (size_t bytes = 12 * 40; bytes < 12 * 40 + 30; bytes++) {
        CHECK(list_into(bytes) == HOLZMOTTE_DONE && holzmotte_word(summary, 0) == 40 && all(list + 480, bytes - 480, MARK));
        for (size_t i = 0; i < 40; i++)
            CHECK(entry_is(i, (uint32_t)(2 * i + 1), 3, 0));
    }
    CHECK(HOLZMOTTE_FRAMES_ROOM(400) == 480);
    group("a list too short is refused with the number of frames, and stays as it was");
}

/* Several faults at once: the first in the header's order is given. */
static void order(void)
{
    for (int faults = 0; faults < 32; faults++) {
        int expected = HOLZMOTTE_DONE;
        uint64_t place = 0;
        lend_most((faults & 1 ? HOLZMOTTE_MAX_VECTOR_BYTES + 40 : 400) + (faults & 2 ? 5 : 0));
        if (faults & 4)
            vectors[35] = 0x1f, vectors[95] = 0xff;
        lend_summary(faults & 8 ? 7 : 8);
        lend_list(faults & 16 ? 479 : HOLZMOTTE_FRAMES_ROOM(vectors_len));
        if (faults & 16)
            expected = HOLZMOTTE_NO_ROOM, place = 40;
        if (faults & 8)
            expected = HOLZMOTTE_NO_ROOM, place = 0;
        if (faults & 4)
            expected = HOLZMOTTE_CONTROL_BYTE, place = 35;
        if (faults & 2)
            expected = HOLZMOTTE_RAGGED, place = 0;
        if (faults & 1)
            expected = HOLZMOTTE_TOO_LONG, place = 0;
        uint64_t result = frames();
        CHECK(HOLZMOTTE_NUMBER(result) == expected && HOLZMOTTE_PLACE(result) == place);
        if (expected != HOLZMOTTE_DONE)
            CHECK(all(list, list_len, MARK) && all(summary, summary_len, faults & 8 ? MARK : 0));
        else
            CHECK(holzmotte_word(summary, 0) == 40 && all(list + 480, list_len - 480, MARK));
    }
    for (size_t n = 0; n < 8; n++) { /* without a frame, and with a list that has room, a short summary is 4 too */
        lend_idles(40);
        lend_list(48), lend_summary(n);
        CHECK(frames() == HOLZMOTTE_NO_ROOM && all(list, 48, MARK) && all(summary, n, MARK));
    }
    lend_summary(13);
    CHECK(frames() == HOLZMOTTE_DONE && all(summary, 8, 0) && all(summary + 8, 5, MARK));
    group("of several refusals the first is given, and all lent bytes stay as they were");
}

/* What is received of a list has the frames of the list. */
static void received(void)
{
    static uint8_t line[HOLZMOTTE_LINE_ROOM(1200)], sent[1200], back[1200];
    uint8_t told[HOLZMOTTE_RECEIVE_SUMMARY_BYTES], counters[HOLZMOTTE_COUNTERS_BYTES] = {0};
    for (size_t at = 0; at < sizeof sent; at += 10)
        memcpy(sent + at, IDLES, 10);
    for (size_t at = 640; at + 40 <= sizeof sent; at += 80) {
        memcpy(sent + at, START, 10);
        memcpy(sent + at + 10, OCTETS, 10);
        memcpy(sent + at + 20, TERMINATE, 10);
    }
    CHECK(holzmotte_send(edition, sent, sizeof sent, 9, line, sizeof line, told, HOLZMOTTE_SEND_SUMMARY_BYTES) == HOLZMOTTE_DONE);
    CHECK(holzmotte_receive(edition, line, sizeof line, back, sizeof back, told, sizeof told, counters, sizeof counters) == HOLZMOTTE_DONE);
    vectors = guarded(sizeof sent), vectors_len = sizeof sent;
    memcpy(vectors, sent, sizeof sent);
    CHECK(list_into(HOLZMOTTE_FRAMES_ROOM(sizeof sent)) == HOLZMOTTE_DONE);
    uint64_t number = holzmotte_word(summary, HOLZMOTTE_FRAMES_NUMBER);
    const uint8_t *of_sent = list;
    memcpy(vectors, back, sizeof back);
    CHECK(list_into(HOLZMOTTE_FRAMES_ROOM(sizeof back)) == HOLZMOTTE_DONE);
    CHECK(number == 7 && holzmotte_word(summary, HOLZMOTTE_FRAMES_NUMBER) == number && memcmp(list, of_sent, list_len) == 0);
    for (size_t i = 0; i < number; i++)
        CHECK(entry_is(i, (uint32_t)(128 + 16 * i), 15, 1));
    group("the frames that are received are those that were sent");
}

static uint64_t result_there;

static void *on_small_stack(void *unused)
{
    result_there = frames();
    return unused;
}

/* The largest list with the most frames: on the smallest stack that a thread may have, and measured. */
static void most(void)
{
    pthread_attr_t attributes;
    pthread_t thread;
    lend_most(HOLZMOTTE_MAX_VECTOR_BYTES);
    lend_list(HOLZMOTTE_FRAMES_ROOM(vectors_len)), lend_summary(8);
    CHECK(pthread_attr_init(&attributes) == 0 && pthread_attr_setstacksize(&attributes, (size_t)PTHREAD_STACK_MIN) == 0);
    CHECK(pthread_create(&thread, &attributes, on_small_stack, NULL) == 0 && pthread_join(thread, NULL) == 0);
    CHECK(result_there == HOLZMOTTE_DONE && holzmotte_word(summary, 0) == 100000 && list_len == 1200000);
    for (size_t i = 0; i < 100000; i++)
        CHECK(entry_is(i, (uint32_t)(2 * i + 1), 3, 0));
    size_t with_most = stack_of(frames);
    lend_most(1000);
    lend_list(HOLZMOTTE_FRAMES_ROOM(vectors_len));
    size_t with_few = stack_of(frames);
    CHECK(with_most <= HOLZMOTTE_STACK_BYTES && with_most == with_few);
    printf("stack: frames took %zu bytes, with 100,000 of them and with 100\n", with_most);
    lend_idles(0);
    lend_list(0);
    size_t with_none = stack_of(frames);
    CHECK(with_none <= with_few && result_there == HOLZMOTTE_DONE);
    group("the stack does not grow with the number of frames");
}

static void constants(void)
{
    CHECK(HOLZMOTTE_FRAME_BYTES == 12 && HOLZMOTTE_FRAMES_SUMMARY_BYTES == 8);
    CHECK(HOLZMOTTE_FRAMES_ROOM(HOLZMOTTE_MAX_VECTOR_BYTES) == 1200000);
    CHECK(HOLZMOTTE_FRAME_WORD == 0 && HOLZMOTTE_FRAME_OCTETS == 1 && HOLZMOTTE_FRAME_GOOD == 2 && HOLZMOTTE_FRAMES_NUMBER == 0);
    group("the header's numbers of frames");
}

static void all_groups(void)
{
    begins();
    ends();
    rooms();
    order();
    most();
    constants();
}

int main(void) { return run_groups(received, all_groups); }
