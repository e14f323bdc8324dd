/* The index through C, by the header alone. */
#include "lent.h"

static uint8_t *vectors, *index_, *summary;
static size_t vectors_len, index_len, summary_len;
static uint64_t from, to, nth;

#define MARK 0xa5
#define MOST (HOLZMOTTE_MAX_VECTOR_BYTES / HOLZMOTTE_VECTOR_BYTES)

static void lend_index(size_t n)
{
    index_ = guarded(n), index_len = n;
    memset(index_, MARK, n);
}

static void lend_summary(size_t n)
{
    summary = guarded(n), summary_len = n;
    memset(summary, MARK, n);
}

static void lend_idles(size_t bytes)
{
    vectors = guarded(bytes), vectors_len = bytes;
    for (size_t at = 0; at + 10 <= bytes; at += 10)
        memcpy(vectors + at, IDLE, 10);
    for (size_t at = bytes / 10 * 10; at < bytes; at++)
        vectors[at] = 0;
}

static void put(size_t i, const void *vector) { memcpy(vectors + 10 * i, vector, 10); }

static uint64_t build(void) { return holzmotte_index(vectors, vectors_len, index_, index_len); }
static uint64_t count(void) { return holzmotte_count(vectors, vectors_len, index_, index_len, from, to, summary, summary_len); }
static uint64_t find(void) { return holzmotte_find_error(vectors, vectors_len, index_, index_len, nth, summary, summary_len); }

/* The index of the vectors, built; these stay as they were. */
static void indexed(void)
{
    static uint8_t before[HOLZMOTTE_MAX_VECTOR_BYTES];
    lend_index(HOLZMOTTE_INDEX_BYTES(vectors_len));
    memcpy(before, vectors, vectors_len);
    CHECK(build() == HOLZMOTTE_DONE && memcmp(before, vectors, vectors_len) == 0);
}

/* Counting and finding change neither vectors nor index. */
static uint64_t counted(uint64_t a, uint64_t b)
{
    from = a, to = b;
    lend_summary(HOLZMOTTE_COUNT_SUMMARY_BYTES);
    return count();
}

static uint64_t found(uint64_t n)
{
    nth = n;
    lend_summary(HOLZMOTTE_FIND_SUMMARY_BYTES);
    return find();
}

static uint64_t word(int i) { return holzmotte_word(summary, i); }

/* Word i of the index. */
static uint32_t entry(size_t i) { return (uint32_t)holzmotte_number_in(index_ + 4 * i, 4); }

/* A Start in character 4. */
static const uint8_t START_AT_4[10] = {0x0f, 0x07, 0x07, 0x07, 0x07, 0x01, 0xfb, 0x55, 0x55, 0x55};

static int is_error(size_t i) { return memcmp(vectors + 10 * i, ERROR, 10) == 0; }
static int is_start(size_t i) { return memcmp(vectors + 10 * i, START, 10) == 0 || memcmp(vectors + 10 * i, START_AT_4, 10) == 0; }

/* n vectors of eight sorts, as chance has it. */
static void lend_mixed(size_t n)
{
    static const void *const sorts[] = {IDLE, OCTETS, ERROR, START, START_AT_4, LOCAL_FAULT, ERROR, TERMINATE};
    uint32_t chance = 12345;
    lend_idles(10 * n);
    for (size_t i = 0; i < n; i++) {
        chance = chance * 1103515245 + 12345;
        put(i, sorts[chance >> 16 & 7]);
    }
}

static void entries(void)
{
    static const size_t numbers[] = {0, 4, 60, 64, 68, 124, 128, 132, 6400};
    for (size_t k = 0; k < sizeof numbers / sizeof *numbers; k++) {
        uint32_t errors = 0, starts = 0;
        lend_mixed(numbers[k]);
        indexed();
        CHECK(index_len == 8 * (numbers[k] / 64 + 1));
        for (size_t i = 0; i <= numbers[k]; i++) {
            if (i % 64 == 0)
                CHECK(entry(i / 32) == errors && entry(i / 32 + 1) == starts);
            if (i < numbers[k])
                errors += (uint32_t)is_error(i), starts += (uint32_t)is_start(i);
        }
    }
    group("an entry for each multiple of 64, the number of vectors too: errors and Starts before it");
}

/* Four vectors, one of them this: which of the two sorts is it? */
static int sort_is(const void *vector, uint64_t error, uint64_t start)
{
    lend_idles(40);
    put(2, vector);
    indexed();
    return counted(0, 4) == HOLZMOTTE_DONE && word(HOLZMOTTE_COUNTED_ERRORS) == error && word(HOLZMOTTE_COUNTED_STARTS) == start;
}

#define SORT(error, start, ...) sort_is((const uint8_t[10]){__VA_ARGS__}, error, start)

static void sorts(void)
{
    CHECK(sort_is(IDLE, 0, 0) && sort_is(OCTETS, 0, 0) && sort_is(TERMINATE, 0, 0));
    CHECK(sort_is(LOCAL_FAULT, 0, 0) && sort_is(LOW_POWER, 0, 0));
    CHECK(sort_is(ERROR, 1, 0) && sort_is(START, 0, 1) && sort_is(START_AT_4, 0, 1));
    for (size_t i = 0; i < 10; i++) { /* each byte but one */
        uint8_t near[10];
        memcpy(near, ERROR, 10);
        near[i] ^= 1;
        CHECK(sort_is(near, 0, 0));
    }
    CHECK(SORT(0, 1, 0x01, 0x9c, 1, 2, 3, 0x01, 0xfb, 4, 5, 6) && SORT(0, 1, 0x01, 0x5c, 1, 2, 3, 0x01, 0xfb, 4, 5, 6));
    CHECK(SORT(0, 1, 0x0f, 0x06, 0x06, 0x06, 0x06, 0x01, 0xfb, 4, 5, 6) && SORT(0, 1, 0x0f, 0x1c, 0xf7, 0x07, 0xfe, 0x01, 0xfb, 4, 5, 6));
    CHECK(SORT(0, 0, 0x0f, 0x06, 0x06, 0x05, 0x06, 0x01, 0xfb, 4, 5, 6) && SORT(0, 0, 0x01, 0x9d, 1, 2, 3, 0x01, 0xfb, 4, 5, 6));
    CHECK(SORT(0, 0, 0x00, 0xfb, 1, 2, 3, 0x00, 4, 5, 6, 7) && SORT(0, 0, 0x01, 0xfb, 1, 2, 3, 0x01, 0x07, 5, 6, 7));
    CHECK(SORT(0, 0, 0x03, 0xfb, 0x07, 2, 3, 0x00, 4, 5, 6, 7) && SORT(0, 0, 0x01, 0xfd, 1, 2, 3, 0x00, 4, 5, 6, 7));
    CHECK(SORT(0, 0, 0x0f, 0x07, 0x07, 0x07, 0x07, 0x03, 0xfb, 0x07, 5, 6) && SORT(0, 0, 0x00, 1, 2, 3, 4, 0x01, 0xfb, 4, 5, 6));
    group("the error vector to the byte, and kind S in either edition");
}

static void counts(void)
{
    lend_mixed(196);
    indexed();
    for (size_t a = 0; a <= 196; a++) {
        uint64_t errors = 0, starts = 0;
        for (size_t b = a; b <= 196; b++) {
            from = a, to = b;
            if (b == a)
                lend_summary(HOLZMOTTE_COUNT_SUMMARY_BYTES);
            CHECK(count() == HOLZMOTTE_DONE && word(HOLZMOTTE_COUNTED_ERRORS) == errors && word(HOLZMOTTE_COUNTED_STARTS) == starts);
            if (b < 196)
                errors += (uint64_t)is_error(b), starts += (uint64_t)is_start(b);
        }
    }
    group("from every vector up to every vector: the full count");
}

static void ranges(void)
{
    static const uint64_t far[] = {197, 1000, UINT32_MAX, (uint64_t)UINT32_MAX + 1, (uint64_t)1 << 63, UINT64_MAX - 1, UINT64_MAX};
    lend_mixed(196);
    indexed();
    for (size_t i = 0; i < sizeof far / sizeof *far; i++) {
        CHECK(counted(0, far[i]) == HOLZMOTTE_RANGE && all(summary, summary_len, 0));
        CHECK(counted(far[i], far[i]) == HOLZMOTTE_RANGE && counted(far[i], 0) == HOLZMOTTE_RANGE);
        CHECK(counted(far[i], 196) == HOLZMOTTE_RANGE && all(summary, summary_len, 0));
        CHECK(found(far[i]) == HOLZMOTTE_NO_VECTOR && all(summary, summary_len, 0));
    }
    CHECK(counted(196, 196) == HOLZMOTTE_DONE && all(summary, summary_len, 0));
    CHECK(counted(1, 0) == HOLZMOTTE_RANGE && counted(196, 195) == HOLZMOTTE_RANGE);
    CHECK(found(0) == HOLZMOTTE_NO_VECTOR && all(summary, summary_len, 0));
    for (size_t n = 0; n < 100; n++) {
        lend_index(n);
        uint64_t expected = n == 32 ? HOLZMOTTE_DONE : HOLZMOTTE_RANGE;
        CHECK(build() == expected && (n == 32 || all(index_, n, MARK)));
        CHECK(counted(0, 196) == expected && (expected == HOLZMOTTE_DONE || all(summary, summary_len, 0)));
        CHECK(found(1) == expected && (expected == HOLZMOTTE_DONE || all(summary, summary_len, 0)));
    }
    group("ranges and indexes that are none are refused with 11, vectors that are none with 12");
}

/* The entries that are read for the n-th, by the halving rule. */
static uint64_t reads(uint64_t n)
{
    uint64_t low = 0, len = index_len / 8, read = 1;
    for (; len > 1; read++) {
        uint64_t half = len / 2;
        if (entry((size_t)(2 * (low + half))) < n)
            low += half, len -= half;
        else
            len = half;
    }
    return read;
}

static void places(void)
{
    uint64_t n = 0;
    lend_mixed(1028);
    indexed();
    lend_summary(HOLZMOTTE_FIND_SUMMARY_BYTES);
    for (size_t i = 0; i < 1028; i++)
        if (is_error(i)) {
            nth = ++n;
            CHECK(find() == HOLZMOTTE_DONE && word(HOLZMOTTE_FOUND_VECTOR) == i && word(HOLZMOTTE_FOUND_READ) == reads(n));
        }
    CHECK(n > 200 && found(n + 1) == HOLZMOTTE_NO_VECTOR && found(0) == HOLZMOTTE_NO_VECTOR);
    group("each error vector by its number, with the entries of the halving rule");
}

static void largest(void)
{
    uint64_t most = 0, n = 0;
    lend_mixed(MOST);
    indexed();
    CHECK(index_len == 8 * 1563);
    lend_summary(16);
    for (size_t i = 0; i < MOST; i++)
        if (is_error(i) && ++n % 97 == 0) {
            nth = n;
            CHECK(find() == HOLZMOTTE_DONE && word(HOLZMOTTE_FOUND_VECTOR) == i && word(HOLZMOTTE_FOUND_READ) == reads(n));
            most = word(HOLZMOTTE_FOUND_READ) > most ? word(HOLZMOTTE_FOUND_READ) : most;
        }
    CHECK(most == 12);
    CHECK(counted(0, MOST) == HOLZMOTTE_DONE && word(HOLZMOTTE_COUNTED_ERRORS) == n);
    size_t built = stack_of(build), count_took = stack_of(count), find_took = stack_of(find);
    CHECK(built <= HOLZMOTTE_STACK_BYTES && count_took <= HOLZMOTTE_STACK_BYTES && find_took <= HOLZMOTTE_STACK_BYTES);
    printf("stack: to build an index took %zu bytes, a count %zu, a search %zu\n", built, count_took, find_took);
    group("the most vectors: at most 12 entries are read");
}

static void foreign(void)
{
    uint32_t chance = 99;
    lend_mixed(452);
    indexed();
    uint8_t *own = index_;
    for (int turn = 0; turn < 400; turn++) {
        lend_index(HOLZMOTTE_INDEX_BYTES(vectors_len));
        for (size_t i = 0; i < index_len; i++) {
            chance = chance * 1103515245 + 12345;
            index_[i] = turn % 4 == 0 ? 0xff : turn % 4 == 1 ? (uint8_t)(i % 4 == 0 ? chance >> 16 : 0) : (uint8_t)(chance >> 16);
        }
        if (turn % 4 == 3) { /* one entry off by one */
            memcpy(index_, own, index_len);
            index_[8 * (chance >> 16 & 7)] ^= 1;
        }
        uint64_t a = (chance >> 8) % 453, b = a + (chance >> 4) % (453 - a), n = chance >> 20 & 255;
        CHECK(counted(a, b) == HOLZMOTTE_DONE && word(0) <= b - a && word(1) <= b - a);
        uint64_t result = found(n);
        if (result == HOLZMOTTE_DONE)
            CHECK(word(HOLZMOTTE_FOUND_VECTOR) < 452 && is_error((size_t)word(HOLZMOTTE_FOUND_VECTOR)) && word(HOLZMOTTE_FOUND_READ) == reads(n));
        else
            CHECK(result == HOLZMOTTE_NO_VECTOR && all(summary, summary_len, 0));
    }
    group("a foreign index: counts from 0 to b - a, an error vector or refusal 12");
}

/* Several faults at once: the first in the header's order is given. */
static void order(void)
{
    for (int faults = 0; faults < 64; faults++) {
        int expected = HOLZMOTTE_DONE;
        uint64_t place = 0;
        lend_idles((faults & 1 ? HOLZMOTTE_MAX_VECTOR_BYTES + 40 : 400) + (faults & 2 ? 5 : 0));
        put(1, ERROR);
        if (faults & 4)
            vectors[35] = 0x1f, vectors[95] = 0xff;
        lend_index(HOLZMOTTE_INDEX_BYTES(vectors_len) + (faults & 8 ? 8 : 0));
        memset(index_, 0, index_len);
        if (faults & 8)
            expected = HOLZMOTTE_RANGE;
        if (faults & 4)
            expected = HOLZMOTTE_CONTROL_BYTE, place = 35;
        if (faults & 2)
            expected = HOLZMOTTE_RAGGED, place = 0;
        if (faults & 1)
            expected = HOLZMOTTE_TOO_LONG, place = 0;
        uint64_t result = build();
        CHECK(HOLZMOTTE_NUMBER(result) == expected && HOLZMOTTE_PLACE(result) == place && all(index_, index_len, 0));
        for (int short_by = 0; short_by <= 16; short_by++) {
            int last = short_by > 0 ? HOLZMOTTE_NO_ROOM : HOLZMOTTE_DONE;
            lend_summary(16 - (size_t)short_by);
            from = faults & 16 ? 8 : 0, to = faults & 16 ? 7 : 8;
            int says = expected != HOLZMOTTE_DONE ? expected : faults & 16 ? HOLZMOTTE_RANGE : last;
            result = count();
            CHECK(HOLZMOTTE_NUMBER(result) == says && HOLZMOTTE_PLACE(result) == place);
            CHECK(short_by > 0 ? all(summary, summary_len, MARK) : says == HOLZMOTTE_DONE ? word(0) == 1 && word(1) == 0 : all(summary, 16, 0));
            memset(summary, MARK, summary_len);
            nth = faults & 32 ? 2 : 1;
            says = expected != HOLZMOTTE_DONE ? expected : faults & 32 ? HOLZMOTTE_NO_VECTOR : last;
            result = find();
            CHECK(HOLZMOTTE_NUMBER(result) == says && HOLZMOTTE_PLACE(result) == place);
            CHECK(short_by > 0 ? all(summary, summary_len, MARK) : says == HOLZMOTTE_DONE ? word(0) == 1 && word(1) == 1 : all(summary, 16, 0));
        }
        lend_summary(21);
        from = 0, to = 8, nth = 1;
        if (expected == HOLZMOTTE_DONE)
            CHECK(count() == HOLZMOTTE_DONE && find() == HOLZMOTTE_DONE && all(summary + 16, 5, MARK));
    }
    group("of several refusals the first is given, and all lent bytes stay as they were");
}

/* Over what one call received, the counts are the last two words of its summary. */
static void received(void)
{
    static uint8_t line[HOLZMOTTE_LINE_ROOM(1200)], sent[1200], back[1200];
    uint8_t told[HOLZMOTTE_RECEIVE_SUMMARY_BYTES], counters[HOLZMOTTE_COUNTERS_BYTES] = {0};
    for (size_t at = 0; at < sizeof sent; at += 10)
        memcpy(sent + at, IDLE, 10);
    for (size_t at = 640; at + 40 <= sizeof sent; at += 80) {
        memcpy(sent + at, at % 160 ? (const uint8_t *)START : START_AT_4, 10);
        memcpy(sent + at + 10, OCTETS, 10);
        memcpy(sent + at + 20, TERMINATE, 10);
    }
    CHECK(holzmotte_send(edition, sent, sizeof sent, 9, line, sizeof line, told, HOLZMOTTE_SEND_SUMMARY_BYTES) == HOLZMOTTE_DONE);
    for (int turn = 0; turn < 40; turn++) {
        line[600 + 9 * turn] ^= (uint8_t)(turn > 0 ? turn : 0);
        CHECK(holzmotte_receive(edition, line, sizeof line, back, sizeof back, told, sizeof told, counters, sizeof counters) == HOLZMOTTE_DONE);
        size_t n = (size_t)holzmotte_word(told, HOLZMOTTE_RECEIVE_VECTORS);
        lend_idles((n + 3) / 4 * 40);
        memcpy(vectors, back, 10 * n);
        indexed();
        CHECK(counted(0, vectors_len / 10) == HOLZMOTTE_DONE);
        CHECK(word(HOLZMOTTE_COUNTED_ERRORS) == holzmotte_word(told, HOLZMOTTE_RECEIVE_REPLACED));
        CHECK(word(HOLZMOTTE_COUNTED_STARTS) == holzmotte_word(told, HOLZMOTTE_RECEIVE_BEGUN));
        CHECK(turn > 0 || (word(0) == 0 && word(1) == 7));
        CHECK(turn < 39 || word(0) > 20);
    }
    group("over what one call received: replaced and begun");
}

static void constants(void)
{
    CHECK(HOLZMOTTE_COUNT_SUMMARY_BYTES == 16 && HOLZMOTTE_FIND_SUMMARY_BYTES == 16);
    CHECK(HOLZMOTTE_INDEX_BYTES(0) == 8 && HOLZMOTTE_INDEX_BYTES(600) == 8 && HOLZMOTTE_INDEX_BYTES(640) == 16);
    CHECK(HOLZMOTTE_INDEX_BYTES(HOLZMOTTE_MAX_VECTOR_BYTES) == 12504);
    CHECK(HOLZMOTTE_RANGE == 11 && HOLZMOTTE_NO_VECTOR == 12);
    CHECK(HOLZMOTTE_COUNTED_ERRORS == 0 && HOLZMOTTE_COUNTED_STARTS == 1 && HOLZMOTTE_FOUND_VECTOR == 0 && HOLZMOTTE_FOUND_READ == 1);
    group("the header's numbers of an index");
}

static void all_groups(void)
{
    entries();
    sorts();
    counts();
    ranges();
    places();
    largest();
    foreign();
    order();
    constants();
}

int main(void) { return run_groups(received, all_groups); }
