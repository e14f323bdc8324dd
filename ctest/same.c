/* Many calls of the library in both editions, refused ones too, and sums of every byte that they leave: the same on every machine. There is
 * no C library in it, so that the kit's compiler alone makes it for any processor: it writes and ends by calls of Linux. */
#include "holzmotte.h"

enum { ROUNDS = 400, LONGEST = 400, LOCKING = 64 };

static uint8_t vectors[HOLZMOTTE_MAX_VECTOR_BYTES], line[HOLZMOTTE_MAX_LINE_BYTES], answers[HOLZMOTTE_MAX_VECTOR_BYTES + 10];
static uint8_t entries[HOLZMOTTE_FRAMES_ROOM(HOLZMOTTE_MAX_VECTOR_BYTES)];
static uint8_t summary[HOLZMOTTE_RECEIVE_SUMMARY_BYTES], counters[HOLZMOTTE_COUNTERS_BYTES], state[HOLZMOTTE_STATE_BYTES];

#if defined(__x86_64__)
__asm__(".globl _start\n_start: and $-16, %rsp\n call run\n");

static void linux_call(uint64_t number, uint64_t one, const void *two, uint64_t three)
{
    __asm__ volatile("syscall" : "+a"(number) : "D"(one), "S"(two), "d"(three) : "rcx", "r11", "memory");
}

static void put(const char *bytes, size_t count) { linux_call(1, 1, bytes, count); }
static void end(void) { linux_call(60, 0, 0, 0); }
#elif defined(__aarch64__)
__asm__(".globl _start\n_start: bl run\n");

static void linux_call(uint64_t number, uint64_t one, const void *two, uint64_t three)
{
    register uint64_t x8 __asm__("x8") = number, x0 __asm__("x0") = one, x2 __asm__("x2") = three;
    register const void *x1 __asm__("x1") = two;
    __asm__ volatile("svc 0" : "+r"(x0) : "r"(x8), "r"(x1), "r"(x2) : "memory");
}

static void put(const char *bytes, size_t count) { linux_call(64, 1, bytes, count); }
static void end(void) { linux_call(93, 0, 0, 0); }
#endif

/* A compiler may write calls of these three. */
void *memcpy(void *to, const void *from, size_t count)
{
    for (size_t i = 0; i < count; i++)
        ((uint8_t *)to)[i] = ((const uint8_t *)from)[i];
    return to;
}

void *memmove(void *to, const void *from, size_t count)
{
    if ((uint64_t)to <= (uint64_t)from)
        return memcpy(to, from, count);
    while (count-- > 0)
        ((uint8_t *)to)[count] = ((const uint8_t *)from)[count];
    return to;
}

void *memset(void *to, int byte, size_t count)
{
    for (size_t i = 0; i < count; i++)
        ((uint8_t *)to)[i] = (uint8_t)byte;
    return to;
}

static uint64_t seed = 1;

/* A number below `limit` (xorshift). */
static uint64_t below(uint64_t limit)
{
    seed ^= seed << 13;
    seed ^= seed >> 7;
    seed ^= seed << 17;
    return (seed >> 11) % limit;
}

/* A sum of what one kind of call left: FNV-1a, 64 bits. */
struct sum {
    const char *name;
    uint64_t value;
};

static void add(struct sum *sum, const uint8_t *bytes, size_t count)
{
    for (size_t i = 0; i < count; i++)
        sum->value = (sum->value ^ bytes[i]) * 0x100000001b3;
}

static void add_number(struct sum *sum, uint64_t number)
{
    for (int i = 0; i < 64; i += 8)
        sum->value = (sum->value ^ (number >> i & 255)) * 0x100000001b3;
}

static void tell(const struct sum *sum)
{
    char digits[17];
    size_t length = 0;
    while (sum->name[length])
        length++;
    for (int i = 0; i < 16; i++)
        digits[i] = "0123456789abcdef"[sum->value >> (60 - 4 * i) & 15];
    digits[16] = '\n';
    put(sum->name, length);
    put(digits, sizeof digits);
}

/* One vector: often data, and each that is sent in frames, between them or in fault, now and then noise. */
static void make_vector(uint8_t *vector)
{
    static const uint8_t some[][10] = {
        HOLZMOTTE_IDLE_VECTOR,
        HOLZMOTTE_LOW_POWER_IDLE_VECTOR,
        HOLZMOTTE_ERROR_VECTOR,
        HOLZMOTTE_LOCAL_FAULT_VECTOR,
        {1, 0xfb, 0x55, 0x55, 0x55, 0, 0x55, 0x55, 0x55, 0xd5},
        {0x0f, 0xfd, 7, 7, 7, 0x0f, 7, 7, 7, 7},
        {0, 1, 2, 3, 4, 0x0e, 5, 0xfd, 7, 7},
        {0x0f, 7, 7, 7, 7, 1, 0xfb, 0x55, 0x55, 0x55},
    };
    uint64_t kind = below(20);
    for (int i = 0; i < 10; i++)
        vector[i] = kind < 8 ? some[kind][i] : (uint8_t)(i % 5 ? below(256) : kind == 8 ? below(16) : 0);
}

/* A list of so many vectors, the first 64 idles. */
static void make_list(size_t count)
{
    static const uint8_t idle[10] = HOLZMOTTE_IDLE_VECTOR;
    for (size_t i = 0; i < count; i++) {
        make_vector(vectors + 10 * i);
        if (i < LOCKING)
            memcpy(vectors + 10 * i, idle, 10);
    }
}

static void send(struct sum *sum, uint64_t edition, size_t count, uint64_t start)
{
    add_number(sum, holzmotte_send(edition, vectors, 10 * count, start, line, sizeof line, summary, HOLZMOTTE_SEND_SUMMARY_BYTES));
    add(sum, line, HOLZMOTTE_LINE_ROOM(10 * count));
    add(sum, summary, HOLZMOTTE_SEND_SUMMARY_BYTES);
}

/* What a receiving call left, besides its result. */
static void add_received(struct sum *sum, size_t vector_bytes)
{
    add(sum, answers, vector_bytes);
    add(sum, summary, sizeof summary);
    add(sum, counters, sizeof counters);
}

static void receive(struct sum *sum, uint64_t edition, size_t from, size_t to)
{
    size_t room = HOLZMOTTE_VECTOR_ROOM(to - from);
    add_number(sum, holzmotte_receive(edition, line + from, to - from, answers, room, summary, sizeof summary, counters, sizeof counters));
    add_received(sum, room);
}

static void bursts(struct sum *sum, uint64_t edition, size_t from, size_t to, size_t longest)
{
    add_number(sum, holzmotte_begin(edition, state, sizeof state));
    while (from < to) {
        size_t most = to - from, chosen = below(longest + 1), bytes = chosen < most ? chosen : most;
        size_t room = HOLZMOTTE_BURST_ROOM(bytes);
        add_number(sum, holzmotte_burst(state, sizeof state, line + from, bytes, answers, room, summary, sizeof summary, counters, sizeof counters));
        add(sum, state, sizeof state);
        add_received(sum, room);
        from += bytes;
    }
    add_number(sum, holzmotte_close(state, sizeof state, answers, 10, summary, sizeof summary, counters, sizeof counters));
    add(sum, state, sizeof state);
    add_received(sum, 10);
}

/* Each of a few bits of the line changed. */
static void flip_some(size_t bytes)
{
    for (uint64_t flips = below(24); flips > 0; flips--) {
        uint64_t bit = below(8 * bytes);
        line[bit / 8] ^= (uint8_t)(1 << bit % 8);
    }
}

/* One round: a list of so many vectors, at times a refused one; its line damaged, at times without its first bytes; at times noise instead. */
static void round_of(size_t count, size_t longest_burst, struct sum *sent, struct sum *received, struct sum *in_bursts)
{
    uint64_t edition = below(9) / 4; /* 2 is refused */
    uint64_t start = below((uint64_t)1 << 53) << 5;
    size_t bytes = HOLZMOTTE_LINE_ROOM(10 * count), from = below(4) ? 0 : below(9);
    make_list(count);
    if (below(16) == 0)
        vectors[5 * below(2 * count)] += 16;
    send(sent, edition, count, start);
    if (below(8) == 0)
        for (size_t i = 0; i < bytes; i++)
            line[i] = (uint8_t)below(256);
    flip_some(bytes);
    receive(received, edition, from, bytes);
    bursts(in_bursts, edition, from, bytes, longest_burst);
}

/* A record written, at times refused, and what is read at a place of it; at times the room is a byte short, or the file. */
static void records(struct sum *sum)
{
    size_t bytes = below(4) ? below(5000) : below(70000), room = HOLZMOTTE_RECORD_BYTES(bytes) - (below(8) == 0);
    add_number(sum, holzmotte_write_record(below(4), line, bytes, below(3), answers, room));
    add(sum, answers, room);
    add_number(sum, holzmotte_read_record(answers, room, below(4) ? 0 : below(12), summary, HOLZMOTTE_READ_SUMMARY_BYTES));
    add(sum, summary, HOLZMOTTE_READ_SUMMARY_BYTES);
}

/* The frames of a list, with some characters changed; at times the list or the summary is a byte short, or a control byte is high. */
static void frames(struct sum *sum, size_t count)
{
    make_list(count);
    for (size_t changes = below(12); changes > 0; changes--)
        vectors[5 * below(2 * count) + 1 + below(4)] = (uint8_t)(below(2) ? 0xfe : 0x07);
    if (below(16) == 0)
        vectors[5 * below(2 * count)] += 16;
    size_t room = below(4) ? HOLZMOTTE_FRAMES_ROOM(10 * count) : below(HOLZMOTTE_FRAMES_ROOM(10 * count));
    add_number(sum, holzmotte_frames(vectors, 10 * count, entries, room, summary, HOLZMOTTE_FRAMES_SUMMARY_BYTES - (below(16) == 0)));
    add(sum, entries, room);
    add(sum, summary, HOLZMOTTE_FRAMES_SUMMARY_BYTES);
}

/* The index of a list with some error vectors, then counts and searches with it; at times it is another's, or a byte too long, or a control
 * byte is high. */
static void indexes(struct sum *sum, size_t count)
{
    static const uint8_t error[] = HOLZMOTTE_ERROR_VECTOR;
    make_list(count);
    for (size_t changes = below(1 + count / 4); changes > 0; changes--)
        for (size_t i = 0, at = 10 * below(count); i < 10; i++)
            vectors[at + i] = error[i];
    if (below(16) == 0)
        vectors[5 * below(2 * count)] += 16;
    size_t bytes = HOLZMOTTE_INDEX_BYTES(10 * count) + (below(16) == 0);
    add_number(sum, holzmotte_index(vectors, 10 * count, entries, bytes));
    add(sum, entries, bytes);
    if (below(4) == 0)
        entries[below(bytes)] += (uint8_t)below(256);
    for (int i = 0; i < 4; i++) {
        uint64_t a = below(count + 2), b = below(4) ? a + below(count + 2 - a) : below(count + 2);
        add_number(sum, holzmotte_count(vectors, 10 * count, entries, bytes, a, b, summary, HOLZMOTTE_COUNT_SUMMARY_BYTES - (below(16) == 0)));
        add(sum, summary, HOLZMOTTE_COUNT_SUMMARY_BYTES);
        add_number(sum, holzmotte_find_error(vectors, 10 * count, entries, bytes, below(2 + count / 4), summary, HOLZMOTTE_FIND_SUMMARY_BYTES));
        add(sum, summary, HOLZMOTTE_FIND_SUMMARY_BYTES);
    }
}

void run(void)
{
    uint64_t none = 0xcbf29ce484222325;
    struct sum sent = {"send    ", none}, received = {"receive ", none}, in_bursts = {"bursts  ", none}, recorded = {"records ", none};
    struct sum listed = {"frames  ", none}, indexed = {"index   ", none};
    round_of(HOLZMOTTE_MAX_VECTOR_BYTES / 10, 3000, &sent, &received, &in_bursts);
    for (size_t round = 0; round < ROUNDS; round++)
        round_of(4 + 4 * below(LONGEST / 4), 40, &sent, &received, &in_bursts);
    for (size_t round = 0; round < ROUNDS; round++)
        records(&recorded);
    frames(&listed, HOLZMOTTE_MAX_VECTOR_BYTES / 10);
    for (size_t round = 0; round < ROUNDS; round++)
        frames(&listed, 4 + 4 * below(LONGEST / 4));
    indexes(&indexed, HOLZMOTTE_MAX_VECTOR_BYTES / 10);
    for (size_t round = 0; round < ROUNDS; round++)
        indexes(&indexed, 4 + 4 * below(LONGEST / 4));
    tell(&sent);
    tell(&received);
    tell(&in_bursts);
    tell(&recorded);
    tell(&listed);
    tell(&indexed);
    end();
}
