/* Bursts from C, by the header alone. However a line is cut, the calls give what one holzmotte_receive gives, which is compared elsewhere.
 * Besides: what may be touched, what is refused and in which order, what a refusal leaves, and what every number in a state means. */
#include "lent.h"

/* A lent slice, and its bytes before the call. It is lent in two places in turn, each between protected pages. */
#define MOST_BYTES ((size_t)1 << 20)
struct lent {
    uint8_t *at, was[MOST_BYTES], *places[2];
    size_t len;
    int turn;
};
static struct lent state, line, room, summary, counters;

static void lend(struct lent *slice, size_t len, uint8_t byte)
{
    uint8_t **place = &slice->places[slice->turn = !slice->turn];
    if (!*place)
        *place = fenced(MOST_BYTES);
    slice->at = beside_fence(*place, MOST_BYTES, slice->len = len);
    memset(slice->at, byte, len);
}

/* Lends all but the state: a line of zeros, its vectors' room, a summary, counters. */
static void lend_rest(size_t line_bytes, size_t room_bytes)
{
    lend(&line, line_bytes, 0);
    lend(&room, room_bytes, 0xa5);
    lend(&summary, HOLZMOTTE_RECEIVE_SUMMARY_BYTES, 0x5a);
    lend(&counters, HOLZMOTTE_COUNTERS_BYTES, 0);
}

static struct lent *const SLICES[] = {&state, &line, &room, &summary, &counters};

static void remember(void)
{
    for (int i = 0; i < 5; i++)
        memcpy(SLICES[i]->was, SLICES[i]->at, SLICES[i]->len);
}

/* Are the bytes of a slice as they were, from this one on? */
static int kept(const struct lent *slice, size_t from)
{
    return from <= slice->len && memcmp(slice->at + from, slice->was + from, slice->len - from) == 0;
}

static uint64_t begins(void)
{
    remember();
    return holzmotte_begin(edition, state.at, state.len);
}

static uint64_t bursts(void)
{
    remember();
    return holzmotte_burst(state.at, state.len, line.at, line.len, room.at, room.len, summary.at, summary.len, counters.at, counters.len);
}

static uint64_t closes(void)
{
    remember();
    return holzmotte_close(state.at, state.len, room.at, room.len, summary.at, summary.len, counters.at, counters.len);
}

static uint64_t word(int i) { return holzmotte_word(state.at, i); }
static uint64_t word_was(int i) { return holzmotte_word(state.was, i); }
static uint64_t gained(int i) { return word(i) - word_was(i); }

static void put(int i, uint64_t number)
{
    for (int k = 0; k < 8; k++)
        state.at[8 * i + k] = (uint8_t)(number >> 8 * k);
}

static int random_below(int n) { return rand() / 7 % n; }

/* The room that a burst of so many bytes wants, from the state that is lent. */
static size_t wanted(size_t line_bytes) { return 10 * (((size_t)word(HOLZMOTTE_STATE_CARRIED) + 8 * line_bytes) / 66 + 1); }

/* ---- what a refused call and an accepted one leave */

/* Nothing but a summary that is long enough, which takes its zeros. */
static int left_alone(void)
{
    size_t zeros = summary.len < HOLZMOTTE_RECEIVE_SUMMARY_BYTES ? 0 : HOLZMOTTE_RECEIVE_SUMMARY_BYTES;
    return kept(&state, 0) && kept(&line, 0) && kept(&room, 0) && kept(&counters, 0) && all(summary.at, zeros, 0) && kept(&summary, zeros);
}

static const int FLAGS[] = {HOLZMOTTE_STATE_LOCKED, HOLZMOTTE_STATE_HIGH, HOLZMOTTE_STATE_SKIP, HOLZMOTTE_STATE_HELD,
                            HOLZMOTTE_STATE_HELD_ON};

/* The word of the state for each word of the summary. The flag of the last vector has none. */
static const int IN_STATE[] = {
    [HOLZMOTTE_RECEIVE_TESTED] = HOLZMOTTE_STATE_TESTED,
    [HOLZMOTTE_RECEIVE_SLIPS] = HOLZMOTTE_STATE_SLIPS,
    [HOLZMOTTE_RECEIVE_LOCKED] = HOLZMOTTE_STATE_LOCKED,
    [HOLZMOTTE_RECEIVE_HIGH] = HOLZMOTTE_STATE_HIGH,
    [HOLZMOTTE_RECEIVE_VECTORS] = HOLZMOTTE_STATE_VECTORS,
    [HOLZMOTTE_RECEIVE_HEADER_FAULTS] = HOLZMOTTE_STATE_HEADER_FAULTS,
    [HOLZMOTTE_RECEIVE_TYPE_FAULTS] = HOLZMOTTE_STATE_TYPE_FAULTS,
    [HOLZMOTTE_RECEIVE_CONTROL_CODE_FAULTS] = HOLZMOTTE_STATE_CONTROL_CODE_FAULTS,
    [HOLZMOTTE_RECEIVE_SET_CODE_FAULTS] = HOLZMOTTE_STATE_SET_CODE_FAULTS,
    [HOLZMOTTE_RECEIVE_BEGUN] = HOLZMOTTE_STATE_BEGUN,
    [HOLZMOTTE_RECEIVE_REPLACED] = HOLZMOTTE_STATE_REPLACED,
};

static int summed_up(void)
{
    for (int i = 0; i < 12; i++)
        if (i != HOLZMOTTE_RECEIVE_ALONE && holzmotte_word(summary.at, i) != word(IN_STATE[i]))
            return 0;
    return kept(&summary, HOLZMOTTE_RECEIVE_SUMMARY_BYTES);
}

/* The word of the state of which each of the counters is a running total. */
static const int COUNTED[] = {
    [HOLZMOTTE_COUNT_TESTED] = HOLZMOTTE_STATE_TESTED,
    [HOLZMOTTE_COUNT_SLIPS] = HOLZMOTTE_STATE_SLIPS,
    [HOLZMOTTE_COUNT_HEADER_FAULTS] = HOLZMOTTE_STATE_HEADER_FAULTS,
    [HOLZMOTTE_COUNT_TYPE_FAULTS] = HOLZMOTTE_STATE_TYPE_FAULTS,
    [HOLZMOTTE_COUNT_CONTROL_CODE_FAULTS] = HOLZMOTTE_STATE_CONTROL_CODE_FAULTS,
    [HOLZMOTTE_COUNT_SET_CODE_FAULTS] = HOLZMOTTE_STATE_SET_CODE_FAULTS,
    [HOLZMOTTE_COUNT_BEGUN] = HOLZMOTTE_STATE_BEGUN,
    [HOLZMOTTE_COUNT_REPLACED] = HOLZMOTTE_STATE_REPLACED,
};

static int counted(void)
{
    for (int i = 0; i < 8; i++) {
        uint64_t sum = holzmotte_counter(counters.was, i) + gained(COUNTED[i]);
        if (holzmotte_counter(counters.at, i) != (sum < HOLZMOTTE_COUNTER_FULL ? sum : HOLZMOTTE_COUNTER_FULL))
            return 0;
    }
    return kept(&counters, HOLZMOTTE_COUNTERS_BYTES);
}

/* What a call hands out stands at the start of the room, and all behind it is as it was. */
static int handed_out(void)
{
    uint64_t vectors = gained(HOLZMOTTE_STATE_VECTORS);
    return vectors <= room.len / 10 && kept(&room, 10 * (size_t)vectors);
}

/* Does a burst write no bit that counts for nothing? */
static int tidy(void)
{
    uint64_t carried = word(HOLZMOTTE_STATE_CARRIED), first = carried < 2 ? carried : 2, kinds = 5 + word(HOLZMOTTE_STATE_EDITION);
    for (int i = 0; i < 5; i++)
        if (word(FLAGS[i]) > 1)
            return 0;
    for (int i = HOLZMOTTE_STATE_HELD_ON; i <= HOLZMOTTE_STATE_HELD_SECOND; i++)
        if (word(i) != 0 && word(HOLZMOTTE_STATE_HELD) == 0)
            return 0;
    return carried <= 65 && word(HOLZMOTTE_STATE_CARRIED_HEADER) >> first == 0 &&
           (carried == 65 || word(HOLZMOTTE_STATE_CARRIED_PAYLOAD) >> (carried - first) == 0) && word(HOLZMOTTE_STATE_HELD_KIND) < kinds &&
           word(HOLZMOTTE_STATE_HELD_FIRST) >> 40 == 0 && word(HOLZMOTTE_STATE_HELD_SECOND) >> 40 == 0;
}

static uint64_t flag(uint64_t number) { return number != 0; }

/* Every line bit is in a tested block, carried, or skipped for a slip; the last tested block is held. */
static int went_on(void)
{
    uint64_t skips = flag(word_was(HOLZMOTTE_STATE_SKIP)), dropped = skips && line.len > 0 ? word_was(HOLZMOTTE_STATE_CARRIED) : 0;
    uint64_t skipped = skips + gained(HOLZMOTTE_STATE_SLIPS) - word(HOLZMOTTE_STATE_SKIP), tested = gained(HOLZMOTTE_STATE_TESTED);
    uint64_t held = flag(word_was(HOLZMOTTE_STATE_HELD));
    return word_was(HOLZMOTTE_STATE_CARRIED) + 8 * line.len == 66 * tested + word(HOLZMOTTE_STATE_CARRIED) + skipped + dropped &&
           word(HOLZMOTTE_STATE_HELD) == (held || tested > 0) &&
           gained(HOLZMOTTE_STATE_VECTORS) == tested + held - word(HOLZMOTTE_STATE_HELD) &&
           gained(HOLZMOTTE_STATE_LINE_BYTES) == line.len && word(HOLZMOTTE_STATE_CLOSED) == 0 && gained(HOLZMOTTE_STATE_EDITION) == 0;
}

static int burst_answered(void)
{
    return went_on() && tidy() && handed_out() && summed_up() && holzmotte_word(summary.at, HOLZMOTTE_RECEIVE_ALONE) == 0 && counted() &&
           kept(&state, HOLZMOTTE_STATE_BYTES) && kept(&line, 0);
}

/* The words that a closing call leaves as they were. */
static int stays(int i)
{
    return (i > HOLZMOTTE_STATE_CLOSED && i < HOLZMOTTE_STATE_HELD) || (i > HOLZMOTTE_STATE_HELD_SECOND && i < HOLZMOTTE_STATE_VECTORS) ||
           (i > HOLZMOTTE_STATE_VECTORS && i < HOLZMOTTE_STATE_BEGUN) || i == HOLZMOTTE_STATE_EDITION;
}

static int is_flag(int i) { return i == HOLZMOTTE_STATE_LOCKED || i == HOLZMOTTE_STATE_HIGH || i == HOLZMOTTE_STATE_SKIP; }

static int closed(void)
{
    for (int i = 0; i < 29; i++)
        if (stays(i) && word(i) != (is_flag(i) ? flag(word_was(i)) : word_was(i)))
            return 0;
    return word(HOLZMOTTE_STATE_CLOSED) == 1 && all(state.at + 8 * HOLZMOTTE_STATE_HELD, 8 * 5, 0) &&
           gained(HOLZMOTTE_STATE_VECTORS) == flag(word_was(HOLZMOTTE_STATE_HELD));
}

static int close_answered(void)
{
    return closed() && handed_out() && summed_up() && holzmotte_word(summary.at, HOLZMOTTE_RECEIVE_ALONE) <= 1 && counted() &&
           kept(&state, HOLZMOTTE_STATE_BYTES) && kept(&line, 0);
}

/* ---- which refusal applies, as the header has it */

static int over(int i, uint64_t most) { return word(i) > most; }

static int bad_state(void)
{
    uint64_t unlocked = word(HOLZMOTTE_STATE_LOCKED) == 0, states = word(HOLZMOTTE_STATE_EDITION) == HOLZMOTTE_EDITION_NEW ? 5 : 4;
    for (int i = HOLZMOTTE_STATE_TESTED; i <= HOLZMOTTE_STATE_REPLACED; i++)
        if (over(i, 100000))
            return 1;
    return over(HOLZMOTTE_STATE_LOCK_TESTED, 63) || over(HOLZMOTTE_STATE_LOCK_INVALID, unlocked ? 0 : 15) ||
           over(HOLZMOTTE_STATE_LOCK_INVALID, word(HOLZMOTTE_STATE_LOCK_TESTED)) || over(HOLZMOTTE_STATE_WINDOW_BLOCKS, 19530) ||
           over(HOLZMOTTE_STATE_WINDOW_INVALID, unlocked ? 0 : 19530) ||
           over(HOLZMOTTE_STATE_WINDOW_INVALID, word(HOLZMOTTE_STATE_WINDOW_BLOCKS)) || (unlocked && word(HOLZMOTTE_STATE_HIGH) != 0) ||
           over(HOLZMOTTE_STATE_LINE_BYTES, 825000) || over(HOLZMOTTE_STATE_SCRAMBLER, ((uint64_t)1 << 58) - 1) ||
           over(HOLZMOTTE_STATE_CARRIED, 65) || over(HOLZMOTTE_STATE_DIAGRAM, states);
}

/* The number with which a burst of so many bytes is refused, or 0. A closing call is judged as a burst of none. */
static uint64_t verdict(size_t line_bytes)
{
    if (state.len < HOLZMOTTE_STATE_BYTES)
        return HOLZMOTTE_NO_ROOM;
    if (word(HOLZMOTTE_STATE_EDITION) > 1)
        return HOLZMOTTE_NO_EDITION;
    if (word(HOLZMOTTE_STATE_CLOSED) != 0)
        return HOLZMOTTE_CLOSED;
    if (bad_state())
        return HOLZMOTTE_BAD_STATE;
    if (word(HOLZMOTTE_STATE_LINE_BYTES) + line_bytes > 825000)
        return HOLZMOTTE_TOO_LONG;
    if (summary.len < HOLZMOTTE_RECEIVE_SUMMARY_BYTES || counters.len < HOLZMOTTE_COUNTERS_BYTES || room.len < wanted(line_bytes))
        return HOLZMOTTE_NO_ROOM;
    return HOLZMOTTE_DONE;
}

/* Makes a call, whatever comes of it, and looks at all that it leaves. The result. */
static uint64_t burst_judged(void)
{
    uint64_t expected = verdict(line.len), result = bursts();
    CHECK(result == expected);
    CHECK(result == HOLZMOTTE_DONE ? burst_answered() : left_alone());
    return result;
}

static uint64_t close_judged(void)
{
    uint64_t expected = verdict(0), result = closes();
    CHECK(result == expected);
    CHECK(result == HOLZMOTTE_DONE ? close_answered() : left_alone());
    return result;
}

/* ---- beginning */

static void lend_fresh(void)
{
    lend(&state, HOLZMOTTE_STATE_BYTES, 0xee);
    CHECK(holzmotte_begin(edition, state.at, state.len) == HOLZMOTTE_DONE);
}

static void beginning(void)
{
    lend_rest(0, 0);
    for (size_t more = 0; more <= 16; more++) {
        lend(&state, HOLZMOTTE_STATE_BYTES + more, 0xee);
        CHECK(begins() == HOLZMOTTE_DONE);
        CHECK(all(state.at, 8 * HOLZMOTTE_STATE_EDITION, 0) && word(HOLZMOTTE_STATE_EDITION) == edition);
        CHECK(kept(&state, HOLZMOTTE_STATE_BYTES));
    }
    for (size_t len = 0; len < HOLZMOTTE_STATE_BYTES; len++) {
        lend(&state, len, 0xee);
        CHECK(begins() == HOLZMOTTE_NO_ROOM && kept(&state, 0));
    }
    group("a fresh state, exact and longer; every shorter one is refused");
}

static void beginning_in_no_edition(void)
{
    static const uint64_t UNKNOWN[] = {2, 3, UINT64_MAX, 256, (uint64_t)1 << 32, ((uint64_t)1 << 32) + 1};
    lend_rest(0, 0);
    for (size_t i = 0; i < sizeof UNKNOWN / sizeof *UNKNOWN; i++)
        for (size_t len = 0; len <= HOLZMOTTE_STATE_BYTES + 8; len++) {
            edition = UNKNOWN[i];
            lend(&state, len, 0xee);
            CHECK(begins() == HOLZMOTTE_NO_EDITION && kept(&state, 0));
        }
    group("no such edition: beginning is refused with 13, before a state that is too short");
}

/* ---- lines, whole and in bursts */

static uint8_t sent[HOLZMOTTE_MAX_VECTOR_BYTES], whole[HOLZMOTTE_MAX_LINE_BYTES + 1];
static size_t whole_len;

/* Sends this list: its line is the whole. */
static void send(size_t vectors)
{
    uint8_t words[HOLZMOTTE_SEND_SUMMARY_BYTES];
    uint64_t start = ((uint64_t)rand() << 27 ^ (uint64_t)rand()) % HOLZMOTTE_START_STATES;
    whole_len = HOLZMOTTE_LINE_ROOM(10 * vectors);
    CHECK(holzmotte_send(edition, sent, 10 * vectors, start, whole, sizeof whole, words, sizeof words) == HOLZMOTTE_DONE);
}

/* Idles that give lock, then frames, faults, errors, low power idle and data out of turn, as chance has it. */
static void send_traffic(size_t vectors)
{
    static const char *const SORTS[] = {IDLES, IDLES, IDLES, START, OCTETS, OCTETS, TERMINATE, LOCAL, ERRORS, LOW, LOW};
    int sort = 0;
    for (size_t i = 0; i < vectors; i++) {
        sort = i < 64 || random_below(3) == 0 ? random_below(3) : sort == 3 ? 4 : random_below(11);
        memcpy(sent + 10 * i, SORTS[sort], 10);
    }
    send(vectors);
}

static void flip(size_t bit) { whole[bit / 8] ^= (uint8_t)(1 << bit % 8); }

/* Takes some bits away from the line's beginning. */
static void shift(size_t bits)
{
    for (size_t i = 0; i < 8 * whole_len - bits; i++)
        if ((whole[i / 8] ^ whole[(i + bits) / 8] >> (i + bits) % 8 << i % 8) >> i % 8 & 1)
            flip(i);
    whole_len -= bits / 8 + 1;
}

static void noise(size_t from, size_t to)
{
    for (size_t i = from; i < to; i++)
        whole[i] = (uint8_t)rand();
}

enum line { CLEAN, NOISE, DAMAGED, SHIFTED, STRETCH, HEADERS, LINES };
static const char *const LINE[] = {"clean", "noise", "damaged", "shifted", "with a stretch of noise", "with every 50th header bad"};

/* A line of about so many vectors, a multiple of four; it may end anywhere. */
static void make(enum line which, size_t vectors)
{
    send_traffic(vectors);
    if (which == NOISE)
        noise(0, whole_len);
    for (int i = 0; which == DAMAGED && i < 40; i++)
        flip((size_t)rand() % (8 * whole_len));
    if (which == SHIFTED)
        shift((size_t)(1 + random_below(65)));
    if (which == STRETCH)
        noise(whole_len / 3, whole_len / 2);
    for (size_t block = 70; which == HEADERS && block < vectors; block += 50)
        flip(66 * block);
    whole_len -= (size_t)random_below(9);
}

/* What one call gives. */
static uint8_t one_vectors[HOLZMOTTE_MAX_VECTOR_BYTES];
static uint8_t one_summary[HOLZMOTTE_RECEIVE_SUMMARY_BYTES], one_counters[HOLZMOTTE_COUNTERS_BYTES];

static void receive_whole(void)
{
    CHECK(holzmotte_receive(edition, whole, whole_len, one_vectors, sizeof one_vectors, one_summary, sizeof one_summary, one_counters,
                            sizeof one_counters) == HOLZMOTTE_DONE);
}

/* What the calls gave so far. */
static uint8_t joined[HOLZMOTTE_MAX_VECTOR_BYTES];
static size_t joined_len;

static void join(void)
{
    size_t bytes = 10 * (size_t)gained(HOLZMOTTE_STATE_VECTORS);
    CHECK(joined_len + bytes <= sizeof joined);
    memcpy(joined + joined_len, room.at, bytes);
    joined_len += bytes;
}

/* Lends anew: the state and the counters with the bytes that they have, elsewhere, the state's slice exact or longer; the next bytes of the
 * whole, and the room that they want. */
static void lend_longer(size_t at, size_t bytes, size_t more)
{
    uint8_t old_state[HOLZMOTTE_STATE_BYTES], old_counters[HOLZMOTTE_COUNTERS_BYTES];
    memcpy(old_state, state.at, sizeof old_state);
    memcpy(old_counters, counters.at, sizeof old_counters);
    lend(&state, HOLZMOTTE_STATE_BYTES + more, 0xee);
    memcpy(state.at, old_state, sizeof old_state);
    lend_rest(bytes, wanted(bytes));
    memcpy(line.at, whole + at, bytes);
    memcpy(counters.at, old_counters, sizeof old_counters);
}

static void lend_burst(size_t at, size_t bytes) { lend_longer(at, bytes, 0); }

/* Makes one of the slices that are written too short, has the call refused, and lends the slice as it was. */
static void refuse(uint64_t (*judged)(void))
{
    struct lent *slice = SLICES[(const int[]){0, 2, 3, 4}[random_below(4)]];
    size_t right = slice->len, least = slice == &state ? HOLZMOTTE_STATE_BYTES : right;
    slice->len = (size_t)random_below((int)least);
    CHECK(judged() == HOLZMOTTE_NO_ROOM);
    slice->len = right;
}

/* A burst, or the closing call; perhaps it is refused first and made again. */
static void call(uint64_t (*judged)(void))
{
    if (random_below(3) == 0)
        refuse(judged);
    CHECK(judged() == HOLZMOTTE_DONE);
    join();
}

/* Receives the whole in bursts of any length below `most`, none too, and compares with one call. */
static void in_bursts(size_t most)
{
    for (size_t i = 0; i < sizeof one_counters; i++)
        one_counters[i] = random_below(3) ? 0xff : (uint8_t)rand();
    lend_fresh();
    lend_rest(0, 0);
    memcpy(counters.at, one_counters, sizeof one_counters);
    receive_whole();
    joined_len = 0;
    for (size_t at = 0, bytes; at < whole_len; at += bytes) {
        bytes = (size_t)rand() % most;
        bytes = bytes < whole_len - at ? bytes : whole_len - at;
        lend_longer(at, bytes, (size_t)random_below(9));
        call(burst_judged);
    }
    lend_burst(0, 0);
    call(close_judged);
    CHECK(joined_len == 10 * holzmotte_word(one_summary, HOLZMOTTE_RECEIVE_VECTORS) && memcmp(joined, one_vectors, joined_len) == 0);
    CHECK(memcmp(summary.at, one_summary, sizeof one_summary) == 0);
    CHECK(memcmp(counters.at, one_counters, sizeof one_counters) == 0);
}

static void cut_at_random(void)
{
    static const size_t MOST[] = {2, 3, 10, 40, 300, 2000};
    for (enum line which = CLEAN; which < LINES; which++) {
        for (int round = 0; round < 36; round++) {
            make(which, 4 * (size_t)(17 + random_below(80)));
            in_bursts(MOST[round % 6]);
        }
        char says[128];
        snprintf(says, sizeof says, "lines in random bursts, some refused and sent again, as in one call: %s", LINE[which]);
        group(says);
    }
}

/* Every cut of a short line in two, and in equal bursts of every length. */
static void every_cut(void)
{
    make(SHIFTED, 80);
    for (size_t cut = 0; cut <= whole_len; cut++) {
        lend_fresh();
        lend_rest(0, 0);
        memset(one_counters, 0, sizeof one_counters);
        receive_whole();
        joined_len = 0;
        lend_burst(0, cut);
        CHECK(burst_judged() == HOLZMOTTE_DONE), join();
        lend_burst(cut, whole_len - cut);
        CHECK(burst_judged() == HOLZMOTTE_DONE), join();
        lend_burst(0, 0);
        CHECK(close_judged() == HOLZMOTTE_DONE), join();
        CHECK(memcmp(joined, one_vectors, joined_len) == 0 && memcmp(summary.at, one_summary, sizeof one_summary) == 0);
        CHECK(memcmp(counters.at, one_counters, sizeof one_counters) == 0);
    }
    group("a line cut in two, at every byte");
}

/* Over more than a window of the error rate, which is high for most of it. */
static void long_windows(void)
{
    make(HEADERS, 24000);
    in_bursts(1500);
    CHECK(holzmotte_word(one_summary, HOLZMOTTE_RECEIVE_HIGH) == 1);
    make(DAMAGED, 24000);
    in_bursts(4000);
    CHECK(holzmotte_word(one_summary, HOLZMOTTE_RECEIVE_HIGH) == 0);
    group("lines longer than a window of the error rate, high and not");
}

/* ---- the end of a line, and no end */

/* Lends a fresh state and feeds it the whole. */
static void feed_whole(void)
{
    lend_fresh();
    lend_rest(0, 0);
    lend_burst(0, whole_len);
    CHECK(burst_judged() == HOLZMOTTE_DONE);
}

static void no_end(void)
{
    for (int round = 0; round < 40; round++) {
        make((enum line)(round % LINES), 4 * (size_t)(17 + round));
        feed_whole();
        for (int i = 0; i < 3; i++) {
            lend_burst(0, 0);
            CHECK(burst_judged() == HOLZMOTTE_DONE);
            CHECK(kept(&state, 0) && kept(&room, 0) && kept(&counters, 0));
        }
    }
    group("a burst of no bytes changes nothing but the summary");
}

static void after_the_end(void)
{
    make(CLEAN, 80);
    feed_whole();
    lend_burst(0, 0);
    CHECK(close_judged() == HOLZMOTTE_DONE);
    for (int i = 0; i < 3; i++) {
        CHECK(close_judged() == HOLZMOTTE_CLOSED);
        lend_burst(0, (size_t)i);
        CHECK(burst_judged() == HOLZMOTTE_CLOSED);
    }
    lend_burst(0, whole_len);
    CHECK(begins() == HOLZMOTTE_DONE && burst_judged() == HOLZMOTTE_DONE);
    lend_fresh();
    lend_burst(0, 0);
    CHECK(close_judged() == HOLZMOTTE_DONE && all(summary.at, summary.len, 0) && kept(&room, 0));
    group("after the closing call all is refused with 9, until a new beginning; a line of no bytes");
}

/* A line of idles and a frame of two vectors, that ends with it or a block later. */
static void last_frame(void)
{
    for (size_t i = 0; i < 72; i++)
        memcpy(sent + 10 * i, IDLE, 10);
    memcpy(sent + 10 * 66, START TERMINATE, 20);
    for (size_t more = 0; more <= 33; more++) {
        send(72);
        whole_len = 33 * 17 + more;
        feed_whole();
        lend_burst(0, 0);
        CHECK(close_judged() == HOLZMOTTE_DONE);
        CHECK(memcmp(room.at, more < 9 ? TERMINATE : IDLES, 10) == 0);
        CHECK(holzmotte_word(summary.at, HOLZMOTTE_RECEIVE_ALONE) == (more < 9));
    }
    group("a Terminate that the closing call hands out is accepted, and the summary says so");
}

/* ---- the limit of the sum */

static void limit_of_the_sum(void)
{
    for (size_t i = 0; i < sizeof sent; i++)
        sent[i] = IDLE[i % 10];
    send(100000);
    whole[whole_len] = 0;
    for (int last = 0; last <= 2; last++) {
        size_t cut = HOLZMOTTE_MAX_LINE_BYTES - (size_t)last;
        lend_fresh();
        lend_rest(0, 0);
        lend_burst(0, cut);
        CHECK(burst_judged() == HOLZMOTTE_DONE);
        for (size_t more = (size_t)last + 1; more <= (size_t)last + 70; more++) {
            lend_rest(more, HOLZMOTTE_BURST_ROOM(more));
            CHECK(burst_judged() == HOLZMOTTE_TOO_LONG);
        }
        lend_burst(cut, (size_t)last);
        CHECK(burst_judged() == HOLZMOTTE_DONE && word(HOLZMOTTE_STATE_LINE_BYTES) == HOLZMOTTE_MAX_LINE_BYTES);
        lend_burst(cut, 1);
        CHECK(burst_judged() == HOLZMOTTE_TOO_LONG);
        lend_burst(0, 0);
        CHECK(burst_judged() == HOLZMOTTE_DONE);
        CHECK(close_judged() == HOLZMOTTE_DONE && word(HOLZMOTTE_STATE_VECTORS) == 100000);
    }
    lend_fresh();
    lend_rest(HOLZMOTTE_MAX_LINE_BYTES + 1, 0);
    CHECK(burst_judged() == HOLZMOTTE_TOO_LONG);
    group("825,000 bytes in bursts, and one more is refused, after which the line goes on");
}

/* ---- states from elsewhere */

enum base { FRESH, SEARCHING, SLIPPED, LOCKED, IN_FRAME, HIGH, ENDED, BASES };

/* Lends a state that a line leads to: nothing tested; not locked, in the midst of a block; a bit to skip; locked, and a block held; inside
 * a frame; the error rate high; closed. */
static void lend_base(enum base which)
{
    lend_fresh();
    lend_rest(0, 0);
    if (which == FRESH)
        return;
    make(CLEAN, which == HIGH ? 2000 : 100);
    for (size_t i = 64; i < 100; i++)
        memcpy(sent + 10 * i, i < 66 ? IDLES : i == 66 ? START : OCTETS, 10);
    if (which == IN_FRAME)
        send(100);
    if (which == SLIPPED)
        memset(whole, 0, whole_len);
    for (size_t block = 70; which == HIGH && block < 2000; block += 50)
        flip(66 * block);
    lend_burst(0, which == SEARCHING ? 100 : which == SLIPPED ? 33 : whole_len - whole_len % 33 - 20);
    for (size_t bytes = line.len; which == SLIPPED && word(HOLZMOTTE_STATE_SKIP) == 0 && bytes < 200; bytes++) {
        lend_fresh();
        lend_burst(0, bytes);
        CHECK(burst_judged() == HOLZMOTTE_DONE);
    }
    if (which != SLIPPED)
        CHECK(burst_judged() == HOLZMOTTE_DONE);
    lend_burst(0, 0);
    if (which == ENDED)
        CHECK(close_judged() == HOLZMOTTE_DONE);
}

static void bases(void)
{
    lend_base(SEARCHING);
    CHECK(word(HOLZMOTTE_STATE_LOCKED) == 0 && word(HOLZMOTTE_STATE_CARRIED) > 2 && word(HOLZMOTTE_STATE_HELD) == 1);
    lend_base(SLIPPED);
    CHECK(word(HOLZMOTTE_STATE_SKIP) == 1);
    lend_base(LOCKED);
    CHECK(word(HOLZMOTTE_STATE_LOCKED) == 1 && word(HOLZMOTTE_STATE_HELD_ON) == 1 && word(HOLZMOTTE_STATE_CARRIED) > 2);
    lend_base(IN_FRAME);
    CHECK(word(HOLZMOTTE_STATE_DIAGRAM) == HOLZMOTTE_D && word(HOLZMOTTE_STATE_HELD_KIND) == 0);
    lend_base(HIGH);
    CHECK(word(HOLZMOTTE_STATE_HIGH) == 1);
    lend_base(ENDED);
    CHECK(word(HOLZMOTTE_STATE_CLOSED) == 1);
    group("the states that the next groups begin with");
}

static const uint64_t EDGES[] = {0, 1, 2, 3, 4, 5, 6, 14, 15, 16, 62, 63, 64, 65, 66, 19529, 19530, 19531, 99999, 100000, 100001, 824900,
                                 824999, 825000, 825001, ((uint64_t)1 << 32) + 1, (uint64_t)1 << 40, ((uint64_t)1 << 58) - 1,
                                 (uint64_t)1 << 58, (uint64_t)1 << 63, UINT64_MAX - 825000, UINT64_MAX - 1, UINT64_MAX};
#define EDGE_COUNT (sizeof EDGES / sizeof *EDGES)

/* Makes each call to a state, with room for it, and puts the state back. */
static void each_call(void)
{
    uint8_t base[HOLZMOTTE_STATE_BYTES];
    memcpy(base, state.at, sizeof base);
    for (int i = 0; i < 4; i++) {
        line.len = (size_t[]){0, 1, 9, 75}[i];
        memcpy(line.at, whole + 33, line.len);
        burst_judged();
        memcpy(state.at, base, sizeof base);
    }
    close_judged();
    memcpy(state.at, base, sizeof base);
}

static void each_word_at_its_edges(void)
{
    for (enum base which = FRESH; which < BASES; which++) {
        lend_base(which);
        lend_rest(75, HOLZMOTTE_BURST_ROOM(75));
        for (int i = 0; i < 29; i++) {
            uint64_t right = word(i);
            for (size_t k = 0; k < EDGE_COUNT; k++) {
                put(i, EDGES[k]);
                each_call();
            }
            put(i, right);
        }
    }
    group("each word of a state at every edge: refused as the header says, or accepted and all of the answer in its place");
}

/* Two words at edges, so that what is said of a word beside another counts: invalid and tested, locked and high. */
static void words_at_odds(void)
{
    for (int round = 0; round < 6000; round++) {
        if (round % 60 == 0) {
            lend_base((enum base)(round / 60 % BASES));
            lend_rest(75, HOLZMOTTE_BURST_ROOM(75));
        }
        uint8_t base[HOLZMOTTE_STATE_BYTES];
        memcpy(base, state.at, sizeof base);
        for (int changes = 2 + random_below(2); changes > 0; changes--)
            put(1 + random_below(28), EDGES[random_below((int)EDGE_COUNT)]);
        put(HOLZMOTTE_STATE_EDITION, (uint64_t)random_below(2));
        each_call();
        memcpy(state.at, base, sizeof base);
    }
    group("several words of a state at edges at once");
}

/* ---- what any number means */

/* Does a call to the state at hand leave what the same call to another one leaves? The state at hand stays. */
static int means_the_same(const uint8_t *other, int closing)
{
    static uint8_t first[3][2048];
    uint8_t base[HOLZMOTTE_STATE_BYTES], after[HOLZMOTTE_STATE_BYTES];
    uint64_t (*const judged)(void) = closing ? close_judged : burst_judged;
    memcpy(base, state.at, sizeof base);
    memset(room.at, 0xa5, room.len);
    memset(counters.at, 0, counters.len);
    uint64_t result = judged();
    for (int i = 0; i < 3; i++)
        memcpy(first[i], SLICES[2 + i]->at, SLICES[2 + i]->len);
    memcpy(after, state.at, sizeof after);
    memcpy(state.at, other, sizeof base);
    memset(room.at, 0xa5, room.len);
    memset(counters.at, 0, counters.len);
    int same = judged() == result && (closing || memcmp(after, state.at, sizeof after) == 0);
    for (int i = 0; i < 3; i++)
        same = same && memcmp(first[i], SLICES[2 + i]->at, SLICES[2 + i]->len) == 0;
    memcpy(state.at, base, sizeof base);
    return same && result == HOLZMOTTE_DONE;
}

/* Is a word with another number in it, beside what the state has, the same to every call? */
static int same_with(int i, uint64_t number)
{
    uint8_t other[HOLZMOTTE_STATE_BYTES];
    uint64_t right = word(i);
    int same = 1;
    put(i, number);
    memcpy(other, state.at, sizeof other);
    put(i, right);
    for (int k = 0; k < 5; k++) {
        line.len = (size_t[]){9, 75, 1, 0, 0}[k];
        memcpy(line.at, whole + 33, line.len);
        same = same && means_the_same(other, k == 4);
    }
    return same;
}

static void lend_base_for_calls(enum base which)
{
    lend_base(which);
    lend_rest(75, HOLZMOTTE_BURST_ROOM(75));
}

static void yes_is_any_number(void)
{
    static const uint64_t YES[] = {2, 255, 256, (uint64_t)1 << 32, (uint64_t)1 << 63, UINT64_MAX};
    for (enum base which = FRESH; which < ENDED; which++) {
        lend_base_for_calls(which);
        for (int i = 0; i < 5; i++)
            for (int k = 0; k < 6; k++)
                CHECK(word(FLAGS[i]) == 0 || same_with(FLAGS[i], YES[k]));
    }
    group("a flag is a yes for any number but 0");
}

static void stray_bits(void)
{
    for (enum base which = SEARCHING; which < ENDED; which++) {
        lend_base_for_calls(which);
        for (uint64_t carried = 0; carried <= 65; carried++) {
            uint64_t first = carried < 2 ? carried : 2, others = carried - first;
            put(HOLZMOTTE_STATE_CARRIED, carried);
            put(HOLZMOTTE_STATE_SKIP, 0);
            put(HOLZMOTTE_STATE_CARRIED_HEADER, 1 & (((uint64_t)1 << first) - 1));
            put(HOLZMOTTE_STATE_CARRIED_PAYLOAD, 0);
            CHECK(same_with(HOLZMOTTE_STATE_CARRIED_HEADER, word(HOLZMOTTE_STATE_CARRIED_HEADER) | UINT64_MAX << first));
            CHECK(others > 63 || same_with(HOLZMOTTE_STATE_CARRIED_PAYLOAD, UINT64_MAX << others));
        }
        lend_base_for_calls(which);
        CHECK(same_with(HOLZMOTTE_STATE_HELD_FIRST, word(HOLZMOTTE_STATE_HELD_FIRST) | UINT64_MAX << 40));
        CHECK(same_with(HOLZMOTTE_STATE_HELD_SECOND, word(HOLZMOTTE_STATE_HELD_SECOND) | UINT64_MAX << 40));
    }
    group("bits above those carried, and above a word's five bytes, count for nothing");
}

static void nothing_held(void)
{
    for (enum base which = FRESH; which < ENDED; which++)
        for (int i = HOLZMOTTE_STATE_HELD_ON; i <= HOLZMOTTE_STATE_HELD_SECOND; i++) {
            lend_base_for_calls(which);
            memset(state.at + 8 * HOLZMOTTE_STATE_HELD, 0, 8 * 5);
            for (int k = 0; k < 5; k++)
                CHECK(same_with(i, (const uint64_t[]){1, 2, 5, 0x0707070f, UINT64_MAX}[k]));
        }
    group("a block that is not held counts for nothing");
}

/* In the old edition LI, 5, is no kind. */
static void no_such_kind(void)
{
    static const uint64_t NO_KIND[] = {5, 6, 7, 255, 256, (uint64_t)1 << 32, UINT64_MAX};
    for (enum base which = SEARCHING; which < ENDED; which++) {
        lend_base_for_calls(which);
        put(HOLZMOTTE_STATE_HELD_KIND, 4);
        for (int k = edition == HOLZMOTTE_EDITION_NEW; k < 7; k++)
            CHECK(same_with(HOLZMOTTE_STATE_HELD_KIND, NO_KIND[k]));
    }
    group("a kind that the edition does not have is E");
}

/* Lends a state with a bit to skip, and all bits carried set. */
static void lend_skip(uint64_t carried)
{
    lend_base_for_calls(LOCKED);
    put(HOLZMOTTE_STATE_SKIP, 1);
    put(HOLZMOTTE_STATE_CARRIED, carried);
    put(HOLZMOTTE_STATE_CARRIED_HEADER, 3);
    put(HOLZMOTTE_STATE_CARRIED_PAYLOAD, UINT64_MAX);
}

static void skipped_with_carried(void)
{
    uint8_t none[HOLZMOTTE_STATE_BYTES];
    lend_skip(0);
    memcpy(none, state.at, sizeof none);
    for (uint64_t carried = 1; carried <= 65; carried++) {
        put(HOLZMOTTE_STATE_CARRIED, carried);
        for (line.len = 1; line.len <= 75; line.len += 37)
            CHECK(means_the_same(none, 0));
        line.len = 0;
        CHECK(means_the_same(none, 1));
    }
    group("a bit to skip takes the bits carried with it");
}

/* The receive diagram: where each kind (D, C, S, T, E, LI) leads from each state (INIT, C, D, T, E, LI), a Terminate as if it were
 * accepted. */
static const uint8_t TO[6][6] = {
    {HOLZMOTTE_E, HOLZMOTTE_C, HOLZMOTTE_D, HOLZMOTTE_E, HOLZMOTTE_E, HOLZMOTTE_E},
    {HOLZMOTTE_E, HOLZMOTTE_C, HOLZMOTTE_D, HOLZMOTTE_E, HOLZMOTTE_E, HOLZMOTTE_LI},
    {HOLZMOTTE_D, HOLZMOTTE_E, HOLZMOTTE_E, HOLZMOTTE_T, HOLZMOTTE_E, HOLZMOTTE_E},
    {HOLZMOTTE_E, HOLZMOTTE_C, HOLZMOTTE_D, HOLZMOTTE_E, HOLZMOTTE_E, HOLZMOTTE_LI},
    {HOLZMOTTE_D, HOLZMOTTE_C, HOLZMOTTE_E, HOLZMOTTE_T, HOLZMOTTE_E, HOLZMOTTE_LI},
    {HOLZMOTTE_E, HOLZMOTTE_C, HOLZMOTTE_E, HOLZMOTTE_E, HOLZMOTTE_E, HOLZMOTTE_LI},
};
#define KIND_S 2
#define KIND_T 3

/* The last of these vectors is of no kind at all: a held block's vector is handed out as it stands. */
#define HELD "\x01\x02\x03\x04\x05\xfb\xf7\x08\x09\xfd"

/* Puts a held block of this kind into the state, in this state of the diagram; it was tested in lock, or not. */
static void hold(uint64_t from, uint64_t kind, uint64_t on)
{
    put(HOLZMOTTE_STATE_DIAGRAM, from);
    put(HOLZMOTTE_STATE_HELD, 1);
    put(HOLZMOTTE_STATE_HELD_ON, on);
    put(HOLZMOTTE_STATE_HELD_KIND, kind);
    put(HOLZMOTTE_STATE_HELD_FIRST, holzmotte_number_in((const uint8_t *)HELD, 5));
    put(HOLZMOTTE_STATE_HELD_SECOND, holzmotte_number_in((const uint8_t *)HELD + 5, 5));
}

/* Was the held block answered as it should be, by a call before which a Terminate is accepted or not? */
static int held_answered(uint64_t from, uint64_t kind, uint64_t on, int accepted)
{
    int to = !on ? HOLZMOTTE_INIT : kind == KIND_T && !accepted ? HOLZMOTTE_E : TO[from][kind];
    const void *answer = !on ? LOCAL : to == HOLZMOTTE_E ? ERRORS : HELD;
    int closing = word(HOLZMOTTE_STATE_CLOSED) == 1, begun = on && to != HOLZMOTTE_E && kind == KIND_S, replaced = to == HOLZMOTTE_E;
    return memcmp(room.at, answer, 10) == 0 && gained(HOLZMOTTE_STATE_BEGUN) == (uint64_t)begun &&
           gained(HOLZMOTTE_STATE_REPLACED) == (uint64_t)replaced && word(HOLZMOTTE_STATE_DIAGRAM) == (closing ? from : (uint64_t)to) &&
           holzmotte_word(summary.at, HOLZMOTTE_RECEIVE_ALONE) == (uint64_t)(closing && to == HOLZMOTTE_T);
}

/* The line of one block, its payload scrambled from zeros, and six bits of the next. */
static void put_block(unsigned header, uint64_t payload)
{
    uint64_t scrambled = payload ^ payload << 39 ^ payload << 58;
    line.at[0] = (uint8_t)(header | scrambled << 2);
    for (int i = 1; i < 9; i++)
        line.at[i] = (uint8_t)(scrambled >> (8 * i - 2));
}

/* A next block of each kind, and whether a Terminate is accepted before it: D, C, S, T, E (a bad header, a bad type), and low power idle,
 * of kind LI in the new edition and bad in the old one. */
static const struct {
    unsigned header;
    uint64_t payload;
    int accepts;
} NEXT[] = {{2, 0, 0}, {1, 0x1e, 1}, {1, 0x78, 1}, {1, 0x87, 0}, {3, 0x1e, 0}, {1, 0, 0}, {1, 0x0c183060c183061e, 2}};

/* A held block of each kind in each state of the diagram, and each kind of block behind it, in lock or not; or the closing call. */
static void held_blocks(void)
{
    int is_new = edition == HOLZMOTTE_EDITION_NEW;
    lend_fresh();
    lend_rest(9, HOLZMOTTE_BURST_ROOM(9));
    for (uint64_t n = 0; n < 6 * 6 * 2 * 2 * 8; n++) {
        uint64_t from = n % 6, kind = n / 6 % 6, on = n / 36 % 2, locked = n / 72 % 2, next = n / 144;
        if (!is_new && (from == HOLZMOTTE_LI || kind == 5))
            continue;
        CHECK(begins() == HOLZMOTTE_DONE);
        put(HOLZMOTTE_STATE_LOCKED, locked);
        hold(from, kind, on);
        if (next == 7) {
            CHECK(close_judged() == HOLZMOTTE_DONE && held_answered(from, kind, on, 1));
            continue;
        }
        put_block(NEXT[next].header, NEXT[next].payload);
        CHECK(burst_judged() == HOLZMOTTE_DONE);
        CHECK(held_answered(from, kind, on, locked && (NEXT[next].accepts == 1 || (NEXT[next].accepts == 2 && is_new))));
    }
    group("a held block of each kind, in each state of the diagram, before each kind of block and before the end");
}

/* A window that has counted blocks without lock, to which no line leads: a block clears it, the one that gives lock too. */
static void window_without_lock(void)
{
    for (uint64_t tested = 0; tested <= 63; tested++)
        for (int k = 0; k < 3; k++) {
            lend_fresh();
            lend_rest(9, HOLZMOTTE_BURST_ROOM(9));
            put(HOLZMOTTE_STATE_LOCK_TESTED, tested);
            put(HOLZMOTTE_STATE_WINDOW_BLOCKS, (const uint64_t[]){1, 100, 19530}[k]);
            put_block(1, 0x1e);
            CHECK(burst_judged() == HOLZMOTTE_DONE && word(HOLZMOTTE_STATE_LOCKED) == (tested == 63));
            CHECK(word(HOLZMOTTE_STATE_WINDOW_BLOCKS) == 0);
        }
    group("a window begins with the block after the one that gave lock, whatever stood there");
}

/* ---- short slices, and the order of refusals */

static void rooms_of_every_length(void)
{
    make(CLEAN, 80);
    for (uint64_t carried = 0; carried <= 65; carried++)
        for (size_t bytes = 0; bytes <= 41; bytes += 1 + carried % 5) {
            lend_fresh();
            put(HOLZMOTTE_STATE_CARRIED, carried);
            for (size_t less = 0; less <= 11 && less <= wanted(bytes); less++) {
                lend_rest(bytes, wanted(bytes) - less);
                if (less > 0)
                    CHECK(burst_judged() == HOLZMOTTE_NO_ROOM);
            }
            for (size_t length = 0; bytes == 0 && length < 10; length++) {
                lend_rest(0, length);
                CHECK(close_judged() == HOLZMOTTE_NO_ROOM);
            }
            lend_rest(bytes, wanted(bytes));
            CHECK(room.len <= HOLZMOTTE_BURST_ROOM(bytes) && (carried < 65 || room.len == HOLZMOTTE_BURST_ROOM(bytes)));
            CHECK(burst_judged() == HOLZMOTTE_DONE);
        }
    group("rooms that are just long enough, and up to eleven bytes short, for all bits that can be carried");
}

static void short_slices(void)
{
    static const size_t EXACT[] = {HOLZMOTTE_STATE_BYTES, 0, 20, HOLZMOTTE_RECEIVE_SUMMARY_BYTES, HOLZMOTTE_COUNTERS_BYTES};
    for (int i = 0; i < 5; i++)
        for (size_t len = 0; len < EXACT[i]; len++) {
            lend_fresh();
            lend_rest(9, 20);
            line.at[0] = 1;
            lend(SLICES[i], len, 0);
            CHECK(burst_judged() == HOLZMOTTE_NO_ROOM);
            CHECK(i == 2 ? len >= 10 || close_judged() == HOLZMOTTE_NO_ROOM : close_judged() == HOLZMOTTE_NO_ROOM);
        }
    group("each slice at every length that is too short, those of no bytes beside a protected page");
}

static void longer_slices(void)
{
    make(CLEAN, 80);
    lend_rest(0, 0);
    for (size_t more = 1; more <= 17; more++) {
        lend(&state, HOLZMOTTE_STATE_BYTES + more, 0xee);
        CHECK(begins() == HOLZMOTTE_DONE);
        lend_rest(whole_len, HOLZMOTTE_BURST_ROOM(whole_len) + 3 * more);
        memcpy(line.at, whole, whole_len);
        lend(&summary, HOLZMOTTE_RECEIVE_SUMMARY_BYTES + more, 0x5a);
        lend(&counters, HOLZMOTTE_COUNTERS_BYTES + more, 0xc3);
        CHECK(burst_judged() == HOLZMOTTE_DONE);
        CHECK(close_judged() == HOLZMOTTE_DONE);
        CHECK(close_judged() == HOLZMOTTE_CLOSED);
    }
    group("longer slices keep their rest");
}

/* Six faults, in the order in which they are refused. */
static void spoil(int fault)
{
    if (fault == 0)
        state.len--;
    if (fault == 1)
        put(HOLZMOTTE_STATE_EDITION, 2);
    if (fault == 2)
        put(HOLZMOTTE_STATE_CLOSED, 1);
    if (fault == 3)
        put(HOLZMOTTE_STATE_CARRIED, 66);
    if (fault == 4)
        put(HOLZMOTTE_STATE_LINE_BYTES, HOLZMOTTE_MAX_LINE_BYTES - line.len + 1);
    if (fault == 5)
        room.len = 0, summary.len -= 8, counters.len--;
}

static void order_of_refusals(void)
{
    static const uint64_t NUMBER[] = {HOLZMOTTE_NO_ROOM,   HOLZMOTTE_NO_EDITION, HOLZMOTTE_CLOSED,
                                      HOLZMOTTE_BAD_STATE, HOLZMOTTE_TOO_LONG,   HOLZMOTTE_NO_ROOM};
    for (int first = 0; first < 6; first++)
        for (int second = first; second < 6; second++)
            for (int closing = 0; closing <= 1; closing++) {
                lend_fresh();
                lend_rest(33, HOLZMOTTE_BURST_ROOM(33));
                spoil(second);
                spoil(first);
                if (!closing)
                    CHECK(burst_judged() == NUMBER[first]);
                else if (first != 4) /* a closing call adds no bytes */
                    CHECK(close_judged() == NUMBER[first]);
                else
                    CHECK(close_judged() == (second == 5 ? HOLZMOTTE_NO_ROOM : HOLZMOTTE_DONE));
            }
    group("every two refusals at once: the first is given");
}

/* Each reason for refusal 10 alone, just reached and just passed. */
static void each_limit(void)
{
    const struct {
        int word;
        uint64_t most;
    } LIMITS[] = {
        {HOLZMOTTE_STATE_LINE_BYTES, 825000},                     {HOLZMOTTE_STATE_LOCK_TESTED, 63},
        {HOLZMOTTE_STATE_LOCK_INVALID, 15},                       {HOLZMOTTE_STATE_WINDOW_BLOCKS, 19530},
        {HOLZMOTTE_STATE_WINDOW_INVALID, 19530},                  {HOLZMOTTE_STATE_HIGH, UINT64_MAX},
        {HOLZMOTTE_STATE_SCRAMBLER, HOLZMOTTE_START_STATES - 1},  {HOLZMOTTE_STATE_CARRIED, 65},
        {HOLZMOTTE_STATE_DIAGRAM, 4 + edition},                   {HOLZMOTTE_STATE_TESTED, 100000},
        {HOLZMOTTE_STATE_SLIPS, 100000},                          {HOLZMOTTE_STATE_VECTORS, 100000},
        {HOLZMOTTE_STATE_HEADER_FAULTS, 100000},                  {HOLZMOTTE_STATE_TYPE_FAULTS, 100000},
        {HOLZMOTTE_STATE_CONTROL_CODE_FAULTS, 100000},            {HOLZMOTTE_STATE_SET_CODE_FAULTS, 100000},
        {HOLZMOTTE_STATE_BEGUN, 100000},                          {HOLZMOTTE_STATE_REPLACED, 100000},
    };
    for (size_t i = 0; i < sizeof LIMITS / sizeof *LIMITS; i++)
        for (int past = 0; past <= (LIMITS[i].most < UINT64_MAX); past++)
            for (int closing = 0; closing <= 1; closing++) {
                lend_fresh();
                lend_rest(0, 10);
                put(HOLZMOTTE_STATE_LOCKED, 1);
                put(HOLZMOTTE_STATE_LOCK_TESTED, 63);
                put(HOLZMOTTE_STATE_WINDOW_BLOCKS, 19530);
                put(LIMITS[i].word, LIMITS[i].most + (uint64_t)past);
                CHECK((closing ? close_judged() : burst_judged()) == (past ? HOLZMOTTE_BAD_STATE : HOLZMOTTE_DONE));
            }
    group("each limit of a state, just reached and just passed");
}

/* ---- where a state may stand */

/* At every alignment, exact, with bytes on both sides that are not lent. */
static void unaligned_states(void)
{
    make(CLEAN, 80);
    for (size_t at = 0; at <= 8; at++) {
        lend(&state, HOLZMOTTE_STATE_BYTES + 8, 0xee);
        uint8_t *around = state.at;
        state.at += at, state.len = HOLZMOTTE_STATE_BYTES;
        lend_rest(whole_len, HOLZMOTTE_BURST_ROOM(whole_len));
        memcpy(line.at, whole, whole_len);
        CHECK(begins() == HOLZMOTTE_DONE && burst_judged() == HOLZMOTTE_DONE && close_judged() == HOLZMOTTE_DONE);
        CHECK(all(around, at, 0xee) && all(state.at + state.len, 8 - at, 0xee));
    }
    group("states at every alignment");
}

/* A copy of a state, kept in a file, goes on as the state itself does. */
static void kept_in_a_file(void)
{
    for (int round = 0; round < 36; round++) {
        make((enum line)(round % LINES), 120);
        size_t cut = (size_t)rand() % whole_len, rest = whole_len - cut;
        lend_fresh();
        lend_rest(0, 0);
        lend_burst(0, cut);
        CHECK(burst_judged() == HOLZMOTTE_DONE);
        uint8_t first[HOLZMOTTE_STATE_BYTES];
        FILE *file = tmpfile();
        CHECK(file && fwrite(state.at, 1, sizeof first, file) == sizeof first);
        lend_burst(cut, rest);
        CHECK(burst_judged() == HOLZMOTTE_DONE);
        joined_len = 0, join();
        memcpy(first, state.at, sizeof first);
        CHECK(file && fseek(file, 0, SEEK_SET) == 0 && fread(state.at, 1, sizeof first, file) == sizeof first && fclose(file) == 0);
        lend_burst(cut, rest);
        CHECK(burst_judged() == HOLZMOTTE_DONE);
        CHECK(memcmp(state.at, first, sizeof first) == 0 && memcmp(room.at, joined, joined_len) == 0);
    }
    group("a state that was kept in a file goes on as the state itself does");
}

/* Each number at the top, one below, and so near that the calls just reach it or just do not; the others from 0. */
static void full_counters(void)
{
    make(STRETCH, 200);
    for (int i = 0; i < 8; i++)
        for (uint32_t below = 0; below <= 60; below++) {
            lend_fresh();
            lend_rest(0, 0);
            for (int k = 0; k < 4; k++)
                counters.at[4 * i + k] = (uint8_t)((HOLZMOTTE_COUNTER_FULL - below) >> 8 * k);
            memcpy(one_counters, counters.at, sizeof one_counters);
            receive_whole();
            for (size_t at = 0; at < whole_len; at += whole_len / 3 + 1) {
                lend_burst(at, whole_len - at < whole_len / 3 + 1 ? whole_len - at : whole_len / 3 + 1);
                CHECK(burst_judged() == HOLZMOTTE_DONE);
            }
            lend_burst(0, 0);
            CHECK(close_judged() == HOLZMOTTE_DONE && memcmp(counters.at, one_counters, sizeof one_counters) == 0);
        }
    group("counters near and at the top, over bursts as over one call");
}

/* ---- what the header says in numbers */

static void stack_use(void)
{
    size_t most[3] = {0};
    for (enum base which = FRESH; which < BASES; which++) {
        lend_base_for_calls(which);
        make(which % 2 ? NOISE : CLEAN, 4000);
        lend_burst(0, which == HIGH ? 0 : whole_len);
        for (int i = 0; i < 3; i++) {
            size_t took = stack_of((uint64_t(*const[])(void)){bursts, closes, begins}[i]);
            most[i] = took > most[i] ? took : most[i];
        }
    }
    for (int i = 0; i < 3; i++)
        CHECK(most[i] <= HOLZMOTTE_STACK_BYTES);
    printf("stack: a burst took %zu bytes, the closing call %zu, the beginning %zu\n", most[0], most[1], most[2]);
    group("the three functions keep to the stack that the header states");
}

static void layout(void)
{
    CHECK(HOLZMOTTE_STATE_BYTES == 232 && HOLZMOTTE_STATE_EDITION == 28 && HOLZMOTTE_BURST_ROOM(0) == 10);
    CHECK(HOLZMOTTE_STATE_LINE_BYTES == 1 && HOLZMOTTE_STATE_LOCKED == 4 && HOLZMOTTE_STATE_HIGH == 7 && HOLZMOTTE_STATE_SCRAMBLER == 8);
    CHECK(HOLZMOTTE_STATE_CARRIED == 9 && HOLZMOTTE_STATE_SKIP == 12 && HOLZMOTTE_STATE_DIAGRAM == 13 && HOLZMOTTE_STATE_HELD == 14);
    CHECK(HOLZMOTTE_STATE_HELD_SECOND == 18 && HOLZMOTTE_STATE_TESTED == 19 && HOLZMOTTE_STATE_VECTORS == 21);
    CHECK(HOLZMOTTE_STATE_HEADER_FAULTS == 22 && HOLZMOTTE_STATE_BEGUN == 26 && HOLZMOTTE_STATE_REPLACED == 27);
    group("the state's words stand where the header has them");
}

static void in_each_edition(void)
{
    beginning();
    cut_at_random();
    every_cut();
    long_windows();
    no_end();
    after_the_end();
    last_frame();
    limit_of_the_sum();
    bases();
    each_word_at_its_edges();
    words_at_odds();
    yes_is_any_number();
    stray_bits();
    nothing_held();
    no_such_kind();
    skipped_with_carried();
    held_blocks();
    window_without_lock();
    rooms_of_every_length();
    short_slices();
    longer_slices();
    order_of_refusals();
    each_limit();
    unaligned_states();
    kept_in_a_file();
    full_counters();
    stack_use();
}

/* Groups that choose their editions, or call no function. */
static void besides(void)
{
    beginning_in_no_edition();
    layout();
}

int main(void) { return run_groups(in_each_edition, besides); }
