/* Holzmotte: the physical coding sublayer of a 10GBASE-R link (IEEE 802.3 Clause 49), from XGMII vectors to line bits and back.
 *
 * Eleven functions, proved to do what the project's definitions say for every input: to send, to receive, to begin, go on and close where
 * a line is received in bursts, to read and write a record of a capture file, to list the frames of vectors, to build an index of them,
 * and to count and to find errors with it. They allocate nothing, keep nothing between calls and touch no memory but what is lent to
 * them, their stack and constants of their own, so they may be called from any thread.
 *
 * Compiling. This file is C11 and C++11. After `make install`: cc -std=c11 app.c -lholzmotte
 * Without it, in the project's folder after `make native`: cc -std=c11 -Iinclude app.c target/native/libholzmotte.a
 *
 * Slices. Each buffer is a pointer and, right after it, its length in bytes. For every slice of every call:
 *   - The caller owns it, before, during and after the call; the library keeps no pointer.
 *   - The pointer is not NULL, even where the length is 0: pass the address of anything then.
 *   - All of it is readable memory, and writable where the pointer is not to const; the length is at most PTRDIFF_MAX.
 *   - A slice that is written (line and summary in sending; vectors, summary and counters in receiving; state in bursts; summary or room
 *     with records; list and summary with frames; index or summary with an index) overlaps no other slice of the call, nor of a call that
 *     runs at the same time.
 * Nothing checks these four, and nothing else is asked: no pointer has to be aligned, and every other fault is refused by a number.
 *
 * Bytes. A word is five bytes: a control byte (bit i set when lane i carries a control character; bits 4 to 7 zero), then lanes 0
 * to 3. A vector is two words, ten bytes. Line bit n is bit n mod 8, least significant first, of line byte n / 8. A block is 66
 * line bits, so four vectors (40 bytes) give 33 line bytes.
 *
 * Edition. Sending, receiving and the beginning of bursts take one first: HOLZMOTTE_EDITION_NEW for a link on which Energy Efficient
 * Ethernet (IEEE 802.3az) is on, HOLZMOTTE_EDITION_OLD for every other. What it changes stands at the two constants.
 *
 * Result. 0 on success, else refusal number + 256 x place: HOLZMOTTE_NUMBER and HOLZMOTTE_PLACE take it apart. Of several refusals
 * that apply the first is given, in the order that stands at each function. The place is 0 but for refusal 5, where it is the
 * offset in `vectors` of the first control byte above 15, where a record is read, the head's offset in the file, and where a list is too
 * short for the frames, their number.
 *
 * What is written. A success writes exactly the bytes that stand at each function, from the start of the lent slice, and leaves the
 * rest of the slice as it was. A refusal leaves `line`, or `vectors`, `counters` and `state`, or `room`, `list` or `index`, as they were
 * and writes the summary's bytes as zeros; where the summary slice is too short for them it stays as it was, whatever the refusal.
 */
#ifndef HOLZMOTTE_H
#define HOLZMOTTE_H

#include <stddef.h>
#include <stdint.h>

#ifdef __cplusplus
extern "C" {
#endif

/* The version of this file and of the library that it belongs to. While the major number is 0, a new minor number may append words to a
 * summary or to a state, and never moves one, and may add functions and parameters; a new patch number does none of these. A program is
 * compiled with the header of its library: nothing notices a call with too few parameters, such as every call that was compiled with a
 * header before 0.6.0. */
#define HOLZMOTTE_VERSION_MAJOR 0
#define HOLZMOTTE_VERSION_MINOR 10
#define HOLZMOTTE_VERSION_PATCH 0
#define HOLZMOTTE_VERSION "0.10.0"

/* So much stack is enough for a call. This is tested, not proved. Measured on x86-64, in bytes: to receive took 1,295, a burst 1,279, to
 * send 571, to find an error 327, to close 322, a count and to list frames, however many there were, 271, to build an index 175, to begin
 * and to write a record 87, to read one 63. The project's two programs, which hold a whole record and what they gather,
 * need 248 KB (to receive) and 184 (to send): the least `ulimit -s` with which each stored input gives its output. */
#define HOLZMOTTE_STACK_BYTES 16384

/* Sizes, in bytes. */
#define HOLZMOTTE_VECTOR_BYTES 10
#define HOLZMOTTE_GROUP_VECTOR_BYTES 40 /* four vectors .. */
#define HOLZMOTTE_GROUP_LINE_BYTES 33   /* .. and the four blocks that carry them */
#define HOLZMOTTE_MAX_VECTOR_BYTES 1000000
#define HOLZMOTTE_MAX_LINE_BYTES 825000
#define HOLZMOTTE_SEND_SUMMARY_BYTES 24
#define HOLZMOTTE_RECEIVE_SUMMARY_BYTES 96
#define HOLZMOTTE_COUNTERS_BYTES 32
#define HOLZMOTTE_STATE_BYTES 232
#define HOLZMOTTE_READ_SUMMARY_BYTES 40
#define HOLZMOTTE_MAX_RECORD_BODY 65472
#define HOLZMOTTE_OLD_MAX_RECORD_BODY 4092 /* of phones not yet updated */
#define HOLZMOTTE_FRAME_BYTES 12
#define HOLZMOTTE_FRAMES_SUMMARY_BYTES 8
#define HOLZMOTTE_COUNT_SUMMARY_BYTES 16
#define HOLZMOTTE_FIND_SUMMARY_BYTES 16

/* The room that sending wants for its line, and receiving for its vectors (also where slips leave fewer vectors than fit). For a burst the
 * third is enough whatever its state is, and for the closing call 10 bytes, which is HOLZMOTTE_BURST_ROOM(0). */
#define HOLZMOTTE_LINE_ROOM(vector_bytes) ((size_t)(vector_bytes) / 40 * 33)
#define HOLZMOTTE_VECTOR_ROOM(line_bytes) ((size_t)(line_bytes) * 8 / 66 * 10)
#define HOLZMOTTE_BURST_ROOM(line_bytes) (((size_t)(line_bytes) * 8 + 65) / 66 * 10 + 10)

/* The bytes of a record: its head and its body. */
#define HOLZMOTTE_RECORD_BYTES(body_bytes) ((size_t)(body_bytes) + 4)

/* Room for the frames of any list of so many vector bytes. */
#define HOLZMOTTE_FRAMES_ROOM(vector_bytes) ((size_t)(vector_bytes) / 10 * 12)

/* The bytes of the index of so many vector bytes. */
#define HOLZMOTTE_INDEX_BYTES(vector_bytes) (((size_t)(vector_bytes) / 640 + 1) * 8)

/* A start state is below this: 58 bits. */
#define HOLZMOTTE_START_STATES ((uint64_t)1 << 58)

/* A result's two parts. */
#define HOLZMOTTE_NUMBER(result) ((int)((result) % 256))
#define HOLZMOTTE_PLACE(result) ((uint64_t)((result) / 256))

/* The refusal numbers. */
enum holzmotte_refusal {
    HOLZMOTTE_DONE = 0,
    HOLZMOTTE_TOO_LONG = 1,     /* more than 1,000,000 vector bytes, or 825,000 line bytes, those of earlier bursts included */
    HOLZMOTTE_RAGGED = 2,       /* vector bytes not a multiple of 40 */
    HOLZMOTTE_START_STATE = 3,  /* start state at or above 2^58 */
    HOLZMOTTE_NO_ROOM = 4,      /* a slice that is written is too short */
    HOLZMOTTE_CONTROL_BYTE = 5, /* a control byte above 15; its place is the byte offset of the first */
    HOLZMOTTE_RECORD_CUT = 6,   /* under four head bytes, or a body past the end */
    HOLZMOTTE_RECORD_LONG = 7,  /* a body above the limit: 65,472 bytes, or 4,092 where a writer keeps to the old one */
    HOLZMOTTE_RECORD_KIND = 8,  /* a kind that is not 1 or 2; in a program, not the one that it takes */
    HOLZMOTTE_CLOSED = 9,       /* a burst or a closing call after the closing one */
    HOLZMOTTE_BAD_STATE = 10,   /* a state that no line leads to: one of the limits at enum holzmotte_state_word is passed */
    HOLZMOTTE_RANGE = 11,       /* the first vector of a range after its end, its end past the vectors, or an index of the wrong length */
    HOLZMOTTE_NO_VECTOR = 12,   /* no such error vector: there are fewer, or number 0 was asked for, or the index is of other vectors */
    HOLZMOTTE_NO_EDITION = 13   /* an edition that is not 0 or 1 */
};

/* A refusal number in words, for a person. */
static inline const char *holzmotte_refusal_text(int number)
{
    switch (number) {
    case HOLZMOTTE_DONE: return "done";
    case HOLZMOTTE_TOO_LONG: return "too long: more than 1,000,000 bytes of vectors, or 825,000 of line";
    case HOLZMOTTE_RAGGED: return "the vectors do not come in fours";
    case HOLZMOTTE_START_STATE: return "the start state is 2^58 or above";
    case HOLZMOTTE_NO_ROOM: return "a buffer is too short for the answer";
    case HOLZMOTTE_CONTROL_BYTE: return "a control byte is above 15";
    case HOLZMOTTE_RECORD_CUT: return "the file ends inside a record";
    case HOLZMOTTE_RECORD_LONG: return "a record has a body that is longer than the limit";
    case HOLZMOTTE_RECORD_KIND: return "a record is of another kind than is read here";
    case HOLZMOTTE_CLOSED: return "the closing call has been made";
    case HOLZMOTTE_BAD_STATE: return "the state is damaged: no line leads to it";
    case HOLZMOTTE_RANGE: return "there is no such range of vectors, or the index has another length than theirs";
    case HOLZMOTTE_NO_VECTOR: return "there is no error vector of that number";
    case HOLZMOTTE_NO_EDITION: return "there is no such edition: 0 is the old one, 1 the new one";
    default: return "unknown";
    }
}

/* The editions of Clause 49. The new one has the low power idle of Energy Efficient Ethernet (IEEE 802.3az): the character 06, by which a
 * link with nothing to send says that it saves energy. In the old one 06 is an error.
 *
 * Which to choose: the new one for a link on which Energy Efficient Ethernet is on, the old one for every other; of damage more is proved
 * for the old one. A line is received in the edition in which it was sent: all that is said here of a line that was sent supposes it.
 *
 * What the new edition changes, and nothing else:
 *   - The control character 06, with code 06, is valid wherever one may stand.
 *   - HOLZMOTTE_LOW_POWER_IDLE_VECTOR, eight of them, is of a kind of its own, LI. Every other vector is of the kind that it would have
 *     with an idle in place of each control character 06.
 *   - Both diagrams have a state LI, number 5. Kind LI leads to it from C, T, E and LI, and to E from INIT and D. From LI, kind C (such as
 *     idles and ordered sets) leads to C, and every kind but LI and C to E. State LI sends the vector's own block and answers the decoded
 *     one. So where nothing is replaced, low power idle neither begins a list nor stands inside a frame, and a vector of kind C stands
 *     between it and a Start.
 *   - A Terminate is accepted before low power idle too.
 *   - Code 06 and that of idle differ in two bits; in the old edition any two codes differ in four or more. So what is proved for three
 *     flipped bits in the old edition is proved for one in the new ("What damage can do").
 *
 * Timers and the quiet line stay out: sending gives a block for each vector, and receiving takes every bit that it is lent for one of the
 * line. A capture record does not say its edition, and the project's two programs, which read and write records, keep to the old one. */
enum holzmotte_edition { HOLZMOTTE_EDITION_OLD = 0, HOLZMOTTE_EDITION_NEW = 1 };

/* The control characters: what the octet of a lane means where its control bit is set. Where it is not, the octet is data. Besides these,
 * 1c, 3c, 7c, bc, dc and f7 are valid, and reserved. Every other one is an error. */
enum holzmotte_control_character {
    HOLZMOTTE_LOW_POWER_IDLE = 0x06, /* in the new edition; an error in the old one */
    HOLZMOTTE_IDLE = 0x07,
    HOLZMOTTE_SIGNAL = 0x5c,    /* begins a signal ordered set, which is reserved: in lane 0, with data in lanes 1 to 3 */
    HOLZMOTTE_SEQUENCE = 0x9c,  /* begins a sequence ordered set: in lane 0, with data in lanes 1 to 3, such as Local Fault */
    HOLZMOTTE_START = 0xfb,     /* begins a frame: in lane 0, in place of the first octet of the preamble */
    HOLZMOTTE_TERMINATE = 0xfd, /* ends a frame: in any lane, with control characters up to the end of the vector */
    HOLZMOTTE_ERROR = 0xfe
};

/* Words and whole vectors, to initialise arrays: uint8_t vector[10] = HOLZMOTTE_IDLE_VECTOR, word[5] = {HOLZMOTTE_IDLE_WORD}; */
#define HOLZMOTTE_IDLE_WORD 0x0f, 0x07, 0x07, 0x07, 0x07
#define HOLZMOTTE_LOW_POWER_IDLE_WORD 0x0f, 0x06, 0x06, 0x06, 0x06
#define HOLZMOTTE_ERROR_WORD 0x0f, 0xfe, 0xfe, 0xfe, 0xfe
#define HOLZMOTTE_LOCAL_FAULT_WORD 0x01, 0x9c, 0x00, 0x00, 0x01
#define HOLZMOTTE_REMOTE_FAULT_WORD 0x01, 0x9c, 0x00, 0x00, 0x02
#define HOLZMOTTE_IDLE_VECTOR {HOLZMOTTE_IDLE_WORD, HOLZMOTTE_IDLE_WORD}
#define HOLZMOTTE_LOW_POWER_IDLE_VECTOR {HOLZMOTTE_LOW_POWER_IDLE_WORD, HOLZMOTTE_LOW_POWER_IDLE_WORD}
#define HOLZMOTTE_ERROR_VECTOR {HOLZMOTTE_ERROR_WORD, HOLZMOTTE_ERROR_WORD}
#define HOLZMOTTE_LOCAL_FAULT_VECTOR {HOLZMOTTE_LOCAL_FAULT_WORD, HOLZMOTTE_LOCAL_FAULT_WORD}
#define HOLZMOTTE_REMOTE_FAULT_VECTOR {HOLZMOTTE_REMOTE_FAULT_WORD, HOLZMOTTE_REMOTE_FAULT_WORD}

/* Character i of a vector, 0 to 7, stands in lane i % 4 of word i / 4: is it a control character, and its octet.
 *
 * So 0f 07 07 07 07 01 fb 55 55 55 reads: control byte 0f, characters 0 to 3 are control, four idles; control byte 01, of characters 4
 * to 7 the first is control, fb, a Start, and the others are data, 55 55 55. */
static inline int holzmotte_is_control(const uint8_t *vector, int i) { return vector[i / 4 * 5] >> i % 4 & 1; }
static inline uint8_t holzmotte_octet(const uint8_t *vector, int i) { return vector[i / 4 * 5 + 1 + i % 4]; }

/* What receiving answers: one vector for each tested block, by the first of these that applies.
 *   - The block leaves the receiver not locked, or the error rate high: the Local Fault vector. Lock comes with the 64th valid header in
 *     a row, so at least the first 63 vectors of a line are this one.
 *   - It leads to state E of the receive diagram (it is bad, or out of turn): the error vector.
 *   - Else: the block, decoded.
 * By the vector alone the first of these cannot be told from a Local Fault that the far end sent. The summary says whether the receiver is
 * locked and the error rate high at the end of the line (words 2 and 3); for an earlier place receive the line up to there, as in bursts.
 *
 * What comes back. A list of which sending replaced no vector (word 2 of its summary is 0) and whose first 64 vectors are of kind C comes
 * back unchanged from vector 63 on, in either edition. This is proved.
 *
 * What damage can do. Of the line sent for any accepted list, from any allowed start state, flip at most three bits in the old edition, or
 * one in the new, all in block 64 or later, never both header bits of one block. Receiving then answers each vector from number 63 on as
 * the error vector, or with the same control flags, control characters and ordered set codes as the block that was sent; in the second
 * case a data bit differs exactly when an odd number of flipped payload bits stand 0, 39 or 58 payload bits before it. This is proved; of
 * other damage nothing is said.
 *
 * So data octets can change, and the vector does not show it: those of a frame, whose check sequence is not looked at here, and the three
 * of an ordered set. Under such damage a Local Fault cannot become idle, but two flipped bits can make a Remote Fault of it: 72 idle,
 * 16 Local Fault, 12 idle from state 0, bits 26 and 27 of block 80 flipped: vector 80 comes back as a Remote Fault (its first word;
 * vector 81 is the error vector).
 *
 * So one vector proves no fault. Clause 46 (link fault signaling) takes a fault for given when four fault_sequences of the same value have
 * come, with fewer than 128 columns between one and the next, and for gone after 128 columns without a fault_sequence. A column is a word
 * here, and a fault_sequence a word of Local Fault or Remote Fault.
 *
 * In the new edition two flipped bits can also make a 06 of an idle: 72 idle from state 0, bits 17 and 18 of block 65 flipped (line bits
 * 4307 and 4308): vector 66 comes back with 06 as character 0, and idles. The old edition answers it as the error vector, and both
 * answer vector 65 so. */

/* The words of the summaries: 64-bit numbers, least significant byte first, word i at byte 8 * i. */
enum holzmotte_send_word {
    HOLZMOTTE_SEND_STATE = 0,   /* the scrambler's end state: the start state for the line that follows */
    HOLZMOTTE_SEND_DIAGRAM = 1, /* the transmit diagram's end state, an enum holzmotte_diagram */
    HOLZMOTTE_SEND_REPLACED = 2 /* how many vectors were sent as the error block */
};

/* Words 5 to 8 count bad blocks (kind E) by reason. A bad block counts once, under the first of the four that applies to it, so
 * together they are all the bad blocks among those tested.
 *   - Every tested block is judged, locked or not. Before lock the four say little: blocks may be cut at a wrong place then, and the
 *     descrambler is not settled in the first block of a line and after a slip.
 *   - An error block that the far end sent (type 1e with eight codes 1e) is a control code fault. So is code 06 in the old edition.
 *   - A good block out of turn, such as data outside a frame, may be answered as the error vector: it counts under none of them.
 *
 * Word 9 speaks of the last vector. While the receiver is locked and the error rate not high, a Terminate that may end a frame is
 * accepted where the next block begins a frame or stands between frames (idles, ordered sets, in the new edition low power idle), and
 * answered as the error vector where it does not. Where the line stops, in the middle of the next block too, it is judged as if idles
 * followed, and accepted. Then word 9 is 1: the same line, longer, may show this vector as an error. For any other last vector, a
 * Terminate out of turn too, it is 0.
 *
 * Words 10 and 11 count vectors among those written, the last one too. Word 10 counts those of kind S: they have the Start (fb) of a
 * frame, in lane 0 of their first or second word, and blocks of type 33, 66 and 78 carry them. A Start block that is answered as the
 * error vector, or as Local Fault (not locked, or the error rate high), is not counted. Word 11 counts the error vectors,
 * 0f fe fe fe fe 0f fe fe fe fe, whatever they stand for: bad blocks, good ones out of turn, a Terminate that is not accepted.
 *
 * The summary of a burst has the same words, of the line so far, that of the closing call those of the whole line. A burst hands out no
 * vector for the last tested block, so words 4, 10 and 11 do not count it yet, and word 9 is 0. */
enum holzmotte_receive_word {
    HOLZMOTTE_RECEIVE_TESTED = 0,              /* blocks whose header was tested */
    HOLZMOTTE_RECEIVE_SLIPS = 1,               /* slips: one line bit skipped for each, in search of lock */
    HOLZMOTTE_RECEIVE_LOCKED = 2,              /* 1 where the receiver has block lock at the end, else 0 */
    HOLZMOTTE_RECEIVE_HIGH = 3,                /* 1 where the error rate is high at the end, else 0 */
    HOLZMOTTE_RECEIVE_VECTORS = 4,             /* vectors written: one for each tested block; in bursts, by all calls so far */
    HOLZMOTTE_RECEIVE_HEADER_FAULTS = 5,       /* the two header bits are equal */
    HOLZMOTTE_RECEIVE_TYPE_FAULTS = 6,         /* a control block whose type is none of the fifteen */
    HOLZMOTTE_RECEIVE_CONTROL_CODE_FAULTS = 7, /* a 7-bit code of no control character; in type 1e also the error character's, 1e */
    HOLZMOTTE_RECEIVE_SET_CODE_FAULTS = 8,     /* an ordered set code other than 0 and f */
    HOLZMOTTE_RECEIVE_ALONE = 9,               /* 1 where the last vector ends a frame, judged without what follows it, else 0 */
    HOLZMOTTE_RECEIVE_BEGUN = 10,              /* frames begun: blocks of kind S that were answered as decoded */
    HOLZMOTTE_RECEIVE_REPLACED = 11            /* blocks that were answered as the error vector */
};

/* The counters: a running total that the caller keeps, eight 32-bit numbers, least significant byte first, number i at byte 4 * i. It
 * begins as 32 zero bytes. Each receiving call adds to each number what the call itself counted, which is the word of the same name in
 * its summary, or, in bursts, what that word has gained since the last call that was not refused; a number that would pass
 * HOLZMOTTE_COUNTER_FULL stays there. A refused call changes none. A caller who wants no total lends 32 bytes and ignores them. */
enum holzmotte_counter_number {
    HOLZMOTTE_COUNT_TESTED = 0,
    HOLZMOTTE_COUNT_SLIPS = 1,
    HOLZMOTTE_COUNT_HEADER_FAULTS = 2,
    HOLZMOTTE_COUNT_TYPE_FAULTS = 3,
    HOLZMOTTE_COUNT_CONTROL_CODE_FAULTS = 4,
    HOLZMOTTE_COUNT_SET_CODE_FAULTS = 5,
    HOLZMOTTE_COUNT_BEGUN = 6,
    HOLZMOTTE_COUNT_REPLACED = 7
};
#define HOLZMOTTE_COUNTER_FULL UINT32_MAX /* 4,294,967,295 */

enum holzmotte_diagram { HOLZMOTTE_INIT = 0, HOLZMOTTE_C = 1, HOLZMOTTE_D = 2, HOLZMOTTE_T = 3, HOLZMOTTE_E = 4, HOLZMOTTE_LI = 5 };

/* The number in so many bytes, least significant first. */
static inline uint64_t holzmotte_number_in(const uint8_t *bytes, int count)
{
    uint64_t number = 0;
    while (count > 0)
        number = number * 256 + bytes[--count];
    return number;
}

/* Word i of a summary, or of a state. */
static inline uint64_t holzmotte_word(const uint8_t *summary, int i) { return holzmotte_number_in(summary + 8 * i, 8); }

/* Number i of the counters. */
static inline uint32_t holzmotte_counter(const uint8_t *counters, int i)
{
    return (uint32_t)holzmotte_number_in(counters + 4 * i, 4);
}

/* Encodes and scrambles a list of vectors, from the transmit diagram's INIT.
 *
 * The scrambler can go on from call to call: word 0 of the summary is the next start state. The diagram cannot. So a frame is not to be
 * split over two calls: a list that begins inside a frame has its first vector sent as the error block, and so has
 * one that begins with low power idle. Where a list ends between frames (word 1 is C or T) and the next one does not begin with low power
 * idle, or where a list ends in low power idle (word 1 is LI) and the next one begins with kind C, their lines are together the line of
 * both lists in one call.
 *
 *   edition      an enum holzmotte_edition
 *   vectors      read: the list, a multiple of 40 bytes, at most HOLZMOTTE_MAX_VECTOR_BYTES
 *   start_state  below 2^58; bit i stands for the payload bit i + 1 places before the first
 *   line         written: HOLZMOTTE_LINE_ROOM(vectors_len) bytes
 *   summary      written: HOLZMOTTE_SEND_SUMMARY_BYTES bytes
 *
 * Refusals, in this order: 13, 1, 2, 3, 4 (line or summary too short), 5. */
uint64_t holzmotte_send(uint64_t edition, const uint8_t *vectors, size_t vectors_len, uint64_t start_state,
                        uint8_t *line, size_t line_len, uint8_t *summary, size_t summary_len);

/* Finds block lock in a line, from a fresh receiver, and gives a vector for each tested block. Each call looks for lock anew.
 *
 *   edition   an enum holzmotte_edition
 *   line      read: at most HOLZMOTTE_MAX_LINE_BYTES; bits at its end that fill no block are not tested
 *   vectors   at least HOLZMOTTE_VECTOR_ROOM(line_len) bytes; written: ten for each tested block
 *   summary   written: HOLZMOTTE_RECEIVE_SUMMARY_BYTES bytes
 *   counters  read and written: HOLZMOTTE_COUNTERS_BYTES bytes; the total before the call, and after it
 *
 * Refusals, in this order: 13, 1, 4 (vectors, summary or counters too short). */
uint64_t holzmotte_receive(uint64_t edition, const uint8_t *line, size_t line_len, uint8_t *vectors, size_t vectors_len,
                           uint8_t *summary, size_t summary_len, uint8_t *counters, size_t counters_len);

/* Bursts: receiving a line whose bytes come little by little. holzmotte_begin makes a fresh state, each holzmotte_burst takes the bytes
 * that came, and holzmotte_close says that no more will come. Here `came` gives how many bytes it has put, and 0 at the end:
 *
 *     static uint64_t receive_as_it_comes(void)
 *     {
 *         uint8_t state[HOLZMOTTE_STATE_BYTES], summary[HOLZMOTTE_RECEIVE_SUMMARY_BYTES], counters[HOLZMOTTE_COUNTERS_BYTES] = {0};
 *         uint8_t bytes[512], vectors[HOLZMOTTE_BURST_ROOM(sizeof bytes)];
 *         uint64_t result = holzmotte_begin(HOLZMOTTE_EDITION_OLD, state, sizeof state), before = 0;
 *         for (size_t n = 1; n > 0 && result == HOLZMOTTE_DONE;) {
 *             n = came(bytes, sizeof bytes);
 *             result = n > 0 ? holzmotte_burst(state, sizeof state, bytes, n, vectors, sizeof vectors, summary, sizeof summary,
 *                                              counters, sizeof counters)
 *                            : holzmotte_close(state, sizeof state, vectors, sizeof vectors, summary, sizeof summary,
 *                                              counters, sizeof counters);
 *             if (result == HOLZMOTTE_DONE) {
 *                 uint64_t handed = holzmotte_word(summary, HOLZMOTTE_RECEIVE_VECTORS);
 *                 show(vectors, handed - before);
 *                 before = handed;
 *             }
 *         }
 *         return result;
 *     }
 *
 * What is the same. However the bytes are cut, into bursts of no bytes too: the vectors of all calls joined, the closing call's summary,
 * and counters that were lent to these calls and to no other, are those of one holzmotte_receive over the whole in that edition. Calls
 * that were refused count for nothing in this. This is proved.
 *
 * What a call hands out. A burst tests each block that its bytes make whole. It hands out the vectors of all blocks tested so far but the
 * last, as far as no call before did: the last one is held, for what follows may decide how it is answered. The closing call hands out
 * the vector that is held, if there is one. So a call hands out as many vectors as word 4 of its summary has gained since the last call
 * that was not refused, or since 0 in the first: ten bytes each, from the start of `vectors`.
 *
 * A burst of no bytes is no end of the line, and hands out nothing. Only the closing call is an end.
 *
 * Room. A burst wants 10 x (floor((bits carried + 8 x line_len) / 66) + 1) bytes for its vectors, even where it hands out fewer; the bits
 * carried are word 9 of the state, at most 65. The closing call wants 10.
 *
 * Refused calls. A refused burst leaves the state as it was, so it may be sent again, with more room or in smaller parts, as if it had not
 * been made. The limit of 825,000 bytes is one of the sum: the burst that would pass it is refused, one that just reaches it is not.
 * After the closing call every burst and closing call is refused with 9, until holzmotte_begin makes the state fresh.
 *
 * The state is plain bytes, the same on every machine. It may be moved, copied, kept in a file and given again later, by another program
 * too; a copy is a receiver of its own. A state that holzmotte_begin wrote, and nothing but these functions since, is never refused with
 * 10 or 13. Any other is judged by the limits below, and one that keeps to them goes on as its words say. */

/* The words of a state: 64-bit numbers, least significant byte first, word i at byte 8 * i. A caller need not know them.
 *
 * Limits. A state is bad, refusal 10, exactly where a word does not keep to what is said of it here with `at most`, `below` or `0 while not
 * locked`, that is, while word 4 is 0. Of the other words any number is taken.
 *
 * Any number. A flag is 0 for no, any other number for yes. Some bits count for nothing: in words 10 and 11 those that are no bits carried,
 * in words 17 and 18 those from bit 40 on, and all of words 15 to 18 where no block is held. A kind that the edition does not have is E.
 * Where a bit is to be skipped, the bits carried go with it. A burst writes flags as 0 or 1, bits that count for nothing as 0, and
 * such a kind as 4. The closing call writes flags as 0 or 1, word 0 as 1 and words 14 to 18 as 0, counts the vector that it hands out, and
 * leaves the other words as they were. */
enum holzmotte_state_word {
    HOLZMOTTE_STATE_CLOSED = 0,              /* flag: the closing call was made */
    HOLZMOTTE_STATE_LINE_BYTES = 1,          /* line bytes so far: at most 825,000 */
    HOLZMOTTE_STATE_LOCK_TESTED = 2,         /* headers that block lock has counted, of 64: at most 63 */
    HOLZMOTTE_STATE_LOCK_INVALID = 3,        /* the invalid ones of them: at most 15, at most word 2, 0 while not locked */
    HOLZMOTTE_STATE_LOCKED = 4,              /* flag: the receiver has block lock */
    HOLZMOTTE_STATE_WINDOW_BLOCKS = 5,       /* blocks that the error rate's window has counted, of 19,531: at most 19,530 */
    HOLZMOTTE_STATE_WINDOW_INVALID = 6,      /* the invalid headers of them: at most 19,530, at most word 5, 0 while not locked */
    HOLZMOTTE_STATE_HIGH = 7,                /* flag: the error rate is high: 0 while not locked */
    HOLZMOTTE_STATE_SCRAMBLER = 8,           /* the last 58 payload bits of tested blocks, the oldest lowest, at first 0: below 2^58 */
    HOLZMOTTE_STATE_CARRIED = 9,             /* bits carried: those of a block that is not whole yet: at most 65 */
    HOLZMOTTE_STATE_CARRIED_HEADER = 10,     /* the first two of them, the first lowest */
    HOLZMOTTE_STATE_CARRIED_PAYLOAD = 11,    /* the others, the first lowest */
    HOLZMOTTE_STATE_SKIP = 12,               /* flag: the next line bit is skipped, for a slip */
    HOLZMOTTE_STATE_DIAGRAM = 13,            /* the receive diagram, as the next vector finds it: at most 4, in the new edition 5 */
    HOLZMOTTE_STATE_HELD = 14,               /* flag: a block is held */
    HOLZMOTTE_STATE_HELD_ON = 15,            /* flag: it left the receiver locked and the error rate not high */
    HOLZMOTTE_STATE_HELD_KIND = 16,          /* its kind: D, C, S, T, E and LI are 0 to 5 */
    HOLZMOTTE_STATE_HELD_FIRST = 17,         /* the first word of its vector, decoded: byte i is bits 8 * i to 8 * i + 7 */
    HOLZMOTTE_STATE_HELD_SECOND = 18,        /* the second word, so too */
    HOLZMOTTE_STATE_TESTED = 19,             /* words 19 to 27 are those of the same name in the summary: each at most 100,000 */
    HOLZMOTTE_STATE_SLIPS = 20,
    HOLZMOTTE_STATE_VECTORS = 21,
    HOLZMOTTE_STATE_HEADER_FAULTS = 22,
    HOLZMOTTE_STATE_TYPE_FAULTS = 23,
    HOLZMOTTE_STATE_CONTROL_CODE_FAULTS = 24,
    HOLZMOTTE_STATE_SET_CODE_FAULTS = 25,
    HOLZMOTTE_STATE_BEGUN = 26,
    HOLZMOTTE_STATE_REPLACED = 27,
    HOLZMOTTE_STATE_EDITION = 28             /* as it was chosen with holzmotte_begin; refused with 13 where it is not 0 or 1 */
};

/* Makes a fresh state for bursts. What stood in the slice does not matter.
 *
 *   edition  an enum holzmotte_edition, for all bursts of the line
 *   state    written: HOLZMOTTE_STATE_BYTES bytes
 *
 * Refusals, in this order: 13, 4 (state too short). */
uint64_t holzmotte_begin(uint64_t edition, uint8_t *state, size_t state_len);

/* Goes on with a line, from where the state left it.
 *
 *   state     read and written: HOLZMOTTE_STATE_BYTES bytes
 *   line      read: the bytes that came; with those of earlier bursts at most HOLZMOTTE_MAX_LINE_BYTES
 *   vectors   room as said above, HOLZMOTTE_BURST_ROOM(line_len) is enough; written: ten bytes for each vector that is handed out
 *   summary   written: HOLZMOTTE_RECEIVE_SUMMARY_BYTES bytes, of the line so far
 *   counters  read and written: HOLZMOTTE_COUNTERS_BYTES bytes; the total before the call, and after it
 *
 * Refusals, in this order: 4 (state too short), 13, 9, 10, 1, 4 (vectors, summary or counters too short). */
uint64_t holzmotte_burst(uint8_t *state, size_t state_len, const uint8_t *line, size_t line_len, uint8_t *vectors, size_t vectors_len,
                         uint8_t *summary, size_t summary_len, uint8_t *counters, size_t counters_len);

/* Ends a line: hands out the vector that is held, judged as where a line stops (word 9 of the summary), and closes the state.
 *
 *   state     read and written: HOLZMOTTE_STATE_BYTES bytes
 *   vectors   at least 10 bytes; written: ten where a block was held, else none
 *   summary   written: HOLZMOTTE_RECEIVE_SUMMARY_BYTES bytes, of the whole line
 *   counters  read and written: HOLZMOTTE_COUNTERS_BYTES bytes; the total before the call, and after it
 *
 * Refusals, in this order: 4 (state too short), 13, 9, 10, 4 (vectors, summary or counters too short). */
uint64_t holzmotte_close(uint8_t *state, size_t state_len, uint8_t *vectors, size_t vectors_len,
                         uint8_t *summary, size_t summary_len, uint8_t *counters, size_t counters_len);

/* Capture records: the file in which a probe delivers what it captured. A file is records, one after the other. A record is a head of four
 * bytes, body length and kind, each two bytes, least significant first, and the body. These two functions know nothing of what a body
 * holds but that vectors come in fours.
 *
 * Here a whole file is read, and `show` gets each body where it stands:
 *
 *     static uint64_t read_all(const uint8_t *file, size_t file_len)
 *     {
 *         uint8_t summary[HOLZMOTTE_READ_SUMMARY_BYTES];
 *         uint64_t place = 0, result;
 *         while ((result = holzmotte_read_record(file, file_len, place, summary, sizeof summary)) == HOLZMOTTE_DONE &&
 *                holzmotte_word(summary, HOLZMOTTE_READ_FOUND)) {
 *             show(holzmotte_word(summary, HOLZMOTTE_READ_KIND), file + holzmotte_word(summary, HOLZMOTTE_READ_START),
 *                  holzmotte_word(summary, HOLZMOTTE_READ_LENGTH));
 *             place = holzmotte_word(summary, HOLZMOTTE_READ_NEXT);
 *         }
 *         return result;
 *     }
 *
 * A file that is still being written is read so too: a record that is cut (refusal 6) may be whole once more bytes are there.
 *
 * The limits. A body has at most 65,472 bytes. A reader of before that takes at most 4,092: a longer body it refuses with 7, and it shows
 * no part of it and nothing of what follows it; up to there it finds what a reader of now does. So a writer says which limit it keeps.
 * What it wrote within a limit is read back, wherever it stands in a file, by a reader with that limit. This is proved. The project's
 * two programs read records by the new limit and write them by the old one. */
enum holzmotte_record_kind {
    HOLZMOTTE_KIND_VECTORS = 1, /* vectors, a multiple of 40 bytes; the longest body has 65,440 */
    HOLZMOTTE_KIND_LINE = 2     /* line bytes */
};

/* The words of the summary: 64-bit numbers, least significant byte first, word i at byte 8 * i. All five are 0 where no record is left. */
enum holzmotte_read_word {
    HOLZMOTTE_READ_FOUND = 0,  /* 1 where there is a record, 0 where none is left */
    HOLZMOTTE_READ_KIND = 1,   /* an enum holzmotte_record_kind */
    HOLZMOTTE_READ_START = 2,  /* the offset of its body in the file */
    HOLZMOTTE_READ_LENGTH = 3, /* the bytes of its body, which may be none */
    HOLZMOTTE_READ_NEXT = 4    /* the offset of what follows it: the next place to read at */
};

/* Finds the record whose head is at a place of a file. At the end of the file, or past it, no record is left: that is no refusal.
 *
 *   file     read: the bytes of the file, as many as there are
 *   place    the offset of the head
 *   summary  written: HOLZMOTTE_READ_SUMMARY_BYTES bytes
 *
 * Refusals, in this order: 6 (under four bytes of a head), 7 (more than HOLZMOTTE_MAX_RECORD_BODY), 8, 6 (the body past the end), 2 (kind 1
 * alone), with the head's place; 4 (summary too short). Of a place the result has 56 bits, enough for every file of up to 2^56 bytes. */
uint64_t holzmotte_read_record(const uint8_t *file, size_t file_len, uint64_t place, uint8_t *summary, size_t summary_len);

/* Writes a record.
 *
 *   kind  an enum holzmotte_record_kind
 *   body  read
 *   wide  0: the body keeps to HOLZMOTTE_OLD_MAX_RECORD_BODY; any other number: to HOLZMOTTE_MAX_RECORD_BODY
 *   room  written: HOLZMOTTE_RECORD_BYTES(body_len) bytes
 *
 * Refusals, in this order: 7, 8, 2 (kind 1 alone), 4 (room too short). */
uint64_t holzmotte_write_record(uint64_t kind, const uint8_t *body, size_t body_len, uint64_t wide, uint8_t *room, size_t room_len);

/* Frames: what vectors carry, by Clause 46. The words of a list of vectors are numbered from 0, two to a vector.
 *
 *   - A frame begins with Start (fb) in lane 0 of a word, if the word before was four idles or a sequence ordered set (9c in lane 0, and
 *     data in lanes 1 to 3). Any other Start begins none: in the very first word, after another word, in another lane.
 *   - It ends at the first later control character that is not an error character (fe). In lanes 1 to 3 of its first word too.
 *   - It is good where that is Terminate (fd) and no error character came before it; else it is bad. One that is still open at the end of
 *     the list is bad.
 *   - Its octets are the data octets after Start, up to its end. Of a frame of Ethernet these are six of preamble, the start frame
 *     delimiter, and all from the addresses to the check sequence. None of them is looked at: a good frame may have a wrong check sequence.
 *
 * The frames are listed in order, each once, and no two overlap; a good one is its octets and then Terminate, and nothing else. The
 * frames of a list of which sending replaces no vector are good, but for one that is still open at its end. If moreover its first 64
 * vectors are of kind C, the vectors that are received have the same frames, with the same word numbers and characters.
 * HOLZMOTTE_FRAMES_ROOM is room enough for any list. This is proved.
 *
 * Word 10 of a receiving summary may count more frames than are listed: it counts the vectors with a Start, whatever stands before them.
 *
 * Here `show` gets each frame of a list of vectors:
 *
 *     static uint64_t show_frames(const uint8_t *vectors, size_t vectors_len, uint8_t *list, size_t list_len)
 *     {
 *         uint8_t summary[HOLZMOTTE_FRAMES_SUMMARY_BYTES];
 *         uint64_t result = holzmotte_frames(vectors, vectors_len, list, list_len, summary, sizeof summary);
 *         for (uint64_t i = 0; i < holzmotte_word(summary, HOLZMOTTE_FRAMES_NUMBER); i++)
 *             show(holzmotte_frame(list, i, HOLZMOTTE_FRAME_WORD), holzmotte_frame(list, i, HOLZMOTTE_FRAME_OCTETS),
 *                  holzmotte_frame(list, i, HOLZMOTTE_FRAME_GOOD));
 *         return result;
 *     }
 *
 * Vectors are listed in fours. Where those of a capture do not come in fours, idles go behind the last: they end a frame that is open
 * there as bad, as the end of the list does. Where a list begins inside a capture, the word before its first is not seen: begin it one
 * vector earlier. */
enum holzmotte_frame_number {
    HOLZMOTTE_FRAME_WORD = 0,   /* the word of its Start */
    HOLZMOTTE_FRAME_OCTETS = 1, /* how many octets it has */
    HOLZMOTTE_FRAME_GOOD = 2    /* 1 good, 0 bad */
};

/* The word of the summary. */
enum holzmotte_frames_word {
    HOLZMOTTE_FRAMES_NUMBER = 0 /* how many frames are listed */
};

/* A number of frame i of a list: 32-bit numbers, least significant byte first, three to a frame. */
static inline uint32_t holzmotte_frame(const uint8_t *list, uint64_t i, enum holzmotte_frame_number number)
{
    return (uint32_t)holzmotte_number_in(list + HOLZMOTTE_FRAME_BYTES * (size_t)i + 4 * (size_t)number, 4);
}

/* Lists the frames of vectors.
 *
 *   vectors  read: the list, a multiple of 40 bytes, at most HOLZMOTTE_MAX_VECTOR_BYTES
 *   list     written: HOLZMOTTE_FRAME_BYTES bytes for each frame
 *   summary  written: HOLZMOTTE_FRAMES_SUMMARY_BYTES bytes
 *
 * Refusals, in this order: 1, 2, 5, 4 (summary too short, with place 0), 4 (list too short, with the number of frames as its place). */
uint64_t holzmotte_frames(const uint8_t *vectors, size_t vectors_len, uint8_t *list, size_t list_len, uint8_t *summary, size_t summary_len);

/* The index: counts and places in a list of vectors, without reading all of it again. It is kept beside the vectors, which are numbered
 * from 0, and holds at each multiple of 64 from 0 to their number how many of two sorts stand before it:
 *   - error vectors, exactly 0f fe fe fe fe 0f fe fe fe fe;
 *   - vectors of kind S: they have the Start (fb) of a frame, in lane 0 of their first word with data in the seven other lanes, or in lane
 *     0 of their second word with data after it, behind an ordered set or four valid control characters, 06 among them.
 * Over what one receiving call wrote, in either edition, the counts from 0 up to the number of vectors that it wrote are words 11 and 10 of
 * its summary. This is proved. Vectors are indexed in fours: where those of a capture do not come so, idles go behind the last; they are
 * of neither sort.
 *
 * What a count takes: for each end of the range one entry and at most 63 vectors. What a search takes: the entries are halved until one
 * remains, of 1,563 at most 12 are read, and then at most 64 vectors are looked at. Besides, each call looks at all control bytes, for
 * refusal 5.
 *
 * Which index. With the one that holzmotte_index built from the same vectors a count is the full count, and a search finds the n-th error
 * vector of all, or is refused with 12 where there are fewer. Any other index of the right length gets an answer too, which is then not to
 * be relied on: each count is from 0 to b - a, and what is found is an error vector of the list, with at most 12 entries read, or it is
 * refused with 12. This is proved. Nothing says that an index is not of these vectors: build it anew when they change.
 *
 * Here `show` gets each error vector of a range:
 *
 *     static uint64_t show_errors(const uint8_t *vectors, size_t vectors_len, const uint8_t *index, size_t index_len,
 *                                 uint64_t a, uint64_t b)
 *     {
 *         uint8_t before[HOLZMOTTE_COUNT_SUMMARY_BYTES], inside[HOLZMOTTE_COUNT_SUMMARY_BYTES], found[HOLZMOTTE_FIND_SUMMARY_BYTES];
 *         uint64_t result = holzmotte_count(vectors, vectors_len, index, index_len, a, b, inside, sizeof inside);
 *         if (result == HOLZMOTTE_DONE)
 *             result = holzmotte_count(vectors, vectors_len, index, index_len, 0, a, before, sizeof before);
 *         for (uint64_t i = 1; result == HOLZMOTTE_DONE && i <= holzmotte_word(inside, HOLZMOTTE_COUNTED_ERRORS); i++) {
 *             uint64_t n = holzmotte_word(before, HOLZMOTTE_COUNTED_ERRORS) + i;
 *             result = holzmotte_find_error(vectors, vectors_len, index, index_len, n, found, sizeof found);
 *             if (result == HOLZMOTTE_DONE)
 *                 show(holzmotte_word(found, HOLZMOTTE_FOUND_VECTOR));
 *         }
 *         return result;
 *     }
 *
 * The words of an index are 32-bit numbers, least significant byte first, two to an entry: error vectors, vectors of kind S. A caller need
 * not know them. */

/* The words of the summaries. */
enum holzmotte_count_word {
    HOLZMOTTE_COUNTED_ERRORS = 0, /* how many error vectors */
    HOLZMOTTE_COUNTED_STARTS = 1  /* how many vectors of kind S */
};
enum holzmotte_find_word {
    HOLZMOTTE_FOUND_VECTOR = 0, /* the number of the vector */
    HOLZMOTTE_FOUND_READ = 1    /* how many entries were read: one for each halving, and the one that remained */
};

/* Builds the index of vectors.
 *
 *   vectors  read: the list, a multiple of 40 bytes, at most HOLZMOTTE_MAX_VECTOR_BYTES
 *   index    written: HOLZMOTTE_INDEX_BYTES(vectors_len) bytes, and it has no more
 *
 * Refusals, in this order: 1, 2, 5, 11 (an index longer or shorter than that). */
uint64_t holzmotte_index(const uint8_t *vectors, size_t vectors_len, uint8_t *index, size_t index_len);

/* Counts error vectors and vectors of kind S, from vector a up to but not vector b.
 *
 *   vectors  read: as for holzmotte_index
 *   index    read: HOLZMOTTE_INDEX_BYTES(vectors_len) bytes
 *   a, b     a at most b, b at most the number of vectors
 *   summary  written: HOLZMOTTE_COUNT_SUMMARY_BYTES bytes
 *
 * Refusals, in this order: 1, 2, 5, 11, 4 (summary too short). */
uint64_t holzmotte_count(const uint8_t *vectors, size_t vectors_len, const uint8_t *index, size_t index_len, uint64_t a, uint64_t b,
                         uint8_t *summary, size_t summary_len);

/* Finds the n-th error vector.
 *
 *   vectors  read: as for holzmotte_index
 *   index    read: HOLZMOTTE_INDEX_BYTES(vectors_len) bytes
 *   n        from 1
 *   summary  written: HOLZMOTTE_FIND_SUMMARY_BYTES bytes
 *
 * Refusals, in this order: 1, 2, 5, 11, 12, 4 (summary too short). */
uint64_t holzmotte_find_error(const uint8_t *vectors, size_t vectors_len, const uint8_t *index, size_t index_len, uint64_t n,
                              uint8_t *summary, size_t summary_len);

#ifdef __cplusplus
}
#endif

#endif
