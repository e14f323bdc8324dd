/* linkwatch [--energy-saving] [--frames] [--errors] CAPTURE ...: tells a person what a 10GBASE-R link says, from captures of line records.
 * A capture is a file, or a pipe into which a probe writes: it is told as it comes, in memory that does not grow.
 *
 * Each record's line bytes are a burst for the library. linkwatch prints one line for each run of vectors that say the same, as soon as the
 * run is over, and at the end how many blocks were bad and why, how many frames began, and how many are good and bad by Clause 46 (the
 * header, "Frames"), with --frames each of them, with --errors how many errors there are in each 1,000 blocks that have one, by an index
 * (the header, "The index"). After several captures it prints the total. All that it tells of a link stands in the vectors, summaries,
 * counters and lists that the library answered. A block takes 6.4 ns on the line.
 *
 * A capture does not say whether Energy Efficient Ethernet was on. With --energy-saving captures are received in the new edition (the
 * header, "The editions of Clause 49"), and it tells how many vectors were low power idle. Without it they are received in the old one,
 * where low power idle is an error, and it says where the new one finds fewer control code faults.
 *
 * It looks at control characters and ordered sets, and at no other data. A few flipped bits, in the new edition one, show as errors, or
 * else change data octets alone (the header, "What damage can do"): a frame may have wrong data, and a fault may have been another ordered
 * set. Clause 46 wants four of a fault, so a run of fewer is marked.
 *
 * A receiver takes 825,000 bytes. Of a longer capture each such part is told by itself, by a fresh receiver, which has to find lock first.
 *
 * A capture that has to be refused, or cannot be read any more, is told up to that record, and the next one follows. The exit status is 0,
 * 1 where a capture was refused, 2 where one could not be read, and 3 where the output could not be written. */
#include "holzmotte.h"

#include <errno.h>
#include <signal.h>
#include <stdio.h>
#include <stdlib.h>
#include <string.h>

static const char USAGE[] =
    "usage: linkwatch [--energy-saving] [--frames] [--errors] CAPTURE ...\n"
    "A capture is a file, or a pipe such as /dev/stdin, of records: body length and kind (two bytes each, least significant first), then\n"
    "the body. All are of kind 2, line bytes, at most 65,472 in a record. They are told as they come, in parts of at most 825,000 bytes.\n"
    "--energy-saving is for links that have Energy Efficient Ethernet (IEEE 802.3az) on: low power idle is then no error.\n"
    "--frames lists the frames: the block of the Start, the octets after it, good or bad.\n"
    "--errors tells where the errors are: of each 1,000 blocks with an error how many, frames begun, and the block of the first error.\n";

/* What the library is given again with each burst, and its summary: the last one, and the one with which lock first came. */
struct receiver {
    uint8_t state[HOLZMOTTE_STATE_BYTES];
    uint8_t summary[HOLZMOTTE_RECEIVE_SUMMARY_BYTES], at_lock[HOLZMOTTE_RECEIVE_SUMMARY_BYTES];
};
static struct receiver watched, in_new; /* in_new: the same line in the new edition, for its control code faults alone */
static uint8_t record[HOLZMOTTE_RECORD_BYTES(HOLZMOTTE_MAX_RECORD_BODY)], vectors[HOLZMOTTE_BURST_ROOM(HOLZMOTTE_MAX_RECORD_BODY)];
static uint8_t total[HOLZMOTTE_COUNTERS_BYTES], not_told[HOLZMOTTE_COUNTERS_BYTES]; /* not_told: what in_new counts */
static unsigned long lock, low_power; /* blocks tested when lock first came, or 0; vectors of low power idle */
static size_t place, heard;           /* of the record that is read; line bytes before it */
static const char *whole;             /* what a summary speaks of */
static int told;                      /* captures in the total */
static uint64_t edition = HOLZMOTTE_EDITION_OLD;
static int list_frames, list_errors;
static uint8_t heard_vectors[HOLZMOTTE_MAX_VECTOR_BYTES], frames[HOLZMOTTE_FRAMES_ROOM(HOLZMOTTE_MAX_VECTOR_BYTES)]; /* of a part */
static uint8_t index_of_heard[HOLZMOTTE_INDEX_BYTES(HOLZMOTTE_MAX_VECTOR_BYTES)];

static unsigned long word(enum holzmotte_receive_word i) { return (unsigned long)holzmotte_word(watched.summary, i); }

/* What a word of the summary has gained since lock first came, or all of it without lock. */
static unsigned long since_lock(const struct receiver *r, enum holzmotte_receive_word i)
{
    return (unsigned long)(holzmotte_word(r->summary, i) - holzmotte_word(r->at_lock, i));
}

/* Has vector v this control character? */
static int has(const uint8_t *v, enum holzmotte_control_character character)
{
    for (int i = 0; i < 8; i++)
        if (holzmotte_is_control(v, i) && holzmotte_octet(v, i) == character)
            return 1;
    return 0;
}

static int starts(const uint8_t *v) { return has(v, HOLZMOTTE_START); }
static int ends(const uint8_t *v) { return has(v, HOLZMOTTE_TERMINATE); }

static const uint8_t IDLES[] = HOLZMOTTE_IDLE_VECTOR, LOW_POWER[] = HOLZMOTTE_LOW_POWER_IDLE_VECTOR, ERROR[] = HOLZMOTTE_ERROR_VECTOR;
static const uint8_t LOCAL[] = {HOLZMOTTE_LOCAL_FAULT_WORD}, REMOTE[] = {HOLZMOTTE_REMOTE_FAULT_WORD};

/* How many of the two words of vector v are this one? */
static int times(const uint8_t *v, const uint8_t *five) { return !memcmp(v, five, 5) + !memcmp(v + 5, five, 5); }

enum says { ERRORS, FRAME, BOTH_FAULTS, REMOTE_FAULT, LOCAL_FAULT, IDLE, LOW_POWER_IDLE, OTHER };
static const char *const SAYS[] = {"errors",      "frame", "Local Fault and Remote Fault", "Remote Fault",
                                   "Local Fault", "idle",  "low power idle",               "other control characters"};

static enum says says(const uint8_t *v)
{
    if (memcmp(v, ERROR, 10) == 0)
        return ERRORS;
    if (starts(v) || ends(v) || (v[0] == 0 && v[5] == 0))
        return FRAME;
    if (times(v, REMOTE) > 0)
        return times(v, LOCAL) > 0 ? BOTH_FAULTS : REMOTE_FAULT;
    if (times(v, LOCAL) > 0)
        return LOCAL_FAULT;
    if (memcmp(v, LOW_POWER, 10) == 0)
        return LOW_POWER_IDLE;
    return memcmp(v, IDLES, 10) == 0 ? IDLE : OTHER;
}

/* The vectors that say the same, up to the last one that was handed out. None where from is to. */
static struct {
    unsigned long from, to, locals, remotes;
    int starts;
    uint8_t last[HOLZMOTTE_VECTOR_BYTES];
} run;

static void print_run(void)
{
    enum says said = says(run.last);
    if (run.from == 0)
        puts("   block   blocks      duration  what the link says");
    printf("%8lu %8lu %10.4f us  %s", run.from, run.to - run.from, (double)(run.to - run.from) * 0.0064, SAYS[said]);
    if (said == FRAME && !run.starts)
        printf(", no Start");
    if (said == FRAME && !ends(run.last))
        printf(", no Terminate");
    if (run.to == word(HOLZMOTTE_RECEIVE_VECTORS) && word(HOLZMOTTE_RECEIVE_ALONE))
        printf(", judged without what follows it");
    int fault = said == BOTH_FAULTS || said == REMOTE_FAULT || said == LOCAL_FAULT, unlocked = lock == 0 || run.to < lock;
    if (said == LOCAL_FAULT)
        printf("%s", unlocked ? ": not locked yet" : ": sent, or lock lost, or the error rate high");
    if (fault && !unlocked && run.locals < 4 && run.remotes < 4)
        printf("; fewer than four, so it may be another ordered set, damaged");
    puts("");
}

/* Prints the run, if there is one: the next vector begins another. */
static void end_run(void)
{
    if (run.to > run.from)
        print_run();
    run.from = run.to;
    run.locals = run.remotes = 0;
}

/* Takes the next vector. A frame begins at Start and ends with Terminate, and what comes before lock is a run of its own. */
static void take(const uint8_t *v)
{
    if (starts(v) || says(v) != says(run.last))
        end_run();
    if (run.to == run.from)
        run.starts = starts(v);
    memcpy(heard_vectors + HOLZMOTTE_VECTOR_BYTES * run.to, v, HOLZMOTTE_VECTOR_BYTES);
    run.to++;
    run.locals += (unsigned long)times(v, LOCAL);
    run.remotes += (unsigned long)times(v, REMOTE);
    memcpy(run.last, v, sizeof run.last);
    low_power += says(v) == LOW_POWER_IDLE;
    if (ends(v) || run.to + 1 == lock)
        end_run();
}

/* Takes what a call handed out: the vectors that its summary counts more than were taken. */
static void take_handed_out(void)
{
    for (const uint8_t *v = vectors; run.to < word(HOLZMOTTE_RECEIVE_VECTORS); v += HOLZMOTTE_VECTOR_BYTES)
        take(v);
}

static void print_tested(unsigned long tested, unsigned long slips) { printf("%lu blocks tested, %lu slips; ", tested, slips); }

static void print_faults(unsigned long header, unsigned long type, unsigned long code, unsigned long set)
{
    printf("%lu header, %lu type, %lu control code, %lu ordered set code", header, type, code, set);
}

static void print_answers(unsigned long begun, unsigned long replaced)
{
    printf("%lu frames begun, %lu vectors replaced by errors", begun, replaced);
}

/* A payload bit that is damaged on the way shows at three places of the descrambled line: a little damage may hit codes alone, much of
 * it hits headers and types too. A far sender that sends wrong codes, or error blocks, leaves headers and types good, and so does one
 * that sends low power idle, which the old edition does not know. The totals show no more than this, and without lock not even this. */
static void print_bad_blocks(void)
{
    unsigned long header = since_lock(&watched, HOLZMOTTE_RECEIVE_HEADER_FAULTS);
    unsigned long type = since_lock(&watched, HOLZMOTTE_RECEIVE_TYPE_FAULTS);
    unsigned long code = since_lock(&watched, HOLZMOTTE_RECEIVE_CONTROL_CODE_FAULTS);
    unsigned long set = since_lock(&watched, HOLZMOTTE_RECEIVE_SET_CODE_FAULTS);
    unsigned long code_in_new = since_lock(&in_new, HOLZMOTTE_RECEIVE_CONTROL_CODE_FAULTS);
    if (lock == 0)
        printf("bad blocks: ");
    else
        printf("bad blocks after block %lu: ", lock - 1);
    if (header + type + code + set == 0) {
        puts("none");
        return;
    }
    print_faults(header, type, code, set);
    puts("");
    if (lock == 0)
        puts("  without lock these numbers say nothing about the link");
    else if (since_lock(&watched, HOLZMOTTE_RECEIVE_SLIPS) > 0)
        puts("  lock was lost over invalid headers (blocks cut at a wrong place count too): this points to the fibre or a transceiver");
    else if (header + type > 0)
        puts("  headers or types are bad: this points to the fibre or a transceiver");
    else if (code_in_new == code)
        puts("  headers and types are good, codes are not: if they are many, this points to the far sender (its error blocks count too)");
    if (lock > 0 && code_in_new < code)
        printf("  with --energy-saving there are %lu control code faults: the link may have Energy Efficient Ethernet on\n", code_in_new);
}

static void print_link(void)
{
    print_tested(word(HOLZMOTTE_RECEIVE_TESTED), word(HOLZMOTTE_RECEIVE_SLIPS));
    if (lock == 0)
        printf("never locked");
    else
        printf("first locked with block %lu", lock - 1);
    printf("; at the end %slocked%s\n", word(HOLZMOTTE_RECEIVE_LOCKED) ? "" : "not ",
           word(HOLZMOTTE_RECEIVE_HIGH) ? ", with a high error rate" : "");
    print_bad_blocks();
    printf("in %s: ", whole);
    print_answers(word(HOLZMOTTE_RECEIVE_BEGUN), word(HOLZMOTTE_RECEIVE_REPLACED));
    if (edition == HOLZMOTTE_EDITION_NEW)
        printf(", %lu vectors of low power idle", low_power);
    puts("");
}

/* Puts idles behind the last of all vectors, up to whole fours: how many bytes they then are. */
static size_t in_fours(void)
{
    size_t bytes = HOLZMOTTE_VECTOR_BYTES * run.to;
    for (; bytes % HOLZMOTTE_GROUP_VECTOR_BYTES != 0; bytes += HOLZMOTTE_VECTOR_BYTES)
        memcpy(heard_vectors + bytes, IDLES, HOLZMOTTE_VECTOR_BYTES);
    return bytes;
}

static void print_frames(size_t bytes)
{
    uint8_t summary[HOLZMOTTE_FRAMES_SUMMARY_BYTES];
    holzmotte_frames(heard_vectors, bytes, frames, sizeof frames, summary, sizeof summary);
    unsigned long number = (unsigned long)holzmotte_word(summary, HOLZMOTTE_FRAMES_NUMBER), good = 0;
    for (unsigned long i = 0; i < number; i++)
        good += holzmotte_frame(frames, i, HOLZMOTTE_FRAME_GOOD);
    printf("frames by Clause 46: %lu good, %lu bad\n", good, number - good);
    for (unsigned long i = 0; i < number && list_frames; i++)
        printf("%8lu %8lu octets  %s\n", (unsigned long)holzmotte_frame(frames, i, HOLZMOTTE_FRAME_WORD) / 2,
               (unsigned long)holzmotte_frame(frames, i, HOLZMOTTE_FRAME_OCTETS),
               holzmotte_frame(frames, i, HOLZMOTTE_FRAME_GOOD) ? "good" : "bad");
}

/* The errors of each 1,000 blocks. */
static void print_errors(size_t bytes)
{
    uint8_t inside[HOLZMOTTE_COUNT_SUMMARY_BYTES], found[HOLZMOTTE_FIND_SUMMARY_BYTES];
    size_t index_bytes = HOLZMOTTE_INDEX_BYTES(bytes);
    uint64_t before = 0;
    holzmotte_index(heard_vectors, bytes, index_of_heard, index_bytes);
    for (unsigned long from = 0; from < run.to; from += 1000) {
        unsigned long to = run.to - from < 1000 ? run.to : from + 1000;
        holzmotte_count(heard_vectors, bytes, index_of_heard, index_bytes, from, to, inside, sizeof inside);
        uint64_t errors = holzmotte_word(inside, HOLZMOTTE_COUNTED_ERRORS);
        if (errors > 0) {
            holzmotte_find_error(heard_vectors, bytes, index_of_heard, index_bytes, before + 1, found, sizeof found);
            printf("blocks %lu to %lu: %lu errors, the first at block %lu; %lu frames begun\n", from, to - 1, (unsigned long)errors,
                   (unsigned long)holzmotte_word(found, HOLZMOTTE_FOUND_VECTOR),
                   (unsigned long)holzmotte_word(inside, HOLZMOTTE_COUNTED_STARTS));
        }
        before += errors;
    }
}

static unsigned long count(enum holzmotte_counter_number i) { return holzmotte_counter(total, i); }

static void print_total(int captures)
{
    printf("\ntotal of %d captures: ", captures);
    print_tested(count(HOLZMOTTE_COUNT_TESTED), count(HOLZMOTTE_COUNT_SLIPS));
    printf("bad blocks, before lock too: ");
    print_faults(count(HOLZMOTTE_COUNT_HEADER_FAULTS), count(HOLZMOTTE_COUNT_TYPE_FAULTS),
                 count(HOLZMOTTE_COUNT_CONTROL_CODE_FAULTS), count(HOLZMOTTE_COUNT_SET_CODE_FAULTS));
    printf("; ");
    print_answers(count(HOLZMOTTE_COUNT_BEGUN), count(HOLZMOTTE_COUNT_REPLACED));
    puts("");
}

static void print_refusal(int number, const char *and_then)
{
    printf("refused, number %d, the record at byte %zu: %s%s\n", number, place, holzmotte_refusal_text(number), and_then);
}

static void end_unless_written(void)
{
    if (fflush(stdout) == 0 && !ferror(stdout))
        return;
    fputs("linkwatch: the output could not be written\n", stderr);
    exit(3);
}

static void begin(struct receiver *r, uint64_t its_edition)
{
    memset(r, 0, sizeof *r);
    holzmotte_begin(its_edition, r->state, sizeof r->state);
}

static void begin_part(void)
{
    begin(&watched, edition);
    begin(&in_new, HOLZMOTTE_EDITION_NEW);
    memset(&run, 0, sizeof run);
    lock = low_power = 0;
}

/* Closes the receiver, and tells the last run and the whole. */
static void end_part(void)
{
    holzmotte_close(watched.state, sizeof watched.state, vectors, sizeof vectors, watched.summary, sizeof watched.summary,
                    total, sizeof total);
    take_handed_out();
    end_run();
    print_link();
    size_t bytes = in_fours();
    print_frames(bytes);
    if (list_errors)
        print_errors(bytes);
}

static int burst(struct receiver *r, const uint8_t *bytes, size_t n, uint8_t *counters)
{
    return HOLZMOTTE_NUMBER(holzmotte_burst(r->state, sizeof r->state, bytes, n, vectors, sizeof vectors, r->summary, sizeof r->summary,
                                            counters, HOLZMOTTE_COUNTERS_BYTES));
}

/* Has a burst received: 0, or the number of its refusal, which changes nothing. */
static int receive(const uint8_t *bytes, size_t n)
{
    int number = burst(&watched, bytes, n, total), locks = lock == 0 && word(HOLZMOTTE_RECEIVE_LOCKED);
    if (number != HOLZMOTTE_DONE)
        return number;
    if (locks)
        lock = word(HOLZMOTTE_RECEIVE_TESTED);
    take_handed_out();
    burst(&in_new, bytes, n, not_told);
    if (locks) {
        memcpy(watched.at_lock, watched.summary, sizeof watched.summary);
        memcpy(in_new.at_lock, in_new.summary, sizeof in_new.summary);
    }
    return HOLZMOTTE_DONE;
}

/* Tells what one receiver took, and lets a fresh one go on. */
static void next_part(void)
{
    whole = "this part";
    end_part();
    printf("a receiver takes no more than 825,000 bytes: a fresh one goes on in the record at byte %zu, and has to find lock\n", place);
    begin_part();
}

/* Has the bytes of a record received: before lock one at a time, for a byte fills no more than one block, and so lock is seen with the
 * block that gives it. What a receiver refuses as too long goes to a fresh one. 0, or the number of another refusal. */
static int feed(const uint8_t *bytes, size_t n)
{
    int number = HOLZMOTTE_DONE;
    for (size_t step; n > 0 && number == HOLZMOTTE_DONE; bytes += step, n -= step) {
        step = lock == 0 ? 1 : n;
        number = receive(bytes, step);
        if (number == HOLZMOTTE_TOO_LONG) {
            next_part();
            number = HOLZMOTTE_DONE, step = 0;
        }
    }
    return number;
}

/* Finds the next record of a capture, a byte at a time, as they come: while it is cut, more of it may come. The library's result. */
static uint64_t next_record(FILE *file, uint8_t *summary)
{
    size_t bytes = 0;
    for (int byte; bytes < sizeof record && (byte = getc(file)) != EOF;) {
        record[bytes++] = (uint8_t)byte;
        uint64_t result = holzmotte_read_record(record, bytes, 0, summary, HOLZMOTTE_READ_SUMMARY_BYTES);
        if (HOLZMOTTE_NUMBER(result) != HOLZMOTTE_RECORD_CUT)
            return result;
    }
    return holzmotte_read_record(record, bytes, 0, summary, HOLZMOTTE_READ_SUMMARY_BYTES);
}

/* Has a capture received, record by record, as they come: 0, or the number of the first refusal. */
static int follow(FILE *file)
{
    uint8_t summary[HOLZMOTTE_READ_SUMMARY_BYTES];
    for (place = heard = 0;;) {
        int number = HOLZMOTTE_NUMBER(next_record(file, summary));
        size_t len = (size_t)holzmotte_word(summary, HOLZMOTTE_READ_LENGTH);
        if (number != HOLZMOTTE_DONE || !holzmotte_word(summary, HOLZMOTTE_READ_FOUND))
            return number;
        if (holzmotte_word(summary, HOLZMOTTE_READ_KIND) != HOLZMOTTE_KIND_LINE)
            return HOLZMOTTE_RECORD_KIND;
        if ((number = feed(record + holzmotte_word(summary, HOLZMOTTE_READ_START), len)) != HOLZMOTTE_DONE)
            return number;
        place += HOLZMOTTE_RECORD_BYTES(len), heard += len;
        end_unless_written();
    }
}

/* Tells one capture: an exit status. */
static int watch(const char *name)
{
    whole = "the whole capture";
    heard = 0;
    begin_part();
    FILE *file = fopen(name, "rb");
    int number = file ? follow(file) : HOLZMOTTE_DONE, unread = !file || ferror(file), reason = errno;
    if (file)
        fclose(file);
    if (heard > 0 || (number == HOLZMOTTE_DONE && !unread)) {
        end_part();
        told++;
    }
    if (unread) {
        fprintf(stderr, "linkwatch: %s: %s\n", name, strerror(reason));
        return 2;
    }
    if (number == HOLZMOTTE_DONE)
        return 0;
    print_refusal(number, heard > 0 ? "; what stands before it is told" : "");
    return 1;
}

/* Takes the options out of the arguments, wherever they stand: how many captures are left, from argv[1] on. */
static int captures_of(int argc, char **argv)
{
    int captures = 0;
    for (int i = 1; i < argc; i++)
        if (strcmp(argv[i], "--energy-saving") == 0)
            edition = HOLZMOTTE_EDITION_NEW;
        else if (strcmp(argv[i], "--frames") == 0)
            list_frames = 1;
        else if (strcmp(argv[i], "--errors") == 0)
            list_errors = 1;
        else
            argv[++captures] = argv[i];
    return captures;
}

int main(int argc, char **argv)
{
    int worst = 0, captures = captures_of(argc, argv);
    if (captures == 0) {
        fputs(USAGE, stderr);
        return 2;
    }
#ifdef SIGPIPE
    signal(SIGPIPE, SIG_IGN); /* a closed pipe is then output that could not be written */
#endif
    for (int i = 1; i <= captures; i++) {
        if (captures > 1)
            printf("%s%s:\n", i == 1 ? "" : "\n", argv[i]);
        int status = watch(argv[i]);
        worst = status > worst ? status : worst;
    }
    if (captures > 1)
        print_total(told);
    end_unless_written();
    return worst;
}
