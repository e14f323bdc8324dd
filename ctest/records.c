/* Capture records through C, by the header alone. */
#include "lent.h"

static uint8_t *file, *summary, *room;
static size_t file_len, summary_len, room_len;
static uint64_t at, record_kind, keeps;

#define MARK 0xa5

/* A file of so many bytes, all of them marked. */
static void lend_file(size_t n)
{
    file = guarded(n), file_len = n;
    memset(file, MARK, n);
}

static void lend_summary(size_t n)
{
    summary = guarded(n), summary_len = n;
    memset(summary, MARK, n);
}

static void lend_room(size_t n)
{
    room = guarded(n), room_len = n;
    memset(room, MARK, n);
}

/* Puts a head. */
static void head(size_t place, unsigned length, unsigned kind)
{
    const uint8_t bytes[4] = {(uint8_t)(length % 256), (uint8_t)(length / 256), (uint8_t)(kind % 256), (uint8_t)(kind / 256)};
    memcpy(file + place, bytes, 4);
}

static uint64_t reads(void) { return holzmotte_read_record(file, file_len, at, summary, summary_len); }
static uint64_t writes(void) { return holzmotte_write_record(record_kind, file, file_len, keeps, room, room_len); }

/* Reads at a place into a fresh summary. The file stays as it was. */
static uint64_t read_at(uint64_t place)
{
    static uint8_t before[1 << 17];
    lend_summary(HOLZMOTTE_READ_SUMMARY_BYTES);
    memcpy(before, file, file_len);
    at = place;
    uint64_t result = reads();
    CHECK(memcmp(before, file, file_len) == 0);
    return result;
}

/* Does the summary say this? */
static int says(uint64_t found, uint64_t kind, uint64_t start, uint64_t length, uint64_t next)
{
    const uint64_t words[5] = {found, kind, start, length, next};
    for (int i = 0; i < 5; i++)
        if (holzmotte_word(summary, i) != words[i])
            return 0;
    return 1;
}

static int refused(uint64_t result, int number, uint64_t place)
{
    return HOLZMOTTE_NUMBER(result) == number && HOLZMOTTE_PLACE(result) == place;
}

/* Is this read refused so, with zeros in the summary? */
static int refused_read(uint64_t place, int number)
{
    return refused(read_at(place), number, place) && all(summary, HOLZMOTTE_READ_SUMMARY_BYTES, 0);
}

static void empty_file(void)
{
    lend_file(0);
    for (int i = 0; i < 64; i++)
        CHECK(read_at((uint64_t)1 << i) == HOLZMOTTE_DONE && says(0, 0, 0, 0, 0));
    CHECK(read_at(0) == HOLZMOTTE_DONE && says(0, 0, 0, 0, 0));
    CHECK(read_at(UINT64_MAX) == HOLZMOTTE_DONE && says(0, 0, 0, 0, 0));
    group("a file of no bytes has no record at any place, and that is no refusal");
}

static void every_length(void)
{
    const unsigned around[] = {0, 1, 39, 40, 41, 4091, 4092, 4093, 65471, 65472};
    for (size_t i = 0; i < sizeof around / sizeof *around; i++) {
        lend_file(around[i] + 4);
        head(0, around[i], HOLZMOTTE_KIND_LINE);
        CHECK(read_at(0) == HOLZMOTTE_DONE && says(1, HOLZMOTTE_KIND_LINE, 4, around[i], around[i] + 4));
        CHECK(read_at(around[i] + 4) == HOLZMOTTE_DONE && says(0, 0, 0, 0, 0));
        file_len--; /* one byte less: the body, or an empty one's head, is cut */
        CHECK(refused_read(0, HOLZMOTTE_RECORD_CUT));
    }
    for (unsigned length = HOLZMOTTE_MAX_RECORD_BODY + 1; length < 65536; length++) {
        lend_file(4);
        head(0, length, HOLZMOTTE_KIND_LINE);
        CHECK(refused_read(0, HOLZMOTTE_RECORD_LONG));
    }
    group("bodies of up to 65,472 bytes are read, longer ones are refused");
}

static void every_kind(void)
{
    lend_file(44);
    lend_summary(HOLZMOTTE_READ_SUMMARY_BYTES), at = 0;
    for (unsigned kind = 0; kind < 65536; kind++) {
        head(0, 40, kind);
        memset(summary, MARK, summary_len);
        uint64_t result = reads();
        if (kind == HOLZMOTTE_KIND_VECTORS || kind == HOLZMOTTE_KIND_LINE)
            CHECK(result == HOLZMOTTE_DONE && says(1, kind, 4, 40, 44));
        else
            CHECK(refused(result, HOLZMOTTE_RECORD_KIND, 0) && all(summary, summary_len, 0));
    }
    for (unsigned length = 0; length <= 400; length++) {
        lend_file(length + 4);
        head(0, length, HOLZMOTTE_KIND_VECTORS);
        if (length % 40 == 0)
            CHECK(read_at(0) == HOLZMOTTE_DONE && says(1, HOLZMOTTE_KIND_VECTORS, 4, length, length + 4));
        else
            CHECK(refused_read(0, HOLZMOTTE_RAGGED));
    }
    group("two kinds are read, and vectors in fours");
}

static void in_a_row(void)
{
    size_t records = 0, place = 0;
    lend_file(1 << 16);
    for (unsigned length = 0; place + length + 4 <= file_len; length++) {
        head(place, length, HOLZMOTTE_KIND_LINE);
        place += length + 4;
        records++;
    }
    uint64_t from = 0;
    for (size_t i = 0; i < records; i++) {
        CHECK(read_at(from) == HOLZMOTTE_DONE && says(1, HOLZMOTTE_KIND_LINE, from + 4, i, from + 4 + i));
        from = holzmotte_word(summary, HOLZMOTTE_READ_NEXT);
    }
    CHECK(from == place);
    group("many records in a row, each where the one before it says");
}

/* Two faults at once: the first in the header's order is given. */
static void order(void)
{
    lend_file(3);
    memset(file, 0xff, 3);
    CHECK(refused_read(0, HOLZMOTTE_RECORD_CUT)); /* under four bytes of a head, and no kind */
    lend_file(4);
    head(0, 65473, 3);
    CHECK(refused_read(0, HOLZMOTTE_RECORD_LONG)); /* and no kind, and cut */
    head(0, 41, 3);
    CHECK(refused_read(0, HOLZMOTTE_RECORD_KIND)); /* and cut */
    head(0, 41, 1);
    CHECK(refused_read(0, HOLZMOTTE_RECORD_CUT)); /* and ragged */
    lend_file(50);
    head(5, 41, 1);
    CHECK(refused_read(5, HOLZMOTTE_RAGGED));
    for (size_t n = 0; n < HOLZMOTTE_READ_SUMMARY_BYTES; n++) {
        lend_summary(n), at = 5;
        CHECK(refused(reads(), HOLZMOTTE_RAGGED, 5) && all(summary, n, MARK));
        head(5, 40, 1);
        CHECK(refused(reads(), HOLZMOTTE_NO_ROOM, 0) && all(summary, n, MARK));
        at = 50; /* no record is left, and the summary is too short */
        CHECK(refused(reads(), HOLZMOTTE_NO_ROOM, 0) && all(summary, n, MARK));
        head(5, 41, 1);
    }
    lend_summary(47), at = 50;
    CHECK(reads() == HOLZMOTTE_DONE && all(summary, 40, 0) && all(summary + 40, 7, MARK));
    group("of several refusals the first is given, that of the summary last");
}

/* Is this body written, and read back where the reader takes it? */
static void write_one(unsigned kind, size_t length, uint64_t wide, size_t spare)
{
    lend_file(length);
    for (size_t i = 0; i < length; i++)
        file[i] = (uint8_t)(i * 7 + i / 256);
    lend_room(HOLZMOTTE_RECORD_BYTES(length) + spare);
    record_kind = kind, keeps = wide;
    CHECK(writes() == HOLZMOTTE_DONE);
    CHECK(room[0] == length % 256 && room[1] == length / 256 && room[2] == kind && room[3] == 0);
    CHECK(memcmp(room + 4, file, length) == 0 && all(room + 4 + length, spare, MARK));
    file = room, file_len = room_len;
    CHECK(read_at(0) == HOLZMOTTE_DONE && says(1, kind, 4, length, length + 4));
}

/* Is this body refused so, and the room as it was? */
static void write_refused(uint64_t kind, size_t length, uint64_t wide, size_t bytes, int number)
{
    lend_file(length);
    lend_room(bytes);
    record_kind = kind, keeps = wide;
    CHECK(refused(writes(), number, 0) && all(room, bytes, MARK));
}

static void written(void)
{
    const uint64_t yes[] = {1, 2, 256, (uint64_t)1 << 32, UINT64_MAX};
    const size_t old[] = {0, 1, 40, 4080, 4091, 4092}, new[] = {4093, 65440, 65471, 65472};
    for (int i = 0; i < 5; i++) {
        for (int k = 0; k < 4; k++)
            write_one(HOLZMOTTE_KIND_LINE, new[k], yes[i], 0);
        write_one(HOLZMOTTE_KIND_VECTORS, 65440, yes[i], 3);
        write_refused(HOLZMOTTE_KIND_LINE, 65473, yes[i], 70000, HOLZMOTTE_RECORD_LONG);
        write_refused(HOLZMOTTE_KIND_VECTORS, 65472, yes[i], 70000, HOLZMOTTE_RAGGED);
    }
    for (int k = 0; k < 6; k++) {
        write_one(HOLZMOTTE_KIND_LINE, old[k], 0, 0);
        write_one(HOLZMOTTE_KIND_LINE, old[k], 1, 9);
    }
    for (int k = 0; k < 4; k++)
        write_refused(HOLZMOTTE_KIND_LINE, new[k], 0, 70000, HOLZMOTTE_RECORD_LONG);
    group("a yes writes bodies of up to 65,472 bytes, a no of up to 4,092");
}

static void not_written(void)
{
    const uint64_t kinds[] = {0, 3, 255, 256, 257, 258, 65537, 65538, ((uint64_t)1 << 32) + 1, ((uint64_t)1 << 32) + 2, UINT64_MAX};
    for (size_t i = 0; i < sizeof kinds / sizeof *kinds; i++) {
        write_refused(kinds[i], 40, 1, 44, HOLZMOTTE_RECORD_KIND);
        write_refused(kinds[i], 41, 1, 0, HOLZMOTTE_RECORD_KIND);
        write_refused(kinds[i], 4093, 0, 0, HOLZMOTTE_RECORD_LONG);
    }
    write_refused(HOLZMOTTE_KIND_VECTORS, 41, 0, 0, HOLZMOTTE_RAGGED);
    for (size_t bytes = 0; bytes < 44; bytes++) {
        write_refused(HOLZMOTTE_KIND_VECTORS, 40, 0, bytes, HOLZMOTTE_NO_ROOM);
        write_refused(HOLZMOTTE_KIND_LINE, 40, 1, bytes, HOLZMOTTE_NO_ROOM);
    }
    group("refused writes, and their order; the room stays as it was");
}

static void stack_use(void)
{
    lend_file(65476);
    head(0, 65472, HOLZMOTTE_KIND_LINE);
    lend_summary(HOLZMOTTE_READ_SUMMARY_BYTES), at = 0;
    size_t reading = stack_of(reads);
    at = 65473; /* a cut head */
    size_t took = stack_of(reads);
    reading = took > reading ? took : reading;
    file_len = 65472;
    lend_room(65476), record_kind = HOLZMOTTE_KIND_LINE, keeps = 1;
    size_t writing = stack_of(writes);
    CHECK(room[0] == 0xc0 && room[1] == 0xff && reading <= HOLZMOTTE_STACK_BYTES && writing <= HOLZMOTTE_STACK_BYTES);
    printf("stack: reading a record took %zu bytes, writing one %zu\n", reading, writing);
    group("both functions keep to the stack that the header states");
}

static void constants(void)
{
    CHECK(HOLZMOTTE_READ_SUMMARY_BYTES == 40 && HOLZMOTTE_MAX_RECORD_BODY == 65472 && HOLZMOTTE_OLD_MAX_RECORD_BODY == 4092);
    CHECK(HOLZMOTTE_RECORD_BYTES(0) == 4 && HOLZMOTTE_RECORD_BYTES(65472) == 65476);
    CHECK(HOLZMOTTE_KIND_VECTORS == 1 && HOLZMOTTE_KIND_LINE == 2 && HOLZMOTTE_READ_FOUND == 0 && HOLZMOTTE_READ_NEXT == 4);
    group("the header's numbers of records");
}

static void all_groups(void)
{
    empty_file();
    every_length();
    every_kind();
    in_a_row();
    order();
    written();
    not_written();
    stack_use();
    constants();
}

int main(void) { return run_groups(NULL, all_groups); }
