/* What the tests from C share: checks in groups, buffers beside protected pages, vectors by name, the stack that a call takes.
 *
 * Every group runs twice: each lent buffer ends at a page that cannot be touched, then each begins right behind one, so that one byte too
 * far on either side is a crash. Those that do not choose an edition themselves run so in each of the two. */
#define _DEFAULT_SOURCE
#include "holzmotte.h"

#include <pthread.h>
#include <stdio.h>
#include <stdlib.h>
#include <string.h>
#include <sys/mman.h>
#include <unistd.h>

static int passed, failed; /* groups of checks */
static int checks, wrong;   /* in the group at hand */

#define CHECK(e) (checks++, (e) ? (void)0 : (void)(wrong++, printf("FAILED, line %d: %s\n", __LINE__, #e)))

/* The mappings of the group at hand. */
static struct {
    uint8_t *at;
    size_t bytes;
} mapped[8192];
static size_t mappings;

/* Ends a group of checks. */
static void group(const char *says)
{
    printf("%s, %d checks: %s\n", wrong == 0 ? "passed" : "FAILED", checks, says);
    *(wrong == 0 ? &passed : &failed) += 1;
    checks = wrong = 0;
    while (mappings > 0 && munmap(mapped[mappings - 1].at, mapped[mappings - 1].bytes) == 0)
        mappings--;
}

static int at_start; /* do buffers begin right behind a protected page, or else end at one? */

static size_t page_bytes(void) { return (size_t)sysconf(_SC_PAGESIZE); }

/* Whole pages of memory, with a protected page before and behind them. */
static uint8_t *fenced(size_t bytes)
{
    uint8_t *p = mmap(NULL, page_bytes() + bytes + page_bytes(), PROT_NONE, MAP_PRIVATE | MAP_ANONYMOUS, -1, 0);
    if (p == MAP_FAILED || (bytes > 0 && mprotect(p + page_bytes(), bytes, PROT_READ | PROT_WRITE) != 0)) {
        perror("fenced");
        exit(2);
    }
    return p + page_bytes();
}

/* n bytes of fenced pages, next to one of the two protected ones. */
static uint8_t *beside_fence(uint8_t *pages, size_t bytes, size_t n) { return at_start ? pages : pages + bytes - n; }

/* n bytes beside a protected page; they are lent until the group ends. */
static uint8_t *guarded(size_t n)
{
    size_t bytes = (n + page_bytes() - 1) / page_bytes() * page_bytes();
    uint8_t *pages = fenced(bytes);
    if (mappings == sizeof mapped / sizeof *mapped) {
        puts("guarded: too many mappings");
        exit(2);
    }
    mapped[mappings].at = pages - page_bytes();
    mapped[mappings++].bytes = page_bytes() + bytes + page_bytes();
    return beside_fence(pages, bytes, n);
}

/* Are these n bytes all b? */
static int all(const uint8_t *p, size_t n, uint8_t b)
{
    for (size_t i = 0; i < n; i++)
        if (p[i] != b)
            return 0;
    return 1;
}

static const uint8_t IDLE[] = HOLZMOTTE_IDLE_VECTOR, LOW_POWER[] = HOLZMOTTE_LOW_POWER_IDLE_VECTOR, ERROR[] = HOLZMOTTE_ERROR_VECTOR;
static const uint8_t LOCAL_FAULT[] = HOLZMOTTE_LOCAL_FAULT_VECTOR, REMOTE_FAULT[] = HOLZMOTTE_REMOTE_FAULT_VECTOR;

#define IDLES "\x0f\x07\x07\x07\x07\x0f\x07\x07\x07\x07"
#define START "\x01\xfb\x55\x55\x55\x00\x55\x55\x55\xd5"
#define OCTETS "\x00Holz\x00mott"
#define TERMINATE "\x0f\xfd\x07\x07\x07\x0f\x07\x07\x07\x07"
#define ERRORS "\x0f\xfe\xfe\xfe\xfe\x0f\xfe\xfe\xfe\xfe"
#define LOW "\x0f\x06\x06\x06\x06\x0f\x06\x06\x06\x06"
#define LOCAL "\x01\x9c\x00\x00\x01\x01\x9c\x00\x00\x01"

/* A thread's stack that is painted before it runs: what the call touched is not paint any more. */
#define PAINTED_BYTES ((size_t)1 << 19)
#define PAINT 0x5c
static uint64_t (*painted_call)(void);
static uint8_t *before_call;

static void *on_painted_stack(void *unused)
{
    uint8_t here;
    before_call = &here;
    painted_call();
    return unused;
}

/* The bytes of stack that a call takes. */
static size_t stack_of(uint64_t (*call)(void))
{
    uint8_t *lowest = guarded(PAINTED_BYTES), *stack = lowest;
    pthread_attr_t attributes;
    pthread_t thread;
    painted_call = call;
    memset(stack, PAINT, PAINTED_BYTES);
    CHECK(pthread_attr_init(&attributes) == 0 && pthread_attr_setstack(&attributes, stack, PAINTED_BYTES) == 0);
    CHECK(pthread_create(&thread, &attributes, on_painted_stack, NULL) == 0 && pthread_join(thread, NULL) == 0);
    while (*lowest == PAINT)
        lowest++;
    CHECK(lowest > stack && before_call > lowest && before_call < stack + PAINTED_BYTES);
    return (size_t)(before_call - lowest);
}

static uint64_t edition; /* of the calls */

/* Runs all groups: an exit status. Those of records have no edition. */
static int run_groups(void (*in_each_edition)(void), void (*besides)(void))
{
    for (at_start = 0; at_start <= 1; at_start++) {
        const char *where = at_start ? "begin right behind a protected page" : "end at a protected page";
        for (edition = HOLZMOTTE_EDITION_OLD; in_each_edition && edition <= HOLZMOTTE_EDITION_NEW; edition++) {
            printf("the %s edition, buffers %s:\n", edition == HOLZMOTTE_EDITION_OLD ? "old" : "new", where);
            in_each_edition();
        }
        printf("%sbuffers %s:\n", in_each_edition ? "both editions, " : "", where);
        besides();
    }
    printf("%d passed, %d failed\n", passed, failed);
    return failed != 0;
}
