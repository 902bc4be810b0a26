/* What the fuzz targets share. The archive has no instrumentation: so each slice lies against a page that nobody
   may touch, with guard bytes at its other end (a sanitizer would see nothing), and the answers themselves are
   the feedback (`seen`). */
#include <stdbool.h>
#include <stddef.h>
#include <stdint.h>
#include <stdio.h>
#include <stdlib.h>
#include <string.h>
#include <sys/mman.h>
#include <unistd.h>

enum { CLEARED = 32768, SEEN = 1 << 14, STRETCH = 1 << 17, GUARD = 64, NUMBERS = 48 };

/* libFuzzer reads this section as counters; fuzz_alone.c reads it by name */
__attribute__((section("__libfuzzer_extra_counters"))) uint8_t seen[SEEN];

static const size_t memories[] = {32768, 32768, 32768, 32769, 32767, 0, 40000, 33000};

#define DEMAND(fact) \
    do { \
        if (!(fact)) { \
            fprintf(stderr, "broken: %s (line %d)\n", #fact, __LINE__); \
            abort(); \
        } \
    } while (0)

/* A slice of so many bytes, filled with 0xA5 and so are its guards, in one of five stretches of
   memory between two pages that nobody may touch: against the one or the other. */
static uint8_t *slice(int which, size_t size, bool at_end) {
    static uint8_t *stretches[5];
    if (!stretches[which]) {
        size_t page = sysconf(_SC_PAGESIZE);
        uint8_t *base = mmap(0, STRETCH + 2 * page, PROT_READ | PROT_WRITE, MAP_PRIVATE | MAP_ANONYMOUS, -1, 0);
        DEMAND(base != MAP_FAILED && mprotect(base, page, PROT_NONE) == 0);
        DEMAND(mprotect(base + page + STRETCH, page, PROT_NONE) == 0);
        stretches[which] = base + page;
    }
    DEMAND(size + GUARD <= STRETCH);
    uint8_t *from = stretches[which] + (at_end ? STRETCH - size - GUARD : 0);
    memset(from, 0xA5, size + GUARD);
    return at_end ? from + GUARD : from;
}

/* Whether so many bytes all have one value. */
static bool all(const void *from, uint8_t value, size_t size) {
    const uint8_t *bytes = from;
    return size == 0 || (bytes[0] == value && memcmp(bytes, bytes + 1, size - 1) == 0);
}

static bool guarded(const void *from, size_t size, bool at_end) {
    return all((const uint8_t *)from + (at_end ? -(ptrdiff_t)GUARD : (ptrdiff_t)size), 0xA5, GUARD);
}

/* The working memory after a call: cleared, but for refusal 1. */
static bool cleared(const uint16_t *work, size_t numbers, uint32_t refusal) {
    size_t count = refusal == 1 ? 0 : CLEARED;
    return all(work, 0, 2 * count) && all(work + count, 0xA5, 2 * (numbers - count));
}

static void mark(uint32_t hash) { seen[hash * 2654435761u >> 18] = 1; }

/* How often each number was answered, told at the end: a run that never met one has not tried it. */
static uint64_t answers[NUMBERS];

static void tell(void) {
    for (int number = 0; number < NUMBERS; number++)
        if (answers[number]) fprintf(stderr, "answer %d: %llu\n", number, (unsigned long long)answers[number]);
}

static void tally(uint32_t number) {
    static bool asked;
    DEMAND(number < NUMBERS && (asked || atexit(tell) == 0));
    asked = true;
    answers[number]++;
}
