/* The host process: makes the calls of the archive on memory that it shares with the bench program.
   It is compiled for the archive's processor, and runs under an emulator where that isn't ours.
   Arguments: file descriptor, size, page size, then the offsets of the pages that nobody may touch.
   Each request is fourteen numbers of 64 bits: the call, by its place in the list below, and PAINTED more
   for a call on a painted stack; for each slice its offset and its number of elements; and at the end
   the node, the ticks, the pin, or the wishes, one bit each.
   The answer is two numbers: what the call returned, and the bytes of stack it wrote on. */
#define _GNU_SOURCE
#include <stdbool.h>
#include <stdint.h>
#include <stdio.h>
#include <stdlib.h>
#include <string.h>
#include <sys/mman.h>
#include <ucontext.h>

#define SLICE(type) type *, size_t
#define WISHES bool, bool, bool
uint64_t deltawobble_translate(SLICE(const uint8_t), SLICE(uint8_t), SLICE(uint16_t), WISHES);
uint64_t deltawobble_stretch(SLICE(const uint8_t), size_t);
uint64_t deltawobble_batch(SLICE(const uint8_t), SLICE(const uint32_t), SLICE(uint8_t), SLICE(uint64_t),
                           SLICE(uint16_t), WISHES);
uint64_t deltawobble_verilog(SLICE(const uint8_t), SLICE(uint8_t), SLICE(uint16_t));
uint64_t deltawobble_run(SLICE(const uint8_t), SLICE(const uint8_t), SLICE(const uint8_t), SLICE(uint8_t),
                         SLICE(uint16_t), uint16_t);
uint64_t deltawobble_check(SLICE(const uint8_t), SLICE(uint16_t), bool);
uint64_t deltawobble_back(SLICE(const uint8_t), SLICE(uint8_t), SLICE(uint16_t), bool);
uint64_t deltawobble_lanes(SLICE(const uint8_t), SLICE(const uint16_t), SLICE(uint16_t), SLICE(uint16_t),
                           SLICE(uint16_t), uint16_t);
uint64_t deltawobble_never(SLICE(const uint8_t), SLICE(const uint8_t), SLICE(uint32_t), SLICE(uint32_t), SLICE(uint8_t),
                           SLICE(uint16_t), uint16_t);
uint64_t deltawobble_make(SLICE(const uint8_t), SLICE(uint8_t), SLICE(uint16_t), SLICE(uint16_t));

enum { TRANSLATE, STRETCH, BATCH, VERILOG, RUN, CHECK, BACK, LANES, NEVER, MAKE, PAINTED = 16 };
enum { STACK = 1 << 20, PAINT = 0xA5 };

static uint8_t *base;
static uint64_t request[14], answer[2];
static bool idle;
static uint8_t stack[STACK] __attribute__((aligned(64)));
static ucontext_t here, there;

/* slice i of the request, as a pointer to its type and a length */
#define AT(i, type) (type *)(base + request[1 + 2 * (i)]), request[2 + 2 * (i)]

static uint64_t call(void) {
    uint64_t last = request[13];
    bool lean = last & 1, plain = last >> 1 & 1, card = last >> 2 & 1;
    switch (request[0] % PAINTED) {
    case TRANSLATE: return deltawobble_translate(AT(0, uint8_t), AT(1, uint8_t), AT(2, uint16_t), lean, plain, card);
    case STRETCH: return deltawobble_stretch(AT(0, uint8_t), last);
    case BATCH:
        return deltawobble_batch(AT(0, uint8_t), AT(1, uint32_t), AT(2, uint8_t), AT(3, uint64_t), AT(4, uint16_t),
                                 lean, plain, card);
    case VERILOG: return deltawobble_verilog(AT(0, uint8_t), AT(1, uint8_t), AT(2, uint16_t));
    case RUN: return deltawobble_run(AT(0, uint8_t), AT(1, uint8_t), AT(2, uint8_t), AT(3, uint8_t), AT(4, uint16_t), last);
    case CHECK: return deltawobble_check(AT(0, uint8_t), AT(1, uint16_t), lean);
    case BACK: return deltawobble_back(AT(0, uint8_t), AT(1, uint8_t), AT(2, uint16_t), lean);
    case LANES: return deltawobble_lanes(AT(0, uint8_t), AT(1, uint16_t), AT(2, uint16_t), AT(3, uint16_t), AT(4, uint16_t), last);
    case NEVER:
        return deltawobble_never(AT(0, uint8_t), AT(1, uint8_t), AT(2, uint32_t), AT(3, uint32_t), AT(4, uint8_t),
                                 AT(5, uint16_t), last);
    case MAKE: return deltawobble_make(AT(0, uint8_t), AT(1, uint8_t), AT(2, uint16_t), AT(3, uint16_t));
    }
    fprintf(stderr, "the archive has no call %d\n", (int)request[0]);
    exit(2);
}

static void on_painted_stack(void) {
    if (!idle) answer[0] = call();
}

/* How far down the painted stack was written on. */
static size_t depth(bool without_call) {
    size_t untouched = 0;
    memset(stack, PAINT, STACK);
    idle = without_call;
    getcontext(&there);
    there.uc_stack.ss_sp = stack;
    there.uc_stack.ss_size = STACK;
    there.uc_link = &here;
    makecontext(&there, on_painted_stack, 0);
    swapcontext(&here, &there);
    while (untouched < STACK && stack[untouched] == PAINT) untouched++;
    return STACK - untouched;
}

int main(int count, char **words) {
    if (count < 4) return 2;
    size_t size = strtoul(words[2], 0, 10), page = strtoul(words[3], 0, 10);
    base = mmap(0, size, PROT_READ | PROT_WRITE, MAP_SHARED, atoi(words[1]), 0);
    if (base == MAP_FAILED) return 2;
    for (int i = 4; i < count; i++)
        if (mprotect(base + strtoul(words[i], 0, 10), page, PROT_NONE)) return 2;
    while (fread(request, sizeof request, 1, stdin) == 1) {
        answer[0] = answer[1] = 0;
        if (request[0] < PAINTED) {
            answer[0] = call();
        } else {
            size_t empty = depth(true);
            answer[1] = depth(false) - empty;
        }
        if (fwrite(answer, sizeof answer, 1, stdout) != 1 || fflush(stdout)) return 2;
    }
    return 0;
}
