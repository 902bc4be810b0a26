/* The fuzz target on the check of netlists from outside (L8): a byte chooses the memory, the rest is the netlist.
   Each is checked as a full and as a lean one, and held to an answer worked out here. */
#include "fuzz.h"

uint64_t deltawobble_check(const uint8_t *net, size_t net_len, uint16_t *work, size_t work_len, bool lean);

/* the bytes that fuzz_alone.c puts in */
const uint8_t kinds[] = {0x21, 0x22, 0x23, 0x24, 0x25, 0x26, 7, 0x1F, 0x20};
const size_t kinds_count = sizeof kinds;

enum { TERMINALS = 8192, NOTHING = 0, INPUT, OUTPUT };

static const uint8_t inputs_of[] = {0, 1, 2, 2, 2, 1, 0};

static uint64_t refused(uint64_t number, uint64_t place) { return number << 32 | place; }

/* One record: its size, 0 where it is broken or of no known kind or part. */
static size_t record(const uint8_t *net, size_t left) {
    static const uint8_t sizes[] = {3, 4, 5, 3};
    if (net[0] < 0x21 || net[0] > 0x24 || sizes[net[0] - 0x21] > left) return 0;
    return net[0] == 0x22 && net[1] > 6 ? 0 : sizes[net[0] - 0x21];
}

/* What document 02 says of a netlist. */
static uint64_t wanted(const uint8_t *net, size_t length, bool lean) {
    static uint8_t side[1 << 16];
    static uint32_t feeds[1 << 16];
    size_t next = 0, size, rank = 1;
    memset(side, NOTHING, sizeof side);
    memset(feeds, 0, sizeof feeds);
    for (size_t at = 0; at < length; at += size) {
        const uint8_t *body = net + at + 1 + (net[at] == 0x22);
        size_t own = net[at] <= 0x22 ? 1 : net[at] == 0x23 ? 2 : 3;
        size = record(net + at, length - at);
        if (size == 0 || own < rank) return refused(21, at);
        rank = own;
        size_t number = body[0] | body[1] << 8;
        if (rank == 1) {
            size_t inputs = net[at] == 0x21 ? 1 : inputs_of[net[at + 1]];
            if ((lean ? number < next : number != next) || number + inputs >= TERMINALS) return refused(22, at);
            memset(side + number, INPUT, inputs);
            side[number + inputs] = OUTPUT;
            next = number + inputs + 1;
        } else if (rank == 2) {
            size_t to = body[2] | body[3] << 8;
            if (side[number] != OUTPUT || side[to] != INPUT) return refused(22, at);
            feeds[to]++;
        } else {
            if (side[number] == NOTHING) return refused(22, at);
            feeds[number]++;
        }
    }
    for (size_t at = 0; at < TERMINALS; at++)
        if (side[at] == INPUT && feeds[at] != 1) return refused(23, at);
    return 0;
}

/* The kinds that follow each other before the answer's place, and the answer. */
static void mark_answer(const uint8_t *net, size_t length, uint64_t answer, bool lean) {
    uint32_t number = answer >> 32, place = (uint32_t)answer, size = 0, before = 0;
    while (place >> size) size++;
    tally(number);
    mark(number << 8 | size << 1 | lean);
    size_t end = number == 21 || number == 22 ? place : length;
    for (size_t at = 0, step; at < end && (step = record(net + at, length - at)); at += step) {
        uint32_t this = net[at] == 0x22 ? 0x30u + net[at + 1] : net[at];
        mark(1u << 20 | before << 12 | this << 4 | (number & 7) << 1 | lean);
        before = this;
    }
    if (place < length && end == place) mark(1u << 21 | before << 12 | net[place] << 4 | (number & 7) << 1 | lean);
}

static uint64_t call(const uint8_t *net, size_t length, size_t numbers, bool lean) {
    static unsigned calls;
    bool end[2] = {calls & 1, calls >> 1 & 1};
    calls++;
    uint8_t *lent = slice(0, length, end[0]);
    uint16_t *work = (uint16_t *)slice(1, 2 * numbers, end[1]);
    memcpy(lent, net, length);
    uint64_t answer = deltawobble_check(lent, length, work, numbers, lean);
    DEMAND(answer == (numbers < CLEARED ? refused(1, 0) : wanted(net, length, lean)));
    DEMAND(cleared(work, numbers, answer >> 32));
    DEMAND(memcmp(lent, net, length) == 0);
    DEMAND(guarded(lent, length, end[0]) && guarded(work, 2 * numbers, end[1]));
    mark_answer(net, length, answer, lean);
    return answer;
}

int LLVMFuzzerTestOneInput(const uint8_t *data, size_t size) {
    if (size < 1) return 0;
    const uint8_t *net = data + 1;
    call(net, size - 1, memories[data[0] & 7], data[0] >> 3 & 1);
    uint64_t full = call(net, size - 1, CLEARED, false), lean = call(net, size - 1, CLEARED, true);
    /* "A netlist without gaps is a lean one too." */
    DEMAND(full != 0 || lean == 0);
    return 0;
}
