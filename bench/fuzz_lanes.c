/* The fuzz target on sixteen traces at once: bytes choose memory, ticks, lengths, room, numbers and a cut, the rest is the sheet.
   The call is held to an answer worked out here from the sheet's lean netlist (by deltawobble_translate, which has a target of its
   own): refusals in their order, and the bits asked for backwards, output by output. An accepted run is also made in two
   windows, and lane by lane with deltawobble_run. */
#include "fuzz.h"

uint64_t deltawobble_translate(const uint8_t *sheet, size_t sheet_len, uint8_t *out, size_t out_len,
                               uint16_t *work, size_t work_len, bool lean, bool plain, bool card);
uint64_t deltawobble_run(const uint8_t *sheet, size_t sheet_len, const uint8_t *inputs, size_t inputs_len,
                         const uint8_t *starts, size_t starts_len, uint8_t *out, size_t out_len,
                         uint16_t *work, size_t work_len, uint16_t ticks);
uint64_t deltawobble_lanes(const uint8_t *sheet, size_t sheet_len, const uint16_t *inputs, size_t inputs_len,
                           uint16_t *state, size_t state_len, uint16_t *out, size_t out_len,
                           uint16_t *work, size_t work_len, uint16_t ticks);

/* the bytes that fuzz_alone.c puts in */
const uint8_t kinds[] = {1, 2, 3, 4, 0x11, 0x12, 0x13, 0x14, 0x15, 0x16, 0x17, 0x18, 0x19, 0x1A, 0x1B, 0x31};
const size_t kinds_count = sizeof kinds;

enum { TERMINALS = 8192, PINS = 128, TICKS = 24, MOST = PINS * TICKS, POINT = 7, NONE = 0xFFFF };

/* ---- the lean netlist */

/* of each output its element's kind, a part or POINT, and its first terminal; of each input the output that drives it */
static uint8_t kind_of[TERMINALS], is_output[TERMINALS];
static uint16_t first_of[TERMINALS], driver[TERMINALS], elements[TERMINALS];
static uint16_t registers[TERMINALS], into[PINS], from[PINS];
static size_t element_count, register_count, into_count, from_count;

static size_t inputs_of(uint8_t kind) {
    static const uint8_t counts[] = {0, 1, 2, 2, 2, 1, 0, 1};
    return counts[kind];
}

static void take_element(uint8_t kind, size_t first) {
    size_t output = first + inputs_of(kind);
    kind_of[output] = kind, first_of[output] = first, is_output[output] = 1;
    elements[element_count++] = output;
    if (kind == 1) registers[register_count++] = output;
}

static void take_netlist(const uint8_t *net, size_t length) {
    static const uint8_t sizes[] = {3, 4, 5, 3};
    memset(is_output, 0, sizeof is_output);
    memset(driver, 0xFF, sizeof driver);
    element_count = register_count = into_count = from_count = 0;
    for (size_t at = 0; at < length; at += sizes[net[at] - 0x21]) {
        const uint8_t *body = net + at + 1 + (net[at] == 0x22);
        size_t number = body[0] | body[1] << 8;
        if (net[at] == 0x21) take_element(POINT, number);
        if (net[at] == 0x22) take_element(net[at + 1], number);
        if (net[at] == 0x23) driver[body[2] | body[3] << 8] = number;
        if (net[at] == 0x24 && is_output[number]) from[from_count++] = number;
        if (net[at] == 0x24 && !is_output[number]) into[into_count++] = number;
    }
}

/* Whether one comes back to an output from an input, past no register. */
static bool comes_back(size_t input, size_t own, uint8_t *been) {
    size_t output = driver[input];
    if (output == NONE || kind_of[output] == 1) return false;
    if (output == own) return true;
    if (been[output]) return false;
    been[output] = 1;
    for (size_t i = 0; i < inputs_of(kind_of[output]); i++)
        if (comes_back(first_of[output] + i, own, been)) return true;
    return false;
}

/* The lowest input on a ring: elements stand by rising terminal. */
static size_t lowest_on_ring(void) {
    static uint8_t been[TERMINALS];
    for (size_t e = 0; e < element_count; e++)
        for (size_t i = 0; i < inputs_of(kind_of[elements[e]]); i++) {
            memset(been, 0, sizeof been);
            if (kind_of[elements[e]] != 1 && comes_back(first_of[elements[e]] + i, elements[e], been)) return first_of[elements[e]] + i;
        }
    return NONE;
}

/* ---- the bits, asked for backwards */

static uint16_t bits[TERMINALS];
static uint8_t known[TERMINALS];

static uint16_t shown(size_t output);

static uint16_t taken(size_t input) { return driver[input] == NONE ? bits[input] : shown(driver[input]); }

static uint16_t shown(size_t output) {
    if (!known[output]) {
        size_t first = first_of[output];
        uint16_t a = inputs_of(kind_of[output]) > 0 ? taken(first) : 0, b = inputs_of(kind_of[output]) > 1 ? taken(first + 1) : 0;
        const uint16_t all[] = {0, 0, a & b, a | b, a ^ b, ~a, 0xFFFF, a};
        bits[output] = all[kind_of[output]], known[output] = 1;
    }
    return bits[output];
}

/* So many ticks: what is shown, and what is held then. */
static void simulate(const uint16_t *inputs, uint16_t *state, uint16_t *out, size_t ticks) {
    static uint16_t next[TERMINALS];
    for (size_t t = 0; t < ticks; t++) {
        memset(known, 0, sizeof known);
        for (size_t i = 0; i < register_count; i++) bits[registers[i]] = state[i], known[registers[i]] = 1;
        for (size_t i = 0; i < into_count; i++) bits[into[i]] = *inputs++;
        for (size_t i = 0; i < from_count; i++) *out++ = shown(from[i]);
        for (size_t i = 0; i < register_count; i++) next[i] = taken(first_of[registers[i]]);
        memcpy(state, next, 2 * register_count);
    }
}

/* ---- calls */

struct lent { size_t inputs, state, room, memory, ticks; };

static uint16_t numbers[MOST + 1], start[TERMINALS], out_after[2 * MOST], state_after[TERMINALS];

static void fill(uint16_t *to, size_t count, uint32_t seed) {
    for (size_t i = 0; i < count; i++) seed = seed * 1664525 + 1013904223, to[i] = seed >> 16;
}

/* One call, held to an answer, a state and an output, these unless it is refused. */
static void held(const uint8_t *sheet, size_t length, const uint16_t *given, const uint16_t *state, struct lent lent, uint64_t wanted) {
    static unsigned calls;
    bool end[5];
    for (int i = 0; i < 5; i++) end[i] = calls >> i & 1;
    calls++;
    uint8_t *own = slice(0, length, end[0]);
    uint16_t *inputs = (uint16_t *)slice(1, 2 * lent.inputs, end[1]), *held = (uint16_t *)slice(2, 2 * lent.state, end[2]);
    uint16_t *out = (uint16_t *)slice(3, 2 * lent.room, end[3]), *work = (uint16_t *)slice(4, 2 * lent.memory, end[4]);
    memcpy(own, sheet, length), memcpy(inputs, given, 2 * lent.inputs), memcpy(held, state, 2 * lent.state);
    uint64_t answer = deltawobble_lanes(own, length, inputs, lent.inputs, held, lent.state, out, lent.room, work, lent.memory, lent.ticks);
    size_t written = answer >> 32 ? 0 : answer;
    DEMAND(answer == wanted);
    DEMAND(memcmp(held, answer >> 32 ? state : state_after, 2 * lent.state) == 0);
    DEMAND(memcmp(out, out_after, 2 * written) == 0 && all(out + written, 0xA5, 2 * (lent.room - written)));
    DEMAND(cleared(work, lent.memory, answer >> 32 & 255));
    DEMAND(memcmp(own, sheet, length) == 0 && memcmp(inputs, given, 2 * lent.inputs) == 0);
    DEMAND(guarded(own, length, end[0]) && guarded(inputs, 2 * lent.inputs, end[1]) && guarded(held, 2 * lent.state, end[2]));
    DEMAND(guarded(out, 2 * lent.room, end[3]) && guarded(work, 2 * lent.memory, end[4]));
    uint32_t number = answer >> 32 & 255, place = (uint32_t)answer, size = 0;
    while (place >> size) size++;
    tally(number);
    mark(number << 8 | size);
    if (!number) mark(1u << 20 | (register_count < 8 ? register_count : 8) << 12 | (into_count < 8 ? into_count : 8) << 6 | size);
}

/* What the refusals say, in their order; 0 and the length where there is none. */
static uint64_t refusal(struct lent lent, uint64_t made, size_t ring) {
    size_t needed = lent.ticks * from_count;
    if (lent.memory < CLEARED) return 1ull << 32;
    if (made >> 32) return made;
    if (ring != NONE) return 19ull << 32 | ring;
    if (lent.inputs != lent.ticks * into_count || lent.state != register_count) return 20ull << 32;
    return needed > lent.room ? 17ull << 32 | needed : needed;
}

/* Lane k by the call for one trace. */
static void alone(const uint8_t *sheet, size_t length, struct lent lent, int k) {
    static uint8_t inputs[MOST + 1], starts[TERMINALS], out[MOST + 1];
    static uint16_t work[CLEARED];
    for (size_t i = 0; i < lent.inputs; i++) inputs[i] = numbers[i] >> k & 1;
    for (size_t i = 0; i < lent.state; i++) starts[i] = start[i] >> k & 1;
    size_t needed = lent.ticks * from_count;
    DEMAND(deltawobble_run(sheet, length, inputs, lent.inputs, starts, lent.state, out, needed, work, CLEARED, lent.ticks) == needed);
    for (size_t i = 0; i < needed; i++) DEMAND(out[i] == (out_after[i] >> k & 1));
}

/* The first ticks, and then the others from the state that was left: parts of the whole. */
static void windows(const uint8_t *sheet, size_t length, struct lent lent, size_t cut) {
    static uint16_t between[TERMINALS], end[TERMINALS], whole[MOST];
    size_t first = cut * from_count, rest = (lent.ticks - cut) * from_count;
    memcpy(end, state_after, sizeof end), memcpy(whole, out_after, sizeof whole);
    memcpy(between, start, sizeof between);
    simulate(numbers, between, out_after, cut);
    memcpy(state_after, between, sizeof between);
    held(sheet, length, numbers, start, (struct lent){cut * into_count, register_count, first, CLEARED, cut}, first);
    memcpy(state_after, end, sizeof end), memcpy(out_after, whole + first, 2 * rest);
    held(sheet, length, numbers + cut * into_count, between, (struct lent){(lent.ticks - cut) * into_count, register_count, rest, CLEARED, lent.ticks - cut}, rest);
}

int LLVMFuzzerTestOneInput(const uint8_t *data, size_t size) {
    static uint8_t net[57728];
    static uint16_t work[CLEARED];
    if (size < 6) return 0;
    const uint8_t *sheet = data + 6;
    size_t length = size - 6, ticks = data[1] % (TICKS + 1);
    uint64_t made = deltawobble_translate(sheet, length, net, sizeof net, work, CLEARED, true, true, false);
    take_netlist(net, made >> 32 ? 0 : made);
    size_t ring = made >> 32 ? NONE : lowest_on_ring();
    fill(numbers, MOST + 1, data[4] | data[5] << 8);
    fill(start, TERMINALS, data[5] << 8 | data[4] << 16);
    struct lent lent = {ticks * into_count, register_count, ticks * from_count, memories[data[0] & 7], ticks};
    /* lengths one off, and rooms near what is needed */
    if ((data[0] >> 3 & 7) == 1) lent.inputs++;
    if ((data[0] >> 3 & 7) == 2 && lent.inputs) lent.inputs--;
    if ((data[0] >> 3 & 7) == 3) lent.state++;
    if ((data[0] >> 3 & 7) == 4 && lent.state) lent.state--;
    if (data[0] >> 6 == 1) lent.room += data[2];
    if (data[0] >> 6 == 2 && lent.room) lent.room--;
    if (data[0] >> 6 == 3) lent.room = data[2];
    uint64_t wanted = refusal(lent, made, ring);
    memcpy(state_after, start, sizeof start);
    if (wanted >> 32 == 0) simulate(numbers, state_after, out_after, ticks);
    held(sheet, length, numbers, start, lent, wanted);
    if (wanted >> 32 == 0) {
        alone(sheet, length, lent, data[3] & 15);
        windows(sheet, length, lent, data[3] % (ticks + 1));
    }
    return 0;
}
