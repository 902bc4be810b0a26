/* A library that translates nothing: each call answers and writes numbers that depend on all it was lent, so that two back ends
   which hand over the same things get the same answers. For test_engine. */
#include <stdbool.h>
#include <stddef.h>
#include <stdint.h>

static uint64_t sum;

static void add(const void *from, size_t size) {
    const uint8_t *bytes = from;
    sum = sum * 31 + size;
    for (size_t i = 0; i < size; i++) sum = sum * 31 + bytes[i];
}

static uint64_t answer(uint8_t *out, size_t room, uint16_t *work, size_t numbers, unsigned more) {
    for (size_t i = 0; i < numbers; i++) sum += work[i];
    sum = sum * 31 + numbers * 7 + room * 3 + more;
    size_t wrote = room < 20 ? room : 20;
    for (size_t i = 0; i < wrote; i++) out[i] = (uint8_t)(sum >> i);
    return sum % 5 ? wrote : (sum % 1000 + (12ull << 32) + (256ull << 40) + (3ull << 52));
}

#define LENT(name) const uint8_t *name, size_t name##_len
#define OUT uint8_t *out, size_t room, uint16_t *work, size_t numbers
#define START(name) sum = name##_len, add(name, name##_len)

uint64_t deltawobble_translate(LENT(sheet), OUT, bool lean, bool plain, bool card) {
    START(sheet);
    return answer(out, room, work, numbers, lean | plain << 1 | card << 2);
}
uint64_t deltawobble_stretch(LENT(sheet), size_t node) {
    START(sheet);
    return sum % 100 << 32 | node;
}
uint64_t deltawobble_batch(LENT(sheets), const uint32_t *lengths, size_t count, uint8_t *out, size_t room, uint64_t *results, size_t places,
                           uint16_t *work, size_t numbers, bool lean, bool plain, bool card) {
    START(sheets);
    add(lengths, 4 * count);
    for (size_t i = 0; i < places; i++) results[i] = lengths[i] * 3 + 1;
    return answer(out, room, work, numbers, lean | plain << 1 | card << 2);
}
uint64_t deltawobble_verilog(LENT(sheet), OUT) {
    START(sheet);
    return answer(out, room, work, numbers, 0);
}
uint64_t deltawobble_run(LENT(sheet), LENT(inputs), LENT(starts), OUT, uint16_t ticks) {
    START(sheet);
    add(inputs, inputs_len);
    add(starts, starts_len);
    return answer(out, room, work, numbers, ticks);
}
uint64_t deltawobble_check(LENT(net), uint16_t *work, size_t numbers, bool lean) {
    START(net);
    return answer(0, 0, work, numbers, lean);
}
uint64_t deltawobble_lanes(LENT(sheet), const uint16_t *inputs, size_t inputs_len, uint16_t *state, size_t state_len, uint16_t *out,
                           size_t room, uint16_t *work, size_t numbers, uint16_t ticks) {
    START(sheet);
    add(inputs, 2 * inputs_len);
    add(state, 2 * state_len);
    for (size_t i = 0; i < state_len; i++) state[i] = (uint16_t)(sum >> i) ^ state[i];
    uint8_t some[20] = {0};
    uint64_t word = answer(some, room < 20 ? room : 20, work, numbers, ticks + 3 * room);
    for (size_t i = 0; i < 20 && i < room; i++) out[i] = (uint16_t)(some[i] << 5);
    return word;
}
uint64_t deltawobble_never(LENT(sheet), LENT(starts), uint32_t *trail, size_t trail_len, uint32_t *queue, size_t queue_len, OUT, uint16_t pin) {
    START(sheet);
    add(starts, starts_len);
    add(trail, 4 * trail_len);
    add(queue, 4 * queue_len);
    uint64_t word = answer(out, room, work, numbers, pin);
    return sum % 2 ? word : sum % 1000 | 40ull << 32;
}
#ifndef WITHOUT_MAKE
uint64_t deltawobble_make(LENT(text), uint8_t *out, size_t room, uint16_t *places, size_t places_len, uint16_t *work, size_t numbers) {
    START(text);
    add(places, 2 * places_len);
    for (size_t i = 0; i < places_len && i < 30; i++) places[i] = (uint16_t)(sum >> i);
    return answer(out, room, work, numbers, 0);
}
#endif
#ifndef WITHOUT_BACK
uint64_t deltawobble_back(LENT(net), OUT, bool lean) {
    START(net);
    return answer(out, room, work, numbers, lean);
}
#endif
