/* The host process: the proved calls over standard input and output, for a Python of another processor. It is linked with the
   archive, and runs under an emulator. A request is ten numbers of 64 bits, low byte first: the request's own number, which call (in
   the order below), the lengths of bytes, inputs, starts and list, the room, the wishes (1 lean, 2 plain, 4 card), the node, the ticks,
   the pin or how many places are lent, the numbers of trail and queue; then these bytes. The answer is the request's number, the call's word, how many bytes it
   wrote, how many bytes of state it left, these bytes, and a result for each number of the list. Of lanes, the starts are the state, and inputs, starts and room
   are 16-bit numbers, all counted in bytes. Of make, the state is the places, 65535 in each that was not written. Of a search that found a tick (40) the whole
   room is brought back. The call behind the last one says which calls there are, a bit each. */
#include <stdbool.h>
#include <stddef.h>
#include <stdint.h>
#include <stdio.h>
#include <stdlib.h>
#include <string.h>

#define CALL(name, ...) extern uint64_t deltawobble_##name(__VA_ARGS__) __attribute__((weak))
#define LENT const uint8_t *, size_t
#define OUT uint8_t *, size_t
#define WORK uint16_t *, size_t
CALL(translate, LENT, OUT, WORK, bool, bool, bool);
CALL(stretch, LENT, size_t);
CALL(batch, LENT, const uint32_t *, size_t, OUT, uint64_t *, size_t, WORK, bool, bool, bool);
CALL(verilog, LENT, OUT, WORK);
CALL(run, LENT, LENT, LENT, OUT, WORK, uint16_t);
CALL(check, LENT, WORK, bool);
CALL(back, LENT, OUT, WORK, bool);
CALL(lanes, LENT, const uint16_t *, size_t, WORK, WORK, WORK, uint16_t);
CALL(never, LENT, LENT, uint32_t *, size_t, uint32_t *, size_t, OUT, WORK, uint16_t);
CALL(make, LENT, OUT, WORK, WORK);

enum { TRANSLATE, STRETCH, BATCH, VERILOG, RUN, CHECK, BACK, LANES, NEVER, MAKE, WHICH, MEMORY = 32768 };
enum { ASKED, CALLED, BYTES, INPUTS, STARTS, LIST, ROOM, WISHES, NUMBER, STATES, FIELDS };

static uint16_t work[MEMORY];
static uint64_t asked[FIELDS];
static uint8_t *bytes, *inputs, *starts, *out, *places;
static uint32_t *list, *trail, *queue;
static uint64_t *results;

static void *lent(size_t size) {
    void *room = calloc(size + 8, 1);
    if (!room) exit(3);
    return room;
}

static void *taken(size_t size) {
    void *room = lent(size);
    if (size && fread(room, size, 1, stdin) != 1) exit(2);
    return room;
}

static uint64_t which(void) {
    return (uint64_t)!!deltawobble_translate << TRANSLATE | (uint64_t)!!deltawobble_stretch << STRETCH |
           (uint64_t)!!deltawobble_batch << BATCH | (uint64_t)!!deltawobble_verilog << VERILOG |
           (uint64_t)!!deltawobble_run << RUN | (uint64_t)!!deltawobble_check << CHECK | (uint64_t)!!deltawobble_back << BACK |
           (uint64_t)!!deltawobble_lanes << LANES | (uint64_t)!!deltawobble_never << NEVER |
           (uint64_t)!!deltawobble_make << MAKE;
}

static uint64_t called(void) {
    size_t size = asked[BYTES], room = asked[ROOM];
    bool lean = asked[WISHES] & 1, plain = asked[WISHES] & 2, card = asked[WISHES] & 4;
    switch (asked[CALLED]) {
    case TRANSLATE: return deltawobble_translate(bytes, size, out, room, work, MEMORY, lean, plain, card);
    case STRETCH: return deltawobble_stretch(bytes, size, asked[NUMBER]);
    case BATCH: return deltawobble_batch(bytes, size, list, asked[LIST], out, room, results, asked[LIST], work, MEMORY, lean, plain, card);
    case VERILOG: return deltawobble_verilog(bytes, size, out, room, work, MEMORY);
    case RUN: return deltawobble_run(bytes, size, inputs, asked[INPUTS], starts, asked[STARTS], out, room, work, MEMORY, asked[NUMBER]);
    case CHECK: return deltawobble_check(bytes, size, work, MEMORY, lean);
    case BACK: return deltawobble_back(bytes, size, out, room, work, MEMORY, lean);
    case LANES: return deltawobble_lanes(bytes, size, (uint16_t *)inputs, asked[INPUTS] / 2, (uint16_t *)starts, asked[STARTS] / 2,
                                         (uint16_t *)out, room / 2, work, MEMORY, asked[NUMBER]);
    case NEVER: return deltawobble_never(bytes, size, starts, asked[STARTS], trail, asked[STATES], queue, asked[STATES], out, room, work, MEMORY,
                                         asked[NUMBER]);
    case MAKE: return deltawobble_make(bytes, size, out, room, (uint16_t *)places, asked[NUMBER], work, MEMORY);
    default: return which();
    }
}

static uint64_t written(uint64_t word) {
    uint64_t wrote = word >> 32 ? 0 : asked[CALLED] == LANES ? 2 * word : word;
    if (asked[CALLED] == NEVER) wrote = word >> 32 == 40 ? asked[ROOM] : 0;
    return wrote > asked[ROOM] ? asked[ROOM] : wrote;
}

static void put(const void *from, size_t size) {
    if (size && fwrite(from, size, 1, stdout) != 1) exit(2);
}

int main(void) {
    while (fread(asked, sizeof asked, 1, stdin) == 1) {
        bytes = taken(asked[BYTES]);
        inputs = taken(asked[INPUTS]);
        starts = taken(asked[STARTS]);
        list = taken(4 * asked[LIST]);
        out = lent(asked[ROOM]);
        results = lent(8 * asked[LIST]);
        trail = lent(4 * asked[STATES]);
        queue = lent(4 * asked[STATES]);
        size_t listed = asked[CALLED] == MAKE ? 2 * asked[NUMBER] : 0;
        places = memset(lent(listed), 0xFF, listed);
        uint64_t word = called(), wrote = written(word);
        uint64_t head[] = {asked[ASKED], word, wrote, asked[CALLED] == LANES ? asked[STARTS] : listed};
        put(head, sizeof head);
        put(out, wrote);
        put(asked[CALLED] == LANES ? starts : places, head[3]);
        put(results, 8 * asked[LIST]);
        if (fflush(stdout)) return 2;
        free(bytes), free(inputs), free(starts), free(list), free(out), free(results), free(trail), free(queue), free(places);
    }
    return 0;
}
