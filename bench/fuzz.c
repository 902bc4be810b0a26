/* The fuzz target on translations: bytes choose netlist, kinds, profile, room and memory, the rest is the sheet.
   What document 01 says of any call is checked. */
#include "fuzz.h"

uint64_t deltawobble_translate(const uint8_t *sheet, size_t sheet_len, uint8_t *out, size_t out_len,
                               uint16_t *work, size_t work_len, bool lean, bool plain, bool card);
uint64_t deltawobble_stretch(const uint8_t *sheet, size_t sheet_len, size_t node);

enum { ALWAYS_ENOUGH = 57728, PLAIN_ENOUGH = 41344 };

/* the bytes that fuzz_alone.c puts in */
const uint8_t kinds[] = {1, 2, 3, 4, 0x11, 0x12, 0x13, 0x14, 0x15, 0x16, 0x17, 0x18, 0x19, 0x1A, 0x1B, 0x31};
const size_t kinds_count = sizeof kinds;

/* The bytes of a record, by its kind. */
static size_t size_of(int kind) {
    static const uint8_t sizes[] = {3, 4, 5, 3, 5, 6};
    return kind >= 0x21 && kind <= 0x26 ? sizes[kind - 0x21] : 0;
}

static void mark_answer(uint32_t number, uint32_t value, bool lean, bool plain, const uint8_t *out) {
    uint32_t size = 0;
    while (value >> size) size++;
    tally(number);
    mark((uint32_t)plain << 24 | number << 8 | size << 1 | lean);
    if (number) return;
    /* the parts and record kinds that follow each other in the netlist */
    uint32_t before = 0;
    for (uint32_t at = 0; at < value;) {
        uint32_t kind = out[at], this = kind == 0x22 || kind == 0x26 ? 8 * kind + out[at + 1] : kind;
        mark(1u << 25 | before << 12 | this << 1 | lean);
        before = this;
        at += size_of(kind);
    }
}

/* Elements in the kinds asked for, wires and pins in this order, whole records, nothing else; an element's
   node is one of at most 2,048. */
static bool is_netlist(const uint8_t *out, size_t length, bool plain) {
    size_t at = 0;
    int order = 0;
    while (at < length) {
        int kind = out[at], rank = kind == 0x23 ? 2 : kind == 0x24 ? 3 : 1;
        bool element = rank == 1, part = kind == 0x22 || kind == 0x26;
        size_t size = size_of(kind);
        if (size == 0 || size > length - at || rank < order) return false;
        if (element && plain != (kind <= 0x22)) return false;
        if (part && out[at + 1] > 6) return false;
        if (element && !plain && out[at + size - 1] > 7) return false;
        order = rank;
        at += size;
    }
    return at == length;
}

/* Wires by rising target, and none into a point but from its own output. */
static bool is_lean(const uint8_t *out, size_t length) {
    static uint8_t point_at[1 << 16];
    int last = -1;
    bool good = true;
    for (int pass = 0; pass < 2; pass++)
        for (size_t at = 0; at < length;) {
            int kind = out[at], number = out[at + 1] | out[at + 2] << 8;
            if (kind == 0x21 || kind == 0x25) point_at[number] = pass == 0;
            if (kind == 0x23 && pass == 0) {
                int to = out[at + 3] | out[at + 4] << 8;
                if (to <= last || (point_at[to] && number != to + 1)) good = false;
                last = to;
            }
            at += size_of(kind);
        }
    return good;
}

/* One call with everything that holds of any call; a netlist's length, or 0. */
static uint64_t asked(const uint8_t *sheet, size_t length, size_t room, size_t numbers, bool lean, bool plain, bool card) {
    static unsigned calls;
    bool end[3] = {calls & 1, calls >> 1 & 1, calls >> 2 & 1};
    calls++;
    uint8_t *lent = slice(0, length, end[0]), *out = slice(1, room, end[1]);
    uint16_t *work = (uint16_t *)slice(2, 2 * numbers, end[2]);
    memcpy(lent, sheet, length);
    uint64_t answer = deltawobble_translate(lent, length, out, room, work, numbers, lean, plain, card);
    uint32_t number = answer >> 32 & 255, value = (uint32_t)answer, wanted = answer >> 40 & 4095, found = answer >> 52;
    DEMAND(number <= 17 || (card && number >= 27 && number <= 29));
    DEMAND(number < 27 || (number == 27 ? value == 0 : value < 8192));
    DEMAND(number == 12 ? wanted != found && wanted <= 256 && found < 256 : wanted == 0 && found == 0);
    DEMAND((number == 1) == (numbers < CLEARED));
    DEMAND(cleared(work, numbers, number));
    DEMAND(number || value <= room);
    size_t written = number ? 0 : value;
    DEMAND(all(out + written, 0xA5, room - written));
    DEMAND(number || (value > 0 && is_netlist(out, value, plain)));
    DEMAND(number || !lean || is_lean(out, value));
    DEMAND(memcmp(lent, sheet, length) == 0);
    DEMAND(guarded(lent, length, end[0]) && guarded(out, room, end[1]) && guarded(work, 2 * numbers, end[2]));
    DEMAND(number != 17 || (value > room && value <= (plain ? PLAIN_ENOUGH : ALWAYS_ENOUGH)));
    DEMAND(number < 3 || number > 9 || value <= length);
    DEMAND((number != 1 && number != 2 && number != 16) || value == 0);
    if (number != 1) {
        uint64_t stretch = deltawobble_stretch(lent, length, number >= 10 && number <= 15 ? value : 0);
        uint32_t start = stretch >> 32, size = (uint32_t)stretch;
        DEMAND((size == 0) == (number >= 2 && number <= 9));
        DEMAND(size == 0 ? start == 0 : (uint64_t)start + size <= length);
        DEMAND(deltawobble_stretch(lent, length, 65536) == 0 && deltawobble_stretch(lent, length, SIZE_MAX) == 0);
    }
    mark_answer(number, value, lean, plain, out);
    return answer;
}

static uint64_t call(const uint8_t *sheet, size_t length, size_t room, size_t numbers, bool lean, bool plain) {
    return asked(sheet, length, room, numbers, lean, plain, false);
}

/* Both netlists of a sheet in one of the kinds, each in just its room and in one byte less; the full one's
   length, or its refusal. */
static uint64_t both(const uint8_t *sheet, size_t length, bool plain) {
    uint64_t full = call(sheet, length, ALWAYS_ENOUGH, CLEARED, false, plain);
    uint64_t less = call(sheet, length, ALWAYS_ENOUGH, CLEARED, true, plain);
    if (full >> 32) {
        DEMAND(full == less && (full >> 32 & 255) != 17);
    } else {
        DEMAND(less >> 32 == 0 && less <= full);
        DEMAND(call(sheet, length, full, CLEARED, false, plain) == full);
        DEMAND(call(sheet, length, full - 1, CLEARED, false, plain) == (17ull << 32 | full));
        DEMAND(call(sheet, length, less, CLEARED, true, plain) == less);
        DEMAND(call(sheet, length, less - 1, CLEARED, true, plain) == (17ull << 32 | less));
    }
    return full;
}

int LLVMFuzzerTestOneInput(const uint8_t *data, size_t size) {
    if (size < 3) return 0;
    bool lean = data[0] & 1, plain = data[0] >> 4 & 1, card = data[0] >> 5 & 1;
    size_t numbers = memories[data[0] >> 1 & 7], room = data[1] | (size_t)data[2] << 8;
    const uint8_t *sheet = data + 3;
    size_t length = size - 3;
    asked(sheet, length, room % (ALWAYS_ENOUGH + 1), numbers, lean, plain, card);
    uint64_t nodes = both(sheet, length, false), kinds = both(sheet, length, true);
    DEMAND(nodes >> 32 ? kinds == nodes : kinds >> 32 == 0 && kinds < nodes);
    return 0;
}
