/* The fuzz target on the call from a text to a sheet (docs/NOTATION.md): bytes choose memory, room, places and blanks behind the text,
   the rest is the text. What is demanded needs no other maker: a refusal changes neither output nor places; the memory is cleared; a
   sheet that is written is whole, each node's place is a word that such a node can stand at, and deltawobble_translate (which has a
   target of its own) reads it; with other room the answer is the same, or 17 or 37 with what is needed, and that does. */
#include "fuzz.h"

uint64_t deltawobble_translate(const uint8_t *sheet, size_t sheet_len, uint8_t *out, size_t out_len,
                               uint16_t *work, size_t work_len, bool lean, bool plain, bool card);
uint64_t deltawobble_make(const uint8_t *text, size_t text_len, uint8_t *out, size_t out_len, uint16_t *places, size_t places_len,
                          uint16_t *work, size_t work_len);

/* the bytes that fuzz_alone.c puts in */
const uint8_t kinds[] = " \n=.:,()[]{}+*^->o1023nxyabmain_'funfixletintypeedition2tablezeroregandorxorinvone\xce\xbb";
const size_t kinds_count = sizeof kinds - 1;

/* a sheet has at most 1 + 256 records of 3 bytes for its types, and 2,048 of 3 bytes for its nodes */
enum { NODES = 2048, MOST_TEXT = 65535, MOST_SHEET = 1 + 3 * 256 + 3 * NODES, ROOM = 65536 };

static uint64_t refused(uint64_t number, uint64_t place) { return number << 32 | place; }

/* ---- a sheet, record by record */

static uint8_t kind_of[NODES], part_of[NODES];

static size_t record(uint8_t kind) {
    switch (kind) {
    case 0x14: case 0x16: case 0x18: case 0x1B: return 1;
    case 0x11: case 0x12: case 0x13: case 0x15: case 0x17: case 0x19: return 2;
    case 0x1A: return 3;
    }
    return 0;
}

static size_t subterms(uint8_t kind) {
    switch (kind) {
    case 0x14: case 0x16: case 0x17: case 0x18: case 0x1B: return 2;
    case 0x13: case 0x15: case 0x19: return 1;
    }
    return 0;
}

/* How many nodes a sheet has; its records are whole, and the term ends where the sheet does. */
static size_t nodes_of(const uint8_t *sheet, size_t length) {
    size_t at = length && sheet[0] == 0x31, count = 0, due = 1, types = 0;
    bool second = at;
    DEMAND(length > at && sheet[at] == 1);
    for (; at < length && sheet[at] <= 4; at += sheet[at] == 1 ? 1 : 3) types++;
    DEMAND(types <= 256);
    for (; at < length; at += record(sheet[at])) {
        DEMAND(due > 0 && count < NODES && record(sheet[at]) && at + record(sheet[at]) <= length);
        DEMAND(second || sheet[at] != 0x1B);
        kind_of[count] = sheet[at], part_of[count] = sheet[at] == 0x1A ? sheet[at + 1] : 0;
        due += subterms(sheet[at]) - 1;
        count++;
    }
    DEMAND(at == length && due == 0);
    return count;
}

/* ---- the words at which nodes stand */

static bool begins_name(uint8_t c) { return (c | 32) - 'a' < 26u || c == '_'; }

static bool in_name(uint8_t c) { return begins_name(c) || c - '0' < 10u || c == '\''; }

static bool is_word(const uint8_t *text, size_t length, size_t at, const char *word) {
    size_t size = strlen(word);
    return length - at >= size && memcmp(text + at, word, size) == 0 && (length - at == size || !in_name(text[at + size]));
}

/* A part stands at its own name, a pair at a comma, an application at a name, a part or a parenthesis; a function, a variable and a projection at a name, or at
   the parenthesis of a list; all else at a name. */
static bool stands_at(const uint8_t *text, size_t length, size_t at, size_t node) {
    static const char *const parts[] = {"zero", "reg", "and", "or", "xor", "inv", "one"};
    if (at >= length || (at > 0 && in_name(text[at]) && in_name(text[at - 1]))) return false;
    switch (kind_of[node]) {
    case 0x1A: return part_of[node] < 7 && is_word(text, length, at, parts[part_of[node]]);
    case 0x17: return text[at] == ',';
    case 0x11: case 0x12: case 0x13: case 0x14: case 0x15: case 0x16: case 0x18: return begins_name(text[at]) || text[at] == '(';
    }
    return begins_name(text[at]);
}

/* ---- calls */

static uint8_t sheet[ROOM];
static uint16_t places[NODES];

struct lent { size_t room, places, memory; };

/* One call, held to an answer: the sheet and the places that the first call wrote, or nothing of either. */
static uint64_t call(const uint8_t *text, size_t length, struct lent lent, uint8_t *to, uint16_t *to_places) {
    static unsigned calls;
    bool end[4];
    for (int i = 0; i < 4; i++) end[i] = calls >> i & 1;
    calls++;
    uint8_t *own = slice(0, length, end[0]), *out = slice(1, lent.room, end[1]);
    uint16_t *list = (uint16_t *)slice(2, 2 * lent.places, end[2]), *work = (uint16_t *)slice(3, 2 * lent.memory, end[3]);
    memcpy(own, text, length);
    uint64_t answer = deltawobble_make(own, length, out, lent.room, list, lent.places, work, lent.memory);
    size_t written = answer >> 32 ? 0 : answer;
    DEMAND(written <= lent.room);
    size_t nodes = written ? nodes_of(out, written) : 0;
    DEMAND(nodes <= lent.places);
    DEMAND(all(out + written, 0xA5, lent.room - written) && all(list + nodes, 0xA5, 2 * (lent.places - nodes)));
    DEMAND(cleared(work, lent.memory, answer >> 32));
    DEMAND(memcmp(own, text, length) == 0);
    DEMAND(guarded(own, length, end[0]) && guarded(out, lent.room, end[1]));
    DEMAND(guarded(list, 2 * lent.places, end[2]) && guarded(work, 2 * lent.memory, end[3]));
    tally(answer >> 32);
    memcpy(to, out, written), memcpy(to_places, list, 2 * nodes);
    return answer;
}

/* A call with other room: the first answer, or what refuses it, in the order of the refusals. */
static void held(const uint8_t *text, size_t length, struct lent lent, uint64_t first, size_t nodes) {
    static uint8_t again[ROOM];
    static uint16_t again_places[NODES];
    uint64_t wanted = first;
    if (lent.memory < CLEARED) wanted = refused(1, 0);
    else if (first >> 32 == 0 && lent.room < first) wanted = refused(17, first);
    else if (first >> 32 == 0 && lent.places < nodes) wanted = refused(37, nodes);
    DEMAND(call(text, length, lent, again, again_places) == wanted);
    if (wanted >> 32 == 0) DEMAND(memcmp(again, sheet, first) == 0 && memcmp(again_places, places, 2 * nodes) == 0);
}

/* What is said of every refusal: which numbers there are, and where they stand. */
static void judge_refusal(const uint8_t *text, size_t length, uint64_t answer) {
    uint64_t number = answer >> 32, place = answer & 0xFFFFFFFF;
    DEMAND(number >= 30 && number <= 36);
    DEMAND((number == 30) == (length > MOST_TEXT));
    DEMAND(number != 30 || place == 0);
    DEMAND(place <= length);
    /* a word that is none, a sign and a clause's name stand in the text; only 32, 33 and 34 come at its end */
    DEMAND(place < length || number == 32 || number == 33 || number == 34 || number == 30);
    DEMAND(number != 36 || begins_name(text[place]));
    /* which byte is no word's says little: of 31 only how far the text went counts */
    uint32_t before = place ? text[place - 1] : 0, here = place < length ? text[place] : 0, size = 0;
    while (place >> size) size++;
    mark((uint32_t)number << 16 | (number == 31 ? size : before << 8 | here));
}

/* What is said of every sheet, and that it is read: 2 to 11 and 15 never come. */
static void judge_sheet(const uint8_t *text, size_t length, uint64_t size, size_t nodes) {
    static uint8_t net[57728];
    static uint16_t work[CLEARED];
    DEMAND(size <= MOST_SHEET && nodes > 0);
    for (size_t i = 0; i < nodes; i++) DEMAND(stands_at(text, length, places[i], i));
    uint64_t read = deltawobble_translate(sheet, size, net, sizeof net, work, CLEARED, false, false, false);
    uint32_t number = read >> 32 & 255;
    DEMAND(number == 0 || (number >= 12 && number <= 14) || number == 16);
    mark(1u << 24 | number << 8 | (nodes < 64 ? nodes : 64));
    for (size_t i = 0; i + 1 < nodes; i++)
        mark(1u << 25 | (uint32_t)kind_of[i] << 16 | (uint32_t)kind_of[i + 1] << 8 | part_of[i] << 4 | (places[i] < places[i + 1]));
}

static size_t near(uint8_t choice, size_t needed, size_t most) {
    switch (choice & 7) {
    case 0: return needed;
    case 1: return needed ? needed - 1 : 0;
    case 2: return needed < most ? needed + 1 : most;
    case 3: return 0;
    case 4: return (size_t)(choice >> 3) * most / 32;
    }
    return most;
}

int LLVMFuzzerTestOneInput(const uint8_t *data, size_t size) {
    static uint8_t text[MOST_TEXT + 512];
    static const size_t filled[] = {0, 0, 0, 0, 0, MOST_TEXT - 1, MOST_TEXT, MOST_TEXT + 1};
    if (size < 4 || size - 4 > sizeof text) return 0;
    size_t length = size - 4, to = data[3] >= 248 ? filled[data[3] & 7] : 0;
    memcpy(text, data + 4, length);
    /* of two texts one has no byte that no word has: 31 would be most of all answers */
    for (size_t i = 0; data[3] & 1 && i < length; i++)
        if (text[i] < ' ' || text[i] > '~' || strchr("!\"#$%&/;<?@\\`|~", text[i])) text[i] = kinds[text[i] % (kinds_count - 2)];
    if (to > length) memset(text + length, ' ', to - length), length = to;
    uint64_t first = call(text, length, (struct lent){ROOM, NODES, CLEARED}, sheet, places);
    size_t nodes = first >> 32 ? 0 : nodes_of(sheet, first);
    if (first >> 32) judge_refusal(text, length, first);
    else judge_sheet(text, length, first, nodes);
    size_t bytes = first >> 32 ? 40 : first;
    held(text, length, (struct lent){near(data[0], bytes, ROOM), near(data[1], nodes, NODES), memories[data[2] & 7]}, first, nodes);
    /* what 17 and 37 ask for does, and no less */
    held(text, length, (struct lent){bytes, nodes, CLEARED}, first, nodes);
    if (nodes) held(text, length, (struct lent){bytes - 1, nodes - 1, CLEARED}, first, nodes);
    if (nodes) held(text, length, (struct lent){bytes, nodes - 1, CLEARED}, first, nodes);
    return 0;
}
