/* Calls a translator once on each sheet, for counting instructions; linked with the proved one, with
   second_once.rs or with limit_once.c: once 1 full|lean|plain|lean-plain|lean-card|batch|lengths ROOM FILE ROOM FILE ..
   `plain` is the full netlist in plain kinds, `lean-plain` the lean one, `lean-card` the lean one under the
   card's profile; `batch` has the full ones of all sheets by one call, of the proved translator alone;
   `lengths` prints the bytes of both netlists with nodes, 0 where refused. With 0 for 1 it does all but the
   calls: the words after it are the same then, so that looking at them is in no difference. */
#include <stdbool.h>
#include <stdint.h>
#include <stdio.h>
#include <stdlib.h>
#include <string.h>

uint64_t deltawobble_translate(const uint8_t *sheet, size_t sheet_len, uint8_t *out, size_t out_len,
                               uint16_t *work, size_t work_len, bool lean, bool plain, bool card);

uint64_t deltawobble_batch(const uint8_t *sheets, size_t sheets_len, const uint32_t *lengths, size_t lengths_len,
                           uint8_t *out, size_t out_len, uint64_t *results, size_t results_len,
                           uint16_t *work, size_t work_len, bool lean, bool plain, bool card) __attribute__((weak));

enum { MOST = 256 };
static uint8_t sheet[16385], out[57728];
static uint16_t work[32768];
static uint8_t sheets[MOST * 16385], outs[MOST * 57728];
static uint32_t lengths[MOST];
static uint64_t results[MOST];

static unsigned length_of(size_t length, size_t room, bool lean) {
    uint64_t answer = deltawobble_translate(sheet, length, out, room, work, 32768, lean, false, false);
    return answer >> 32 ? 0 : (unsigned)answer;
}

int main(int count, char **words) {
    if (count < 5 || count % 2 != 1 || count / 2 - 1 > MOST) return 2;
    /* the calls' frames then stand alike, whatever words and environment lie above them: copies of
       memory take more or fewer instructions by where they stand */
    _Alignas(64) volatile char ground = 0;
    bool called = words[1][0] == '1';
    bool lean = strncmp(words[2], "lean", 4) == 0, plain = strstr(words[2], "plain") != 0, card = strstr(words[2], "card") != 0;
    bool told = strcmp(words[2], "lengths") == 0, batched = strcmp(words[2], "batch") == 0;
    size_t all = 0, room_of_all = 0;
    for (int i = 3; i < count; i += 2) {
        size_t room = strtoul(words[i], 0, 10);
        FILE *file = fopen(words[i + 1], "rb");
        if (room > sizeof out || !file) return 2;
        size_t length = fread(sheet, 1, sizeof sheet, file);
        fclose(file);
        memcpy(sheets + all, sheet, length);
        lengths[i / 2 - 1] = length;
        all += length;
        room_of_all += room;
        if (told)
            printf("%u %u\n", length_of(length, room, false), length_of(length, room, true));
        else if (called && !batched)
            deltawobble_translate(sheet, length, out, room, work, 32768, lean, plain, card);
    }
    if (called && batched)
        deltawobble_batch(sheets, all, lengths, count / 2 - 1, outs, room_of_all, results, count / 2 - 1, work, 32768, false, false, false);
    return ground;
}
