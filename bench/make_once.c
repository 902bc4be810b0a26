/* One call of `make` on a text, or one of `translate` on a sheet, for counting instructions: make_once 1 make|translate FILE. With 0 for 1 it
   does all but the call. */
#include <stdbool.h>
#include <stdint.h>
#include <stdio.h>
#include <string.h>

uint64_t deltawobble_make(const uint8_t *text, size_t text_len, uint8_t *out, size_t out_len, uint16_t *places, size_t places_len,
                          uint16_t *work, size_t work_len);
uint64_t deltawobble_translate(const uint8_t *sheet, size_t sheet_len, uint8_t *out, size_t out_len, uint16_t *work, size_t work_len,
                               bool lean, bool plain, bool card);

static uint8_t given[65535], out[65536];
static uint16_t places[2048], work[32768];

int main(int count, char **words) {
    if (count != 4) return 2;
    FILE *file = fopen(words[3], "rb");
    if (!file) return 2;
    size_t length = fread(given, 1, sizeof given, file);
    fclose(file);
    if (words[1][0] != '1') return 0;
    uint64_t answer = strcmp(words[2], "make") == 0
        ? deltawobble_make(given, length, out, sizeof out, places, 2048, work, 32768)
        : deltawobble_translate(given, length, out, sizeof out, work, 32768, false, false, false);
    return answer >> 32 != 0;
}
