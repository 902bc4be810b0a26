/* Stands in for the translator, to count the least that any must do: it reads the sheet once, byte by
   byte, writes out_len bytes (the caller lends the netlist's length) and clears 32,768 numbers. */
#include <stdbool.h>
#include <stdint.h>
#include <string.h>

static const uint8_t netlist[57728];

uint64_t deltawobble_translate(const uint8_t *sheet, size_t sheet_len, uint8_t *out, size_t out_len,
                               uint16_t *work, size_t work_len, bool lean, bool plain, bool card) {
    uint64_t sum = work_len + lean + plain + card;
    for (size_t i = 0; i < sheet_len; i++) sum += sheet[i];
    memcpy(out, netlist, out_len);
    memset(work, 0, 2 * 32768);
    return sum;
}
