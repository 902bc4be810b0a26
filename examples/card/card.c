/* Asks the proved translator for a sheet's lean netlist under the card's profile: reads the sheet from standard input. */
#include "../callers/deltawobble.h"
#include <stdio.h>

static uint8_t sheet[16385];
static uint8_t out[DELTAWOBBLE_ROOM];
static uint16_t work[DELTAWOBBLE_MEMORY];

int main(void) {
    size_t length = fread(sheet, 1, sizeof sheet, stdin);
    uint64_t answer = deltawobble_translate(sheet, length, out, sizeof out, work, DELTAWOBBLE_MEMORY, true, false, true);
    uint32_t number = answer >> 32 & 255, value = (uint32_t)answer;
    if (number) printf("refused %u %u\n", number, value);
    else printf("passes, %u bytes\n", value);
    return 0;
}
