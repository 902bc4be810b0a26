/* Calls the proved translator from C: prints P3's full and lean netlist, in plain kinds, in hex, or the refusal; then two windows of sixteen
   traces through a register, with the state that each leaves. */
#include "deltawobble.h"
#include <stdio.h>

static const uint8_t sheet[] = {0x01, 0x03, 0x00, 0x00, 0x04, 0x01, 0x00, 0x16, 0x15, 0x02,
                                0x14, 0x12, 0x00, 0x1A, 0x00, 0x00, 0x1A, 0x01, 0x01};
static const uint8_t a_register[] = {0x01, 0x03, 0x00, 0x00, 0x1A, 0x01, 0x01};
static uint8_t out[DELTAWOBBLE_ROOM];
static uint16_t work[DELTAWOBBLE_MEMORY];

static void show(const char *name, bool lean) {
    uint64_t answer = deltawobble_translate(sheet, sizeof sheet, out, sizeof out, work, DELTAWOBBLE_MEMORY, lean, true, false);
    uint32_t number = answer >> 32 & 255, value = (uint32_t)answer;
    if (number) {
        printf("%s refused %u %u\n", name, number, value);
        return;
    }
    printf("%s", name);
    for (uint32_t i = 0; i < value; i++) printf(" %02x", out[i]);
    printf("\n");
}

/* The state is lent, and left for the next window. */
static void run(const uint16_t *inputs, uint16_t ticks, uint16_t *state) {
    uint16_t shown[2];
    uint64_t answer = deltawobble_lanes(a_register, sizeof a_register, inputs, ticks, state, 1, shown, 2, work, DELTAWOBBLE_MEMORY, ticks);
    uint32_t number = answer >> 32 & 255, value = (uint32_t)answer;
    if (number) {
        printf("lanes refused %u %u\n", number, value);
        return;
    }
    printf("lanes");
    for (uint32_t i = 0; i < value; i++) printf(" %04x", shown[i]);
    printf(" state %04x\n", state[0]);
}

int main(void) {
    const uint16_t first[] = {0xAAAA, 0x5555}, then[] = {0x1234};
    uint16_t state = 0x00FF;
    show("full", false);
    show("lean", true);
    run(first, 2, &state);
    run(then, 1, &state);
    return 0;
}
