/* never SHEET STARTS PIN: asks if output pin PIN of a sheet's lean netlist is ever 1, with a digit 0, 1 or 2 for each
   register; prints the refusal's number or 0, the count or place, how many parts, registers and input pins there are, and
   the seconds of the call, in the processor's own time. never SHEET verilog: prints the sheet's module. */
#include <stdio.h>
#include <stdlib.h>
#include <string.h>
#include <time.h>
#include "../examples/callers/deltawobble.h"

static uint8_t sheet[16385], starts[256], out[1 << 20];
static uint16_t work[32768];
static uint32_t trail[1 << 20], queue[1 << 20];

static double seconds(void) {
    struct timespec now;
    clock_gettime(CLOCK_PROCESS_CPUTIME_ID, &now);
    return now.tv_sec + now.tv_nsec * 1e-9;
}

/* the lean netlist's parts, registers and input pins: a pin that no element has as its output is one */
static void counts(size_t length, int found[3]) {
    static const int inputs[] = {0, 1, 2, 2, 2, 1, 0};
    static uint8_t is_output[8192];
    uint64_t end = deltawobble_translate(sheet, length, out, sizeof out, work, 32768, 1, 1, 0);
    if (end >> 32) return;
    for (size_t at = 0; at < end;) {
        uint8_t kind = out[at];
        if (kind == 0x21) is_output[out[at + 1] + 256 * out[at + 2] + 1] = 1, at += 3;
        else if (kind == 0x22) {
            found[0]++, found[1] += out[at + 1] == 1;
            is_output[out[at + 2] + 256 * out[at + 3] + inputs[out[at + 1]]] = 1, at += 4;
        } else if (kind == 0x23) at += 5;
        else found[2] += !is_output[out[at + 1] + 256 * out[at + 2]], at += 3;
    }
}

int main(int count, char **words) {
    FILE *file = count > 2 ? fopen(words[1], "rb") : 0;
    if (!file) return 2;
    size_t length = fread(sheet, 1, sizeof sheet, file);
    if (!strcmp(words[2], "verilog")) {
        uint64_t word = deltawobble_verilog(sheet, length, out, sizeof out, work, 32768);
        return word >> 32 || fwrite(out, 1, word, stdout) != word;
    }
    int found[3] = {0, 0, 0};
    counts(length, found);
    size_t registers = strlen(words[2]);
    for (size_t j = 0; j < registers; j++) starts[j] = words[2][j] - '0';
    size_t states = (size_t)1 << (found[1] > 20 ? 20 : found[1]);
    double start = seconds();
    uint64_t word = deltawobble_never(sheet, length, starts, registers, trail, states, queue, states, out, sizeof out,
                                      work, 32768, atoi(words[3]));
    printf("%u %u %d %d %d %f\n", (unsigned)(word >> 32 & 255), (unsigned)word, found[0], found[1], found[2], seconds() - start);
    return 0;
}
