/* Runs recorded traces, for counting and timing; linked with the proved translator or with trace_second.rs:
   trace_once run|lanes SHEET INPUTS REGISTERS OUTPUTS TICKS CALLS [WINDOW]
   `run` has one trace, `lanes` sixteen; INPUTS, REGISTERS and OUTPUTS are how many the circuit has. With WINDOW the ticks
   are run in windows of so many, each with the state that the last one left (`lanes` alone). CALLS 0 does all but the
   call, more than 1 prints the nanoseconds of the fastest time (with WINDOW the processor's own time, since what takes
   long is interrupted). Otherwise it prints, of each trace, a sum of the bits written. Trace k is drawn from the seed k + 1, so that lane 0 has the bits of `run`. */
#include <stdint.h>
#include <stdio.h>
#include <stdlib.h>
#include <string.h>
#include <time.h>

uint64_t deltawobble_run(const uint8_t *sheet, size_t sheet_len, const uint8_t *inputs, size_t inputs_len,
                         const uint8_t *starts, size_t starts_len, uint8_t *out, size_t out_len,
                         uint16_t *work, size_t work_len, uint16_t ticks);
uint64_t deltawobble_lanes(const uint8_t *sheet, size_t sheet_len, const uint16_t *inputs, size_t inputs_len,
                           uint16_t *state, size_t state_len, uint16_t *out, size_t out_len,
                           uint16_t *work, size_t work_len, uint16_t ticks);

enum { LANES = 16, REGISTERS = 1024 };
static uint8_t sheet[16385], starts[REGISTERS], *inputs, *out;
static uint16_t work[32768], states[REGISTERS], state[REGISTERS], *wide_inputs, *wide_out;
static size_t length, reads, registers, writes, ticks;

/* A bit for each trace. */
static uint16_t drawn(void) {
    static uint32_t seeds[LANES];
    uint16_t bits = 0;
    for (uint32_t k = 0; k < LANES; k++) {
        if (!seeds[k]) seeds[k] = k + 1;
        seeds[k] = seeds[k] * 1103515245 + 12345;
        bits |= (seeds[k] >> 16 & 1) << k;
    }
    return bits;
}

static void draw(void) {
    for (size_t i = 0; i < registers; i++) starts[i] = (states[i] = drawn()) & 1;
    for (size_t i = 0; i < reads * ticks; i++) inputs[i] = (wide_inputs[i] = drawn()) & 1;
}

static uint64_t run(void) {
    return deltawobble_run(sheet, length, inputs, reads * ticks, starts, registers, out, writes * ticks, work, 32768, ticks);
}

/* All ticks, window after window: the numbers written, or a refusal. */
static uint64_t lanes(size_t window) {
    uint64_t written = 0;
    size_t from = 0;
    do {
        size_t now = ticks - from < window ? ticks - from : window;
        uint64_t answer = deltawobble_lanes(sheet, length, wide_inputs + reads * from, reads * now, state, registers,
                                            wide_out + writes * from, writes * now, work, 32768, now);
        if (answer >> 32) return answer;
        written += answer;
        from += now;
    } while (from < ticks);
    return written;
}

static void tell(int count) {
    unsigned long sums[LANES] = {0};
    for (size_t i = 0; i < writes * ticks; i++)
        for (int k = 0; k < count; k++) sums[k] = sums[k] * 31 + (count == 1 ? out[i] : wide_out[i] >> k & 1);
    for (int k = 0; k < count; k++) printf("%lu%c", sums[k], k + 1 < count ? ' ' : '\n');
}

static double now(clockid_t clock) {
    struct timespec t;
    clock_gettime(clock, &t);
    return t.tv_sec * 1e9 + t.tv_nsec;
}

int main(int count, char **words) {
    if (count != 8 && count != 9) return 2;
    int wide = strcmp(words[1], "lanes") == 0;
    FILE *file = fopen(words[2], "rb");
    if (!file) return 2;
    length = fread(sheet, 1, sizeof sheet, file);
    fclose(file);
    reads = strtoul(words[3], 0, 10), registers = strtoul(words[4], 0, 10), writes = strtoul(words[5], 0, 10);
    ticks = strtoul(words[6], 0, 10);
    unsigned long calls = strtoul(words[7], 0, 10);
    size_t window = count == 9 ? strtoul(words[8], 0, 10) : 65535;
    inputs = malloc(reads * ticks + 1), wide_inputs = malloc(2 * reads * ticks + 2);
    out = calloc(writes * ticks + 1, 1), wide_out = calloc(writes * ticks + 1, 2);
    if (registers > REGISTERS || !inputs || !wide_inputs || !out || !wide_out) return 2;
    if (window < 1 || window > 65535 || (!wide && ticks > 65535)) return 2;
    draw();
    clockid_t clock = count == 9 ? CLOCK_PROCESS_CPUTIME_ID : CLOCK_MONOTONIC;
    double least = 1e18;
    for (unsigned long i = 0; i < calls; i++) {
        memcpy(state, states, sizeof state);
        double before = now(clock);
        uint64_t answer = wide ? lanes(window) : run();
        double took = now(clock) - before;
        if (answer != writes * ticks && calls == 1) {
            printf("refused %u %u\n", (unsigned)(answer >> 32 & 255), (unsigned)answer);
            return 1;
        }
        if (took < least) least = took;
    }
    if (calls > 1) printf("%.0f\n", least);
    else tell(wide ? LANES : 1);
    return 0;
}
