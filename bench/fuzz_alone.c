/* A small fuzzer for machines where libFuzzer cannot run the archive's processor: changes inputs at
   random and keeps those whose answers are new. Usage: fuzz_alone SECONDS SEED FILE.. */
#include <stdint.h>
#include <stdio.h>
#include <stdlib.h>
#include <string.h>
#include <time.h>

enum { SEEN = 1 << 14, MOST = 16400, KEPT = 4096 };
extern uint8_t seen[SEEN];
int LLVMFuzzerTestOneInput(const uint8_t *data, size_t size);

/* bytes that records begin with, by the target */
extern const uint8_t kinds[];
extern const size_t kinds_count;
static struct { uint8_t *data; size_t size; } kept[KEPT];
static size_t count;
static uint8_t known[SEEN];
static uint64_t state;

static uint64_t draw(uint64_t below) {
    state ^= state << 13;
    state ^= state >> 7;
    state ^= state << 17;
    return state % below;
}

/* Whether the last input's answers hold anything new. */
static int is_new(void) {
    int fresh = 0;
    for (int i = 0; i < SEEN; i++)
        if (seen[i] && !known[i]) known[i] = 1, fresh = 1;
    memset(seen, 0, SEEN);
    return fresh;
}

static void keep(const uint8_t *data, size_t size) {
    size_t at = count < KEPT ? count++ : draw(KEPT);
    free(kept[at].data);
    kept[at].data = malloc(size ? size : 1);
    kept[at].size = size;
    memcpy(kept[at].data, data, size);
}

static size_t change(uint8_t *data, size_t size) {
    size_t at = draw(size + 1), other = draw(count), from, length;
    uint8_t byte = draw(3) ? (draw(2) ? kinds[draw(kinds_count)] : draw(6)) : draw(256);
    switch (draw(7)) {
    case 0: if (at < size) data[at] ^= 1 << draw(8); break;
    case 1: case 2: if (at < size) data[at] = byte; break;
    case 3:
        if (size < MOST) memmove(data + at + 1, data + at, size - at), data[at] = byte, size++;
        break;
    case 4: if (at < size) memmove(data + at, data + at + 1, size - at - 1), size--; break;
    case 5: if (draw(8) == 0) size = at; break;
    default: /* a piece of another input */
        if (kept[other].size == 0) break;
        from = draw(kept[other].size), length = draw(kept[other].size - from) % 64;
        if (size + length > MOST) break;
        memmove(data + at + length, data + at, size - at);
        memcpy(data + at, kept[other].data + from, length);
        size += length;
    }
    return size;
}

int main(int words, char **word) {
    static uint8_t data[2 * MOST];
    if (words < 4) return 2;
    time_t end = time(0) + atol(word[1]);
    state = strtoull(word[2], 0, 10) * 2 + 0x9E3779B97F4A7C15u;
    for (int i = 3; i < words; i++) {
        FILE *file = fopen(word[i], "rb");
        if (!file) return 2;
        size_t size = fread(data, 1, MOST, file);
        fclose(file);
        LLVMFuzzerTestOneInput(data, size);
        is_new();
        keep(data, size);
    }
    uint64_t runs = 0;
    size_t first = count;
    while (time(0) < end) {
        size_t pick = draw(count), size = kept[pick].size;
        memcpy(data, kept[pick].data, size);
        for (uint64_t times = 1 + draw(4); times; times--) size = change(data, size);
        LLVMFuzzerTestOneInput(data, size);
        runs++;
        if (is_new()) keep(data, size);
    }
    int marks = 0;
    for (int i = 0; i < SEEN; i++) marks += known[i];
    printf("inputs %llu, kept %zu beside %zu seeds, marks %d\n", (unsigned long long)runs,
           count - first, first, marks);
    return 0;
}
