/* bounded TURNS SEED FILE..: the sheets in the files, each as it is and then mutated, and some random bytes, TURNS inputs in
   all. For the gate: the same inputs at every run. */
#include <stdio.h>
#include <stdlib.h>
#include <string.h>

#include "harness.h"

enum { LARGEST = 66000 };
static uint8_t bytes[LARGEST];
static uint64_t state;

static uint32_t below(uint32_t n) {
    state ^= state << 13, state ^= state >> 7, state ^= state << 17;
    return (uint32_t)(state >> 16) % n;
}

/* One change of some bytes: another byte, a bit, a byte left out, a part doubled, a part cut off. */
static size_t mutated(size_t n) {
    if (n < 2) return n;
    uint32_t at = below((uint32_t)n);
    switch (below(6)) {
    case 0: bytes[at] = (uint8_t)below(256); return n;
    case 1: bytes[at] ^= (uint8_t)(1u << below(8)); return n;
    case 2: bytes[at] = (uint8_t)" \t\n0123456789[]{},;+-*()._:$%abrtxBUX"[below(37)]; return n;
    case 3: memmove(bytes + at, bytes + at + 1, n - at - 1); return n - 1;
    case 4: {
        uint32_t part = 1 + below(64);
        if (at + part > n || n + part > LARGEST) return n;
        memmove(bytes + at + part, bytes + at, n - at);
        return n + part;
    }
    default: return below(8) ? n : at + 1;
    }
}

/* Random bytes, half of them behind a right first line. */
static size_t random_bytes(void) {
    static const char header[] = "sheet\t1\tsm_100a\n0\t";
    size_t n = below(400), from = below(2) ? sizeof header - 1 : 0;
    memcpy(bytes + 1, header, from);
    for (size_t i = 0; i < n; ++i) bytes[1 + from + i] = (uint8_t)(below(4) ? 32 + below(95) : below(256));
    return 1 + from + n;
}

int main(int argc, char **argv) {
    if (argc < 4) return 2;
    long turns = atol(argv[1]), done = 0;
    state = strtoull(argv[2], NULL, 10) * 2654435761u + 88172645463325252u;
    while (done < turns) {
        FILE *file = fopen(argv[3 + (done < argc - 3 ? (uint32_t)done : below((uint32_t)(argc - 3)))], "rb");
        if (file == NULL) return 2;
        bytes[0] = (uint8_t)below(256);
        size_t n = 1 + fread(bytes + 1, 1, LARGEST - 1, file);
        fclose(file);
        uint32_t changes = done < argc - 3 ? 0 : 1 + below(4);
        if (changes && below(8) == 0) n = random_bytes();
        for (uint32_t i = 0; i < changes; ++i) n = mutated(n);
        try_bytes(bytes, n);
        ++done;
    }
    printf("%ld inputs, no finding\n", done);
    return 0;
}
