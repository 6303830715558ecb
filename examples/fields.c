/* fields OPCODE WORD: what a descriptor word says, from C (bin/describe says more).
   OPCODE is f16, tf32, f8f6f4 or i8, with .ws and .sp behind it where they stand, or `shared`. WORD is a number as in a
   sheet, of at most 100 bytes.
   Exit status: 0 the word is good, 1 refused, 2 a wrong command line. */
#include <inttypes.h>
#include <stdio.h>
#include <stdlib.h>
#include <string.h>

#include "staplehorn.h"

static const char *const INSTRUCTION[STAPLEHORN_INSTRUCTION_FIELDS] = {
    "selector", "sparse",   "saturate",    "dtype",       "atype", "btype", "negate A",
    "negate B", "transpose A", "transpose B", "N",     "M",     "max shift",
};
static const char *const SHARED[STAPLEHORN_SHARED_FIELDS] = {"start", "leading", "stride", "base", "mode", "swizzle"};
static const char *const KINDS[4] = {"f16", "tf32", "f8f6f4", "i8"};

/* The opcode's numbers, or kind 4, which every function refuses. */
static void opcode(const char *text, uint32_t *kind, uint32_t *ws, uint32_t *sp) {
    *ws = *sp = 0;
    for (*kind = 0; *kind < 4; ++*kind) {
        size_t n = strlen(KINDS[*kind]);
        if (strncmp(text, KINDS[*kind], n) != 0) continue;
        const char *rest = text + n;
        if (strncmp(rest, ".ws", 3) == 0) *ws = 1, rest += 3;
        if (strncmp(rest, ".sp", 3) == 0) *sp = 1, rest += 3;
        if (*rest == '\0') return;
    }
}

static int shared(uint64_t word) {
    uint64_t fields[STAPLEHORN_SHARED_FIELDS];
    uint32_t reason = staplehorn_shared_decode(word, fields);
    printf("reason %" PRIu32 "\n", reason);
    for (int i = 0; reason == 0 && i < STAPLEHORN_SHARED_FIELDS; ++i) printf("%s %" PRIu64 "\n", SHARED[i], fields[i]);
    return reason != 0;
}

static int instruction(const char *text, uint64_t word) {
    uint32_t fields[STAPLEHORN_INSTRUCTION_FIELDS], kind, ws, sp, k;
    opcode(text, &kind, &ws, &sp);
    if (kind == 4 || word > UINT32_MAX) return 2;
    uint32_t reason = staplehorn_instruction_judge(kind, ws, sp, (uint32_t)word);
    printf("reason %" PRIu32 "\n", reason);
    if (staplehorn_instruction_decode(kind, ws, sp, (uint32_t)word, fields) != 0) return 1;
    for (int i = 0; i < STAPLEHORN_INSTRUCTION_FIELDS; ++i) printf("%s %" PRIu32 "\n", INSTRUCTION[i], fields[i]);
    if (staplehorn_instruction_k(kind, sp, &k) == 0) printf("K %" PRIu32 "\n", k);
    return reason != 0;
}

/* The value of a number: the library reads it in a mov, and the canonical text has its decimals. Returns 0 if it is none. */
static int number(const char *text, uint64_t *value) {
    char statement[128];
    uint8_t room[STAPLEHORN_STATEMENT_ROOM + 1];
    size_t length;
    if (text[strspn(text, "0123456789abcdefABCDEFxXU")] != '\0' || strlen(text) > 100) return 0;
    int written = snprintf(statement, sizeof statement, "mov.b64 x, %s;", text);
    if (staplehorn_statement_canonical((const uint8_t *)statement, (size_t)written, room, STAPLEHORN_STATEMENT_ROOM, &length) != 0) return 0;
    room[length] = '\0';
    *value = strtoull((const char *)room + strlen("mov.b64 x, "), NULL, 10);
    return 1;
}

int main(int argc, char **argv) {
    uint64_t word;
    int status = 2;
    if (argc == 3 && number(argv[2], &word)) status = strcmp(argv[1], "shared") == 0 ? shared(word) : instruction(argv[1], word);
    if (status == 2) fprintf(stderr, "usage: fields f16|tf32|f8f6f4|i8[.ws][.sp]|shared WORD\n");
    return status;
}
