/* stack SHEET ..: how much stack the library takes. Each function runs on a stack of its own that was painted before, over the
   sheets given and their lines; what is no longer painted was used. Exit status 1 if it is more than the header's
   STAPLEHORN_STACK, or less than a third of it (then the header frightens for nothing). */
#include <stdio.h>
#include <string.h>
#include <sys/mman.h>
#include <ucontext.h>

#include "staplehorn.h"

enum { STACK = 1 << 17, PAINT = 0xA5, MOST = 1 << 17 };

static uint8_t *stack;
static ucontext_t here, there;
static uint8_t sheet[MOST], room[STAPLEHORN_REPORT_ROOM];
static uint16_t starts[4096];
static size_t sheet_length;
static const uint8_t *text;
static size_t text_length;
static size_t most;

static void judge(void) {
    uint32_t answer[STAPLEHORN_ANSWER_FIELDS];
    staplehorn_judge(sheet, sheet_length, starts, 4096, answer);
}

static void report(void) {
    size_t length;
    staplehorn_report(sheet, sheet_length, room, sizeof room, &length);
}

static void reason(void) {
    size_t column;
    staplehorn_statement_reason(text, text_length, &column);
}

static void canonical(void) {
    size_t length;
    staplehorn_statement_canonical(text, text_length, room, STAPLEHORN_STATEMENT_ROOM, &length);
}

static void words(void) {
    uint32_t fields[STAPLEHORN_INSTRUCTION_FIELDS], word, k, place[STAPLEHORN_PLACE_FIELDS], holder[STAPLEHORN_HOLDER_FIELDS];
    uint64_t shared[STAPLEHORN_SHARED_FIELDS], wide;
    staplehorn_instruction_decode(0, 0, 0, 0x08100010, fields);
    staplehorn_instruction_encode(0, 0, 0, fields, &word);
    staplehorn_instruction_judge(0, 0, 0, word);
    staplehorn_instruction_listed(0, 0, 0, fields);
    staplehorn_instruction_k(0, 0, &k);
    staplehorn_shared_decode(0x0000400800100000, shared);
    staplehorn_shared_encode(shared, &wide);
    staplehorn_request(staplehorn_version());
    staplehorn_fragment_place(STAPLEHORN_MATRIX_A, 31, 7, place);
    staplehorn_fragment_holder(STAPLEHORN_MATRIX_A, 15, 15, holder);
}

/* Runs a function on the painted stack, and keeps the most that any took under its name. */
static void measure(void (*function)(void), size_t *used) {
    memset(stack, PAINT, STACK);
    getcontext(&there);
    there.uc_stack.ss_sp = stack;
    there.uc_stack.ss_size = STACK;
    there.uc_link = &here;
    makecontext(&there, function, 0);
    swapcontext(&here, &there);
    size_t clean = 0;
    while (clean < STACK && stack[clean] == PAINT) ++clean;
    if (STACK - clean > *used) *used = STACK - clean;
    if (*used > most) most = *used;
}

static size_t judging, reporting, reading, writing, others;

static void whole(void) {
    measure(judge, &judging);
    measure(report, &reporting);
}

static void statements(void) {
    for (size_t i = 0; i < sheet_length; i += text_length + 1) {
        text = sheet + i + 2;
        const uint8_t *end = memchr(sheet + i, '\n', sheet_length - i);
        text_length = (size_t)((end == NULL ? sheet + sheet_length : end) - text);
        if (end == NULL || end < text) break;
        measure(reason, &reading);
        measure(canonical, &writing);
        text_length += 2;
    }
}

int main(int argc, char **argv) {
    stack = mmap(NULL, STACK, PROT_READ | PROT_WRITE, MAP_PRIVATE | MAP_ANONYMOUS, -1, 0);
    if (stack == MAP_FAILED) return 2;
    for (int i = 1; i < argc; ++i) {
        FILE *file = fopen(argv[i], "rb");
        if (file == NULL) return 2;
        sheet_length = fread(sheet, 1, sizeof sheet, file);
        fclose(file);
        whole();
        if (sheet_length < 4096) statements();
    }
    measure(words, &others);
    printf("stack: judge %zu, report %zu, statement_reason %zu, statement_canonical %zu, others %zu; the header says %d\n", judging,
           reporting, reading, writing, others, STAPLEHORN_STACK);
    return most > STAPLEHORN_STACK || most < STAPLEHORN_STACK / 3;
}
