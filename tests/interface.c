/* Every function of the header called from C, with answers that are known: a prototype or a field's place that is wrong
   shows here. Prints how many answers were right; exit status 1 if one is not. */
#include <stdio.h>
#include <string.h>

#include "staplehorn.h"

static int right, wrong;

static void is(uint64_t got, uint64_t want, const char *what) {
    if (got == want) {
        ++right;
        return;
    }
    ++wrong;
    printf("%s: %llu instead of %llu\n", what, (unsigned long long)got, (unsigned long long)want);
}

static void words(void) {
    uint32_t f[STAPLEHORN_INSTRUCTION_FIELDS], word = 7, k = 7;
    is(staplehorn_instruction_decode(0, 0, 0, 0x08100010, f), 0, "decode");
    is(f[STAPLEHORN_DTYPE], 1, "dtype");
    is(f[STAPLEHORN_N], 64, "N");
    is(f[STAPLEHORN_M], 128, "M");
    is(staplehorn_instruction_encode(0, 0, 0, f, &word), 0, "encode");
    is(word, 0x08100010, "word");
    is(staplehorn_instruction_listed(0, 0, 0, f), 0, "listed");
    is(staplehorn_instruction_judge(3, 0, 0, 0x080A00A0), STAPLEHORN_REASON_SHAPE_N, "judge, N");
    is(staplehorn_instruction_judge(0, 0, 0, 0x0C000020), STAPLEHORN_REASON_SHAPE_M, "judge, M, N and types");
    is(staplehorn_instruction_judge(0, 0, 0, 0x08000020), STAPLEHORN_REASON_SHAPE_N, "judge, N and types");
    is(staplehorn_instruction_judge(0, 0, 0, 0x08100020), STAPLEHORN_REASON_TYPES, "judge, types");
    /* N with .ws and .sp: 128 and not 256, in each kind; 256 with one of them */
    static const uint32_t types[4] = {0x10, 0x910, 0x10, 0x20};
    for (uint32_t kind = 0; kind < 4; ++kind) {
        is(staplehorn_instruction_judge(kind, 1, 1, 0x08200004 | types[kind]), 0, "judge, N 128 with .ws and .sp");
        is(staplehorn_instruction_judge(kind, 1, 1, 0x08400004 | types[kind]), STAPLEHORN_REASON_SHAPE_N, "judge, N 256 with .ws and .sp");
        is(staplehorn_instruction_judge(kind, 1, 0, 0x08400000 | types[kind]), 0, "judge, N 256 with .ws");
        is(staplehorn_instruction_judge(kind, 0, 1, 0x08400004 | types[kind]), 0, "judge, N 256 with .sp");
    }
    is(staplehorn_instruction_k(1, 1, &k), 0, "k");
    is(k, 16, "K");
    is(staplehorn_instruction_decode(4, 0, 0, 0x08100010, f), 12, "wrong kind");
    is(f[STAPLEHORN_N], 0, "zeros");
    /* each field by itself, in i8 with .ws and .sp: 1 in every field that may hold it */
    is(staplehorn_instruction_decode(3, 1, 1, 0x441184ADu, f), 0, "all fields");
    is(f[STAPLEHORN_SELECTOR], 1, "selector");
    is(f[STAPLEHORN_SPARSE], 1, "sparse");
    is(f[STAPLEHORN_SATURATE], 1, "saturate");
    is(f[STAPLEHORN_ATYPE], 1, "atype");
    is(f[STAPLEHORN_BTYPE], 1, "btype");
    is(f[STAPLEHORN_NEGATE_A] + f[STAPLEHORN_NEGATE_B], 0, "negate");
    is(f[STAPLEHORN_TRANSPOSE_A], 1, "transpose A");
    is(f[STAPLEHORN_TRANSPOSE_B], 1, "transpose B");
    is(f[STAPLEHORN_MAX_SHIFT], 1, "max shift");
}

static void shared(void) {
    uint64_t f[STAPLEHORN_SHARED_FIELDS], word = 7;
    is(staplehorn_shared_decode(0x2012400800100001, f), 0, "shared decode");
    is(f[STAPLEHORN_START], 16, "start");
    is(f[STAPLEHORN_LEADING], 256, "leading");
    is(f[STAPLEHORN_STRIDE], 128, "stride");
    is(f[STAPLEHORN_BASE], 1, "base");
    is(f[STAPLEHORN_MODE], 1, "mode");
    is(f[STAPLEHORN_SWIZZLE], 1, "swizzle");
    is(staplehorn_shared_encode(f, &word), 0, "shared encode");
    is(word, 0x2012400800100001, "shared word");
    is(staplehorn_request(512), 0, "request");
    is(staplehorn_request(96), 9, "request of 96");
}

/* Where an element stands, and the way back. */
static void stands(uint32_t matrix, uint32_t thread, uint32_t element, uint32_t row, uint32_t column) {
    uint32_t place[STAPLEHORN_PLACE_FIELDS] = {77, 77}, holder[STAPLEHORN_HOLDER_FIELDS] = {77, 77};
    is(staplehorn_fragment_place(matrix, thread, element, place), 0, "place");
    is(place[STAPLEHORN_PLACE_ROW], row, "row");
    is(place[STAPLEHORN_PLACE_COLUMN], column, "column of a place");
    is(staplehorn_fragment_holder(matrix, row, column, holder), 0, "holder");
    is(holder[STAPLEHORN_HOLDER_THREAD], thread, "thread");
    is(holder[STAPLEHORN_HOLDER_ELEMENT], element, "element");
}

/* A refusal: 22, and both places are 0, whatever they held. */
static void outside(uint32_t (*function)(uint32_t, uint32_t, uint32_t, uint32_t[2]), uint32_t matrix, uint32_t first, uint32_t second) {
    uint32_t out[3] = {77, 77, 77};
    is(function(matrix, first, second, out), STAPLEHORN_REASON_FRAGMENT, "outside");
    is(out[0], 0, "first place on a refusal");
    is(out[1], 0, "second place on a refusal");
    is(out[2], 77, "past the places on a refusal");
}

static void fragments(void) {
    /* worked out by hand: an element of each pair of registers, and the last of each matrix */
    stands(STAPLEHORN_MATRIX_A, 0, 0, 0, 0);
    stands(STAPLEHORN_MATRIX_A, 5, 1, 1, 3);
    stands(STAPLEHORN_MATRIX_A, 5, 3, 9, 3);
    stands(STAPLEHORN_MATRIX_A, 5, 4, 1, 10);
    stands(STAPLEHORN_MATRIX_A, 6, 6, 9, 12);
    stands(STAPLEHORN_MATRIX_A, 31, 7, 15, 15);
    stands(STAPLEHORN_MATRIX_B, 0, 0, 0, 0);
    stands(STAPLEHORN_MATRIX_B, 7, 1, 7, 1);
    stands(STAPLEHORN_MATRIX_B, 14, 2, 12, 3);
    stands(STAPLEHORN_MATRIX_B, 31, 3, 15, 7);
    stands(STAPLEHORN_MATRIX_C, 0, 0, 0, 0);
    stands(STAPLEHORN_MATRIX_C, 7, 1, 1, 7);
    stands(STAPLEHORN_MATRIX_C, 14, 2, 11, 4);
    stands(STAPLEHORN_MATRIX_C, 31, 3, 15, 7);
    /* each limit: the last number was good, one more is not */
    static const uint32_t elements[3] = {8, 4, 4}, columns[3] = {16, 8, 8};
    for (uint32_t matrix = 0; matrix < 3; ++matrix) {
        outside(staplehorn_fragment_place, matrix, 32, 0);
        outside(staplehorn_fragment_place, matrix, 0, elements[matrix]);
        outside(staplehorn_fragment_place, matrix, UINT32_MAX, UINT32_MAX);
        outside(staplehorn_fragment_holder, matrix, 16, 0);
        outside(staplehorn_fragment_holder, matrix, 0, columns[matrix]);
        outside(staplehorn_fragment_holder, matrix, UINT32_MAX, UINT32_MAX);
        /* every element is found where it stands, and every place is some element's */
        uint32_t seen[16][16] = {{0}}, wrong_way = 0, once = 0;
        for (uint32_t thread = 0; thread < 32; ++thread)
            for (uint32_t element = 0; element < elements[matrix]; ++element) {
                uint32_t place[STAPLEHORN_PLACE_FIELDS], holder[STAPLEHORN_HOLDER_FIELDS];
                wrong_way += staplehorn_fragment_place(matrix, thread, element, place) != 0;
                wrong_way += staplehorn_fragment_holder(matrix, place[0], place[1], holder) != 0;
                wrong_way += holder[0] != thread || holder[1] != element;
                if (place[0] < 16 && place[1] < columns[matrix]) once += seen[place[0]][place[1]]++ == 0;
            }
        is(wrong_way, 0, "there and back");
        is(once, 16 * columns[matrix], "every place once");
    }
    outside(staplehorn_fragment_place, 3, 0, 0);
    outside(staplehorn_fragment_holder, 3, 0, 0);
    outside(staplehorn_fragment_place, UINT32_MAX, 0, 0);
    outside(staplehorn_fragment_holder, UINT32_MAX, 0, 0);
}

/* The reason of a text, and its column. */
static void alone(const char *text, uint32_t reason, size_t column) {
    size_t at = 7;
    is(staplehorn_statement_reason((const uint8_t *)text, strlen(text), &at), reason, text);
    is(at, column, text);
}

static void columns(void) {
    char text[4098];
    memset(text, ' ', sizeof text);
    memcpy(text, "mov.b32 x,", 10);
    memcpy(text + 4094, "64;", 4);
    alone("exit;", 0, 0);
    alone("", 3, 1);
    alone(" exit;", 3, 1);
    alone("exit", 3, 5);
    alone("exit  ", 3, 7);
    alone("exit; ", 3, 6);
    alone("exit;;", 3, 6);
    alone("mov.b32 x 1;", 3, 11);
    alone("mov.b32 x, 0x1g;", 3, 12);
    alone("mov.b32 x,  4294967296;", 4, 13);
    alone("mov.b32 x, 4294967296", 3, 22);
    alone("tcgen05.ld.sync.aligned.32x32b.x2.b32 {r}, [t];", 5, 1);
    /* 4,097 bytes that would read: one past the end */
    alone(text, 3, 4098);
}

static void statements(void) {
    const char *text = "mov.b32  x ,0x10 ;";
    uint8_t room[STAPLEHORN_STATEMENT_ROOM];
    size_t length = 7;
    alone(text, 0, 0);
    is(staplehorn_statement_canonical((const uint8_t *)text, strlen(text), room, sizeof room, &length), 0, "canonical");
    is(length, 14, "length");
    is((uint64_t)memcmp(room, "mov.b32 x, 16;", 14), 0, "text");
    is(staplehorn_statement_canonical((const uint8_t *)text, strlen(text), room, 13, &length), 19, "room of 13");
    is(length, 0, "length on a refusal");
}

/* The canonical text of a text. */
static void writes(const char *text, const char *want) {
    uint8_t room[STAPLEHORN_STATEMENT_ROOM];
    size_t length = 7;
    is(staplehorn_statement_canonical((const uint8_t *)text, strlen(text), room, sizeof room, &length), 0, text);
    is(length, strlen(want), text);
    is((uint64_t)memcmp(room, want, strlen(want)), 0, text);
}

/* Numbers: four spellings, each with a U or not; 3 at the start of a run that has none, 4 by the value in every base. */
static void numbers(void) {
    writes("mov.b32 x, 0;", "mov.b32 x, 0;");
    writes("mov.b32 x, 0U;", "mov.b32 x, 0;");
    writes("mov.b32 x, 00;", "mov.b32 x, 0;");
    writes("mov.b32 x, 040;", "mov.b32 x, 32;");
    writes("mov.b32 x, 064U;", "mov.b32 x, 52;");
    writes("mov.b32 x, 64U;", "mov.b32 x, 64;");
    writes("mov.b32 x, 0X0040U;", "mov.b32 x, 64;");
    writes("mov.b32 x, 0xbU;", "mov.b32 x, 11;");
    writes("mov.b32 x, 0b100000;", "mov.b32 x, 32;");
    writes("mov.b32 x, 0B1U;", "mov.b32 x, 1;");
    writes("mov.b64 x, 01777777777777777777777U;", "mov.b64 x, 18446744073709551615;");
    writes("tcgen05.ld.sync.aligned.32x32b.x1.b32 {r}, [t+010000000];", "tcgen05.ld.sync.aligned.32x32b.x1.b32 {r}, [t+2097152];");
    writes("tcgen05.ld.sync.aligned.32x32b.x1.b32 {r}, [t+00U];", "tcgen05.ld.sync.aligned.32x32b.x1.b32 {r}, [t];");
    alone("mov.b32 x, 08;", 3, 12);
    alone("mov.b32 x, 019;", 3, 12);
    alone("mov.b32 x, 0b2;", 3, 12);
    alone("mov.b32 x, 0b102;", 3, 12);
    alone("mov.b32 x, 0b;", 3, 12);
    alone("mov.b32 x, 0bU;", 3, 12);
    alone("mov.b32 x, 0xU;", 3, 12);
    alone("mov.b32 x, 64u;", 3, 12);
    alone("mov.b32 x, 0UU;", 3, 12);
    alone("mov.b32 x, 64U1;", 3, 12);
    alone("tcgen05.ld.sync.aligned.32x32b.x01.b32 {r}, [t];", 3, 1);
    alone("mov.b32 x, 037777777777;", 0, 0);
    alone("mov.b32 x, 040000000000;", 4, 12);
    alone("mov.b32 x, 0b11111111111111111111111111111111U;", 0, 0);
    alone("mov.b32 x, 0b100000000000000000000000000000000U;", 4, 12);
    alone("mov.b64 x, 02000000000000000000000;", 4, 12);
    alone("tcgen05.ld.sync.aligned.32x32b.x1.b32 {r}, [t+ 040000000000U];", 4, 48);
}

/* Columns asked for in octal and binary, and given back in other spellings; 064 is 52. */
static void spelled(void) {
    const char *sheet = "sheet\t1\tsm_100a\n0\ttcgen05.alloc.cta_group::1.sync.aligned.b32 [t], 0100;\n"
                        "0\ttcgen05.alloc.cta_group::1.sync.aligned.b32 [u], 0b100000U;\n"
                        "0\ttcgen05.dealloc.cta_group::1.sync.aligned.b32 t, 64U;\n"
                        "0\ttcgen05.dealloc.cta_group::1.sync.aligned.b32 u, 32;\n0\texit;\n";
    const char *octal = "sheet\t1\tsm_100a\n0\ttcgen05.alloc.cta_group::1.sync.aligned.b32 [t], 064;\n0\texit;\n";
    uint32_t answer[STAPLEHORN_ANSWER_FIELDS];
    uint16_t starts[2] = {7, 7};
    is(staplehorn_judge((const uint8_t *)sheet, strlen(sheet), starts, 2, answer), 0, "spelled");
    is(answer[STAPLEHORN_PEAK], 96, "peak, spelled");
    is(answer[STAPLEHORN_STARTS], 2, "count, spelled");
    is(starts[0], 0, "first start, spelled");
    is(starts[1], 64, "second start, spelled");
    is(staplehorn_judge((const uint8_t *)octal, strlen(octal), starts, 2, answer), STAPLEHORN_REASON_COLUMNS, "064");
    is(answer[STAPLEHORN_LINE], 2, "line of 064");
    is(answer[STAPLEHORN_COLUMN], 52, "column of 064");
}

static void sheets(void) {
    const char *sheet = "sheet\t1\tsm_100a\n0\ttcgen05.alloc.cta_group::1.sync.aligned.b32 [t], 64;\n"
                        "0\ttcgen05.alloc.cta_group::1.sync.aligned.b32 [u], 32;\n"
                        "0\ttcgen05.dealloc.cta_group::1.sync.aligned.b32 t, 64;\n0\texit;\n";
    static uint8_t room[STAPLEHORN_REPORT_ROOM];
    uint32_t answer[STAPLEHORN_ANSWER_FIELDS];
    uint16_t starts[3] = {7, 7, 7};
    size_t length = 7;
    is(staplehorn_judge((const uint8_t *)sheet, strlen(sheet), starts, 3, answer), 15, "judge");
    is(answer[STAPLEHORN_REASON], 15, "reason");
    is(answer[STAPLEHORN_LINE], 5, "line");
    is(answer[STAPLEHORN_COLUMN], 1, "column");
    is(answer[STAPLEHORN_HELD], 32, "held");
    is(answer[STAPLEHORN_PEAK], 96, "peak");
    is(answer[STAPLEHORN_STARTS], 0, "count on a refusal");
    is(starts[0] + starts[1] + starts[2], 21, "starts on a refusal");
    is(staplehorn_report((const uint8_t *)sheet, strlen(sheet), room, sizeof room, &length), 15, "report");
    is(length, 13, "length of the report");
    is((uint64_t)memcmp(room, "15\t5\t1\t32\t96\n", 13), 0, "bytes of the report");
    is(staplehorn_report((const uint8_t *)sheet, strlen(sheet), room, sizeof room - 1, &length), 19, "short room");
}

static void passed(void) {
    const char *sheet = "sheet\t1\tsm_100a\n0\ttcgen05.alloc.cta_group::1.sync.aligned.b32 [t], 64;\n"
                        "0\ttcgen05.alloc.cta_group::1.sync.aligned.b32 [u], 32;\n"
                        "0\ttcgen05.dealloc.cta_group::1.sync.aligned.b32 t, 64;\n"
                        "0\ttcgen05.dealloc.cta_group::1.sync.aligned.b32 u, 32;\n0\texit;\n";
    static uint16_t starts[STAPLEHORN_MOST_ALLOCS];
    uint32_t answer[STAPLEHORN_ANSWER_FIELDS];
    starts[0] = starts[1] = starts[2] = 7;
    is(staplehorn_judge((const uint8_t *)sheet, strlen(sheet), starts, STAPLEHORN_MOST_ALLOCS, answer), 0, "judge, passed");
    is(answer[STAPLEHORN_LINE], 6, "line, passed");
    is(answer[STAPLEHORN_COLUMN], 0, "column, passed");
    is(answer[STAPLEHORN_STARTS], 2, "count");
    is(starts[0], 0, "first start");
    is(starts[1], 64, "second start");
    is(starts[2], 7, "place past the starts");
    is(staplehorn_judge((const uint8_t *)sheet, strlen(sheet), starts, 1, answer), 16, "judge, one place");
    is(answer[STAPLEHORN_COLUMN], 1, "column of 16");
    is(answer[STAPLEHORN_STARTS], 0, "count on 16");
}

/* A dealloc while a load by another warp is outstanding; with the wait of that warp the sheet passes. */
static void outstanding(void) {
    const char *head = "sheet\t1\tsm_100a\n0\ttcgen05.alloc.cta_group::1.sync.aligned.b32 [t], 32;\n"
                       "1\ttcgen05.ld.sync.aligned.32x32b.x1.b32 {r}, [t+2097152];\n";
    const char *tail = "0\ttcgen05.dealloc.cta_group::1.sync.aligned.b32 t, 32;\n0\texit;\n";
    const char *waits[] = {"", "0\ttcgen05.wait::ld.sync.aligned;\n", "1\ttcgen05.wait::st.sync.aligned;\n",
                           "1\ttcgen05.wait::ld.sync.aligned;\n"};
    uint32_t answer[STAPLEHORN_ANSWER_FIELDS];
    uint16_t starts[1] = {7};
    for (size_t i = 0; i < 4; ++i) {
        char sheet[512];
        size_t length = (size_t)snprintf(sheet, sizeof sheet, "%s%s%s", head, waits[i], tail);
        uint32_t wanted = i < 3 ? STAPLEHORN_REASON_OUTSTANDING : STAPLEHORN_REASON_PASSED;
        is(staplehorn_judge((const uint8_t *)sheet, length, starts, 1, answer), wanted, waits[i]);
        is(answer[STAPLEHORN_LINE], i == 0 ? 4 : i < 3 ? 5 : 6, "line, outstanding");
        is(answer[STAPLEHORN_COLUMN], i < 3 ? 3 : 0, "column, outstanding");
        is(answer[STAPLEHORN_HELD], i < 3 ? 32 : 0, "held, outstanding");
        is(answer[STAPLEHORN_PEAK], 32, "peak, outstanding");
        is(answer[STAPLEHORN_STARTS], i < 3 ? 0 : 1, "count, outstanding");
        is(starts[0], i < 3 ? 7 : 0, "start, outstanding");
    }
}

/* Null is allowed where the length is 0. */
static void nothing(void) {
    uint32_t answer[STAPLEHORN_ANSWER_FIELDS];
    uint8_t room[1];
    size_t length = 7, column = 7;
    const char *sheet = "sheet\t1\tsm_100a\n0\texit;\n";
    is(staplehorn_judge(NULL, 0, NULL, 0, answer), STAPLEHORN_REASON_LAYOUT, "no sheet");
    is(answer[STAPLEHORN_LINE], 1, "line of no sheet");
    is(answer[STAPLEHORN_COLUMN], 1, "column of no sheet");
    is(staplehorn_judge((const uint8_t *)sheet, strlen(sheet), NULL, 0, answer), STAPLEHORN_REASON_PASSED, "no list");
    is(staplehorn_report(NULL, 0, NULL, 0, &length), STAPLEHORN_REASON_ROOM, "no report");
    is(length, 0, "length of no report");
    is(staplehorn_statement_reason(NULL, 0, &column), STAPLEHORN_REASON_FORM, "no statement");
    is(column, 1, "column of no statement");
    is(staplehorn_statement_canonical(NULL, 0, room, 1, &length), STAPLEHORN_REASON_FORM, "no text");
    is(staplehorn_statement_canonical((const uint8_t *)"exit;", 5, NULL, 0, &length), STAPLEHORN_REASON_ROOM, "no room");
}

int main(void) {
    is(staplehorn_version(), STAPLEHORN_VERSION_NUMBER, "version");
    is((uint64_t)strcmp(staplehorn_reason_text(4), "a number is out of range"), 0, "reason's text");
    nothing();
    passed();
    words();
    shared();
    fragments();
    statements();
    columns();
    numbers();
    spelled();
    sheets();
    outstanding();
    printf("%d answers right, %d wrong\n", right, wrong);
    return wrong != 0 || right < 402;
}
