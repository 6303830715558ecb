/* The bytes are tried as a sheet and as a statement. The first byte chooses how many places are lent. All memory is from
   malloc and has the exact size, so that AddressSanitizer and valgrind see any access outside it. */
#include "harness.h"

#include <stdio.h>
#include <stdlib.h>
#include <string.h>

#include "staplehorn.h"

uint32_t reference_judge(const uint8_t *sheet, size_t length, uint16_t *starts, size_t places, uint32_t *answer);
size_t reference_report(const uint8_t *sheet, size_t length, uint8_t *room, size_t places);
uint32_t reference_statement(const uint8_t *text, size_t length, uint8_t *room, size_t places, size_t *written, size_t *column);

enum { MARK = 0xA5 };

static void must(int holds, const char *what) {
    if (holds) return;
    fprintf(stderr, "differs: %s\n", what);
    abort();
}

/* malloc(size) filled with a mark; a size of 0 still gives a pointer. */
static void *marked(size_t size) {
    void *p = malloc(size ? size : 1);
    must(p != NULL, "no memory");
    memset(p, MARK, size);
    return p;
}

static void try_judge(const uint8_t *sheet, size_t length, size_t places) {
    uint16_t *ours = marked(places * 2), *theirs = marked(places * 2);
    uint32_t *answer = marked(sizeof(uint32_t) * STAPLEHORN_ANSWER_FIELDS), want[STAPLEHORN_ANSWER_FIELDS];
    uint32_t reason = staplehorn_judge(sheet, length, ours, places, answer);
    must(reason == reference_judge(sheet, length, theirs, places, want), "reason of a sheet");
    must(memcmp(answer, want, sizeof want) == 0, "answer");
    must(memcmp(ours, theirs, places * 2) == 0, "starts");
    free(ours), free(theirs), free(answer);
}

static void try_report(const uint8_t *sheet, size_t length) {
    uint8_t *ours = marked(STAPLEHORN_REPORT_ROOM), *theirs = marked(STAPLEHORN_REPORT_ROOM);
    size_t *size = marked(sizeof(size_t));
    staplehorn_report(sheet, length, ours, STAPLEHORN_REPORT_ROOM, size);
    must(*size == reference_report(sheet, length, theirs, STAPLEHORN_REPORT_ROOM), "length of a report");
    must(memcmp(ours, theirs, STAPLEHORN_REPORT_ROOM) == 0, "report");
    must(staplehorn_report(sheet, length, ours, STAPLEHORN_REPORT_ROOM - 1, size) == 19 && *size == 0, "short room");
    must(memcmp(ours, theirs, STAPLEHORN_REPORT_ROOM) == 0, "report into a short room");
    free(ours), free(theirs), free(size);
}

static void try_statement(const uint8_t *text, size_t length, size_t places) {
    uint8_t *ours = marked(places), *theirs = marked(places);
    size_t *size = marked(sizeof(size_t)), *column = marked(sizeof(size_t)), want, place;
    uint32_t reason = reference_statement(text, length, theirs, places, &want, &place);
    must(staplehorn_statement_reason(text, length, column) == reason, "reason of a statement");
    must(*column == place, "column of a statement");
    uint32_t written = reason == 3 || reason == 4 ? reason : want == 0 ? 19 : 0;
    must(staplehorn_statement_canonical(text, length, ours, places, size) == written, "reason of the writing");
    must(*size == want, "length of a statement");
    must(memcmp(ours, theirs, want) == 0, "canonical text");
    for (size_t i = want; i < places; ++i) must(ours[i] == MARK, "room past the text");
    free(ours), free(theirs), free(size), free(column);
}

void try_bytes(const uint8_t *bytes, size_t length) {
    size_t places = length ? bytes[0] : 0;
    const uint8_t *text = length ? bytes + 1 : bytes;
    size_t n = length ? length - 1 : 0;
    uint8_t *copy = marked(n);
    if (n) memcpy(copy, text, n);
    try_judge(copy, n, places & 1 ? 4096 : places);
    try_report(copy, n);
    try_statement(copy, n, places & 1 ? STAPLEHORN_STATEMENT_ROOM : places);
    /* the second line's statement by itself */
    uint8_t *line = n ? memchr(copy, '\n', n) : NULL;
    if (line != NULL && (size_t)(copy + n - line) > 3) {
        line += 3;
        uint8_t *end = memchr(line, '\n', (size_t)(copy + n - line));
        size_t m = (size_t)((end ? end : copy + n) - line);
        uint8_t *statement = marked(m);
        memcpy(statement, line, m);
        try_statement(statement, m, places & 1 ? STAPLEHORN_STATEMENT_ROOM : places);
        free(statement);
    }
    free(copy);
}
