/* judge [FILE]: the answer for a sheet, from standard input or a file: reason, line, column, columns held, peak; on a pass the
   start of each alloc. Exit status: 0 passed, 1 refused, 2 could not run. */
#include <inttypes.h>
#include <stdio.h>

#include "staplehorn.h"

/* One byte more than a sheet may have, so that a longer one is known. */
static uint8_t sheet[65537];
static uint16_t starts[STAPLEHORN_MOST_ALLOCS];

int main(int argc, char **argv) {
    FILE *file = argc > 1 ? fopen(argv[1], "rb") : stdin;
    if (file == NULL || argc > 2) {
        fprintf(stderr, "usage: judge [FILE]\n");
        return 2;
    }
    size_t length = fread(sheet, 1, sizeof sheet, file);
    if (ferror(file)) {
        fprintf(stderr, "judge: the sheet could not be read\n");
        return 2;
    }
    uint32_t answer[STAPLEHORN_ANSWER_FIELDS];
    uint32_t reason = staplehorn_judge(sheet, length, starts, STAPLEHORN_MOST_ALLOCS, answer);
    printf("reason %" PRIu32 ", line %" PRIu32 ", column %" PRIu32 ", held %" PRIu32 ", peak %" PRIu32 "\n",
           answer[STAPLEHORN_REASON], answer[STAPLEHORN_LINE], answer[STAPLEHORN_COLUMN], answer[STAPLEHORN_HELD],
           answer[STAPLEHORN_PEAK]);
    for (uint32_t i = 0; i < answer[STAPLEHORN_STARTS]; ++i) printf("start %" PRIu16 "\n", starts[i]);
    if (reason != STAPLEHORN_REASON_PASSED) printf("%s\n", staplehorn_reason_text(reason));
    return reason != STAPLEHORN_REASON_PASSED;
}
