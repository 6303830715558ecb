/*
 * Staplehorn: tcgen05 sheets judged, statements and descriptor words read and written, elements of fragments found, by proved
 * functions.
 *
 * Every function returns a reason: 0 for good, else one of enum staplehorn_reason; docs/FORMAT.md explains each. Arrays have
 * the sizes written here. A pointer is aligned, and what one call writes overlaps nothing else that it is lent. A pointer to
 * bytes or to starts may be null where its length is 0. Any numbers and any bytes may be passed.
 *
 * Threads: no function keeps a pointer, has a state, or takes memory from the heap, so any number of threads may call any of
 * them at once, each with its own memory. Stack: STAPLEHORN_STACK bytes are enough for every function (tests/stack measures it).
 *
 * Versions: within one major number (and, while that is 0, one minor number) functions, numbers of reasons and fields keep their
 * meaning and their places; functions, reasons and rules may be added, and a program must bear a reason that it does not know.
 * A sheet that passes may be refused by a later minor version, and the other way round, where the rules of the hardware are
 * known better or more spellings are read: docs/CHANGES.md says so each time. The shared library's soname has the major number
 * and, while that is 0, the minor number: a program runs with the library that it was built for, or not at all.
 *
 * An opcode is three numbers: kind 0 f16, 1 tf32, 2 f8f6f4, 3 i8; ws and sp, 0 or 1, say whether `.ws` and `.sp`
 * stand. Any other number is refused with 12.
 */
#ifndef STAPLEHORN_H
#define STAPLEHORN_H

#include <stddef.h>
#include <stdint.h>

#ifdef __cplusplus
extern "C" {
#endif

/* The version of this header, and the same as major * 10,000 + minor * 100 + patch. */
#define STAPLEHORN_VERSION "0.7.0"
#define STAPLEHORN_VERSION_NUMBER 700

/* Bytes of stack that are enough for any call. */
#define STAPLEHORN_STACK 32768

/* The version of the library that is linked, as a number: to be compared with STAPLEHORN_VERSION_NUMBER. */
uint32_t staplehorn_version(void);

/* The reasons. */
enum staplehorn_reason {
    STAPLEHORN_REASON_PASSED = 0,
    STAPLEHORN_REASON_SIZE = 1,
    STAPLEHORN_REASON_LAYOUT = 2,
    STAPLEHORN_REASON_FORM = 3,
    STAPLEHORN_REASON_NUMBER = 4,
    STAPLEHORN_REASON_REGISTERS = 5,
    STAPLEHORN_REASON_NAME = 6,
    STAPLEHORN_REASON_VALUES = 7,
    STAPLEHORN_REASON_WARP = 8,
    STAPLEHORN_REASON_COLUMNS = 9,
    STAPLEHORN_REASON_RELINQUISHED = 10,
    STAPLEHORN_REASON_SPACE = 11,
    STAPLEHORN_REASON_DESCRIPTOR = 12,
    STAPLEHORN_REASON_SHAPE_M = 13,
    STAPLEHORN_REASON_CELLS = 14,
    STAPLEHORN_REASON_EXIT = 15,
    STAPLEHORN_REASON_STARTS = 16,
    STAPLEHORN_REASON_OUTSTANDING = 18, /* asked directly after 15 */
    STAPLEHORN_REASON_ROOM = 19,
    STAPLEHORN_REASON_SHAPE_N = 20, /* 20 and 21 are asked directly after 13 */
    STAPLEHORN_REASON_TYPES = 21,
    STAPLEHORN_REASON_FRAGMENT = 22 /* of the functions of fragments alone */
};

/* A sentence for a reason, without a full stop; never null. */
static inline const char *staplehorn_reason_text(uint32_t reason) {
    static const char *const texts[] = {
        "passed",
        "the sheet has over 65,536 bytes or 4,096 lines",
        "line 1 is not the header, or a line's layout is wrong",
        "the statement matches no form",
        "a number is out of range",
        "N is over the largest of its shape, or the count of registers differs",
        "a name is unbound, of the wrong sort or width, or taken",
        "a 129th value name is bound",
        "the warp is wrong, or the lane is not the warp's",
        "the request is illegal, or the size of a dealloc differs",
        "an alloc follows relinquish",
        "no free run of that length starts at a multiple of 32",
        "a descriptor has no reading under the opcode",
        "the descriptor's M is not listed",
        "the lane of an mma is not 0, or columns go past the end of the allocation",
        "exit while columns are held, a line after exit, or no exit",
        "the lent list has fewer places than there are allocs",
        NULL,
        "dealloc while a load or store of any warp is outstanding on its allocation",
        "the lent room is too short",
        "the descriptor's N is not listed",
        "the descriptor's types are not listed",
        "the matrix, thread, element, row or column is outside the fragment",
    };
    const char *text = reason < sizeof texts / sizeof texts[0] ? texts[reason] : NULL;
    return text != NULL ? text : "a reason that this header does not know";
}

/* Sheets. Any bytes are a sheet: over 65,536 of them, or over 4,096 lines, is reason 1. */

/* The answer for a sheet. */
enum staplehorn_answer_field {
    STAPLEHORN_REASON, /* 0 passed, else 1 to 16, 18, 20 or 21 */
    STAPLEHORN_LINE,   /* the line of the reason, from 1; the last line on a pass; 0 for reason 1 */
    STAPLEHORN_COLUMN, /* the byte of that line to which the reason points, from 1; 0 on a pass and for reason 1 */
    STAPLEHORN_HELD,   /* columns held before that line (after it where exit is missing); 0 on a pass and 16 */
    STAPLEHORN_PEAK,   /* the most columns held after any accepted line */
    STAPLEHORN_STARTS, /* how many starts there are: one for each alloc on a pass, else 0 */
    STAPLEHORN_ANSWER_FIELDS
};

/* No sheet has more allocs: a list of so many places has room for any sheet's starts. */
enum { STAPLEHORN_MOST_ALLOCS = 4095 };

/* Judges a sheet, and returns its reason. All six places of answer are always written. On reason 0 the first
   answer[STAPLEHORN_STARTS] places of starts are the starts: the first columns of the allocs, in their order (each a multiple
   of 32, at most 480); the places past them are left as they are. On every refusal, 16 included (fewer places than allocs), all
   places are left as they are. */
uint32_t staplehorn_judge(const uint8_t *sheet, size_t sheet_length, uint16_t *starts, size_t starts_length,
                          uint32_t answer[STAPLEHORN_ANSWER_FIELDS]);

/* What the program foot prints for a sheet: its bytes go to the first places of room, their count to *length, and the
   places past them are left as they are. Returns the sheet's reason, never 16. Room for less than
   STAPLEHORN_REPORT_ROOM bytes: 19, *length is 0 and room is left as it is. */
enum { STAPLEHORN_REPORT_ROOM = 102391 };
uint32_t staplehorn_report(const uint8_t *sheet, size_t sheet_length, uint8_t *room, size_t room_length,
                           size_t *length);

/* Words. On a refusal each out-parameter holds zeros. */

/* The fields of an instruction descriptor, in the order of its bits. Types are codes, flags 0 or 1, n and m the real N
   and M. */
enum staplehorn_instruction_field {
    STAPLEHORN_SELECTOR, /* 0 to 3 */
    STAPLEHORN_SPARSE,
    STAPLEHORN_SATURATE,
    STAPLEHORN_DTYPE, /* f16 0, f32 1, s32 2 */
    STAPLEHORN_ATYPE, /* kind f16: f16 0, bf16 1; tf32: 2; f8f6f4: e4m3 0, e5m2 1, e2m3 3, e3m2 4, e2m1 5; i8: u8 0, s8 1 */
    STAPLEHORN_BTYPE,
    STAPLEHORN_NEGATE_A,
    STAPLEHORN_NEGATE_B,
    STAPLEHORN_TRANSPOSE_A,
    STAPLEHORN_TRANSPOSE_B,
    STAPLEHORN_N,
    STAPLEHORN_M,
    STAPLEHORN_MAX_SHIFT, /* 0 to 3 */
    STAPLEHORN_INSTRUCTION_FIELDS
};

/* The fields of a shared memory descriptor. Start, leading offset and stride offset are in bytes. */
enum staplehorn_shared_field {
    STAPLEHORN_START,
    STAPLEHORN_LEADING,
    STAPLEHORN_STRIDE,
    STAPLEHORN_BASE,    /* 0 to 7 */
    STAPLEHORN_MODE,    /* 0 or 1 */
    STAPLEHORN_SWIZZLE, /* 0, 1, 2, 4 or 6 */
    STAPLEHORN_SHARED_FIELDS
};

/* What an instruction descriptor says: its fields, or 12. */
uint32_t staplehorn_instruction_decode(uint32_t kind, uint32_t ws, uint32_t sp, uint32_t word,
                                       uint32_t fields[STAPLEHORN_INSTRUCTION_FIELDS]);

/* The word of an instruction descriptor's fields, or 12 if no word reads as them. N is 0 to 504 in eights and M 0 to
   496 in sixteens, listed or not. */
uint32_t staplehorn_instruction_encode(uint32_t kind, uint32_t ws, uint32_t sp,
                                       const uint32_t fields[STAPLEHORN_INSTRUCTION_FIELDS], uint32_t *word);

/* 12 if a word has no reading under the opcode; else 13 if its M is not listed, 20 if its N is not, 21 if its types are not. */
uint32_t staplehorn_instruction_judge(uint32_t kind, uint32_t ws, uint32_t sp, uint32_t word);

/* The same of fields: 12 if they have no word. */
uint32_t staplehorn_instruction_listed(uint32_t kind, uint32_t ws, uint32_t sp,
                                       const uint32_t fields[STAPLEHORN_INSTRUCTION_FIELDS]);

/* K of a kind, dense or sparse; 12 for a kind over 3 or sp over 1. */
uint32_t staplehorn_instruction_k(uint32_t kind, uint32_t sp, uint32_t *k);

/* What a shared memory descriptor says: its fields, or 12. */
uint32_t staplehorn_shared_decode(uint64_t word, uint64_t fields[STAPLEHORN_SHARED_FIELDS]);

/* The word of a shared memory descriptor's fields, or 12 if no word reads as them: an address or offset that is no
   multiple of 16, or over 262,128, is refused and never masked. */
uint32_t staplehorn_shared_encode(const uint64_t fields[STAPLEHORN_SHARED_FIELDS], uint64_t *word);

/* 0 if a request for that many columns is legal, else 9. */
uint32_t staplehorn_request(uint32_t columns);

/* Fragments: which thread of a warp holds which element of a matrix of mma.m16n8k16. A and B are f16, C and D f16 or f32. Threads
   (%laneid), elements, rows and columns count from 0. Both numbers of an answer are always written; a refusal is 22, and both are
   then 0. */

/* The matrices. D has the layout of C: ask for C. */
enum staplehorn_matrix {
    STAPLEHORN_MATRIX_A, /* 16 rows, 16 columns; 8 elements in each of the 32 threads */
    STAPLEHORN_MATRIX_B, /* 16 rows, which go along K, and 8 columns; 4 elements in each */
    STAPLEHORN_MATRIX_C  /* 16 rows, 8 columns; 4 elements in each */
};

/* Where an element stands. */
enum staplehorn_place_field {
    STAPLEHORN_PLACE_ROW,
    STAPLEHORN_PLACE_COLUMN,
    STAPLEHORN_PLACE_FIELDS
};

/* Who holds it: the thread, and which of its elements, as the PTX ISA numbers them (a0, a1, ..). Two elements of f16 share a
   register: element i is in register i / 2, the even one in the lower half. */
enum staplehorn_holder_field {
    STAPLEHORN_HOLDER_THREAD,
    STAPLEHORN_HOLDER_ELEMENT,
    STAPLEHORN_HOLDER_FIELDS
};

/* Where a thread's element stands, or 22: a matrix over 2, a thread over 31, an element past the thread's last. */
uint32_t staplehorn_fragment_place(uint32_t matrix, uint32_t thread, uint32_t element,
                                   uint32_t place[STAPLEHORN_PLACE_FIELDS]);

/* Who holds the element of a row and a column, or 22: a matrix over 2, a row or a column outside the matrix. Each of the two
   functions undoes the other. */
uint32_t staplehorn_fragment_holder(uint32_t matrix, uint32_t row, uint32_t column,
                                    uint32_t holder[STAPLEHORN_HOLDER_FIELDS]);

/* Statements. A number in one is decimal, hexadecimal (0x40), octal (0100: a leading zero) or binary (0b1000000), and one U may
   stand behind it; or it is an expression of such, with +, - and *, unary minus and parentheses, nested to 16:
   (32*65536)+4. docs/FORMAT.md has each spelling and the rule. */

/* The reason of a statement's text by itself: 3 no form matches, 4 a number is too large, or a result or a partial result of an
   expression is out of range, 5 N is over the shape's largest or the count of registers differs; else 0. At most 4,096 bytes; a
   longer text is 3. The byte to which it points, counted from 1 at the text's first byte, goes to *column: for 3 where no form
   can go on, which may be one past the end; for 4 the number's or the expression's first; 1 for 5; 0 for 0. In a
   line of a sheet the same refusal has a column 2 higher. */
uint32_t staplehorn_statement_reason(const uint8_t *text, size_t text_length, size_t *column);

/* The canonical text of a statement: one space after the opcode and after each comma, decimals without U (of an expression what
   it comes to), no `+0` and no `.shared::cta`. Its length goes to *length and its bytes to the first places of room; the places
   past it are left as they are. 3 or 4 if the text does not read, 19 if the room is too short: then *length is 0 and room is
   left as it is. STAPLEHORN_STATEMENT_ROOM bytes are room for any statement. A text of reason 5 reads, so it is written. */
enum { STAPLEHORN_STATEMENT_ROOM = 2560 };
uint32_t staplehorn_statement_canonical(const uint8_t *text, size_t text_length, uint8_t *room, size_t room_length,
                                        size_t *length);

#ifdef __cplusplus
}
#endif

#endif
