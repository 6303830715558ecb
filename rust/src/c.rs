//! The declarations of `include/staplehorn.h`, for those who call C themselves. `lib.rs` has a safe function for each.

/// Numbers in the answer for a sheet.
pub const ANSWER_FIELDS: usize = 6;
/// Fields of an instruction descriptor.
pub const INSTRUCTION_FIELDS: usize = 13;
/// Fields of a shared memory descriptor.
pub const SHARED_FIELDS: usize = 6;
/// Numbers of a place in a matrix.
pub const PLACE_FIELDS: usize = 2;
/// Numbers of who holds an element.
pub const HOLDER_FIELDS: usize = 2;
/// Bytes that are enough for any report.
pub const REPORT_ROOM: usize = 102_391;
/// Bytes that are enough for any statement.
pub const STATEMENT_ROOM: usize = 2_560;

extern "C" {
    pub fn staplehorn_version() -> u32;
    pub fn staplehorn_judge(
        sheet: *const u8,
        sheet_length: usize,
        starts: *mut u16,
        starts_length: usize,
        answer: *mut [u32; ANSWER_FIELDS],
    ) -> u32;
    pub fn staplehorn_report(sheet: *const u8, sheet_length: usize, room: *mut u8, room_length: usize, length: *mut usize) -> u32;
    pub fn staplehorn_statement_reason(text: *const u8, text_length: usize, column: *mut usize) -> u32;
    pub fn staplehorn_statement_canonical(
        text: *const u8,
        text_length: usize,
        room: *mut u8,
        room_length: usize,
        length: *mut usize,
    ) -> u32;
    pub fn staplehorn_instruction_decode(kind: u32, ws: u32, sp: u32, word: u32, fields: *mut [u32; INSTRUCTION_FIELDS]) -> u32;
    pub fn staplehorn_instruction_encode(kind: u32, ws: u32, sp: u32, fields: *const [u32; INSTRUCTION_FIELDS], word: *mut u32) -> u32;
    pub fn staplehorn_instruction_judge(kind: u32, ws: u32, sp: u32, word: u32) -> u32;
    pub fn staplehorn_instruction_listed(kind: u32, ws: u32, sp: u32, fields: *const [u32; INSTRUCTION_FIELDS]) -> u32;
    pub fn staplehorn_instruction_k(kind: u32, sp: u32, k: *mut u32) -> u32;
    pub fn staplehorn_shared_decode(word: u64, fields: *mut [u64; SHARED_FIELDS]) -> u32;
    pub fn staplehorn_shared_encode(fields: *const [u64; SHARED_FIELDS], word: *mut u64) -> u32;
    pub fn staplehorn_request(columns: u32) -> u32;
    pub fn staplehorn_fragment_place(matrix: u32, thread: u32, element: u32, place: *mut [u32; PLACE_FIELDS]) -> u32;
    pub fn staplehorn_fragment_holder(matrix: u32, row: u32, column: u32, holder: *mut [u32; HOLDER_FIELDS]) -> u32;
}
