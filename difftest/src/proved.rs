//! The functions of include/staplehorn.h. Every array has the size that the header gives, so each call is sound.

/// The C declarations themselves.
pub use staplehorn::c;

/// What stands in an out-parameter before a call: a place that the callee leaves alone shows.
const UNTOUCHED: u32 = 0xA5A5_A5A5;
const UNTOUCHED_64: u64 = 0xA5A5_A5A5_A5A5_A5A5;

/// The numbers of an opcode: a kind, `.ws`, `.sp`.
#[derive(Clone, Copy, Debug)]
pub struct Opcode {
    pub kind: u32,
    pub ws: u32,
    pub sp: u32,
}

impl Opcode {
    /// One number for each of the sixteen opcodes.
    pub fn number(self) -> u32 {
        self.kind * 4 + self.sp * 2 + self.ws
    }
}

pub fn version() -> u32 {
    // SAFETY: it takes nothing.
    unsafe { c::staplehorn_version() }
}

pub fn instruction_decode(o: Opcode, word: u32) -> (u32, [u32; 13]) {
    let mut fields = [UNTOUCHED; 13];
    // SAFETY: numbers, locals and slices alone; each array has the header's size.
    let reason = unsafe { c::staplehorn_instruction_decode(o.kind, o.ws, o.sp, word, &mut fields) };
    (reason, fields)
}

pub fn instruction_encode(o: Opcode, fields: &[u32; 13]) -> (u32, u32) {
    let mut word = UNTOUCHED;
    // SAFETY: numbers, locals and slices alone; each array has the header's size.
    let reason = unsafe { c::staplehorn_instruction_encode(o.kind, o.ws, o.sp, fields, &mut word) };
    (reason, word)
}

pub fn instruction_judge(o: Opcode, word: u32) -> u32 {
    // SAFETY: numbers, locals and slices alone; each array has the header's size.
    unsafe { c::staplehorn_instruction_judge(o.kind, o.ws, o.sp, word) }
}

pub fn instruction_listed(o: Opcode, fields: &[u32; 13]) -> u32 {
    // SAFETY: numbers, locals and slices alone; each array has the header's size.
    unsafe { c::staplehorn_instruction_listed(o.kind, o.ws, o.sp, fields) }
}

pub fn instruction_k(kind: u32, sp: u32) -> (u32, u32) {
    let mut k = UNTOUCHED;
    // SAFETY: numbers, locals and slices alone; each array has the header's size.
    let reason = unsafe { c::staplehorn_instruction_k(kind, sp, &mut k) };
    (reason, k)
}

pub fn shared_decode(word: u64) -> (u32, [u64; 6]) {
    let mut fields = [UNTOUCHED_64; 6];
    // SAFETY: numbers, locals and slices alone; each array has the header's size.
    let reason = unsafe { c::staplehorn_shared_decode(word, &mut fields) };
    (reason, fields)
}

pub fn shared_encode(fields: &[u64; 6]) -> (u32, u64) {
    let mut word = UNTOUCHED_64;
    // SAFETY: numbers, locals and slices alone; each array has the header's size.
    let reason = unsafe { c::staplehorn_shared_encode(fields, &mut word) };
    (reason, word)
}

pub fn request(columns: u32) -> u32 {
    // SAFETY: numbers, locals and slices alone; each array has the header's size.
    unsafe { c::staplehorn_request(columns) }
}

/// The reason, and the row and column.
pub fn fragment_place(matrix: u32, thread: u32, element: u32) -> (u32, [u32; 2]) {
    let mut place = [UNTOUCHED; 2];
    // SAFETY: numbers, locals and slices alone; each array has the header's size.
    let reason = unsafe { c::staplehorn_fragment_place(matrix, thread, element, &mut place) };
    (reason, place)
}

/// The reason, and the thread and element.
pub fn fragment_holder(matrix: u32, row: u32, column: u32) -> (u32, [u32; 2]) {
    let mut holder = [UNTOUCHED; 2];
    // SAFETY: numbers, locals and slices alone; each array has the header's size.
    let reason = unsafe { c::staplehorn_fragment_holder(matrix, row, column, &mut holder) };
    (reason, holder)
}

/// The reason, and the column.
pub fn statement_reason(text: &[u8]) -> (u32, usize) {
    let mut column = usize::MAX;
    // SAFETY: numbers, locals and slices alone; each array has the header's size.
    let reason = unsafe { c::staplehorn_statement_reason(text.as_ptr(), text.len(), &mut column) };
    (reason, column)
}

/// The reason, and the length of the canonical text in the room.
pub fn statement_canonical(text: &[u8], room: &mut [u8]) -> (u32, usize) {
    let mut length = usize::MAX;
    // SAFETY: numbers, locals and slices alone; each array has the header's size.
    let reason = unsafe { c::staplehorn_statement_canonical(text.as_ptr(), text.len(), room.as_mut_ptr(), room.len(), &mut length) };
    (reason, length)
}

/// Reason, line, column, held, peak, and how many starts there are.
pub type Answer = [u32; c::ANSWER_FIELDS];

/// The reason, and the answer.
pub fn judge(sheet: &[u8], starts: &mut [u16]) -> (u32, Answer) {
    let mut answer = [UNTOUCHED; c::ANSWER_FIELDS];
    // SAFETY: numbers, locals and slices alone; each array has the header's size.
    let reason = unsafe { c::staplehorn_judge(sheet.as_ptr(), sheet.len(), starts.as_mut_ptr(), starts.len(), &mut answer) };
    (reason, answer)
}

/// The reason of the sheet, and the length of its report in the room.
pub fn report(sheet: &[u8], room: &mut [u8]) -> (u32, usize) {
    let mut length = usize::MAX;
    // SAFETY: numbers, locals and slices alone; each array has the header's size.
    let reason = unsafe { c::staplehorn_report(sheet.as_ptr(), sheet.len(), room.as_mut_ptr(), room.len(), &mut length) };
    (reason, length)
}
