//! What the static library exports; `include/drum.h` says what each does.

use crate::Refusal;

/// Numbers of an answer.
pub const ANSWER: usize = 5;
const ACCEPTED: u32 = 0;
const REFUSED: u32 = 1;

#[link(name = "drum", kind = "static")]
extern "C" {
    pub fn drum_read_tree(text: *const u8, text_len: usize, work: *mut u8, work_len: usize, answer: *mut u64, answer_len: usize) -> u32;
    pub fn drum_read_scenario(
        text: *const u8, text_len: usize, work: *mut u8, work_len: usize, record: *mut u8, record_len: usize,
        lines: *mut u32, lines_len: usize, answer: *mut u64, answer_len: usize,
    ) -> u32;
    pub fn drum_check_record(record: *const u8, record_len: usize, answer: *mut u64, answer_len: usize) -> u32;
    pub fn drum_check_steps(
        record: *const u8, record_len: usize, lines: *const u32, lines_len: usize, names: *const u8, names_len: usize,
        answer: *mut u64, answer_len: usize,
    ) -> u32;
    pub fn drum_field(record: *const u8, record_len: usize, place: usize, answer: *mut u64, answer_len: usize) -> u32;
    pub fn drum_step(record: *const u8, record_len: usize, number: usize, answer: *mut u64, answer_len: usize) -> u32;
    pub fn drum_step_by_id(
        record: *const u8, record_len: usize, id: *const u8, id_len: usize, answer: *mut u64, answer_len: usize,
    ) -> u32;
    pub fn drum_value_by_key(
        record: *const u8, record_len: usize, number: usize, key: *const u8, key_len: usize, answer: *mut u64, answer_len: usize,
    ) -> u32;
    pub fn drum_times(record: *const u8, record_len: usize, number: usize, answer: *mut u64, answer_len: usize) -> u32;
    pub fn drum_panel_name(record: *const u8, record_len: usize, answer: *mut u64, answer_len: usize) -> u32;
    pub fn drum_panel_step(record: *const u8, record_len: usize, number: usize, answer: *mut u64, answer_len: usize) -> u32;
    pub fn drum_share(
        wishes: *const u32, wishes_len: usize, allowed: u32, strokes: *mut u32, answer: *mut u64, answer_len: usize,
    ) -> u32;
    pub fn drum_pair_logs(
        hammers: *const u32, hammers_len: usize, sounds: *const u32, sounds_len: usize, pairs: *mut u32, pairs_len: usize,
        lone_hammers: *mut u32, lone_hammers_len: usize, lone_sounds: *mut u32, lone_sounds_len: usize, answer: *mut u64, answer_len: usize,
    ) -> u32;
}

/// Makes a call with five places for its answer: the numbers behind the first, or nothing, or the refusal.
pub fn ask(call: impl FnOnce(*mut u64, usize) -> u32) -> Result<Option<[usize; ANSWER - 1]>, Refusal> {
    let mut answer = [0u64; ANSWER];
    let [_, a, b, c, d] = match call(answer.as_mut_ptr(), ANSWER) {
        ACCEPTED => answer,
        REFUSED => return Err(Refusal { number: answer[1] as u32, line: answer[2] as u32, step: answer[3] as u32 }),
        _ => return Ok(None),
    };
    Ok(Some([a as usize, b as usize, c as usize, d as usize]))
}
