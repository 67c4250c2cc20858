// The functions of the static library, as door/include/gelmuska.h declares them. Nothing checks these lines against its source.
use crate::{Command, Observer, Reading, Word};

unsafe extern "C" {
    pub fn gelmuska_report(script: *const u8, script_length: usize, page: *mut u8, page_length: usize, length: *mut u64) -> u32;
    pub fn gelmuska_rounds(setup: u8, labels: u16, rounds: u32, observer: *mut Observer) -> u32;
    pub fn gelmuska_word_pack(parts: *const Word, word: *mut u64) -> u32;
    pub fn gelmuska_word_read(word: u64, parts: *mut Word) -> u32;
    pub fn gelmuska_command_pack(parts: *const Command, payload: *mut u64) -> u32;
    pub fn gelmuska_command_unpack(payload: u64, parts: *mut Command) -> u32;
    pub fn gelmuska_reading_pack(parts: *const Reading, payload: *mut u64) -> u32;
    pub fn gelmuska_reading_unpack(payload: u64, parts: *mut Reading) -> u32;
}
