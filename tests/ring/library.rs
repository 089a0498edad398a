//! The queue's entries of the library under test.

#[rustfmt::skip]
extern "C" {
    pub fn obikuteru_fresh(state: *mut u64, target: u64, buffer: u64, slots: u64, profile: u64, clock: u64) -> u32;
    pub fn obikuteru_arrival(state: *mut u64, handles: *mut u32, handles_len: usize, sizes: *mut u32, sizes_len: usize,
        clock: u64, handle: u32, size: u32, ecn: bool, u: u32) -> u32;
    pub fn obikuteru_departure(state: *mut u64, handles: *const u32, handles_len: usize, sizes: *const u32,
        sizes_len: usize, clock: u64, packet: *mut u32) -> u32;
    pub fn obikuteru_tick(state: *mut u64, clock: u64) -> u32;
    pub fn obikuteru_calls(state: *mut u64, handles: *mut u32, handles_len: usize, sizes: *mut u32, sizes_len: usize,
        calls: *const u32, calls_len: usize, answers: *mut u64, answers_len: usize) -> u32;
    pub fn obikuteru_well_formed(state: *const u64) -> bool;
}

/// How many words the record has.
pub const WORDS: usize = 23;
