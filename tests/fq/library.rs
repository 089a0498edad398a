//! The flows' entries of the library under test: the record in its parts, as the header's functions hand
//! them on.

#[rustfmt::skip]
extern "C" {
    pub fn obikuteru_fq_flow(key: *const u8, salt: u32) -> u32;
    pub fn obikuteru_fq_fresh_of(common: *mut u64, order: *mut u64, flows: *mut u64, deficits: *mut u64,
        target: u64, buffer: u64, slots: u64, salt: u32, clock: u64) -> u32;
    pub fn obikuteru_fq_arrival_of(common: *mut u64, order: *mut u64, flows: *mut u64, deficits: *mut u64,
        handles: *mut u32, handles_len: usize, sizes: *mut u32, sizes_len: usize,
        clock: u64, key: *const u8, handle: u32, size: u32, ecn: bool, u: u32) -> u32;
    pub fn obikuteru_fq_departure_of(common: *mut u64, order: *mut u64, flows: *mut u64, deficits: *mut u64,
        handles: *const u32, handles_len: usize, sizes: *mut u32, sizes_len: usize, clock: u64, packet: *mut u32) -> u32;
    pub fn obikuteru_fq_tick_of(common: *mut u64, order: *const u64, flows: *mut u64, deficits: *const u64, clock: u64) -> u32;
    pub fn obikuteru_fq_calls_of(common: *mut u64, order: *mut u64, flows: *mut u64, deficits: *mut u64,
        handles: *mut u32, handles_len: usize, sizes: *mut u32, sizes_len: usize,
        calls: *const u32, calls_len: usize, answers: *mut u64, answers_len: usize) -> u32;
    pub fn obikuteru_fq_well_formed_of(common: *const u64, order: *const u64, flows: *const u64, deficits: *const u64) -> bool;
}
