//! The pair's entries of the library under test.

#[rustfmt::skip]
extern "C" {
    pub fn obikuteru_pair_fresh(shared: *mut u64, intercom: *mut u64, passengers: *mut u64, slots: u64,
        target0: u64, buffer0: u64, reserve0: u64, clock0: u64,
        target1: u64, buffer1: u64, reserve1: u64, clock1: u64) -> u32;
    pub fn obikuteru_pair_arrival_of(shared: *mut u64, own: *mut u64, other: *const u64, second: bool,
        handles: *mut u32, handles_len: usize, sizes: *mut u32, sizes_len: usize,
        clock: u64, handle: u32, size: u32, ecn: bool, u: u32) -> u32;
    pub fn obikuteru_pair_departure_of(shared: *mut u64, own: *mut u64, other: *const u64, second: bool,
        handles: *const u32, handles_len: usize, sizes: *mut u32, sizes_len: usize, clock: u64, packet: *mut u32) -> u32;
    pub fn obikuteru_pair_tick_of(shared: *const u64, own: *mut u64, other: *const u64, second: bool, clock: u64) -> u32;
    pub fn obikuteru_pair_calls(shared: *mut u64, intercom: *mut u64, passengers: *mut u64, handles: *mut u32,
        handles_len: usize, sizes: *mut u32, sizes_len: usize, calls: *const u32, calls_len: usize,
        answers: *mut u64, answers_len: usize) -> u32;
    pub fn obikuteru_pair_well_formed(shared: *const u64, intercom: *const u64, passengers: *const u64) -> bool;
}
