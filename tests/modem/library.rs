//! The modem's entries of the library under test.

#[rustfmt::skip]
extern "C" {
    pub fn obikuteru_modem_fresh(state: *mut u64, counts: *mut u64, flow: u32, target: u64, buffer: u64, slots: u64,
        peak: u64, sustained: u64, clock: u64) -> u32;
    pub fn obikuteru_modem_arrival(state: *mut u64, counts: *mut u64, flow: u32, handles: *mut u32, handles_len: usize,
        sizes: *mut u32, sizes_len: usize, clock: u64, handle: u32, size: u32, u: u32) -> u32;
    pub fn obikuteru_modem_departure(state: *mut u64, counts: *mut u64, flow: u32, handles: *const u32,
        handles_len: usize, sizes: *const u32, sizes_len: usize, clock: u64, packet: *mut u32) -> u32;
    pub fn obikuteru_modem_tick(state: *mut u64, counts: *mut u64, flow: u32, clock: u64, credits: u32) -> u32;
    pub fn obikuteru_modem_calls(state: *mut u64, counts: *mut u64, flow: u32, handles: *mut u32, handles_len: usize,
        sizes: *mut u32, sizes_len: usize, calls: *const u32, calls_len: usize, answers: *mut u64, answers_len: usize) -> u32;
    pub fn obikuteru_modem_well_formed(state: *const u64, counts: *mut u64, flow: u32) -> bool;
}
