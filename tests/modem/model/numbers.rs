//! The page's numbers and ranges.

pub const CLOCK_MAX: u64 = 1 << 48;
pub const COUNTS_MAX: u64 = 1 << 48;
pub const FLOWS: u32 = 16;
pub const TARGET: (u64, u64) = (1_000, 100_000);
pub const BUFFER: (u64, u64) = (1, 16_777_216);
pub const SLOTS: (u64, u64) = (1, 65_536);
pub const RATE: (u64, u64) = (1, 1_250_000_000);
pub const SIZE: (u64, u64) = (1, 65_535);
pub const DELAY_MAX: u64 = 10_000_000;
pub const TICK_PERIOD: u64 = 16_000;
pub const FULL_ALLOWANCE: u64 = 142_000;
pub const RESET_TIMEOUT: u64 = 1_000_000;
pub const LOW_DELAY: u64 = 5_000;
pub const HIGH_DELAY: u64 = 200_000;
pub const MEAN_PACKET: u64 = 1_024;
pub const SMALL_QUEUE: u64 = 2_048;
pub const WHOLE: u64 = 1 << 32;
/// 13.6, rounded toward zero.
pub const PROBABILITY_MAX: u64 = 58_411_555_225;
/// 0.85, rounded toward zero.
pub const LOW: u64 = 3_650_722_201;
/// 8.5.
pub const HIGH: u64 = 36_507_222_016;
/// The first probability not below one tenth.
pub const TENTH: u64 = 429_496_730;
/// 0.02, rounded toward zero.
pub const CAP: i64 = 85_899_345;

pub const INACTIVE: u64 = 0;
pub const QUIESCENT: u64 = 1;
pub const ACTIVE: u64 = 2;

/// The places of the verdicts in a row; nothing raises the one of marks.
pub const ENQUEUED: usize = 0;
pub const DROPPED_BYTES: usize = 2;
pub const DROPPED_SLOTS: usize = 3;
pub const DROPPED_EARLY: usize = 4;

/// Each band of the drop probability: its last value, and the divisor k.
pub const BANDS: [(u64, i64); 9] = [
    (4_294, 65_536),
    (42_949, 16_384),
    (429_496, 4_096),
    (4_294_967, 1_024),
    (42_949_672, 256),
    (429_496_729, 64),
    (4_294_967_295, 16),
    (42_949_672_959, 4),
    (PROBABILITY_MAX, 1),
];

pub fn within(value: u64, (least, most): (u64, u64)) -> bool {
    least <= value && value <= most
}
