//! The flow of a packet (22).

use super::FLOWS;

pub type Key = [u8; 13];

/// Jenkins' one-at-a-time hash, on 32 bits.
pub fn hash(key: &Key) -> u32 {
    let mut h: u32 = 0;
    for &byte in key {
        h = h.wrapping_add(u32::from(byte));
        h = h.wrapping_add(h << 10);
        h ^= h >> 6;
    }
    h = h.wrapping_add(h << 3);
    h ^= h >> 11;
    h.wrapping_add(h << 15)
}

pub fn flow_of(key: &Key, salt: u32) -> usize {
    hash(key).wrapping_add(salt) as usize % FLOWS
}
