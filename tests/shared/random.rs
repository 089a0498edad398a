//! Random numbers by splitmix64: the same seed gives the same numbers.

pub struct Random {
    state: u64,
}

impl Random {
    pub fn new(seed: u64) -> Random {
        Random { state: seed }
    }

    /// Any 64-bit number.
    pub fn number(&mut self) -> u64 {
        self.state = self.state.wrapping_add(0x9e37_79b9_7f4a_7c15);
        let mut z = self.state;
        z = (z ^ (z >> 30)).wrapping_mul(0xbf58_476d_1ce4_e5b9);
        z = (z ^ (z >> 27)).wrapping_mul(0x94d0_49bb_1331_11eb);
        z ^ (z >> 31)
    }

    /// A number from `low` to `high`, both included; `low` if the range is empty.
    pub fn range(&mut self, low: u64, high: u64) -> u64 {
        let number = self.number();
        if high <= low {
            return low;
        }
        match (high - low).checked_add(1) {
            Some(width) => low + number % width,
            None => number,
        }
    }

    /// Like `range`, but small distances from `low` are as frequent as large ones.
    pub fn spread(&mut self, low: u64, high: u64) -> u64 {
        let bits = 64 - high.saturating_sub(low).leading_zeros();
        let kept = self.range(0, u64::from(bits)) as u32;
        let most = if kept == 64 { u64::MAX } else { (1 << kept) - 1 };
        low + self.range(0, most.min(high.saturating_sub(low)))
    }

    pub fn one_in(&mut self, n: u64) -> bool {
        self.range(1, n) == 1
    }

    pub fn pick<T: Copy>(&mut self, list: &[T]) -> T {
        list[self.range(0, list.len() as u64 - 1) as usize]
    }
}
