//! Lends guarded memory to the library's comparison.

use super::model::Compared;
use crate::shared::area::Area;
use crate::watch::watched;

extern "C" {
    fn obikuteru_compare(
        first: *const u8,
        first_len: usize,
        second: *const u8,
        second_len: usize,
        found: *mut Compared,
    ) -> u32;
}

pub struct Lender {
    first: Area,
    second: Area,
    found: Area,
}

impl Lender {
    pub fn new(at_end: bool) -> Lender {
        let log = || Area::new(4_010_000, at_end);
        Lender { first: log(), second: log(), found: Area::new(32, at_end) }
    }

    pub fn compare(&mut self, first: &[u8], second: &[u8]) -> (u32, Compared) {
        self.first.lend(first);
        self.second.lend(second);
        self.found.lend(&[0xA5_u8; 32]);
        let (a, b, found) = (self.first.read(), self.second.read(), self.found.write());
        let numbers = [first.len() as u64, second.len() as u64];
        let answer = watched("compare, two lengths", numbers, || unsafe {
            obikuteru_compare(a, first.len(), b, second.len(), found)
        });
        (answer, self.found.content()[0])
    }

    /// The same with one log lent twice.
    pub fn compare_itself(&mut self, log: &[u8]) -> (u32, Compared) {
        self.first.lend(log);
        self.found.lend(&[0xA5_u8; 32]);
        let (at, found, length) = (self.first.read(), self.found.write(), log.len());
        let answer = watched("compare with itself, length", [length as u64, 0], || unsafe {
            obikuteru_compare(at, length, at, length, found)
        });
        (answer, self.found.content()[0])
    }
}
