//! A queue of the library in memory of its own, for comparisons with other entries.

#[allow(dead_code)]
#[path = "library.rs"]
mod library;

use library::*;

/// A queue of the library, called one by one.
pub struct Own {
    pub record: [u64; WORDS],
    pub handles: Vec<u32>,
    pub sizes: Vec<u32>,
}

impl Own {
    /// A fresh queue in these tables: target, buffer, slots, profile and clock.
    pub fn fresh(settings: [u64; 5], handles: Vec<u32>, sizes: Vec<u32>) -> Own {
        let [target, buffer, slots, profile, clock] = settings;
        let mut own = Own { record: [0; WORDS], handles, sizes };
        let record = own.record.as_mut_ptr();
        // Safety: the record has as many words as the header says.
        unsafe { obikuteru_fresh(record, target, buffer, slots, profile, clock) };
        own
    }

    pub fn arrival(&mut self, clock: u64, (handle, size, ecn, u): (u32, u32, bool, u32)) -> u32 {
        let (h, s) = (&mut self.handles, &mut self.sizes);
        let (record, n) = (self.record.as_mut_ptr(), h.len());
        let (h, s) = (h.as_mut_ptr(), s.as_mut_ptr());
        // Safety: the tables have these lengths.
        unsafe { obikuteru_arrival(record, h, n, s, n, clock, handle, size, ecn, u) }
    }

    /// The answer and the packet, whose numbers are these where none is written.
    pub fn departure(&mut self, clock: u64, unwritten: [u32; 2]) -> (u32, [u32; 2]) {
        let mut packet = unwritten;
        let (record, n) = (self.record.as_mut_ptr(), self.handles.len());
        let (h, s, p) = (self.handles.as_ptr(), self.sizes.as_ptr(), packet.as_mut_ptr());
        // Safety: the tables have these lengths, and the packet two numbers.
        let answer = unsafe { obikuteru_departure(record, h, n, s, n, clock, p) };
        (answer, packet)
    }

    pub fn tick(&mut self, clock: u64) -> u32 {
        // Safety: the record has as many words as the header says.
        unsafe { obikuteru_tick(self.record.as_mut_ptr(), clock) }
    }
}
