//! Lends guarded memory to the library's replay. Log and tables stay lent from call to call.

use super::model::Replayed;
use crate::shared::area::Area;
use crate::watch::watched;

extern "C" {
    fn obikuteru_replay(
        log: *const u8,
        log_len: usize,
        handles: *mut u32,
        handles_len: usize,
        sizes: *mut u32,
        sizes_len: usize,
        found: *mut Replayed,
    ) -> u32;
}

pub struct Lender {
    log: Area,
    handles: Area,
    sizes: Area,
    found: Area,
}

impl Lender {
    pub fn new(at_end: bool) -> Lender {
        let table = || Area::new(4 * 65_600, at_end);
        let (log, found) = (Area::new(4_010_000, at_end), Area::new(40, at_end));
        Lender { log, handles: table(), sizes: table(), found }
    }

    pub fn lend(&mut self, log: &[u8]) {
        self.log.lend(log);
    }

    pub fn replay(&mut self, handles: &[u32], sizes: &[u32]) -> (u32, Replayed) {
        self.handles.lend(handles);
        self.sizes.lend(sizes);
        self.found.lend(&[0xA5_u8; 40]);
        let (log, length) = (self.log.read(), self.log.bytes());
        let (h, s, found) = (self.handles.write(), self.sizes.write(), self.found.write());
        let numbers = [length as u64, handles.len() as u64];
        let answer = watched("replay, length and handles", numbers, || unsafe {
            obikuteru_replay(log, length, h, handles.len(), s, sizes.len(), found)
        });
        (answer, self.found.content()[0])
    }

    pub fn tables(&self) -> (&[u32], &[u32]) {
        (self.handles.content(), self.sizes.content())
    }
}
