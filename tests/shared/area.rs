//! Memory that stands right before or right after pages that nobody may touch: a read or write
//! outside of what was lent stops the program. What fills whole pages stands between two such pages.
//! What a call must not write is read-only meanwhile.

use std::mem::size_of;
use std::ptr::{copy_nonoverlapping, null_mut};
use std::slice::{from_raw_parts, from_raw_parts_mut};

/// The length of a page on x86-64, and of one under the emulator of AArch64.
pub const PAGE: usize = 4_096;
/// How much nobody may touch on either side.
const GUARD: usize = 16 * PAGE;
const NOTHING: i32 = 0;
pub const READ: i32 = 1;
pub const READ_WRITE: i32 = 3;
const PRIVATE_ANONYMOUS: i32 = 0x22;

extern "C" {
    fn mmap(at: *mut u8, length: usize, access: i32, flags: i32, file: i32, from: i64) -> *mut u8;
    fn munmap(at: *mut u8, length: usize) -> i32;
    fn mprotect(at: *mut u8, length: usize, access: i32) -> i32;
    fn getpagesize() -> i32;
}

/// Numbers and records that are lent as they stand in memory, in the order of the C header.
pub trait Plain: Copy {}
impl Plain for u8 {}
impl Plain for u32 {}
impl Plain for u64 {}

pub struct Area {
    body: *mut u8,
    most: usize,
    at_end: bool,
    /// How many bytes are lent, how many of the pages they stand in may be touched, and how.
    lent: usize,
    open: usize,
    access: i32,
}

impl Area {
    /// Room for `most` bytes. What is lent stands at its very end, or at its very beginning.
    pub fn new(most: usize, at_end: bool) -> Area {
        assert!(unsafe { getpagesize() } as usize == PAGE, "a page has another length than 4,096");
        let most = most.max(1).next_multiple_of(PAGE);
        let all = most + 2 * GUARD;
        let base = unsafe { mmap(null_mut(), all, NOTHING, PRIVATE_ANONYMOUS, -1, 0) };
        assert!(base as isize != -1, "the system gave no memory for the guarded pages");
        let body = base.wrapping_add(GUARD);
        Area { body, most, at_end, lent: 0, open: 0, access: NOTHING }
    }

    fn at(&self, bytes: usize) -> *mut u8 {
        assert!(bytes <= self.most, "too much for the guarded pages");
        self.body.wrapping_add(if self.at_end { self.most - bytes } else { 0 })
    }

    /// Changes the access to the open pages. Of none there is nothing to change, and the emulator of AArch64
    /// would refuse it.
    pub fn set_access(&mut self, access: i32) {
        if self.access != access && self.open > 0 {
            let result = unsafe { mprotect(self.at(self.open), self.open, access) };
            assert!(result == 0, "the system did not change the access to the guarded pages");
        }
        self.access = access;
    }

    /// Opens the pages of this many bytes, and no others.
    fn reopen(&mut self, bytes: usize) {
        let pages = bytes.next_multiple_of(PAGE);
        if pages != self.open {
            self.set_access(NOTHING);
            self.open = pages;
        }
        self.lent = bytes;
        self.set_access(READ_WRITE);
    }

    /// Lends a copy of this content.
    pub fn lend<T: Plain>(&mut self, content: &[T]) {
        self.reopen(size_of::<T>() * content.len());
        unsafe {
            copy_nonoverlapping(content.as_ptr(), self.at(self.lent) as *mut T, content.len())
        }
    }

    /// Where the lent memory stands, for a call that may write to it.
    pub fn write<T: Plain>(&mut self) -> *mut T {
        self.set_access(READ_WRITE);
        self.at(self.lent) as *mut T
    }

    /// Where the lent memory stands, for a call that may only read it.
    pub fn read<T: Plain>(&mut self) -> *const T {
        self.set_access(READ);
        self.at(self.lent) as *const T
    }

    /// What stands there now.
    pub fn content<T: Plain>(&self) -> &[T] {
        unsafe { from_raw_parts(self.at(self.lent) as *const T, self.lent / size_of::<T>()) }
    }

    pub fn change<T: Plain>(&mut self) -> &mut [T] {
        let at = self.write();
        unsafe { from_raw_parts_mut(at, self.lent / size_of::<T>()) }
    }

    pub fn bytes(&self) -> usize {
        self.lent
    }
}

impl Drop for Area {
    fn drop(&mut self) {
        unsafe { munmap(self.body.wrapping_sub(GUARD), self.most + 2 * GUARD) };
    }
}
