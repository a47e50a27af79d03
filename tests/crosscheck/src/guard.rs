//! Bytes that end at a page which nobody may touch, and begin after one if they are whole pages: an access outside the lent
//! memory ends the check at once.
use std::ops::{Deref, DerefMut};

const PAGE: usize = 4096;
const NO_ACCESS: i32 = 0;
const READ_WRITE: i32 = 3;
const PRIVATE_ANONYMOUS: i32 = 0x22;

extern "C" {
    fn mmap(address: *mut u8, length: usize, protection: i32, flags: i32, file: i32, offset: i64) -> *mut u8;
    fn mprotect(address: *mut u8, length: usize, protection: i32) -> i32;
    fn munmap(address: *mut u8, length: usize) -> i32;
}

pub struct Guarded {
    base: *mut u8,
    mapped: usize,
    bytes: *mut u8,
    length: usize,
}

impl Guarded {
    pub fn new(bytes: &[u8]) -> Guarded {
        let length = bytes.len();
        let pages = length.div_ceil(PAGE);
        let mapped = (pages + 2) * PAGE;
        // a mapping of our own: its first and last page stay without access
        let (base, start) = unsafe {
            let base = mmap(std::ptr::null_mut(), mapped, NO_ACCESS, PRIVATE_ANONYMOUS, -1, 0);
            assert!(base as isize != -1, "no memory");
            let opened = pages == 0 || mprotect(base.add(PAGE), pages * PAGE, READ_WRITE) == 0;
            assert!(opened, "no memory");
            (base, base.add((pages + 1) * PAGE - length))
        };
        let mut guarded = Guarded { base, mapped, bytes: start, length };
        guarded.copy_from_slice(bytes);
        guarded
    }
}

impl Deref for Guarded {
    type Target = [u8];

    fn deref(&self) -> &[u8] {
        unsafe { std::slice::from_raw_parts(self.bytes, self.length) }
    }
}

impl DerefMut for Guarded {
    fn deref_mut(&mut self) -> &mut [u8] {
        unsafe { std::slice::from_raw_parts_mut(self.bytes, self.length) }
    }
}

impl Drop for Guarded {
    fn drop(&mut self) {
        unsafe { munmap(self.base, self.mapped) };
    }
}
