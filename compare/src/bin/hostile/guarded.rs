//! Memory between two pages that no one may touch: a call that reads or writes behind what it was lent, or before it, ends the
//! program, and what it writes beside it, where the pages are open, is seen.

use std::ffi::{c_int, c_long, c_void};
use std::slice;

unsafe extern "C" {
    fn mmap(
        address: *mut c_void,
        length: usize,
        protection: c_int,
        flags: c_int,
        file: c_int,
        offset: i64,
    ) -> *mut c_void;
    fn mprotect(address: *mut c_void, length: usize, protection: c_int) -> c_int;
    fn sysconf(name: c_int) -> c_long;
}

const CLOSED: c_int = 0;
const OPEN: c_int = 3;
const PRIVATE_AND_NO_FILE: c_int = 0x22;
const PAGE_SIZE: c_int = 30;

/// What stands in open pages beside what is lent.
const BESIDE: u8 = 0x5a;

/// Open pages between two closed ones.
pub struct Region {
    start: *mut u8,
    length: usize,
}

impl Region {
    pub fn new(octets: usize) -> Self {
        let page = unsafe { sysconf(PAGE_SIZE) } as usize;
        let length = octets.div_ceil(page) * page;
        unsafe {
            let all = mmap(std::ptr::null_mut(), length + 2 * page, CLOSED, PRIVATE_AND_NO_FILE, -1, 0);
            assert!(!all.is_null() && all as isize != -1, "mmap gives memory");
            let start = all.cast::<u8>().add(page);
            assert_eq!(mprotect(start.cast(), length, OPEN), 0, "mprotect opens its pages");
            slice::from_raw_parts_mut(start, length).fill(BESIDE);
            Self { start, length }
        }
    }

    pub fn holds(&self, octets: usize) -> bool {
        octets <= self.length
    }

    /// Where so many octets stand: right before the closed page behind, or right behind the one before.
    pub fn place(&self, octets: usize, at_end: bool) -> *mut u8 {
        unsafe { self.start.add(if at_end { self.length - octets } else { 0 }) }
    }

    /// Lends octets there.
    pub fn lend(&mut self, octets: &[u8], at_end: bool) -> *mut u8 {
        let place = self.place(octets.len(), at_end);
        unsafe { slice::from_raw_parts_mut(place, octets.len()) }.copy_from_slice(octets);
        place
    }

    /// What stands there after a call; none where something beside it has changed. Then all is as before it was lent.
    pub fn take(&mut self, octets: usize, at_end: bool) -> Option<Vec<u8>> {
        let all = unsafe { slice::from_raw_parts_mut(self.start, self.length) };
        let at = if at_end { self.length - octets } else { 0 };
        let beside = all[..at].iter().chain(&all[at + octets..]).all(|&octet| octet == BESIDE);
        let lent = all[at..at + octets].to_vec();
        match beside {
            true => all[at..at + octets].fill(BESIDE),
            false => all.fill(BESIDE),
        }
        beside.then_some(lent)
    }
}
