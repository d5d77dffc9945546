//! Buffers that end right before an unreadable page, and start right after one.

use std::ffi::c_void;

extern "C" {
    fn mmap(address: *mut c_void, length: usize, protection: i32, flags: i32, file: i32, offset: i64) -> *mut c_void;
    fn mprotect(address: *mut c_void, length: usize, protection: i32) -> i32;
}

const PAGE: usize = 4096;
const ROOM: usize = 64 * PAGE;

/// Runs of pages, each with an unreadable page before and after it.
pub struct Space {
    runs: Vec<*mut u8>,
    used: usize,
    at_end: bool,
}

impl Space {
    pub fn new() -> Space {
        let runs = (0..8)
            .map(|_| unsafe {
                // PROT_NONE, then read and write in the middle; MAP_PRIVATE and MAP_ANONYMOUS
                let start = mmap(std::ptr::null_mut(), ROOM + 2 * PAGE, 0, 0x22, -1, 0);
                assert!(start as isize != -1, "mmap failed");
                let middle = (start as *mut u8).add(PAGE);
                assert_eq!(mprotect(middle as *mut c_void, ROOM, 3), 0, "mprotect failed");
                middle
            })
            .collect();
        Space { runs, used: 0, at_end: false }
    }

    /// A new input: all runs are free again, and buffers go to the other edge.
    pub fn again(&mut self) {
        self.used = 0;
        self.at_end = !self.at_end;
    }

    /// A copy of bytes in a run of its own, the last one, which is free again with each call.
    pub fn again_with(&mut self, data: &[u8]) -> *const u8 {
        assert!(data.len() <= ROOM);
        let run = self.runs[self.runs.len() - 1];
        let place = if self.at_end { unsafe { run.add(ROOM - data.len()) } } else { run };
        unsafe { std::ptr::copy_nonoverlapping(data.as_ptr(), place, data.len()) };
        place
    }

    /// `length` bytes, 4-byte aligned where they start at an edge, or that end at one.
    pub fn lend(&mut self, length: usize) -> *mut u8 {
        assert!(length <= ROOM);
        let run = self.runs[self.used];
        self.used += 1;
        if self.at_end {
            unsafe { run.add(ROOM - length) }
        } else {
            run
        }
    }
}
