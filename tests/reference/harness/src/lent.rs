//! Memory to lend: with guard bytes on both sides, or flush against a page that nobody may touch.

use std::ffi::c_void;

extern "C" {
    fn mmap(at: *mut c_void, len: usize, protection: i32, flags: i32, file: i32, offset: i64) -> *mut c_void;
    fn mprotect(at: *mut c_void, len: usize, protection: i32) -> i32;
}

const READ_WRITE: i32 = 3;
const NO_ACCESS: i32 = 0;
const PRIVATE_ANONYMOUS: i32 = 0x22;
const PAGE: usize = 4096;
const GUARD: usize = 64;
const GUARD_BYTE: u8 = 0xa5;

/// Room for one stretch at a time, between two forbidden pages.
pub struct Arena {
    start: *mut u8,
    room: usize,
    at: usize,
    len: usize,
    pub null_when_empty: bool,
}

impl Arena {
    pub fn new(pages: usize) -> Arena {
        let room = pages * PAGE;
        let whole = room + 2 * PAGE;
        unsafe {
            let base = mmap(std::ptr::null_mut(), whole, READ_WRITE, PRIVATE_ANONYMOUS, -1, 0) as *mut u8;
            assert!(base as isize != -1, "memory for the buffers");
            for forbidden in [base, base.add(PAGE + room)] {
                assert_eq!(mprotect(forbidden as *mut c_void, PAGE, NO_ACCESS), 0);
            }
            Arena { start: base.add(PAGE), room, at: 0, len: 0, null_when_empty: false }
        }
    }

    /// Places the content, at a multiple of the alignment, and returns where.
    pub fn place(&mut self, content: &[u8], flush: bool, align: usize) -> *mut u8 {
        self.len = content.len();
        let behind = if flush { 0 } else { GUARD };
        assert!(self.len + 2 * GUARD + align <= self.room, "the arena is too small");
        self.at = (self.room - behind - self.len) / align * align;
        let at = self.at;
        let memory = self.memory();
        memory[at - GUARD..].fill(GUARD_BYTE);
        memory[at..at + content.len()].copy_from_slice(content);
        if self.null_when_empty && content.is_empty() {
            return std::ptr::null_mut();
        }
        unsafe { self.start.add(self.at) }
    }

    /// Places entries of 16 bits, and returns where and how many.
    pub fn place_entries(&mut self, entries: &[u16], flush: bool) -> (*mut u16, usize) {
        let content: Vec<u8> = entries.iter().flat_map(|entry| entry.to_ne_bytes()).collect();
        (self.place(&content, flush, align_of::<u16>()) as *mut u16, entries.len())
    }

    /// What was placed as entries, as it stands now.
    pub fn entries(&mut self) -> Vec<u16> {
        self.content().chunks_exact(size_of::<u16>()).map(|pair| u16::from_ne_bytes([pair[0], pair[1]])).collect()
    }

    pub fn content(&mut self) -> &[u8] {
        let (at, len) = (self.at, self.len);
        &self.memory()[at..at + len]
    }

    pub fn guards_hold(&mut self) -> bool {
        let (at, end) = (self.at, self.at + self.len);
        let memory = self.memory();
        memory[at - GUARD..at].iter().chain(&memory[end..]).all(|&byte| byte == GUARD_BYTE)
    }

    fn memory(&mut self) -> &mut [u8] {
        unsafe { std::slice::from_raw_parts_mut(self.start, self.room) }
    }
}
