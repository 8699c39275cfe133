//! Buffers that end at a page which nobody may touch: a read or a write one byte past one ends the
//! test run.
#![allow(unsafe_code)]

use std::cell::RefCell;
use std::ops::{Deref, DerefMut};

const PAGE: usize = 4096;
/// What stands beside the buffer on its own pages.
pub const BESIDE: u8 = 0xC5;

const NONE: i32 = 0;
const READ_WRITE: i32 = 3;
/// MAP_PRIVATE and MAP_ANONYMOUS of Linux.
const OWN: i32 = 0x22;

unsafe extern "C" {
    fn mmap(at: *mut u8, length: usize, rights: i32, flags: i32, file: i32, from: i64) -> *mut u8;
    fn mprotect(at: *mut u8, length: usize, rights: i32) -> i32;
}

/// Pages with a closed one before and one behind them. They are never given back, but used again.
struct Pages {
    first: *mut u8,
    count: usize,
}

impl Pages {
    fn new(count: usize) -> Pages {
        // SAFETY: a fresh mapping of that many pages, of which the ones between are opened.
        unsafe {
            let whole = mmap(std::ptr::null_mut(), (count + 2) * PAGE, NONE, OWN, -1, 0);
            assert_ne!(whole as isize, -1, "pages can be had");
            let first = whole.add(PAGE);
            assert_eq!(mprotect(first, count * PAGE, READ_WRITE), 0, "pages can be opened");
            Pages { first, count }
        }
    }

    fn bytes(&mut self) -> &mut [u8] {
        // SAFETY: the pages are open, and nobody else has them.
        unsafe { std::slice::from_raw_parts_mut(self.first, self.count * PAGE) }
    }
}

thread_local! {
    static SPARE: RefCell<Vec<Pages>> = const { RefCell::new(Vec::new()) };
}

/// A copy of bytes that ends where a closed page begins, or begins where one ends.
pub struct Guarded {
    pages: Option<Pages>,
    from: usize,
    length: usize,
}

impl Guarded {
    /// The copy ends at a closed page.
    pub fn new(bytes: &[u8]) -> Guarded {
        Guarded::at(bytes, true)
    }

    /// The copy ends at a closed page, or begins at one.
    pub fn at(bytes: &[u8], end: bool) -> Guarded {
        let count = bytes.len().div_ceil(PAGE).max(1);
        let spare = SPARE.with_borrow_mut(|spare| {
            let at = spare.iter().rposition(|pages| pages.count == count)?;
            Some(spare.swap_remove(at))
        });
        let mut pages = spare.unwrap_or_else(|| Pages::new(count));
        let from = if end { count * PAGE - bytes.len() } else { 0 };
        let whole = pages.bytes();
        whole.fill(BESIDE);
        whole[from..from + bytes.len()].copy_from_slice(bytes);
        Guarded { pages: Some(pages), from, length: bytes.len() }
    }

    fn whole(&self) -> &[u8] {
        let pages = self.pages.as_ref().expect("there until it is dropped");
        // SAFETY: the pages are open, and this value has them.
        unsafe { std::slice::from_raw_parts(pages.first, pages.count * PAGE) }
    }

    /// Whether what stands beside the copy is as it was.
    pub fn intact(&self) -> bool {
        let (before, rest) = self.whole().split_at(self.from);
        before.iter().chain(&rest[self.length..]).all(|byte| *byte == BESIDE)
    }
}

impl Deref for Guarded {
    type Target = [u8];

    fn deref(&self) -> &[u8] {
        &self.whole()[self.from..self.from + self.length]
    }
}

impl DerefMut for Guarded {
    fn deref_mut(&mut self) -> &mut [u8] {
        let (from, length) = (self.from, self.length);
        &mut self.pages.as_mut().expect("there until it is dropped").bytes()[from..from + length]
    }
}

impl Drop for Guarded {
    fn drop(&mut self) {
        if let Some(pages) = self.pages.take() {
            SPARE.with_borrow_mut(|spare| spare.push(pages));
        }
    }
}

/// What a wrong library would do: reads five bytes past the end of its input.
pub fn over_read(bytes: &[u8]) -> u8 {
    let past = bytes.as_ptr().wrapping_add(bytes.len() + 4);
    // SAFETY: none: this is the fault that the closed page is there to show.
    unsafe { std::ptr::read_volatile(past) }
}
