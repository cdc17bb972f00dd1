//! Memory for one slice at a time, laid so that an access past its end is noticed.
//!
//! A proof of the library does not cover the compiler's back end. Fenced memory ends where a page
//! starts that nobody may read or write: an access past the end stops the program, and one before
//! the start is likely to be noticed. A heap block has exactly the length of its slice, so that
//! valgrind sees any access around it.

use std::alloc::{alloc, dealloc, handle_alloc_error, Layout};
use std::ffi::c_void;

extern "C" {
    fn mmap(at: *mut c_void, n: usize, prot: i32, flags: i32, fd: i32, from: i64) -> *mut c_void;
    fn mprotect(at: *mut c_void, length: usize, protection: i32) -> i32;
}

const PAGE: usize = 4096;
const NO_ACCESS: i32 = 0;
const READ_AND_WRITE: i32 = 3;
const PRIVATE_AND_ANONYMOUS: i32 = 0x22;

/// The bytes in front of each fenced slice that must stay as they are.
const MARGIN: usize = 64;
const MARK: u8 = 0xa5;

/// Where slices are laid.
#[derive(Clone, Copy, PartialEq, Eq)]
pub enum Memory {
    /// In front of a closed page.
    Fenced,
    /// In a heap block of their own.
    Heap,
}

/// Room for one slice at a time.
pub struct Fence {
    memory: Memory,
    /// The end of the fenced room.
    end: *mut u8,
    room: usize,
    /// The slice lent last, and its bytes.
    start: *mut u8,
    lent: usize,
    /// The heap block of that slice.
    block: Option<Layout>,
}

impl Fence {
    /// Room for so many bytes.
    pub fn new(memory: Memory, bytes: usize) -> Fence {
        let (end, room) = match memory {
            Memory::Fenced => fenced(bytes),
            Memory::Heap => (std::ptr::null_mut(), bytes),
        };
        Fence {
            memory,
            end,
            room,
            start: end,
            lent: 0,
            block: None,
        }
    }

    /// Copies a slice.
    pub fn lend<T: Copy>(&mut self, from: &[T]) -> *mut T {
        let start = self.lay(from);
        // SAFETY: `lay` made place for as many bytes as the slice has.
        unsafe { std::ptr::copy_nonoverlapping(from.as_ptr(), start, from.len()) };
        start
    }

    /// Lends a slice that the library shall write. Fenced, it holds what it is given; a heap block
    /// holds nothing, so that valgrind sees where what was there matters.
    pub fn lend_output<T: Copy>(&mut self, from: &[T]) -> *mut T {
        match self.memory {
            Memory::Fenced => self.lend(from),
            Memory::Heap => self.lay(from),
        }
    }

    /// Makes place for a slice.
    fn lay<T: Copy>(&mut self, slice: &[T]) -> *mut T {
        let bytes = std::mem::size_of_val(slice);
        assert!(bytes <= self.room, "a slice too long for its room");
        self.lent = bytes;
        match self.memory {
            Memory::Fenced => self.lay_fenced(),
            Memory::Heap => self.lay_block(Layout::for_value(slice)),
        }
        self.start as *mut T
    }

    /// Makes the slice end where the closed page starts, behind a margin.
    fn lay_fenced(&mut self) {
        // SAFETY: the margin and the slice lie within the mapping, which has room for both.
        unsafe {
            self.start = self.end.sub(self.lent);
            std::ptr::write_bytes(self.start.sub(MARGIN), MARK, MARGIN);
        }
    }

    /// Makes a heap block in place of the last one; a slice of no element has none.
    fn lay_block(&mut self, layout: Layout) {
        self.free();
        self.start = layout.align() as *mut u8;
        if layout.size() > 0 {
            // SAFETY: the layout has a size.
            self.start = unsafe { alloc(layout) };
            if self.start.is_null() {
                handle_alloc_error(layout);
            }
            self.block = Some(layout);
        }
    }

    /// Gives the heap block back.
    fn free(&mut self) {
        if let Some(layout) = self.block.take() {
            // SAFETY: `lay_block` made this block by this layout.
            unsafe { dealloc(self.start, layout) };
        }
    }

    /// The slice as it is now.
    pub fn read<T: Copy>(&self) -> &[T] {
        let length = self.lent / std::mem::size_of::<T>();
        // SAFETY: `lay` made place for these bytes as values of this type.
        unsafe { std::slice::from_raw_parts(self.start as *const T, length) }
    }

    /// Whether the bytes in front of a fenced slice are as they were.
    pub fn margin_is_whole(&self) -> bool {
        if self.memory == Memory::Heap {
            return true;
        }
        // SAFETY: `lay_fenced` wrote these bytes.
        let margin = unsafe { std::slice::from_raw_parts(self.start.sub(MARGIN), MARGIN) };
        margin.iter().all(|byte| *byte == MARK)
    }
}

impl Drop for Fence {
    fn drop(&mut self) {
        self.free();
    }
}

/// A mapping for so many bytes and a margin whose last page is closed: where that page starts, and
/// the bytes that fit.
fn fenced(bytes: usize) -> (*mut u8, usize) {
    let length = (bytes + MARGIN).next_multiple_of(PAGE);
    // SAFETY: a fresh private mapping; its last page is then closed to all access.
    unsafe {
        let start = mmap(
            std::ptr::null_mut(),
            length + PAGE,
            READ_AND_WRITE,
            PRIVATE_AND_ANONYMOUS,
            -1,
            0,
        ) as *mut u8;
        assert!(start as isize != -1, "no memory for a fenced slice");
        let end = start.add(length);
        assert_eq!(mprotect(end as *mut c_void, PAGE, NO_ACCESS), 0);
        (end, length - MARGIN)
    }
}
