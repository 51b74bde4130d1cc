//! Buffers between two pages that may not be touched: a call that reads or writes a single entry beyond such a buffer, on the side where
//! it stands against the page, is stopped by the processor.

use std::ffi::{c_int, c_void};
use std::{ptr, slice};

const PAGE: usize = 4_096;
const NOTHING: c_int = 0;
pub(crate) const READ_AND_WRITE: c_int = 1 | 2;
pub(crate) const PRIVATE_AND_EMPTY: c_int = 0x02 | 0x20;

// As Linux on x86-64 has them; the standard library links them.
extern "C" {
    pub(crate) fn mmap(at: *mut c_void, length: usize, access: c_int, flags: c_int, file: c_int, offset: i64) -> *mut c_void;
    pub(crate) fn mprotect(at: *mut c_void, length: usize, access: c_int) -> c_int;
    pub(crate) fn munmap(at: *mut c_void, length: usize) -> c_int;
}

/// The side on which a buffer stands against a page that may not be touched.
#[derive(Clone, Copy, Debug, PartialEq, Eq)]
pub enum Side {
    Before,
    Behind,
}

/// A buffer in pages of its own.
pub struct Guarded<T> {
    whole: *mut u8,
    bytes: usize,
    at: *mut T,
    length: usize,
}

impl<T: Copy> Guarded<T> {
    pub fn new(contents: &[T], side: Side) -> Guarded<T> {
        let used = size_of_val(contents);
        let inner = used.div_ceil(PAGE).max(1) * PAGE;
        let bytes = inner + 2 * PAGE;
        // SAFETY: new pages, of which only the inner ones are ever used. Their beginning and their end are aligned for any number,
        // and so is what lies a whole number of entries before the end.
        unsafe {
            let whole = mmap(ptr::null_mut(), bytes, NOTHING, PRIVATE_AND_EMPTY, -1, 0).cast::<u8>();
            assert!(whole as isize != -1, "no pages are left");
            let first = whole.add(PAGE);
            assert_eq!(mprotect(first.cast(), inner, READ_AND_WRITE), 0);
            let at = match side {
                Side::Before => first.cast::<T>(),
                Side::Behind => first.add(inner - used).cast::<T>(),
            };
            ptr::copy_nonoverlapping(contents.as_ptr(), at, contents.len());
            Guarded { whole, bytes, at, length: contents.len() }
        }
    }

    pub fn slice(&self) -> &[T] {
        // SAFETY: so many entries were put there.
        unsafe { slice::from_raw_parts(self.at, self.length) }
    }

    pub fn slice_mut(&mut self) -> &mut [T] {
        // SAFETY: so many entries were put there, and nobody else has them.
        unsafe { slice::from_raw_parts_mut(self.at, self.length) }
    }

    /// The first entry that is not the buffer's, on the side of the page.
    pub fn beyond(&self, side: Side) -> *const T {
        match side {
            Side::Before => self.at.wrapping_sub(1),
            Side::Behind => self.at.wrapping_add(self.length),
        }
    }
}

impl Guarded<u32> {
    /// The entries as an array of start values.
    pub fn starts(&self) -> &[u32; 32] {
        self.slice().try_into().expect("32 start values")
    }

    pub fn starts_mut(&mut self) -> &mut [u32; 32] {
        self.slice_mut().try_into().expect("32 start values")
    }

    /// The entries as the three numbers of a note.
    pub fn note_mut(&mut self) -> &mut [u32; 3] {
        self.slice_mut().try_into().expect("three numbers")
    }
}

impl<T> Drop for Guarded<T> {
    fn drop(&mut self) {
        // SAFETY: the pages that `new` got, once.
        unsafe { munmap(self.whole.cast(), self.bytes) };
    }
}
