//! Buffers of more entries than 32 bits can say. All but the first entries are 0 and were never written, so that they take no memory.

use crate::guarded::{mmap, mprotect, munmap, PRIVATE_AND_EMPTY, READ_AND_WRITE};
use std::ffi::{c_int, c_void};
use std::marker::PhantomData;
use std::{ptr, slice};

const READ: c_int = 1;

/// A number for which every pattern of bits stands, zeros among them.
pub trait Number: Copy {}
impl Number for u8 {}
impl Number for u16 {}
impl Number for u32 {}

/// Some entries, and zeros behind them.
pub struct Vast<T> {
    at: *mut c_void,
    length: usize,
    entries: PhantomData<T>,
}

impl<T: Number> Vast<T> {
    pub fn new(first: &[T], length: usize) -> Vast<T> {
        assert!(first.len() <= length);
        // SAFETY: new pages, which nobody else has, with room for so many entries; their beginning is aligned for any number. Those
        // that the first entries are put into may be written.
        unsafe {
            let at = mmap(ptr::null_mut(), length * size_of::<T>(), READ, PRIVATE_AND_EMPTY, -1, 0);
            assert!(at as isize != -1, "no pages are left");
            assert_eq!(mprotect(at, size_of_val(first), READ_AND_WRITE), 0);
            ptr::copy_nonoverlapping(first.as_ptr(), at.cast(), first.len());
            Vast { at, length, entries: PhantomData }
        }
    }

    pub fn slice(&self) -> &[T] {
        // SAFETY: the pages have room for so many entries, and read as zeros where nothing was put.
        unsafe { slice::from_raw_parts(self.at.cast(), self.length) }
    }
}

impl<T> Drop for Vast<T> {
    fn drop(&mut self) {
        // SAFETY: the pages that `new` got, once.
        unsafe { munmap(self.at, self.length * size_of::<T>()) };
    }
}
