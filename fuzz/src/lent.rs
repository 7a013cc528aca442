//! Memory that ends at a page which nothing may touch.

use std::ops::{Deref, DerefMut};

const PAGE: usize = 4_096;
const NOTHING: i32 = 0;
const READ_AND_WRITE: i32 = 3;
const PRIVATE_AND_ANONYMOUS: i32 = 0x22;

// SAFETY: the C library's own functions, with the parameters that 64-bit Linux gives them.
unsafe extern "C" {
    fn mmap(at: *mut u8, length: usize, may: i32, flags: i32, file: i32, offset: i64) -> *mut u8;
    fn mprotect(at: *mut u8, length: usize, may: i32) -> i32;
    fn munmap(at: *mut u8, length: usize) -> i32;
}

#[derive(Debug)]
pub struct Lent<T> {
    pages: *mut u8,
    length: usize,
    count: usize,
    things: *mut T,
}

impl<T: Copy> Lent<T> {
    /// A copy, whose last byte is the last before the untouchable page.
    pub fn copy(of: &[T]) -> Lent<T> {
        let bytes = size_of_val(of);
        let length = bytes.next_multiple_of(PAGE) + PAGE;
        // SAFETY: new pages, of which the last is made untouchable and the things are written
        // behind nothing; a thing's size is a multiple of its alignment, and a page's too.
        unsafe {
            let pages =
                mmap(std::ptr::null_mut(), length, READ_AND_WRITE, PRIVATE_AND_ANONYMOUS, -1, 0);
            assert!(pages.addr() != usize::MAX, "no memory");
            let end = pages.add(length - PAGE);
            assert_eq!(mprotect(end, PAGE, NOTHING), 0);
            let things = end.sub(bytes).cast::<T>();
            things.copy_from_nonoverlapping(of.as_ptr(), of.len());
            Lent { pages, length, count: of.len(), things }
        }
    }
}

impl<T> Deref for Lent<T> {
    type Target = [T];
    fn deref(&self) -> &[T] {
        // SAFETY: `copy` has written so many things there.
        unsafe { std::slice::from_raw_parts(self.things, self.count) }
    }
}

impl<T> DerefMut for Lent<T> {
    fn deref_mut(&mut self) -> &mut [T] {
        // SAFETY: as above, and they are this struct's alone.
        unsafe { std::slice::from_raw_parts_mut(self.things, self.count) }
    }
}

impl<T> Drop for Lent<T> {
    fn drop(&mut self) {
        // SAFETY: the pages of `copy`, which nothing refers to any more.
        unsafe {
            munmap(self.pages, self.length);
        }
    }
}
