//! Memory that ends right before a page that faults.

use std::ffi::c_void;
use std::ptr;

// libc, on Linux.
extern "C" {
    fn mmap(
        at: *mut c_void,
        len: usize,
        prot: i32,
        flags: i32,
        fd: i32,
        offset: i64,
    ) -> *mut c_void;
    fn mprotect(at: *mut c_void, len: usize, prot: i32) -> i32;
}

const PROT_NONE: i32 = 0;
const PROT_READ: i32 = 1;
const PROT_WRITE: i32 = 2;
const MAP_PRIVATE_ANONYMOUS: i32 = 0x22;

/// The largest package that is tried.
pub const ROOM: usize = 1 << 20;
const PAGE: usize = 4096;

/// So many zero bytes, read-only; they take no memory.
pub fn zeros(count: usize) -> &'static [u8] {
    unsafe {
        let all = mmap(
            ptr::null_mut(),
            count,
            PROT_READ,
            MAP_PRIVATE_ANONYMOUS,
            -1,
            0,
        );
        assert!(all as isize != -1, "mmap");
        std::slice::from_raw_parts(all as *const u8, count)
    }
}

pub struct Fence(*mut u8);

impl Fence {
    pub fn new() -> Fence {
        unsafe {
            let all = mmap(
                ptr::null_mut(),
                ROOM + PAGE,
                PROT_READ | PROT_WRITE,
                MAP_PRIVATE_ANONYMOUS,
                -1,
                0,
            );
            assert!(all as isize != -1, "mmap");
            let base = all as *mut u8;
            let guarded = mprotect(base.add(ROOM).cast(), PAGE, PROT_NONE);
            assert!(guarded == 0, "mprotect");
            Fence(base)
        }
    }

    /// A copy of the bytes, read-only, that ends at the fence.
    pub fn lend(&self, bytes: &[u8]) -> *const u8 {
        assert!(bytes.len() <= ROOM);
        let pages = bytes.len().next_multiple_of(PAGE);
        unsafe {
            let first = self.0.add(ROOM - pages).cast();
            let at = self.0.add(ROOM - bytes.len());
            assert!(mprotect(first, pages, PROT_READ | PROT_WRITE) == 0);
            ptr::copy_nonoverlapping(bytes.as_ptr(), at, bytes.len());
            assert!(mprotect(first, pages, PROT_READ) == 0);
            at
        }
    }

    /// The last bytes before the fence, to write to.
    pub fn last(&mut self, count: usize) -> &mut [u8] {
        assert!(count <= ROOM);
        unsafe { std::slice::from_raw_parts_mut(self.0.add(ROOM - count), count) }
    }
}
