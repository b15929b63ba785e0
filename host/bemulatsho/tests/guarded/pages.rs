//! Memory that ends at a page that cannot be touched, or begins behind one: a stray access ends the process with a signal.

use std::ffi::c_void;
use std::mem::{align_of, size_of};

extern "C" {
    fn mmap(at: *mut c_void, length: usize, protection: i32, flags: i32, file: i32, offset: i64) -> *mut c_void;
    fn mprotect(at: *mut c_void, length: usize, protection: i32) -> i32;
    fn munmap(at: *mut c_void, length: usize) -> i32;
}

const NONE: i32 = 0;
const READ_WRITE: i32 = 3;
const PRIVATE_ANONYMOUS: i32 = 0x22;
const PAGE: usize = 4096;

/// What can be lent of it, in bytes.
const ROOM: usize = 4 * PAGE;

/// Which end of the buffer lies at a guard.
#[derive(Clone, Copy)]
pub enum Guard {
    Before,
    After,
}

/// Memory between two pages that cannot be touched.
pub struct Guarded {
    pages: *mut u8,
}

impl Guarded {
    pub fn new() -> Guarded {
        // SAFETY: a new private mapping, of which the first and the last page lose every right.
        unsafe {
            let pages = mmap(std::ptr::null_mut(), ROOM + 2 * PAGE, READ_WRITE, PRIVATE_ANONYMOUS, -1, 0).cast::<u8>();
            assert!(!pages.is_null() && pages as isize != -1, "no memory for guarded pages");
            assert_eq!(mprotect(pages.cast(), PAGE, NONE), 0);
            assert_eq!(mprotect(pages.add(PAGE + ROOM).cast(), PAGE, NONE), 0);
            Guarded { pages }
        }
    }

    /// `length` elements at one of its ends.
    pub fn slice<T: Copy>(&mut self, guard: Guard, length: usize) -> &mut [T] {
        let bytes = length * size_of::<T>();
        assert!(bytes <= ROOM && PAGE.is_multiple_of(align_of::<T>()));
        let start = match guard {
            Guard::Before => PAGE,
            Guard::After => PAGE + ROOM - bytes,
        };
        // SAFETY: between the guards, aligned because a page and the size are; plain numbers and bools of 0 are valid.
        unsafe { std::slice::from_raw_parts_mut(self.pages.add(start).cast::<T>(), length) }
    }
}

impl Drop for Guarded {
    fn drop(&mut self) {
        // SAFETY: the mapping that `new` made; no slice of it outlives this.
        unsafe { munmap(self.pages.cast(), ROOM + 2 * PAGE) };
    }
}

/// Reads one element outside a buffer; only ever run by the test below, in a process of its own.
#[test]
#[ignore = "ends its process by a signal"]
fn touches_outside() {
    let mut page = Guarded::new();
    let behind = page.slice::<u16>(Guard::After, 128).as_ptr_range().end;
    // SAFETY: none: the page behind has no rights, and the read must end the process.
    let value = unsafe { behind.read_volatile() };
    println!("read {value}");
}

#[test]
fn a_guard_ends_whoever_touches_it() {
    use std::os::unix::process::ExitStatusExt;
    let program = std::env::current_exe().expect("this test");
    let ended = std::process::Command::new(program).args(["--ignored", "--exact", "pages::touches_outside"]).output().expect("it starts");
    assert!(ended.status.signal().is_some(), "{:?}", ended.status);
}
