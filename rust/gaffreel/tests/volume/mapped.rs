//! A volume in memory that is mapped for reading only, up to a page that is not mapped for anything. A call that stores to the
//! volume, or reads behind its end, is ended by a signal, and the test program with it.
//!
//! All unsafe code of these tests stands here. The declarations and numbers are those of Linux on x86-64.
#![allow(unsafe_code)]

use gaffreel::volume::SECTOR_LENGTH;
use std::ffi::{c_int, c_void};
use std::{fs, ptr, slice};

unsafe extern "C" {
    fn mmap(
        address: *mut c_void,
        length: usize,
        protection: c_int,
        flags: c_int,
        file: c_int,
        offset: i64,
    ) -> *mut c_void;
    fn mprotect(address: *mut c_void, length: usize, protection: c_int) -> c_int;
    fn munmap(address: *mut c_void, length: usize) -> c_int;
}

const NO_ACCESS: c_int = 0;
const READ: c_int = 1;
const WRITE: c_int = 2;

/// Memory of this process alone, not of a file.
const PRIVATE_AND_ANONYMOUS: c_int = 0x22;
const NO_FILE: c_int = -1;

const PAGE: usize = 4096;

/// The volume's bytes end where the page that is not mapped begins.
pub struct Mapped {
    pages: *mut c_void,
    /// The length of the pages before the last.
    readable: usize,
    length: usize,
}

impl Mapped {
    pub fn new(bytes: &[u8]) -> Mapped {
        let readable = bytes.len().next_multiple_of(PAGE);
        // SAFETY: new memory is asked for, at no address of the caller's.
        let pages = unsafe {
            mmap(
                ptr::null_mut(),
                readable + PAGE,
                NO_ACCESS,
                PRIVATE_AND_ANONYMOUS,
                NO_FILE,
                0,
            )
        };
        assert_ne!(pages.addr(), usize::MAX, "no memory is mapped");
        let mut mapped = Mapped {
            pages,
            readable,
            length: bytes.len(),
        };
        mapped.put(0, bytes);
        mapped
    }

    pub fn bytes(&self) -> &[u8] {
        // SAFETY: the bytes lie in memory that may be read until the mapping is dropped, and only `put`, which borrows it
        // mutably, changes them.
        unsafe { slice::from_raw_parts(self.start(), self.length) }
    }

    /// Stores a sector, as the volume's owner does.
    pub fn store(&mut self, sector: usize, content: &[u8]) {
        self.put(sector * SECTOR_LENGTH, content);
    }

    /// Replaces bytes from a place on. For this alone they may be written.
    pub fn put(&mut self, place: usize, bytes: &[u8]) {
        assert!(place + bytes.len() <= self.length);
        self.protect(READ | WRITE);
        // SAFETY: the place and the bytes behind it lie in the volume, as asserted, which may be written and is lent to nobody.
        unsafe { ptr::copy_nonoverlapping(bytes.as_ptr(), self.start().add(place), bytes.len()) };
        self.protect(READ);
    }

    /// The volume's first byte.
    fn start(&self) -> *mut u8 {
        self.pages
            .cast::<u8>()
            .wrapping_add(self.readable - self.length)
    }

    fn protect(&self, protection: c_int) {
        // SAFETY: the pages are this mapping's, and no reference to them outlives a change to how they may be used.
        let failed = unsafe { mprotect(self.pages, self.readable, protection) };
        assert_eq!(failed, 0);
    }
}

impl AsRef<[u8]> for Mapped {
    fn as_ref(&self) -> &[u8] {
        self.bytes()
    }
}

impl Drop for Mapped {
    fn drop(&mut self) {
        // SAFETY: the pages are this mapping's, and nothing refers to them any more.
        unsafe { munmap(self.pages, self.readable + PAGE) };
    }
}

/// How the memory at an address may be used, as the kernel has it.
fn protection(address: usize) -> String {
    let maps = fs::read_to_string("/proc/self/maps").unwrap();
    let number = |text| usize::from_str_radix(text, 16).unwrap();
    let found = maps.lines().find_map(|line| {
        let (range, rest) = line.split_once(' ')?;
        let (first, end) = range.split_once('-')?;
        (number(first)..number(end))
            .contains(&address)
            .then_some(&rest[..4])
    });
    found.expect("the memory is mapped").to_string()
}

#[test]
fn stays_read_only() {
    for length in [0, 1, 512, PAGE, 3 * PAGE + 512] {
        let mut mapped = Mapped::new(&vec![7; length]);
        assert_eq!(mapped.bytes(), vec![7; length]);
        let start = mapped.bytes().as_ptr().addr();
        if length >= 512 {
            mapped.store(0, &[8; 512]);
            assert_eq!(mapped.bytes()[..512], [8; 512]);
            assert_eq!(mapped.bytes()[512..], vec![7; length - 512]);
        }
        if length > 0 {
            assert_eq!(protection(start), "r--p");
        }
        assert_eq!(protection(start + length), "---p");
    }
}
