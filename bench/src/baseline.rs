//! The C baseline: the only unsafe code here.
#![allow(unsafe_code)]
use std::ffi::{c_char, CStr};

use crate::captures::Line;

/// What a walk gives beside the counters.
#[repr(C)]
pub struct Walked {
    pub starts: usize,
    pub open: usize,
}

/// Symbols of a block, which a total counts the Starts of.
const BLOCK: usize = 256;

type Setup = unsafe extern "C" fn() -> *const c_char;
type Walk = unsafe extern "C" fn(u16, &mut [u64; 11], *const u8, *const u8, usize) -> Walked;

extern "C" {
    fn baseline_slicing_setup() -> *const c_char;
    fn baseline_slicing_walk(
        limit: u16,
        counters: &mut [u64; 11],
        octets: *const u8,
        marks: *const u8,
        length: usize,
    ) -> Walked;
    fn baseline_fill_totals(octets: *const u8, marks: *const u8, length: usize, totals: *mut u16);
    fn baseline_starts_before(octets: *const u8, marks: *const u8, place: usize) -> usize;
}

#[cfg(zlib)]
extern "C" {
    fn baseline_zlib_setup() -> *const c_char;
    fn baseline_zlib_walk(
        limit: u16,
        counters: &mut [u64; 11],
        octets: *const u8,
        marks: *const u8,
        length: usize,
    ) -> Walked;
}

#[cfg(isal)]
extern "C" {
    fn baseline_isal_setup() -> *const c_char;
    fn baseline_isal_walk(
        limit: u16,
        counters: &mut [u64; 11],
        octets: *const u8,
        marks: *const u8,
        length: usize,
    ) -> Walked;
}

/// One of the three builds of the C reader, made ready.
#[derive(Clone, Copy)]
pub struct Reader {
    walk: Walk,
}

impl Reader {
    // The reader, and the version of what computes its check.
    fn ready(setup: Setup, walk: Walk) -> (Reader, String) {
        // SAFETY: it is called from one thread, before any walk, and gives a string that stays.
        let version = unsafe { CStr::from_ptr(setup()) };
        (Reader { walk }, version.to_string_lossy().into_owned())
    }

    /// With a check of its own by slicing by 16.
    pub fn slicing() -> Reader {
        Reader::ready(baseline_slicing_setup, baseline_slicing_walk).0
    }

    /// With zlib's check, and zlib's version; nothing where zlib is not installed.
    pub fn zlib() -> Option<(Reader, String)> {
        #[cfg(zlib)]
        return Some(Reader::ready(baseline_zlib_setup, baseline_zlib_walk));
        #[cfg(not(zlib))]
        return None;
    }

    /// With libisal's check, by carry-less multiplication, and libisal's version; nothing where it
    /// is not installed.
    pub fn isal() -> Option<(Reader, String)> {
        #[cfg(isal)]
        return Some(Reader::ready(baseline_isal_setup, baseline_isal_walk));
        #[cfg(not(isal))]
        return None;
    }

    /// All there are.
    #[cfg(test)]
    pub fn all() -> Vec<Reader> {
        let libraries = [Reader::zlib(), Reader::isal()].into_iter().flatten();
        let libraries = libraries.map(|(reader, _)| reader);
        [Reader::slicing()].into_iter().chain(libraries).collect()
    }

    pub fn walk(&self, limit: u16, counters: &mut [u64; 11], line: &Line) -> Walked {
        let length = line.octets.len().min(line.marks.len());
        // SAFETY: both pointers are to `length` octets, and the tables were made by `ready`.
        unsafe {
            (self.walk)(
                limit,
                counters,
                line.octets.as_ptr(),
                line.marks.as_ptr(),
                length,
            )
        }
    }
}

/// Fills the totals by a plain loop in C, as many as there are blocks.
pub fn fill_totals(line: &Line, totals: &mut [u16]) {
    let length = line.octets.len().min(line.marks.len());
    assert!(totals.len() == length.div_ceil(BLOCK));
    // SAFETY: both pointers are to `length` octets, and there is a total for each block of them.
    unsafe {
        baseline_fill_totals(
            line.octets.as_ptr(),
            line.marks.as_ptr(),
            length,
            totals.as_mut_ptr(),
        );
    }
}

/// How many Starts lie before a place, counted by a plain loop in C.
pub fn starts_before(line: &Line, place: usize) -> usize {
    assert!(place <= line.octets.len().min(line.marks.len()));
    // SAFETY: both pointers are to `place` octets or more.
    unsafe { baseline_starts_before(line.octets.as_ptr(), line.marks.as_ptr(), place) }
}
