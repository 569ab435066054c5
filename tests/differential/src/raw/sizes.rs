//! The size table.
use super::{Capture, Listening, Settings, UNWRITTEN};

/// Numbers of a size table: the frames of each band, then their octets.
pub const SIZES: usize = 14;
pub const BANDS: usize = 7;

/// A size table.
pub type Sizes = [u64; SIZES];

extern "C" {
    fn fenhamper_sizes_fresh(sizes: &mut Sizes);
    fn fenhamper_sizes_add_capture(
        settings: &Settings,
        job: u8,
        table: &super::Table,
        octets: *const u8,
        octets_length: usize,
        marks: *const u8,
        marks_length: usize,
        sizes: &mut Sizes,
    ) -> u32;
    fn fenhamper_sizes_add_table(sizes: &mut Sizes, more: &Sizes);
}

/// A fresh table, in numbers that were something else.
pub fn sizes_fresh() -> Sizes {
    let mut sizes = [UNWRITTEN; SIZES];
    // SAFETY: one record passes.
    unsafe { fenhamper_sizes_fresh(&mut sizes) };
    sizes
}

pub fn sizes_add_capture(
    settings: &Settings,
    (job, table): Listening,
    (octets, marks): Capture,
    sizes: &mut Sizes,
) -> u32 {
    let (octets, octets_length) = (octets.as_ptr(), octets.len());
    let (marks, marks_length) = (marks.as_ptr(), marks.len());
    // SAFETY: each pointer and length is one slice's.
    unsafe {
        fenhamper_sizes_add_capture(
            settings,
            job,
            table,
            octets,
            octets_length,
            marks,
            marks_length,
            sizes,
        )
    }
}

pub fn sizes_add_table(sizes: &mut Sizes, more: &Sizes) {
    // SAFETY: two records pass, of which one alone is written.
    unsafe { fenhamper_sizes_add_table(sizes, more) };
}
