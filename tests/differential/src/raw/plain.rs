//! The plain reader.
use super::{Listening, Settings, State, UNWRITTEN};

/// Numbers of a reader, and the places in them.
pub const NUMBERS: usize = 8;
pub const PLACE: usize = 0;
pub const RUNNING: usize = 1;
pub const START: usize = 2;
pub const COUNT: usize = 3;
pub const REGISTER: usize = 4;

/// Octets of a run that are kept from its front, and from its end.
pub const FIRST: usize = 53;
pub const LAST: usize = 4;

/// Numbers of what is told, and the places in them.
pub const TOLD: usize = 8;

/// A reader, laid out as the header's struct is.
#[repr(C)]
#[derive(Clone, Copy, Debug, PartialEq, Eq)]
pub struct Plain {
    pub numbers: [u64; NUMBERS],
    pub first: [u8; FIRST],
    pub last: [u8; LAST],
    pub unused: [u8; 7],
}

extern "C" {
    fn fenhamper_plain_fresh(
        numbers: &mut [u64; NUMBERS],
        first: &mut [u8; FIRST],
        last: &mut [u8; LAST],
    );
    fn fenhamper_plain_symbol(
        settings: &Settings,
        job: u8,
        table: &super::Table,
        state: &mut State,
        numbers: &mut [u64; NUMBERS],
        first: &mut [u8; FIRST],
        last: &mut [u8; LAST],
        octet: u8,
        mark: u8,
        told: &mut [u64; TOLD],
    );
}

/// A fresh reader, in a record that was full of something else.
pub fn plain_fresh() -> Plain {
    let mut plain = Plain {
        numbers: [UNWRITTEN; NUMBERS],
        first: [0xA5; FIRST],
        last: [0xA5; LAST],
        unused: [0xA5; 7],
    };
    // SAFETY: three parts of a record pass, each lent alone.
    unsafe { fenhamper_plain_fresh(&mut plain.numbers, &mut plain.first, &mut plain.last) };
    plain
}

pub fn plain_symbol(
    settings: &Settings,
    (job, table): Listening,
    state: &mut State,
    plain: &mut Plain,
    (octet, mark): (u8, u8),
) -> [u64; TOLD] {
    let mut told = [UNWRITTEN; TOLD];
    // SAFETY: records and three parts of one pass, and what is written is lent alone.
    unsafe {
        fenhamper_plain_symbol(
            settings,
            job,
            table,
            state,
            &mut plain.numbers,
            &mut plain.first,
            &mut plain.last,
            octet,
            mark,
            &mut told,
        );
    }
    told
}
