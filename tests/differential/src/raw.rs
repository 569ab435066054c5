//! The C face itself, whose records take any octets and numbers; the Rust face cannot say most of
//! them. The layout of `include/fenhamper.h` stands here and nowhere else: that of each record as
//! places in octets or numbers, so that nothing is shared with the Rust face.
//!
//! What the header asks of a caller holds for any arguments of the safe functions: a pointer comes
//! from a reference or from a slice of the length passed beside it, and what a call writes is lent
//! to it alone.
#![allow(unsafe_code)]

pub mod plain;
pub mod sizes;
mod totals;

pub use plain::{plain_fresh, plain_symbol};
pub use sizes::{sizes_add_capture, sizes_add_table, sizes_fresh};
pub use totals::{fill_idle_counted, fill_totals, starts_before};
pub use totals::{send_client_counted, send_pause_counted, send_pfc_counted};

/// Octets of an address.
pub const ADDRESS: usize = 6;

/// Octets of settings, and the places in them.
pub const SETTINGS: usize = 24;
pub const OWN: usize = 0;
pub const BROADCAST: usize = 6;
pub const PROMISCUOUS: usize = 7;
pub const CHECKING: usize = 8;
pub const PASS_CONTROL: usize = 9;
pub const FLOW: usize = 10;
pub const LIMIT: usize = 12;
/// Those that are not looked at.
pub const SETTINGS_SPARE: [usize; 11] = [11, 14, 15, 16, 17, 18, 19, 20, 21, 22, 23];

/// Octets of an entry of a table, and the places in them.
pub const ENTRY: usize = 8;
pub const HOLDER: usize = 0;
pub const LISTED: usize = 1;
pub const ENTRY_SPARE: usize = 7;

/// Holders of an entry; by any other octet it is free.
pub const FREE: u8 = 0;
pub const JOB_0: u8 = 1;
pub const JOB_1: u8 = 2;

/// Octets of a table: entry k is at `ENTRY * k`.
pub const ENTRIES: usize = 16;
pub const TABLE: usize = ENTRY * ENTRIES;

/// Octets of a client frame, and the places in them.
pub const CLIENT: usize = 44;
pub const DESTINATION: usize = 0;
pub const CLASS: usize = 6;
pub const FORM: usize = 7;
pub const TYPE: usize = 8;
pub const TAG_COUNT: usize = 10;
pub const CLIENT_SPARE: usize = 11;
/// Tag k is at `TAGS + TAG * k`.
pub const TAGS: usize = 12;
pub const MOST_TAGS: usize = 8;

/// Octets of a tag, and the places in them.
pub const TAG: usize = 4;
pub const TAG_KIND: usize = 0;
pub const TAG_SPARE: usize = 1;
pub const TAG_CONTROL: usize = 2;

/// Outcomes, each with a counter.
pub const OUTCOMES: usize = 11;

/// Numbers of a state, and the places in them.
pub const STATE: usize = 24;
pub const COUNTERS: usize = 0;
pub const TIMERS: usize = 11;
pub const DEFICIT: usize = 19;
pub const STATE_SPARE: usize = 20;

/// Numbers of a reading: those that mean something, then zeros.
pub const READING: usize = 12;
pub const READING_REFUSAL: usize = 0;
pub const READING_KIND: usize = 1;
pub const READING_OUTCOME: usize = 2;
pub const READING_START: usize = 3;
pub const READING_NEXT: usize = 4;
pub const READING_STATUS: usize = 5;
pub const READING_DATA_PLACE: usize = 6;
pub const READING_DATA_LENGTH: usize = 7;
pub const READING_WAY: usize = 8;

/// Kinds of readings.
pub const COUNTED: u64 = 0;
pub const NONE: u64 = 1;
pub const OPEN: u64 = 2;

/// Numbers of the answer that names a reason.
pub const EXPLAINED: usize = 8;
pub const EXPLAINED_REFUSAL: usize = 0;
pub const EXPLAINED_KIND: usize = 1;
pub const EXPLAINED_OUTCOME: usize = 2;
pub const EXPLAINED_START: usize = 3;
pub const EXPLAINED_NEXT: usize = 4;
/// The reason's number, and its evidence behind it.
pub const EXPLAINED_REASON: usize = 5;

/// Numbers of a walk: those that mean something, then zeros.
pub const WALKED: usize = 4;
pub const WALKED_REFUSAL: usize = 0;
pub const WALKED_STARTS: usize = 1;
pub const WALKED_OPEN: usize = 2;

/// Numbers of the answer of a walk that keeps its readings.
pub const KEPT: usize = 4;
pub const KEPT_REFUSAL: usize = 0;
pub const KEPT_END: usize = 1;
pub const KEPT_NEXT: usize = 2;
pub const KEPT_RECORDS: usize = 3;

/// How it ended.
pub const END_NONE: u64 = 1;
pub const END_OPEN: u64 = 2;
pub const END_FULL: u64 = 3;

/// Octets of a record of a log, and the places in them.
pub const RECORD: usize = 16;
pub const RECORD_PLACE: usize = 0;
pub const RECORD_OUTCOME: usize = 4;
pub const RECORD_WAY: usize = 5;
pub const RECORD_DATA_LENGTH: usize = 6;
pub const RECORD_STATUS: usize = 8;

/// Numbers of a sending's answer.
pub const SENT: usize = 2;
pub const SENT_REFUSAL: usize = 0;
pub const SENT_PLACE: usize = 1;

/// A number of two octets, as a record keeps it: low octet first.
pub fn number(octets: [u8; 2]) -> u16 {
    u16::from_le_bytes(octets)
}

/// The octets of a number, as a record keeps them.
pub fn octets(number: u16) -> [u8; 2] {
    number.to_le_bytes()
}

/// Settings, aligned as the header's struct is.
#[repr(C, align(2))]
#[derive(Clone, Copy, Debug)]
pub struct Settings(pub [u8; SETTINGS]);

/// A client frame, aligned as the header's struct is.
#[repr(C, align(2))]
#[derive(Clone, Copy, Debug)]
pub struct Client(pub [u8; CLIENT]);

/// A record of a log, aligned as the header's struct is.
#[repr(C, align(8))]
#[derive(Clone, Copy, Debug, PartialEq, Eq)]
pub struct Record(pub [u8; RECORD]);

/// A state.
pub type State = [u64; STATE];

/// A table.
pub type Table = [u8; TABLE];

/// A job's number, and the table.
pub type Listening<'a> = (u8, &'a Table);

/// What stands in an answer before the call: every number of it is written.
const UNWRITTEN: u64 = 0xA5A5_A5A5_A5A5_A5A5;
/// What stands in a record and in a number before a call that gives one, which a refusal leaves.
pub const LEFT_RECORD: Record = Record([0xA5; RECORD]);
pub const LEFT_NUMBER: usize = UNWRITTEN as usize;

extern "C" {
    fn fenhamper_read(
        settings: &Settings,
        job: u8,
        table: &Table,
        state: &mut State,
        octets: *const u8,
        octets_length: usize,
        marks: *const u8,
        marks_length: usize,
        place: usize,
        reading: &mut [u64; READING],
    );
    fn fenhamper_explain(
        settings: &Settings,
        job: u8,
        table: &Table,
        octets: *const u8,
        octets_length: usize,
        marks: *const u8,
        marks_length: usize,
        place: usize,
        explained: &mut [u64; EXPLAINED],
    );
    fn fenhamper_walk(
        settings: &Settings,
        job: u8,
        table: &Table,
        state: &mut State,
        octets: *const u8,
        octets_length: usize,
        marks: *const u8,
        marks_length: usize,
        walked: &mut [u64; WALKED],
    );
    fn fenhamper_walk_log(
        settings: &Settings,
        job: u8,
        table: &Table,
        state: &mut State,
        octets: *const u8,
        octets_length: usize,
        marks: *const u8,
        marks_length: usize,
        place: usize,
        log: *mut u8,
        log_length: usize,
        kept: &mut [u64; KEPT],
    );
    fn fenhamper_log_append(log: *mut u8, log_length: usize, record: &Record) -> u32;
    fn fenhamper_log_append_reading(
        log: *mut u8,
        log_length: usize,
        reading: &[u64; READING],
    ) -> u32;
    fn fenhamper_log_record(
        log: *const u8,
        log_length: usize,
        number: usize,
        record: &mut Record,
    ) -> u32;
    fn fenhamper_log_next(
        log: *const u8,
        log_length: usize,
        at: &mut usize,
        record: &mut Record,
    ) -> u32;
    fn fenhamper_log_used(log: *const u8, log_length: usize, used: &mut usize) -> u32;
    fn fenhamper_log_delete(log: *mut u8, log_length: usize, number: usize) -> u32;
    fn fenhamper_log_delete_outcome(
        log: *mut u8,
        log_length: usize,
        outcome: u8,
        deleted: &mut usize,
    ) -> u32;
    fn fenhamper_log_compact(log: *mut u8, log_length: usize) -> u32;
    fn fenhamper_screen(state: &State, shown: &mut [u32; OUTCOMES]);
    fn fenhamper_table_empty(table: &mut Table);
    fn fenhamper_table_add(
        table: &mut Table,
        job: u8,
        address: &[u8; ADDRESS],
        entry: &mut usize,
    ) -> u32;
    fn fenhamper_table_remove(
        table: &mut Table,
        job: u8,
        address: &[u8; ADDRESS],
        entry: &mut usize,
    ) -> u32;
    fn fenhamper_screen_data(
        settings: &Settings,
        job: u8,
        table: &Table,
        octets_0: *const u8,
        octets_0_length: usize,
        marks_0: *const u8,
        marks_0_length: usize,
        octets_1: *const u8,
        octets_1_length: usize,
        marks_1: *const u8,
        marks_1_length: usize,
        place: usize,
        part: &mut [u64; 2],
    ) -> u32;
    fn fenhamper_client_data(
        octets_length: usize,
        place: usize,
        length: usize,
        part: &mut [u64; 2],
    );
    fn fenhamper_send_client(
        settings: &Settings,
        state: &mut State,
        port: u8,
        octets: *mut u8,
        octets_length: usize,
        marks: *mut u8,
        marks_length: usize,
        place: usize,
        client: &Client,
        data: *const u8,
        data_length: usize,
        sent: &mut [u64; SENT],
    );
    fn fenhamper_send_pause(
        settings: &Settings,
        state: &mut State,
        port: u8,
        octets: *mut u8,
        octets_length: usize,
        marks: *mut u8,
        marks_length: usize,
        place: usize,
        quanta: u16,
        sent: &mut [u64; SENT],
    );
    fn fenhamper_send_pfc(
        settings: &Settings,
        state: &mut State,
        port: u8,
        octets: *mut u8,
        octets_length: usize,
        marks: *mut u8,
        marks_length: usize,
        place: usize,
        named: u8,
        quanta: &[u16; 8],
        sent: &mut [u64; SENT],
    );
    fn fenhamper_fill_idle(
        state: &mut State,
        octets: *mut u8,
        octets_length: usize,
        marks: *mut u8,
        marks_length: usize,
        place: usize,
        idles: usize,
        sent: &mut [u64; SENT],
    );
}

/// Octets and marks to read.
pub type Capture<'a> = (&'a [u8], &'a [u8]);
/// Octets and marks to write into.
pub type Line<'a> = (&'a mut [u8], &'a mut [u8]);

pub fn read(
    settings: &Settings,
    (job, table): Listening,
    state: &mut State,
    (octets, marks): Capture,
    place: usize,
) -> [u64; READING] {
    let mut reading = [UNWRITTEN; READING];
    let (octets, octets_length) = (octets.as_ptr(), octets.len());
    let (marks, marks_length) = (marks.as_ptr(), marks.len());
    // SAFETY: each pointer and length is one slice's.
    unsafe {
        fenhamper_read(
            settings,
            job,
            table,
            state,
            octets,
            octets_length,
            marks,
            marks_length,
            place,
            &mut reading,
        );
    }
    reading
}

pub fn explain(
    settings: &Settings,
    (job, table): Listening,
    (octets, marks): Capture,
    place: usize,
) -> [u64; EXPLAINED] {
    let mut explained = [UNWRITTEN; EXPLAINED];
    let (octets, octets_length) = (octets.as_ptr(), octets.len());
    let (marks, marks_length) = (marks.as_ptr(), marks.len());
    // SAFETY: each pointer and length is one slice's.
    unsafe {
        fenhamper_explain(
            settings,
            job,
            table,
            octets,
            octets_length,
            marks,
            marks_length,
            place,
            &mut explained,
        );
    }
    explained
}

pub fn walk(
    settings: &Settings,
    (job, table): Listening,
    state: &mut State,
    (octets, marks): Capture,
) -> [u64; WALKED] {
    let mut walked = [UNWRITTEN; WALKED];
    let (octets, octets_length) = (octets.as_ptr(), octets.len());
    let (marks, marks_length) = (marks.as_ptr(), marks.len());
    // SAFETY: each pointer and length is one slice's.
    unsafe {
        fenhamper_walk(
            settings,
            job,
            table,
            state,
            octets,
            octets_length,
            marks,
            marks_length,
            &mut walked,
        );
    }
    walked
}

pub fn walk_log(
    settings: &Settings,
    (job, table): Listening,
    state: &mut State,
    (octets, marks): Capture,
    place: usize,
    log: &mut [u8],
) -> [u64; KEPT] {
    let mut kept = [UNWRITTEN; KEPT];
    let (octets, octets_length) = (octets.as_ptr(), octets.len());
    let (marks, marks_length) = (marks.as_ptr(), marks.len());
    // SAFETY: each pointer and length is one slice's, and the log is lent alone.
    unsafe {
        fenhamper_walk_log(
            settings,
            job,
            table,
            state,
            octets,
            octets_length,
            marks,
            marks_length,
            place,
            log.as_mut_ptr(),
            log.len(),
            &mut kept,
        );
    }
    kept
}

/// The refusal's number, or 0; so of all calls on a log.
pub fn log_append(log: &mut [u8], record: &Record) -> u32 {
    // SAFETY: the pointer and the length are one slice's, and it is lent alone.
    unsafe { fenhamper_log_append(log.as_mut_ptr(), log.len(), record) }
}

pub fn log_append_reading(log: &mut [u8], reading: &[u64; READING]) -> u32 {
    // SAFETY: the pointer and the length are one slice's, and it is lent alone.
    unsafe { fenhamper_log_append_reading(log.as_mut_ptr(), log.len(), reading) }
}

pub fn log_record(log: &[u8], number: usize) -> (u32, Record) {
    let mut record = LEFT_RECORD;
    // SAFETY: the pointer and the length are one slice's.
    let refusal = unsafe { fenhamper_log_record(log.as_ptr(), log.len(), number, &mut record) };
    (refusal, record)
}

/// With the record number after it.
pub fn log_next(log: &[u8], mut at: usize) -> (u32, usize, Record) {
    let mut record = LEFT_RECORD;
    // SAFETY: the pointer and the length are one slice's.
    let refusal = unsafe { fenhamper_log_next(log.as_ptr(), log.len(), &mut at, &mut record) };
    (refusal, at, record)
}

pub fn log_used(log: &[u8]) -> (u32, usize) {
    let mut used = LEFT_NUMBER;
    // SAFETY: the pointer and the length are one slice's.
    let refusal = unsafe { fenhamper_log_used(log.as_ptr(), log.len(), &mut used) };
    (refusal, used)
}

pub fn log_delete(log: &mut [u8], number: usize) -> u32 {
    // SAFETY: the pointer and the length are one slice's, and it is lent alone.
    unsafe { fenhamper_log_delete(log.as_mut_ptr(), log.len(), number) }
}

pub fn log_delete_outcome(log: &mut [u8], outcome: u8) -> (u32, usize) {
    let mut deleted = LEFT_NUMBER;
    let (octets, length) = (log.as_mut_ptr(), log.len());
    // SAFETY: the pointer and the length are one slice's, and it is lent alone.
    let refusal = unsafe { fenhamper_log_delete_outcome(octets, length, outcome, &mut deleted) };
    (refusal, deleted)
}

pub fn log_compact(log: &mut [u8]) -> u32 {
    // SAFETY: the pointer and the length are one slice's, and it is lent alone.
    unsafe { fenhamper_log_compact(log.as_mut_ptr(), log.len()) }
}

/// Writes an empty table over this one.
pub fn table_empty(table: &mut Table) {
    // SAFETY: the table is lent alone.
    unsafe { fenhamper_table_empty(table) };
}

/// The refusal's number or 0, with the entry, which a refusal leaves; so of a removal.
pub fn table_add(table: &mut Table, job: u8, address: &[u8; ADDRESS]) -> (u32, usize) {
    let mut entry = LEFT_NUMBER;
    // SAFETY: the table and the entry are lent alone.
    let refusal = unsafe { fenhamper_table_add(table, job, address, &mut entry) };
    (refusal, entry)
}

pub fn table_remove(table: &mut Table, job: u8, address: &[u8; ADDRESS]) -> (u32, usize) {
    let mut entry = LEFT_NUMBER;
    // SAFETY: the table and the entry are lent alone.
    let refusal = unsafe { fenhamper_table_remove(table, job, address, &mut entry) };
    (refusal, entry)
}

/// The refusal's number or 0, with place and length in the chosen job's octets.
pub fn screen_data(
    settings: &Settings,
    (job, table): Listening,
    [(octets_0, marks_0), (octets_1, marks_1)]: [Capture; 2],
    place: usize,
) -> (u32, [u64; 2]) {
    let mut part = [UNWRITTEN; 2];
    // SAFETY: each pointer and length is one slice's, and the part is lent alone.
    let refusal = unsafe {
        fenhamper_screen_data(
            settings,
            job,
            table,
            octets_0.as_ptr(),
            octets_0.len(),
            marks_0.as_ptr(),
            marks_0.len(),
            octets_1.as_ptr(),
            octets_1.len(),
            marks_1.as_ptr(),
            marks_1.len(),
            place,
            &mut part,
        )
    };
    (refusal, part)
}

/// Place and length.
pub fn client_data(octets_length: usize, place: usize, length: usize) -> [u64; 2] {
    let mut part = [UNWRITTEN; 2];
    // SAFETY: only numbers pass, but for the part written.
    unsafe { fenhamper_client_data(octets_length, place, length, &mut part) };
    part
}

/// The screen's values.
pub fn screen(state: &State) -> [u32; OUTCOMES] {
    let mut shown = [u32::MAX / 3; OUTCOMES];
    // SAFETY: the state and the values pass, and the values are lent alone.
    unsafe { fenhamper_screen(state, &mut shown) };
    shown
}

pub fn send_client(
    settings: &Settings,
    state: &mut State,
    port: u8,
    (octets, marks): Line,
    place: usize,
    client: &Client,
    data: &[u8],
) -> [u64; SENT] {
    let mut sent = [UNWRITTEN; SENT];
    let (octets, octets_length) = (octets.as_mut_ptr(), octets.len());
    let (marks, marks_length) = (marks.as_mut_ptr(), marks.len());
    // SAFETY: each pointer and length is one slice's, and the written ones are lent alone.
    unsafe {
        fenhamper_send_client(
            settings,
            state,
            port,
            octets,
            octets_length,
            marks,
            marks_length,
            place,
            client,
            data.as_ptr(),
            data.len(),
            &mut sent,
        );
    }
    sent
}

pub fn send_pause(
    settings: &Settings,
    state: &mut State,
    port: u8,
    (octets, marks): Line,
    place: usize,
    quanta: u16,
) -> [u64; SENT] {
    let mut sent = [UNWRITTEN; SENT];
    let (octets, octets_length) = (octets.as_mut_ptr(), octets.len());
    let (marks, marks_length) = (marks.as_mut_ptr(), marks.len());
    // SAFETY: each pointer and length is one slice's, and the written ones are lent alone.
    unsafe {
        fenhamper_send_pause(
            settings,
            state,
            port,
            octets,
            octets_length,
            marks,
            marks_length,
            place,
            quanta,
            &mut sent,
        );
    }
    sent
}

pub fn send_pfc(
    settings: &Settings,
    state: &mut State,
    port: u8,
    (octets, marks): Line,
    place: usize,
    named: u8,
    quanta: &[u16; 8],
) -> [u64; SENT] {
    let mut sent = [UNWRITTEN; SENT];
    let (octets, octets_length) = (octets.as_mut_ptr(), octets.len());
    let (marks, marks_length) = (marks.as_mut_ptr(), marks.len());
    // SAFETY: each pointer and length is one slice's, and the written ones are lent alone.
    unsafe {
        fenhamper_send_pfc(
            settings,
            state,
            port,
            octets,
            octets_length,
            marks,
            marks_length,
            place,
            named,
            quanta,
            &mut sent,
        );
    }
    sent
}

pub fn fill_idle(
    state: &mut State,
    (octets, marks): Line,
    place: usize,
    idles: usize,
) -> [u64; SENT] {
    let mut sent = [UNWRITTEN; SENT];
    let (octets, octets_length) = (octets.as_mut_ptr(), octets.len());
    let (marks, marks_length) = (marks.as_mut_ptr(), marks.len());
    // SAFETY: each pointer and length is one slice's, and the written ones are lent alone.
    unsafe {
        fenhamper_fill_idle(
            state,
            octets,
            octets_length,
            marks,
            marks_length,
            place,
            idles,
            &mut sent,
        );
    }
    sent
}
