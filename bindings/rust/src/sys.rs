//! The functions of `include/fenhamper.h`, each behind a safe one: the only unsafe code of this
//! crate.
//!
//! What the header asks of a caller holds for any arguments of the safe functions: a pointer comes
//! from a reference or from a slice of the length passed beside it, so it is not null, and what a
//! call writes is lent to it alone.
#![allow(unsafe_code)]
// arguments are those of the header
#![allow(clippy::too_many_arguments)]

use core::mem::size_of;

// Numbers and records are the header's, each under its name there; the tests hold them, and the
// declarations below, to it.
pub const MOST_SYMBOLS: usize = 65536;
pub const LEAST_LIMIT: u16 = 1518;
pub const JOBS: usize = 2;
pub const ENTRIES: usize = 16;
pub const MOST_TAGS: usize = 8;
pub const CLASSES: usize = 8;
pub const OUTCOMES: usize = 11;
pub const RECORD_SIZE: usize = 16;
pub const BLOCK: usize = 256;
pub const PLAIN_FIRST: usize = 53;
pub const PLAIN_LAST: usize = 4;
pub const BANDS: usize = 7;

pub const FLOW_NONE: u8 = 0;
pub const FLOW_PAUSE: u8 = 1;
pub const FLOW_PFC: u8 = 2;

pub const JOB_0: u8 = 0;
pub const JOB_1: u8 = 1;

pub const FREE: u8 = 0;
pub const HOLDER_0: u8 = 1;
pub const HOLDER_1: u8 = 2;

pub const COUNTED: u64 = 0;
pub const NONE: u64 = 1;
pub const OPEN: u64 = 2;

pub const WAY_NONE: u8 = 0;
pub const WAY_OWN: u8 = 1;
pub const WAY_BROADCAST: u8 = 6;
pub const WAY_PROMISCUOUS: u8 = 7;
pub const WAY_RESERVED: u8 = 8;
pub const WAY_ENTRY: u8 = 16;

#[cfg(test)]
pub const REASON_NONE: u64 = 0;
pub const REASON_CUT_AT: u64 = 1;
pub const REASON_SHORT_RUN: u64 = 2;
pub const REASON_WRONG_OCTET: u64 = 3;
pub const REASON_TOO_SHORT: u64 = 4;
pub const REASON_TOO_LONG: u64 = 5;
pub const REASON_FCS_DIFFERS: u64 = 6;
pub const REASON_LENGTH_BROKEN: u64 = 7;
pub const REASON_NOT_FOR_US: u64 = 8;
pub const REASON_TOOK_PAUSE: u64 = 9;
pub const REASON_TOOK_PFC: u64 = 10;
pub const REASON_DROPPED_CONTROL: u64 = 11;
pub const REASON_HANDED: u64 = 12;

pub const END_NONE: u64 = 1;
pub const END_OPEN: u64 = 2;
pub const END_FULL: u64 = 3;

pub const STATUS_PFC: u64 = 1 << 39;
pub const STATUS_UNICAST: u64 = 1 << 38;
pub const STATUS_MULTICAST: u64 = 1 << 37;
pub const STATUS_BROADCAST: u64 = 1 << 36;
pub const STATUS_PAUSE: u64 = 1 << 35;
pub const STATUS_CONTROL: u64 = 1 << 34;
pub const STATUS_TAGGED: u64 = 1 << 33;
pub const STATUS_STACKED: u64 = 1 << 32;

pub const PORT_PLAIN: u8 = 0;
pub const PORT_FOUR_LANE: u8 = 1;

pub const FORM_LENGTH: u8 = 0;
pub const FORM_TYPE: u8 = 1;

pub const TAG_CUSTOMER: u8 = 0;
pub const TAG_SERVICE: u8 = 1;

#[repr(C)]
#[derive(Clone, Copy, PartialEq, Eq, Hash)]
pub struct Address {
    pub octets: [u8; 6],
}

#[repr(C)]
#[derive(Clone, Copy, PartialEq, Eq, Hash)]
pub struct Settings {
    pub own: Address,
    pub broadcast: u8,
    pub promiscuous: u8,
    pub checking: u8,
    pub pass_control: u8,
    pub flow: u8,
    pub unused: u8,
    pub limit: u16,
    pub spare: [u8; 10],
}

#[repr(C)]
#[derive(Clone, Copy, PartialEq, Eq, Hash)]
pub struct Entry {
    pub holder: u8,
    pub address: Address,
    pub spare: u8,
}

#[repr(C)]
#[derive(Clone, PartialEq, Eq, Hash)]
pub struct Table {
    pub entries: [Entry; ENTRIES],
}

#[repr(C)]
#[derive(Clone, PartialEq, Eq, Hash)]
pub struct State {
    pub counters: [u64; OUTCOMES],
    pub timers: [u64; CLASSES],
    pub deficit: u64,
    pub spare: [u64; 4],
}

#[repr(C)]
#[derive(Default)]
pub struct Reading {
    pub refusal: u64,
    pub kind: u64,
    pub outcome: u64,
    pub start: u64,
    pub next: u64,
    pub status: u64,
    pub data_place: u64,
    pub data_length: u64,
    pub way: u64,
    pub spare: [u64; 3],
}

#[repr(C)]
#[derive(Default)]
pub struct Explained {
    pub refusal: u64,
    pub kind: u64,
    pub outcome: u64,
    pub start: u64,
    pub next: u64,
    pub reason: u64,
    pub first: u64,
    pub second: u64,
}

#[repr(C)]
#[derive(Default)]
pub struct Walked {
    pub refusal: u64,
    pub starts: u64,
    pub open: u64,
    pub spare: u64,
}

#[repr(C)]
#[derive(Default)]
pub struct Kept {
    pub refusal: u64,
    pub end: u64,
    pub next: u64,
    pub records: u64,
}

#[repr(C)]
#[derive(Default)]
pub struct Record {
    pub place: u32,
    pub outcome: u8,
    pub way: u8,
    pub data_length: u16,
    pub status: u64,
}

#[repr(C)]
#[derive(Clone, PartialEq, Eq, Hash)]
pub struct Plain {
    pub place: u64,
    pub running: u64,
    pub start: u64,
    pub count: u64,
    pub check: u64,
    pub spare: [u64; 3],
    pub first: [u8; PLAIN_FIRST],
    pub last: [u8; PLAIN_LAST],
    pub unused: [u8; 7],
}

#[repr(C)]
#[derive(Default)]
pub struct Told {
    pub refusal: u64,
    pub counted: u64,
    pub outcome: u64,
    pub status: u64,
    pub data_place: u64,
    pub data_length: u64,
    pub way: u64,
    pub spare: u64,
}

#[repr(C)]
#[derive(Default)]
pub struct Sizes {
    pub frames: [u64; BANDS],
    pub octets: [u64; BANDS],
}

#[repr(C)]
#[derive(Clone, Copy, Debug, Default, PartialEq, Eq)]
pub struct Sent {
    pub refusal: u64,
    pub place: u64,
}

#[repr(C)]
#[derive(Default)]
pub struct Part {
    pub place: u64,
    pub length: u64,
}

#[repr(C)]
#[derive(Clone, Copy, PartialEq, Eq, Hash)]
pub struct Tag {
    pub kind: u8,
    pub spare: u8,
    pub control: u16,
}

#[repr(C)]
#[derive(Clone, Copy, PartialEq, Eq, Hash)]
pub struct Client {
    pub destination: Address,
    pub traffic_class: u8,
    pub form: u8,
    pub r#type: u16,
    pub tag_count: u8,
    pub spare: u8,
    pub tags: [Tag; MOST_TAGS],
}

// Members of the same names, order and numbers in the layout of C: with the sizes, all is the same.
const _: () = assert!(size_of::<Settings>() == 24 && size_of::<State>() == 192);
const _: () = assert!(size_of::<Entry>() == 8 && size_of::<Table>() == 128);
const _: () = assert!(size_of::<Reading>() == 96 && size_of::<Walked>() == 32);
const _: () = assert!(size_of::<Explained>() == 64);
const _: () = assert!(size_of::<Kept>() == 32 && size_of::<Record>() == RECORD_SIZE);
const _: () = assert!(size_of::<Plain>() == 128 && size_of::<Told>() == 64);
const _: () = assert!(size_of::<Sizes>() == 112);
const _: () = assert!(size_of::<Sent>() == 16 && size_of::<Part>() == 16);
const _: () = assert!(size_of::<Tag>() == 4 && size_of::<Client>() == 44);

extern "C" {
    fn fenhamper_layout_4() -> u32;
    fn fenhamper_read(
        settings: &Settings,
        job: u8,
        table: &Table,
        state: &mut State,
        octets: *const u8,
        octets_length: usize,
        marks: *const u8,
        marks_length: usize,
        place: usize,
        reading: &mut Reading,
    );
    fn fenhamper_explain(
        settings: &Settings,
        job: u8,
        table: &Table,
        octets: *const u8,
        octets_length: usize,
        marks: *const u8,
        marks_length: usize,
        place: usize,
        explained: &mut Explained,
    );
    fn fenhamper_walk(
        settings: &Settings,
        job: u8,
        table: &Table,
        state: &mut State,
        octets: *const u8,
        octets_length: usize,
        marks: *const u8,
        marks_length: usize,
        walked: &mut Walked,
    );
    fn fenhamper_walk_log(
        settings: &Settings,
        job: u8,
        table: &Table,
        state: &mut State,
        octets: *const u8,
        octets_length: usize,
        marks: *const u8,
        marks_length: usize,
        place: usize,
        log: *mut u8,
        log_length: usize,
        kept: &mut Kept,
    );
    fn fenhamper_table_empty(table: &mut Table);
    fn fenhamper_table_add(table: &mut Table, job: u8, address: &Address, entry: &mut usize)
        -> u32;
    fn fenhamper_table_remove(
        table: &mut Table,
        job: u8,
        address: &Address,
        entry: &mut usize,
    ) -> u32;
    fn fenhamper_screen_data(
        settings: &Settings,
        job: u8,
        table: &Table,
        octets_0: *const u8,
        octets_0_length: usize,
        marks_0: *const u8,
        marks_0_length: usize,
        octets_1: *const u8,
        octets_1_length: usize,
        marks_1: *const u8,
        marks_1_length: usize,
        place: usize,
        part: &mut Part,
    ) -> u32;
    fn fenhamper_log_append(log: *mut u8, log_length: usize, record: &Record) -> u32;
    fn fenhamper_log_append_reading(log: *mut u8, log_length: usize, reading: &Reading) -> u32;
    fn fenhamper_log_record(
        log: *const u8,
        log_length: usize,
        number: usize,
        record: &mut Record,
    ) -> u32;
    fn fenhamper_log_next(
        log: *const u8,
        log_length: usize,
        at: &mut usize,
        record: &mut Record,
    ) -> u32;
    fn fenhamper_log_used(log: *const u8, log_length: usize, used: &mut usize) -> u32;
    fn fenhamper_log_delete(log: *mut u8, log_length: usize, number: usize) -> u32;
    fn fenhamper_log_delete_outcome(
        log: *mut u8,
        log_length: usize,
        outcome: u8,
        deleted: &mut usize,
    ) -> u32;
    fn fenhamper_log_compact(log: *mut u8, log_length: usize) -> u32;
    fn fenhamper_client_data(octets_length: usize, place: usize, length: usize, part: &mut Part);
    fn fenhamper_send_client(
        settings: &Settings,
        state: &mut State,
        port: u8,
        octets: *mut u8,
        octets_length: usize,
        marks: *mut u8,
        marks_length: usize,
        place: usize,
        client: &Client,
        data: *const u8,
        data_length: usize,
        sent: &mut Sent,
    );
    fn fenhamper_send_pause(
        settings: &Settings,
        state: &mut State,
        port: u8,
        octets: *mut u8,
        octets_length: usize,
        marks: *mut u8,
        marks_length: usize,
        place: usize,
        quanta: u16,
        sent: &mut Sent,
    );
    fn fenhamper_send_pfc(
        settings: &Settings,
        state: &mut State,
        port: u8,
        octets: *mut u8,
        octets_length: usize,
        marks: *mut u8,
        marks_length: usize,
        place: usize,
        named: u8,
        quanta: &[u16; CLASSES],
        sent: &mut Sent,
    );
    fn fenhamper_fill_idle(
        state: &mut State,
        octets: *mut u8,
        octets_length: usize,
        marks: *mut u8,
        marks_length: usize,
        place: usize,
        idles: usize,
        sent: &mut Sent,
    );
    fn fenhamper_fill_totals(
        octets: *const u8,
        octets_length: usize,
        marks: *const u8,
        marks_length: usize,
        totals: *mut u16,
        totals_length: usize,
    ) -> u32;
    fn fenhamper_starts_before(
        octets: *const u8,
        octets_length: usize,
        marks: *const u8,
        marks_length: usize,
        totals: *const u16,
        totals_length: usize,
        place: usize,
        starts: &mut usize,
    ) -> u32;
    fn fenhamper_send_client_counted(
        settings: &Settings,
        state: &mut State,
        port: u8,
        octets: *mut u8,
        octets_length: usize,
        marks: *mut u8,
        marks_length: usize,
        totals: *mut u16,
        totals_length: usize,
        place: usize,
        client: &Client,
        data: *const u8,
        data_length: usize,
        sent: &mut Sent,
    );
    fn fenhamper_send_pause_counted(
        settings: &Settings,
        state: &mut State,
        port: u8,
        octets: *mut u8,
        octets_length: usize,
        marks: *mut u8,
        marks_length: usize,
        totals: *mut u16,
        totals_length: usize,
        place: usize,
        quanta: u16,
        sent: &mut Sent,
    );
    fn fenhamper_send_pfc_counted(
        settings: &Settings,
        state: &mut State,
        port: u8,
        octets: *mut u8,
        octets_length: usize,
        marks: *mut u8,
        marks_length: usize,
        totals: *mut u16,
        totals_length: usize,
        place: usize,
        named: u8,
        quanta: &[u16; CLASSES],
        sent: &mut Sent,
    );
    fn fenhamper_fill_idle_counted(
        state: &mut State,
        octets: *mut u8,
        octets_length: usize,
        marks: *mut u8,
        marks_length: usize,
        totals: *mut u16,
        totals_length: usize,
        place: usize,
        idles: usize,
        sent: &mut Sent,
    );
    fn fenhamper_plain_fresh(
        numbers: &mut [u64; 8],
        first: &mut [u8; PLAIN_FIRST],
        last: &mut [u8; PLAIN_LAST],
    );
    fn fenhamper_plain_symbol(
        settings: &Settings,
        job: u8,
        table: &Table,
        state: &mut State,
        numbers: &mut [u64; 8],
        first: &mut [u8; PLAIN_FIRST],
        last: &mut [u8; PLAIN_LAST],
        octet: u8,
        mark: u8,
        told: &mut Told,
    );
    fn fenhamper_sizes_fresh(sizes: &mut Sizes);
    fn fenhamper_sizes_add_capture(
        settings: &Settings,
        job: u8,
        table: &Table,
        octets: *const u8,
        octets_length: usize,
        marks: *const u8,
        marks_length: usize,
        sizes: &mut Sizes,
    ) -> u32;
    fn fenhamper_sizes_add_table(sizes: &mut Sizes, more: &Sizes);
    fn fenhamper_fcs(octets: *const u8, length: usize) -> u32;
    fn fenhamper_fcs_update(from: u32, octets: *const u8, length: usize) -> u32;
    fn fenhamper_fresh_state(state: &mut State);
    fn fenhamper_screen(state: &State, shown: &mut [u32; OUTCOMES]);
}

// An archive of another layout has no such symbol, and does not link.
#[used]
static THE_LAYOUT: unsafe extern "C" fn() -> u32 = fenhamper_layout_4;

#[cfg(test)]
pub fn layout() -> u32 {
    // SAFETY: nothing passes.
    unsafe { fenhamper_layout_4() }
}

pub fn read(
    settings: &Settings,
    job: u8,
    table: &Table,
    state: &mut State,
    octets: &[u8],
    marks: &[u8],
    place: usize,
) -> Reading {
    let mut reading = Reading::default();
    // SAFETY: each pointer and length is one slice's.
    unsafe {
        fenhamper_read(
            settings,
            job,
            table,
            state,
            octets.as_ptr(),
            octets.len(),
            marks.as_ptr(),
            marks.len(),
            place,
            &mut reading,
        );
    }
    reading
}

pub fn explain(
    settings: &Settings,
    job: u8,
    table: &Table,
    octets: &[u8],
    marks: &[u8],
    place: usize,
) -> Explained {
    let mut explained = Explained::default();
    // SAFETY: each pointer and length is one slice's.
    unsafe {
        fenhamper_explain(
            settings,
            job,
            table,
            octets.as_ptr(),
            octets.len(),
            marks.as_ptr(),
            marks.len(),
            place,
            &mut explained,
        );
    }
    explained
}

pub fn client_data(octets_length: usize, place: usize, length: usize) -> Part {
    let mut part = Part::default();
    // SAFETY: only numbers pass, but for the part written.
    unsafe { fenhamper_client_data(octets_length, place, length, &mut part) };
    part
}

pub fn walk(
    settings: &Settings,
    job: u8,
    table: &Table,
    state: &mut State,
    octets: &[u8],
    marks: &[u8],
) -> Walked {
    let mut walked = Walked::default();
    // SAFETY: each pointer and length is one slice's.
    unsafe {
        fenhamper_walk(
            settings,
            job,
            table,
            state,
            octets.as_ptr(),
            octets.len(),
            marks.as_ptr(),
            marks.len(),
            &mut walked,
        );
    }
    walked
}

pub fn walk_log(
    settings: &Settings,
    job: u8,
    table: &Table,
    state: &mut State,
    octets: &[u8],
    marks: &[u8],
    place: usize,
    log: &mut [u8],
) -> Kept {
    let mut kept = Kept::default();
    // SAFETY: each pointer and length is one slice's, and the log is lent alone.
    unsafe {
        fenhamper_walk_log(
            settings,
            job,
            table,
            state,
            octets.as_ptr(),
            octets.len(),
            marks.as_ptr(),
            marks.len(),
            place,
            log.as_mut_ptr(),
            log.len(),
            &mut kept,
        );
    }
    kept
}

pub fn table_empty(table: &mut Table) {
    // SAFETY: only the table passes, and it is lent alone.
    unsafe { fenhamper_table_empty(table) };
}

// Of the table calls the answer is the refusal's number, and the entry, which is 0 for a refusal.
pub fn table_add(table: &mut Table, job: u8, address: Address) -> (u64, usize) {
    let mut entry = 0;
    // SAFETY: the table, an address and the entry pass, and what is written is lent alone.
    let refusal = unsafe { fenhamper_table_add(table, job, &address, &mut entry) };
    (refusal.into(), entry)
}

pub fn table_remove(table: &mut Table, job: u8, address: Address) -> (u64, usize) {
    let mut entry = 0;
    // SAFETY: the table, an address and the entry pass, and what is written is lent alone.
    let refusal = unsafe { fenhamper_table_remove(table, job, &address, &mut entry) };
    (refusal.into(), entry)
}

// The refusal's number, and the part.
pub fn screen_data(
    settings: &Settings,
    job: u8,
    table: &Table,
    octets_0: &[u8],
    marks_0: &[u8],
    octets_1: &[u8],
    marks_1: &[u8],
    place: usize,
) -> (u64, Part) {
    let mut part = Part::default();
    // SAFETY: each pointer and length is one slice's.
    let refusal = unsafe {
        fenhamper_screen_data(
            settings,
            job,
            table,
            octets_0.as_ptr(),
            octets_0.len(),
            marks_0.as_ptr(),
            marks_0.len(),
            octets_1.as_ptr(),
            octets_1.len(),
            marks_1.as_ptr(),
            marks_1.len(),
            place,
            &mut part,
        )
    };
    (refusal.into(), part)
}

// Of the calls on a log the answer is the refusal's number; what they give beside it is 0 for a
// refusal.
pub fn log_append(log: &mut [u8], record: &Record) -> u64 {
    // SAFETY: the pointer and the length are one slice's, and it is lent alone.
    unsafe { fenhamper_log_append(log.as_mut_ptr(), log.len(), record) }.into()
}

pub fn log_append_reading(log: &mut [u8], reading: &Reading) -> u64 {
    // SAFETY: the pointer and the length are one slice's, and it is lent alone.
    unsafe { fenhamper_log_append_reading(log.as_mut_ptr(), log.len(), reading) }.into()
}

pub fn log_record(log: &[u8], number: usize) -> (u64, Record) {
    let mut record = Record::default();
    // SAFETY: the pointer and the length are one slice's.
    let refusal = unsafe { fenhamper_log_record(log.as_ptr(), log.len(), number, &mut record) };
    (refusal.into(), record)
}

pub fn log_next(log: &[u8], at: &mut usize) -> (u64, Record) {
    let mut record = Record::default();
    // SAFETY: the pointer and the length are one slice's.
    let refusal = unsafe { fenhamper_log_next(log.as_ptr(), log.len(), at, &mut record) };
    (refusal.into(), record)
}

pub fn log_used(log: &[u8]) -> (u64, usize) {
    let mut used = 0;
    // SAFETY: the pointer and the length are one slice's.
    let refusal = unsafe { fenhamper_log_used(log.as_ptr(), log.len(), &mut used) };
    (refusal.into(), used)
}

pub fn log_delete(log: &mut [u8], number: usize) -> u64 {
    // SAFETY: the pointer and the length are one slice's, and it is lent alone.
    unsafe { fenhamper_log_delete(log.as_mut_ptr(), log.len(), number) }.into()
}

pub fn log_delete_outcome(log: &mut [u8], outcome: u8) -> (u64, usize) {
    let mut deleted = 0;
    // SAFETY: the pointer and the length are one slice's, and it is lent alone.
    let refusal =
        unsafe { fenhamper_log_delete_outcome(log.as_mut_ptr(), log.len(), outcome, &mut deleted) };
    (refusal.into(), deleted)
}

pub fn log_compact(log: &mut [u8]) -> u64 {
    // SAFETY: the pointer and the length are one slice's, and it is lent alone.
    unsafe { fenhamper_log_compact(log.as_mut_ptr(), log.len()) }.into()
}

pub fn send_client(
    settings: &Settings,
    state: &mut State,
    port: u8,
    octets: &mut [u8],
    marks: &mut [u8],
    place: usize,
    client: &Client,
    data: &[u8],
) -> Sent {
    let mut sent = Sent::default();
    // SAFETY: each pointer and length is one slice's, and the written ones are lent alone.
    unsafe {
        fenhamper_send_client(
            settings,
            state,
            port,
            octets.as_mut_ptr(),
            octets.len(),
            marks.as_mut_ptr(),
            marks.len(),
            place,
            client,
            data.as_ptr(),
            data.len(),
            &mut sent,
        );
    }
    sent
}

pub fn send_pause(
    settings: &Settings,
    state: &mut State,
    port: u8,
    octets: &mut [u8],
    marks: &mut [u8],
    place: usize,
    quanta: u16,
) -> Sent {
    let mut sent = Sent::default();
    // SAFETY: each pointer and length is one slice's, and the written ones are lent alone.
    unsafe {
        fenhamper_send_pause(
            settings,
            state,
            port,
            octets.as_mut_ptr(),
            octets.len(),
            marks.as_mut_ptr(),
            marks.len(),
            place,
            quanta,
            &mut sent,
        );
    }
    sent
}

pub fn send_pfc(
    settings: &Settings,
    state: &mut State,
    port: u8,
    octets: &mut [u8],
    marks: &mut [u8],
    place: usize,
    named: u8,
    quanta: &[u16; CLASSES],
) -> Sent {
    let mut sent = Sent::default();
    // SAFETY: each pointer and length is one slice's, and the written ones are lent alone.
    unsafe {
        fenhamper_send_pfc(
            settings,
            state,
            port,
            octets.as_mut_ptr(),
            octets.len(),
            marks.as_mut_ptr(),
            marks.len(),
            place,
            named,
            quanta,
            &mut sent,
        );
    }
    sent
}

pub fn fill_idle(
    state: &mut State,
    octets: &mut [u8],
    marks: &mut [u8],
    place: usize,
    idles: usize,
) -> Sent {
    let mut sent = Sent::default();
    // SAFETY: each pointer and length is one slice's, and the written ones are lent alone.
    unsafe {
        fenhamper_fill_idle(
            state,
            octets.as_mut_ptr(),
            octets.len(),
            marks.as_mut_ptr(),
            marks.len(),
            place,
            idles,
            &mut sent,
        );
    }
    sent
}

// The answer is the refusal's number, here and in the next one, whose Starts are 0 for a refusal.
pub fn fill_totals(octets: &[u8], marks: &[u8], totals: &mut [u16]) -> u64 {
    // SAFETY: each pointer and length is one slice's, and the totals are lent alone.
    let refusal = unsafe {
        fenhamper_fill_totals(
            octets.as_ptr(),
            octets.len(),
            marks.as_ptr(),
            marks.len(),
            totals.as_mut_ptr(),
            totals.len(),
        )
    };
    refusal.into()
}

pub fn starts_before(octets: &[u8], marks: &[u8], totals: &[u16], place: usize) -> (u64, usize) {
    let mut starts = 0;
    // SAFETY: each pointer and length is one slice's.
    let refusal = unsafe {
        fenhamper_starts_before(
            octets.as_ptr(),
            octets.len(),
            marks.as_ptr(),
            marks.len(),
            totals.as_ptr(),
            totals.len(),
            place,
            &mut starts,
        )
    };
    (refusal.into(), starts)
}

pub fn send_client_counted(
    settings: &Settings,
    state: &mut State,
    port: u8,
    octets: &mut [u8],
    marks: &mut [u8],
    totals: &mut [u16],
    place: usize,
    client: &Client,
    data: &[u8],
) -> Sent {
    let mut sent = Sent::default();
    // SAFETY: each pointer and length is one slice's, and the written ones are lent alone.
    unsafe {
        fenhamper_send_client_counted(
            settings,
            state,
            port,
            octets.as_mut_ptr(),
            octets.len(),
            marks.as_mut_ptr(),
            marks.len(),
            totals.as_mut_ptr(),
            totals.len(),
            place,
            client,
            data.as_ptr(),
            data.len(),
            &mut sent,
        );
    }
    sent
}

pub fn send_pause_counted(
    settings: &Settings,
    state: &mut State,
    port: u8,
    octets: &mut [u8],
    marks: &mut [u8],
    totals: &mut [u16],
    place: usize,
    quanta: u16,
) -> Sent {
    let mut sent = Sent::default();
    // SAFETY: each pointer and length is one slice's, and the written ones are lent alone.
    unsafe {
        fenhamper_send_pause_counted(
            settings,
            state,
            port,
            octets.as_mut_ptr(),
            octets.len(),
            marks.as_mut_ptr(),
            marks.len(),
            totals.as_mut_ptr(),
            totals.len(),
            place,
            quanta,
            &mut sent,
        );
    }
    sent
}

pub fn send_pfc_counted(
    settings: &Settings,
    state: &mut State,
    port: u8,
    octets: &mut [u8],
    marks: &mut [u8],
    totals: &mut [u16],
    place: usize,
    named: u8,
    quanta: &[u16; CLASSES],
) -> Sent {
    let mut sent = Sent::default();
    // SAFETY: each pointer and length is one slice's, and the written ones are lent alone.
    unsafe {
        fenhamper_send_pfc_counted(
            settings,
            state,
            port,
            octets.as_mut_ptr(),
            octets.len(),
            marks.as_mut_ptr(),
            marks.len(),
            totals.as_mut_ptr(),
            totals.len(),
            place,
            named,
            quanta,
            &mut sent,
        );
    }
    sent
}

pub fn fill_idle_counted(
    state: &mut State,
    octets: &mut [u8],
    marks: &mut [u8],
    totals: &mut [u16],
    place: usize,
    idles: usize,
) -> Sent {
    let mut sent = Sent::default();
    // SAFETY: each pointer and length is one slice's, and the written ones are lent alone.
    unsafe {
        fenhamper_fill_idle_counted(
            state,
            octets.as_mut_ptr(),
            octets.len(),
            marks.as_mut_ptr(),
            marks.len(),
            totals.as_mut_ptr(),
            totals.len(),
            place,
            idles,
            &mut sent,
        );
    }
    sent
}

impl Plain {
    // The record by the parts that its calls take: its numbers, which are its first 64 octets, its
    // first octets and its last.
    fn parts(&mut self) -> (&mut [u64; 8], &mut [u8; PLAIN_FIRST], &mut [u8; PLAIN_LAST]) {
        let record: *mut Plain = self;
        // SAFETY: `place` to `spare` are eight numbers in a row at the record's front, in the layout
        // of C, and the octets stand behind them: three parts of one record that is lent alone.
        unsafe {
            (
                &mut *record.cast::<[u64; 8]>(),
                &mut (*record).first,
                &mut (*record).last,
            )
        }
    }
}

pub fn plain_fresh() -> Plain {
    let mut plain = Plain {
        place: 0,
        running: 0,
        start: 0,
        count: 0,
        check: 0,
        spare: [0; 3],
        first: [0; PLAIN_FIRST],
        last: [0; PLAIN_LAST],
        unused: [0; 7],
    };
    let (numbers, first, last) = plain.parts();
    // SAFETY: three parts of the record pass, each lent alone.
    unsafe { fenhamper_plain_fresh(numbers, first, last) };
    plain
}

pub fn plain_symbol(
    settings: &Settings,
    job: u8,
    table: &Table,
    state: &mut State,
    plain: &mut Plain,
    octet: u8,
    mark: u8,
) -> Told {
    let mut told = Told::default();
    let (numbers, first, last) = plain.parts();
    // SAFETY: records and three parts of one pass, and what is written is lent alone.
    unsafe {
        fenhamper_plain_symbol(
            settings, job, table, state, numbers, first, last, octet, mark, &mut told,
        );
    }
    told
}

pub fn sizes_fresh() -> Sizes {
    let mut sizes = Sizes::default();
    // SAFETY: one record is lent.
    unsafe { fenhamper_sizes_fresh(&mut sizes) };
    sizes
}

pub fn sizes_add_capture(
    settings: &Settings,
    job: u8,
    table: &Table,
    octets: &[u8],
    marks: &[u8],
    sizes: &mut Sizes,
) -> u64 {
    // SAFETY: each pointer and length is one slice's.
    let refusal = unsafe {
        fenhamper_sizes_add_capture(
            settings,
            job,
            table,
            octets.as_ptr(),
            octets.len(),
            marks.as_ptr(),
            marks.len(),
            sizes,
        )
    };
    refusal.into()
}

pub fn sizes_add_table(sizes: &mut Sizes, more: &Sizes) {
    // SAFETY: two records are lent, of which one alone is written.
    unsafe { fenhamper_sizes_add_table(sizes, more) };
}

pub fn fcs(octets: &[u8]) -> u32 {
    // SAFETY: the pointer and the length are one slice's.
    unsafe { fenhamper_fcs(octets.as_ptr(), octets.len()) }
}

pub fn fcs_update(from: u32, octets: &[u8]) -> u32 {
    // SAFETY: the pointer and the length are one slice's.
    unsafe { fenhamper_fcs_update(from, octets.as_ptr(), octets.len()) }
}

pub fn fresh_state() -> State {
    let mut state = State {
        counters: [0; OUTCOMES],
        timers: [0; CLASSES],
        deficit: 0,
        spare: [0; 4],
    };
    // SAFETY: only the state passes, and it is lent alone.
    unsafe { fenhamper_fresh_state(&mut state) };
    state
}

pub fn screen(state: &State) -> [u32; OUTCOMES] {
    let mut shown = [0; OUTCOMES];
    // SAFETY: the state and the values pass, and the values are lent alone.
    unsafe { fenhamper_screen(state, &mut shown) };
    shown
}
