//! The calls over the totals of a capture.
use super::{Capture, Client, Settings, State, LEFT_NUMBER, SENT, UNWRITTEN};

extern "C" {
    fn fenhamper_fill_totals(
        octets: *const u8,
        octets_length: usize,
        marks: *const u8,
        marks_length: usize,
        totals: *mut u16,
        totals_length: usize,
    ) -> u32;
    fn fenhamper_starts_before(
        octets: *const u8,
        octets_length: usize,
        marks: *const u8,
        marks_length: usize,
        totals: *const u16,
        totals_length: usize,
        place: usize,
        starts: &mut usize,
    ) -> u32;
    fn fenhamper_send_client_counted(
        settings: &Settings,
        state: &mut State,
        port: u8,
        octets: *mut u8,
        octets_length: usize,
        marks: *mut u8,
        marks_length: usize,
        totals: *mut u16,
        totals_length: usize,
        place: usize,
        client: &Client,
        data: *const u8,
        data_length: usize,
        sent: &mut [u64; SENT],
    );
    fn fenhamper_send_pause_counted(
        settings: &Settings,
        state: &mut State,
        port: u8,
        octets: *mut u8,
        octets_length: usize,
        marks: *mut u8,
        marks_length: usize,
        totals: *mut u16,
        totals_length: usize,
        place: usize,
        quanta: u16,
        sent: &mut [u64; SENT],
    );
    fn fenhamper_send_pfc_counted(
        settings: &Settings,
        state: &mut State,
        port: u8,
        octets: *mut u8,
        octets_length: usize,
        marks: *mut u8,
        marks_length: usize,
        totals: *mut u16,
        totals_length: usize,
        place: usize,
        named: u8,
        quanta: &[u16; 8],
        sent: &mut [u64; SENT],
    );
    fn fenhamper_fill_idle_counted(
        state: &mut State,
        octets: *mut u8,
        octets_length: usize,
        marks: *mut u8,
        marks_length: usize,
        totals: *mut u16,
        totals_length: usize,
        place: usize,
        idles: usize,
        sent: &mut [u64; SENT],
    );
}

/// Octets, marks and totals to write into.
type CountedLine<'a> = (&'a mut [u8], &'a mut [u8], &'a mut [u16]);

/// The refusal's number, or 0.
pub fn fill_totals((octets, marks): Capture, totals: &mut [u16]) -> u32 {
    // SAFETY: each pointer and length is one slice's, and the totals are lent alone.
    unsafe {
        fenhamper_fill_totals(
            octets.as_ptr(),
            octets.len(),
            marks.as_ptr(),
            marks.len(),
            totals.as_mut_ptr(),
            totals.len(),
        )
    }
}

/// With the number of Starts, which a refusal leaves.
pub fn starts_before((octets, marks): Capture, totals: &[u16], place: usize) -> (u32, usize) {
    let mut starts = LEFT_NUMBER;
    // SAFETY: each pointer and length is one slice's.
    let refusal = unsafe {
        fenhamper_starts_before(
            octets.as_ptr(),
            octets.len(),
            marks.as_ptr(),
            marks.len(),
            totals.as_ptr(),
            totals.len(),
            place,
            &mut starts,
        )
    };
    (refusal, starts)
}

pub fn send_client_counted(
    settings: &Settings,
    state: &mut State,
    port: u8,
    (octets, marks, totals): CountedLine,
    place: usize,
    client: &Client,
    data: &[u8],
) -> [u64; SENT] {
    let mut sent = [UNWRITTEN; SENT];
    // SAFETY: each pointer and length is one slice's, and the written ones are lent alone.
    unsafe {
        fenhamper_send_client_counted(
            settings,
            state,
            port,
            octets.as_mut_ptr(),
            octets.len(),
            marks.as_mut_ptr(),
            marks.len(),
            totals.as_mut_ptr(),
            totals.len(),
            place,
            client,
            data.as_ptr(),
            data.len(),
            &mut sent,
        );
    }
    sent
}

pub fn send_pause_counted(
    settings: &Settings,
    state: &mut State,
    port: u8,
    (octets, marks, totals): CountedLine,
    place: usize,
    quanta: u16,
) -> [u64; SENT] {
    let mut sent = [UNWRITTEN; SENT];
    // SAFETY: each pointer and length is one slice's, and the written ones are lent alone.
    unsafe {
        fenhamper_send_pause_counted(
            settings,
            state,
            port,
            octets.as_mut_ptr(),
            octets.len(),
            marks.as_mut_ptr(),
            marks.len(),
            totals.as_mut_ptr(),
            totals.len(),
            place,
            quanta,
            &mut sent,
        );
    }
    sent
}

pub fn send_pfc_counted(
    settings: &Settings,
    state: &mut State,
    port: u8,
    (octets, marks, totals): CountedLine,
    place: usize,
    named: u8,
    quanta: &[u16; 8],
) -> [u64; SENT] {
    let mut sent = [UNWRITTEN; SENT];
    // SAFETY: each pointer and length is one slice's, and the written ones are lent alone.
    unsafe {
        fenhamper_send_pfc_counted(
            settings,
            state,
            port,
            octets.as_mut_ptr(),
            octets.len(),
            marks.as_mut_ptr(),
            marks.len(),
            totals.as_mut_ptr(),
            totals.len(),
            place,
            named,
            quanta,
            &mut sent,
        );
    }
    sent
}

pub fn fill_idle_counted(
    state: &mut State,
    (octets, marks, totals): CountedLine,
    place: usize,
    idles: usize,
) -> [u64; SENT] {
    let mut sent = [UNWRITTEN; SENT];
    // SAFETY: each pointer and length is one slice's, and the written ones are lent alone.
    unsafe {
        fenhamper_fill_idle_counted(
            state,
            octets.as_mut_ptr(),
            octets.len(),
            marks.as_mut_ptr(),
            marks.len(),
            totals.as_mut_ptr(),
            totals.len(),
            place,
            idles,
            &mut sent,
        );
    }
    sent
}
