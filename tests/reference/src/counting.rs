//! The sending calls and Idle fill in the form that takes the totals of
//! "Starts per stretch", item 9 of document 02: each gives 21 and 22 behind 3
//! and 19, and counts anew the blocks that it writes into. Else it is the call
//! without them. A refused call changes no total.

use crate::check::Check;
use crate::port::Port;
use crate::send::{client_frame, idles, pause_frame, pfc_frame, Client, Line, Sent};
use crate::settings::{Settings, State};
use crate::totals::Total;

/// Sends a client frame, unless the timer of its class runs.
#[allow(clippy::too_many_arguments)] // The shape is that of the compared call.
pub fn send_client_counting(
    kind: Check,
    s: &Settings,
    state: &mut State,
    port: Port,
    octets: &mut [u8],
    marks: &mut [u8],
    totals: &mut [Total],
    place: usize,
    client: &Client,
    data: &[u8],
) -> Sent {
    let line = Line::with_totals(octets, marks, totals, place);
    client_frame(kind, s, state, port, line, client, data).into()
}

/// Sends a pause frame, whatever the timers are.
#[allow(clippy::too_many_arguments)] // The shape is that of the compared call.
pub fn send_pause_counting(
    kind: Check,
    s: &Settings,
    state: &mut State,
    port: Port,
    octets: &mut [u8],
    marks: &mut [u8],
    totals: &mut [Total],
    place: usize,
    quanta: u16,
) -> Sent {
    let line = Line::with_totals(octets, marks, totals, place);
    pause_frame(kind, s, state, port, line, quanta).into()
}

/// Sends a PFC frame, whatever the timers are.
#[allow(clippy::too_many_arguments)] // The shape is that of the compared call.
pub fn send_pfc_counting(
    kind: Check,
    s: &Settings,
    state: &mut State,
    port: Port,
    octets: &mut [u8],
    marks: &mut [u8],
    totals: &mut [Total],
    place: usize,
    named: u8,
    quanta: &[u16; 8],
) -> Sent {
    let line = Line::with_totals(octets, marks, totals, place);
    pfc_frame(kind, s, state, port, line, named, quanta).into()
}

/// Writes `n` Idles.
///
/// Open point: no Idles are written into no block, so nothing is counted anew.
pub fn fill_idle_counting(
    state: &mut State,
    octets: &mut [u8],
    marks: &mut [u8],
    totals: &mut [Total],
    place: usize,
    n: usize,
) -> Sent {
    let line = Line::with_totals(octets, marks, totals, place);
    idles(state, line, n).into()
}
