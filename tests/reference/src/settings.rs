//! Settings and state, with the "Address rule", the counters and the timers.

use crate::line::{is_group, BROADCAST};
use crate::table::Table;

/// Flow mode.
#[derive(Clone, Copy, Debug, PartialEq, Eq)]
pub enum Flow {
    /// Neither pause nor PFC.
    None,
    /// Pause frames, for all classes together.
    Pause,
    /// Priority pause frames, for each class.
    Pfc,
}

/// What the caller sets. Any value can be written down; refusal 1 tells the
/// wrong ones.
#[derive(Clone, Copy, Debug, PartialEq, Eq)]
pub struct Settings {
    /// The own address.
    pub own: [u8; 6],
    /// Accept broadcast.
    pub broadcast: bool,
    /// Accept every destination.
    pub promiscuous: bool,
    /// Check lengths.
    pub checking: bool,
    /// The limit M.
    pub limit: u16,
    /// Flow mode.
    pub flow: Flow,
    /// Hand out control frames that aren't taken.
    pub pass_control: bool,
}

impl Settings {
    /// The settings of the printing program.
    pub const PRINTED: Settings = Settings {
        own: [0x02, 0x00, 0x00, 0x00, 0x00, 0x01],
        broadcast: true,
        promiscuous: false,
        checking: true,
        limit: 1518,
        flow: Flow::None,
        pass_control: false,
    };

    /// The opposite of refusal 1; by item 10 of document 02 "the listed count
    /// falls away".
    pub(crate) fn are_valid(&self) -> bool {
        !is_group(&self.own) && (1518..=9618).contains(&self.limit)
    }

    /// "Address rule", with "Which address let it in?", item 7 of document 02:
    /// 0 if the rule refuses. Listed are the entries of the table that the job
    /// holds, by item 10.
    ///
    /// Open point: an own address that is listed too says 1, since it is named
    /// first.
    pub(crate) fn let_in_by(&self, job: u8, table: &Table, destination: &[u8; 6]) -> u8 {
        let of_all = if self.promiscuous { BY_ALL } else { BY_NONE };
        if *destination == BROADCAST {
            // "listed or not"
            return if self.broadcast { BY_BROADCAST } else { of_all };
        }
        if *destination == self.own {
            return BY_OWN;
        }
        match table.entry_of(job, destination) {
            Some(entry) => BY_FIRST_ENTRY + entry as u8,
            None => of_all,
        }
    }
}

/// What let a frame in, by its number: nothing.
pub(crate) const BY_NONE: u8 = 0;
/// The own address.
const BY_OWN: u8 = 1;
/// Broadcast.
const BY_BROADCAST: u8 = 6;
/// "promiscuous only".
const BY_ALL: u8 = 7;
/// A control frame's destination, the reserved group.
pub(crate) const BY_RESERVED_GROUP: u8 = 8;
/// Entry 0 of the table, "16 plus the entry"; the others follow up to 31.
///
/// Open point: the entries are counted from 0.
const BY_FIRST_ENTRY: u8 = 16;

/// "Reading one Start": the outcomes by their numbers.
#[derive(Clone, Copy, Debug, PartialEq, Eq)]
pub(crate) enum Outcome {
    Cut = 1,
    BadPreamble = 2,
    Undersized = 3,
    Oversized = 4,
    WrongFcs = 5,
    WrongLength = 6,
    Filtered = 7,
    PauseTaken = 8,
    PfcTaken = 9,
    ControlDropped = 10,
    HandedOut = 11,
}

/// What lasts from call to call; a fresh state is all zeros.
#[derive(Clone, Copy, Debug, Default, PartialEq, Eq)]
pub struct State {
    /// One counter for each outcome; outcome 1 is at index 0. They are wide
    /// by "Counters that outlast a weekend", item 6 of document 02.
    pub counters: [u64; 11],
    /// One timer for each class, in slots.
    pub timers: [u32; 8],
    /// The deficit count of the four-lane port. Any value can stand here;
    /// refusal 19 tells the wrong ones.
    pub deficit: u8,
}

/// Slots in a count of quanta: a quantum is 512 bit times, which is 64 slots.
fn slots(quanta: u16) -> u32 {
    u32::from(quanta) * 64
}

impl State {
    /// Counts one Start with this outcome, modulo 2^64.
    pub(crate) fn count(&mut self, outcome: Outcome) {
        let counter = &mut self.counters[outcome as usize - 1];
        *counter = counter.wrapping_add(1);
    }

    /// Sets every timer from one count of quanta.
    pub(crate) fn pause(&mut self, quanta: u16) {
        self.timers = [slots(quanta); 8];
    }

    /// Sets the timers of the classes whose bit in `named` is set.
    pub(crate) fn pause_classes(&mut self, named: u8, quanta: &[u16; 8]) {
        for (class, (timer, &quanta)) in self.timers.iter_mut().zip(quanta).enumerate() {
            if is_named(named, class) {
                *timer = slots(quanta);
            }
        }
    }

    /// Lowers every timer by the number of symbols written, not below zero.
    pub(crate) fn pass(&mut self, symbols: usize) {
        let passed = u32::try_from(symbols).unwrap_or(u32::MAX);
        for timer in &mut self.timers {
            *timer = timer.saturating_sub(passed);
        }
    }
}

/// "The management screen goes on showing the 32-bit values, each the
/// remainder of the wide one."
pub fn screen(state: &State) -> [u32; 11] {
    state.counters.map(|counter| (counter % (1 << 32)) as u32)
}

/// Does bit n of a class octet name class n?
pub(crate) fn is_named(named: u8, class: usize) -> bool {
    (usize::from(named) >> class) & 1 == 1
}
