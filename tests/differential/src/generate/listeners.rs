//! Jobs that read, and the table in which both list addresses.
use super::settings::{group, near, station};
use super::{BROADCAST, RESERVED_GROUP};
use crate::prng::Prng;
use crate::{raw, records};
use reference::{Settings, Table};

/// What a job may hold.
pub const MOST_HELD: usize = 12;

/// A job that reads, and the table: its octets, and what they mean.
#[derive(Clone, Copy, Debug)]
pub struct Listener {
    /// The job's number.
    pub job: u8,
    /// The octets of the table.
    pub octets: raw::Table,
    /// What they mean.
    pub table: Table,
}

impl Listener {
    /// A job with a table of any octets.
    pub fn new(job: u8, octets: raw::Table) -> Listener {
        let table = records::table(&octets);
        Listener { job, octets, table }
    }

    /// Job 0 with an empty table.
    pub fn alone() -> Listener {
        Listener::new(0, [0; raw::TABLE])
    }

    /// Another job, or the same, with this table.
    pub fn of(&self, job: u8) -> Listener {
        Listener { job, ..*self }
    }

    /// As the C face takes them.
    pub(crate) fn raw(&self) -> raw::Listening<'_> {
        (self.job, &self.octets)
    }

    /// The same table without what the other job holds; nothing of a broken one is said.
    pub(crate) fn by_itself(&self) -> Listener {
        let mut octets = self.octets;
        for entry in octets.chunks_exact_mut(raw::ENTRY) {
            if [raw::JOB_0, raw::JOB_1].contains(&entry[raw::HOLDER])
                && entry[raw::HOLDER] != holder(self.job)
            {
                entry.fill(0);
            }
        }
        Listener::new(self.job, octets)
    }
}

/// The octet of an entry that a job holds.
pub(crate) fn holder(job: u8) -> u8 {
    match job {
        0 => raw::JOB_0,
        _ => raw::JOB_1,
    }
}

/// A job of 0 or 1, with any table.
pub fn listener(prng: &mut Prng, s: &Settings) -> Listener {
    let job = prng.below(2) as u8;
    Listener::new(job, table(prng, s))
}

/// The same, with a table that is not broken.
pub fn sound_listener(prng: &mut Prng, s: &Settings) -> Listener {
    let job = prng.below(2) as u8;
    Listener::new(job, held(prng, s))
}

/// A listener as the C face may have it: one job in twelve is none.
pub fn misnumbered(prng: &mut Prng, listener: &Listener) -> Listener {
    let any = prng.between(2, 255) as u8;
    listener.of(match prng.below(12) {
        0 => prng.pick(&[2, 3, 128, 255, any]),
        _ => listener.job,
    })
}

/// Any table; one in fifteen is broken.
fn table(prng: &mut Prng, s: &Settings) -> raw::Table {
    if prng.one_in(15) {
        broken_table(prng, s)
    } else {
        held(prng, s)
    }
}

/// A table that no call refuses; one in four is empty.
pub fn sound_table(prng: &mut Prng, s: &Settings) -> raw::Table {
    if prng.one_in(4) {
        [0; raw::TABLE]
    } else {
        held(prng, s)
    }
}

/// Who holds the entries: nobody, both a few, one of them as many as it may, all of them taken.
fn holders(prng: &mut Prng) -> [u8; raw::ENTRIES] {
    let mut holders = [raw::FREE; raw::ENTRIES];
    let job = prng.pick(&[raw::JOB_0, raw::JOB_1]);
    let other = raw::JOB_0 + raw::JOB_1 - job;
    let (of_job, of_other) = match prng.below(16) {
        0 => (0, 0),
        1..=2 => (MOST_HELD, raw::ENTRIES - MOST_HELD),
        3 => {
            let n = prng.between(raw::ENTRIES - MOST_HELD, MOST_HELD);
            (n, raw::ENTRIES - n)
        }
        4 => (MOST_HELD, prng.below(raw::ENTRIES - MOST_HELD + 1)),
        5 => (MOST_HELD - 1, prng.below(raw::ENTRIES - MOST_HELD + 2)),
        6 => (prng.between(1, 4), 0),
        _ => {
            let n = prng.below(MOST_HELD + 1);
            (n, prng.below(MOST_HELD.min(raw::ENTRIES - n) + 1))
        }
    };
    holders[..of_job].fill(job);
    holders[of_job..of_job + of_other].fill(other);
    // from entry 0 on, or with free ones anywhere between
    if !prng.one_in(4) {
        for k in (1..raw::ENTRIES).rev() {
            holders.swap(k, prng.below(k + 1));
        }
    }
    holders
}

/// A table that no call refuses. Free entries have anything, also octets of no job in the holder's
/// place and addresses that a job lists.
fn held(prng: &mut Prng, s: &Settings) -> raw::Table {
    let holders = holders(prng);
    let mut octets = [0; raw::TABLE];
    // where own, broadcast and the reserved group are listed, if they are
    let special = [s.own, BROADCAST, RESERVED_GROUP].map(|address| {
        let from = entry(prng);
        let mut on = (from..raw::ENTRIES).chain(0..from);
        let at = on.find(|&k| holders[k] != raw::FREE && !prng.one_in(3));
        (at.filter(|_| !prng.one_in(3)), address)
    });
    for (k, by) in holders.into_iter().enumerate() {
        // half of the free ones are all zeros
        if by == raw::FREE && prng.coin() {
            continue;
        }
        let holder = match by {
            raw::FREE => free_holder(prng),
            _ => by,
        };
        let named = special.iter().find(|(at, _)| *at == Some(k));
        let named = named.map(|(_, address)| *address);
        let address = new_address(prng, s, &octets, holder, named);
        put_entry(&mut octets, k, holder, &address);
        octets[raw::ENTRY * k + raw::ENTRY_SPARE] = prng.octet();
    }
    octets
}

/// An octet of a free entry's holder.
fn free_holder(prng: &mut Prng) -> u8 {
    let any = prng.between(3, 255) as u8;
    prng.pick(&[raw::FREE, 3, 128, 255, any])
}

/// An address that this holder does not have yet: this one, or any.
fn new_address(
    prng: &mut Prng,
    s: &Settings,
    octets: &raw::Table,
    holder: u8,
    mut named: Option<[u8; 6]>,
) -> [u8; 6] {
    let has = |address: &[u8; 6]| {
        let mut its = octets.chunks_exact(raw::ENTRY);
        its.any(|entry| entry[raw::HOLDER] == holder && entry[raw::LISTED..][..6] == *address)
    };
    loop {
        let address = named.take().unwrap_or_else(|| listed(prng, s, octets));
        if !has(&address) {
            return address;
        }
    }
}

/// The number of an entry.
fn entry(prng: &mut Prng) -> usize {
    prng.below(raw::ENTRIES)
}

fn put_entry(octets: &mut raw::Table, k: usize, holder: u8, address: &[u8; 6]) {
    let entry = &mut octets[raw::ENTRY * k..][..raw::ENTRY];
    entry[raw::HOLDER] = holder;
    entry[raw::LISTED..][..raw::ADDRESS].copy_from_slice(address);
}

/// The address in an entry, whoever holds it.
fn address_in(octets: &raw::Table, k: usize) -> [u8; 6] {
    let entry = &octets[raw::ENTRY * k + raw::LISTED..];
    std::array::from_fn(|i| entry[i])
}

/// An address to list: at times one that stands in the table already, or next to such a one.
fn listed(prng: &mut Prng, s: &Settings, octets: &raw::Table) -> [u8; 6] {
    let there = address_in(octets, entry(prng));
    match prng.below(16) {
        0 => prng.pick(&[s.own, BROADCAST, RESERVED_GROUP]),
        1..=2 => there,
        3 => near(prng, there),
        4 => near(prng, s.own),
        5..=6 => group(station(prng)),
        _ => station(prng),
    }
}

/// A job holds more than 12, or has an address twice, or both; at times both jobs.
pub fn broken_table(prng: &mut Prng, s: &Settings) -> raw::Table {
    let mut octets = held(prng, s);
    loop {
        let holder = prng.pick(&[raw::JOB_0, raw::JOB_1]);
        let wrong = prng.below(4);
        if wrong < 2 {
            let most = prng.pick(&[13, 13, 14, 16]);
            hold_so_many(prng, &mut octets, holder, most);
        }
        if wrong > 0 {
            let (i, j) = two_entries(prng);
            let address = address_in(&octets, i);
            put_entry(&mut octets, i, holder, &address);
            put_entry(&mut octets, j, holder, &address);
        }
        if !prng.one_in(4) {
            return octets;
        }
    }
}

/// The numbers of two entries: next to each other, the first and the last, or any.
fn two_entries(prng: &mut Prng) -> (usize, usize) {
    let i = prng.below(raw::ENTRIES - 1);
    match prng.below(4) {
        0..=1 => (i, i + 1),
        2 => (0, raw::ENTRIES - 1),
        _ => (i, prng.between(i + 1, raw::ENTRIES - 1)),
    }
}

/// Makes a job hold so many entries or more.
fn hold_so_many(prng: &mut Prng, octets: &mut raw::Table, holder: u8, many: usize) {
    let holds = |octets: &raw::Table| {
        let entries = octets.chunks_exact(raw::ENTRY);
        entries.filter(|entry| entry[raw::HOLDER] == holder).count()
    };
    while holds(octets) < many {
        let k = entry(prng);
        if octets[raw::ENTRY * k] != holder {
            let address = station(prng);
            put_entry(octets, k, holder, &address);
        }
    }
}

/// An address out of the table: one that the job lists, that the other lists, or of an entry that may
/// be free.
pub fn listed_address(prng: &mut Prng, listener: &Listener) -> [u8; 6] {
    let octets = &listener.octets;
    let sort = prng.below(8);
    let from = entry(prng);
    let wanted = |k: &usize| {
        let by = octets[raw::ENTRY * k];
        match sort {
            0..=3 => by == holder(listener.job),
            4..=5 => by == holder(1 - listener.job.min(1)),
            6 => by > raw::JOB_1,
            _ => true,
        }
    };
    let found = (from..raw::ENTRIES).chain(0..from).find(wanted);
    address_in(octets, found.unwrap_or(from))
}

/// A destination that these settings or this table have an opinion on.
pub fn heard(prng: &mut Prng, s: &Settings, listener: &Listener) -> [u8; 6] {
    match prng.below(16) {
        0..=4 => listed_address(prng, listener),
        5 => {
            let listed = listed_address(prng, listener);
            near(prng, listed)
        }
        _ => super::settings::destination(prng, s),
    }
}

/// A destination of control frames.
pub fn heard_by_control(prng: &mut Prng, s: &Settings, listener: &Listener) -> [u8; 6] {
    match prng.below(16) {
        0..=7 => RESERVED_GROUP,
        8..=11 => s.own,
        12 => near(prng, RESERVED_GROUP),
        13 => BROADCAST,
        14 => listed_address(prng, listener),
        _ => heard(prng, s, listener),
    }
}

/// A job for a call on a table; one in sixteen is none, and of a broken table one in four.
pub fn table_job(prng: &mut Prng, broken: bool) -> u8 {
    let any = prng.between(2, 255) as u8;
    match prng.one_in(if broken { 4 } else { 16 }) {
        true => prng.pick(&[2, 3, 128, 255, any]),
        false => prng.below(2) as u8,
    }
}

/// An address for a call on a table: mostly one out of the table, or a few more.
pub fn named_address(prng: &mut Prng, s: &Settings, octets: &raw::Table) -> [u8; 6] {
    let there = address_in(octets, entry(prng));
    match prng.below(8) {
        0..=3 => there,
        4 => near(prng, there),
        5 => prng.pick(&[s.own, BROADCAST, RESERVED_GROUP]),
        _ => station(prng),
    }
}
