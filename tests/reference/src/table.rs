//! "Two jobs on one tester", item 10 of document 02: the address table that both
//! jobs share. A call gives the number of its refusal as the error.

use crate::refusal;

/// Entries of the table.
const ENTRIES: usize = 16;
/// "Each holds at most 12".
const MAX_HELD: usize = 12;
/// The jobs, by their numbers.
const JOBS: [u8; 2] = [0, 1];

/// An entry of the table.
///
/// Open point: an entry that a third job holds can't be written down, so that
/// refusal 20 has nothing to say of one.
#[derive(Clone, Copy, Debug, Default, PartialEq, Eq)]
pub enum Entry {
    /// Nobody holds it.
    #[default]
    Free,
    /// Job 0 holds it, with this address.
    Job0([u8; 6]),
    /// Job 1 holds it, with this address.
    Job1([u8; 6]),
}

impl Entry {
    /// An entry that this job holds; free for a job that isn't there.
    pub fn held(job: u8, address: [u8; 6]) -> Self {
        match job {
            0 => Entry::Job0(address),
            1 => Entry::Job1(address),
            _ => Entry::Free,
        }
    }

    /// The address, if this job holds the entry.
    pub fn address_of(&self, job: u8) -> Option<[u8; 6]> {
        match (self, job) {
            (Entry::Job0(address), 0) | (Entry::Job1(address), 1) => Some(*address),
            _ => None,
        }
    }
}

/// "one address table of 16 entries in place of the four listed ones". Any
/// entries can be written down; refusal 20 tells the wrong tables.
#[derive(Clone, Copy, Debug, Default, PartialEq, Eq)]
pub struct Table {
    entries: [Entry; ENTRIES],
}

impl Table {
    /// A table of free entries.
    pub const EMPTY: Table = Table::from_entries([Entry::Free; ENTRIES]);

    /// A table of any entries.
    pub const fn from_entries(entries: [Entry; 16]) -> Self {
        Table { entries }
    }

    /// The entries, from entry 0 on.
    pub fn entries(&self) -> &[Entry; 16] {
        &self.entries
    }

    /// The entries that a job holds, each with its number.
    pub(crate) fn listed(&self, job: u8) -> impl Iterator<Item = (usize, [u8; 6])> + '_ {
        let entries = self.entries.iter().enumerate();
        entries.filter_map(move |(entry, held)| Some((entry, held.address_of(job)?)))
    }

    /// The entry in which a job has an address; the first of them, should the
    /// table be broken.
    pub(crate) fn entry_of(&self, job: u8, address: &[u8; 6]) -> Option<usize> {
        let mut listed = self.listed(job);
        listed
            .find(|(_, other)| other == address)
            .map(|(entry, _)| entry)
    }

    /// "15 holds 12".
    pub(crate) fn holds_all(&self, job: u8) -> bool {
        self.listed(job).count() >= MAX_HELD
    }

    /// "an addition takes the lowest free entry"; nothing if "all 16 in use".
    pub(crate) fn lowest_free(&self) -> Option<usize> {
        self.entries.iter().position(|entry| *entry == Entry::Free)
    }

    /// "a table where a job holds above 12 or has an address twice".
    ///
    /// Open point: "a job" is each of the two, whichever one calls.
    pub(crate) fn is_broken(&self) -> bool {
        JOBS.into_iter().any(|job| {
            // Twice: an address that its job has in an earlier entry too.
            let twice = |(entry, address)| self.entry_of(job, &address) != Some(entry);
            self.listed(job).count() > MAX_HELD || self.listed(job).any(twice)
        })
    }

    /// Lists an address for a job, in the lowest free entry, and gives that
    /// entry's number, 0 to 15. Gives 14, 20, 17, 15 and 16, in that order; a
    /// refused call leaves the table.
    ///
    /// Open point: no address is refused for what it is. The own address says 1
    /// all the same, and broadcast never matches.
    pub fn add(&mut self, job: u8, address: [u8; 6]) -> Result<usize, u8> {
        refusal::job(job)?;
        refusal::table(self)?;
        refusal::new_to(self, job, &address)?;
        refusal::held(self, job)?;
        let entry = refusal::free_entry(self)?;
        self.entries[entry] = Entry::held(job, address);
        Ok(entry)
    }

    /// Frees the entry in which a job has an address, and gives its number.
    /// Gives 14, 20 and 18; a refused call leaves the table.
    pub fn remove(&mut self, job: u8, address: [u8; 6]) -> Result<usize, u8> {
        refusal::job(job)?;
        refusal::table(self)?;
        let entry = refusal::listed(self, job, &address)?;
        self.entries[entry] = Entry::Free;
        Ok(entry)
    }
}
