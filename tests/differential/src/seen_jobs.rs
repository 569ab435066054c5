//! What a call of two jobs was given and answered, taken apart for the coverage table. What a table's
//! octets mean, stands here once more, in the words of item 10 of document 02 and of the header.
use crate::seen::ReadingSeen;
use std::array::from_fn;

/// Octets of an entry.
const ENTRY: usize = 8;

/// A table, by its entries.
#[derive(Clone, Copy, PartialEq, Eq)]
pub struct TableOf<'a>(pub &'a [u8; 16 * ENTRY]);

impl<'a> TableOf<'a> {
    /// The octets of an entry.
    pub fn entry(self, k: usize) -> &'a [u8] {
        &self.0[ENTRY * k..ENTRY * (k + 1)]
    }

    /// The octet that names an entry's holder.
    pub fn holder(self, k: usize) -> u8 {
        self.entry(k)[0]
    }

    /// The job that holds an entry, if one does.
    pub fn job(self, k: usize) -> Option<u8> {
        match self.holder(k) {
            1 => Some(0),
            2 => Some(1),
            _ => None,
        }
    }

    /// The address that stands in an entry, whoever holds it.
    pub fn address(self, k: usize) -> [u8; 6] {
        from_fn(|i| self.entry(k)[1 + i])
    }

    /// The entries that a job holds.
    pub fn of(self, job: u8) -> impl Iterator<Item = usize> + use<'a> {
        (0..16).filter(move |&k| self.job(k) == Some(job))
    }

    /// How many entries a job holds.
    pub fn holds(self, job: u8) -> usize {
        self.of(job).count()
    }

    /// The entries by which a job lists an address.
    pub fn listed_at(self, job: u8, address: &[u8; 6]) -> impl Iterator<Item = usize> + use<'a> {
        let address = *address;
        self.of(job).filter(move |&k| self.address(k) == address)
    }

    /// The entries that nobody holds.
    pub fn free(self) -> impl Iterator<Item = usize> + use<'a> {
        (0..16).filter(move |&k| self.job(k).is_none())
    }

    /// A job has an address twice.
    pub fn has_twice(self, job: u8) -> bool {
        let twice = |k: usize| self.listed_at(job, &self.address(k)).count() > 1;
        self.of(job).any(twice)
    }

    /// "a table where a job holds above 12 or has an address twice".
    pub fn broken(self) -> bool {
        (0..2).any(|job| self.holds(job) > 12 || self.has_twice(job))
    }

    /// Nothing is wrong with it but that a job holds so many.
    pub fn only_holds(self, job: u8, many: usize) -> bool {
        let twice = (0..2).any(|job| self.has_twice(job));
        self.holds(job) == many && self.holds(1 - job) <= 12 && !twice
    }

    /// Nothing is wrong with it but that a job has an address twice.
    pub fn only_twice(self, job: u8) -> bool {
        let most = (0..2).all(|job| self.holds(job) <= 12);
        self.has_twice(job) && !self.has_twice(1 - job) && most
    }

    /// Nothing is wrong with it but that a job has one address in two entries, which stand so.
    pub fn only_pair(self, job: u8, stand: Pair) -> bool {
        let first = |k: usize| self.listed_at(job, &self.address(k)).next();
        let mut later = self.of(job).filter(|&k| first(k) != Some(k));
        let (Some(second), None) = (later.next(), later.next()) else {
            return false;
        };
        let stands = |first: usize| stand(self, job, first, second);
        self.only_twice(job) && first(second).is_some_and(stands)
    }

    /// The only entry of which octets differ from those of another table.
    pub fn only_other(self, other: TableOf) -> Option<usize> {
        let mut differing = (0..16).filter(|&k| self.entry(k) != other.entry(k));
        let first = differing.next();
        first.filter(|_| differing.next().is_none())
    }
}

/// How two entries of a job stand, the lower first.
pub type Pair = fn(TableOf, u8, usize, usize) -> bool;

/// How those by which it has an address twice may stand.
pub const PAIRS: [(&str, Pair); 3] = [
    ("next to each other", |_, _, i, j| i + 1 == j),
    ("others of it between", |table, job, i, j| {
        table.of(job).any(|k| i < k && k < j)
    }),
    ("first and last entry", |_, _, i, j| (i, j) == (0, 15)),
];

/// Which call on a table it was.
#[derive(Clone, Copy, Debug, PartialEq, Eq)]
pub enum TableCall {
    /// Lists an address.
    Add,
    /// Frees the entry of one.
    Remove,
}

/// A call on a table.
pub struct TableSeen<'a> {
    /// The call.
    pub call: TableCall,
    /// The job given.
    pub job: u8,
    /// The address given.
    pub address: [u8; 6],
    /// The table given.
    pub before: TableOf<'a>,
    /// The table after.
    pub after: TableOf<'a>,
    /// The answer's refusal, or 0.
    pub refusal: u8,
    /// The entry that was taken or freed.
    pub entry: Option<usize>,
    /// The own address.
    pub own: [u8; 6],
    /// The entries that earlier calls on this table freed, and for which job.
    pub freed: &'a [(usize, u8)],
}

impl TableSeen<'_> {
    /// Whether a row of the table of refusals holds, by itself.
    pub fn holds(&self, refusal: u8) -> bool {
        let listed = self.before.listed_at(self.job, &self.address).count() > 0;
        match (refusal, self.call) {
            (14, _) => self.job > 1,
            (20, _) => self.before.broken(),
            (17, TableCall::Add) => listed,
            (15, TableCall::Add) => self.before.holds(self.job) >= 12,
            (16, TableCall::Add) => self.before.free().count() == 0,
            (18, TableCall::Remove) => !listed,
            _ => false,
        }
    }

    /// The other job.
    pub fn other(&self) -> u8 {
        1 - self.job.min(1)
    }

    /// No octet changed.
    pub fn stays(&self) -> bool {
        self.before == self.after
    }

    /// It was this call, and it took or freed this entry.
    pub fn did(&self, call: TableCall, entry: usize) -> bool {
        self.call == call && self.entry == Some(entry)
    }

    /// The address was listed in the lowest free entry, this one.
    pub fn added(&self, k: usize) -> bool {
        self.did(TableCall::Add, k)
            && self.before.free().next() == Some(k)
            && self.after.job(k) == Some(self.job)
            && self.after.address(k) == self.address
    }

    /// The entry by which the job listed the address, this one, was freed.
    pub fn removed(&self, k: usize) -> bool {
        self.did(TableCall::Remove, k)
            && self.before.listed_at(self.job, &self.address).eq([k])
            && self.after.job(k).is_none()
    }

    /// An address was listed or an entry freed, and this is true of the entry.
    pub fn done(&self, call: TableCall, test: impl FnOnce(usize) -> bool) -> bool {
        self.entry.is_some_and(|k| {
            let done = match call {
                TableCall::Add => self.added(k),
                TableCall::Remove => self.removed(k),
            };
            done && test(k)
        })
    }
}

/// A screen call.
pub struct ScreenSeen<'a> {
    /// The reading of the chosen job at that place, of a fresh state.
    pub reading: ReadingSeen<'a>,
    /// Octets and marks of the other job's capture.
    pub other: (&'a [u8], &'a [u8]),
    /// The part that the chosen job would be given of the other's capture, if it had it.
    pub of_other: Option<(usize, usize)>,
    /// The answer's refusal, or 0.
    pub refusal: u8,
    /// The part: place and length.
    pub part: (usize, usize),
}

impl ScreenSeen<'_> {
    /// The job.
    pub fn job(&self) -> u8 {
        self.reading.job
    }

    /// Octets were handed out, those of the reading.
    pub fn handed(&self) -> bool {
        self.reading.outcome == 11 && self.part.1 > 0 && self.part.1 == self.reading.handed
    }

    /// The part is 0 and 0.
    pub fn nothing(&self) -> bool {
        self.refusal == 0 && self.part == (0, 0)
    }
}
