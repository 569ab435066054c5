//! Calls on the table that two jobs share and the screen call, through both faces, compared with the
//! reference's.
use crate::compare::{by_reference_read, first_other, Bench, Difference, Lent, AROUND};
use crate::compare_log::{by_number, refusal};
use crate::generate::Listener;
use crate::prng::Prng;
use crate::seen::{By, ReadingSeen};
use crate::seen_jobs::{ScreenSeen, TableCall, TableOf, TableSeen};
use crate::{face, raw, records, show};
use fenhamper::{Capture, Refusal};
use reference::{Answer, Part, State, Table};

/// A table to lend. It stands in the middle of other octets, which would be entries or not, so that a
/// look or a step past the end shows; anywhere in memory, since a table may be.
#[derive(Clone, PartialEq, Eq)]
pub(crate) struct LentTable {
    octets: Vec<u8>,
    front: usize,
    /// The own address of the settings that its addresses were drawn with.
    own: [u8; 6],
    /// The entries that calls on it freed, and for which job.
    freed: Vec<(usize, u8)>,
}

impl LentTable {
    pub(crate) fn new(prng: &mut Prng, table: &raw::Table, own: [u8; 6]) -> LentTable {
        let front = AROUND + prng.below(AROUND);
        let other = prng.pick(&[raw::FREE, raw::JOB_0, raw::JOB_1, 0xFF]);
        LentTable {
            octets: [&vec![other; front][..], table, &[other; AROUND]].concat(),
            front,
            own,
            freed: Vec::new(),
        }
    }

    pub(crate) fn octets(&self) -> &raw::Table {
        let octets = self.octets[self.front..].first_chunk();
        octets.expect("a table and what stands behind it")
    }

    fn lent(&mut self) -> &mut raw::Table {
        let octets = self.octets[self.front..].first_chunk_mut();
        octets.expect("a table and what stands behind it")
    }
}

/// A call by the reference.
fn by_reference(
    table: &mut Table,
    call: TableCall,
    job: u8,
    address: [u8; 6],
) -> Result<usize, u8> {
    match call {
        TableCall::Add => table.add(job, address),
        TableCall::Remove => table.remove(job, address),
    }
}

/// The same through the C face.
fn in_c(table: &mut raw::Table, call: TableCall, job: u8, address: &[u8; 6]) -> (u32, usize) {
    match call {
        TableCall::Add => raw::table_add(table, job, address),
        TableCall::Remove => raw::table_remove(table, job, address),
    }
}

/// The same through the Rust face.
fn in_rust(
    table: &mut fenhamper::Table,
    call: TableCall,
    job: u8,
    address: [u8; 6],
) -> Result<usize, Refusal> {
    let (job, address) = (face::job(job), fenhamper::Address(address));
    match call {
        TableCall::Add => table.add(job, address),
        TableCall::Remove => table.remove(job, address),
    }
}

impl Bench {
    /// Compares tables, each with what stands around it.
    fn same_table(
        &self,
        call: &str,
        (library, expected): (&LentTable, &LentTable),
        inputs: impl Fn() -> String,
    ) -> Result<(), Difference> {
        let other = first_other(&library.octets, &expected.octets, library.front);
        self.same((call, "table, first other"), (other, None), inputs)
    }

    /// Empties a table.
    pub(crate) fn table_empty(&mut self, table: &mut LentTable) -> Result<(), Difference> {
        self.calls += 1;
        let before = table.clone();
        let mut in_c = table.clone();
        raw::table_empty(in_c.lent());
        *table.lent() = [0; raw::TABLE];
        let inputs = || show::table(before.octets());
        self.same_table("table_empty in C", (&in_c, table), inputs)?;
        let mut cleared = fenhamper::Table::from_octets(*before.octets());
        cleared.clear();
        let tables = (cleared.octets(), *table.octets());
        self.same(("Table::clear", "octets"), tables, inputs)?;
        let tables = (fenhamper::Table::new().octets(), *table.octets());
        self.same(("Table::new", "octets"), tables, inputs)
    }

    /// Adds or removes an address; the table goes on to that after it.
    pub(crate) fn table_call(
        &mut self,
        table: &mut LentTable,
        call: TableCall,
        job: u8,
        address: [u8; 6],
    ) -> Result<(), Difference> {
        self.calls += 1;
        let before = table.clone();
        let mut meant = records::table(before.octets());
        let expected = by_reference(&mut meant, call, job, address);
        *table.lent() = records::table_written(before.octets(), &meant);
        let inputs = || {
            let address = show::octets(&address, true);
            let table = show::table(before.octets());
            format!("{call:?}, job {job}, {address}\n{table}")
        };

        let mut table_in_c = before.clone();
        let answer = in_c(table_in_c.lent(), call, job, &address);
        let left = expected.unwrap_or(raw::LEFT_NUMBER);
        let answers = (answer, (refusal(&expected).into(), left));
        self.same(("table call in C", "answer"), answers, inputs)?;
        self.same_table("table call in C", (&table_in_c, table), inputs)?;
        let entries = (records::table(table_in_c.octets()), meant);
        self.same(("table call in C", "entries"), entries, inputs)?;

        // the Rust face has no job above 1
        if job < 2 {
            let mut table_in_rust = fenhamper::Table::from_octets(*before.octets());
            let answer = in_rust(&mut table_in_rust, call, job, address);
            let answers = (by_number(answer), expected);
            self.same(("table call", "answer"), answers, inputs)?;
            if let Err(refusal) = answer {
                self.refused("table call", refusal, inputs)?;
            }
            let tables = (table_in_rust.octets(), *table.octets());
            self.same(("table call", "octets"), tables, inputs)?;
            self.same_entries(&table_in_rust, &meant, inputs)?;
        }
        self.gets_four(job, before.octets(), answer.0, inputs)?;

        self.coverage.table(&TableSeen {
            call,
            job,
            address,
            before: TableOf(before.octets()),
            after: TableOf(table.octets()),
            refusal: refusal(&expected),
            entry: expected.ok(),
            own: before.own,
            freed: &before.freed,
        });
        if let (TableCall::Remove, Ok(entry)) = (call, expected) {
            table.freed.push((entry, job));
        }
        Ok(())
    }

    /// The Rust face's entries and counts of a table, with what it means.
    fn same_entries(
        &self,
        table: &fenhamper::Table,
        meant: &Table,
        inputs: impl Fn() -> String,
    ) -> Result<(), Difference> {
        let held = |job: u8| {
            let entries = meant.entries().iter();
            entries.filter(move |entry| entry.address_of(job).is_some())
        };
        let holds = [0, 1].map(|job| table.holds(face::job(job)));
        let sides = (holds, [0, 1].map(|job| held(job).count()));
        self.same(("Table::holds", "numbers"), sides, &inputs)?;
        self.same(
            ("Table::entries", "entries"),
            (face::entries(table), *meant),
            inputs,
        )
    }

    /// "each always gets 4 whatever the other does": 15 and 16 are given only to a job that holds
    /// four or more.
    fn gets_four(
        &self,
        job: u8,
        before: &raw::Table,
        refusal: u32,
        inputs: impl Fn() -> String,
    ) -> Result<(), Difference> {
        if refusal != 15 && refusal != 16 {
            return Ok(());
        }
        let four = TableOf(before).holds(job) >= 4;
        self.same(("table call", "holds four or more"), (four, true), inputs)
    }

    /// The client data of a job, out of one of two captures.
    pub(crate) fn screen_data(
        &mut self,
        settings: &raw::Settings,
        l: &Listener,
        lent: &[Lent; 2],
        place: usize,
    ) -> Result<(), Difference> {
        self.calls += 1;
        let s = records::settings(settings);
        let captures = [0, 1].map(|job: usize| reference::Lent {
            octets: lent[job].octets(),
            marks: lent[job].marks(),
        });
        let expected = reference::show(self.check, &s, l.job, &l.table, captures, place);
        let part = expected.unwrap_or(Part { at: 0, len: 0 });
        let inputs = || {
            let symbols = |lent: &Lent| show::symbols(lent.octets(), lent.marks(), self.whole);
            let both = format!("{}\nand: {}", symbols(&lent[0]), symbols(&lent[1]));
            let listener = show::listener(l);
            format!("{settings:?}\nmeant: {s:?}\n{listener}\nplace {place}\nsymbols: {both}")
        };

        let both = [0, 1].map(|job: usize| (lent[job].octets(), lent[job].marks()));
        let answer = raw::screen_data(settings, l.raw(), both, place);
        let number = refusal(&expected);
        let answers = (answer, (number.into(), [part.at as u64, part.len as u64]));
        self.same(("screen_data in C", "answer"), answers, inputs)?;

        let chosen = usize::from(l.job.min(1));
        if l.job < 2 {
            let captures = both.map(|(octets, marks)| Capture::new(octets, marks));
            let table = face::table(l);
            let listener = face::listener(&s, l, &table);
            let answer = listener.screen_data(captures, place);
            let octets = lent[chosen].octets();
            // the part itself, which lies in that job's octets
            let memory = |part: &[u8]| (part.as_ptr(), part.len());
            let in_capture = expected.map(|part| match part.len {
                0 => None,
                _ => Some(memory(&octets[part.at..part.at + part.len])),
            });
            let handed = answer.map(|part| (!part.is_empty()).then(|| memory(part)));
            let sides = (by_number(handed), in_capture);
            self.same(("screen_data", "part"), sides, inputs)?;
            if let Err(refusal) = answer {
                self.refused("screen_data", refusal, inputs)?;
            }
        }

        let mut state = State::default();
        let reading = by_reference_read(self.check, (&s, l), &mut state, &lent[chosen], place);
        // what a reading of the chosen job gives
        let read = match reading.answer {
            Answer::Counted { at, len, .. } => (at, len),
            _ => (0, 0),
        };
        let parts = ((answer.1[0] as usize, answer.1[1] as usize), read);
        self.same(("screen_data in C, read", "part"), parts, inputs)?;
        let mut other_state = State::default();
        let other = &lent[1 - chosen];
        let on_other = by_reference_read(self.check, (&s, l), &mut other_state, other, place);
        let fresh = State::default();
        let symbols = (lent[chosen].octets(), lent[chosen].marks(), place);
        let states = (&fresh, &state);
        self.coverage.screen(&ScreenSeen {
            reading: ReadingSeen::new(By::Read, (&s, l), symbols, states, reading),
            other: (other.octets(), other.marks()),
            of_other: match on_other.answer {
                Answer::Counted { at, len, .. } => Some((at, len)),
                _ => None,
            },
            refusal: number,
            part: (part.at, part.len),
        });
        Ok(())
    }
}
