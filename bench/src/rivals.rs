//! The ways to do one job, each with the state that it keeps, so that what they did can be compared.
use std::hint::black_box;

use fenhamper::limits::RECORD_SIZE;
use fenhamper::{blocks, Address, Capture, End, Explained, Frame, Log, Reading, Reason};
use fenhamper::{Listener, Plain, Sender, Settings, Sizes, State, Symbol, Table};
use reference::{Answer, Check, Client, Form, Port, Sent, SizeTable, Walked, Why};

use crate::baseline::{self, Reader};
use crate::captures::{data_length, Line, TYPE};

/// The own address of the printing program.
pub const OWN: [u8; 6] = reference::Settings::PRINTED.own;

/// One way to do a job.
pub trait Rival {
    /// Does the job once, and sums up what it gave.
    fn run(&mut self) -> Tally;
    /// What it left behind in all runs so far: counters, or symbols.
    fn kept(&self) -> Vec<u64>;
    /// Makes ready for a run what is no part of the job, such as an empty log; false where there is
    /// nothing to do.
    fn ready(&mut self) -> bool {
        false
    }
}

/// What one run gave: Starts counted, whether the last is open, octets handed out, status words
/// added up; of a sending the place after it.
#[derive(Clone, Copy, Debug, Default, PartialEq, Eq)]
pub struct Tally {
    pub count: usize,
    open: bool,
    octets: usize,
    status: u64,
}

impl Tally {
    /// What a walk gave.
    pub fn walked(count: usize, open: bool) -> Tally {
        Tally {
            count,
            open,
            ..Tally::default()
        }
    }
}

/// The printing program's settings but for the limit M, for the reference.
pub fn reference_settings(limit: u16) -> reference::Settings {
    reference::Settings {
        limit,
        ..reference::Settings::PRINTED
    }
}

// The same for Fenhamper.
fn settings(limit: u16) -> Settings {
    Settings::new(Address(OWN)).limit(limit)
}

/// Job 0 reads; both jobs hold as many entries of the table as they can together.
const READER: u8 = 0;
const HELD: [(u8, usize); 2] = [(0, 12), (1, 4)];

// The addresses that a full table lists, each with its job: groups, none of them a frame's destination.
fn full() -> impl Iterator<Item = (u8, [u8; 6])> {
    let jobs = HELD
        .into_iter()
        .flat_map(|(job, n)| std::iter::repeat_n(job, n));
    jobs.zip(0..)
        .map(|(job, n)| (job, [0x01, 0x00, 0x5E, 0x00, 0x00, n]))
}

// A table that lists nothing, or all that it can, for the reference.
fn reference_table(is_full: bool) -> reference::Table {
    let mut table = reference::Table::EMPTY;
    for (job, address) in full().filter(|_| is_full) {
        let added = table.add(job, address);
        added.expect("the table takes 16");
    }
    table
}

// The same for Fenhamper.
fn table(is_full: bool) -> Table {
    let mut table = Table::new();
    for (job, address) in full().filter(|_| is_full) {
        let job = fenhamper::Job::from_number(job).expect("there are two jobs");
        let added = table.add(job, Address(address));
        added.expect("the table takes 16");
    }
    table
}

/// How Fenhamper reads a capture.
#[derive(Clone, Copy)]
pub enum By {
    /// All in one call.
    Walk,
    /// A call for each Start.
    Read,
    /// The iterator over readings, which is a call for each Start too.
    Readings,
    /// All in one call, with a record of each Start in a log.
    WalkLog,
    /// A call for each Start that says why it has its outcome.
    Explain,
    /// A call for each symbol, by the plain reader.
    Plain,
    /// All in one call, into a size table.
    Sizes,
}

// What a size table keeps: its counts.
fn counts(frames: &[u64; 7], octets: &[u64; 7]) -> Vec<u64> {
    [&frames[..], octets].concat()
}

// Job 0 with this table.
fn listener<'t>(settings: &Settings, table: &'t Table) -> Listener<'t> {
    settings.listing(fenhamper::Job::Zero, black_box(table))
}

/// Fenhamper, reading.
pub struct Proved<'a> {
    by: By,
    line: &'a Line,
    settings: Settings,
    table: Table,
    state: State,
    log: Vec<u8>,
    // of reasons, which no state has a part in
    counters: [u64; 11],
    sizes: Sizes,
}

/// Records that a log has beyond those that a walk needs.
const SPARE_RECORDS: usize = 1024;

// A log with room for each Start that is counted, and more.
fn log_for(line: &Line, limit: u16) -> Vec<u8> {
    let (s, mut state) = (reference_settings(limit), reference::State::default());
    let (check, table) = (Check::Slicing16, reference_table(false));
    let (octets, marks) = (&line.octets, &line.marks);
    let walk = reference::walk(check, &s, &mut state, READER, &table, octets, marks);
    match walk {
        Walked::Ended { starts, .. } => vec![0; (starts + SPARE_RECORDS) * RECORD_SIZE],
        Walked::Refused(_) => Vec::new(),
    }
}

impl<'a> Proved<'a> {
    pub fn new(by: By, line: &'a Line, limit: u16) -> Self {
        let log = match by {
            By::WalkLog => log_for(line, limit),
            _ => Vec::new(),
        };
        Proved {
            by,
            line,
            settings: settings(limit),
            table: table(false),
            state: State::default(),
            log,
            counters: [0; 11],
            sizes: Sizes::new(),
        }
    }

    /// The same with a table of 12 and 4 entries in place of an empty one.
    pub fn listing(mut self) -> Self {
        self.table = table(true);
        self
    }

    /// The log of the last run.
    #[cfg(test)]
    pub fn log(&self) -> &[u8] {
        &self.log
    }

    fn walk_log(&mut self, capture: Capture) -> Tally {
        let mut log = match Log::new(black_box(&mut self.log)) {
            Ok(log) => log,
            Err(_) => return Tally::default(),
        };
        let kept = capture.walk_log(
            listener(&self.settings, &self.table),
            &mut self.state,
            0,
            &mut log,
        );
        kept.map_or_else(
            |_| Tally::default(),
            |kept| Tally {
                count: kept.records,
                open: kept.end == End::Open,
                ..Tally::default()
            },
        )
    }

    fn read(&mut self, capture: Capture) -> Tally {
        let (mut tally, mut place) = (Tally::default(), 0);
        let listener = listener(&self.settings, &self.table);
        while let Ok(reading) = capture.read(listener, &mut self.state, place) {
            match reading {
                Reading::Counted(r) => {
                    tally.count += 1;
                    tally.octets += r.data.len();
                    tally.status = tally.status.wrapping_add(r.status.word());
                    place = r.next;
                }
                Reading::Open { .. } => {
                    tally.open = true;
                    break;
                }
                Reading::Nothing { .. } => break,
            }
        }
        tally
    }

    // What a reason tells of data is its length, as a reading does.
    fn explain(&mut self, capture: Capture) -> Tally {
        let (mut tally, mut place) = (Tally::default(), 0);
        let listener = listener(&self.settings, &self.table);
        while let Ok(explained) = capture.explain(listener, place) {
            match explained {
                Explained::Because { next, reason, .. } => {
                    tally.count += 1;
                    if let Reason::Handed { length, .. } = reason {
                        tally.octets += length;
                    }
                    self.counters[usize::from(reason.outcome().number()) - 1] += 1;
                    place = next;
                }
                Explained::Open { .. } => {
                    tally.open = true;
                    break;
                }
                Explained::Nothing { .. } => break,
            }
        }
        tally
    }

    fn plain(&mut self, capture: Capture) -> Tally {
        let mut tally = Tally::default();
        let listener = listener(&self.settings, &self.table);
        let mut plain = Plain::new(listener).with_state(self.state.clone());
        for symbol in capture.records().map(Symbol::from) {
            if let Ok(Some(told)) = plain.push(symbol) {
                tally.count += 1;
                tally.octets += told.length;
                tally.status = tally.status.wrapping_add(told.status.word());
            }
        }
        tally.open = plain.is_open();
        self.state = plain.state;
        tally
    }

    fn readings(&mut self, capture: Capture) -> Tally {
        let mut tally = Tally::default();
        let listener = listener(&self.settings, &self.table);
        let mut readings = capture.readings(listener, &mut self.state);
        for r in readings.by_ref().flatten() {
            tally.count += 1;
            tally.octets += r.data.len();
            tally.status = tally.status.wrapping_add(r.status.word());
        }
        tally.open = readings.ended_open();
        tally
    }
}

impl Rival for Proved<'_> {
    fn run(&mut self) -> Tally {
        let capture = Capture::new(black_box(&self.line.octets), black_box(&self.line.marks));
        match self.by {
            By::Walk => {
                let listener = listener(&self.settings, &self.table);
                let walk = capture.walk(listener, &mut self.state);
                walk.map_or_else(
                    |_| Tally::default(),
                    |walk| Tally {
                        count: walk.starts,
                        open: walk.open,
                        ..Tally::default()
                    },
                )
            }
            By::Read => self.read(capture),
            By::Readings => self.readings(capture),
            By::WalkLog => self.walk_log(capture),
            By::Explain => self.explain(capture),
            By::Plain => self.plain(capture),
            By::Sizes => {
                let listener = listener(&self.settings, &self.table);
                let added = self.sizes.add_capture(listener, capture);
                Tally {
                    open: added.is_err(),
                    ..Tally::default()
                }
            }
        }
    }

    fn kept(&self) -> Vec<u64> {
        match self.by {
            By::Explain => self.counters.to_vec(),
            By::Sizes => counts(&self.sizes.frames, &self.sizes.octets),
            _ => self.state.counters().to_vec(),
        }
    }

    fn ready(&mut self) -> bool {
        self.log.fill(0);
        !self.log.is_empty()
    }
}

/// The reference, reading by its walk, Start by Start or symbol by symbol, adding to a size table, or
/// explaining.
pub struct Independent<'a> {
    check: Check,
    by: By,
    line: &'a Line,
    settings: reference::Settings,
    table: reference::Table,
    state: reference::State,
    sizes: SizeTable,
}

impl<'a> Independent<'a> {
    pub fn new(check: Check, by: By, line: &'a Line, limit: u16) -> Self {
        Independent {
            check,
            by,
            line,
            settings: reference_settings(limit),
            table: reference_table(false),
            state: reference::State::default(),
            sizes: SizeTable::default(),
        }
    }

    /// The same with a table of 12 and 4 entries in place of an empty one.
    pub fn listing(mut self) -> Self {
        self.table = reference_table(true);
        self
    }
}

impl Rival for Independent<'_> {
    fn run(&mut self) -> Tally {
        let (check, s, state) = (self.check, &self.settings, &mut self.state);
        let table = black_box(&self.table);
        let (octets, marks) = (black_box(&self.line.octets), black_box(&self.line.marks));
        let mut tally = Tally::default();
        let mut place = 0;
        match self.by {
            By::Walk => {
                let walk = reference::walk(check, s, state, READER, table, octets, marks);
                if let Walked::Ended { starts, open } = walk {
                    (tally.count, tally.open) = (starts, open);
                }
                return tally;
            }
            By::Explain => loop {
                let explained = reference::explain(check, s, READER, table, octets, marks, place);
                match explained.why {
                    Why::Because(reason) => {
                        tally.count += 1;
                        if let reference::Reason::HandedOut { length, .. } = reason {
                            tally.octets += length;
                        }
                        state.counters[usize::from(reason.outcome()) - 1] += 1;
                        place = explained.next;
                    }
                    Why::Open => {
                        tally.open = true;
                        return tally;
                    }
                    Why::None | Why::Refused(_) => return tally,
                }
            },
            By::Plain => {
                let mut reader = reference::PlainReader::new(*state);
                for (&octet, &mark) in octets.iter().zip(marks) {
                    if let Ok(Some(ended)) = reader.take(check, s, READER, table, octet, mark) {
                        tally.count += 1;
                        tally.octets += ended.len;
                        tally.status = tally.status.wrapping_add(ended.status);
                    }
                }
                tally.open = reader.run().is_some();
                *state = *reader.state();
                return tally;
            }
            By::Sizes => {
                let sizes = &mut self.sizes;
                tally.open = sizes.add(check, s, READER, table, octets, marks).is_err();
                return tally;
            }
            By::Read | By::Readings | By::WalkLog => {}
        }
        loop {
            let reading = reference::read(check, s, state, READER, table, octets, marks, place);
            match reading.answer {
                Answer::Counted { status, len, .. } => {
                    tally.count += 1;
                    tally.octets += len;
                    tally.status = tally.status.wrapping_add(status);
                    place = reading.next;
                }
                Answer::Open => {
                    tally.open = true;
                    return tally;
                }
                Answer::None | Answer::Refused(_) => return tally,
            }
        }
    }

    fn kept(&self) -> Vec<u64> {
        match self.by {
            By::Sizes => counts(&self.sizes.frames, &self.sizes.octets),
            _ => self.state.counters.to_vec(),
        }
    }
}

/// The C reader.
pub struct InC<'a> {
    reader: Reader,
    line: &'a Line,
    limit: u16,
    counters: [u64; 11],
}

impl<'a> InC<'a> {
    pub fn new(reader: Reader, line: &'a Line, limit: u16) -> Self {
        InC {
            reader,
            line,
            limit,
            counters: [0; 11],
        }
    }
}

impl Rival for InC<'_> {
    fn run(&mut self) -> Tally {
        let walked = self
            .reader
            .walk(self.limit, &mut self.counters, black_box(self.line));
        Tally {
            count: walked.starts,
            open: walked.open != 0,
            ..Tally::default()
        }
    }

    fn kept(&self) -> Vec<u64> {
        self.counters.to_vec()
    }
}

// Symbols as numbers, to be compared.
fn symbols(line: &Line) -> Vec<u64> {
    let pairs = line.octets.iter().zip(&line.marks);
    pairs
        .map(|(&octet, &mark)| u64::from(octet) << 8 | u64::from(mark))
        .collect()
}

/// Whose totals.
#[derive(Clone, Copy)]
pub enum Whose {
    /// Fenhamper's.
    Proved,
    /// The reference's.
    Independent,
    /// Those of a plain loop in C.
    Plain,
}

/// The totals of a capture, filled.
pub struct Filler<'a> {
    whose: Whose,
    line: &'a Line,
    totals: Vec<u16>,
}

impl<'a> Filler<'a> {
    pub fn new(whose: Whose, line: &'a Line) -> Self {
        Filler {
            whose,
            line,
            totals: vec![0; blocks(line.octets.len())],
        }
    }
}

// Totals as numbers, to be compared.
fn numbers(totals: &[u16]) -> impl Iterator<Item = u64> + use<'_> {
    totals.iter().copied().map(u64::from)
}

impl Rival for Filler<'_> {
    fn run(&mut self) -> Tally {
        let (line, totals) = (black_box(self.line), black_box(&mut self.totals));
        // a refused call leaves the totals, and the comparison shows it
        match self.whose {
            Whose::Proved => {
                let _ = Capture::new(&line.octets, &line.marks).fill_totals(totals);
            }
            Whose::Independent => {
                let _ = reference::fill_totals(&line.octets, &line.marks, totals);
            }
            Whose::Plain => baseline::fill_totals(line, totals),
        }
        Tally::default()
    }

    fn kept(&self) -> Vec<u64> {
        numbers(&self.totals).collect()
    }
}

/// The Starts before a place: by true totals, in C by a count over everything.
pub struct Asker<'a> {
    whose: Whose,
    line: &'a Line,
    totals: Vec<u16>,
    place: usize,
}

impl<'a> Asker<'a> {
    pub fn new(whose: Whose, line: &'a Line, place: usize) -> Self {
        let mut totals = vec![0; blocks(line.octets.len())];
        baseline::fill_totals(line, &mut totals);
        Asker {
            whose,
            line,
            totals,
            place,
        }
    }
}

impl Rival for Asker<'_> {
    fn run(&mut self) -> Tally {
        let (line, totals) = (black_box(self.line), black_box(&self.totals));
        let place = black_box(self.place);
        let starts = match self.whose {
            Whose::Proved => {
                let answer = Capture::new(&line.octets, &line.marks).starts_before(totals, place);
                answer.unwrap_or(usize::MAX)
            }
            Whose::Independent => {
                let answer = reference::starts_before(&line.octets, &line.marks, totals, place);
                answer.unwrap_or(usize::MAX)
            }
            Whose::Plain => baseline::starts_before(line, place),
        };
        Tally {
            count: starts,
            ..Tally::default()
        }
    }

    fn kept(&self) -> Vec<u64> {
        Vec::new()
    }
}

/// What is sent: frames of these sizes, each with the first octets of `data`, on a port, with totals
/// or without.
#[derive(Clone, Copy)]
pub struct Job<'a> {
    pub port: Port,
    pub counted: bool,
    pub limit: u16,
    pub sizes: &'a [usize],
    pub data: &'a [u8],
}

// Buffers that hold what no sender writes. Gaps of the four-lane port together have up to as many
// symbols more than 12 each as the count is that a run before left.
fn blank(job: Job) -> Line {
    let size = crate::captures::symbols(job.sizes) + 3;
    Line {
        octets: vec![0xA7; size],
        marks: vec![0xC9; size],
    }
}

// The totals of such buffers: none of their symbols is a Start.
fn blank_totals(line: &Line) -> Vec<u16> {
    vec![0; blocks(line.octets.len())]
}

// All that a sender wrote, to be compared.
fn written(line: &Line, totals: &[u16]) -> Vec<u64> {
    symbols(line).into_iter().chain(numbers(totals)).collect()
}

/// What makes room in a log.
#[derive(Clone, Copy)]
pub enum Making {
    /// Compaction.
    Compact,
    /// Deleting the records of one outcome.
    Delete,
}

/// The outcome of which records are deleted, and another.
const OUTCOMES: [u8; 2] = [11, 5];
const OUTCOME_AT: usize = 4;

/// A full log of so many records, which have two outcomes in turn; with `holes` those of the second
/// are deleted.
pub fn full_log(records: usize, holes: bool) -> Vec<u8> {
    let mut log = vec![0x55; records * RECORD_SIZE];
    for (n, record) in log.chunks_exact_mut(RECORD_SIZE).enumerate() {
        record[OUTCOME_AT] = OUTCOMES[n % 2];
        if holes && n % 2 == 1 {
            record[OUTCOME_AT] = 0;
        }
    }
    log
}

/// One that makes room in a log, which before each run is what it was.
pub struct RoomMaker {
    whose: Whose,
    making: Making,
    before: Vec<u8>,
    log: Vec<u8>,
}

impl RoomMaker {
    pub fn new(whose: Whose, making: Making, before: Vec<u8>) -> Self {
        RoomMaker {
            whose,
            making,
            log: before.clone(),
            before,
        }
    }

    fn proved(&mut self) -> usize {
        let Ok(mut log) = Log::new(black_box(&mut self.log)) else {
            return 0;
        };
        match self.making {
            Making::Compact => log.compact(),
            Making::Delete => return log.delete_outcome(OUTCOMES[1]),
        }
        0
    }

    // of a compaction it tells how many remain, which is no part of the job
    fn independent(&mut self) -> usize {
        let log = black_box(&mut self.log);
        match self.making {
            Making::Compact => reference::compact(log).map(|_| 0),
            Making::Delete => reference::delete_outcome(log, OUTCOMES[1]),
        }
        .unwrap_or(0)
    }
}

impl Rival for RoomMaker {
    fn run(&mut self) -> Tally {
        let count = match self.whose {
            Whose::Proved => self.proved(),
            _ => self.independent(),
        };
        Tally {
            count,
            ..Tally::default()
        }
    }

    fn kept(&self) -> Vec<u64> {
        self.log.iter().map(|&octet| u64::from(octet)).collect()
    }

    fn ready(&mut self) -> bool {
        self.log.copy_from_slice(&self.before);
        !self.log.is_empty()
    }
}

/// Fenhamper, sending.
pub struct ProvedSender<'a> {
    job: Job<'a>,
    line: Line,
    totals: Vec<u16>,
    settings: Settings,
    state: State,
}

impl<'a> ProvedSender<'a> {
    pub fn new(job: Job<'a>) -> Self {
        let line = blank(job);
        ProvedSender {
            job,
            totals: blank_totals(&line),
            line,
            settings: settings(job.limit),
            state: State::default(),
        }
    }
}

impl Rival for ProvedSender<'_> {
    fn run(&mut self) -> Tally {
        let frame = Frame::to(Address(OWN)).by_type(TYPE);
        let line = black_box(&mut self.line);
        let port = match self.job.port {
            Port::Plain => fenhamper::Port::Plain,
            Port::FourLane => fenhamper::Port::FourLane,
        };
        let sizes = self.job.sizes.iter();
        let data = sizes.map(|&size| &self.job.data[..data_length(size)]);
        // a refused one leaves the place, and the comparison shows it
        let place = if self.job.counted {
            let totals = black_box(&mut self.totals);
            let line = fenhamper::Line::with_totals(&mut line.octets, &mut line.marks, totals);
            let mut line = line.on(port);
            for data in data {
                let _ = line.client(&self.settings, &mut self.state, &frame, data);
            }
            line.place()
        } else {
            let mut sender = Sender::new(&mut line.octets, &mut line.marks).on(port);
            for data in data {
                let _ = sender.client(&self.settings, &mut self.state, &frame, data);
            }
            sender.place()
        };
        Tally {
            count: place,
            ..Tally::default()
        }
    }

    fn kept(&self) -> Vec<u64> {
        written(&self.line, &self.totals)
    }
}

/// The reference, sending.
pub struct IndependentSender<'a> {
    check: Check,
    job: Job<'a>,
    line: Line,
    totals: Vec<u16>,
    settings: reference::Settings,
    state: reference::State,
}

impl<'a> IndependentSender<'a> {
    pub fn new(check: Check, job: Job<'a>) -> Self {
        let line = blank(job);
        IndependentSender {
            check,
            job,
            totals: blank_totals(&line),
            line,
            settings: reference_settings(job.limit),
            state: reference::State::default(),
        }
    }
}

impl Rival for IndependentSender<'_> {
    fn run(&mut self) -> Tally {
        let client = Client {
            dest: OWN,
            tags: Vec::new(),
            form: Form::Type(TYPE),
            class: 0,
        };
        let line = black_box(&mut self.line);
        let mut place = 0;
        for &size in self.job.sizes {
            let data = &self.job.data[..data_length(size)];
            let (check, port) = (self.check, self.job.port);
            let sent = if self.job.counted {
                reference::send_client_counting(
                    check,
                    &self.settings,
                    &mut self.state,
                    port,
                    &mut line.octets,
                    &mut line.marks,
                    black_box(&mut self.totals),
                    place,
                    &client,
                    data,
                )
            } else {
                reference::send_client(
                    check,
                    &self.settings,
                    &mut self.state,
                    port,
                    &mut line.octets,
                    &mut line.marks,
                    place,
                    &client,
                    data,
                )
            };
            if let Sent::Wrote(next) = sent {
                place = next;
            }
        }
        Tally {
            count: place,
            ..Tally::default()
        }
    }

    fn kept(&self) -> Vec<u64> {
        written(&self.line, &self.totals)
    }
}
