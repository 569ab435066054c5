//! The coverage table: what has to be hit, and how often it was.
use crate::seen::{CSeen, FcsSeen, ReadingSeen, RowSeen, SendingSeen, WalkSeen};
use crate::seen_jobs::{ScreenSeen, TableSeen};
use crate::seen_log::{GoingOnSeen, KeepSeen, LogSeen};
use crate::seen_plain::{AnyPlainSeen, PlainSeen};
use crate::seen_quiet::QuietSeen;
use crate::seen_reason::ReasonSeen;
use crate::seen_sizes::SizesSeen;
use crate::seen_totals::TotalsSeen;
use crate::table;
use std::fmt;

/// When a row is hit.
pub(crate) enum When {
    /// By a reading.
    Reading(Box<dyn Fn(&ReadingSeen) -> bool>),
    /// By a walk.
    Walk(Box<dyn Fn(&WalkSeen) -> bool>),
    /// By a reason asked for.
    Reason(Box<dyn Fn(&ReasonSeen) -> bool>),
    /// By a symbol of the plain reader.
    Plain(Box<dyn Fn(&PlainSeen) -> bool>),
    /// By a symbol of any record of one.
    AnyPlain(Box<dyn Fn(&AnyPlainSeen) -> bool>),
    /// By a call on a size table.
    Sizes(Box<dyn Fn(&SizesSeen) -> bool>),
    /// By a call of a sequence on one state.
    Quiet(Box<dyn Fn(&QuietSeen) -> bool>),
    /// By a sending.
    Sending(Box<dyn Fn(&SendingSeen) -> bool>),
    /// By a row of frames on both ports.
    Row(Box<dyn Fn(&RowSeen) -> bool>),
    /// By a call on a log.
    Log(Box<dyn Fn(&LogSeen) -> bool>),
    /// By a walk that keeps its readings.
    Keep(Box<dyn Fn(&KeepSeen) -> bool>),
    /// By walks that went on with other logs.
    GoingOn(Box<dyn Fn(&GoingOnSeen) -> bool>),
    /// By a call over the totals of a capture.
    Totals(Box<dyn Fn(&TotalsSeen) -> bool>),
    /// By a call on a table.
    Table(Box<dyn Fn(&TableSeen) -> bool>),
    /// By a screen call.
    Screen(Box<dyn Fn(&ScreenSeen) -> bool>),
    /// By a call through the C face.
    C(Box<dyn Fn(&CSeen) -> bool>),
    /// By an FCS.
    Fcs(Box<dyn Fn(&FcsSeen) -> bool>),
}

/// The sorts of calls that rows are hit by.
#[derive(Clone, Copy)]
enum Sort {
    Reading,
    Walk,
    Reason,
    Plain,
    AnyPlain,
    Sizes,
    Quiet,
    Sending,
    Row,
    Log,
    Keep,
    GoingOn,
    Totals,
    Table,
    Screen,
    C,
    Fcs,
}

/// How many sorts there are.
const SORTS: usize = Sort::Fcs as usize + 1;

impl When {
    fn sort(&self) -> Sort {
        match self {
            When::Reading(_) => Sort::Reading,
            When::Walk(_) => Sort::Walk,
            When::Reason(_) => Sort::Reason,
            When::Plain(_) => Sort::Plain,
            When::AnyPlain(_) => Sort::AnyPlain,
            When::Sizes(_) => Sort::Sizes,
            When::Quiet(_) => Sort::Quiet,
            When::Sending(_) => Sort::Sending,
            When::Row(_) => Sort::Row,
            When::Log(_) => Sort::Log,
            When::Keep(_) => Sort::Keep,
            When::GoingOn(_) => Sort::GoingOn,
            When::Totals(_) => Sort::Totals,
            When::Table(_) => Sort::Table,
            When::Screen(_) => Sort::Screen,
            When::C(_) => Sort::C,
            When::Fcs(_) => Sort::Fcs,
        }
    }
}

/// A row: what it stands for, and how often it was hit.
pub(crate) struct Row {
    pub(crate) name: String,
    pub(crate) when: When,
    pub(crate) count: u64,
}

/// The table.
pub struct Coverage {
    rows: Vec<Row>,
    /// Where the rows of each sort stand, so that no call goes through all of them.
    sorts: [Vec<usize>; SORTS],
}

impl Coverage {
    /// The table before any call.
    pub(crate) fn new() -> Coverage {
        let rows = table::rows();
        let mut sorts = [(); SORTS].map(|()| Vec::new());
        for (i, row) in rows.iter().enumerate() {
            sorts[row.when.sort() as usize].push(i);
        }
        Coverage { rows, sorts }
    }

    /// Counts the rows of a sort that are hit.
    fn hit(&mut self, sort: Sort, is_hit: impl Fn(&When) -> bool) {
        for &i in &self.sorts[sort as usize] {
            let row = &mut self.rows[i];
            row.count += u64::from(is_hit(&row.when));
        }
    }

    pub(crate) fn reading(&mut self, seen: &ReadingSeen) {
        self.hit(
            Sort::Reading,
            |when| matches!(when, When::Reading(test) if test(seen)),
        );
    }

    pub(crate) fn walk(&mut self, seen: &WalkSeen) {
        self.hit(
            Sort::Walk,
            |when| matches!(when, When::Walk(test) if test(seen)),
        );
    }

    pub(crate) fn reason(&mut self, seen: &ReasonSeen) {
        self.hit(
            Sort::Reason,
            |when| matches!(when, When::Reason(test) if test(seen)),
        );
    }

    pub(crate) fn plain(&mut self, seen: &PlainSeen) {
        self.hit(
            Sort::Plain,
            |when| matches!(when, When::Plain(test) if test(seen)),
        );
    }

    pub(crate) fn any_plain(&mut self, seen: &AnyPlainSeen) {
        self.hit(
            Sort::AnyPlain,
            |when| matches!(when, When::AnyPlain(test) if test(seen)),
        );
    }

    pub(crate) fn sizes(&mut self, seen: &SizesSeen) {
        self.hit(
            Sort::Sizes,
            |when| matches!(when, When::Sizes(test) if test(seen)),
        );
    }

    pub(crate) fn quiet(&mut self, seen: &QuietSeen) {
        self.hit(
            Sort::Quiet,
            |when| matches!(when, When::Quiet(test) if test(seen)),
        );
    }

    pub(crate) fn sending(&mut self, seen: &SendingSeen) {
        self.hit(
            Sort::Sending,
            |when| matches!(when, When::Sending(test) if test(seen)),
        );
    }

    pub(crate) fn row(&mut self, seen: &RowSeen) {
        self.hit(
            Sort::Row,
            |when| matches!(when, When::Row(test) if test(seen)),
        );
    }

    pub(crate) fn log(&mut self, seen: &LogSeen) {
        self.hit(
            Sort::Log,
            |when| matches!(when, When::Log(test) if test(seen)),
        );
    }

    pub(crate) fn keep(&mut self, seen: &KeepSeen) {
        self.hit(
            Sort::Keep,
            |when| matches!(when, When::Keep(test) if test(seen)),
        );
    }

    pub(crate) fn going_on(&mut self, seen: &GoingOnSeen) {
        self.hit(
            Sort::GoingOn,
            |when| matches!(when, When::GoingOn(test) if test(seen)),
        );
    }

    pub(crate) fn totals(&mut self, seen: &TotalsSeen) {
        self.hit(
            Sort::Totals,
            |when| matches!(when, When::Totals(test) if test(seen)),
        );
    }

    pub(crate) fn table(&mut self, seen: &TableSeen) {
        self.hit(
            Sort::Table,
            |when| matches!(when, When::Table(test) if test(seen)),
        );
    }

    pub(crate) fn screen(&mut self, seen: &ScreenSeen) {
        self.hit(
            Sort::Screen,
            |when| matches!(when, When::Screen(test) if test(seen)),
        );
    }

    pub(crate) fn c(&mut self, seen: &CSeen) {
        self.hit(Sort::C, |when| matches!(when, When::C(test) if test(seen)));
    }

    pub(crate) fn fcs(&mut self, seen: &FcsSeen) {
        self.hit(
            Sort::Fcs,
            |when| matches!(when, When::Fcs(test) if test(seen)),
        );
    }

    /// The rows that were never hit.
    pub fn missing(&self) -> Vec<&str> {
        let missing = self.rows.iter().filter(|row| row.count == 0);
        missing.map(|row| row.name.as_str()).collect()
    }
}

impl fmt::Display for Coverage {
    fn fmt(&self, f: &mut fmt::Formatter<'_>) -> fmt::Result {
        for row in &self.rows {
            writeln!(f, "{:>9}  {}", row.count, row.name)?;
        }
        write!(f, "{} rows", self.rows.len())
    }
}
