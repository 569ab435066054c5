//! The rows of the coverage table. A row that names an answer is hit only if the reference, and so
//! the library too, gives that answer.
mod c_face;
mod control;
mod counted;
mod frames;
mod jobs;
mod keeping;
mod log;
mod plain;
mod ports;
mod quiet;
mod reading;
mod reasons;
mod room;
mod screens;
mod sending;
mod sizes;
mod tags;
mod totals;
mod ways;

use crate::coverage::{Row, When};
use crate::generate::FCS_EDGES;
use crate::seen::{CSeen, FcsSeen, ReadingSeen, RowSeen, SendingSeen, WalkSeen};
use crate::seen_jobs::{ScreenSeen, TableSeen};
use crate::seen_log::{GoingOnSeen, KeepSeen, LogSeen};
use crate::seen_plain::{AnyPlainSeen, PlainSeen};
use crate::seen_quiet::QuietSeen;
use crate::seen_reason::ReasonSeen;
use crate::seen_sizes::SizesSeen;
use crate::seen_totals::TotalsSeen;
use std::collections::BTreeSet;

/// All rows, none hit yet.
pub(crate) fn rows() -> Vec<Row> {
    let mut table = Table(Vec::new());
    reading::rows(&mut table);
    frames::rows(&mut table);
    tags::rows(&mut table);
    control::rows(&mut table);
    ways::rows(&mut table);
    reasons::rows(&mut table);
    plain::rows(&mut table);
    sizes::rows(&mut table);
    sending::rows(&mut table);
    ports::rows(&mut table);
    quiet::rows(&mut table);
    log::rows(&mut table);
    room::rows(&mut table);
    keeping::rows(&mut table);
    totals::rows(&mut table);
    counted::rows(&mut table);
    jobs::rows(&mut table);
    screens::rows(&mut table);
    c_face::rows(&mut table);
    fcs_rows(&mut table);
    let names: BTreeSet<_> = table.0.iter().map(|row| &row.name).collect();
    assert_eq!(names.len(), table.0.len(), "two rows have one name");
    table.0
}

/// A number of tags, for a row's name.
fn tags(n: usize) -> String {
    match n {
        0 => "untagged".to_string(),
        1 => "1 tag".to_string(),
        _ => format!("{n} tags"),
    }
}

/// The same behind a comma, or nothing where there are none.
fn with_tags(n: usize) -> String {
    match n {
        0 => String::new(),
        _ => format!(", {}", tags(n)),
    }
}

/// The table while it is made.
struct Table(Vec<Row>);

impl Table {
    fn row(&mut self, name: impl Into<String>, when: When) {
        self.0.push(Row {
            name: name.into(),
            when,
            count: 0,
        });
    }

    fn reading(&mut self, name: impl Into<String>, test: impl Fn(&ReadingSeen) -> bool + 'static) {
        self.row(name, When::Reading(Box::new(test)));
    }

    fn reason(&mut self, name: impl Into<String>, test: impl Fn(&ReasonSeen) -> bool + 'static) {
        self.row(name, When::Reason(Box::new(test)));
    }

    fn plain(&mut self, name: impl Into<String>, test: impl Fn(&PlainSeen) -> bool + 'static) {
        self.row(name, When::Plain(Box::new(test)));
    }

    fn any_plain(
        &mut self,
        name: impl Into<String>,
        test: impl Fn(&AnyPlainSeen) -> bool + 'static,
    ) {
        self.row(name, When::AnyPlain(Box::new(test)));
    }

    fn sizes(&mut self, name: impl Into<String>, test: impl Fn(&SizesSeen) -> bool + 'static) {
        self.row(name, When::Sizes(Box::new(test)));
    }

    fn quiet(&mut self, name: impl Into<String>, test: impl Fn(&QuietSeen) -> bool + 'static) {
        self.row(name, When::Quiet(Box::new(test)));
    }

    fn walk(&mut self, name: impl Into<String>, test: impl Fn(&WalkSeen) -> bool + 'static) {
        self.row(name, When::Walk(Box::new(test)));
    }

    fn sending(&mut self, name: impl Into<String>, test: impl Fn(&SendingSeen) -> bool + 'static) {
        self.row(name, When::Sending(Box::new(test)));
    }

    fn log(&mut self, name: impl Into<String>, test: impl Fn(&LogSeen) -> bool + 'static) {
        self.row(name, When::Log(Box::new(test)));
    }

    fn keep(&mut self, name: impl Into<String>, test: impl Fn(&KeepSeen) -> bool + 'static) {
        self.row(name, When::Keep(Box::new(test)));
    }

    fn going_on(&mut self, name: impl Into<String>, test: impl Fn(&GoingOnSeen) -> bool + 'static) {
        self.row(name, When::GoingOn(Box::new(test)));
    }

    fn totals(&mut self, name: impl Into<String>, test: impl Fn(&TotalsSeen) -> bool + 'static) {
        self.row(name, When::Totals(Box::new(test)));
    }

    fn table(&mut self, name: impl Into<String>, test: impl Fn(&TableSeen) -> bool + 'static) {
        self.row(name, When::Table(Box::new(test)));
    }

    fn screen(&mut self, name: impl Into<String>, test: impl Fn(&ScreenSeen) -> bool + 'static) {
        self.row(name, When::Screen(Box::new(test)));
    }

    fn c(&mut self, name: impl Into<String>, test: impl Fn(&CSeen) -> bool + 'static) {
        self.row(name, When::C(Box::new(test)));
    }

    fn line(&mut self, name: impl Into<String>, test: impl Fn(&RowSeen) -> bool + 'static) {
        self.row(name, When::Row(Box::new(test)));
    }

    fn fcs(&mut self, name: impl Into<String>, test: impl Fn(&FcsSeen) -> bool + 'static) {
        self.row(name, When::Fcs(Box::new(test)));
    }
}

/// The FCS by length and register.
fn fcs_rows(t: &mut Table) {
    let lengths = [0, 1, 15, 16, 17, 32, 60, 1514, 9614, 65_536, 70_000];
    for n in lengths.into_iter().chain(FCS_EDGES) {
        t.fcs(format!("fcs: {n} octets"), move |f| f.octets.len() == n);
    }
    t.fcs("fcs: from register 0", |f| f.register == 0);
    t.fcs("fcs: from all ones", |f| f.register == u32::MAX);
    t.fcs("fcs: from another register", |f| {
        f.register != 0 && f.register != u32::MAX
    });
}
