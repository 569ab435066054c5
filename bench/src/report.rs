//! The tables, in markdown.
use std::fmt::Write;

use crate::captures::SYMBOLS;

/// The columns of figures: ours, and those that it is compared with.
pub const COLUMNS: [&str; 6] = [
    "Fenhamper",
    "reference, byte table",
    "reference, by 16",
    "C, by 16",
    "C, zlib",
    "C, libisal",
];
const BY_16: usize = 2;
const C_BY_16: usize = 3;
const ZLIB: usize = 4;
const ISAL: usize = 5;

// What the first page shows, of good traffic: a line of 10 Gbit/s has 1.25 * 10^9 symbols a second.
const SHOWN: [&str; 3] = ["walk", "read", "send"];
const GOOD: [&str; 4] = ["64", "mix", "1518", "9018"];
const LINE_RATE: f64 = 1.25;

// From so many symbols on a walk makes tables of the FCS, if its first frames are short.
const TABLES_FROM: usize = 4096;

// Calls that are compared with each other.
const LOGGED: (&str, &str) = ("walk_log", "walk");
const SIZED: (&str, &str) = ("add_capture", "walk");
const EXPLAINED: (&str, &str) = ("explain", "read");
const PUSHED: (&str, &str) = ("walk", "plain");
const COUNTED: (&str, &str) = ("send, totals", "send");

// Between the captures of one ratio.
const BETWEEN: &str = " / ";

// The captures whose cost is told as that of a call by itself and of each symbol.
const GROWN: [&str; 7] = [
    "64",
    "mix",
    "1518",
    "9018",
    "all Starts",
    "all data",
    "all Idle",
];

// Frames that the check finds damaged.
const DAMAGED: &str = "83, wrong FCS";

/// A call on one capture, or one sending: 10^9 symbols per second by column.
pub struct Row {
    pub call: &'static str,
    pub capture: &'static str,
    pub hostile: bool,
    pub rates: [Option<f64>; COLUMNS.len()],
}

impl Row {
    // How many times as fast as a column Fenhamper is.
    fn ratio(&self, column: usize) -> Option<f64> {
        Some(self.rates[0]? / self.rates[column]?)
    }
}

/// A call on one capture with a table of 12 and 4 entries.
pub struct Listed {
    pub call: &'static str,
    pub capture: &'static str,
    /// 10^9 symbols per second: Fenhamper's with that table and with an empty one, and with that
    /// table the reference's by byte table and by 16.
    pub rates: Vec<f64>,
}

/// Room in a log of as many records as a capture has Starts.
pub struct Room {
    pub capture: &'static str,
    pub records: usize,
    /// Nanoseconds a record: of `walk_log`, which fills it; then, Fenhamper's and the reference's, of
    /// compacting it full, and with every other record deleted, and of deleting these.
    pub nanoseconds: Vec<f64>,
}

/// Totals of one capture of the most symbols: Fenhamper's, the reference's, C's.
pub struct Totals {
    pub capture: &'static str,
    /// 10^9 symbols per second of filling them, and at last of a walk over the capture.
    pub rates: Vec<f64>,
    /// Nanoseconds of a question; in C of a count over everything.
    pub nanoseconds: Vec<f64>,
}

/// A file of captures of one kind.
pub struct OfFile {
    pub capture: &'static str,
    /// 10^9 symbols per second: the tool's `count`, `walk` over the captures, reading the file alone.
    pub rates: Vec<f64>,
}

impl OfFile {
    // How many times as fast as a walk and reading one after the other `count` is.
    fn ratio(&self) -> Option<f64> {
        let seconds = |i: usize| Some(1.0 / self.rates.get(i)?);
        Some((seconds(1)? + seconds(2)?) / seconds(0)?)
    }
}

/// What was measured on a capture of one size.
#[derive(Clone, Copy)]
pub struct Cell {
    /// The whole frames that fit.
    pub symbols: usize,
    /// Nanoseconds per symbol of `walk`.
    pub walk: f64,
    /// How many times as fast as the reference by 16 it is.
    pub ratio: f64,
    /// Nanoseconds per symbol of `walk_log`.
    pub walk_log: f64,
}

/// One kind of capture by size; nothing where no frame fits.
pub struct Growth {
    pub capture: &'static str,
    pub hostile: bool,
    pub cells: Vec<Option<Cell>>,
}

// What was asked of a ratio on one capture, and what was measured.
struct Place {
    capture: String,
    asked: f64,
    measured: Option<f64>,
}

impl Place {
    fn is_missed(&self) -> bool {
        self.measured.is_some_and(|measured| measured < self.asked)
    }
}

// A ratio that was asked for.
struct Target {
    text: String,
    places: Vec<Place>,
}

impl Target {
    // On which captures, what was asked, what was measured, and whether that is enough.
    fn cells(&self) -> [String; 5] {
        // one for each capture, or one for all where all are the same
        let all = |of: &dyn Fn(&Place) -> String| {
            let mut cells: Vec<String> = self.places.iter().map(of).collect();
            if cells.iter().all(|one| *one == cells[0]) {
                cells.truncate(1);
            }
            cells.join(BETWEEN)
        };
        let tenths = |n: f64| if n * 10.0 % 1.0 == 0.0 { 1 } else { 2 };
        let missed: Vec<&Place> = self.places.iter().filter(|p| p.is_missed()).collect();
        let unmeasured = self.places.iter().any(|p| p.measured.is_none());
        let verdict = if unmeasured || self.places.is_empty() {
            "not measured".to_owned()
        } else if missed.is_empty() {
            "met".to_owned()
        } else if missed.len() == self.places.len() {
            "**missed**".to_owned()
        } else {
            let at: Vec<&str> = missed.iter().map(|p| p.capture.as_str()).collect();
            format!("**missed**: {}", at.join(BETWEEN))
        };
        [
            self.text.clone(),
            all(&|p| p.capture.clone()),
            all(&|p| cell(Some(p.asked), tenths(p.asked))),
            all(&|p| cell(p.measured, 2)),
            verdict,
        ]
    }
}

/// All that was measured.
pub struct Report {
    pub machine: Vec<String>,
    pub rows: Vec<Row>,
    pub listed: Vec<Listed>,
    pub room: Vec<Room>,
    pub totals: Vec<Totals>,
    pub of_files: Vec<OfFile>,
    pub sizes: Vec<usize>,
    pub growth: Vec<Growth>,
}

fn cell(number: Option<f64>, digits: usize) -> String {
    number.map_or("-".to_owned(), |n| format!("{n:.digits$}"))
}

// A size in symbols, with K for 1,024.
fn size_name(size: usize) -> String {
    if size.is_multiple_of(1024) {
        format!("{}K", size / 1024)
    } else {
        size.to_string()
    }
}

// The least ratio, with what it was measured on.
fn least(ratios: impl Iterator<Item = (f64, String)>) -> Option<(f64, String)> {
    ratios.min_by(|a, b| a.0.total_cmp(&b.0))
}

// A ratio that was asked for on these captures, by how it was measured on each.
fn target(text: &str, asked: Vec<(&str, f64)>, measured: impl Fn(&str) -> Option<f64>) -> Target {
    let place = |(capture, asked): (&str, f64)| Place {
        capture: capture.to_owned(),
        asked,
        measured: measured(capture),
    };
    Target {
        text: text.to_owned(),
        places: asked.into_iter().map(place).collect(),
    }
}

// The line that is nearest to the points, by the square of what each is off in parts of itself: its height at 0, and
// how much it rises.
fn fitted(points: &[(usize, f64)]) -> Option<(f64, f64)> {
    let (first, last) = (points.first()?, points.last()?);
    if first.0 == last.0 {
        return None;
    }
    let (mut w, mut wx, mut wy, mut wxx, mut wxy) = (0.0, 0.0, 0.0, 0.0, 0.0);
    for &(symbols, y) in points {
        let (x, weight) = (symbols as f64, 1.0 / (y * y));
        w += weight;
        wx += weight * x;
        wy += weight * y;
        wxx += weight * x * x;
        wxy += weight * x * y;
    }
    let rise = (w * wxy - wx * wy) / (w * wxx - wx * wx);
    Some(((wy - rise * wx) / w, rise))
}

// A line of a table.
fn line(out: &mut String, cells: impl IntoIterator<Item = String>) {
    let cells: Vec<String> = cells.into_iter().collect();
    let _ = writeln!(out, "| {} |", cells.join(" | "));
}

// The first two lines of a table: `left` columns of words, the rest numbers.
fn head(out: &mut String, names: Vec<String>, left: usize) {
    let rules: Vec<String> = (0..names.len())
        .map(|i| if i < left { "---" } else { "---:" }.to_owned())
        .collect();
    line(out, names);
    line(out, rules);
}

impl Report {
    fn row(&self, call: &str, capture: &str) -> Option<&Row> {
        let mut rows = self.rows.iter();
        rows.find(|row| row.call == call && row.capture == capture)
    }

    fn rates(&self, out: &mut String) {
        out.push_str("### Symbols per second\n\n");
        out.push_str("In 10^9 symbols per second; the last five columns say how many times as fast as each of the others Fenhamper is. In rows of\n");
        out.push_str("`walk_log` the others walk and keep no log.\n\n");
        let mut names = vec!["Call".to_owned(), "Capture".to_owned()];
        names.extend(COLUMNS.map(str::to_owned));
        names.extend(COLUMNS[1..].iter().map(|name| format!("to {name}")));
        head(out, names, 2);
        for row in &self.rows {
            let mut cells = vec![format!("`{}`", row.call), row.capture.to_owned()];
            cells.extend(row.rates.map(|rate| cell(rate, 3)));
            cells.extend((1..COLUMNS.len()).map(|column| cell(row.ratio(column), 2)));
            line(out, cells);
        }
    }

    // How many times as fast as another call one is, in the same run.
    fn beside(&self, (call, other): (&str, &str), capture: &str) -> Option<f64> {
        let rate = |call| self.row(call, capture)?.rates[0];
        Some(rate(call)? / rate(other)?)
    }

    // That of each capture, side by side.
    fn by_capture(&self, out: &mut String, calls: (&str, &str)) {
        let others = self.rows.iter().filter(|row| row.call == calls.1);
        let captures: Vec<&str> = others.map(|row| row.capture).collect();
        head(out, captures.iter().map(|&c| c.to_owned()).collect(), 0);
        line(
            out,
            captures.iter().map(|&c| cell(self.beside(calls, c), 2)),
        );
    }

    // With a full table and with an empty one.
    fn listed(&self, out: &mut String) {
        out.push_str("In 10^9 symbols per second, job 0 reading, which holds 12 of the 16 entries; the frames are to its own address.\n\n");
        let names = [
            "Call",
            "Capture",
            "Fenhamper",
            "empty table",
            "to empty table",
            "reference, byte table",
            "reference, by 16",
            "to reference, by 16",
        ];
        head(out, names.map(str::to_owned).to_vec(), 2);
        for listed in &self.listed {
            let rate = |i: usize| listed.rates.get(i).copied();
            let to = |i: usize| Some(rate(0)? / rate(i)?);
            let cells = [
                format!("`{}`", listed.call),
                listed.capture.to_owned(),
                cell(rate(0), 3),
                cell(rate(1), 3),
                cell(to(1), 2),
                cell(rate(2), 3),
                cell(rate(3), 3),
                cell(to(3), 2),
            ];
            line(out, cells);
        }
    }

    // Making room in a log, beside the walk that fills it.
    fn room(&self, out: &mut String) {
        out.push_str("In nanoseconds a record, of a log of as many records as the capture has Starts: `walk_log`, which fills it; compaction with\n");
        out.push_str("every record used and with every other one deleted; deleting every other one by its outcome.\n\n");
        let names = [
            "Capture",
            "Records",
            "`walk_log`",
            "`compact`, full",
            "reference",
            "`compact`, half deleted",
            "reference",
            "`delete_outcome`, half",
            "reference",
        ];
        head(out, names.map(str::to_owned).to_vec(), 1);
        for room in &self.room {
            let mut cells = vec![room.capture.to_owned(), room.records.to_string()];
            cells.extend(room.nanoseconds.iter().map(|&ns| cell(Some(ns), 2)));
            line(out, cells);
        }
    }

    // Filling totals, and asking them.
    fn totals(&self, out: &mut String) {
        out.push_str("In 10^9 symbols per second, beside `walk` over the same capture; then `starts_before` at place 65,535 in\n");
        out.push_str("nanoseconds a call. C fills by a plain loop, and answers by a count over everything.\n\n");
        let names = [
            "Capture",
            "`fill_totals`",
            "reference",
            "C",
            "to reference",
            "to C",
            "`walk`",
            "to `walk`",
            "`starts_before`",
            "reference",
            "C",
        ];
        head(out, names.map(str::to_owned).to_vec(), 1);
        for totals in &self.totals {
            let rate = |i: usize| totals.rates.get(i).copied();
            let to = |i: usize| Some(rate(0)? / rate(i)?);
            let mut cells = vec![totals.capture.to_owned()];
            cells.extend([0, 1, 2].map(|i| cell(rate(i), 3)));
            cells.extend([1, 2].map(|i| cell(to(i), 2)));
            cells.extend([cell(rate(3), 3), cell(to(3), 2)]);
            cells.extend(totals.nanoseconds.iter().map(|&ns| cell(Some(ns), 1)));
            line(out, cells);
        }
    }

    // The tool's `count` of a file.
    fn of_files(&self, out: &mut String) {
        out.push_str("In 10^9 symbols per second: the tool's `count` of the file, `walk` over the same captures in memory, and reading the file alone;\n");
        out.push_str(
            "then how many times as fast as these two one after the other `count` is.\n\n",
        );
        let names = ["Capture", "`count`", "`walk`", "reading", "to both"];
        head(out, names.map(str::to_owned).to_vec(), 1);
        for of_file in &self.of_files {
            let rate = |i: usize| cell(of_file.rates.get(i).copied(), 3);
            let ratio = cell(of_file.ratio(), 2);
            line(
                out,
                [of_file.capture.to_owned(), rate(0), rate(1), rate(2), ratio],
            );
        }
    }

    // One table by size, of the figures that `of` picks.
    fn by_size(&self, out: &mut String, digits: usize, of: fn(Cell) -> f64) {
        let mut names = vec!["Capture".to_owned()];
        names.extend(self.sizes.iter().map(|&size| size_name(size)));
        head(out, names, 1);
        for growth in &self.growth {
            let mut cells = vec![growth.capture.to_owned()];
            cells.extend(growth.cells.iter().map(|&c| cell(c.map(of), digits)));
            line(out, cells);
        }
    }

    // The hostile capture on which a call does worst.
    fn worst(&self, call: &str) -> Option<(f64, String)> {
        let rows = self.rows.iter().filter(|r| r.hostile && r.call == call);
        least(rows.filter_map(|r| Some((r.ratio(BY_16)?, r.capture.to_owned()))))
    }

    // The same for `walk` by size, of the sizes that `of` picks.
    fn worst_by_size(&self, of: fn(usize) -> bool) -> Option<(f64, String)> {
        let cells = self.growth.iter().filter(|g| g.hostile).flat_map(|growth| {
            let sizes = self.sizes.iter().zip(&growth.cells);
            sizes.filter_map(move |(&size, cell)| Some((growth.capture, size, (*cell)?.ratio)))
        });
        let cells = cells.filter(|&(_, size, _)| of(size));
        least(
            cells
                .map(|(capture, size, ratio)| (ratio, format!("{capture} at {}", size_name(size)))),
        )
    }

    // The size from 1K to 8K symbols at which `walk` does worst on frames of one kind.
    fn worst_of_short(&self, capture: &str) -> Option<(f64, String)> {
        let growth = self.growth.iter().find(|g| g.capture == capture)?;
        let cells = self.sizes.iter().zip(&growth.cells);
        let short = cells.filter(|&(&size, _)| (1024..=8192).contains(&size));
        let name = |size| format!("{capture} at {}", size_name(size));
        least(short.filter_map(|(&size, cell)| Some(((*cell)?.ratio, name(size)))))
    }

    // All that was asked for: here and nowhere else.
    fn targets(&self) -> Vec<Target> {
        let to = |call, column| move |capture: &str| self.row(call, capture)?.ratio(column);
        let beside = |calls| move |capture: &str| self.beside(calls, capture);
        let lines = |capture: &str| Some(self.row("walk", capture)?.rates[0]? / LINE_RATE);
        let of_file = |capture: &str| {
            let mut files = self.of_files.iter();
            files.find(|of_file| of_file.capture == capture)?.ratio()
        };
        let good = |asked: [f64; 4]| GOOD.into_iter().zip(asked).collect::<Vec<_>>();
        let with_damaged = |asked| [&good([asked; 4])[..], &[(DAMAGED, asked)]].concat();
        // the worst of several, which is known when they are measured
        let worst = |text: &str, asked, places: Vec<Option<(f64, String)>>| Target {
            text: format!("{text} to reference, by 16, the worst"),
            places: places
                .into_iter()
                .flatten()
                .map(|(ratio, capture)| Place {
                    capture,
                    asked,
                    measured: Some(ratio),
                })
                .collect(),
        };
        vec![
            target("`walk` to C, by 16", good([1.05, 1.3, 1.9, 2.3]), to("walk", C_BY_16)),
            target("`walk` to C, zlib", good([1.0, 1.0, 2.0, 2.0]), to("walk", ZLIB)),
            target("`walk` in lines of 10 Gbit/s", vec![("1518", 5.0)], lines),
            target("`walk` to reference, by 16", good([2.0, 2.0, 1.5, 1.5]), to("walk", BY_16)),
            worst(
                "`walk` of 1K to 8K symbols",
                2.5,
                GOOD.map(|capture| self.worst_of_short(capture)).into(),
            ),
            target("`read` to reference, by 16", good([1.5, 3.0, 5.0, 8.0]), to("read", BY_16)),
            target("`send` to reference, by 16", good([1.7, 1.9, 2.6, 3.4]), to("send", BY_16)),
            target(
                "`walk_log`, many readings in one call, to reference's walk, by 16",
                vec![("64", 3.0), ("all Starts", 1.0)],
                to("walk_log", BY_16),
            ),
            target("`walk_log` to `walk`", vec![("64", 0.8)], beside(LOGGED)),
            worst("`walk` on hostile captures", 0.9, vec![self.worst("walk")]),
            worst("`walk_log` on hostile captures", 0.9, vec![self.worst("walk_log")]),
            worst(
                "`walk` on hostile captures of 1K to 64K symbols",
                0.9,
                vec![self.worst_by_size(|size| size >= 1024)],
            ),
            worst(
                "`walk` on hostile captures under 1K symbols",
                0.9,
                vec![self.worst_by_size(|size| size < 1024)],
            ),
            worst("`read` on hostile captures", 0.5, vec![self.worst("read")]),
            target(
                "`add_capture` to `walk`: at most 1.1 times its time",
                with_damaged(1.0 / 1.1),
                beside(SIZED),
            ),
            target(
                "`explain` to `read`: at most 1.3 times its time",
                with_damaged(1.0 / 1.3),
                beside(EXPLAINED),
            ),
            target(
                "`count` of 100 captures to `walk` and reading the file: at most 1.5 times their time",
                good([1.0 / 1.5; 4]),
                of_file,
            ),
        ]
    }

    // The first page: walk, read and send on good traffic.
    fn overview(&self) -> String {
        let mut out = String::new();
        let names = [
            "Call",
            "Frames",
            "10^9 symbols/s",
            "lines of 10 Gbit/s",
            "to reference, by 16",
            "to C, by 16",
            "to C, zlib",
            "to C, libisal",
        ];
        head(&mut out, names.map(str::to_owned).to_vec(), 2);
        let shown = SHOWN.into_iter().flat_map(|call| GOOD.map(|c| (call, c)));
        for row in shown.filter_map(|(call, capture)| self.row(call, capture)) {
            let rate = row.rates[0];
            let mut cells = vec![format!("`{}`", row.call), row.capture.to_owned()];
            cells.extend([cell(rate, 2), cell(rate.map(|r| r / LINE_RATE), 1)]);
            cells.extend([BY_16, C_BY_16, ZLIB, ISAL].map(|column| cell(row.ratio(column), 2)));
            line(&mut out, cells);
        }
        out
    }

    // What was asked, and what was reached.
    fn asked(&self) -> String {
        let mut out = String::new();
        let names = ["Ratio", "captures", "asked", "reached", ""].map(str::to_owned);
        head(&mut out, names.to_vec(), 5);
        for target in self.targets() {
            line(&mut out, target.cells());
        }
        out
    }

    // What a walk costs by itself and for each symbol, without tables and with them, and from how many symbols on the
    // tables pay, if they do in any capture.
    fn by_itself(&self) -> String {
        let mut out = String::new();
        let names = [
            "Capture",
            "a short walk by itself, ns",
            "each symbol, ns",
            "a long walk by itself, ns",
            "each symbol, ns",
            "tables pay from, symbols",
        ];
        head(&mut out, names.map(str::to_owned).to_vec(), 1);
        let grown = self.growth.iter().filter(|g| GROWN.contains(&g.capture));
        for growth in grown {
            let walks = growth.cells.iter().flatten();
            let walks = walks.map(|c| (c.symbols, c.symbols as f64 * c.walk));
            let (short, long): (Vec<_>, Vec<_>) = walks.partition(|w| w.0 < TABLES_FROM);
            let (short, long) = (fitted(&short), fitted(&long));
            let pay = short.zip(long).map(|(s, l)| (l.0 - s.0) / (s.1 - l.1));
            let pay = pay.filter(|&symbols| (0.0..=SYMBOLS as f64).contains(&symbols));
            let mut cells = vec![growth.capture.to_owned()];
            for fit in [short, long] {
                cells.push(cell(fit.map(|(by_itself, _)| by_itself), 0));
                cells.push(cell(fit.map(|(_, each)| each), 3));
            }
            cells.push(cell(pay, 0));
            line(&mut out, cells);
        }
        out
    }

    /// What goes between the marks of the page, by their names.
    pub fn sections(&self) -> [(&'static str, String); 4] {
        [
            ("overview", self.overview()),
            ("asked", self.asked()),
            ("growth", self.by_itself()),
            ("figures", self.figures()),
        ]
    }

    // All that was measured.
    fn figures(&self) -> String {
        let mut out = String::from("### Machine\n\n");
        for line in &self.machine {
            let _ = writeln!(out, "- {line}");
        }
        out.push('\n');
        self.rates(&mut out);
        out.push_str("\n### `walk_log`: how many times as fast as `walk`, by capture\n\n");
        self.by_capture(&mut out, LOGGED);
        out.push_str("\n### `add_capture`: how many times as fast as `walk`, by capture\n\n");
        self.by_capture(&mut out, SIZED);
        out.push_str("\n### `explain`: how many times as fast as `read`, by capture\n\n");
        self.by_capture(&mut out, EXPLAINED);
        out.push_str("\n### `walk`: how many times as fast as `plain`, by capture\n\n");
        self.by_capture(&mut out, PUSHED);
        out.push_str("\n### `send, totals`: how many times as fast as `send`, by capture\n\n");
        self.by_capture(&mut out, COUNTED);
        out.push_str("\n### A table of 12 and 4 entries\n\n");
        self.listed(&mut out);
        out.push_str("\n### Room in a log\n\n");
        self.room(&mut out);
        out.push_str("\n### Totals of 65,536 symbols\n\n");
        self.totals(&mut out);
        out.push_str("\n### A file of 100 captures\n\n");
        self.of_files(&mut out);
        out.push_str("\n### `walk`: nanoseconds per symbol by the capture's size in symbols\n\n");
        self.by_size(&mut out, 3, |cell| cell.walk);
        out.push_str("\n### `walk`: how many times as fast as reference, by 16, by the capture's size in symbols\n\n");
        self.by_size(&mut out, 2, |cell| cell.ratio);
        out.push_str(
            "\n### `walk_log`: nanoseconds per symbol by the capture's size in symbols\n\n",
        );
        self.by_size(&mut out, 3, |cell| cell.walk_log);
        out
    }
}

/// The document with each text in place of what stands between the two marks of its name; the texts
/// alone where there are no marks at all.
pub fn placed(document: &str, sections: &[(&'static str, String)]) -> Result<String, String> {
    let marks = |name| {
        let begin = format!("<!-- {name}: bench/run --markdown writes from here -->\n");
        (begin, format!("<!-- {name}: to here -->\n"))
    };
    if !sections
        .iter()
        .any(|(name, _)| document.contains(&marks(name).0))
    {
        let texts: Vec<&str> = sections.iter().map(|(_, text)| text.as_str()).collect();
        return Ok(texts.join("\n"));
    }
    let mut document = document.to_owned();
    for (name, text) in sections {
        let (begin, end) = marks(name);
        let parts = document.split_once(&begin);
        let parts = parts.and_then(|(before, rest)| Some((before, rest.split_once(&end)?.1)));
        let (before, after) = parts.ok_or(format!("the marks of '{name}' are not there"))?;
        document = format!("{before}{begin}\n{text}\n{end}{after}");
    }
    Ok(document)
}
