//! Fenhamper's speed beside an independent Rust program and C: symbols per second of `walk`, of
//! `walk_log`, of adding a capture to a size table, of `read` and `explain` Start by Start, of the
//! plain reader symbol by symbol, of sending, of room in a log, of totals and of the tool's `count`.
#![deny(unsafe_code)]
mod baseline;
mod captures;
mod files;
mod measure;
mod report;
mod rivals;
#[cfg(test)]
mod tests;

use std::env;
use std::fs;
use std::process::ExitCode;
use std::time::Duration;

use baseline::Reader;
use captures::{Kind, Line, FRAMES, HOSTILE, SYMBOLS};
use files::{Captures, Through, Who};
use measure::{agree, Effort, Rivals};
use reference::{Check, Port};
use report::{placed, Cell, Growth, Listed, OfFile, Report, Room, Row, Totals};
use rivals::{full_log, Asker, By, Filler, InC, Independent, IndependentSender, Job, Making};
use rivals::{Proved, ProvedSender, Rival, RoomMaker, Whose};

const USAGE: &str = "\
bench/run [--markdown FILE] [--rounds N] [--turn MILLISECONDS]
  --markdown FILE  also write the tables to FILE; if it has the marks of docs/SPEED.md, between them
  --rounds N       how often all rivals take their turn (7)
  --turn N         how many milliseconds a turn lasts at least (50)";

/// 128 shows what a call costs by itself.
const SIZES: [usize; 8] = [128, 1024, 2048, 4096, 8192, 16_384, 32_768, 65_536];

/// What reads and what sends, in the order of the table.
const READINGS: [&str; 7] = [
    "walk",
    "walk_log",
    "add_capture",
    "read",
    "readings",
    "explain",
    "plain",
];
const SENDINGS: [(&str, Port, bool); 3] = [
    ("send", Port::Plain, false),
    ("send, four lanes", Port::FourLane, false),
    ("send, totals", Port::Plain, true),
];

/// The capture that is read with a full table too.
const LISTED: &str = "64";

/// The captures whose log is compacted, and what is done with it: with every record used, and with
/// every other one deleted.
const ROOMY: [&str; 2] = ["64", "all Starts"];
const MAKINGS: [(Making, bool); 3] = [
    (Making::Compact, false),
    (Making::Compact, true),
    (Making::Delete, false),
];

/// The captures whose totals are filled and asked.
const COUNTED: [&str; 3] = ["all Idle", "64", "all Starts"];
/// Where they are asked; the look is into a whole block but for one symbol.
const ASKED: usize = SYMBOLS - 1;

/// What there is no C for.
const NOT_IN_C: [Option<f64>; 3] = [None; 3];

/// How many captures the tool's `count` has in one file.
const IN_A_FILE: usize = 100;

struct Bench {
    effort: Effort,
    // with a check of its own, with zlib's, with libisal's
    in_c: [Option<Reader>; 3],
}

impl Bench {
    // 10^9 symbols per second, of rivals that do the same.
    fn rates(&self, symbols: usize, rivals: &mut Rivals) -> Vec<f64> {
        let seconds = self.effort.seconds(rivals);
        let rates = seconds.iter().map(|s| symbols as f64 / s / 1e9);
        rates.collect()
    }

    // `walk`, `walk_log`, `add_capture`, `read`, `explain` and the plain reader on one capture. What the others
    // keep of a walk are its counters.
    fn reading(&self, kind: &Kind, line: &Line) -> Vec<Row> {
        let (name, limit, symbols) = (kind.name, kind.limit, line.octets.len());
        let proved = |by| Box::new(Proved::new(by, line, limit));
        let independent = |check, by| Box::new(Independent::new(check, by, line, limit));
        let in_c = |reader| Box::new(InC::new(reader, line, limit));
        let row =
            |call, [ours, byte, by_16]: [f64; 3], [slicing, zlib, isal]: [Option<f64>; 3]| Row {
                call,
                capture: name,
                hostile: !kind.has_frames(),
                rates: [Some(ours), Some(byte), Some(by_16), slicing, zlib, isal],
            };

        let mut walks: Rivals = vec![
            proved(By::Walk),
            proved(By::WalkLog),
            independent(Check::ByteTable, By::Walk),
            independent(Check::Slicing16, By::Walk),
        ];
        for reader in self.in_c.into_iter().flatten() {
            walks.push(in_c(reader));
        }
        let mut reads: Rivals = vec![
            proved(By::Read),
            proved(By::Readings),
            independent(Check::ByteTable, By::Read),
            independent(Check::Slicing16, By::Read),
        ];
        // of a reason there is no status word: these agree among themselves, and are timed in the same turns
        let mut whys: Rivals = vec![
            proved(By::Explain),
            independent(Check::ByteTable, By::Explain),
            independent(Check::Slicing16, By::Explain),
        ];
        // a call for each symbol, timed in the same turns as the walks
        let mut plains: Rivals = vec![
            proved(By::Plain),
            independent(Check::ByteTable, By::Plain),
            independent(Check::Slicing16, By::Plain),
        ];
        // sizes agree among themselves, and are timed in the same turns as the walks
        let mut sizes: Rivals = vec![
            proved(By::Sizes),
            independent(Check::ByteTable, By::Sizes),
            independent(Check::Slicing16, By::Sizes),
        ];
        agree(name, &mut sizes);
        let counted = agree(name, &mut walks);
        let read = agree(name, &mut reads);
        assert!(counted == read, "{name}: walk and read count otherwise");
        let explained = agree(name, &mut whys);
        assert!(read == explained, "{name}: explain counts otherwise");
        let pushed = agree(name, &mut plains);
        assert!(read == pushed, "{name}: the plain reader counts otherwise");
        reads.append(&mut whys);
        let walking = walks.len();
        walks.append(&mut plains);
        let pushing = walks.len();
        walks.append(&mut sizes);
        let mut walk = self.rates(symbols, &mut walks);
        let added = walk.split_off(pushing);
        let plain = walk.split_off(walking);
        let read = self.rates(symbols, &mut reads);
        let mut in_c = walk.split_off(4).into_iter();
        let in_c = self.in_c.map(|reader| reader.and_then(|_| in_c.next()));
        let mut rows = vec![
            row("walk", [walk[0], walk[2], walk[3]], in_c),
            row("walk_log", [walk[1], walk[2], walk[3]], in_c),
            row("add_capture", [added[0], added[1], added[2]], NOT_IN_C),
            row("read", [read[0], read[2], read[3]], NOT_IN_C),
            row("explain", [read[4], read[5], read[6]], NOT_IN_C),
            row("plain", [plain[0], plain[1], plain[2]], NOT_IN_C),
        ];
        // the iterator is the same call for each Start: good traffic shows what it adds or saves
        if kind.has_frames() {
            rows.push(row("readings", [read[1], read[2], read[3]], NOT_IN_C));
        }
        rows
    }

    // `walk` and `read` with a table of 12 and 4 entries, and, in the same turns, with an empty one.
    fn listed(&self, kind: &Kind, line: &Line) -> Vec<Listed> {
        let (name, limit) = (kind.name, kind.limit);
        let by = |(call, by)| {
            let independent = |check| Box::new(Independent::new(check, by, line, limit).listing());
            let mut rivals: Rivals = vec![
                Box::new(Proved::new(by, line, limit).listing()),
                Box::new(Proved::new(by, line, limit)),
                independent(Check::ByteTable),
                independent(Check::Slicing16),
            ];
            agree(name, &mut rivals);
            Listed {
                call,
                capture: name,
                rates: self.rates(line.octets.len(), &mut rivals),
            }
        };
        [("walk", By::Walk), ("read", By::Read)].map(by).into()
    }

    // Sending frames of one kind in all ways, which take their turns together.
    fn sending(&self, kind: &Kind) -> Vec<Row> {
        let (sizes, data) = (kind.sizes(SYMBOLS), captures::data());
        let mut senders: Rivals = Vec::new();
        for (_, port, counted) in SENDINGS {
            let job = Job {
                port,
                counted,
                limit: kind.limit,
                sizes: &sizes,
                data: &data,
            };
            let mut rivals: Rivals = vec![
                Box::new(ProvedSender::new(job)),
                Box::new(IndependentSender::new(Check::ByteTable, job)),
                Box::new(IndependentSender::new(Check::Slicing16, job)),
            ];
            agree(kind.name, &mut rivals);
            senders.append(&mut rivals);
        }
        let rates = self.rates(captures::symbols(&sizes), &mut senders);
        let row = |((call, ..), rates): ((&'static str, Port, bool), &[f64])| Row {
            call,
            capture: kind.name,
            hostile: false,
            rates: [
                Some(rates[0]),
                Some(rates[1]),
                Some(rates[2]),
                None,
                None,
                None,
            ],
        };
        SENDINGS.into_iter().zip(rates.chunks(3)).map(row).collect()
    }

    // Filling the totals of a capture, beside a walk over it, and asking them.
    fn totals(&self, kind: &Kind, line: &Line) -> Totals {
        const ALL: [Whose; 3] = [Whose::Proved, Whose::Independent, Whose::Plain];
        let filler = |whose| -> Box<dyn Rival> { Box::new(Filler::new(whose, line)) };
        let asker = |whose| -> Box<dyn Rival> { Box::new(Asker::new(whose, line, ASKED)) };
        let mut fillers: Rivals = ALL.map(filler).into();
        agree(kind.name, &mut fillers);
        fillers.push(Box::new(Proved::new(By::Walk, line, kind.limit)));
        let mut askers: Rivals = ALL.map(asker).into();
        agree(kind.name, &mut askers);
        Totals {
            capture: kind.name,
            rates: self.rates(line.octets.len(), &mut fillers),
            nanoseconds: self
                .effort
                .seconds(&mut askers)
                .iter()
                .map(|s| s * 1e9)
                .collect(),
        }
    }

    // Making room in a log of as many records as a capture has Starts, beside the walk that fills it.
    fn room(&self, kind: &Kind, line: &Line) -> Room {
        let mut rivals: Rivals = vec![Box::new(Proved::new(By::WalkLog, line, kind.limit))];
        let records = rivals[0].run().count;
        for (making, holes) in MAKINGS {
            let maker = |whose| -> Box<dyn Rival> {
                Box::new(RoomMaker::new(whose, making, full_log(records, holes)))
            };
            let mut makers: Rivals = [Whose::Proved, Whose::Independent].map(maker).into();
            agree(kind.name, &mut makers);
            rivals.append(&mut makers);
        }
        let seconds = self.effort.seconds(&mut rivals);
        Room {
            capture: kind.name,
            records,
            nanoseconds: seconds.iter().map(|s| s * 1e9 / records as f64).collect(),
        }
    }

    // In fewer rounds, where there are many runs or long ones.
    fn shorter(&self) -> Bench {
        Bench {
            effort: Effort {
                rounds: self.effort.rounds.div_ceil(2),
                ..self.effort
            },
            ..*self
        }
    }

    // The tool's `count` of a file of captures, beside `walk` over them and reading the file.
    fn of_file(&self, kind: &Kind) -> Result<OfFile, String> {
        let captures = Captures::new(kind, IN_A_FILE)
            .map_err(|error| format!("a file of captures: {error}"))?;
        let through = |who| -> Box<dyn Rival + '_> { Box::new(Through::new(who, &captures)) };
        let mut rivals: Rivals = [Who::Count, Who::Walk].map(through).into();
        agree(kind.name, &mut rivals);
        rivals.push(through(Who::Read));
        Ok(OfFile {
            capture: kind.name,
            rates: self.shorter().rates(captures.symbols(), &mut rivals),
        })
    }

    // `walk` and `walk_log` on captures of one kind and growing size.
    fn growth(&self, kind: &Kind) -> Growth {
        let bench = self.shorter();
        let cells = SIZES.map(|size| {
            let line = kind.capture(size)?;
            let mut rivals: Rivals = vec![
                Box::new(Proved::new(By::Walk, &line, kind.limit)),
                Box::new(Independent::new(
                    Check::Slicing16,
                    By::Walk,
                    &line,
                    kind.limit,
                )),
                Box::new(Proved::new(By::WalkLog, &line, kind.limit)),
            ];
            agree(kind.name, &mut rivals);
            let symbols = line.octets.len();
            let rates = bench.rates(symbols, &mut rivals);
            Some(Cell {
                symbols,
                walk: 1.0 / rates[0],
                ratio: rates[0] / rates[1],
                walk_log: 1.0 / rates[2],
            })
        });
        Growth {
            capture: kind.name,
            hostile: !kind.has_frames(),
            cells: cells.to_vec(),
        }
    }

    fn report(&self, machine: Vec<String>) -> Result<Report, String> {
        let kinds: Vec<Kind> = FRAMES.into_iter().chain(HOSTILE).collect();
        let (mut rows, mut listed) = (Vec::new(), Vec::new());
        let (mut room, mut totals, mut growth) = (Vec::new(), Vec::new(), Vec::new());
        let mut of_files = Vec::new();
        for kind in &kinds {
            eprintln!("reading: {}", kind.name);
            if let Some(line) = kind.capture(SYMBOLS) {
                rows.extend(self.reading(kind, &line));
            }
        }
        for kind in FRAMES.iter().filter(|kind| kind.name == LISTED) {
            eprintln!("listed: {}", kind.name);
            let line = kind.capture(SYMBOLS);
            listed.extend(line.into_iter().flat_map(|line| self.listed(kind, &line)));
        }
        for kind in &FRAMES {
            eprintln!("sending: {}", kind.name);
            rows.extend(self.sending(kind));
        }
        for name in ROOMY {
            eprintln!("room: {name}");
            for kind in kinds.iter().filter(|kind| kind.name == name) {
                let line = kind.capture(SYMBOLS);
                room.extend(line.map(|line| self.room(kind, &line)));
            }
        }
        for name in COUNTED {
            eprintln!("totals: {name}");
            for kind in kinds.iter().filter(|kind| kind.name == name) {
                let line = kind.capture(SYMBOLS).map(Line::filled);
                totals.extend(line.map(|line| self.totals(kind, &line)));
            }
        }
        for kind in &FRAMES {
            eprintln!("a file: {}", kind.name);
            of_files.push(self.of_file(kind)?);
        }
        for kind in &kinds {
            eprintln!("by size: {}", kind.name);
            growth.push(self.growth(kind));
        }
        let order = [&READINGS[..], &SENDINGS.map(|(call, ..)| call)].concat();
        rows.sort_by_key(|row| order.iter().position(|call| *call == row.call));
        Ok(Report {
            machine,
            rows,
            listed,
            room,
            totals,
            of_files,
            sizes: SIZES.to_vec(),
            growth,
        })
    }
}

// The processor's model, and what compiled the rivals.
fn machine(libraries: &[(&str, Option<(Reader, String)>)]) -> Vec<String> {
    let info = fs::read_to_string("/proc/cpuinfo").unwrap_or_default();
    let mut models = info.lines().filter(|line| line.starts_with("model name"));
    let model = models.next().and_then(|line| line.split_once(": "));
    let mut lines = vec![
        format!("processor: {}", model.map_or("unknown", |(_, name)| name)),
        format!("Rust, for release: {}", env!("BENCH_RUSTC")),
        format!("C, -O3: {}", env!("BENCH_GCC")),
    ];
    for (name, found) in libraries {
        let version = found.as_ref().map_or("not installed", |(_, v)| v.as_str());
        lines.push(format!("{name}: {version}"));
    }
    lines
}

// The value behind an option, as a number.
fn number(value: Option<String>) -> Result<u64, String> {
    let value = value.ok_or(USAGE)?;
    let number = value.parse().ok().filter(|&n| n > 0);
    number.ok_or(format!("{value} is no number above 0\n{USAGE}"))
}

fn run() -> Result<(), String> {
    let (mut markdown, mut rounds, mut turn) = (None, 7, 50);
    let mut words = env::args().skip(1);
    while let Some(word) = words.next() {
        match word.as_str() {
            "--markdown" => markdown = Some(words.next().ok_or(USAGE)?),
            "--rounds" => rounds = number(words.next())?,
            "--turn" => turn = number(words.next())?,
            _ => return Err(USAGE.to_owned()),
        }
    }
    let libraries = [("zlib", Reader::zlib()), ("libisal", Reader::isal())];
    let mut machine = machine(&libraries);
    machine.push(format!(
        "timed: {rounds} rounds of {turn} ms for each rival"
    ));
    let [zlib, isal] = libraries.map(|(_, found)| found.map(|(reader, _)| reader));
    let bench = Bench {
        effort: Effort {
            rounds: rounds as usize,
            turn: Duration::from_millis(turn),
        },
        in_c: [Some(Reader::slicing()), zlib, isal],
    };
    let sections = bench.report(machine)?.sections();
    for (_, text) in &sections {
        println!("{text}");
    }
    if let Some(file) = markdown {
        let document = fs::read_to_string(&file).unwrap_or_default();
        let written = fs::write(&file, placed(&document, &sections)?);
        written.map_err(|error| format!("{file}: {error}"))?;
    }
    Ok(())
}

fn main() -> ExitCode {
    match run() {
        Ok(()) => ExitCode::SUCCESS,
        Err(message) => {
            eprintln!("{message}");
            ExitCode::FAILURE
        }
    }
}
