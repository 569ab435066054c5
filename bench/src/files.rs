//! A file of many captures: counted by the tool, beside `walk` over the same symbols and reading alone.
use std::env;
use std::fs::{self, File};
use std::hint::black_box;
use std::io::{self, Read, Write};
use std::path::PathBuf;
use std::process;

use fenhamper::{Address, Capture, Settings, State};
use fenhamper_tool::count::count;
use fenhamper_tool::source::Source;
use fenhamper_tool::stretch::Stretches;

use crate::captures::{Kind, Line, SYMBOLS};
use crate::rivals::{Rival, Tally, OWN};

/// Octets that are read at once: those of a whole capture.
const PIECE: usize = 2 * SYMBOLS;

/// Captures of one kind, no two of one size, one after the other in a file that goes when it is dropped.
pub struct Captures {
    lines: Vec<Line>,
    path: PathBuf,
    settings: Settings,
}

impl Captures {
    /// So many captures.
    pub fn new(kind: &Kind, number: usize) -> io::Result<Captures> {
        let sizes = (0..number).map(|n| SYMBOLS - 7 * n);
        let lines: Vec<Line> = sizes.filter_map(|size| kind.capture(size)).collect();
        let path = env::temp_dir().join(format!("fenhamper-bench-{}-{}", process::id(), kind.name));
        let mut file = io::BufWriter::new(File::create(&path)?);
        for line in &lines {
            for (&octet, &mark) in line.octets.iter().zip(&line.marks) {
                file.write_all(&[mark, octet])?;
            }
        }
        file.flush()?;
        Ok(Captures {
            lines,
            path,
            settings: Settings::new(Address(OWN)).limit(kind.limit),
        })
    }

    /// Symbols of all captures together.
    pub fn symbols(&self) -> usize {
        self.lines.iter().map(|line| line.octets.len()).sum()
    }
}

impl Drop for Captures {
    fn drop(&mut self) {
        let _ = fs::remove_file(&self.path);
    }
}

/// Who goes through the captures.
pub enum Who {
    /// The tool's `count`, from the file.
    Count,
    /// `walk`, a call for each capture, whose octets and marks are in memory already.
    Walk,
    /// Nobody: the file is read.
    Read,
}

/// One of them at work.
pub struct Through<'a> {
    who: Who,
    captures: &'a Captures,
    state: State,
    piece: Vec<u8>,
}

impl<'a> Through<'a> {
    pub fn new(who: Who, captures: &'a Captures) -> Self {
        Through {
            who,
            captures,
            state: State::default(),
            piece: vec![0; PIECE],
        }
    }

    // As the command does it, but that nothing is printed.
    fn count(&mut self) -> Option<Tally> {
        let mut input = io::empty();
        let source = Source::open(self.captures.path.as_os_str(), &mut input).ok()?;
        let mut stretches = Stretches::new(source, false).ok()?;
        let listener = (&self.captures.settings).into();
        let counted = count(&mut stretches, listener, false).ok()?;
        self.state = counted.state;
        let open = counted.end.open.is_some();
        Some(Tally::walked(counted.end.starts as usize, open))
    }

    fn walk(&mut self) -> Option<Tally> {
        let (mut starts, mut open) = (0, false);
        self.state = State::default();
        for line in &self.captures.lines {
            let capture = Capture::new(black_box(&line.octets), black_box(&line.marks));
            let walk = capture
                .walk(&self.captures.settings, &mut self.state)
                .ok()?;
            (starts, open) = (starts + walk.starts, walk.open);
        }
        Some(Tally::walked(starts, open))
    }

    fn read(&mut self) -> Option<Tally> {
        let mut file = File::open(&self.captures.path).ok()?;
        while file.read(&mut self.piece).ok()? > 0 {
            black_box(&self.piece);
        }
        Some(Tally::default())
    }
}

impl Rival for Through<'_> {
    fn run(&mut self) -> Tally {
        let tally = match self.who {
            Who::Count => self.count(),
            Who::Walk => self.walk(),
            Who::Read => self.read(),
        };
        tally.unwrap_or_default()
    }

    fn kept(&self) -> Vec<u64> {
        self.state.counters().to_vec()
    }
}
