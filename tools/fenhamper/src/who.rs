//! Who reads: settings, job and table, as flags.
use crate::failure::Failure;
use crate::names::summed;
use crate::progress::Progress;
use crate::source::{Source, RECORD};
use crate::stretch::Stretches;
use crate::words::{switch, valued, Flag, Group, Words};
use fenhamper::limits::{self, OUTCOMES};
use fenhamper::{Address, Capture, Flow, Job, Listener, Refusal, Settings};
use fenhamper::{State, Table};
use std::ffi::OsStr;
use std::fs;
use std::io::Read;

/// What a station is set to.
pub const STATION: Group = (
    "The station",
    &[
        valued("--own", "ADDRESS", "its own address (02-00-00-00-00-01)"),
        valued(
            "--list",
            "[JOB=]ADDRESS",
            "lists an address, of this job or of JOB; may be given again and again",
        ),
        valued(
            "--table",
            "FILE",
            "the table of addresses first, 128 octets",
        ),
        valued("--job", "0|1", "reads as this job (0)"),
        switch("--promiscuous", "accepts every destination"),
        switch("--no-broadcast", "does not accept broadcast"),
        switch(
            "--no-check",
            "does not check lengths, and hands out all data",
        ),
        valued(
            "--limit",
            "OCTETS",
            "the longest frame, 1518 to 9618 (1518)",
        ),
        valued(
            "--flow",
            "none|pause|pfc",
            "which control frames are taken (none)",
        ),
        switch(
            "--pass-control",
            "hands out control frames that are not taken",
        ),
    ],
);

/// How files are read.
pub const FILES: Group = (
    "Files",
    &[
        switch(
            "--strict",
            "exits with 1 if anything was thrown away: all that was neither handed out nor taken",
        ),
        FORCE,
    ],
);

/// For a capture that by accident begins like something else.
pub const FORCE: Flag = switch(
    "--force",
    "reads a file as a capture whatever it looks like",
);

/// The flow modes, in the order of their words.
const FLOWS: [(&str, Flow); 3] = [
    ("none", Flow::Off),
    ("pause", Flow::Pause),
    ("pfc", Flow::Pfc),
];

/// Settings, job and table.
#[derive(Debug)]
pub struct Who {
    settings: Settings,
    job: Job,
    table: Table,
}

impl Who {
    /// As the flags say. What a reading would refuse is refused here.
    pub fn of(words: &Words) -> Result<Who, Failure> {
        let job = job(words)?;
        let who = Who {
            settings: settings(words)?,
            job,
            table: table(words, job)?,
        };
        let tried = Capture::new(&[], &[]).walk(who.listener(), &mut State::default());
        match tried {
            Ok(_) => Ok(who),
            Err(refusal) => Err(words.wrong(&refused(refusal))),
        }
    }

    /// Who listens, where a capture is read.
    #[must_use]
    pub fn listener(&self) -> Listener<'_> {
        self.settings.listing(self.job, &self.table)
    }

    /// The settings.
    pub fn settings(&self) -> Settings {
        self.settings
    }
}

// A refusal of settings or table, in the words of the flags.
fn refused(refusal: Refusal) -> String {
    match refusal {
        Refusal::BadTable => {
            "--table: a job holds more than 12 entries, or has an address twice".to_owned()
        }
        other => other.to_string(),
    }
}

/// The settings that the flags name.
pub fn settings(words: &Words) -> Result<Settings, Failure> {
    let mut settings = Settings::default();
    if let Some(text) = words.text("--own")? {
        let own = address(words, "--own", text)?;
        if own.is_group() {
            let what = format!("--own {own}: a group's address is no station's own");
            return Err(words.wrong(&what));
        }
        settings = Settings::new(own);
    }
    let limits = limits::LEAST_LIMIT.into()..=limits::MOST_LIMIT.into();
    if let Some(limit) = words.number("--limit", limits)? {
        settings = settings.limit(limit as u16);
    }
    if let Some(flow) = flow(words)? {
        settings = settings.flow(flow);
    }
    Ok(settings
        .promiscuous(words.has("--promiscuous"))
        .broadcast(!words.has("--no-broadcast"))
        .checking(!words.has("--no-check"))
        .pass_control(words.has("--pass-control")))
}

/// The flow mode, if one is named.
pub fn flow(words: &Words) -> Result<Option<Flow>, Failure> {
    let chosen = words.choice("--flow", &FLOWS.map(|(word, _)| word))?;
    Ok(chosen.map(|number| FLOWS[number].1))
}

/// An address behind a flag.
pub fn address(words: &Words, name: &str, text: &str) -> Result<Address, Failure> {
    let parsed = text.parse::<Address>();
    parsed.map_err(|_| {
        words.wrong(&format!(
            "{name} {text}: no address; six pairs of hexadecimal digits with '-' or ':' between them are"
        ))
    })
}

fn job(words: &Words) -> Result<Job, Failure> {
    let number = words.number("--job", 0..=1)?.unwrap_or_default();
    Ok(Job::from_number(number as u8).unwrap_or_default())
}

// The table of the file, if one is named, and the addresses that are listed behind it.
fn table(words: &Words, job: Job) -> Result<Table, Failure> {
    let mut table = match words.value("--table") {
        Some(name) => table_file(name)?,
        None => Table::new(),
    };
    for text in words.texts("--list")? {
        let (of, listed) = match text.split_once('=') {
            Some(("0", listed)) => (Job::Zero, listed),
            Some(("1", listed)) => (Job::One, listed),
            Some((other, _)) => {
                let what = format!("--list {text}: there is no job {other}, 0 and 1 are");
                return Err(words.wrong(&what));
            }
            None => (job, text),
        };
        let added = table.add(of, address(words, "--list", listed)?);
        added.map_err(|refusal| words.wrong(&format!("--list {text}: {refusal}")))?;
    }
    Ok(table)
}

fn table_file(name: &OsStr) -> Result<Table, Failure> {
    let shown = name.to_string_lossy();
    let octets = fs::read(name).map_err(|error| Failure::reading(&shown, &error))?;
    let length = octets.len();
    let octets: [u8; 128] = octets.try_into().map_err(|_| {
        let what = format!("is no table: {length} octets, and a table has 128, 8 for each entry");
        Failure::input(&shown, what)
    })?;
    Ok(Table::from_octets(octets))
}

/// How files are read.
#[derive(Clone, Copy, Debug, Default)]
pub struct Reading {
    /// From this place on.
    pub from: u64,
    /// Whatever a file looks like.
    pub force: bool,
}

impl Reading {
    /// Begins to read a file so.
    pub fn open<'a>(
        self,
        file: &OsStr,
        input: &'a mut dyn Read,
        progress: Progress<'a>,
    ) -> Result<Stretches<'a>, Failure> {
        let source = Source::open(file, input)?;
        let stretches = Stretches::new(source, self.force)?;
        stretches.telling(progress).from(self.from)
    }
}

/// How files are read, by the flags.
pub fn reading(words: &Words) -> Result<Reading, Failure> {
    let places = 0..=u64::MAX / RECORD as u64;
    Ok(Reading {
        from: words.number("--from", places)?.unwrap_or_default(),
        force: words.has(FORCE.name),
    })
}

/// Whether it was asked that nothing is thrown away, and by these counters something was.
#[must_use]
pub fn thrown_away(words: &Words, counters: &[u64; OUTCOMES]) -> bool {
    let (.., thrown) = summed(counters);
    words.has("--strict") && thrown > 0
}
