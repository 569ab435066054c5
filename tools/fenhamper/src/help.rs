//! The pages of help.
use crate::columns::{wrapped, WIDTH};
use crate::who::FILES;
use crate::words::{Command, Flag, HELP};

/// Where a flag's help begins.
const COLUMN: usize = 28;

/// What every page says of files and exit codes, where files are read.
const ON_FILES: &str = "\
A capture file is records of two octets, mark then octet: mark 0 is data, any other control. - is
standard input. A file of more than 65,536 symbols is read as a run of captures. Where a stretch of
so many ends inside a frame, that frame's Start and all behind it are carried over to the next
stretch, so that no frame at a seam is lost; counters and timers go on. A run that is longer than a
capture has the outcome of the whole run (cut, bad preamble or oversized), and what stands in its
middle plays no part in that. Places are those of the whole file.";

/// What every page says of exit codes.
const ON_CODES: &str = "\
Exits with 0: read; 1: with --strict, something was thrown away; 2: bad usage, a file that cannot be
read or is no capture, output that cannot be written. Then one line on standard error says which.";

/// The page of a command.
#[must_use]
pub fn page(command: &Command) -> String {
    let Command {
        name,
        takes,
        does,
        about,
        groups,
        ..
    } = command;
    let mut text = format!("fenhamper {name} [FLAG..] {takes}\n  {does}\n\n{about}\n");
    // where captures are read
    if groups.iter().any(|(heading, _)| *heading == FILES.0) {
        text += &format!("\n{ON_FILES}\n\n{ON_CODES}\n");
    }
    for (heading, flags) in *groups {
        text += &format!("\n{heading}\n");
        text += &flags.iter().map(flag).collect::<String>();
    }
    text += "\nHelp\n";
    text + &flag(&HELP)
}

// A flag, its value and what it is for, which goes on below where it is long.
fn flag(flag: &Flag) -> String {
    let head = match flag.value {
        Some(value) => format!("  {} {value}", flag.name),
        None => format!("  {}", flag.name),
    };
    let mut lines = wrapped(flag.help.split(' '), WIDTH - COLUMN).into_iter();
    let first = lines.next().unwrap_or_default();
    let mut text = if head.len() + 2 > COLUMN {
        format!("{head}\n{:COLUMN$}{first}\n", "")
    } else {
        format!("{head:COLUMN$}{first}\n")
    };
    for line in lines {
        text += &format!("{:COLUMN$}{line}\n", "");
    }
    text
}

/// The page of all commands.
#[must_use]
pub fn overview(commands: &[&Command]) -> String {
    let mut text = String::from(
        "fenhamper COMMAND ..\n  What a capture of line symbols says: by names, with reasons, in \
         Wireshark and as a picture.\n\n",
    );
    for command in commands {
        let head = format!("  {} {}", command.name, command.takes);
        text += &format!("{head}\n      {}\n", command.does);
    }
    text + &format!("\nfenhamper COMMAND --help says more of each.\n\n{ON_FILES}\n\n{ON_CODES}\n")
}
