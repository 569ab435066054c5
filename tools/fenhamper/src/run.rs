//! The tool as a whole: which command, and how it exits.
use crate::count::COUNT;
use crate::draw::DRAW;
use crate::failure::Failure;
use crate::from_pcap::FROM_PCAP;
use crate::help::{overview, page};
use crate::io::{Io, Verdict, STANDARD_OUTPUT};
use crate::list::LIST;
use crate::pcap::PCAP;
use crate::send::SEND;
use crate::why::WHY;
use crate::words::{nearest, Command, Words, HELP};
use std::ffi::OsString;

/// All commands, in the order of the help.
pub const COMMANDS: [&Command; 7] = [&LIST, &COUNT, &WHY, &PCAP, &FROM_PCAP, &DRAW, &SEND];

/// Does what the words ask for, and gives the exit code: 0 read, 1 something was thrown away and
/// that was asked for, 2 it could not be done, which is said in one line on standard error.
pub fn run(words: impl IntoIterator<Item = OsString>, io: &mut Io<'_>) -> u8 {
    let done = command(words, io).and_then(|verdict| {
        let flushed = io.output.flush();
        flushed.map_err(|error| Failure::writing(STANDARD_OUTPUT, error))?;
        Ok(verdict)
    });
    match done {
        Ok(verdict) => verdict.code(),
        Err(Failure::Closed) => 0,
        Err(failure) => {
            io.complain(&failure);
            2
        }
    }
}

fn command(words: impl IntoIterator<Item = OsString>, io: &mut Io<'_>) -> Result<Verdict, Failure> {
    let mut words = words.into_iter();
    let first = words.next().unwrap_or_default();
    let first = first.to_string_lossy();
    match &*first {
        "" => {
            let names = COMMANDS.map(|command| command.name).join(", ");
            let what = format!("which command? {names} (fenhamper --help)");
            return Err(Failure::usage(what));
        }
        "--help" | "-h" | "help" => return help(words.next(), io),
        "--version" => {
            io.print(concat!("fenhamper ", env!("CARGO_PKG_VERSION"), "\n"))?;
            return Ok(Verdict::default());
        }
        _ => {}
    }
    let command = named(&first)?;
    let words = Words::parse(command, words)?;
    if words.has(HELP.name) {
        io.print(&page(command))?;
        return Ok(Verdict::default());
    }
    (command.run)(&words, io)
}

// The page of a command, or of all.
fn help(word: Option<OsString>, io: &mut Io<'_>) -> Result<Verdict, Failure> {
    let text = match word {
        Some(word) => page(named(&word.to_string_lossy())?),
        None => overview(&COMMANDS),
    };
    io.print(&text)?;
    Ok(Verdict::default())
}

fn named(word: &str) -> Result<&'static Command, Failure> {
    let named = COMMANDS.into_iter().find(|command| command.name == word);
    named.ok_or_else(|| {
        let near = nearest(word, COMMANDS.iter().map(|command| command.name));
        let hint = near.map_or(String::new(), |near| format!("; did you mean {near}?"));
        Failure::usage(format!(
            "there is no command {word}{hint} (fenhamper --help)"
        ))
    })
}
