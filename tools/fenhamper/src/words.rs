//! The command line: commands, their flags and what they take.
use crate::failure::Failure;
use crate::io::{Io, Verdict};
use crate::source::STANDARD;
use std::ffi::{OsStr, OsString};
use std::ops::RangeInclusive;

/// A flag of a command.
#[derive(Debug)]
pub struct Flag {
    /// As it is written: --own.
    pub name: &'static str,
    /// What stands behind it, if anything does: ADDRESS.
    pub value: Option<&'static str>,
    /// What it is for, in a line or more.
    pub help: &'static str,
}

/// A flag that takes nothing.
#[must_use]
pub const fn switch(name: &'static str, help: &'static str) -> Flag {
    Flag {
        name,
        value: None,
        help,
    }
}

/// A flag with a value.
#[must_use]
pub const fn valued(name: &'static str, value: &'static str, help: &'static str) -> Flag {
    Flag {
        name,
        value: Some(value),
        help,
    }
}

/// Every command takes it.
pub const HELP: Flag = switch("--help", "this page; -h too");

/// Where output goes.
pub const OUT: &str = "-o";

/// Flags of one kind, under a heading.
pub type Group = (&'static str, &'static [Flag]);

/// A command.
pub struct Command {
    /// Its word.
    pub name: &'static str,
    /// What stands behind it.
    pub takes: &'static str,
    /// What it does, in a line.
    pub does: &'static str,
    /// More on it.
    pub about: &'static str,
    /// Its flags.
    pub groups: &'static [Group],
    /// Does it.
    pub run: fn(&Words, &mut Io<'_>) -> Result<Verdict, Failure>,
}

impl Command {
    fn flags(&self) -> impl Iterator<Item = &'static Flag> {
        let all = self.groups.iter().flat_map(|(_, flags)| flags.iter());
        all.chain([&HELP])
    }

    fn flag(&self, word: &str) -> Result<&'static Flag, Failure> {
        let word = if word == "-h" { HELP.name } else { word };
        let named = self.flags().find(|flag| flag.name == word);
        named.ok_or_else(|| {
            let near = nearest(word, self.flags().map(|flag| flag.name));
            let hint = near.map_or(String::new(), |near| format!("; did you mean {near}?"));
            self.wrong(&format!("there is no flag {word}{hint}"))
        })
    }

    /// What is wrong with a command line, and where to read more.
    #[must_use]
    pub fn wrong(&self, what: &str) -> Failure {
        let name = self.name;
        Failure::usage(format!("{name}: {what} (fenhamper {name} --help)"))
    }
}

/// The word of these that is nearest to another, if it is near at all.
pub fn nearest<'a>(word: &str, all: impl Iterator<Item = &'a str>) -> Option<&'a str> {
    let near = all.map(|other| (distance(word, other), other)).min()?;
    (near.0 <= 2).then_some(near.1)
}

// How many letters to change, to put in or to leave out.
fn distance(a: &str, b: &str) -> usize {
    let mut row: Vec<usize> = (0..=b.len()).collect();
    for (i, x) in a.bytes().enumerate() {
        let mut before = i;
        row[0] = i + 1;
        for (j, y) in b.bytes().enumerate() {
            let change = before + usize::from(x != y);
            before = row[j + 1];
            row[j + 1] = change.min(before + 1).min(row[j] + 1);
        }
    }
    row[b.len()]
}

/// A word of the command line.
#[derive(Clone, Debug)]
pub enum Word {
    /// A flag, with its value if it takes one.
    Flag(&'static Flag, OsString),
    /// Anything else.
    Plain(OsString),
}

/// The words behind a command.
pub struct Words {
    /// The command.
    pub command: &'static Command,
    /// What stands behind it, in order.
    pub words: Vec<Word>,
}

impl Words {
    /// Takes the words apart.
    pub fn parse(
        command: &'static Command,
        words: impl IntoIterator<Item = OsString>,
    ) -> Result<Words, Failure> {
        let mut words = words.into_iter();
        let mut parsed = Vec::new();
        while let Some(word) = words.next() {
            match word.to_str() {
                Some("--") => {
                    parsed.extend(words.by_ref().map(Word::Plain));
                }
                Some(text) if text.starts_with('-') && text.len() > 1 => {
                    parsed.push(flag_word(command, text, &mut words)?);
                }
                _ => parsed.push(Word::Plain(word)),
            }
        }
        Ok(Words {
            command,
            words: parsed,
        })
    }

    /// What is wrong with them.
    #[must_use]
    pub fn wrong(&self, what: &str) -> Failure {
        self.command.wrong(what)
    }

    /// Whether a flag is given.
    #[must_use]
    pub fn has(&self, name: &'static str) -> bool {
        self.values(name).next().is_some()
    }

    /// The values of a flag that may be given more than once.
    pub fn values(&self, name: &'static str) -> impl Iterator<Item = &OsStr> {
        self.words.iter().filter_map(move |word| match word {
            Word::Flag(flag, value) if flag.name == name => Some(value.as_os_str()),
            _ => None,
        })
    }

    /// The value of a flag: the last, if it is given more than once.
    #[must_use]
    pub fn value(&self, name: &'static str) -> Option<&OsStr> {
        self.values(name).last()
    }

    /// The values of a flag that may be given more than once, as texts.
    pub fn texts(&self, name: &'static str) -> Result<Vec<&str>, Failure> {
        let texts = self.values(name).map(|value| self.text_of(name, value));
        texts.collect()
    }

    /// The value of a flag as a text.
    pub fn text(&self, name: &'static str) -> Result<Option<&str>, Failure> {
        let value = self.value(name);
        value.map(|value| self.text_of(name, value)).transpose()
    }

    fn text_of<'w>(&self, name: &str, value: &'w OsStr) -> Result<&'w str, Failure> {
        value.to_str().ok_or_else(|| {
            let value = value.to_string_lossy();
            self.wrong(&format!("{name} {value}: no text in UTF-8"))
        })
    }

    /// The value of a flag as a number in a range.
    pub fn number(
        &self,
        name: &'static str,
        range: RangeInclusive<u64>,
    ) -> Result<Option<u64>, Failure> {
        let Some(text) = self.text(name)? else {
            return Ok(None);
        };
        let number = number(text).filter(|number| range.contains(number));
        match number {
            Some(number) => Ok(Some(number)),
            None => Err(self.wrong(&format!("{name} {text}: {}", range_text(&range)))),
        }
    }

    /// The one of these words that a flag names, by its number in the list.
    pub fn choice(&self, name: &'static str, choices: &[&str]) -> Result<Option<usize>, Failure> {
        let Some(text) = self.text(name)? else {
            return Ok(None);
        };
        let chosen = choices.iter().position(|choice| *choice == text);
        let choices = choices.join(", ");
        let wrong = || self.wrong(&format!("{name} {text}: it takes one of {choices}"));
        chosen.ok_or_else(wrong).map(Some)
    }

    /// The words that are neither flags nor their values.
    #[must_use]
    pub fn plain(&self) -> Vec<&OsStr> {
        let plain = self.words.iter().filter_map(|word| match word {
            Word::Plain(word) => Some(word.as_os_str()),
            Word::Flag(..) => None,
        });
        plain.collect()
    }

    /// The files that are named, one or more.
    pub fn files(&self) -> Result<Vec<&OsStr>, Failure> {
        let files = self.plain();
        if files.is_empty() {
            return Err(self.wrong("which file? - is standard input"));
        }
        if files.iter().filter(|&&file| file == STANDARD).count() > 1 {
            return Err(self.wrong("- is named twice, and standard input can be read once"));
        }
        Ok(files)
    }

    /// As many words as the command takes.
    pub fn exactly<const N: usize>(&self) -> Result<[&OsStr; N], Failure> {
        let takes = self.command.takes;
        let wrong = |_| self.wrong(&format!("it takes {takes}"));
        self.plain().try_into().map_err(wrong)
    }
}

// A flag, with its value behind '=' or as the next word.
fn flag_word(
    command: &'static Command,
    text: &str,
    rest: &mut impl Iterator<Item = OsString>,
) -> Result<Word, Failure> {
    let (name, joined) = match text.split_once('=') {
        Some((name, value)) => (name, Some(OsString::from(value))),
        None => (text, None),
    };
    let flag = command.flag(name)?;
    let Some(takes) = flag.value else {
        if joined.is_some() {
            return Err(command.wrong(&format!("{name} takes no value")));
        }
        return Ok(Word::Flag(flag, OsString::new()));
    };
    let value = joined.or_else(|| rest.next());
    let missing = || command.wrong(&format!("{name} needs {takes} behind it"));
    Ok(Word::Flag(flag, value.ok_or_else(missing)?))
}

/// A number, decimal or with 0x before it hexadecimal.
#[must_use]
pub fn number(text: &str) -> Option<u64> {
    let (digits, radix) = match text.strip_prefix("0x") {
        Some(digits) => (digits, 16),
        None => (text, 10),
    };
    // a sign is no digit, though it is parsed as one
    let plain = digits.bytes().all(|digit| digit.is_ascii_alphanumeric());
    let value = u64::from_str_radix(digits, radix).ok();
    value.filter(|_| plain)
}

// What a number should be.
fn range_text(range: &RangeInclusive<u64>) -> String {
    match (*range.start(), *range.end()) {
        (0, u64::MAX) => "it takes a number".to_owned(),
        (least, most) => format!("it takes a number from {least} to {most}"),
    }
}

#[cfg(test)]
mod tests {
    use super::*;

    #[test]
    fn numbers_are_decimal_or_hexadecimal() {
        assert_eq!(
            ["0", "65536", "0x0800"].map(number),
            [0, 65536, 2048].map(Some)
        );
        let wrong = ["", "0x", "-1", "+1", "1 ", "FB", "18446744073709551616"];
        assert_eq!(wrong.map(number), [None; 7]);
    }

    #[test]
    fn the_nearest_word_is_found() {
        let all = ["--own", "--only", "--from"];
        let near = |word| nearest(word, all.into_iter());
        assert_eq!(near("--onyl"), Some("--only"));
        assert_eq!(near("--form"), Some("--from"));
        assert_eq!(near("--verbose"), None);
    }
}
