//! `send`: frames from the command line into a capture file.
use crate::failure::Failure;
use crate::io::{Io, Verdict};
use crate::names::parse_tag;
use crate::sink::Sink;
use crate::source::Source;
use crate::symbols::write_symbols;
use crate::who::{address, flow, settings};
use crate::words::{number, valued, Command, Word, Words, OUT};
use fenhamper::{Capture, Flow, Frame, Port, Refusal, Sender, Settings, State, Tag};
use std::ffi::OsStr;

/// The command.
pub const SEND: Command = Command {
    name: "send",
    takes: "client|pause|pfc|idle .. -o FILE",
    does: "frames from the command line into a capture file",
    about: "\
Each of the words client, pause, pfc and idle begins something to send, and the flags behind it are
its own, up to the next such word. Frames go out one after the other with their gaps:

  fenhamper send idle --symbols 12 client --to 02-00-00-00-00-01 --text hello -o hello.capture
  fenhamper send --own 02-00-00-00-00-09 pause --quanta 100 client --to FF-FF-FF-FF-FF-FF \\
      --type 0x0806 --tag s100 --tag c5/3 --hex 0001080006040001 -o two.capture

A pause or PFC frame is sent in its own flow mode unless --flow names another, which refuses it.",
    groups: &[
        (
            "client: a frame with data",
            &[
                valued(TO, "ADDRESS", "its destination; it cannot be left out"),
                valued(
                    TAG,
                    "KIND+VLAN",
                    "a tag, c5 or s100, with priority c5/3; again for more, the outermost first",
                ),
                valued(TYPE, "NUMBER", "its type, 0x0800; without it the field is the data's length"),
                valued(CLASS, "0..7", "its class (0)"),
                valued(TEXT, "TEXT", "its data, as a text"),
                valued(HEX, "DIGITS", "its data, in hexadecimal"),
                valued(DATA, "FILE", "its data, from a file; - is standard input"),
            ],
        ),
        (
            "pause, pfc, idle",
            &[
                valued(
                    QUANTA,
                    "NUMBER",
                    "of pause, for how long; of pfc CLASS=NUMBER, again for each class that is named",
                ),
                valued(SYMBOLS, "NUMBER", "of idle, how many"),
            ],
        ),
        (
            "All of them",
            &[
                valued(TIMES, "NUMBER", "so often, one after the other (1)"),
                valued(OUT, "FILE", "where the capture is written; - is standard output"),
                valued("--own", "ADDRESS", "the source (02-00-00-00-00-01)"),
                valued("--port", "plain|four-lane", "where frames go (plain)"),
                valued("--limit", "OCTETS", "the longest frame, 1518 to 9618 (1518)"),
                valued("--flow", "none|pause|pfc", "the flow mode"),
            ],
        ),
    ],
    run,
};

const TO: &str = "--to";
const TAG: &str = "--tag";
const TYPE: &str = "--type";
const CLASS: &str = "--class";
const TEXT: &str = "--text";
const HEX: &str = "--hex";
const DATA: &str = "--data";
const QUANTA: &str = "--quanta";
const SYMBOLS: &str = "--symbols";
const TIMES: &str = "--times";

/// The most Idles that are written at once.
const IDLES: u64 = 65_000;
/// Room for the longest frame, its tags and its gap.
const ROOM: usize = 10_000;
/// The places that the four-lane port knows apart.
const LANES: u64 = 4;

// What is sent, and the flags that go with it.
#[derive(Clone, Copy)]
enum Kind {
    Client,
    Pause,
    Pfc,
    Idle,
}

const KINDS: [(&str, Kind, &[&str]); 4] = [
    (
        "client",
        Kind::Client,
        &[TO, TAG, TYPE, CLASS, TEXT, HEX, DATA, TIMES],
    ),
    ("pause", Kind::Pause, &[QUANTA, TIMES]),
    ("pfc", Kind::Pfc, &[QUANTA, TIMES]),
    ("idle", Kind::Idle, &[SYMBOLS, TIMES]),
];

/// Flags that may stand anywhere.
const COMMON: [&str; 5] = [OUT, "--own", "--port", "--limit", "--flow"];

enum Item {
    Client(Box<Frame>, Vec<u8>),
    Pause(u16),
    Pfc(u8, [u16; 8]),
    Idle(u64),
}

fn run(words: &Words, io: &mut Io<'_>) -> Result<Verdict, Failure> {
    let mut items = Vec::new();
    for (kind, words) in parts(words)? {
        let times = words.number(TIMES, 0..=u64::MAX)?.unwrap_or(1);
        items.push((item(kind, &words, io)?, times));
    }
    let port = match words.choice("--port", &["plain", "four-lane"])? {
        Some(1) => Port::FourLane,
        _ => Port::Plain,
    };
    let mut writer = Writer {
        words,
        settings: settings(words)?,
        flow: flow(words)?,
        port,
        state: State::default(),
        place: 0,
        sink: Sink::open(words, None, io.output)?,
    };
    for (item, times) in items {
        for _ in 0..times {
            writer.send(&item)?;
        }
    }
    writer.sink.finish()?;
    Ok(Verdict::default())
}

// The flags of each thing to send, behind its word.
fn parts(words: &Words) -> Result<Vec<(Kind, Words)>, Failure> {
    let mut parts: Vec<(Kind, Words)> = Vec::new();
    let mut allowed: &[&str] = &[];
    for word in &words.words {
        match word {
            Word::Plain(name) => {
                let known = KINDS.iter().find(|(known, ..)| *known == name.as_os_str());
                let (_, kind, flags) = known.ok_or_else(|| unknown(words, name))?;
                allowed = flags;
                let command = words.command;
                parts.push((
                    *kind,
                    Words {
                        command,
                        words: Vec::new(),
                    },
                ));
            }
            Word::Flag(flag, _) if COMMON.contains(&flag.name) => {}
            Word::Flag(flag, _) => match parts.last_mut() {
                Some((_, part)) if allowed.contains(&flag.name) => part.words.push(word.clone()),
                _ => return Err(words.wrong(&misplaced(flag.name))),
            },
        }
    }
    if parts.is_empty() {
        return Err(words.wrong("what? client, pause, pfc or idle"));
    }
    Ok(parts)
}

fn unknown(words: &Words, name: &OsStr) -> Failure {
    let name = name.to_string_lossy();
    words.wrong(&format!(
        "{name} cannot be sent; client, pause, pfc and idle can"
    ))
}

// Which words a flag goes behind.
fn misplaced(flag: &str) -> String {
    let with = KINDS.iter().filter(|(.., flags)| flags.contains(&flag));
    let names: Vec<&str> = with.map(|(name, ..)| *name).collect();
    format!("{flag} goes behind the word {}", names.join(" or "))
}

fn item(kind: Kind, words: &Words, io: &mut Io<'_>) -> Result<Item, Failure> {
    Ok(match kind {
        Kind::Client => Item::Client(Box::new(frame(words)?), data(words, io)?),
        Kind::Pause => {
            let quanta = words.number(QUANTA, 0..=0xFFFF)?;
            let missing = || words.wrong("pause needs --quanta NUMBER, 0 to 65535");
            Item::Pause(quanta.ok_or_else(missing)? as u16)
        }
        Kind::Pfc => pfc(words)?,
        Kind::Idle => {
            let symbols = words.number(SYMBOLS, 0..=u64::MAX)?;
            let missing = || words.wrong("idle needs --symbols NUMBER");
            Item::Idle(symbols.ok_or_else(missing)?)
        }
    })
}

// A client frame but for its data.
fn frame(words: &Words) -> Result<Frame, Failure> {
    let to = words.text(TO)?;
    let to = to.ok_or_else(|| words.wrong("client needs --to ADDRESS, its destination"))?;
    let mut frame = Frame::to(address(words, TO, to)?);
    for text in words.texts(TAG)? {
        frame = frame.tag(tag(words, text)?);
    }
    if let Some(field) = words.number(TYPE, 0..=0xFFFF)? {
        frame = frame.by_type(field as u16);
    }
    let class = words.number(CLASS, 0..=7)?.unwrap_or_default();
    Ok(frame.class(class as u8))
}

fn tag(words: &Words, text: &str) -> Result<Tag, Failure> {
    let wrong = || {
        let form = "a tag is c or s and its VLAN, c5, with priority c5/3";
        words.wrong(&format!("{TAG} {text}: {form}"))
    };
    parse_tag(text).ok_or_else(wrong)
}

// The data that one of three flags gives; none is no data.
fn data(words: &Words, io: &mut Io<'_>) -> Result<Vec<u8>, Failure> {
    let (text, hex, file) = (words.text(TEXT)?, words.text(HEX)?, words.value(DATA));
    match (text, hex, file) {
        (None, None, None) => Ok(Vec::new()),
        (Some(text), None, None) => Ok(text.as_bytes().to_vec()),
        (None, Some(text), None) => {
            let wrong = || {
                words.wrong(&format!(
                    "{HEX} {text}: pairs of hexadecimal digits make data"
                ))
            };
            octets(text).ok_or_else(wrong)
        }
        (None, None, Some(name)) => all_of(name, io),
        _ => Err(words.wrong("of --text, --hex and --data one can be given")),
    }
}

// Pairs of digits, with anything between pairs that separates them.
fn octets(text: &str) -> Option<Vec<u8>> {
    let digits: String = text
        .chars()
        .filter(|c| !matches!(c, ' ' | ':' | '-'))
        .collect();
    if !digits.is_ascii() || digits.len() % 2 != 0 {
        return None;
    }
    let pairs = (0..digits.len()).step_by(2).map(|at| &digits[at..at + 2]);
    pairs
        .map(|pair| u8::try_from(number(&format!("0x{pair}"))?).ok())
        .collect()
}

fn all_of(name: &OsStr, io: &mut Io<'_>) -> Result<Vec<u8>, Failure> {
    let mut source = Source::open(name, io.input)?;
    // more than any frame takes, which is refused then
    let mut octets = vec![0; 2 * ROOM];
    let length = source.fill(&mut octets)?;
    octets.truncate(length);
    Ok(octets)
}

// The classes that are named, and for how long.
fn pfc(words: &Words) -> Result<Item, Failure> {
    let (mut named, mut quanta) = (0, [0; 8]);
    for text in words.texts(QUANTA)? {
        let pair = text
            .split_once('=')
            .and_then(|(class, n)| Some((number(class)?, number(n)?)));
        let Some((class @ 0..=7, n @ 0..=0xFFFF)) = pair else {
            let form = "of pfc it is CLASS=NUMBER, 0 to 7 and 0 to 65535";
            return Err(words.wrong(&format!("{QUANTA} {text}: {form}")));
        };
        named |= 1 << class;
        quanta[class as usize] = n as u16;
    }
    Ok(Item::Pfc(named, quanta))
}

// Sends into buffers that are written to the file after each call.
struct Writer<'a> {
    words: &'a Words,
    settings: Settings,
    flow: Option<Flow>,
    port: Port,
    state: State,
    // in the file
    place: u64,
    sink: Sink<'a>,
}

impl Writer<'_> {
    fn send(&mut self, item: &Item) -> Result<(), Failure> {
        match item {
            Item::Client(frame, data) => {
                let settings = self.settings.flow(self.flow.unwrap_or_default());
                self.write(ROOM, |line, state| {
                    line.client(&settings, state, frame, data)
                })
            }
            Item::Pause(quanta) => {
                let settings = self.settings.flow(self.flow.unwrap_or(Flow::Pause));
                self.write(ROOM, |line, state| line.pause(&settings, state, *quanta))
            }
            Item::Pfc(named, quanta) => {
                let settings = self.settings.flow(self.flow.unwrap_or(Flow::Pfc));
                self.write(ROOM, |line, state| {
                    line.pfc(&settings, state, *named, *quanta)
                })
            }
            Item::Idle(symbols) => {
                let mut left = *symbols;
                while left > 0 {
                    let n = left.min(IDLES) as usize;
                    self.write(n + LANES as usize, |line, state| line.idle(state, n))?;
                    left -= n as u64;
                }
                Ok(())
            }
        }
    }

    // One call, in buffers whose places are as many lanes on as the file's.
    fn write(
        &mut self,
        room: usize,
        call: impl FnOnce(&mut Sender<'_>, &mut State) -> Result<usize, Refusal>,
    ) -> Result<(), Failure> {
        let (mut octets, mut marks) = (vec![0; room], vec![0; room]);
        let from = (self.place % LANES) as usize;
        let sender = Sender::new(&mut octets, &mut marks).on(self.port);
        let mut sender = sender.at(from);
        let end = call(&mut sender, &mut self.state).map_err(|refusal| self.refused(refusal))?;
        let line = Capture::new(&octets[from..end], &marks[from..end]);
        self.place += (end - from) as u64;
        write_symbols(&mut self.sink, line)
    }

    // What to do about a refusal.
    fn refused(&self, refusal: Refusal) -> Failure {
        let advice = match refusal {
            Refusal::BadPlace => "; idle before it brings it to a place divisible by four",
            Refusal::OtherFlow => "; leave out --flow",
            Refusal::LongData => "; with --type, and --limit for M up to 9618, it may be longer",
            _ => "",
        };
        self.words.wrong(&format!("{refusal}{advice}"))
    }
}

#[cfg(test)]
mod tests {
    use super::octets;

    #[test]
    fn pairs_of_digits_are_octets() {
        let given = ["", "00fF", "00-01:02 03"].map(octets);
        let expected = [vec![], vec![0, 255], vec![0, 1, 2, 3]];
        assert_eq!(given, expected.map(Some));
        assert_eq!(
            ["0", "0g", "+1", "äö"].map(octets),
            [None, None, None, None]
        );
    }
}
