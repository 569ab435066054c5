//! `pcap`: a capture for Wireshark.
use crate::failure::Failure;
use crate::found::{each_found, Found};
use crate::io::{Io, Verdict};
use crate::pcapng::{flag, section, Interface, Packet};
use crate::progress::Progress;
use crate::sink::Sink;
use crate::who::{reading, thrown_away, Who, FILES, STATION};
use crate::words::{valued, Command, Words, OUT};
use fenhamper::{Address, FrameView, Outcome, Reason, State};

/// The command.
pub const PCAP: Command = Command {
    name: "pcap",
    takes: "FILE -o OUT.pcapng",
    does: "for Wireshark: each frame with its FCS, error flags, reason and time",
    about: "\
Each counted Start is a packet: what its run has behind the preamble, FCS included, which is told to
Wireshark (if_fcslen). A frame that was cut has no FCS and stands on an interface of its own that
says so. Flags tell of errors: symbol error for cut, preamble error for bad preamble (and start
delimiter error, where that octet is the first wrong one), too short, too long, and CRC error for
wrong FCS. A comment has place, outcome and reason. A packet's time is its Start's place at the rate
of the line, from 0 on and exact: times are counted in tenths of nanoseconds. An open Start is no
packet.",
    groups: &[
        (
            "The file",
            &[
                valued(
                    OUT,
                    "OUT.pcapng",
                    "where it is written; - is standard output",
                ),
                valued(
                    "--rate",
                    "1G|10G|40G",
                    "the line's rate in bits per second (1G)",
                ),
                valued("--from", "PLACE", "reads from this place on"),
            ],
        ),
        FILES,
        STATION,
    ],
    run,
};

/// Rates by their words: bits per second, and tenths of nanoseconds for a symbol of eight bits.
const RATES: [(&str, u64, u64); 3] = [
    ("1G", 1_000_000_000, 80),
    ("10G", 10_000_000_000, 8),
    ("40G", 40_000_000_000, 2),
];
/// Tenths of nanoseconds.
const RESOLUTION: u8 = 10;

const WHOLE: u32 = 0;
const CUT: u32 = 1;

fn run(words: &Words, io: &mut Io<'_>) -> Result<Verdict, Failure> {
    let [file] = words.exactly()?;
    let rate = words.choice("--rate", &RATES.map(|(word, ..)| word))?;
    let (_, speed, symbol) = RATES[rate.unwrap_or_default()];
    let (who, reading) = (Who::of(words)?, reading(words)?);
    let progress = Progress::new(io.errors, io.terminal);
    let mut stretches = reading.open(file, io.input, progress)?;
    let mut export = Export {
        sink: Sink::open(words, Some(file), io.output)?,
        speed,
        symbol,
    };
    let mut state = State::default();
    export.begin()?;
    let take = |found: &Found<'_>| export.packet(found);
    each_found(&mut stretches, who.listener(), &mut state, take)?;
    export.sink.finish()?;
    Ok(Verdict {
        thrown_away: thrown_away(words, &state.counters()),
        failed: false,
    })
}

struct Export<'a> {
    sink: Sink<'a>,
    speed: u64,
    symbol: u64,
}

impl Export<'_> {
    // The section, and an interface for whole frames and one for those without FCS.
    fn begin(&mut self) -> Result<(), Failure> {
        self.sink
            .write(&section(concat!("fenhamper ", env!("CARGO_PKG_VERSION"))))?;
        for (name, fcs_length) in [("line", 4), ("line, cut frames", 0)] {
            let interface = Interface {
                name,
                speed: self.speed,
                resolution: RESOLUTION,
                fcs_length,
            };
            self.sink.write(&interface.block())?;
        }
        Ok(())
    }

    fn packet(&mut self, found: &Found<'_>) -> Result<(), Failure> {
        let (frame, reason) = (found.frame(), found.reason());
        let cut = found.outcome() == Outcome::Cut;
        let packet = Packet {
            interface: if cut { CUT } else { WHOLE },
            time: found.start() * self.symbol,
            octets: frame.octets(),
            length: found.frame_length(),
            flags: flags(found, &frame, reason),
            comment: &format!("Start at {}: {reason}", found.start()),
        };
        self.sink.write(&packet.block())
    }
}

// Received, to whom, with how much FCS, and the errors.
fn flags(found: &Found<'_>, frame: &FrameView<'_>, reason: Reason) -> u32 {
    let to = match frame.destination() {
        Some(Address::BROADCAST) => flag::BROADCAST,
        Some(address) if address.is_group() => flag::MULTICAST,
        Some(_) => flag::UNICAST,
        None => 0,
    };
    let fcs = if frame.fcs().is_some() {
        4 << flag::FCS_SHIFT
    } else {
        0
    };
    let error = match reason {
        Reason::CutAt { .. } => flag::SYMBOL,
        Reason::WrongOctet { place } if place as u64 == found.start() + 7 => {
            flag::PREAMBLE | flag::DELIMITER
        }
        Reason::ShortRun { .. } | Reason::WrongOctet { .. } => flag::PREAMBLE,
        Reason::TooShort { .. } => flag::TOO_SHORT,
        Reason::TooLong { .. } => flag::TOO_LONG,
        Reason::FcsDiffers { .. } => flag::CRC,
        _ => 0,
    };
    flag::INBOUND | to | fcs | error
}
