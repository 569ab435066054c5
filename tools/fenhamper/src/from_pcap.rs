//! `from-pcap`: packets as a capture.
use crate::failure::Failure;
use crate::io::{Io, Verdict};
use crate::packets::{Packet, Packets};
use crate::pcapng::flag;
use crate::progress::Progress;
use crate::sink::Sink;
use crate::source::Source;
use crate::symbols::Run;
use crate::words::{valued, Command, Words, OUT};
use fenhamper::{fcs, limits};

/// The command.
pub const FROM_PCAP: Command = Command {
    name: "from-pcap",
    takes: "IN -o FILE",
    does: "pcap or pcapng to a capture: preamble, padding, FCS if missing, gap",
    about: "\
IN is a file of packets; - is standard input. Each packet becomes a frame on the line, back to back
with gaps of 12 symbols; times play no part. A packet with its FCS stands there as it is. One that
has none is filled up with zeros to 60 octets and gets it. Which it is, the file says (if_fcslen, or
the packet's flags); where it does not, the last four octets are looked at: if they are the FCS of
those before, they are taken for it.

Errors that a packet's flags tell of are kept: with a symbol error the frame ends with Error in
place of Terminate, with a preamble error it has a wrong preamble; what is too short is not filled
up, and with a CRC error an FCS that is missing is made wrong. A packet that was not kept whole
becomes a frame that is cut where it breaks off.",
    groups: &[(
        "The file",
        &[
            valued(
                OUT,
                "FILE",
                "where the capture is written; - is standard output",
            ),
            valued(
                "--fcs",
                "auto|there|missing",
                "whether packets end with their FCS (auto: as the file says)",
            ),
        ],
    )],
    run,
};

/// Octets of the FCS.
const FCS: usize = 4;
/// The shortest frame without it.
const LEAST: usize = limits::LEAST_FRAME - FCS;

// Whether packets have their FCS.
#[derive(Clone, Copy)]
enum Fcs {
    Auto,
    There,
    Missing,
}

fn run(words: &Words, io: &mut Io<'_>) -> Result<Verdict, Failure> {
    let [file] = words.exactly()?;
    let fcs = match words.choice("--fcs", &["auto", "there", "missing"])? {
        Some(1) => Fcs::There,
        Some(2) => Fcs::Missing,
        _ => Fcs::Auto,
    };
    let mut packets = Packets::new(Source::open(file, io.input)?)?;
    let mut sink = Sink::open(words, Some(file), io.output)?;
    let mut progress = Progress::new(io.errors, io.terminal);
    while let Some(packet) = packets.next_packet()? {
        sink.write(&on_line(&packet, fcs))?;
        packets.tell(&mut progress);
    }
    sink.finish()?;
    Ok(Verdict::default())
}

// The records of a packet.
fn on_line(packet: &Packet, fcs: Fcs) -> Vec<u8> {
    let has = |error| packet.flags & error != 0;
    let short = (packet.octets.len() as u64) < packet.length;
    let run = |octets: &[u8]| {
        let run = Run {
            octets,
            preamble: !has(flag::PREAMBLE | flag::DELIMITER),
            whole: !has(flag::SYMBOL) && !short,
        };
        run.records()
    };
    let as_it_is = has(flag::SYMBOL | flag::PREAMBLE | flag::DELIMITER) || short;
    if as_it_is || has_fcs(packet, fcs) {
        return run(&packet.octets);
    }
    run(&with_fcs(packet))
}

fn has_fcs(packet: &Packet, said: Fcs) -> bool {
    match (said, packet.fcs) {
        (Fcs::There, _) => true,
        (Fcs::Missing, _) => false,
        (Fcs::Auto, Some(said)) => said,
        (Fcs::Auto, None) => ends_with_fcs(&packet.octets),
    }
}

fn ends_with_fcs(octets: &[u8]) -> bool {
    let split = octets.split_last_chunk::<FCS>();
    split.is_some_and(|(covered, stands)| {
        octets.len() >= limits::LEAST_FRAME && fcs(covered).to_le_bytes() == *stands
    })
}

// Filled up, and with the FCS, which is wrong if the flags say so.
fn with_fcs(packet: &Packet) -> Vec<u8> {
    let mut octets = packet.octets.clone();
    if packet.flags & flag::TOO_SHORT == 0 && octets.len() < LEAST {
        octets.resize(LEAST, 0);
    }
    let right = fcs(&octets);
    let wrong = packet.flags & flag::CRC != 0;
    octets.extend(if wrong { !right } else { right }.to_le_bytes());
    octets
}
