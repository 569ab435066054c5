//! For Wireshark and back.
use crate::blocks::{blocks, packets, told, Packet};
use crate::common::{expect, sample, tool, tool_on, Folder, SAMPLES};
use crate::drawn::{good, noise, traffic, Random};
use crate::json::Json;
use fenhamper::fcs;
use std::io::Cursor;

fn exported(words: &[&str], capture: &[u8]) -> Vec<u8> {
    let words = [&["pcap", "-", "-o", "-"], words].concat();
    tool_on(&words, &mut Cursor::new(capture)).good().out
}

fn imported(words: &[&str], file: &[u8]) -> Vec<u8> {
    let words = [&["from-pcap", "-", "-o", "-"], words].concat();
    tool_on(&words, &mut Cursor::new(file)).good().out
}

fn readings(capture: &[u8]) -> Vec<Json> {
    let said = tool_on(&["list", "--json", "-"], &mut Cursor::new(capture)).good();
    let document = Json::parse(said.text()).unwrap();
    document.get("files").list()[0]
        .get("readings")
        .list()
        .to_vec()
}

#[test]
fn samples_are_exported() {
    let mut text = String::new();
    for name in SAMPLES {
        let file = tool(&["pcap", &sample(name), "-o", "-"]).good().out;
        text += &format!("{name}\n{}\n", told(&file));
    }
    text.pop();
    expect("pcap.blocks", text.as_bytes());
}

// Octets, flags, time and comment of each packet are those of its Start.
#[test]
fn packets_are_the_readings() {
    let mut random = Random(8);
    for symbol in [("1G", 80), ("10G", 8), ("40G", 2)] {
        let capture = traffic(&mut random, 20_000);
        let packets = packets(&exported(&["--rate", symbol.0], &capture));
        let readings = readings(&capture);
        assert_eq!(packets.len(), readings.len());
        for (packet, reading) in packets.iter().zip(&readings) {
            same(packet, reading, &capture, symbol.1);
        }
    }
}

fn same(packet: &Packet, reading: &Json, capture: &[u8], symbol: u64) {
    let [start, next, outcome] = ["place", "next", "outcome"].map(|n| reading.get(n).number());
    assert_eq!(packet.time, start * symbol);
    let frame = (start as usize + 8).min(next as usize)..next as usize;
    let octets: Vec<u8> = frame.map(|at| capture[2 * at + 1]).collect();
    assert!(packet.octets == octets);
    assert_eq!(u64::from(packet.length), reading.get("frame").number());
    let why = reading.get("why").text();
    assert_eq!(packet.comment, format!("Start at {start}: {why}"));
    assert_eq!(packet.interface, u32::from(outcome == 1));
    // symbol, preamble, too short, too long, CRC
    let error = [
        0,
        1 << 31,
        1 << 30,
        1 << 26,
        1 << 25,
        1 << 24,
        0,
        0,
        0,
        0,
        0,
        0,
    ][outcome as usize];
    let delimiter = 1 << 29;
    assert_eq!(packet.flags & 0xFF00_0000 & !delimiter, error);
    let ends_preamble = why == format!("bad preamble: first wrong place {}", start + 7);
    assert_eq!(packet.flags & delimiter != 0, ends_preamble);
    if outcome > 2 {
        let to = match &packet.octets[..6] {
            [0xFF, 0xFF, 0xFF, 0xFF, 0xFF, 0xFF] => 3,
            [first, ..] if first & 1 == 1 => 2,
            _ => 1,
        };
        assert_eq!(packet.flags & 0x1FF, 1 | to << 2 | 4 << 5);
    }
}

// What is exported and taken back has the same outcomes, frames, tags and data, in the same order.
#[test]
fn round_trips() {
    let mut random = Random(9);
    let mut captures: Vec<Vec<u8>> = SAMPLES
        .iter()
        .map(|name| crate::common::kept(&sample(name)))
        .collect();
    captures.extend((0..20).map(|_| traffic(&mut random, 5000)));
    captures.extend((0..5).map(|_| noise(&mut random, 2000)));
    for capture in captures {
        let there = exported(&[], &capture);
        let back = imported(&[], &there);
        let (before, after) = (readings(&capture), readings(&back));
        assert_eq!(before.len(), after.len());
        for (a, b) in before.iter().zip(&after) {
            for name in [
                "outcome",
                "status",
                "source",
                "destination",
                "tags",
                "field",
                "frame",
                "way",
            ] {
                assert_eq!(a.get(name), b.get(name), "{name}");
            }
        }
        // and once more nothing changes
        let again = imported(&[], &exported(&[], &back));
        assert!(again == back);
    }
}

// ---- Files of others

// A pcap file of one packet, in either order.
fn pcap(magic: u32, link: u32, octets: &[u8], length: u32, high_first: bool) -> Vec<u8> {
    let number = |n: u32| {
        if high_first {
            n.to_be_bytes()
        } else {
            n.to_le_bytes()
        }
    };
    let version = if high_first {
        [0, 2, 0, 4]
    } else {
        [2, 0, 4, 0]
    };
    let mut file = number(magic).to_vec();
    file.extend(version);
    for n in [0, 0, 262_144, link, 7, 8, octets.len() as u32, length] {
        file.extend(number(n));
    }
    file.extend(octets);
    file
}

fn short_frame() -> Vec<u8> {
    good(10)
}

// Padded to 60 octets, with its FCS, as one frame with its gap.
fn on_line(mut octets: Vec<u8>) -> Vec<u8> {
    octets.resize(60, 0);
    octets.extend(fcs(&octets).to_le_bytes());
    let mut line = crate::drawn::Line::default();
    line.control(0xFB)
        .data(&crate::drawn::PREAMBLE)
        .data(&octets);
    line.control(0xFD).idle(11);
    line.0
}

#[test]
fn pcap_in_both_orders_and_resolutions() {
    let octets = short_frame();
    for magic in [0xA1B2_C3D4, 0xA1B2_3C4D] {
        for high_first in [false, true] {
            let file = pcap(magic, 1, &octets, octets.len() as u32, high_first);
            assert!(imported(&[], &file) == on_line(octets.clone()));
        }
    }
}

#[test]
fn an_fcs_is_kept_where_there_is_one() {
    let mut octets = good(46);
    octets.extend(fcs(&octets).to_le_bytes());
    let whole = on_line(good(46));
    let file = |link, octets: &[u8]| pcap(0xA1B2_C3D4, link, octets, octets.len() as u32, false);
    // by its looks, and by what the header says
    assert!(imported(&[], &file(1, &octets)) == whole);
    let said = 1 << 26 | 2 << 28 | 1;
    assert!(imported(&[], &file(said, &octets)) == whole);
    // a wrong one stays wrong where the header says that it is one, or we do
    octets[63] ^= 1;
    let outcome = |capture: &[u8]| readings(capture)[0].get("outcome").number();
    assert_eq!(outcome(&imported(&[], &file(said, &octets))), 5);
    assert_eq!(
        outcome(&imported(&["--fcs", "there"], &file(1, &octets))),
        5
    );
    // else it is data, behind which the FCS is missing
    let taken = imported(&[], &file(1, &octets));
    assert_eq!(
        (outcome(&taken), readings(&taken)[0].get("frame").number()),
        (11, 68)
    );
    assert_eq!(imported(&["--fcs", "missing"], &file(said, &octets)), taken);
}

#[test]
fn a_packet_not_kept_whole_is_cut() {
    let octets = good(100);
    let file = pcap(0xA1B2_C3D4, 1, &octets[..50], 114, false);
    let readings = readings(&imported(&[], &file));
    assert_eq!(readings[0].get("why").text(), "cut at 58 by 0xFE (Error)");
}

// A pcapng file of these blocks, in either order.
fn pcapng(high_first: bool, all: &[(u32, Vec<u8>)]) -> Vec<u8> {
    let number = |n: u32| {
        if high_first {
            n.to_be_bytes()
        } else {
            n.to_le_bytes()
        }
    };
    let mut section = number(0x1A2B_3C4D).to_vec();
    section.extend(if high_first {
        [0, 1, 0, 0]
    } else {
        [1, 0, 0, 0]
    });
    section.extend([0xFF; 8]);
    let mut file = Vec::new();
    for (kind, body) in [(0x0A0D_0D0A, section)].iter().chain(all) {
        let mut body = body.clone();
        body.resize(body.len().next_multiple_of(4), 0);
        let length = number(body.len() as u32 + 12);
        file.extend(number(*kind));
        file.extend(length);
        file.extend(body);
        file.extend(length);
    }
    file
}

#[test]
fn pcapng_of_other_blocks_and_orders() {
    let octets = short_frame();
    let n = octets.len() as u32;
    for high_first in [false, true] {
        let two = |n: u16| {
            if high_first {
                n.to_be_bytes()
            } else {
                n.to_le_bytes()
            }
        };
        let four = |n: u32| {
            if high_first {
                n.to_be_bytes()
            } else {
                n.to_le_bytes()
            }
        };
        let interface = [&two(1)[..], &[0; 2], &four(0)].concat();
        let numbers = |all: &[u32]| all.iter().flat_map(|&n| four(n)).collect::<Vec<u8>>();
        // interface 0, time, lengths
        let enhanced = [numbers(&[0, 0, 1, n, n]), octets.clone()].concat();
        // interface and drops of two octets each, time, lengths
        let obsolete = [numbers(&[0, 0, 1, n, n]), octets.clone()].concat();
        let simple = [numbers(&[n]), octets.clone()].concat();
        let statistics = (5, vec![0; 12]);
        let file = pcapng(
            high_first,
            &[
                (1, interface),
                statistics,
                (6, enhanced),
                (2, obsolete),
                (3, simple),
            ],
        );
        assert!(imported(&[], &file) == on_line(octets.clone()).repeat(3));
        // a second section begins with no interface
        let twice = [file.clone(), file].concat();
        assert!(imported(&[], &twice) == on_line(octets.clone()).repeat(6));
    }
}

#[test]
fn flags_of_others_are_kept() {
    let octets = good(46);
    let n = octets.len() as u32;
    let outcome = |flags: u32, octets: &[u8]| {
        let interface = vec![1, 0, 0, 0, 0, 0, 0, 0];
        let mut packet: Vec<u8> = [0, 0, 1, n, n]
            .iter()
            .flat_map(|n: &u32| n.to_le_bytes())
            .collect();
        packet.extend(octets);
        packet.resize(20 + octets.len().next_multiple_of(4), 0);
        packet.extend([2, 0, 4, 0]);
        packet.extend(flags.to_le_bytes());
        packet.extend([0; 4]);
        let file = pcapng(false, &[(1, interface), (6, packet)]);
        readings(&imported(&[], &file))[0].get("outcome").number()
    };
    assert_eq!(outcome(0, &octets), 11);
    assert_eq!(outcome(1 << 31, &octets), 1);
    assert_eq!(outcome(1 << 30, &octets), 2);
    assert_eq!(outcome(1 << 29, &octets), 2);
    assert_eq!(outcome(1 << 24, &octets), 5);
    let short = good(46 - 4);
    assert_eq!(short.len(), 56);
    let n = short.len() as u32;
    let interface = vec![1, 0, 0, 0, 0, 0, 0, 0];
    let mut packet: Vec<u8> = [0, 0, 1, n, n]
        .iter()
        .flat_map(|n| n.to_le_bytes())
        .collect();
    packet.extend(&short);
    packet.extend([2, 0, 4, 0, 0, 0, 0, 4, 0, 0, 0, 0]);
    let file = pcapng(false, &[(1, interface), (6, packet)]);
    assert_eq!(
        readings(&imported(&[], &file))[0].get("outcome").number(),
        3
    );
}

#[test]
fn what_is_no_packet_file_is_told() {
    let folder = Folder::new();
    let octets = short_frame();
    let n = octets.len() as u32;
    let sound = pcap(0xA1B2_C3D4, 1, &octets, n, false);
    let interface = vec![1, 0, 0, 0, 0, 0, 0, 0];
    let packet: Vec<u8> = [3, 0, 1, 0, 0]
        .iter()
        .flat_map(|n: &u32| n.to_le_bytes())
        .collect();
    let cases: [(&str, Vec<u8>, &str); 12] = [
        ("empty", vec![], "is empty: neither pcap nor pcapng"),
        (
            "capture",
            crate::common::kept("samples/first.capture"),
            "is neither pcap nor pcapng",
        ),
        (
            "gzip",
            vec![0x1F, 0x8B, 8, 0, 0, 0],
            "looks like gzip: unpack it first",
        ),
        ("text", b"0 1 2 3 4 5 6 7 8 9\n".to_vec(), "looks like text"),
        (
            "cut header",
            sound[..20].to_vec(),
            "is cut short: it ends inside a packet, at octet 20",
        ),
        (
            "cut packet",
            sound[..sound.len() - 1].to_vec(),
            "is cut short",
        ),
        (
            "cooked",
            pcap(0xA1B2_C3D4, 113, &octets, n, false),
            "link type 113 (Linux cooked)",
        ),
        (
            "long",
            [&sound[..32], &[0xFF; 8], &sound[40..]].concat(),
            "is damaged: a length of 4294967295",
        ),
        (
            "no interface",
            pcapng(false, &[(1, interface.clone()), (6, packet)]),
            "of interface 3",
        ),
        (
            "short interface",
            pcapng(false, &[(1, vec![1, 0])]),
            "an interface is too short",
        ),
        (
            "short packet",
            pcapng(false, &[(1, interface), (6, vec![0; 8])]),
            "a packet is too short",
        ),
        (
            "no order",
            [vec![0x0A, 0x0D, 0x0D, 0x0A, 28, 0, 0, 0], vec![0; 20]].concat(),
            "its section has no order",
        ),
    ];
    for (name, octets, what) in cases {
        let file = folder.with(name, &octets);
        let out = folder.name("out.capture");
        tool(&["from-pcap", &file, "-o", &out]).bad(what);
        assert!(
            !folder.files().contains(&"out.capture".to_owned()),
            "{name}"
        );
    }
    assert_eq!(blocks(&exported(&[], &[])).len(), 3);
}
