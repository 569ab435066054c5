//! A small reader of pcapng, of low octet first, which takes nothing that is not in order.
use std::fmt::Write;

/// A block: its type, what stands in it, and its options.
pub struct Block {
    pub kind: u32,
    pub body: Vec<u8>,
    pub options: Vec<(u16, Vec<u8>)>,
}

fn u16_at(octets: &[u8], at: usize) -> u16 {
    u16::from_le_bytes(octets[at..at + 2].try_into().unwrap())
}

pub fn u32_at(octets: &[u8], at: usize) -> u32 {
    u32::from_le_bytes(octets[at..at + 4].try_into().unwrap())
}

// Of a section 16 octets stand before the options, of an interface 8, of a packet 20 and its octets.
fn body_length(kind: u32, inner: &[u8]) -> usize {
    match kind {
        0x0A0D_0D0A => 16,
        1 => 8,
        6 => 20 + (u32_at(inner, 12) as usize).next_multiple_of(4),
        other => panic!("a block of type {other}"),
    }
}

// Options up to their end, behind which nothing stands.
fn options(mut octets: &[u8]) -> Vec<(u16, Vec<u8>)> {
    let mut options = Vec::new();
    loop {
        let (code, length) = (u16_at(octets, 0), usize::from(u16_at(octets, 2)));
        if code == 0 {
            assert_eq!((length, octets.len()), (0, 4));
            return options;
        }
        let padded = length.next_multiple_of(4);
        assert!(octets[4 + length..4 + padded]
            .iter()
            .all(|&octet| octet == 0));
        options.push((code, octets[4..4 + length].to_vec()));
        octets = &octets[4 + padded..];
    }
}

/// The blocks of a file.
pub fn blocks(mut octets: &[u8]) -> Vec<Block> {
    let mut blocks = Vec::new();
    while !octets.is_empty() {
        let (kind, length) = (u32_at(octets, 0), u32_at(octets, 4) as usize);
        assert!(length % 4 == 0 && length >= 12);
        assert_eq!(u32_at(octets, length - 4) as usize, length);
        let inner = &octets[8..length - 4];
        let body = body_length(kind, inner);
        blocks.push(Block {
            kind,
            body: inner[..body].to_vec(),
            options: options(&inner[body..]),
        });
        octets = &octets[length..];
    }
    let first = &blocks[0];
    assert_eq!(
        (first.kind, u32_at(&first.body, 0)),
        (0x0A0D_0D0A, 0x1A2B_3C4D)
    );
    assert_eq!((u16_at(&first.body, 4), u16_at(&first.body, 6)), (1, 0));
    blocks
}

/// A packet of such a file.
pub struct Packet {
    pub interface: u32,
    pub time: u64,
    pub length: u32,
    pub octets: Vec<u8>,
    pub flags: u32,
    pub comment: String,
}

impl Block {
    pub fn option(&self, code: u16) -> &[u8] {
        let mut of_code = self.options.iter().filter(|(known, _)| *known == code);
        let option = of_code.next().unwrap_or_else(|| panic!("no option {code}"));
        assert!(of_code.next().is_none(), "option {code} again");
        &option.1
    }

    pub fn packet(&self) -> Packet {
        let number = |n: usize| u32_at(&self.body, 4 * n);
        Packet {
            interface: number(0),
            time: u64::from(number(1)) << 32 | u64::from(number(2)),
            length: number(4),
            octets: self.body[20..20 + number(3) as usize].to_vec(),
            flags: u32_at(self.option(2), 0),
            comment: String::from_utf8(self.option(1).to_vec()).unwrap(),
        }
    }
}

/// The packets of a file.
pub fn packets(octets: &[u8]) -> Vec<Packet> {
    let blocks = blocks(octets);
    let packets = blocks.iter().filter(|block| block.kind == 6);
    packets.map(Block::packet).collect()
}

/// A file in words, a line for each block.
pub fn told(octets: &[u8]) -> String {
    let mut text = String::new();
    for block in blocks(octets) {
        let _ = match block.kind {
            0x0A0D_0D0A => {
                let application = String::from_utf8_lossy(block.option(4)).into_owned();
                let name = application.split(' ').next().unwrap_or_default();
                writeln!(text, "section of {name}")
            }
            1 => {
                let name = String::from_utf8_lossy(block.option(2)).into_owned();
                let speed = u64::from_le_bytes(block.option(8).try_into().unwrap());
                let (link, resolution, fcs) =
                    (u16_at(&block.body, 0), block.option(9), block.option(13));
                writeln!(
                    text,
                    "interface {name:?}, link {link}, speed {speed}, resolution {resolution:?}, FCS {fcs:?}"
                )
            }
            _ => {
                let p = block.packet();
                let (interface, time, flags, comment) = (p.interface, p.time, p.flags, p.comment);
                let (kept, length) = (p.octets.len(), p.length);
                writeln!(
                    text,
                    "packet on {interface} at {time}, {kept} of {length} octets, flags {flags:08X}: {comment}"
                )
            }
        };
    }
    text
}
