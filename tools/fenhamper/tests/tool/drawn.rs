//! Drawn captures.
use reference::{fcs, Check};

/// Numbers that look random (`SplitMix64`).
pub struct Random(pub u64);

impl Random {
    fn next(&mut self) -> u64 {
        self.0 = self.0.wrapping_add(0x9E37_79B9_7F4A_7C15);
        let mut x = self.0;
        x = (x ^ (x >> 30)).wrapping_mul(0xBF58_476D_1CE4_E5B9);
        x = (x ^ (x >> 27)).wrapping_mul(0x94D0_49BB_1331_11EB);
        x ^ (x >> 31)
    }

    pub fn octet(&mut self) -> u8 {
        (self.next() >> 56) as u8
    }

    pub fn below(&mut self, n: usize) -> usize {
        (self.next() % n as u64) as usize
    }

    pub fn one<T: Copy>(&mut self, of: &[T]) -> T {
        of[self.below(of.len())]
    }
}

pub const IDLE: u8 = 0x07;
pub const START: u8 = 0xFB;
pub const TERMINATE: u8 = 0xFD;
pub const ERROR: u8 = 0xFE;
pub const PREAMBLE: [u8; 7] = [0x55, 0x55, 0x55, 0x55, 0x55, 0x55, 0xD5];

pub const OWN: [u8; 6] = [0x02, 0, 0, 0, 0, 1];
const PEER: [u8; 6] = [0x02, 0, 0, 0, 0, 9];
const RESERVED: [u8; 6] = [0x01, 0x80, 0xC2, 0, 0, 1];
const OTHER: [u8; 6] = [0x02, 0, 0, 0, 0, 2];

/// A capture file: records of mark, then octet.
#[derive(Default)]
pub struct Line(pub Vec<u8>);

impl Line {
    pub fn control(&mut self, octet: u8) -> &mut Line {
        self.0.extend([1, octet]);
        self
    }

    pub fn idle(&mut self, n: usize) -> &mut Line {
        self.0.extend([1, IDLE].repeat(n));
        self
    }

    pub fn data(&mut self, octets: &[u8]) -> &mut Line {
        self.0.extend(octets.iter().flat_map(|&octet| [0, octet]));
        self
    }

    /// Start, preamble, frame with its FCS, and Terminate.
    pub fn frame(&mut self, covered: &[u8]) -> &mut Line {
        let check = fcs(Check::Bitwise, covered).to_le_bytes();
        self.control(START)
            .data(&PREAMBLE)
            .data(covered)
            .data(&check);
        self.control(TERMINATE)
    }

    pub fn symbols(&self) -> usize {
        self.0.len() / 2
    }
}

/// A frame to the own address with so many octets of data, but for its FCS.
pub fn good(data: usize) -> Vec<u8> {
    let mut covered = [&OWN[..], &PEER, &[0x08, 0x00]].concat();
    covered.resize(14 + data, 0x5A);
    covered
}

// What the FCS covers, near some rule's edge.
fn covered(random: &mut Random) -> Vec<u8> {
    let to = random.one(&[OWN, OWN, OWN, [0xFF; 6], RESERVED, OTHER]);
    let mut covered = [to, PEER].concat();
    for _ in 0..random.one(&[0, 0, 0, 0, 0, 1, 1, 2, 3, 8, 9]) {
        let kind: u16 = random.one(&[0x8100, 0x88A8]);
        covered.extend(kind.to_be_bytes());
        covered.extend([random.octet(), random.octet()]);
    }
    let data = random.one(&[38, 42, 45, 46, 46, 46, 47, 100, 600, 1500, 1501]);
    let fields = [
        0x0800, 0x8808, data, 0, 10, 45, 46, 1500, 1501, 1535, 1536, 0x8100,
    ];
    let field = random.one(&fields) as u16;
    covered.extend(field.to_be_bytes());
    covered.extend(random.one(&[[0, 1], [1, 1], [0x12, 0x34]]));
    covered.extend((2..data).map(|_| random.octet()));
    covered
}

// A run and what ends it, sound or not.
fn run(random: &mut Random, line: &mut Line) {
    let mark = random.one(&[1, 1, 1, 2, 0x80, 0xFF]);
    let covered = covered(random);
    let mut run = PREAMBLE.to_vec();
    run.extend(&covered);
    run.extend(fcs(Check::Bitwise, &covered).to_le_bytes());
    match random.below(20) {
        0 => run[3] ^= 1,
        1 => run[6] ^= 4,
        2 | 3 => {
            let at = random.below(run.len());
            run[at] ^= 0x10;
        }
        4 => run.truncate(random.below(80)),
        _ => {}
    }
    line.0.extend([mark, START]);
    line.data(&run);
    let end = random.one(&[
        TERMINATE, TERMINATE, TERMINATE, TERMINATE, TERMINATE, TERMINATE, ERROR, START, IDLE, 0x9C,
    ]);
    line.0.extend([mark, end]);
    line.idle(random.below(14));
}

/// Frames with damage in and between them, of about so many symbols.
pub fn traffic(random: &mut Random, symbols: usize) -> Vec<u8> {
    let mut line = Line::default();
    while line.symbols() < symbols {
        if random.below(4) > 0 {
            run(random, &mut line);
        } else {
            let octet = random.one(&[START, IDLE, TERMINATE, 0x55, 0xD5]);
            line.0.extend([random.one(&[0, 0, 1, 1, 7]), octet]);
        }
    }
    line.0
}

/// Symbols in which every step of a reader is as likely as not.
pub fn noise(random: &mut Random, symbols: usize) -> Vec<u8> {
    let mut symbol = || {
        let octet = random.one(&[START, TERMINATE, IDLE, ERROR, 0x55, 0xD5, 0x00]);
        [random.one(&[0, 0, 0, 1, 255]), octet]
    };
    (0..symbols).flat_map(|_| symbol()).collect()
}
