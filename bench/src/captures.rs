//! The captures that are read, and the frames that are sent. All are made from a fixed seed: every
//! run measures the same symbols.
use reference::{send_client, Check, Client, Form, Port, Sent, State};

use crate::rivals::{reference_settings, OWN};

/// The most symbols that a capture has.
pub const SYMBOLS: usize = 65_536;

/// Start, preamble, Terminate and gap: the symbols of a frame beside its octets.
const AROUND: usize = 20;
/// Addresses, field and FCS: the octets of an untagged frame beside its data.
const BESIDE_DATA: usize = 18;

const IDLE: u8 = 0x07;
const START: u8 = 0xFB;
const TERMINATE: u8 = 0xFD;
const ERROR: u8 = 0xFE;

/// Octets and marks.
pub struct Line {
    pub octets: Vec<u8>,
    pub marks: Vec<u8>,
}

impl Line {
    // Symbol by symbol, each an octet and a mark.
    fn of(size: usize, mut symbol: impl FnMut(usize) -> (u8, u8)) -> Line {
        let (octets, marks) = (0..size).map(&mut symbol).unzip();
        Line { octets, marks }
    }

    /// As many symbols as a capture has at most: Idles behind what there is.
    pub fn filled(mut self) -> Line {
        self.octets.resize(SYMBOLS, IDLE);
        self.marks.resize(SYMBOLS, 1);
        self
    }

    // One pattern, over and over.
    fn repeat(size: usize, pattern: &[(u8, u8)]) -> Line {
        Line::of(size, |place| pattern[place % pattern.len()])
    }
}

/// Numbers that look random (SplitMix64).
pub struct Random(u64);

impl Random {
    #[cfg(test)]
    pub fn new(seed: u64) -> Random {
        Random(seed)
    }

    fn next(&mut self) -> u64 {
        self.0 = self.0.wrapping_add(0x9E37_79B9_7F4A_7C15);
        let mut x = self.0;
        x = (x ^ (x >> 30)).wrapping_mul(0xBF58_476D_1CE4_E5B9);
        x = (x ^ (x >> 27)).wrapping_mul(0x94D0_49BB_1331_11EB);
        x ^ (x >> 31)
    }

    pub fn octet(&mut self) -> u8 {
        (self.next() >> 56) as u8
    }

    pub fn below(&mut self, n: usize) -> usize {
        (self.next() % n as u64) as usize
    }
}

/// How a kind of capture is made.
#[derive(Clone, Copy)]
enum Make {
    /// Good frames back to back: sizes from destination to FCS, dealt from a shuffled deck.
    Frames(&'static [usize]),
    /// Symbols that are no good traffic.
    Hostile(fn(&mut Random, usize) -> Line),
}

/// A kind of capture.
#[derive(Clone, Copy)]
pub struct Kind {
    pub name: &'static str,
    /// The limit M that it is read with.
    pub limit: u16,
    make: Make,
}

const fn frames(name: &'static str, limit: u16, deck: &'static [usize]) -> Kind {
    Kind {
        name,
        limit,
        make: Make::Frames(deck),
    }
}

const fn hostile(name: &'static str, make: fn(&mut Random, usize) -> Line) -> Kind {
    Kind {
        name,
        limit: 1518,
        make: Make::Hostile(make),
    }
}

/// Good traffic.
pub const FRAMES: [Kind; 4] = [
    frames("64", 1518, &[64]),
    frames(
        "mix",
        1518,
        &[64, 64, 64, 64, 64, 64, 64, 576, 576, 576, 576, 1518],
    ),
    frames("1518", 1518, &[1518]),
    frames("9018", 9618, &[9018]),
];

/// Captures that a line in order never leaves. The first four are the plain ones; the others aim
/// at one step of a reader each.
pub const HOSTILE: [Kind; 12] = [
    hostile("all Starts", |_, n| Line::of(n, |_| (START, 1))),
    hostile("all data", |r, n| Line::of(n, |_| (r.octet(), 0))),
    hostile("all Idle", |_, n| Line::of(n, |_| (IDLE, 1))),
    hostile("noise", |r, n| {
        Line::of(n, |_| (r.octet(), r.octet() * (r.octet() % 2)))
    }),
    // data that look like Starts, like Idles
    hostile("data 0xFB", |_, n| Line::of(n, |_| (START, 0))),
    hostile("data 0x07", |_, n| Line::of(n, |_| (IDLE, 0))),
    hostile("Idle, Error", |_, n| {
        Line::repeat(n, &[(IDLE, 1), (ERROR, 1)])
    }),
    hostile("Start, Terminate", |_, n| {
        Line::repeat(n, &[(START, 1), (TERMINATE, 1)])
    }),
    // every branch of the searches as likely as not
    hostile("noise of Starts", |r, n| {
        Line::of(n, |_| {
            let octet = [START, TERMINATE, IDLE, 0x55][r.below(4)];
            (octet, (r.next() >> 40) as u8 % 2)
        })
    }),
    // runs that end just before or after a whole number of words
    hostile("short runs", |r, n| {
        let mut left = 0;
        Line::of(n, |_| {
            if left == 0 {
                left = 1 + r.below(70);
                return ([START, START, TERMINATE][r.below(3)], 1);
            }
            left -= 1;
            (r.octet(), 0)
        })
    }),
    // a check for each Start, over a length that leaves the longest rest, and in vain
    hostile("83, wrong FCS", |r, n| damaged(r, n, 83)),
    hostile("one open Start", |r, n| {
        Line::of(n, |i| if i == 0 { (START, 1) } else { (r.octet(), 0) })
    }),
];

impl Kind {
    /// Whether it is good traffic.
    pub fn has_frames(&self) -> bool {
        matches!(self.make, Make::Frames(_))
    }

    /// A capture of that many symbols; of frames as many as fit, and none if none fits.
    pub fn capture(&self, size: usize) -> Option<Line> {
        let mut random = Random(size as u64);
        match self.make {
            Make::Hostile(make) => Some(make(&mut random, size)),
            Make::Frames(_) => {
                let sizes = self.sizes(size);
                (!sizes.is_empty()).then(|| back_to_back(&mut random, self.limit, &sizes))
            }
        }
    }

    /// The sizes of the frames in a capture of that many symbols: deck by deck, each shuffled.
    pub fn sizes(&self, room: usize) -> Vec<usize> {
        let Make::Frames(deck) = self.make else {
            return Vec::new();
        };
        let mut random = Random(room as u64);
        let (mut sizes, mut used) = (Vec::new(), 0);
        loop {
            let mut deck = deck.to_vec();
            for last in (1..deck.len()).rev() {
                deck.swap(last, random.below(last + 1));
            }
            for size in deck {
                used += size + AROUND;
                if used > room {
                    return sizes;
                }
                sizes.push(size);
            }
        }
    }
}

/// The symbols that frames of these sizes take.
pub fn symbols(sizes: &[usize]) -> usize {
    sizes.iter().map(|size| size + AROUND).sum()
}

/// The length of the data in a frame of that size.
pub fn data_length(size: usize) -> usize {
    size - BESIDE_DATA
}

/// Data for the largest frame.
pub fn data() -> Vec<u8> {
    let mut random = Random(1);
    (0..9018).map(|_| random.octet()).collect()
}

/// What the frames are but for their data: unicast to the own address, of a type.
pub const TYPE: u16 = 0x0800;

// Frames of these sizes, from the reference's sender.
fn back_to_back(random: &mut Random, limit: u16, sizes: &[usize]) -> Line {
    let size = symbols(sizes);
    let (mut octets, mut marks) = (vec![0; size], vec![0; size]);
    let (settings, mut state) = (reference_settings(limit), State::default());
    let client = Client {
        dest: OWN,
        tags: Vec::new(),
        form: Form::Type(TYPE),
        class: 0,
    };
    let mut place = 0;
    for &size in sizes {
        let data: Vec<u8> = (0..data_length(size)).map(|_| random.octet()).collect();
        let sent = send_client(
            Check::ByteTable,
            &settings,
            &mut state,
            Port::Plain,
            &mut octets,
            &mut marks,
            place,
            &client,
            &data,
        );
        match sent {
            Sent::Wrote(next) => place = next,
            Sent::Refused(number) => panic!("a frame of {size} octets is refused ({number})"),
        }
    }
    Line { octets, marks }
}

// Frames of that size whose FCS is wrong in its last octet, over and over, with no Idle between them.
fn damaged(random: &mut Random, room: usize, size: usize) -> Line {
    let good = back_to_back(random, 1518, &[size; 16]);
    let mut symbols = Vec::new();
    let frames = good.octets.chunks(size + AROUND);
    for (octets, marks) in frames.zip(good.marks.chunks(size + AROUND)) {
        // Start, preamble, frame and Terminate
        let mut frame: Vec<_> = octets.iter().copied().zip(marks.iter().copied()).collect();
        frame.truncate(8 + size + 1);
        frame[8 + size - 1].0 ^= 1;
        symbols.extend(frame);
    }
    Line::repeat(room, &symbols)
}
