//! Captures put together by hand, without the sender under test.

use reference::{read, walk, Answer, Check, Entry, Flow, Reading, Settings, State, Table};
use reference::{Lent, Tag, TagKind, Walked};

use crate::plain;

pub const KINDS: [Check; 3] = [Check::Bitwise, Check::ByteTable, Check::Slicing16];

pub const IDLE: u8 = 0x07;
pub const START: u8 = 0xFB;
pub const TERMINATE: u8 = 0xFD;
pub const ERROR: u8 = 0xFE;

pub const OWN: [u8; 6] = [0x02, 0, 0, 0, 0, 1];
pub const OTHER: [u8; 6] = [0x02, 0, 0, 0, 0, 2];
pub const MULTICAST: [u8; 6] = [0x01, 0, 0x5E, 0, 0, 7];
pub const RESERVED: [u8; 6] = [0x01, 0x80, 0xC2, 0, 0, 1];
pub const BROADCAST: [u8; 6] = [0xFF; 6];

/// The length rule, with any number of tags: field, length of the data, octets handed out if the rule is kept.
pub const LENGTH_RULE: [(u16, usize, Option<usize>); 20] = [
    (0, 46, Some(0)),
    (0, 47, None),
    (1, 46, Some(1)),
    (45, 46, Some(45)),
    (45, 47, None),
    (46, 46, Some(46)),
    (46, 47, None),
    (47, 46, None),
    (47, 47, Some(47)),
    (47, 48, None),
    (1499, 1500, None),
    (1500, 1499, None),
    (1500, 1500, Some(1500)),
    (1501, 1501, None),
    (1501, 46, None),
    (1535, 1535, None),
    (1536, 1536, Some(1536)),
    (1536, 46, Some(46)),
    (0x0800, 77, Some(77)),
    (0xFFFF, 77, Some(77)),
];

/// The settings of the printing program.
pub const PLAIN: Settings = Settings {
    own: OWN,
    broadcast: true,
    promiscuous: false,
    checking: true,
    limit: 1518,
    flow: Flow::None,
    pass_control: false,
};

pub const PAUSE: Settings = Settings {
    flow: Flow::Pause,
    ..PLAIN
};

pub const PFC: Settings = Settings {
    flow: Flow::Pfc,
    ..PLAIN
};

/// Who reads: a job with its settings and the table.
#[derive(Clone, Copy, Debug, PartialEq)]
pub struct Reader {
    pub s: Settings,
    pub job: u8,
    pub table: Table,
}

/// Settings alone: job 0 reads, with an empty table.
impl From<&Settings> for Reader {
    fn from(s: &Settings) -> Self {
        Reader {
            s: *s,
            job: 0,
            table: Table::EMPTY,
        }
    }
}

impl From<&Reader> for Reader {
    fn from(reader: &Reader) -> Self {
        *reader
    }
}

/// A table in which a job holds the first entries, with these addresses.
pub fn listing(job: u8, addresses: &[[u8; 6]]) -> Table {
    let mut entries = [Entry::Free; 16];
    for (entry, &address) in entries.iter_mut().zip(addresses) {
        *entry = Entry::held(job, address);
    }
    Table::from_entries(entries)
}

/// The FCS as clause 3 defines it: the register isn't bit-reversed, octets go
/// in low bit first, the result is complemented and sent from its top bit on,
/// low bit of each octet first.
pub fn clause_3(octets: &[u8]) -> [u8; 4] {
    let mut register = u32::MAX;
    for octet in octets {
        for bit in 0..8 {
            let feedback = (register >> 31) ^ u32::from(octet >> bit & 1);
            register = (register << 1) ^ (feedback * 0x04C1_1DB7);
        }
    }
    (!register).to_be_bytes().map(u8::reverse_bits)
}

/// A frame from destination to FCS.
pub fn frame(dest: [u8; 6], header: &[u16], data: &[u8]) -> Vec<u8> {
    let mut octets = dest.to_vec();
    octets.extend(OTHER);
    octets.extend(header.iter().flat_map(|number| number.to_be_bytes()));
    octets.extend(data);
    octets.extend(clause_3(&octets));
    octets
}

/// Tag k of those below: the kinds in turn, no two alike.
fn tag(k: u16) -> Tag {
    let kind = match k % 2 {
        0 => TagKind::Service,
        _ => TagKind::Customer,
    };
    let control = 0xA001 + 0x11 * k;
    Tag { kind, control }
}

/// So many tags.
pub fn tags(n: usize) -> Vec<Tag> {
    (0..).map(tag).take(n).collect()
}

/// The same tags as numbers, with a field behind them.
pub fn tagged(n: usize, field: u16) -> Vec<u16> {
    let numbers = |tag: Tag| {
        let kind = match tag.kind {
            TagKind::Service => 0x88A8,
            TagKind::Customer => 0x8100,
        };
        [kind, tag.control]
    };
    let tags = tags(n).into_iter().flat_map(numbers);
    tags.chain([field]).collect()
}

/// Data in which neighbouring octets differ.
pub fn ramp(len: usize) -> Vec<u8> {
    (1..=251).cycle().take(len).collect()
}

#[derive(Clone, Default)]
pub struct Capture {
    pub octets: Vec<u8>,
    pub marks: Vec<u8>,
}

impl Capture {
    pub fn new() -> Self {
        Self::default()
    }

    pub fn control(mut self, octet: u8) -> Self {
        self.octets.push(octet);
        self.marks.push(1);
        self
    }

    pub fn data(mut self, octets: &[u8]) -> Self {
        self.octets.extend(octets);
        self.marks.resize(self.octets.len(), 0);
        self
    }

    pub fn open_frame(self, frame: &[u8]) -> Self {
        self.control(START)
            .data(&[0x55; 6])
            .data(&[0xD5])
            .data(frame)
    }

    pub fn frame(self, frame: &[u8]) -> Self {
        self.open_frame(frame).control(TERMINATE)
    }

    pub fn read(&self, by: impl Into<Reader>, state: &mut State, place: usize) -> Reading {
        let Reader { s, job, table } = by.into();
        let mut readings = KINDS.iter().map(|&kind| {
            let mut own = *state;
            let (octets, marks) = (&self.octets, &self.marks);
            let reading = read(kind, &s, &mut own, job, &table, octets, marks, place);
            (reading, own)
        });
        let (reading, after) = readings.next().unwrap();
        assert!(readings.all(|other| other == (reading, after)));
        *state = after;
        reading
    }

    pub fn lent(&self) -> Lent<'_> {
        Lent {
            octets: &self.octets,
            marks: &self.marks,
        }
    }

    pub fn walk(&self, by: impl Into<Reader>, state: &mut State) -> Walked {
        let Reader { s, job, table } = by.into();
        let (octets, marks) = (&self.octets, &self.marks);
        walk(Check::ByteTable, &s, state, job, &table, octets, marks)
    }

    /// Outcomes of all counted Starts, and whether the walk ended open.
    pub fn outcomes(&self, by: impl Into<Reader>) -> (Vec<u8>, bool) {
        let by = by.into();
        let mut state = State::default();
        let mut outcomes = Vec::new();
        let mut place = 0;
        loop {
            let reading = self.read(by, &mut state, place);
            match reading.answer {
                Answer::Counted { outcome, .. } => outcomes.push(outcome),
                Answer::None => return (outcomes, false),
                Answer::Open => return (outcomes, true),
                Answer::Refused(number) => panic!("refused {number}"),
            }
            place = reading.next;
        }
    }
}

/// What a single frame at place 0 gives.
#[derive(Debug, PartialEq)]
pub struct Seen {
    pub outcome: u8,
    pub status: u64,
    pub data: Vec<u8>,
    /// Which address let it in.
    pub address: u8,
}

/// Reads a single frame and checks everything that doesn't depend on it: the
/// places, the one counter that rises, the empty parts of outcomes 1 to 10, that
/// an address let in exactly those of outcomes 8 to 11, and that the plain reader
/// says the same.
pub fn see_with(by: impl Into<Reader>, state: &mut State, frame: &[u8]) -> Seen {
    let by = by.into();
    let capture = Capture::new().frame(frame).control(IDLE);
    let mut expected = *state;
    plain::check(&by, &capture, expected);
    let reading = capture.read(by, state, 0);
    assert_eq!(reading.start, 0);
    assert_eq!(reading.next, 8 + frame.len());
    let Answer::Counted {
        outcome,
        status,
        at,
        len,
        address,
    } = reading.answer
    else {
        panic!("{reading:?}");
    };
    let counter = &mut expected.counters[usize::from(outcome) - 1];
    *counter = counter.wrapping_add(1);
    assert_eq!(state.counters, expected.counters);
    if outcome != 8 && outcome != 9 {
        assert_eq!(state.timers, expected.timers);
    }
    if outcome != 11 {
        assert_eq!((at, len), (0, 0));
    }
    if outcome < 8 {
        assert_eq!((status, address), (0, 0));
    } else {
        assert!([1, 6, 7, 8].contains(&address) || (16..32).contains(&address));
    }
    Seen {
        outcome,
        status,
        data: capture.octets[at..at + len].to_vec(),
        address,
    }
}

pub fn see(by: impl Into<Reader>, frame: &[u8]) -> Seen {
    see_with(by, &mut State::default(), frame)
}

pub fn outcome(by: impl Into<Reader>, frame: &[u8]) -> u8 {
    see(by, frame).outcome
}
