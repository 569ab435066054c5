//! What a call was given and answered, taken apart for the coverage table. Everything here comes
//! from the inputs themselves, not from what the generator meant to draw.
use crate::generate::{Listener, Sending, PREAMBLE, RESERVED_GROUP, SYMBOLS};
use crate::raw;
use crate::seen_jobs::TableOf;
use crate::seen_log::KeepSeen;
use reference::{fcs, Answer, Check, Client, Flow, Form, Port, Reading};
use reference::{Sent, Settings, State, Walked};

/// The call that made a reading.
#[derive(Clone, Copy, Debug, PartialEq, Eq)]
pub enum By {
    /// A single reading.
    Read,
    /// The iterator over readings.
    Readings,
}

/// How a frame's last four octets stand to the check of those before.
#[derive(Clone, Copy, Debug, PartialEq, Eq)]
pub enum Fcs {
    /// Not looked at here.
    Unknown,
    /// Equal.
    Right,
    /// Equal in the other order of octets.
    HighFirst,
    /// The register itself, not its complement.
    Plain,
    /// All but one bit equal.
    OneBit,
    /// Anything else.
    Wrong,
}

/// The frame of a counted Start, behind a right preamble. Its parts are empty where it is too short.
#[derive(Clone, Copy, Debug)]
pub struct FrameSeen<'a> {
    octets: &'a [u8],
    /// From destination to FCS.
    pub size: usize,
    /// The destination.
    pub to: [u8; 6],
    /// How many tags stand behind the addresses, up to eight.
    pub tags: usize,
    /// The field behind the last tag, if there is one.
    pub field: u16,
    /// From after the field to before the FCS.
    pub data: &'a [u8],
    /// Looked at for the outcomes 1 and 3 to 5.
    pub fcs: Fcs,
}

impl<'a> FrameSeen<'a> {
    /// The FCS is judged for the outcomes 1 and 3 to 5.
    pub fn new(octets: &'a [u8], outcome: u8) -> FrameSeen<'a> {
        let is_tag = |k: &usize| is_tag_kind(number_at(octets, 12 + 4 * k));
        let tags = (0..8).take_while(is_tag).count();
        let field_at = 12 + 4 * tags;
        FrameSeen {
            octets,
            size: octets.len(),
            to: octets.first_chunk().copied().unwrap_or_default(),
            tags,
            field: number_at(octets, field_at),
            data: octets
                .get(field_at + 2..octets.len().saturating_sub(4))
                .unwrap_or_default(),
            fcs: match outcome {
                1 | 3..=5 => judge_fcs(octets),
                _ => Fcs::Unknown,
            },
        }
    }

    /// The kind of a tag, the outermost of which is tag 0.
    pub fn tag_kind(&self, k: usize) -> u16 {
        number_at(self.octets, 12 + 4 * k)
    }

    /// Eight tags, and what would be a ninth.
    pub fn nine_tags(&self) -> bool {
        self.tags == 8 && is_tag_kind(self.field)
    }

    /// A control frame, if it is long enough for one.
    pub fn control(&self) -> bool {
        self.tags == 0 && self.field == 0x8808
    }

    /// A control frame's opcode.
    pub fn opcode(&self) -> u16 {
        number_at(self.data, 0)
    }

    /// A pause frame's quanta.
    pub fn quanta(&self) -> u16 {
        number_at(self.data, 2)
    }

    /// A PFC frame's quanta for a class.
    pub fn class_quanta(&self, class: usize) -> u16 {
        number_at(self.data, 4 + 2 * class)
    }

    /// A PFC frame's class octet.
    pub fn named(&self) -> u8 {
        self.data.get(3).copied().unwrap_or(0)
    }

    /// The data that a bridge leaves behind this many tags.
    fn shortest(&self) -> usize {
        usize::from(self.field).max(46 - 4 * self.tags)
    }

    /// Whether the length rule is broken, if it is asked.
    pub fn length_broken(&self) -> bool {
        match self.field {
            0..=45 => ![46, self.shortest()].contains(&self.data.len()),
            46..=1500 => self.data.len() != usize::from(self.field),
            1501..=1535 => true,
            _ => false,
        }
    }
}

fn is_tag_kind(field: u16) -> bool {
    field == 0x8100 || field == 0x88A8
}

fn number_at(octets: &[u8], at: usize) -> u16 {
    match octets.get(at..) {
        Some([high, low, ..]) => u16::from_be_bytes([*high, *low]),
        _ => 0,
    }
}

fn judge_fcs(frame: &[u8]) -> Fcs {
    let Some((covered, last)) = frame.split_last_chunk::<4>() else {
        return Fcs::Wrong;
    };
    let (right, last) = (fcs(Check::Slicing16, covered), u32::from_le_bytes(*last));
    match right ^ last {
        0 => Fcs::Right,
        u32::MAX => Fcs::Plain,
        other if other.count_ones() == 1 => Fcs::OneBit,
        _ if last.swap_bytes() == right => Fcs::HighFirst,
        _ => Fcs::Wrong,
    }
}

/// A reading.
pub struct ReadingSeen<'a> {
    /// By which call.
    pub by: By,
    /// The settings.
    pub s: &'a Settings,
    /// The job.
    pub job: u8,
    /// The table given.
    pub table: TableOf<'a>,
    /// The octets given.
    pub octets: &'a [u8],
    /// The marks given.
    pub marks: &'a [u8],
    /// The place given.
    pub place: usize,
    /// The state given.
    pub before: &'a State,
    /// The state after.
    pub after: &'a State,
    /// The answer.
    pub reading: Reading,
    /// The answer's refusal, or 0.
    pub refusal: u8,
    /// The answer's outcome, or 0.
    pub outcome: u8,
    /// The answer's status word, or 0.
    pub status: u64,
    /// How many octets were handed out.
    pub handed: usize,
    /// Which address let the frame in, or 0.
    pub way: u8,
    /// The data symbols behind a counted Start.
    pub run: &'a [u8],
    /// The frame of a counted Start.
    pub frame: Option<FrameSeen<'a>>,
}

impl<'a> ReadingSeen<'a> {
    /// Takes a reading apart.
    pub fn new(
        by: By,
        (s, listener): (&'a Settings, &'a Listener),
        (octets, marks, place): (&'a [u8], &'a [u8], usize),
        (before, after): (&'a State, &'a State),
        reading: Reading,
    ) -> ReadingSeen<'a> {
        let mut seen = ReadingSeen {
            by,
            s,
            job: listener.job,
            table: TableOf(&listener.octets),
            octets,
            marks,
            place,
            before,
            after,
            reading,
            refusal: 0,
            outcome: 0,
            status: 0,
            handed: 0,
            way: 0,
            run: &[],
            frame: None,
        };
        match reading.answer {
            Answer::Refused(number) => seen.refusal = number,
            Answer::None | Answer::Open => {}
            Answer::Counted {
                outcome,
                status,
                len,
                address,
                ..
            } => {
                (seen.outcome, seen.status, seen.handed) = (outcome, status, len);
                seen.way = address;
                seen.run = &octets[reading.start + 1..reading.next];
                let frame = seen.run.strip_prefix(&PREAMBLE);
                seen.frame = frame.map(|octets| FrameSeen::new(octets, outcome));
            }
        }
        seen
    }

    /// No further Start.
    pub fn none(&self) -> bool {
        self.reading.answer == Answer::None
    }

    /// A Start whose run has not ended.
    pub fn open(&self) -> bool {
        self.reading.answer == Answer::Open
    }

    /// Whether a row of the table of refusals holds, by itself.
    pub fn holds(&self, refusal: u8) -> bool {
        match refusal {
            1 => bad_settings(self.s),
            14 => self.job > 1,
            2 => bad_buffers(self.octets.len(), self.marks.len()),
            3 => self.place > self.octets.len(),
            20 => self.table.broken(),
            _ => false,
        }
    }

    /// A frame of which this is true got this far or further.
    pub fn framed(&self, outcome: u8, test: impl FnOnce(&FrameSeen) -> bool) -> bool {
        self.outcome >= outcome && self.frame.as_ref().is_some_and(test)
    }

    /// A frame of which this is true got exactly this outcome.
    pub fn is(&self, outcome: u8, test: impl FnOnce(&FrameSeen) -> bool) -> bool {
        self.outcome == outcome && self.framed(outcome, test)
    }

    /// A frame that is no control frame and of which this is true came to the address rule and got
    /// exactly this outcome.
    pub fn addressed(&self, outcome: u8, test: impl FnOnce(&[u8; 6]) -> bool) -> bool {
        self.is(outcome, |f| !f.control() && test(&f.to))
    }

    /// A control frame of which this is true got one of these outcomes.
    pub fn controlled(&self, outcomes: &[u8], test: impl FnOnce(&FrameSeen) -> bool) -> bool {
        outcomes.contains(&self.outcome) && self.framed(7, |f| f.control() && test(f))
    }

    /// The entries by which the job lists an address.
    pub fn listed_at(&self, address: &[u8; 6]) -> impl Iterator<Item = usize> + use<'a> {
        self.table.listed_at(self.job, address)
    }

    /// Whether the job lists an address.
    pub fn listed(&self, address: &[u8; 6]) -> bool {
        self.listed_at(address).next().is_some()
    }

    /// The entries by which the other job lists it.
    pub fn others_at(&self, address: &[u8; 6]) -> impl Iterator<Item = usize> + use<'a> {
        self.table.listed_at(1 - self.job.min(1), address)
    }

    /// An address stands nowhere in the table, be it in an entry that is free.
    pub fn nowhere(&self, address: &[u8; 6]) -> bool {
        (0..16).all(|k| self.table.address(k) != *address)
    }

    /// The address rule.
    pub fn accepts(&self, address: &[u8; 6]) -> bool {
        let by_list = *address == self.s.own || self.listed(address);
        self.s.promiscuous
            || if *address == [0xFF; 6] {
                self.s.broadcast
            } else {
                by_list
            }
    }

    /// Neither reserved group nor own address.
    pub fn to_others(&self, address: &[u8; 6]) -> bool {
        *address != RESERVED_GROUP && *address != self.s.own
    }
}

/// The only octet in which two addresses differ.
pub fn only_octet(a: &[u8; 6], b: &[u8; 6]) -> Option<usize> {
    let mut differing = (0..6).filter(|&i| a[i] != b[i]);
    let first = differing.next();
    first.filter(|_| differing.next().is_none())
}

/// A walk.
pub struct WalkSeen<'a> {
    /// The settings.
    pub s: &'a Settings,
    /// The job.
    pub job: u8,
    /// The table given.
    pub table: TableOf<'a>,
    /// The numbers of octets and marks given.
    pub lengths: (usize, usize),
    /// The state given.
    pub before: &'a State,
    /// The state after.
    pub after: &'a State,
    /// The answer.
    pub walked: Walked,
}

impl WalkSeen<'_> {
    /// Whether a row of the table of refusals holds, by itself.
    pub fn holds(&self, refusal: u8) -> bool {
        match refusal {
            1 => bad_settings(self.s),
            14 => self.job > 1,
            2 => bad_buffers(self.lengths.0, self.lengths.1),
            20 => self.table.broken(),
            _ => false,
        }
    }

    /// The answer's refusal, or 0.
    pub fn refusal(&self) -> u8 {
        match self.walked {
            Walked::Refused(number) => number,
            Walked::Ended { .. } => 0,
        }
    }

    /// How many Starts had this outcome.
    pub fn risen(&self, outcome: u8) -> u64 {
        let i = usize::from(outcome - 1);
        self.after.counters[i].wrapping_sub(self.before.counters[i])
    }
}

/// A sending call.
#[derive(Clone, Copy, Debug, PartialEq, Eq)]
pub enum Kind {
    /// A client frame.
    Client,
    /// A pause frame.
    Pause,
    /// A PFC frame.
    Pfc,
    /// An Idle fill.
    Idle,
}

/// Item 5's gap by the count and by r, and the count behind it.
pub const GAPS: [[(usize, u8); 4]; 4] = [
    [(12, 0), (11, 1), (10, 2), (9, 3)],
    [(12, 1), (11, 2), (10, 3), (13, 0)],
    [(12, 2), (11, 3), (14, 0), (13, 1)],
    [(12, 3), (15, 0), (14, 1), (13, 2)],
];

/// A sending.
#[derive(Clone, Copy)]
pub struct SendingSeen<'a> {
    /// What was to be sent.
    pub call: &'a Sending,
    /// The port given; an Idle fill has none.
    pub port: Port,
    /// The settings.
    pub s: &'a Settings,
    /// The numbers of octets and marks given.
    pub lengths: (usize, usize),
    /// The place given.
    pub place: usize,
    /// The state given.
    pub before: &'a State,
    /// The state after.
    pub after: &'a State,
    /// The octets after.
    pub octets: &'a [u8],
    /// The answer.
    pub sent: Sent,
}

impl SendingSeen<'_> {
    /// Which call it was.
    pub fn kind(&self) -> Kind {
        match self.call {
            Sending::Client(..) => Kind::Client,
            Sending::Pause(_) => Kind::Pause,
            Sending::Pfc(..) => Kind::Pfc,
            Sending::Idle(_) => Kind::Idle,
        }
    }

    /// The answer's refusal, or 0.
    pub fn refusal(&self) -> u8 {
        match self.sent {
            Sent::Refused(number) => number,
            Sent::Wrote(_) => 0,
        }
    }

    /// The number of symbols written, if it was not refused.
    pub fn wrote(&self) -> Option<usize> {
        match self.sent {
            Sent::Wrote(after) => Some(after - self.place),
            Sent::Refused(_) => None,
        }
    }

    /// The frame that was written, from destination to FCS; nothing where none was.
    pub fn frame(&self) -> &[u8] {
        match (self.sent, self.call) {
            (Sent::Refused(_), _) | (_, Sending::Idle(_)) => &[],
            // behind Start and preamble, before Terminate and gap
            (Sent::Wrote(_), _) => &self.octets[self.place + 8..self.frame_end()],
        }
    }

    /// Where the symbols before a frame's gap end.
    fn frame_end(&self) -> usize {
        self.place.saturating_add(self.call.before_gap())
    }

    /// The gap that was written, with Terminate; nothing where none was.
    pub fn gap(&self) -> &[u8] {
        match (self.sent, self.call) {
            (Sent::Refused(_), _) | (_, Sending::Idle(_)) => &[],
            (Sent::Wrote(after), _) => &self.octets[self.frame_end()..after],
        }
    }

    /// A frame on the four-lane port.
    pub fn four_lanes(&self) -> bool {
        self.port == Port::FourLane && self.call.is_frame()
    }

    /// How far past a multiple of four a gap of 12 would end.
    pub fn r(&self) -> usize {
        self.frame_end().wrapping_add(12) % 4
    }

    /// How many symbols are needed: those before the gap, and the actual gap. On the four-lane port
    /// none is said for a count above 3.
    pub fn needed(&self) -> Option<usize> {
        if !self.four_lanes() {
            return Some(self.call.symbols());
        }
        let row = GAPS.get(usize::from(self.before.deficit))?;
        Some(self.call.before_gap() + row[self.r()].0)
    }

    /// Are these the octets from here on in the frame that was written?
    pub fn frame_has(&self, at: usize, octets: &[u8]) -> bool {
        self.frame().get(at..at + octets.len()) == Some(octets)
    }

    /// The symbols from the place to the end.
    pub fn room(&self) -> usize {
        self.lengths.0.saturating_sub(self.place)
    }

    /// Whether a row of the table of refusals holds, by itself.
    pub fn holds(&self, refusal: u8) -> bool {
        match (refusal, self.call) {
            (1, _) => bad_settings(self.s),
            (2, _) => bad_buffers(self.lengths.0, self.lengths.1),
            (3, _) => {
                self.place > self.lengths.0 || self.four_lanes() && !self.place.is_multiple_of(4)
            }
            (19, _) => self.four_lanes() && self.before.deficit > 3,
            (4, Sending::Pause(_)) => self.s.flow != Flow::Pause,
            (4, Sending::Pfc(..)) => self.s.flow != Flow::Pfc,
            (5, Sending::Client(client, _)) => client.class > 7,
            (6, Sending::Client(client, _)) => {
                matches!(client.form, Form::Type(0..=1535 | 0x8100 | 0x8808 | 0x88A8))
            }
            (10, Sending::Client(client, _)) => client.tags.len() > 8,
            (7, Sending::Client(client, data)) => match client.form {
                Form::Length => data.len() > 1500,
                Form::Type(_) => data.len() + 18 > usize::from(self.s.limit),
            },
            (8, _) => self.needed().is_some_and(|n| self.room() < n),
            (9, Sending::Client(client, _)) => {
                let timer = self.before.timers.get(usize::from(client.class));
                timer.is_some_and(|&slots| slots > 0)
            }
            _ => false,
        }
    }

    /// A client frame, with so many tags if that is asked, of which this is true.
    pub fn client(&self, tags: Option<usize>, test: impl FnOnce(&Client, &[u8]) -> bool) -> bool {
        match self.call {
            Sending::Client(client, data) => {
                tags.is_none_or(|n| client.tags.len() == n) && test(client, data)
            }
            _ => false,
        }
    }
}

/// A call through the C face: the records given, besides what they mean and what was answered.
pub struct CSeen<'a> {
    /// The settings given; not to an Idle fill.
    pub settings: &'a raw::Settings,
    /// The client frame given, to the call that takes one.
    pub client: Option<&'a raw::Client>,
    /// The port's octet given, to a call that sends a frame.
    pub port: u8,
    /// The state given.
    pub before: &'a raw::State,
    /// The state after.
    pub after: &'a raw::State,
    /// The call.
    pub call: CCall<'a>,
}

/// Which call it was, with what its records mean.
pub enum CCall<'a> {
    /// A reading.
    Read(ReadingSeen<'a>),
    /// A walk.
    Walk(WalkSeen<'a>),
    /// A walk that keeps its readings.
    Keep(KeepSeen<'a>),
    /// A sending.
    Send(SendingSeen<'a>),
    /// A sending that keeps the totals.
    Count(SendingSeen<'a>),
}

impl CSeen<'_> {
    /// A name for it.
    pub fn name(&self) -> &'static str {
        match &self.call {
            CCall::Read(_) => "read",
            CCall::Walk(_) => "walk",
            CCall::Keep(_) => "walk_log",
            CCall::Send(sending) => sending.call.name(),
            CCall::Count(sending) => match sending.kind() {
                Kind::Client => "counted client",
                Kind::Pause => "counted pause",
                Kind::Pfc => "counted PFC",
                Kind::Idle => "counted idle",
            },
        }
    }

    /// The answer's refusal, or 0.
    pub fn refusal(&self) -> u8 {
        match &self.call {
            CCall::Read(reading) => reading.refusal,
            CCall::Walk(walk) => walk.refusal(),
            CCall::Keep(walk) => walk.refusal(),
            CCall::Send(sending) | CCall::Count(sending) => sending.refusal(),
        }
    }

    /// A reading of which this is true.
    pub fn read(&self, test: impl FnOnce(&ReadingSeen) -> bool) -> bool {
        matches!(&self.call, CCall::Read(reading) if test(reading))
    }

    /// Whether a refusal's condition holds by itself, for a call that reads.
    pub fn holds(&self, refusal: u8) -> bool {
        match &self.call {
            CCall::Read(reading) => reading.holds(refusal),
            CCall::Walk(walk) => walk.holds(refusal),
            CCall::Keep(walk) => walk.holds(refusal),
            CCall::Send(_) | CCall::Count(_) => false,
        }
    }

    /// The job and the table, of a call that reads.
    pub fn listening(&self) -> Option<(u8, TableOf<'_>)> {
        match &self.call {
            CCall::Read(reading) => Some((reading.job, reading.table)),
            CCall::Walk(walk) => Some((walk.job, walk.table)),
            CCall::Keep(walk) => Some((walk.job, walk.table)),
            CCall::Send(_) | CCall::Count(_) => None,
        }
    }

    /// A sending of which this is true.
    pub fn sent(&self, test: impl FnOnce(&SendingSeen) -> bool) -> bool {
        matches!(&self.call, CCall::Send(sending) if test(sending))
    }

    /// A sending that keeps the totals, of which this is true.
    pub fn counted(&self, test: impl FnOnce(&SendingSeen) -> bool) -> bool {
        matches!(&self.call, CCall::Count(sending) if test(sending))
    }

    /// A client frame that was written, and of whose record and frame this is true.
    pub fn client(&self, test: impl FnOnce(&[u8], &SendingSeen) -> bool) -> bool {
        let Some(record) = self.client else {
            return false;
        };
        self.sent(|w| w.wrote().is_some() && test(&record.0, w))
    }
}

/// A row of frames on both ports, from a deficit count of 0.
pub struct RowSeen {
    /// How many frames went to the plain port.
    pub plain: usize,
    /// How many gaps the four-lane port has.
    pub gaps: usize,
    /// Their symbols together.
    pub symbols: usize,
    /// The deficit count at the end.
    pub count: u8,
    /// How many client frames were read back.
    pub read: usize,
}

/// An FCS.
pub struct FcsSeen<'a> {
    /// The register before.
    pub register: u32,
    /// The octets given.
    pub octets: &'a [u8],
}

/// Refusal 1.
pub fn bad_settings(s: &Settings) -> bool {
    s.own[0] & 1 == 1 || s.limit < 1518 || s.limit > 9618
}

/// Refusal 2.
pub fn bad_buffers(octets: usize, marks: usize) -> bool {
    octets != marks || octets > SYMBOLS
}
