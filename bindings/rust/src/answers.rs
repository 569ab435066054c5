//! What a call answers: outcome, refusal, status word, and which address let a frame in.
use crate::sys;
use core::error::Error;
use core::fmt;

/// The outcome of a Start, by the first rule of document 01 that holds.
///
/// ```
/// use fenhamper::Outcome;
///
/// assert_eq!(Outcome::WrongFcs.number(), 5);
/// assert_eq!(Outcome::WrongFcs.to_string(), "wrong FCS");
/// ```
#[derive(Clone, Copy, Debug, PartialEq, Eq, PartialOrd, Ord, Hash)]
#[repr(u8)]
pub enum Outcome {
    /// Ended by anything but Terminate.
    Cut = 1,
    /// Run under 7 octets, or the first 7 wrong.
    BadPreamble = 2,
    /// Frame under 64 octets.
    Undersized = 3,
    /// Over the limit M, which grows by 4 for each tag.
    Oversized = 4,
    /// The last four octets differ from the check.
    WrongFcs = 5,
    /// Length rule broken, checking on.
    WrongLength = 6,
    /// The address rule refuses.
    Filtered = 7,
    /// A pause frame set all eight timers.
    PauseTaken = 8,
    /// A PFC frame set the timers of the classes that it names.
    PfcTaken = 9,
    /// Another control frame, with control frames not passed.
    ControlDropped = 10,
    /// Everything else: the client data is handed out.
    HandedOut = 11,
}

impl Outcome {
    /// All outcomes, in the order of their numbers.
    ///
    /// ```
    /// use fenhamper::{Outcome, State};
    ///
    /// let state = State::default();
    /// for outcome in Outcome::ALL {
    ///     println!(
    ///         "{:2} {outcome}: {}",
    ///         outcome.number(),
    ///         state.counter(outcome)
    ///     );
    /// }
    /// ```
    pub const ALL: [Outcome; 11] = [
        Outcome::Cut,
        Outcome::BadPreamble,
        Outcome::Undersized,
        Outcome::Oversized,
        Outcome::WrongFcs,
        Outcome::WrongLength,
        Outcome::Filtered,
        Outcome::PauseTaken,
        Outcome::PfcTaken,
        Outcome::ControlDropped,
        Outcome::HandedOut,
    ];

    /// Document 01's number, 1 to 11.
    #[must_use]
    pub const fn number(self) -> u8 {
        self as u8
    }

    /// Document 01's name.
    #[must_use]
    pub const fn name(self) -> &'static str {
        match self {
            Outcome::Cut => "cut",
            Outcome::BadPreamble => "bad preamble",
            Outcome::Undersized => "undersized",
            Outcome::Oversized => "oversized",
            Outcome::WrongFcs => "wrong FCS",
            Outcome::WrongLength => "wrong length",
            Outcome::Filtered => "filtered",
            Outcome::PauseTaken => "pause taken",
            Outcome::PfcTaken => "PFC taken",
            Outcome::ControlDropped => "control dropped",
            Outcome::HandedOut => "handed out",
        }
    }

    /// The outcome of a number, if there is one.
    ///
    /// ```
    /// use fenhamper::Outcome;
    ///
    /// assert_eq!(Outcome::from_number(11), Some(Outcome::HandedOut));
    /// assert_eq!(Outcome::from_number(0), None);
    /// ```
    #[must_use]
    pub fn from_number(number: u8) -> Option<Outcome> {
        Outcome::of(number.into())
    }

    // Of a number as wide as an answer's. That before 0 is the largest, and no outcome's place.
    pub(crate) fn of(number: u64) -> Option<Outcome> {
        Outcome::ALL.get(number.wrapping_sub(1) as usize).copied()
    }
}

impl fmt::Display for Outcome {
    fn fmt(&self, f: &mut fmt::Formatter<'_>) -> fmt::Result {
        f.pad(self.name())
    }
}

/// Why a call was refused. A refused call leaves the state, every symbol, every total, the log and the
/// table as they were.
///
/// ```
/// use fenhamper::{Capture, Refusal, Settings, State};
///
/// let capture = Capture::new(&[0x07; 4], &[1; 4]);
/// let refusal = capture
///     .read(&Settings::default(), &mut State::default(), 5)
///     .unwrap_err();
/// assert_eq!(refusal, Refusal::BadPlace);
/// assert_eq!(refusal.number(), 3);
/// assert_eq!(
///     refusal.to_string(),
///     "refusal 3, bad place: place beyond the buffers' length, \
///      or not divisible by four on the four-lane port"
/// );
/// ```
#[derive(Clone, Copy, Debug, PartialEq, Eq, PartialOrd, Ord, Hash)]
#[non_exhaustive]
pub enum Refusal {
    /// 1: own address is a group, or M outside 1518 to 9618.
    BadSettings,
    /// 2: octets and marks differ in length, or exceed [`SYMBOLS`](crate::SYMBOLS).
    BadBuffers,
    /// 3: place beyond the buffers' length; for a frame on the four-lane port also one not divisible
    /// by four.
    BadPlace,
    /// 4: pause or PFC asked in another flow mode.
    OtherFlow,
    /// 5: class above 7.
    BadClass,
    /// 6: type under 1536, or 0x8100, 0x8808 or 0x88A8.
    BadType,
    /// 7: data over 1500 in the length form, or over M - 18 in the type form.
    LongData,
    /// 8: too few symbols from the place to the end of the buffers.
    NoRoom,
    /// 9: a client frame, and the timer of its class is above zero.
    Held,
    /// 10: more than eight tags. It is tested after 6 and before 7.
    ManyTags,
    /// 11: length of a log no multiple of 16.
    BadLog,
    /// 12: no unused record.
    LogFull,
    /// 13: record number not used.
    NotUsed,
    /// 14: job above 1, which a [`Job`](crate::Job) never is. It is tested right after 1.
    BadJob,
    /// 15: an address to add, and the job holds 12 entries.
    HoldsTwelve,
    /// 16: an address to add, and all 16 entries are in use.
    AllInUse,
    /// 17: an address to add, and this job lists it already. It is tested before 15 and 16.
    AlreadyListed,
    /// 18: an address to remove, and this job does not list it.
    NotListed,
    /// 19: a frame on the four-lane port, and the deficit count is above 3. It is tested right after
    /// 3.
    HighDeficit,
    /// 20: in the table a job, whichever, holds more than 12 entries or has an address twice. It is
    /// tested right after 3, and in the calls on a table first.
    BadTable,
    /// 21: the number of totals is not that of the blocks, a last short one included. It is tested
    /// after 3 and 19.
    WrongTotals,
    /// 22: a total above 256, wherever it stands. It is tested right after 21.
    HighTotal,
    /// A number that has no name here, or 0 for an answer that has no meaning here: the archive is
    /// of another version than this face.
    Unknown(u8),
}

impl Refusal {
    /// Its number in the documents.
    #[must_use]
    pub const fn number(self) -> u8 {
        match self {
            Refusal::BadSettings => 1,
            Refusal::BadBuffers => 2,
            Refusal::BadPlace => 3,
            Refusal::OtherFlow => 4,
            Refusal::BadClass => 5,
            Refusal::BadType => 6,
            Refusal::LongData => 7,
            Refusal::NoRoom => 8,
            Refusal::Held => 9,
            Refusal::ManyTags => 10,
            Refusal::BadLog => 11,
            Refusal::LogFull => 12,
            Refusal::NotUsed => 13,
            Refusal::BadJob => 14,
            Refusal::HoldsTwelve => 15,
            Refusal::AllInUse => 16,
            Refusal::AlreadyListed => 17,
            Refusal::NotListed => 18,
            Refusal::HighDeficit => 19,
            Refusal::BadTable => 20,
            Refusal::WrongTotals => 21,
            Refusal::HighTotal => 22,
            Refusal::Unknown(number) => number,
        }
    }

    /// The header's name, in words.
    #[must_use]
    pub const fn name(self) -> &'static str {
        match self {
            Refusal::BadSettings => "bad settings",
            Refusal::BadBuffers => "bad buffers",
            Refusal::BadPlace => "bad place",
            Refusal::OtherFlow => "other flow",
            Refusal::BadClass => "bad class",
            Refusal::BadType => "bad type",
            Refusal::LongData => "long data",
            Refusal::NoRoom => "no room",
            Refusal::Held => "held",
            Refusal::ManyTags => "many tags",
            Refusal::BadLog => "bad log",
            Refusal::LogFull => "log full",
            Refusal::NotUsed => "not used",
            Refusal::BadJob => "bad job",
            Refusal::HoldsTwelve => "holds twelve",
            Refusal::AllInUse => "all in use",
            Refusal::AlreadyListed => "already listed",
            Refusal::NotListed => "not listed",
            Refusal::HighDeficit => "high deficit",
            Refusal::BadTable => "bad table",
            Refusal::WrongTotals => "wrong totals",
            Refusal::HighTotal => "high total",
            Refusal::Unknown(_) => "unknown",
        }
    }

    const fn reason(self) -> &'static str {
        match self {
            Refusal::BadSettings => "own address is a group, or M outside 1518 to 9618",
            Refusal::BadBuffers => "octets and marks differ in length, or exceed 65536",
            Refusal::BadPlace => {
                "place beyond the buffers' length, or not divisible by four on the four-lane port"
            }
            Refusal::OtherFlow => "pause or PFC asked in another flow mode",
            Refusal::BadClass => "class above 7",
            Refusal::BadType => "type under 1536, or 0x8100, 0x8808 or 0x88A8",
            Refusal::LongData => {
                "data over 1500 in the length form, or over M - 18 in the type form"
            }
            Refusal::NoRoom => "too few symbols from the place to the end of the buffers",
            Refusal::Held => "the timer of the frame's class is above zero",
            Refusal::ManyTags => "more than eight tags",
            Refusal::BadLog => "length of the log no multiple of 16",
            Refusal::LogFull => "no unused record",
            Refusal::NotUsed => "record number not used",
            Refusal::BadJob => "job above 1",
            Refusal::HoldsTwelve => "the job holds 12 entries",
            Refusal::AllInUse => "all 16 entries are in use",
            Refusal::AlreadyListed => "the job lists the address already",
            Refusal::NotListed => "the job does not list the address",
            Refusal::HighDeficit => "deficit count above 3",
            Refusal::BadTable => "a job holds more than 12 entries or has an address twice",
            Refusal::WrongTotals => "number of totals is not the number of blocks",
            Refusal::HighTotal => "a total above 256",
            Refusal::Unknown(_) => "the archive is of another version",
        }
    }

    // Whether an answer's refusal number is 0, which is none, and else which one it is.
    pub(crate) fn check(number: u64) -> Result<(), Refusal> {
        Err(match number {
            0 => return Ok(()),
            1 => Refusal::BadSettings,
            2 => Refusal::BadBuffers,
            3 => Refusal::BadPlace,
            4 => Refusal::OtherFlow,
            5 => Refusal::BadClass,
            6 => Refusal::BadType,
            7 => Refusal::LongData,
            8 => Refusal::NoRoom,
            9 => Refusal::Held,
            10 => Refusal::ManyTags,
            11 => Refusal::BadLog,
            12 => Refusal::LogFull,
            13 => Refusal::NotUsed,
            14 => Refusal::BadJob,
            15 => Refusal::HoldsTwelve,
            16 => Refusal::AllInUse,
            17 => Refusal::AlreadyListed,
            18 => Refusal::NotListed,
            19 => Refusal::HighDeficit,
            20 => Refusal::BadTable,
            21 => Refusal::WrongTotals,
            22 => Refusal::HighTotal,
            other => Refusal::Unknown(u8::try_from(other).unwrap_or(u8::MAX)),
        })
    }
}

impl fmt::Display for Refusal {
    fn fmt(&self, f: &mut fmt::Formatter<'_>) -> fmt::Result {
        write!(
            f,
            "refusal {}, {}: {}",
            self.number(),
            self.name(),
            self.reason()
        )
    }
}

impl Error for Refusal {}

/// Which address let a frame in, by the first rule of document 02's item 7 that holds; but of every
/// control frame to the reserved group it is [`Reserved`](Way::Reserved).
///
/// ```
/// use fenhamper::{Address, Frame, Job, Sender, Station, Table, Way};
///
/// let groups = [1, 2].map(|n| Address([0x01, 0, 0x5E, 0, 0, n]));
/// let mut table = Table::new();
/// for group in groups {
///     table.add(Job::Zero, group)?;
/// }
/// let mut station = Station::default();
/// let (mut octets, mut marks) = ([0; 84], [0; 84]);
/// let mut sender = Sender::new(&mut octets, &mut marks);
/// station.send_client(&mut sender, &Frame::to(groups[1]), b"to the second group")?;
/// for counted in station.listing(&table).readings(sender.written()) {
///     assert_eq!(counted?.way, Some(Way::Entry(1)));
/// }
/// # Ok::<(), fenhamper::Refusal>(())
/// ```
#[derive(Clone, Copy, Debug, PartialEq, Eq, PartialOrd, Ord, Hash)]
#[non_exhaustive]
pub enum Way {
    /// 1: the own address, also where it is listed.
    Own,
    /// 6: broadcast by its setting, also where it is listed.
    Broadcast,
    /// 7: none of the others, and every destination is accepted.
    Promiscuous,
    /// 8: a control frame to the reserved group, also where that is listed.
    Reserved,
    /// 16 to 31: an address that the job lists, by its entry of the [`Table`](crate::Table), 0 to 15.
    Entry(u8),
}

impl Way {
    /// Document 02's number, 1, 6 to 8 or 16 to 31; 0 for an entry above 15, which no table has.
    ///
    /// ```
    /// use fenhamper::Way;
    ///
    /// assert_eq!([Way::Own, Way::Entry(0), Way::Entry(15)].map(Way::number), [1, 16, 31]);
    /// assert_eq!(Way::Entry(16).number(), 0);
    /// ```
    #[must_use]
    pub const fn number(self) -> u8 {
        match self {
            Way::Own => sys::WAY_OWN,
            Way::Broadcast => sys::WAY_BROADCAST,
            Way::Promiscuous => sys::WAY_PROMISCUOUS,
            Way::Reserved => sys::WAY_RESERVED,
            Way::Entry(entry) if (entry as usize) < sys::ENTRIES => sys::WAY_ENTRY + entry,
            Way::Entry(_) => sys::WAY_NONE,
        }
    }

    /// The way of a number, if there is one; none for 0, which stands for a frame not let in, and for
    /// 2 to 5, which stand in logs kept before there was a table, for listed addresses.
    ///
    /// ```
    /// use fenhamper::Way;
    ///
    /// assert_eq!(Way::from_number(19), Some(Way::Entry(3)));
    /// assert_eq!(Way::from_number(6), Some(Way::Broadcast));
    /// assert_eq!([0, 2, 9, 32].map(Way::from_number), [None; 4]);
    /// ```
    #[must_use]
    pub const fn from_number(number: u8) -> Option<Way> {
        Some(match number {
            sys::WAY_OWN => Way::Own,
            sys::WAY_BROADCAST => Way::Broadcast,
            sys::WAY_PROMISCUOUS => Way::Promiscuous,
            sys::WAY_RESERVED => Way::Reserved,
            sys::WAY_ENTRY.. => {
                let entry = number - sys::WAY_ENTRY;
                if entry as usize >= sys::ENTRIES {
                    return None;
                }
                Way::Entry(entry)
            }
            _ => return None,
        })
    }

    // Of an answer's number: 0 is none, and any other must have a meaning here.
    pub(crate) fn check(number: u64) -> Result<Option<Way>, Refusal> {
        match u8::try_from(number) {
            Ok(sys::WAY_NONE) => Ok(None),
            Ok(number) => Way::from_number(number)
                .map(Some)
                .ok_or(Refusal::Unknown(0)),
            Err(_) => Err(Refusal::Unknown(0)),
        }
    }
}

/// In words.
///
/// ```
/// use fenhamper::Way;
///
/// assert_eq!(Way::Own.to_string(), "own address");
/// assert_eq!(Way::Entry(2).to_string(), "listed entry 2");
/// assert_eq!(Way::Reserved.to_string(), "reserved group");
/// ```
impl fmt::Display for Way {
    fn fmt(&self, f: &mut fmt::Formatter<'_>) -> fmt::Result {
        f.pad(match self {
            Way::Own => "own address",
            Way::Broadcast => "broadcast",
            Way::Promiscuous => "promiscuous",
            Way::Reserved => "reserved group",
            Way::Entry(entry) => return write!(f, "listed entry {entry}"),
        })
    }
}

/// The status word of a counted Start; 0 for outcomes 1 to 7.
///
/// ```
/// use fenhamper::Status;
///
/// // a pause frame to the reserved group, 64 octets
/// let status = Status::new(0x2C0040002E);
/// assert!(status.pause() && status.control() && status.multicast());
/// assert_eq!((status.frame_length(), status.data_length()), (64, 46));
/// ```
#[derive(Clone, Copy, Default, PartialEq, Eq, PartialOrd, Ord, Hash)]
pub struct Status(u64);

impl Status {
    /// The status of a word.
    #[must_use]
    pub const fn new(word: u64) -> Status {
        Status(word)
    }

    /// The word itself.
    #[must_use]
    pub const fn word(self) -> u64 {
        self.0
    }

    const fn has(self, mask: u64) -> bool {
        self.0 & mask != 0
    }

    /// Bit 39: PFC taken.
    #[must_use]
    pub const fn pfc(self) -> bool {
        self.has(sys::STATUS_PFC)
    }

    /// Bit 38: to one station.
    #[must_use]
    pub const fn unicast(self) -> bool {
        self.has(sys::STATUS_UNICAST)
    }

    /// Bit 37: to a group other than broadcast.
    #[must_use]
    pub const fn multicast(self) -> bool {
        self.has(sys::STATUS_MULTICAST)
    }

    /// Bit 36: broadcast.
    #[must_use]
    pub const fn broadcast(self) -> bool {
        self.has(sys::STATUS_BROADCAST)
    }

    /// Bit 35: pause taken.
    #[must_use]
    pub const fn pause(self) -> bool {
        self.has(sys::STATUS_PAUSE)
    }

    /// Bit 34: a control frame.
    #[must_use]
    pub const fn control(self) -> bool {
        self.has(sys::STATUS_CONTROL)
    }

    /// Bit 33: exactly one tag.
    ///
    /// ```
    /// use fenhamper::Status;
    ///
    /// // no tag, one tag, two tags or more
    /// let words = [0x4000400000, 0x4200440000, 0x4100480000].map(Status::new);
    /// assert_eq!(words.map(Status::tagged), [false, true, false]);
    /// assert_eq!(words.map(Status::stacked), [false, false, true]);
    /// ```
    #[must_use]
    pub const fn tagged(self) -> bool {
        self.has(sys::STATUS_TAGGED)
    }

    /// Bit 32: two tags or more.
    #[must_use]
    pub const fn stacked(self) -> bool {
        self.has(sys::STATUS_STACKED)
    }

    /// Bits 31 to 16: octets from destination to FCS.
    #[must_use]
    pub const fn frame_length(self) -> u16 {
        (self.0 >> 16) as u16
    }

    /// Bits 15 to 0: octets handed out, or all of the data for outcomes 8 to 10.
    #[must_use]
    pub const fn data_length(self) -> u16 {
        self.0 as u16
    }
}

/// Its bits' names and its lengths; "none" for a word of 0.
///
/// ```
/// use fenhamper::Status;
///
/// let status = Status::new(0x42006A0054);
/// assert_eq!(status.to_string(), "unicast, tagged, frame 106, data 84");
/// assert_eq!(Status::default().to_string(), "none");
/// ```
impl fmt::Display for Status {
    fn fmt(&self, f: &mut fmt::Formatter<'_>) -> fmt::Result {
        if self.0 == 0 {
            return f.pad("none");
        }
        let names = [
            (self.unicast(), "unicast"),
            (self.multicast(), "multicast"),
            (self.broadcast(), "broadcast"),
            (self.control(), "control"),
            (self.pause(), "pause taken"),
            (self.pfc(), "PFC taken"),
            (self.tagged(), "tagged"),
            (self.stacked(), "stacked"),
        ];
        for (_, name) in names.into_iter().filter(|(on, _)| *on) {
            write!(f, "{name}, ")?;
        }
        write!(
            f,
            "frame {}, data {}",
            self.frame_length(),
            self.data_length()
        )
    }
}

impl fmt::Debug for Status {
    fn fmt(&self, f: &mut fmt::Formatter<'_>) -> fmt::Result {
        write!(f, "Status({:#012X})", self.0)
    }
}
