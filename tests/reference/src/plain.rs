//! "A plain reader", item 12 of document 02: it takes one symbol at a time and
//! keeps nothing of the capture but the first octets of the run in progress.
//! Refusals, address rule, counters and timers are those of the reading. All
//! other rules stand here once more, so that this reader and the walk can be held
//! against each other.

use crate::check::{fcs_update, Check};
use crate::frame::{number_at, MIN_FRAME};
use crate::line::{is_group, is_start, is_tag, BROADCAST, CONTROL_FIELD, DATA, FCS_LEN};
use crate::line::{FIRST_TYPE, LAST_LENGTH, MAX_TAGS, MIN_DATA, PAUSE_OPCODE, PFC_OPCODE};
use crate::line::{PREAMBLE, RESERVED_GROUP, TAG_LEN, TERMINATE};
use crate::refusal;
use crate::settings::{Flow, Outcome, Settings, State, BY_NONE, BY_RESERVED_GROUP};
use crate::table::Table;

/// Where the first field stands in a frame, behind the two addresses.
const FIELD_AT: usize = 12;
/// "the first octets" of a run: the rules look at none behind the preamble, the
/// addresses, eight tags and a field. The quanta of a control frame, which has
/// no tag, end before that.
const FIRST: usize = PREAMBLE.len() + FIELD_AT + MAX_TAGS * TAG_LEN + 2;
/// The register behind a frame that ends with the FCS of what is before it,
/// whatever that is; no other four octets lead to it.
const RIGHT: u32 = 0xDEBB_20E3;

/// The run in progress.
#[derive(Clone, Copy, Debug, PartialEq, Eq)]
struct Run {
    /// How many octets it has.
    count: usize,
    /// The first of them, with zeros behind a shorter run.
    first: [u8; FIRST],
    /// The running FCS, from the destination to the last octet.
    register: u32,
}

impl Run {
    /// The run right behind a Start.
    const EMPTY: Run = Run {
        count: 0,
        first: [0; FIRST],
        register: u32::MAX,
    };

    fn take(&mut self, kind: Check, octet: u8) {
        if let Some(first) = self.first.get_mut(self.count) {
            *first = octet;
        }
        if self.count >= PREAMBLE.len() {
            self.register = fcs_update(kind, self.register, &[octet]);
        }
        self.count += 1;
    }

    fn has_preamble(&self) -> bool {
        self.count >= PREAMBLE.len() && self.first.starts_with(&PREAMBLE)
    }

    // What follows is asked of a run with a preamble, and from `data` on of a
    // frame that isn't undersized, which has every part.

    /// Length from destination to FCS.
    fn length(&self) -> usize {
        self.count - PREAMBLE.len()
    }

    /// Two octets of the frame, high octet first.
    fn number(&self, at: usize) -> u16 {
        number_at(&self.first, PREAMBLE.len() + at)
    }

    fn destination(&self) -> [u8; 6] {
        std::array::from_fn(|n| self.first[PREAMBLE.len() + n])
    }

    fn tags(&self) -> usize {
        let fields = (0..MAX_TAGS).map(|n| self.number(FIELD_AT + n * TAG_LEN));
        fields.take_while(|&field| is_tag(field)).count()
    }

    /// The field behind the last tag.
    fn field(&self) -> u16 {
        self.number(FIELD_AT + self.tags() * TAG_LEN)
    }

    /// Where the data begins in the frame.
    fn data_at(&self) -> usize {
        FIELD_AT + self.tags() * TAG_LEN + 2
    }

    /// Length of all the data.
    fn data(&self) -> usize {
        self.length() - self.data_at() - FCS_LEN
    }

    /// The field, if it tells the length of data that may be padded.
    fn short(&self) -> Option<usize> {
        let field = usize::from(self.field());
        (field < MIN_DATA).then_some(field)
    }

    /// "Length rule", with item 2 for short tagged frames.
    fn keeps_length(&self) -> bool {
        let (field, data) = (self.field(), self.data());
        if let Some(short) = self.short() {
            let bridged = short.max(MIN_DATA - self.tags() * TAG_LEN);
            return data == MIN_DATA || data == bridged;
        }
        field >= FIRST_TYPE || field <= LAST_LENGTH && data == usize::from(field)
    }

    /// Octets handed out.
    fn handed(&self, s: &Settings) -> usize {
        let short = self.short().filter(|_| s.checking);
        short.unwrap_or(self.data())
    }

    fn is_control(&self) -> bool {
        self.number(FIELD_AT) == CONTROL_FIELD
    }

    /// A control frame to the reserved group.
    fn is_to_group(&self) -> bool {
        self.is_control() && self.destination() == RESERVED_GROUP
    }

    fn opcode(&self) -> u16 {
        self.number(FIELD_AT + 2)
    }

    fn takes_pause(&self, s: &Settings) -> bool {
        let to_own = self.is_control() && self.destination() == s.own;
        (self.is_to_group() || to_own) && self.opcode() == PAUSE_OPCODE && s.flow == Flow::Pause
    }

    fn takes_pfc(&self, s: &Settings) -> bool {
        self.is_to_group() && self.opcode() == PFC_OPCODE && s.flow == Flow::Pfc
    }

    /// Item 7's number: which address lets the frame in.
    fn address(&self, s: &Settings, job: u8, table: &Table) -> u8 {
        if self.is_to_group() {
            BY_RESERVED_GROUP
        } else {
            s.let_in_by(job, table, &self.destination())
        }
    }

    /// The first rule that holds, of a run that ends with the control octet `by`.
    fn outcome(&self, s: &Settings, job: u8, table: &Table, by: u8) -> Outcome {
        if by != TERMINATE {
            Outcome::Cut
        } else if !self.has_preamble() {
            Outcome::BadPreamble
        } else if self.length() < MIN_FRAME {
            Outcome::Undersized
        } else if self.length() > usize::from(s.limit) + self.tags() * TAG_LEN {
            Outcome::Oversized
        } else if self.register != RIGHT {
            Outcome::WrongFcs
        } else if s.checking && !self.keeps_length() {
            Outcome::WrongLength
        } else if self.address(s, job, table) == BY_NONE {
            Outcome::Filtered
        } else if self.takes_pause(s) {
            Outcome::PauseTaken
        } else if self.takes_pfc(s) {
            Outcome::PfcTaken
        } else if self.is_control() && !s.pass_control {
            Outcome::ControlDropped
        } else {
            Outcome::HandedOut
        }
    }

    /// "Status word" of outcomes 8 to 11.
    fn status(&self, outcome: Outcome, data: usize) -> u64 {
        let group = is_group(&self.destination());
        let everyone = self.destination() == BROADCAST;
        let bits = [
            (39, outcome == Outcome::PfcTaken),
            (38, !group),
            (37, group && !everyone),
            (36, everyone),
            (35, outcome == Outcome::PauseTaken),
            (34, self.is_control()),
            (33, self.tags() == 1),
            (32, self.tags() > 1),
        ];
        let lengths = (self.length() << 16 | data) as u64;
        bits.iter()
            .fold(lengths, |word, &(bit, on)| word | u64::from(on) << bit)
    }

    /// Sets the timers by a pause or PFC frame.
    fn set_timers(&self, outcome: Outcome, state: &mut State) {
        if outcome == Outcome::PauseTaken {
            state.pause(self.number(16));
        }
        if outcome == Outcome::PfcTaken {
            // The octet at 16 is the unused one.
            let [_, named] = self.number(16).to_be_bytes();
            let quanta = std::array::from_fn(|class| self.number(18 + 2 * class));
            state.pause_classes(named, &quanta);
        }
    }
}

/// What the plain reader tells of a run that ended.
#[derive(Clone, Copy, Debug, PartialEq, Eq)]
pub struct Ended {
    /// Number of the outcome, 1 to 11.
    pub outcome: u8,
    /// The status word.
    pub status: u64,
    /// Where the client data begins in the capture; 0 for outcomes 1 to 10.
    pub at: usize,
    /// How many octets of client data there are; 0 for outcomes 1 to 10.
    pub len: usize,
    /// Which address let it in, as in a reading; 0 for outcomes 1 to 7.
    pub address: u8,
}

/// The plain reader of one capture: what it keeps from symbol to symbol. Fresh it
/// has taken no symbol, has no run and a fresh state.
#[derive(Clone, Copy, Debug, Default, PartialEq, Eq)]
pub struct PlainReader {
    taken: usize,
    run: Option<Run>,
    state: State,
}

impl PlainReader {
    /// A reader in front of a capture, with the counters and timers of this state.
    pub fn new(state: State) -> Self {
        PlainReader {
            state,
            ..PlainReader::default()
        }
    }

    /// How many symbols it took: the place of the next one in the capture.
    pub fn taken(&self) -> usize {
        self.taken
    }

    /// How many octets the run in progress has, if there is one: "exactly when
    /// the walk says `open`".
    pub fn run(&self) -> Option<usize> {
        self.run.map(|run| run.count)
    }

    /// The state with the counters and timers; the deficit count stays as it was.
    pub fn state(&self) -> &State {
        &self.state
    }

    /// Takes the next symbol, and "answers at each ending control symbol": at the
    /// first one behind a Start. Gives 1, 14, 20 and 2, in that order; a refused
    /// call leaves the reader.
    ///
    /// Open point: the symbol that ends a run is judged by the settings, job and
    /// table that come with it. Earlier symbols only had to come with valid ones.
    pub fn take(
        &mut self,
        kind: Check,
        s: &Settings,
        job: u8,
        table: &Table,
        octet: u8,
        mark: u8,
    ) -> Result<Option<Ended>, u8> {
        refusal::settings(s)?;
        refusal::job(job)?;
        refusal::table(table)?;
        refusal::symbols(self.taken)?;
        let mut ended = None;
        if mark == DATA {
            if let Some(run) = &mut self.run {
                run.take(kind, octet);
            }
        } else {
            if let Some(run) = self.run {
                ended = Some(self.end(&run, s, job, table, octet));
            }
            // "the Start that ended the run" isn't lost.
            self.run = is_start(octet, mark).then_some(Run::EMPTY);
        }
        self.taken += 1;
        Ok(ended)
    }

    /// Counts the outcome of the run that ends here, sets the timers and forms the
    /// answer.
    fn end(&mut self, run: &Run, s: &Settings, job: u8, table: &Table, by: u8) -> Ended {
        let outcome = run.outcome(s, job, table, by);
        self.state.count(outcome);
        run.set_timers(outcome, &mut self.state);
        let mut ended = Ended {
            outcome: outcome as u8,
            status: 0,
            at: 0,
            len: 0,
            address: BY_NONE,
        };
        if ended.outcome < Outcome::PauseTaken as u8 {
            return ended;
        }
        ended.address = run.address(s, job, table);
        ended.status = run.status(outcome, run.data());
        if outcome == Outcome::HandedOut {
            // The run ends right before the symbol that is taken now.
            ended.at = self.taken - run.length() + run.data_at();
            ended.len = run.handed(s);
            ended.status = run.status(outcome, ended.len);
        }
        ended
    }
}
