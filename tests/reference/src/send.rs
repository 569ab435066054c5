//! "Sending"; tags by "Stacked tags", item 1 of document 02, gaps by "The
//! four-lane port", item 5, and totals by "Starts per stretch", item 9, for the
//! calls of `counting`.

use crate::check::{fcs, Check};
use crate::line::{CONTROL, CONTROL_FIELD, CUSTOMER_TAG, DATA, FCS_LEN, IDLE, MIN_DATA};
use crate::line::{PAUSE_OPCODE, PFC_OPCODE, PREAMBLE, RESERVED_GROUP, SERVICE_TAG, START};
use crate::line::{TAG_LEN, TERMINATE};
use crate::port::{Gap, Port};
use crate::refusal;
use crate::settings::{is_named, Flow, Settings, State};
use crate::totals::{count_anew, Total};

/// The form of a client frame.
#[derive(Clone, Copy, Debug, PartialEq, Eq)]
pub enum Form {
    /// The field is the data's length.
    Length,
    /// The field is this type.
    Type(u16),
}

/// The kinds of tags, by their names in IEEE 802.1Q.
#[derive(Clone, Copy, Debug, PartialEq, Eq)]
pub enum TagKind {
    /// 0x8100.
    Customer,
    /// 0x88A8.
    Service,
}

/// A tag.
#[derive(Clone, Copy, Debug, PartialEq, Eq)]
pub struct Tag {
    /// Its kind.
    pub kind: TagKind,
    /// Its tag control.
    pub control: u16,
}

impl Tag {
    /// As it stands in a frame.
    fn octets(&self) -> [u8; TAG_LEN] {
        let kind = match self.kind {
            TagKind::Customer => CUSTOMER_TAG,
            TagKind::Service => SERVICE_TAG,
        };
        let ([a, b], [c, d]) = (kind.to_be_bytes(), self.control.to_be_bytes());
        [a, b, c, d]
    }
}

/// What a client frame names besides its data.
#[derive(Clone, Debug, PartialEq, Eq)]
pub struct Client {
    /// Destination.
    pub dest: [u8; 6],
    /// Tags, the outermost first; more than eight are refused.
    pub tags: Vec<Tag>,
    /// Length or type.
    pub form: Form,
    /// Class, 0 to 7; above that is refused.
    pub class: u8,
}

/// What a sending call answers.
#[derive(Clone, Copy, Debug, PartialEq, Eq)]
pub enum Sent {
    /// Written; holds the place after what was written.
    Wrote(usize),
    /// Refused, with the number of the refusal.
    Refused(u8),
}

impl From<Result<usize, u8>> for Sent {
    fn from(result: Result<usize, u8>) -> Self {
        result.map_or_else(Sent::Refused, Sent::Wrote)
    }
}

/// The lent buffers and the place to write from.
pub(crate) struct Line<'a> {
    octets: &'a mut [u8],
    marks: &'a mut [u8],
    place: usize,
    /// The totals of the capture, if the call takes them.
    totals: Option<&'a mut [Total]>,
}

impl<'a> Line<'a> {
    pub(crate) fn new(octets: &'a mut [u8], marks: &'a mut [u8], place: usize) -> Self {
        Line {
            octets,
            marks,
            place,
            totals: None,
        }
    }

    pub(crate) fn with_totals(
        octets: &'a mut [u8],
        marks: &'a mut [u8],
        totals: &'a mut [Total],
        place: usize,
    ) -> Self {
        Line {
            totals: Some(totals),
            ..Line::new(octets, marks, place)
        }
    }

    /// Refusals 2 and 3, then 21 and 22.
    fn check(&self) -> refusal::Checked {
        refusal::line(self.octets, self.marks, self.place)?;
        self.check_totals()
    }

    /// Refusals 2, 3 and 19 of a frame on this port, then 21 and 22.
    fn check_frame(&self, state: &State, port: Port) -> refusal::Checked {
        refusal::line(self.octets, self.marks, self.place)?;
        refusal::port(port, state, self.place)?;
        self.check_totals()
    }

    /// Refusals 21 and 22.
    fn check_totals(&self) -> refusal::Checked {
        let Some(totals) = &self.totals else {
            return Ok(());
        };
        refusal::blocks(self.octets, totals)?;
        refusal::totals(totals)
    }

    /// Refusal 8.
    fn has_room(&self, symbols: usize) -> refusal::Checked {
        refusal::room(self.octets, self.place, symbols)
    }

    /// "counts anew the blocks it writes into": what was written ends before
    /// `after`.
    fn count_anew(self, after: usize) {
        if let Some(totals) = self.totals {
            count_anew(self.octets, self.marks, totals, self.place..after);
        }
    }
}

/// Octets before the frame: Start and preamble.
const OPENING: usize = 1 + PREAMBLE.len();
/// Zeros to pad with.
const ZEROS: [u8; MIN_DATA] = [0; MIN_DATA];

/// A frame to send: the parts that follow each other from the destination to
/// the end of data, and the zeros behind them.
struct Outgoing<'a> {
    parts: [&'a [u8]; 5],
    padding: &'static [u8],
}

impl<'a> Outgoing<'a> {
    /// Puts source, tags and padding where they belong.
    fn new(
        dest: &'a [u8; 6],
        s: &'a Settings,
        tags: &'a [u8],
        field: &'a [u8; 2],
        data: &'a [u8],
    ) -> Self {
        Outgoing {
            parts: [dest, &s.own, tags, field, data],
            padding: &ZEROS[data.len().min(MIN_DATA)..],
        }
    }

    fn parts(&self) -> impl Iterator<Item = &[u8]> {
        self.parts.into_iter().chain([self.padding])
    }

    /// Octets that the FCS covers.
    fn covered(&self) -> usize {
        self.parts().map(<[u8]>::len).sum()
    }

    /// Symbols from Start to the last octet of the FCS.
    fn symbols(&self) -> usize {
        OPENING + self.covered() + FCS_LEN
    }

    /// The gap behind it: its Terminate stands right behind the FCS.
    fn gap(&self, state: &State, port: Port, line: &Line) -> Gap {
        port.gap(line.place + self.symbols(), state.deficit)
    }

    /// Writes the frame and its gap where room was found for them, and gives
    /// the place after them.
    fn write(&self, kind: Check, state: &mut State, line: Line, gap: Gap) -> usize {
        let covered = self.covered();
        let symbols = self.symbols() + gap.symbols;
        let after = line.place + symbols;

        let octets = &mut line.octets[line.place..after];
        let (opening, octets) = octets.split_at_mut(OPENING);
        let (frame, octets) = octets.split_at_mut(covered);
        let (check, closing) = octets.split_at_mut(FCS_LEN);
        opening[0] = START;
        opening[1..].copy_from_slice(&PREAMBLE);
        let mut at = 0;
        for part in self.parts() {
            frame[at..at + part.len()].copy_from_slice(part);
            at += part.len();
        }
        check.copy_from_slice(&fcs(kind, frame).to_le_bytes());
        closing.fill(IDLE);
        closing[0] = TERMINATE;

        let marks = &mut line.marks[line.place..after];
        marks.fill(DATA);
        marks[0] = CONTROL;
        marks[self.symbols()..].fill(CONTROL);

        state.pass(symbols);
        state.deficit = gap.deficit;
        line.count_anew(after);
        after
    }
}

/// Sends a client frame, unless the timer of its class runs.
#[allow(clippy::too_many_arguments)] // The shape is that of the compared call.
pub fn send_client(
    kind: Check,
    s: &Settings,
    state: &mut State,
    port: Port,
    octets: &mut [u8],
    marks: &mut [u8],
    place: usize,
    client: &Client,
    data: &[u8],
) -> Sent {
    let line = Line::new(octets, marks, place);
    client_frame(kind, s, state, port, line, client, data).into()
}

pub(crate) fn client_frame(
    kind: Check,
    s: &Settings,
    state: &mut State,
    port: Port,
    line: Line,
    client: &Client,
    data: &[u8],
) -> Result<usize, u8> {
    refusal::settings(s)?;
    line.check_frame(state, port)?;
    refusal::class(client.class)?;
    refusal::form(client.form)?;
    refusal::tags(&client.tags)?;
    refusal::data(s, client.form, data.len())?;

    let field = match client.form {
        // At most 1500, by refusal 7.
        Form::Length => data.len() as u16,
        Form::Type(field) => field,
    }
    .to_be_bytes();
    let tags: Vec<u8> = client.tags.iter().flat_map(Tag::octets).collect();
    let frame = Outgoing::new(&client.dest, s, &tags, &field, data);

    let gap = frame.gap(state, port, &line);
    line.has_room(frame.symbols() + gap.symbols)?;
    refusal::timer(state, client.class)?;
    Ok(frame.write(kind, state, line, gap))
}

/// Sends a pause frame, whatever the timers are.
#[allow(clippy::too_many_arguments)] // The shape is that of the compared call.
pub fn send_pause(
    kind: Check,
    s: &Settings,
    state: &mut State,
    port: Port,
    octets: &mut [u8],
    marks: &mut [u8],
    place: usize,
    quanta: u16,
) -> Sent {
    let line = Line::new(octets, marks, place);
    pause_frame(kind, s, state, port, line, quanta).into()
}

pub(crate) fn pause_frame(
    kind: Check,
    s: &Settings,
    state: &mut State,
    port: Port,
    line: Line,
    quanta: u16,
) -> Result<usize, u8> {
    let mut data = [0; 4];
    data[..2].copy_from_slice(&PAUSE_OPCODE.to_be_bytes());
    data[2..].copy_from_slice(&quanta.to_be_bytes());
    control_frame(kind, s, state, port, line, Flow::Pause, &data)
}

/// Sends a PFC frame, whatever the timers are. Bit n of `named` names class
/// n; the quanta of a class that isn't named are sent as zero.
#[allow(clippy::too_many_arguments)] // The shape is that of the compared call.
pub fn send_pfc(
    kind: Check,
    s: &Settings,
    state: &mut State,
    port: Port,
    octets: &mut [u8],
    marks: &mut [u8],
    place: usize,
    named: u8,
    quanta: &[u16; 8],
) -> Sent {
    let line = Line::new(octets, marks, place);
    pfc_frame(kind, s, state, port, line, named, quanta).into()
}

pub(crate) fn pfc_frame(
    kind: Check,
    s: &Settings,
    state: &mut State,
    port: Port,
    line: Line,
    named: u8,
    quanta: &[u16; 8],
) -> Result<usize, u8> {
    let mut data = [0; 20];
    data[..2].copy_from_slice(&PFC_OPCODE.to_be_bytes());
    data[3] = named;
    let fields = data[4..].chunks_exact_mut(2);
    for (class, (field, quanta)) in fields.zip(quanta).enumerate() {
        if is_named(named, class) {
            field.copy_from_slice(&quanta.to_be_bytes());
        }
    }
    control_frame(kind, s, state, port, line, Flow::Pfc, &data)
}

/// A control frame: both kinds have 46 octets of data, the rest of which is
/// zeros, so the padding of short data does for the 42 and the 26.
fn control_frame(
    kind: Check,
    s: &Settings,
    state: &mut State,
    port: Port,
    line: Line,
    asked: Flow,
    data: &[u8],
) -> Result<usize, u8> {
    refusal::settings(s)?;
    line.check_frame(state, port)?;
    refusal::flow(s, asked)?;
    let field = CONTROL_FIELD.to_be_bytes();
    let frame = Outgoing::new(&RESERVED_GROUP, s, &[], &field, data);
    let gap = frame.gap(state, port, &line);
    line.has_room(frame.symbols() + gap.symbols)?;
    Ok(frame.write(kind, state, line, gap))
}

/// Writes `n` Idles.
pub fn fill_idle(
    state: &mut State,
    octets: &mut [u8],
    marks: &mut [u8],
    place: usize,
    n: usize,
) -> Sent {
    idles(state, Line::new(octets, marks, place), n).into()
}

pub(crate) fn idles(state: &mut State, line: Line, n: usize) -> Result<usize, u8> {
    line.check()?;
    line.has_room(n)?;
    let after = line.place + n;
    line.octets[line.place..after].fill(IDLE);
    line.marks[line.place..after].fill(CONTROL);
    state.pass(n);
    line.count_anew(after);
    Ok(after)
}
