//! Sending frames.
use crate::address::Address;
use crate::answers::Refusal;
use crate::lent::{Lends, Lent};
use crate::port::Port;
use crate::receive::Capture;
use crate::settings::Settings;
use crate::state::State;
use crate::sys;
use crate::tag::{List, Tag};
use core::fmt;

/// The form of a client frame: what its field is.
///
/// ```
/// use fenhamper::{Address, Form, Frame};
///
/// let frame = Frame::to(Address::BROADCAST);
/// assert_eq!(frame.form(), Form::Length);
/// assert_eq!(frame.by_type(0x0800).form(), Form::Type(0x0800));
/// ```
#[derive(Clone, Copy, Debug, PartialEq, Eq, Hash)]
pub enum Form {
    /// The data's length.
    Length,
    /// This type.
    Type(u16),
}

/// A client frame but for its data: untagged, in the length form and of class 0 unless said
/// otherwise. Its source is the own address.
///
/// Any frame can be named; one that the rules do not allow is refused when it is sent.
///
/// ```
/// use fenhamper::{Address, Frame, Tag};
///
/// let to = Address([0x02, 0, 0, 0, 0, 9]);
/// assert_eq!(Frame::to(to), Frame::to(to).by_length().class(0));
/// let tagged = Frame::to(to).tag(Tag::customer(0xE005));
/// assert_ne!(Frame::to(to), tagged.by_type(0x0800).class(7));
/// assert_eq!(
///     format!("{:?}", tagged.by_type(0x0800)),
///     "Frame { to: Address(02-00-00-00-00-09), tags: [Tag { kind: Customer, control: 57349 }], \
///      tag_count: 1, form: Type(2048), class: 0 }"
/// );
/// ```
#[derive(Clone, Copy, PartialEq, Eq, Hash)]
#[must_use]
pub struct Frame {
    // as the header lays it out: a call lends it as it is; zeros where there is no tag or type
    record: sys::Client,
}

impl Frame {
    /// A frame to this destination.
    pub const fn to(destination: Address) -> Frame {
        Frame {
            record: sys::Client {
                destination: destination.record(),
                traffic_class: 0,
                form: sys::FORM_LENGTH,
                r#type: 0,
                tag_count: 0,
                spare: 0,
                tags: [NO_TAG; sys::MOST_TAGS],
            },
        }
    }

    /// With one more tag, inside those named before: the first named is the outermost. There is
    /// room for eight; a frame with more is refused (10). A tag's priority bits do not name the
    /// class.
    ///
    /// ```
    /// use fenhamper::{Address, Capture, Frame, Reading, Sender, Settings, State, Tag};
    ///
    /// let own = Address([0x02, 0, 0, 0, 0, 1]);
    /// let (settings, mut state) = (Settings::new(own), State::default());
    /// let (mut octets, mut marks) = ([0; 92], [0; 92]);
    /// // a provider's tag outside a customer's
    /// let frame = Frame::to(own)
    ///     .tag(Tag::service(100))
    ///     .tag(Tag::customer(5));
    /// let mut sender = Sender::new(&mut octets, &mut marks);
    /// sender.client(&settings, &mut state, &frame, b"data")?;
    /// assert_eq!(octets[20..28], [0x88, 0xA8, 0, 100, 0x81, 0x00, 0, 5]);
    /// let capture = Capture::new(&octets, &marks);
    /// let Reading::Counted(r) = capture.read(&settings, &mut state, 0)? else {
    ///     panic!("no frame")
    /// };
    /// assert!(r.status.stacked());
    /// assert_eq!(r.data, b"data");
    /// # Ok::<(), fenhamper::Refusal>(())
    /// ```
    pub const fn tag(mut self, tag: Tag) -> Frame {
        let count = self.record.tag_count;
        if (count as usize) < sys::MOST_TAGS {
            self.record.tags[count as usize] = tag.record();
        }
        // 255 stands for more, too
        self.record.tag_count = count.saturating_add(1);
        self
    }

    /// With these tags, the outermost first, in place of those named before. More than eight are
    /// refused (10).
    ///
    /// ```
    /// use fenhamper::{Address, Frame, Refusal, Sender, Settings, State, Tag};
    ///
    /// let to = Frame::to(Address([0x02, 0, 0, 0, 0, 9]));
    /// let tags = [Tag::service(100), Tag::customer(5)];
    /// assert_eq!(to.tags(&tags), to.tag(tags[0]).tag(tags[1]));
    /// assert_eq!(to.tags(&tags).tags(&[]), to);
    ///
    /// let (mut octets, mut marks) = ([0; 200], [0; 200]);
    /// let mut sender = Sender::new(&mut octets, &mut marks);
    /// let (settings, mut state) = (Settings::default(), State::default());
    /// let mut send = |tags: &[Tag]| sender.client(&settings, &mut state, &to.tags(tags), b"");
    /// assert_eq!(send(&[Tag::customer(5); 8]), Ok(84 + 8 * 4));
    /// assert_eq!(send(&[Tag::customer(5); 9]), Err(Refusal::ManyTags));
    /// ```
    pub const fn tags(mut self, tags: &[Tag]) -> Frame {
        self.record.tag_count = 0;
        self.record.tags = [NO_TAG; sys::MOST_TAGS];
        let mut k = 0;
        while k < tags.len() {
            self = self.tag(tags[k]);
            k += 1;
        }
        self
    }

    /// In the type form: the field is this type. Under 1536, 0x8100, 0x8808 and 0x88A8 are refused
    /// (6). Data under 46 octets comes out at the other end followed by zeros to 46.
    pub const fn by_type(mut self, field: u16) -> Frame {
        self.record.form = sys::FORM_TYPE;
        self.record.r#type = field;
        self
    }

    /// In the length form: the field is the data's length, and the data comes out at the other end
    /// as it went in.
    pub const fn by_length(mut self) -> Frame {
        self.record.form = sys::FORM_LENGTH;
        self.record.r#type = 0;
        self
    }

    /// Of this class, whose timer can hold it. Above 7 is refused (5).
    pub const fn class(mut self, class: u8) -> Frame {
        self.record.traffic_class = class;
        self
    }

    /// The destination.
    ///
    /// ```
    /// use fenhamper::{Address, Form, Frame, Tag};
    ///
    /// let tags = [Tag::service(100), Tag::customer(5)];
    /// let frame = Frame::to(Address::BROADCAST).tags(&tags).class(3);
    /// assert_eq!(frame.destination(), Address::BROADCAST);
    /// assert!(frame.tag_list().eq(tags));
    /// assert_eq!((frame.form(), frame.class_number()), (Form::Length, 3));
    /// ```
    #[must_use]
    pub const fn destination(&self) -> Address {
        Address::of(self.record.destination)
    }

    /// The tags, the outermost first: none beyond the eighth, though more are refused.
    #[must_use]
    pub fn tag_list(&self) -> impl ExactSizeIterator<Item = Tag> + Clone + '_ {
        let tags = self.record.tags.iter();
        tags.take(self.record.tag_count.into())
            .map(|tag| Tag::of(*tag))
    }

    /// The form.
    #[must_use]
    pub const fn form(&self) -> Form {
        match self.record.form {
            sys::FORM_LENGTH => Form::Length,
            _ => Form::Type(self.record.r#type),
        }
    }

    /// The class.
    #[must_use]
    pub const fn class_number(&self) -> u8 {
        self.record.traffic_class
    }

    pub(crate) const fn record(&self) -> &sys::Client {
        &self.record
    }
}

// What stands beyond the count.
const NO_TAG: sys::Tag = Tag::customer(0).record();

impl fmt::Debug for Frame {
    fn fmt(&self, f: &mut fmt::Formatter<'_>) -> fmt::Result {
        f.debug_struct("Frame")
            .field("to", &self.destination())
            .field("tags", &List(self.tag_list()))
            .field("tag_count", &self.record.tag_count)
            .field("form", &self.form())
            .field("class", &self.class_number())
            .finish()
    }
}

/// Line buffers that are lent for writing, the place where the next symbols go, and the port that
/// frames go to. A [`Line`](crate::Line) is the same with totals of the Starts.
///
/// Each call that writes moves the place on and gives it, and lowers every timer by the symbols
/// written. A refused one leaves the place, the state and every symbol.
///
/// ```
/// use fenhamper::{Address, Capture, Frame, Sender, Settings, State, Tag};
///
/// let own = Address([0x02, 0, 0, 0, 0, 1]);
/// let (settings, mut state) = (Settings::new(own), State::default());
/// let (mut octets, mut marks) = ([0; 200], [0; 200]);
/// let mut sender = Sender::new(&mut octets, &mut marks);
/// sender.client(&settings, &mut state, &Frame::to(own), b"one")?;
/// let tagged = Frame::to(own).tag(Tag::customer(5));
/// sender.client(&settings, &mut state, &tagged, b"two")?;
/// let end = sender.idle(&mut state, 28)?;
/// assert_eq!(end, 200);
/// let walk = Capture::new(&octets, &marks).walk(&settings, &mut state)?;
/// assert_eq!((walk.starts, walk.open), (2, false));
/// # Ok::<(), fenhamper::Refusal>(())
/// ```
#[derive(Debug)]
pub struct Sender<'b> {
    octets: &'b mut [u8],
    marks: &'b mut [u8],
    place: usize,
    port: Port,
}

impl<'b> Sender<'b> {
    /// A sender into these octets and marks, from place 0 on, on the plain port.
    ///
    /// Any two slices will do; if they differ in length or exceed [`SYMBOLS`](crate::SYMBOLS),
    /// every sending is refused (2).
    #[must_use]
    pub fn new(octets: &'b mut [u8], marks: &'b mut [u8]) -> Sender<'b> {
        Sender {
            octets,
            marks,
            place: 0,
            port: Port::Plain,
        }
    }

    /// The same buffers, with the next symbols going to this place. Beyond the buffers every
    /// sending is refused (3).
    ///
    /// ```
    /// use fenhamper::{Sender, State};
    ///
    /// let (mut octets, mut marks) = ([0; 8], [0; 8]);
    /// let mut sender = Sender::new(&mut octets, &mut marks).at(5);
    /// assert_eq!(sender.idle(&mut State::default(), 2), Ok(7));
    /// assert_eq!(sender.place(), 7);
    /// assert_eq!(octets, [0, 0, 0, 0, 0, 7, 7, 0]);
    /// ```
    #[must_use]
    pub fn at(mut self, place: usize) -> Sender<'b> {
        self.place = place;
        self
    }

    /// The same buffers, with the next frames going to this port: on the four-lane one a place not
    /// divisible by four (3) and a deficit count above 3 (19) are refused, and gaps vary. Idle fill
    /// takes any place on either.
    ///
    /// A sender stays on its port until it is told otherwise; frames of both can stand on one line.
    ///
    /// ```
    /// use fenhamper::{Address, Frame, Port, Refusal, Sender, Settings, State};
    ///
    /// let (settings, mut state) = (Settings::default(), State::default());
    /// let frame = Frame::to(Address::BROADCAST);
    /// let (mut octets, mut marks) = ([0; 300], [0; 300]);
    /// let mut sender = Sender::new(&mut octets, &mut marks);
    /// // 47 octets of data: a gap of 12 ends at 85, one past a multiple of four
    /// assert_eq!(sender.client(&settings, &mut state, &frame, &[7; 47]), Ok(85));
    /// let mut sender = sender.on(Port::FourLane);
    /// assert_eq!(
    ///     sender.client(&settings, &mut state, &frame, &[7; 47]),
    ///     Err(Refusal::BadPlace)
    /// );
    /// sender.idle(&mut state, 3)?;
    /// // from 88 on a gap of 12 would end at 173, and one of 11 ends at 172
    /// assert_eq!(sender.client(&settings, &mut state, &frame, &[7; 47]), Ok(172));
    /// assert_eq!((sender.port(), state.deficit()), (Port::FourLane, 1));
    /// # Ok::<(), Refusal>(())
    /// ```
    #[must_use]
    pub fn on(mut self, port: Port) -> Sender<'b> {
        self.port = port;
        self
    }

    /// The port that the next frames go to.
    #[must_use]
    pub fn port(&self) -> Port {
        self.port
    }

    /// Where the next symbols go.
    #[must_use]
    pub fn place(&self) -> usize {
        self.place
    }

    /// The buffers as they stand, to be read.
    ///
    /// ```
    /// use fenhamper::{Sender, State};
    ///
    /// let (mut octets, mut marks) = ([0; 4], [0; 4]);
    /// let mut sender = Sender::new(&mut octets, &mut marks);
    /// sender.idle(&mut State::default(), 3)?;
    /// assert_eq!(sender.capture().marks, [1, 1, 1, 0]);
    /// # Ok::<(), fenhamper::Refusal>(())
    /// ```
    #[must_use]
    pub fn capture(&self) -> Capture<'_> {
        Capture::new(self.octets, self.marks)
    }

    /// The symbols before the place: what was written, if the sender began at place 0.
    ///
    /// ```
    /// use fenhamper::{Sender, State};
    ///
    /// let (mut octets, mut marks) = ([0; 4], [0; 4]);
    /// let mut sender = Sender::new(&mut octets, &mut marks);
    /// sender.idle(&mut State::default(), 3)?;
    /// assert_eq!(sender.written().octets, [7, 7, 7]);
    /// # Ok::<(), fenhamper::Refusal>(())
    /// ```
    #[must_use]
    pub fn written(&self) -> Capture<'_> {
        let octets = self.octets.get(..self.place).unwrap_or(self.octets);
        let marks = self.marks.get(..self.place).unwrap_or(self.marks);
        Capture::new(octets, marks)
    }

    /// Writes a client frame and its gap, unless the timer of its class is above zero (9).
    ///
    /// ```
    /// use fenhamper::{Address, Frame, Refusal, Sender, Settings, State};
    ///
    /// let settings = Settings::default();
    /// let frame = Frame::to(Address::BROADCAST).class(2);
    /// let (mut octets, mut marks) = ([0; 512], [0; 512]);
    /// let mut sender = Sender::new(&mut octets, &mut marks);
    /// let mut state = State::with([0; 11], [0, 0, 128, 0, 0, 0, 0, 0]);
    /// assert_eq!(
    ///     sender.client(&settings, &mut state, &frame, b"data"),
    ///     Err(Refusal::Held)
    /// );
    /// // the class is let go once its slots are written
    /// sender.idle(&mut state, 128)?;
    /// assert_eq!(
    ///     sender.client(&settings, &mut state, &frame, b"data"),
    ///     Ok(128 + 84)
    /// );
    /// # Ok::<(), Refusal>(())
    /// ```
    ///
    /// # Errors
    ///
    /// Refusals 1 to 3, 5 to 10 and 19, the lowest number first, but that 10 comes after 6 and
    /// before 7, and 19 right after 3.
    pub fn client(
        &mut self,
        settings: &Settings,
        state: &mut State,
        frame: &Frame,
        data: &[u8],
    ) -> Result<usize, Refusal> {
        self.lent().client(settings, state, frame, data)
    }

    /// Writes a pause frame and its gap, whatever the timers say. In another flow mode than pause
    /// it is refused (4).
    ///
    /// ```
    /// use fenhamper::{Flow, Refusal, Sender, Settings, State};
    ///
    /// let settings = Settings::default().flow(Flow::Pause);
    /// let (mut octets, mut marks) = ([0; 84], [0; 84]);
    /// let mut sender = Sender::new(&mut octets, &mut marks);
    /// let mut state = State::default();
    /// sender.pause(&settings, &mut state, 2)?;
    /// // read by a station in the same mode, it holds every class for two quanta of 64 slots
    /// sender.capture().walk(&settings, &mut state)?;
    /// assert_eq!(state.timers(), [128; 8]);
    /// # Ok::<(), Refusal>(())
    /// ```
    ///
    /// # Errors
    ///
    /// Refusals 1 to 4, 8 and 19, the lowest number first, but that 19 comes right after 3.
    pub fn pause(
        &mut self,
        settings: &Settings,
        state: &mut State,
        quanta: u16,
    ) -> Result<usize, Refusal> {
        self.lent().pause(settings, state, quanta)
    }

    /// Writes a PFC frame and its gap, whatever the timers say. Bit n of `named` names class n;
    /// quanta of a class not named go out as zero. In another flow mode than PFC it is refused
    /// (4).
    ///
    /// ```
    /// use fenhamper::{Flow, Refusal, Sender, Settings, State};
    ///
    /// let settings = Settings::default().flow(Flow::Pfc);
    /// let (mut octets, mut marks) = ([0; 84], [0; 84]);
    /// let mut sender = Sender::new(&mut octets, &mut marks);
    /// let mut state = State::default();
    /// sender.pfc(
    ///     &settings,
    ///     &mut state,
    ///     1 << 0 | 1 << 7,
    ///     [1, 2, 3, 4, 5, 6, 7, 8],
    /// )?;
    /// sender.capture().walk(&settings, &mut state)?;
    /// assert_eq!(state.timers(), [64, 0, 0, 0, 0, 0, 0, 512]);
    /// # Ok::<(), Refusal>(())
    /// ```
    ///
    /// # Errors
    ///
    /// Refusals 1 to 4, 8 and 19, the lowest number first, but that 19 comes right after 3.
    pub fn pfc(
        &mut self,
        settings: &Settings,
        state: &mut State,
        named: u8,
        quanta: [u16; 8],
    ) -> Result<usize, Refusal> {
        self.lent().pfc(settings, state, named, quanta)
    }

    /// Writes `n` Idles.
    ///
    /// # Errors
    ///
    /// Refusals 2, 3 and 8, the lowest number first.
    pub fn idle(&mut self, state: &mut State, n: usize) -> Result<usize, Refusal> {
        self.lent().idle(state, n)
    }

    pub(crate) fn buffers(&mut self) -> (&mut [u8], &mut [u8]) {
        (self.octets, self.marks)
    }
}

impl Lends for Sender<'_> {
    fn lent(&mut self) -> Lent<'_> {
        Lent {
            octets: self.octets,
            marks: self.marks,
            totals: None,
            place: &mut self.place,
            port: self.port,
        }
    }
}

#[cfg(test)]
mod tests {
    use super::*;
    use crate::table::NOTHING_LISTED;

    // Of a port only whether it is 0.
    #[test]
    fn a_port_is_0_or_not() {
        let settings = *Settings::default().record();
        let client = Frame::to(Address::BROADCAST).record;
        for port in 0..=255 {
            let (mut octets, mut marks) = ([0; 100], [0; 100]);
            let mut state = State::default();
            let (s, o, m) = (state.record(), &mut octets, &mut marks);
            let sent = sys::send_client(&settings, s, port, o, m, 0, &client, &[5; 47]);
            let expected = if port == 0 { (85, 0) } else { (84, 1) };
            assert_eq!((sent.place, state.deficit()), expected, "{port}");
        }
    }

    // What a record sends, and the answer, with settings changed as well.
    fn sent_by(client: sys::Client, settings: sys::Settings) -> (sys::Sent, [u8; 200]) {
        let (mut octets, mut marks) = ([0; 200], [0; 200]);
        let mut state = State::default();
        let (o, m) = (&mut octets, &mut marks);
        let sent = sys::send_client(&settings, state.record(), 0, o, m, 0, &client, b"data");
        (sent, octets)
    }

    fn sent(client: sys::Client) -> (sys::Sent, [u8; 200]) {
        sent_by(client, *Settings::default().record())
    }

    // The record with one thing changed.
    fn with(mut client: sys::Client, change: impl Fn(&mut sys::Client)) -> sys::Client {
        change(&mut client);
        client
    }

    // What the header says is not looked at, is not; of a kind only whether it is 0.
    #[test]
    fn the_record_is_the_headers() {
        let tags = [Tag::service(0x1234), Tag::customer(0x5678)];
        let client = Frame::to(Address::BROADCAST).tags(&tags).record;
        let expected = sent(client);
        let written = sys::Sent {
            refusal: 0,
            place: 92,
        };
        assert_eq!(expected.0, written);
        let mut settings = *Settings::default().record();
        settings.spare = [0xFF; 10];
        settings.unused = 0xFF;
        assert_eq!(sent_by(client, settings), expected);
        // the type in the length form, what is spare, the tags beyond the count
        assert_eq!(sent(with(client, |c| c.r#type = 0xFFFF)), expected);
        assert_eq!(sent(with(client, |c| c.spare = 0xFF)), expected);
        for k in 0..2 {
            let spare = with(client, |c| c.tags[k].spare = 0xFF);
            assert_eq!(sent(spare), expected, "{k}");
        }
        for k in 2..8 {
            let beyond = with(client, |c| c.tags[k] = Tag::service(0xFFFF).record());
            assert_eq!(sent(beyond), expected, "{k}");
        }
        assert_ne!(sent(with(client, |c| c.tags[0].kind = 0)), expected);
        for kind in 1..=255 {
            assert_eq!(sent(with(client, |c| c.tags[0].kind = kind)), expected);
            assert_ne!(sent(with(client, |c| c.tags[1].kind = kind)), expected);
        }
        for count in 0..=255 {
            let (answer, _) = sent(with(client, |c| c.tag_count = count));
            let refused = if count > 8 { 10 } else { 0 };
            assert_eq!(answer.refusal, refused, "{count}");
        }
    }

    // A refused call leaves the state to the bit, what is not looked at included.
    #[test]
    fn a_refused_call_leaves_the_state() {
        let worn = || sys::State {
            counters: [u64::MAX; 11],
            timers: [u64::MAX; 8],
            deficit: u64::MAX,
            spare: [u64::MAX; 4],
        };
        let (mut octets, mut marks) = ([0; 8], [0; 8]);
        let (settings, client) = (*Settings::default().record(), Frame::to(Address::BROADCAST));
        let mut state = worn();
        let (o, m, s) = (&mut octets, &mut marks, &mut state);
        let table = NOTHING_LISTED.record();
        assert_eq!(sys::read(&settings, 0, table, s, o, m, 9).refusal, 3);
        assert_eq!(sys::walk(&settings, 0, table, s, o, &m[1..]).refusal, 2);
        // 3 comes before 11, which no log of this face gives
        let mut log = [0xFF; 17];
        for (place, refusal) in [(9, 3), (8, 11)] {
            let kept = sys::walk_log(&settings, 0, table, s, o, m, place, &mut log);
            assert_eq!(kept.refusal, refusal);
        }
        assert_eq!(log, [0xFF; 17]);
        // on each port: 19 is told before 4 and 8, and the plain one does not look at the count
        for (port, of_client, of_control) in [(0, 8, 4), (1, 19, 19), (255, 19, 19)] {
            let (c, data) = (&client.record, b"data");
            let sent = sys::send_client(&settings, s, port, o, m, 0, c, data);
            assert_eq!(sent.refusal, of_client);
            let sent = sys::send_pause(&settings, s, port, o, m, 0, 1);
            assert_eq!(sent.refusal, of_control);
            let sent = sys::send_pfc(&settings, s, port, o, m, 0, 1, &[1; 8]);
            assert_eq!(sent.refusal, of_control);
        }
        assert_eq!(sys::fill_idle(s, o, m, 0, 9).refusal, 8);
        // with totals 21 and 22 are told right after 19, and before 4 and 8
        for (number, port, refusal) in [(0, 0, 21), (2, 0, 21), (1, 255, 19), (1, 0, 22)] {
            let (t, c, data) = (&mut [257; 2][..number], &client.record, b"data");
            let sent = sys::send_client_counted(&settings, s, port, o, m, t, 0, c, data);
            assert_eq!(sent.refusal, refusal);
            let sent = sys::send_pause_counted(&settings, s, port, o, m, t, 0, 1);
            assert_eq!(sent.refusal, refusal);
            let sent = sys::send_pfc_counted(&settings, s, port, o, m, t, 0, 1, &[1; 8]);
            assert_eq!(sent.refusal, refusal);
        }
        assert_eq!(sys::fill_idle_counted(s, o, m, &mut [], 0, 9).refusal, 21);
        assert_eq!(
            sys::fill_idle_counted(s, o, m, &mut [257], 0, 9).refusal,
            22
        );
        assert_eq!(sys::fill_idle_counted(s, o, m, &mut [256], 0, 9).refusal, 8);
        assert!(state == worn());
        // one that is not refused leaves it in the header's form
        assert_eq!(sys::fill_idle(&mut state, o, m, 0, 1).refusal, 0);
        let low = u64::from(u32::MAX);
        assert!(state.timers == [low - 1; 8] && state.spare == [0; 4]);
        // counters and the deficit count are kept whole
        assert_eq!(state.counters, [u64::MAX; 11]);
        assert_eq!(state.deficit, u64::MAX);
    }
}
