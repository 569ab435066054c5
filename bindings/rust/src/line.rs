//! Starts per stretch: a total for each block of symbols, beside a capture or line buffers.
use crate::answers::Refusal;
use crate::lent::{Lends, Lent};
use crate::port::Port;
use crate::receive::Capture;
use crate::send::{Frame, Sender};
use crate::settings::Settings;
use crate::state::State;
use crate::sys;

/// How many blocks so many symbols are, and so how many totals they take: one for each 256, a last
/// short one included.
///
/// ```
/// use fenhamper::{blocks, SYMBOLS};
///
/// assert_eq!([0, 1, 256, 257].map(blocks), [0, 1, 1, 2]);
/// // totals for the most symbols that a call takes
/// let totals = [0_u16; blocks(SYMBOLS)];
/// assert_eq!(totals.len(), 256);
/// ```
#[must_use]
pub const fn blocks(symbols: usize) -> usize {
    symbols.div_ceil(sys::BLOCK)
}

impl Capture<'_> {
    /// Fills all totals of this capture: for each block of 256 symbols, a last short one included,
    /// how many of them are Starts.
    ///
    /// ```
    /// use fenhamper::{blocks, Capture, Refusal};
    ///
    /// let (octets, marks) = ([0xFB; 600], [1; 600]);
    /// let capture = Capture::new(&octets, &marks);
    /// let mut totals = [0; blocks(600)];
    /// capture.fill_totals(&mut totals)?;
    /// assert_eq!(totals, [256, 256, 88]);
    /// assert_eq!(capture.fill_totals(&mut totals[1..]), Err(Refusal::WrongTotals));
    /// # Ok::<(), Refusal>(())
    /// ```
    ///
    /// # Errors
    ///
    /// Refusal 2, then 21 where there are not as many totals as [`blocks`].
    pub fn fill_totals(&self, totals: &mut [u16]) -> Result<(), Refusal> {
        Refusal::check(sys::fill_totals(self.octets, self.marks, totals))
    }

    /// How many Starts lie before `place`. The answer adds the totals of the whole blocks before it
    /// and looks only into its own, and is right whenever the totals are true. A [`Line`] keeps
    /// them so while it is written into.
    ///
    /// ```
    /// use fenhamper::{Capture, Refusal};
    ///
    /// let (octets, marks) = ([0xFB; 600], [1; 600]);
    /// let capture = Capture::new(&octets, &marks);
    /// assert_eq!(capture.starts_before(&[256, 256, 88], 513), Ok(513));
    /// assert_eq!(capture.starts_before(&[256, 256, 88], 601), Err(Refusal::BadPlace));
    /// // no block has so many symbols
    /// assert_eq!(capture.starts_before(&[256, 256, 257], 0), Err(Refusal::HighTotal));
    /// ```
    ///
    /// # Errors
    ///
    /// Refusals 2, 3, 21 and 22, the lowest number first.
    pub fn starts_before(&self, totals: &[u16], place: usize) -> Result<usize, Refusal> {
        let (refusal, starts) = sys::starts_before(self.octets, self.marks, totals, place);
        Refusal::check(refusal)?;
        Ok(starts)
    }
}

/// Line buffers that are lent for writing together with the totals of their Starts, so that it can
/// be asked at any time how many Starts lie before a place.
///
/// It sends as a [`Sender`] does. Each call that writes counts the blocks anew that it writes into
/// and touches no other total, so that totals that are true stay so. A refused one leaves the
/// place, the state, every symbol and every total.
///
/// ```
/// use fenhamper::{blocks, Address, Frame, Line, Station};
///
/// let (mut octets, mut marks) = ([0; 1000], [0; 1000]);
/// let mut totals = [0; blocks(1000)];
/// let mut line = Line::new(&mut octets, &mut marks, &mut totals)?;
/// let mut station = Station::default();
/// for n in 1..=11 {
///     let end = station.send_client(&mut line, &Frame::to(Address::BROADCAST), b"data")?;
///     assert_eq!(line.starts_before(end), Ok(n));
/// }
/// // a Start each 84 symbols
/// assert_eq!(line.totals(), [4, 3, 3, 1]);
/// # Ok::<(), fenhamper::Refusal>(())
/// ```
#[derive(Debug)]
pub struct Line<'b> {
    sender: Sender<'b>,
    totals: &'b mut [u16],
}

impl<'b> Line<'b> {
    /// A line in these octets and marks, from place 0 on and on the plain port. It fills the totals,
    /// so that they are true.
    ///
    /// ```
    /// use fenhamper::{Line, Refusal};
    ///
    /// // whatever stands in the totals before
    /// let (mut octets, mut marks, mut totals) = ([0xFB; 300], [1; 300], [9999; 2]);
    /// let line = Line::new(&mut octets, &mut marks, &mut totals)?;
    /// assert_eq!(line.totals(), [256, 44]);
    /// let refused = Line::new(&mut octets, &mut marks, &mut totals[..1]);
    /// assert_eq!(refused.unwrap_err(), Refusal::WrongTotals);
    /// # Ok::<(), Refusal>(())
    /// ```
    ///
    /// # Errors
    ///
    /// Refusal 2 for octets and marks that differ in length or exceed
    /// [`SYMBOLS`](crate::SYMBOLS), then 21 where there are not as many totals as [`blocks`]. So no
    /// call on this line gives either, nor 22.
    pub fn new(
        octets: &'b mut [u8],
        marks: &'b mut [u8],
        totals: &'b mut [u16],
    ) -> Result<Line<'b>, Refusal> {
        let mut line = Line::with_totals(octets, marks, totals);
        line.refill()?;
        Ok(line)
    }

    /// A line with these totals as they are, from place 0 on and on the plain port: say those that
    /// another line of the same buffers has left.
    ///
    /// Any slices will do. Every call is refused if the buffers differ in length or exceed
    /// [`SYMBOLS`](crate::SYMBOLS) (2), if there are not as many totals as [`blocks`] (21), or if
    /// one of them is above 256 (22). Totals that are false otherwise are not seen, and then
    /// answers are false too.
    ///
    /// ```
    /// use fenhamper::{Line, Refusal, State};
    ///
    /// let (mut octets, mut marks, mut totals) = ([0xFB; 300], [1; 300], [0; 2]);
    /// Line::new(&mut octets, &mut marks, &mut totals)?.idle(&mut State::default(), 200)?;
    /// // later, with nothing counted anew
    /// let mut line = Line::with_totals(&mut octets, &mut marks, &mut totals).at(200);
    /// assert_eq!(line.starts_before(300), Ok(100));
    ///
    /// totals[1] = 257;
    /// let mut line = Line::with_totals(&mut octets, &mut marks, &mut totals);
    /// assert_eq!(line.starts_before(0), Err(Refusal::HighTotal));
    /// assert_eq!(line.idle(&mut State::default(), 1), Err(Refusal::HighTotal));
    /// # Ok::<(), Refusal>(())
    /// ```
    #[must_use]
    pub fn with_totals(
        octets: &'b mut [u8],
        marks: &'b mut [u8],
        totals: &'b mut [u16],
    ) -> Line<'b> {
        Line {
            sender: Sender::new(octets, marks),
            totals,
        }
    }

    /// How many Starts lie before `place`: right whenever the totals are true.
    ///
    /// ```
    /// use fenhamper::{blocks, Line, Refusal};
    ///
    /// // a Start each seventh symbol
    /// let mut octets: [u8; 700] = std::array::from_fn(|i| if i % 7 == 0 { 0xFB } else { 0x07 });
    /// let (mut marks, mut totals) = ([1; 700], [0; blocks(700)]);
    /// let line = Line::new(&mut octets, &mut marks, &mut totals)?;
    /// assert_eq!([0, 1, 7, 8, 700].map(|place| line.starts_before(place)), [0, 1, 1, 2, 100].map(Ok));
    /// assert_eq!(line.starts_before(701), Err(Refusal::BadPlace));
    /// # Ok::<(), Refusal>(())
    /// ```
    ///
    /// # Errors
    ///
    /// Refusals 2, 3, 21 and 22, the lowest number first. A line that has filled its totals gives
    /// only 3.
    pub fn starts_before(&self, place: usize) -> Result<usize, Refusal> {
        self.capture().starts_before(self.totals, place)
    }

    /// The totals, one for each block: how many of its symbols are Starts.
    #[must_use]
    pub fn totals(&self) -> &[u16] {
        self.totals
    }

    /// The octets and the marks, for whoever writes symbols by itself, as the gate array does.
    /// **The totals do not follow**: they may be false from then on, until
    /// [`refill`](Line::refill).
    ///
    /// ```
    /// use fenhamper::Line;
    ///
    /// let (mut octets, mut marks, mut totals) = ([0; 300], [0; 300], [0; 2]);
    /// let mut line = Line::new(&mut octets, &mut marks, &mut totals)?;
    /// let (octets, marks) = line.buffers();
    /// (octets[7], marks[7]) = (0xFB, 1);
    /// // that Start is not in the total of its block yet
    /// assert_eq!(line.starts_before(300), Ok(0));
    /// line.refill()?;
    /// assert_eq!(line.starts_before(300), Ok(1));
    /// # Ok::<(), fenhamper::Refusal>(())
    /// ```
    pub fn buffers(&mut self) -> (&mut [u8], &mut [u8]) {
        self.sender.buffers()
    }

    /// Fills all totals anew, so that they are true.
    ///
    /// # Errors
    ///
    /// Refusals 2 and 21, of a line [with totals as they were](Line::with_totals) only.
    pub fn refill(&mut self) -> Result<(), Refusal> {
        self.sender.capture().fill_totals(self.totals)
    }

    /// The same line, with the next symbols going to this place: see [`Sender::at`].
    ///
    /// ```
    /// use fenhamper::{Line, State};
    ///
    /// let (mut octets, mut marks, mut totals) = ([0xFB; 300], [1; 300], [0; 2]);
    /// let mut line = Line::new(&mut octets, &mut marks, &mut totals)?.at(290);
    /// assert_eq!(line.idle(&mut State::default(), 10), Ok(300));
    /// assert_eq!((line.place(), line.totals()), (300, &[256, 34][..]));
    /// # Ok::<(), fenhamper::Refusal>(())
    /// ```
    #[must_use]
    pub fn at(mut self, place: usize) -> Line<'b> {
        self.sender = self.sender.at(place);
        self
    }

    /// The same line, with the next frames going to this port: see [`Sender::on`].
    ///
    /// ```
    /// use fenhamper::{Address, Frame, Line, Port, Refusal, Settings, State};
    ///
    /// let (mut octets, mut marks, mut totals) = ([0; 300], [0; 300], [0; 2]);
    /// let mut line = Line::new(&mut octets, &mut marks, &mut totals)?.on(Port::FourLane);
    /// let (settings, mut state) = (Settings::default(), State::default());
    /// let frame = Frame::to(Address::BROADCAST);
    /// assert_eq!(line.client(&settings, &mut state, &frame, &[7; 47]), Ok(84));
    /// assert_eq!((line.port(), state.deficit()), (Port::FourLane, 1));
    /// # Ok::<(), Refusal>(())
    /// ```
    #[must_use]
    pub fn on(mut self, port: Port) -> Line<'b> {
        self.sender = self.sender.on(port);
        self
    }

    /// The port that the next frames go to.
    #[must_use]
    pub fn port(&self) -> Port {
        self.sender.port()
    }

    /// Where the next symbols go.
    #[must_use]
    pub fn place(&self) -> usize {
        self.sender.place()
    }

    /// The buffers as they stand, to be read.
    ///
    /// ```
    /// use fenhamper::{Address, Frame, Line, Settings, Station};
    ///
    /// let (mut octets, mut marks, mut totals) = ([0; 300], [0; 300], [0; 2]);
    /// let mut line = Line::new(&mut octets, &mut marks, &mut totals)?;
    /// let (mut near, mut far) = (Station::default(), Station::default());
    /// near.send_client(&mut line, &Frame::to(Address::BROADCAST), b"data")?;
    /// assert_eq!(far.walk(line.capture())?.starts, line.starts_before(300)?);
    /// # Ok::<(), fenhamper::Refusal>(())
    /// ```
    #[must_use]
    pub fn capture(&self) -> Capture<'_> {
        self.sender.capture()
    }

    /// The symbols before the place: what was written, if the line began at place 0.
    #[must_use]
    pub fn written(&self) -> Capture<'_> {
        self.sender.written()
    }

    /// Writes a client frame and its gap, as [`Sender::client`] does.
    ///
    /// ```
    /// use fenhamper::{Address, Frame, Line, Refusal, Settings, State};
    ///
    /// let (mut octets, mut marks, mut totals) = ([0xFB; 500], [1; 500], [0; 2]);
    /// let mut line = Line::new(&mut octets, &mut marks, &mut totals)?.at(200);
    /// let (settings, mut state) = (Settings::default(), State::default());
    /// let frame = Frame::to(Address::BROADCAST);
    /// assert_eq!(line.client(&settings, &mut state, &frame, b"data"), Ok(284));
    /// // its 84 symbols lie in both blocks
    /// assert_eq!(line.totals(), [200 + 1, 500 - 284]);
    /// # Ok::<(), Refusal>(())
    /// ```
    ///
    /// # Errors
    ///
    /// Refusals 1 to 3, 5 to 10, 19, 21 and 22, the lowest number first, but that 10 comes after 6
    /// and before 7, and 19, 21 and 22 right after 3. A line that has filled its totals gives
    /// neither 21 nor 22, here and below.
    pub fn client(
        &mut self,
        settings: &Settings,
        state: &mut State,
        frame: &Frame,
        data: &[u8],
    ) -> Result<usize, Refusal> {
        self.lent().client(settings, state, frame, data)
    }

    /// Writes a pause frame and its gap, as [`Sender::pause`] does.
    ///
    /// ```
    /// use fenhamper::{Flow, Line, Refusal, Settings, State};
    ///
    /// let (mut octets, mut marks, mut totals) = ([0; 84], [0; 84], [0]);
    /// let mut line = Line::new(&mut octets, &mut marks, &mut totals)?;
    /// let settings = Settings::default().flow(Flow::Pause);
    /// line.pause(&settings, &mut State::default(), 2)?;
    /// assert_eq!(line.starts_before(84), Ok(1));
    /// # Ok::<(), Refusal>(())
    /// ```
    ///
    /// # Errors
    ///
    /// Refusals 1 to 4, 8, 19, 21 and 22, the lowest number first, but that 19, 21 and 22 come
    /// right after 3.
    pub fn pause(
        &mut self,
        settings: &Settings,
        state: &mut State,
        quanta: u16,
    ) -> Result<usize, Refusal> {
        self.lent().pause(settings, state, quanta)
    }

    /// Writes a PFC frame and its gap, as [`Sender::pfc`] does.
    ///
    /// ```
    /// use fenhamper::{Flow, Line, Refusal, Settings, State};
    ///
    /// let (mut octets, mut marks, mut totals) = ([0; 84], [0; 84], [0]);
    /// let mut line = Line::new(&mut octets, &mut marks, &mut totals)?;
    /// let settings = Settings::default().flow(Flow::Pfc);
    /// line.pfc(&settings, &mut State::default(), 1 << 0, [5; 8])?;
    /// assert_eq!(line.starts_before(84), Ok(1));
    /// # Ok::<(), Refusal>(())
    /// ```
    ///
    /// # Errors
    ///
    /// Refusals 1 to 4, 8, 19, 21 and 22, the lowest number first, but that 19, 21 and 22 come
    /// right after 3.
    pub fn pfc(
        &mut self,
        settings: &Settings,
        state: &mut State,
        named: u8,
        quanta: [u16; 8],
    ) -> Result<usize, Refusal> {
        self.lent().pfc(settings, state, named, quanta)
    }

    /// Writes `n` Idles. Of 0 Idles no block is counted anew.
    ///
    /// # Errors
    ///
    /// Refusals 2, 3, 21, 22 and 8, in this order.
    pub fn idle(&mut self, state: &mut State, n: usize) -> Result<usize, Refusal> {
        self.lent().idle(state, n)
    }
}

impl Lends for Line<'_> {
    fn lent(&mut self) -> Lent<'_> {
        Lent {
            totals: Some(self.totals),
            ..self.sender.lent()
        }
    }
}
