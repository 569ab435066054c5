//! The calls that write, which a sender and a line have in common: into lent buffers, with totals
//! or without.
use crate::answers::Refusal;
use crate::port::Port;
use crate::send::Frame;
use crate::settings::Settings;
use crate::state::State;
use crate::sys;

/// Line buffers that a [`Station`](crate::Station) sends into: a [`Sender`](crate::Sender), or a
/// [`Line`](crate::Line), which keeps the totals of its Starts as well. There are no others.
///
/// ```
/// use fenhamper::{blocks, Address, Buffers, Frame, Line, Refusal, Sender, Station};
///
/// fn send_twice(station: &mut Station, to: &mut impl Buffers) -> Result<usize, Refusal> {
///     let frame = Frame::to(Address::BROADCAST);
///     station.send_client(to, &frame, b"once")?;
///     station.send_client(to, &frame, b"twice")
/// }
///
/// let (mut octets, mut marks, mut totals) = ([0; 300], [0; 300], [0; blocks(300)]);
/// let mut station = Station::default();
/// assert_eq!(send_twice(&mut station, &mut Sender::new(&mut octets, &mut marks)), Ok(168));
/// let mut line = Line::new(&mut octets, &mut marks, &mut totals)?.at(100);
/// assert_eq!(send_twice(&mut station, &mut line), Ok(268));
/// # Ok::<(), Refusal>(())
/// ```
pub trait Buffers: Lends {}

impl<B: Lends> Buffers for B {}

// Seals `Buffers`: the module of this trait is not public.
pub trait Lends {
    fn lent(&mut self) -> Lent<'_>;
}

// Buffers as a call takes them, the place that it moves on, and the port that a frame goes to.
pub struct Lent<'a> {
    pub octets: &'a mut [u8],
    pub marks: &'a mut [u8],
    pub totals: Option<&'a mut [u16]>,
    pub place: &'a mut usize,
    pub port: Port,
}

impl Lent<'_> {
    pub fn client(
        self,
        settings: &Settings,
        state: &mut State,
        frame: &Frame,
        data: &[u8],
    ) -> Result<usize, Refusal> {
        let (s, state, client) = (settings.record(), state.record(), frame.record());
        let (o, m, place, port) = (self.octets, self.marks, *self.place, self.port.number());
        let sent = match self.totals {
            None => sys::send_client(s, state, port, o, m, place, client, data),
            Some(t) => sys::send_client_counted(s, state, port, o, m, t, place, client, data),
        };
        moved(self.place, sent)
    }

    pub fn pause(
        self,
        settings: &Settings,
        state: &mut State,
        quanta: u16,
    ) -> Result<usize, Refusal> {
        let (s, state) = (settings.record(), state.record());
        let (o, m, place, port) = (self.octets, self.marks, *self.place, self.port.number());
        let sent = match self.totals {
            None => sys::send_pause(s, state, port, o, m, place, quanta),
            Some(t) => sys::send_pause_counted(s, state, port, o, m, t, place, quanta),
        };
        moved(self.place, sent)
    }

    pub fn pfc(
        self,
        settings: &Settings,
        state: &mut State,
        named: u8,
        quanta: [u16; sys::CLASSES],
    ) -> Result<usize, Refusal> {
        let (s, state) = (settings.record(), state.record());
        let (o, m, place, port) = (self.octets, self.marks, *self.place, self.port.number());
        let sent = match self.totals {
            None => sys::send_pfc(s, state, port, o, m, place, named, &quanta),
            Some(t) => sys::send_pfc_counted(s, state, port, o, m, t, place, named, &quanta),
        };
        moved(self.place, sent)
    }

    pub fn idle(self, state: &mut State, n: usize) -> Result<usize, Refusal> {
        let (state, o, m, place) = (state.record(), self.octets, self.marks, *self.place);
        let sent = match self.totals {
            None => sys::fill_idle(state, o, m, place, n),
            Some(t) => sys::fill_idle_counted(state, o, m, t, place, n),
        };
        moved(self.place, sent)
    }
}

// Moves the place on unless the call was refused.
fn moved(place: &mut usize, sent: sys::Sent) -> Result<usize, Refusal> {
    Refusal::check(sent.refusal)?;
    *place = sent.place as usize;
    Ok(*place)
}
