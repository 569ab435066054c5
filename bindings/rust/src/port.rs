//! Where a frame goes.
use crate::sys;

/// The port that a [`Sender`](crate::Sender)'s frames go to. It says where a Start may stand, and
/// how long the gap behind a frame is.
///
/// ```
/// use fenhamper::{Address, Frame, Port, Sender, Settings, Station};
///
/// let (mut octets, mut marks) = ([0; 400], [0; 400]);
/// let mut line = Sender::new(&mut octets, &mut marks).on(Port::FourLane);
/// let mut station = Station::new(Settings::default());
/// let frame = Frame::to(Address::BROADCAST);
/// // frames of 64, 65, 66 and 67 octets, 72 to 75 symbols with Start and preamble
/// let mut gaps = Vec::new();
/// for n in 46..50 {
///     let from = line.place();
///     let next = station.send_client(&mut line, &frame, &[0xA5; 49][..n])?;
///     assert_eq!(next % 4, 0);
///     gaps.push((next - from - (26 + n), station.state.deficit()));
/// }
/// // each gap, and how much is missing of 12 for each so far
/// assert_eq!(gaps, [(12, 0), (11, 1), (10, 3), (13, 2)]);
/// # Ok::<(), fenhamper::Refusal>(())
/// ```
#[derive(Clone, Copy, Debug, Default, PartialEq, Eq, Hash)]
pub enum Port {
    /// A Start at any place, and every gap is of 12 symbols, Terminate included.
    #[default]
    Plain,
    /// A Start only at places divisible by four (3), and the gap behind a frame ends at such a
    /// place: it is of 9 to 15 symbols, 12 on average. What the gaps are short of 12 each is the
    /// [deficit count](crate::State::deficit), which is 0 to 3; above 3 is refused (19).
    FourLane,
}

impl Port {
    // The header's number.
    pub(crate) const fn number(self) -> u8 {
        match self {
            Port::Plain => sys::PORT_PLAIN,
            Port::FourLane => sys::PORT_FOUR_LANE,
        }
    }
}
