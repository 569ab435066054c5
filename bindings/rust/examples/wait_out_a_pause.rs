//! A sender that waits out a pause: it reads a pause frame, is refused, fills Idle for the timer's
//! slots, and sends.
//!
//!     cargo run --example wait_out_a_pause
use fenhamper::{Address, Capture, Flow, Frame, Refusal, Sender, Settings, Station};

/// Sends a frame as soon as the timer of its class lets it go, and gives how many Idles went before
/// it. The line takes what is written, piece by piece.
///
/// # Errors
///
/// A refusal other than 9, held: waiting does not help.
pub fn send_when_let_go(
    station: &mut Station,
    frame: &Frame,
    data: &[u8],
    mut line: impl FnMut(Capture),
) -> Result<u64, Refusal> {
    let (mut octets, mut marks) = ([0; 16384], [0; 16384]);
    let mut idles = 0;
    loop {
        let room = octets.len();
        let mut sender = Sender::new(&mut octets, &mut marks);
        let held = match station.send_client(&mut sender, frame, data) {
            Ok(_) => false,
            Err(Refusal::Held) => true,
            Err(refusal) => return Err(refusal),
        };
        if held {
            // a long pause takes more than one buffer of Idle
            let slots = station.state.timer(frame.class_number()).unwrap_or(0);
            let n = usize::try_from(slots).map_or(room, |slots| slots.min(room));
            station.fill_idle(&mut sender, n)?;
            idles += n as u64;
        }
        line(sender.written());
        if !held {
            return Ok(idles);
        }
    }
}

/// A pause frame of so many quanta, read by a station; then what the station sends, as octets and
/// marks, and how many Idles went before it.
///
/// # Errors
///
/// A refusal of a call.
pub fn paused(quanta: u16) -> Result<(Vec<u8>, Vec<u8>, u64), Refusal> {
    let pausing = |own| Station::new(Settings::new(own).flow(Flow::Pause));
    let mut near = pausing(Address([0x02, 0, 0, 0, 0, 1]));
    let mut far = pausing(Address([0x02, 0, 0, 0, 0, 9]));

    let (mut octets, mut marks) = ([0; 84], [0; 84]);
    let mut sender = Sender::new(&mut octets, &mut marks);
    far.send_pause(&mut sender, quanta)?;
    near.walk(sender.written())?;

    let (mut octets, mut marks) = (Vec::new(), Vec::new());
    let frame = Frame::to(far.settings.own());
    let idles = send_when_let_go(&mut near, &frame, b"after the pause", |written| {
        octets.extend(written.octets);
        marks.extend(written.marks);
    })?;
    Ok((octets, marks, idles))
}

fn main() -> Result<(), Refusal> {
    for quanta in [0, 1, 1000] {
        let (octets, _, idles) = paused(quanta)?;
        let start = octets.iter().position(|&octet| octet == 0xFB);
        println!("{quanta} quanta: {idles} Idles, then a Start at {start:?}");
    }
    Ok(())
}
