//! Sending on the four-lane port, and on both, against the linked archive.
use fenhamper::{
    Address, Capture, Flow, Frame, Outcome, Port, Refusal, Sender, Settings, State, Station, Tag,
};

const OWN: Address = Address([0x02, 0, 0, 0, 0, 1]);
const PORTS: [Port; 2] = [Port::Plain, Port::FourLane];

// Item 5's rule, by the count and by r: the gap, and the count behind it.
const GAPS: [[(usize, u64); 4]; 4] = [
    [(12, 0), (11, 1), (10, 2), (9, 3)],
    [(12, 1), (11, 2), (10, 3), (13, 0)],
    [(12, 2), (11, 3), (14, 0), (13, 1)],
    [(12, 3), (15, 0), (14, 1), (13, 2)],
];

// Each count and r, with its gap and the count behind it.
fn rows() -> impl Iterator<Item = (u64, usize, usize, u64)> {
    (0..).zip(GAPS).flat_map(|(count, row)| {
        let row = row.into_iter().enumerate();
        row.map(move |(r, (gap, behind))| (count, r, gap, behind))
    })
}

#[test]
fn each_gap_of_the_four_lane_port() {
    let settings = Settings::new(OWN);
    let before = [0, 90, 200, 0, 0, 0, 0, 1_000_000];
    for (count, r, gap, behind) in rows() {
        for place in [0, 4, 100] {
            let symbols = 72 + r + gap;
            let end = place + symbols;
            // one symbol less is refused, as the actual gap does not fit
            for (room, answer) in [(end - 1, Err(Refusal::NoRoom)), (end, Ok(end))] {
                let (mut octets, mut marks) = (vec![0xAA; room], vec![0xBB; room]);
                let sender = Sender::new(&mut octets, &mut marks).at(place);
                let mut sender = sender.on(Port::FourLane);
                let mut state = State::with([0; 11], before).with_deficit(count);
                let old = state.clone();
                let sent =
                    sender.client(&settings, &mut state, &Frame::to(OWN), &[7; 49][..46 + r]);
                assert_eq!(sent, answer, "count {count}, r {r}");
                if answer.is_err() {
                    assert_eq!(state, old);
                    continue;
                }
                assert_eq!((state.deficit(), sender.place()), (behind, end));
                // timers fall by the symbols really written
                let lowered = before.map(|timer| timer.saturating_sub(symbols as u64));
                assert_eq!(state.timers(), lowered);
                // Start, Terminate and the Idles behind it
                assert_eq!((octets[place], marks[place]), (0xFB, 1));
                assert_eq!((octets[end - gap], marks[end - gap - 1]), (0xFD, 0));
                assert!(octets[end - gap + 1..].iter().all(|&octet| octet == 0x07));
                assert!(marks[end - gap..].iter().all(|&mark| mark == 1));
            }
        }
    }
}

#[test]
fn every_frame_takes_the_ports_gap() {
    let mut station = Station::new(Settings::new(OWN));
    let (mut octets, mut marks) = ([0; 400], [0; 400]);
    let mut sender = Sender::new(&mut octets, &mut marks).on(Port::FourLane);
    let tagged = Frame::to(OWN).tags(&[Tag::service(5); 3]);
    assert_eq!(
        station.send_client(&mut sender, &tagged, &[1; 47]),
        Ok(72 + 12 + 1 + 11)
    );
    assert_eq!(station.state.deficit(), 1);
    // a control frame is of 72 symbols: its gap of 12 leaves the count
    station.settings = station.settings.flow(Flow::Pause);
    assert_eq!(station.send_pause(&mut sender, 1), Ok(96 + 84));
    station.settings = station.settings.flow(Flow::Pfc);
    assert_eq!(station.send_pfc(&mut sender, 1, [1; 8]), Ok(180 + 84));
    assert_eq!(station.state.deficit(), 1);
    assert_eq!(station.fill_idle(&mut sender, 1), Ok(265));
    assert_eq!(
        station.send_pfc(&mut sender, 1, [1; 8]),
        Err(Refusal::BadPlace)
    );
    assert_eq!(
        station.send_client(&mut sender, &tagged, &[]),
        Err(Refusal::BadPlace)
    );
}

#[test]
fn refusals_of_the_four_lane_port() {
    let good = Settings::new(OWN);
    let frame = Frame::to(OWN);
    // 4 and 256 lie above 3, and 2^32 and 2^63 do so by their high bits alone
    for deficit in [4, 5, 255, 256, 1 << 32, 1 << 63, u64::MAX] {
        let (mut octets, mut marks) = ([0; 100], [0; 100]);
        for place in 0..=104 {
            let sender = Sender::new(&mut octets, &mut marks).at(place);
            let mut sender = sender.on(Port::FourLane);
            let mut state = State::default().with_deficit(deficit);
            let old = state.clone();
            // 3, then 19, then 4 and 5
            let expected = if place > 100 || place % 4 != 0 {
                Refusal::BadPlace
            } else {
                Refusal::HighDeficit
            };
            let s = &mut state;
            assert_eq!(sender.client(&good, s, &frame, b""), Err(expected));
            let refused = sender.client(&good, s, &frame.class(8), b"");
            assert_eq!(refused, Err(expected));
            assert_eq!(sender.pause(&good, s, 1), Err(expected));
            assert_eq!(sender.pfc(&good, s, 1, [1; 8]), Err(expected));
            let low = good.limit(0);
            let refused = sender.client(&low, s, &frame, b"");
            assert_eq!(refused, Err(Refusal::BadSettings));
            assert_eq!(state, old);
        }
        assert_eq!((octets, marks), ([0; 100], [0; 100]));
        // no other call looks at the count, and none changes it
        let mut state = State::default().with_deficit(deficit);
        let mut sender = Sender::new(&mut octets, &mut marks).at(1);
        let sent = sender.client(&good, &mut state, &frame, b"");
        assert_eq!((sent, state.deficit()), (Ok(85), deficit));
        let mut sender = sender.on(Port::FourLane);
        assert_eq!(sender.idle(&mut state, 2), Ok(87));
        let walk = sender.written().walk(&good, &mut state).unwrap();
        assert_eq!((walk.starts, state.deficit()), (1, deficit));
    }
    assert_eq!(Refusal::HighDeficit.number(), 19);
    assert_eq!(
        Refusal::HighDeficit.to_string(),
        "refusal 19, high deficit: deficit count above 3"
    );
}

// From a count of 0, n gaps together are 12 n less the count; frames come out as they went in.
#[test]
fn a_row_of_frames_on_both_ports() {
    let mut near = Station::new(Settings::new(OWN));
    let mut far = Station::new(Settings::new(OWN));
    let (mut octets, mut marks) = (vec![0; 40000], vec![0; 40000]);
    let mut line = Sender::new(&mut octets, &mut marks);
    let mut data: Vec<Vec<u8>> = Vec::new();
    let (mut gaps, mut n) = (0, 0);
    for k in 0..250_usize {
        let port = PORTS[usize::from(k % 5 != 0)];
        if port == Port::FourLane {
            let more = line.place().next_multiple_of(4) - line.place();
            near.fill_idle(&mut line, more).unwrap();
        }
        line = line.on(port);
        let octet = u8::try_from(k).unwrap();
        let of_this = vec![octet; k * k % 71];
        let from = line.place();
        let end = near
            .send_client(&mut line, &Frame::to(OWN), &of_this)
            .unwrap();
        let gap = end - from - 26 - of_this.len().max(46);
        if port == Port::FourLane {
            n += 1;
            gaps += gap;
            assert_eq!(from % 4, 0);
            assert!((9..=15).contains(&gap) && (12 * n - 3..=12 * n).contains(&gaps));
        } else {
            assert_eq!(gap, 12);
        }
        assert_eq!(near.state.deficit(), 12 * n as u64 - gaps as u64);
        data.push(of_this);
    }
    assert_eq!(n, 200);
    let capture: Capture = line.written();
    let read: Vec<_> = far.readings(capture).map(|r| r.unwrap().data).collect();
    assert_eq!(read, data);
    assert_eq!(far.state.counter(Outcome::HandedOut), 250);
    assert_eq!(far.state.deficit(), 0);
}

#[test]
fn a_state_says_its_deficit() {
    assert_eq!(State::default().deficit(), 0);
    assert_eq!(Port::default(), Port::Plain);
    for deficit in [0, 3, 4, u64::MAX] {
        let state = State::with([1; 11], [2; 8]).with_deficit(deficit);
        assert_eq!(state.deficit(), deficit);
        assert_eq!((state.counters(), state.timers()), ([1; 11], [2; 8]));
        let said = format!("{state:?}");
        assert!(said.ends_with(&format!("deficit: {deficit} }}")), "{said}");
        assert_eq!(state == State::with([1; 11], [2; 8]), deficit == 0);
    }
}
