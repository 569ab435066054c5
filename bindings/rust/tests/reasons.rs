//! Why a Start has its outcome: each reason of document 02's item 8, at both sides of its limit, in
//! numbers and in words.
use fenhamper::{
    fcs, Address, Capture, Explained, Flow, Job, Listener, Outcome, Reading, Reason, Refusal,
    Settings, State, Station, Table, Tag, SYMBOLS,
};

const OWN: Address = Address([0x02, 0, 0, 0, 0, 1]);
const OTHER: Address = Address([0x02, 0, 0, 0, 0, 9]);
const PREAMBLE: [u8; 7] = [0x55, 0x55, 0x55, 0x55, 0x55, 0x55, 0xD5];
const IPV4: [u8; 2] = [0x08, 0x00];
const TERMINATE: u8 = 0xFD;

// A frame of so many octets to this address, with these behind its source, and its FCS.
fn frame(length: usize, to: Address, inside: &[u8]) -> Vec<u8> {
    let mut frame = [to.as_ref(), OTHER.as_ref(), inside].concat();
    frame.resize(length - 4, 0);
    frame.extend(fcs(&frame).to_le_bytes());
    frame
}

// Three Idles, a Start, these octets of data, and the control octet that ends them.
fn run(run: &[u8], by: u8) -> (Vec<u8>, Vec<u8>) {
    let octets = [&[0x07, 0x07, 0x07, 0xFB], run, &[by]].concat();
    let marks = [&[1; 4][..], &vec![0; run.len()], &[1]].concat();
    (octets, marks)
}

// The reason of the Start behind three Idles. Its outcome and both places are the reading's, and so
// is the part of a frame that is handed out.
fn why<'t>(who: impl Into<Listener<'t>>, (octets, marks): &(Vec<u8>, Vec<u8>)) -> Reason {
    let who = who.into();
    let capture = Capture::new(octets, marks);
    let explained = capture.explain(who, 0).unwrap();
    let Explained::Because {
        start,
        next,
        reason,
    } = explained
    else {
        panic!("{explained:?}");
    };
    assert_eq!((explained.start(), explained.next()), (start, next));
    assert_eq!(explained.reason(), Some(reason));
    let read = capture.read(who, &mut State::default(), 0);
    let Ok(Reading::Counted(counted)) = read else {
        panic!("{read:?}");
    };
    assert_eq!((counted.start, counted.next), (start, next));
    assert_eq!(counted.outcome, reason.outcome());
    if let Reason::Handed { place, length } = reason {
        assert_eq!((counted.at, counted.data.len()), (place, length));
    }
    // its words begin with the outcome's
    assert!(reason.to_string().starts_with(reason.outcome().name()));
    // a station's are the same
    let mut station = Station::of(who.job, who.settings);
    assert_eq!(
        station.listing(who.table).explain(capture, 0),
        Ok(explained)
    );
    if *who.table == Table::new() {
        assert_eq!(station.explain(capture, 0), Ok(explained));
    }
    reason
}

fn of_run(octets: &[u8], by: u8) -> Reason {
    why(&Settings::new(OWN), &run(octets, by))
}

fn of_frame(settings: Settings, frame: &[u8]) -> Reason {
    why(&settings, &run(&[&PREAMBLE, frame].concat(), TERMINATE))
}

#[test]
fn cut_says_where_and_by_what() {
    let whole = [&PREAMBLE, &frame(64, OWN, &IPV4)[..]].concat();
    for (octet, words) in [
        (0x07, "cut at 75 by 0x07 (Idle)"),
        (0xFB, "cut at 75 by 0xFB (Start)"),
        (0xFE, "cut at 75 by 0xFE (Error)"),
        (0x9C, "cut at 75 by 0x9C (like Error)"),
        (0x00, "cut at 75 by 0x00 (like Error)"),
    ] {
        let reason = of_run(&whole, octet);
        assert_eq!(reason, Reason::CutAt { place: 75, octet });
        assert_eq!(reason.to_string(), words);
    }
    // an empty run is cut before it is short
    let place = 4;
    assert_eq!(of_run(&[], 0x07), Reason::CutAt { place, octet: 0x07 });
}

#[test]
fn a_run_under_seven_says_its_length() {
    for length in 0..7 {
        let reason = of_run(&PREAMBLE[..length], TERMINATE);
        assert_eq!(reason, Reason::ShortRun { length });
        let words = format!("bad preamble: run length {length}");
        assert_eq!(reason.to_string(), words);
    }
    // also where an octet is wrong
    let reason = of_run(&[0; 6], TERMINATE);
    assert_eq!(reason, Reason::ShortRun { length: 6 });
}

#[test]
fn a_wrong_preamble_says_its_first_wrong_place() {
    for wrong in 0..7 {
        let mut octets = PREAMBLE;
        octets[wrong] ^= 0x80;
        let place = 4 + wrong;
        assert_eq!(of_run(&octets, TERMINATE), Reason::WrongOctet { place });
        // whatever follows
        octets[wrong..].fill(0);
        let reason = of_run(&octets, TERMINATE);
        assert_eq!(reason, Reason::WrongOctet { place });
        let words = format!("bad preamble: first wrong place {place}");
        assert_eq!(reason.to_string(), words);
    }
}

#[test]
fn sizes_say_length_and_limit() {
    let plain = Settings::new(OWN);
    for length in [0, 1, 4, 63] {
        let reason = of_run(&[&PREAMBLE, &vec![0; length][..]].concat(), TERMINATE);
        assert_eq!(reason, Reason::TooShort { length, limit: 64 });
    }
    let words = of_frame(plain, &frame(63, OWN, &IPV4)).to_string();
    assert_eq!(words, "undersized: length 63, limit 64");
    let handed = Reason::Handed {
        place: 25,
        length: 46,
    };
    assert_eq!(of_frame(plain, &frame(64, OWN, &IPV4)), handed);
    for m in [1518, 9618] {
        let settings = plain.limit(m);
        for tags in [0, 1, 2, 8] {
            let inside = [&[0x81, 0x00, 0x00, 0x05].repeat(tags)[..], &IPV4].concat();
            let limit = usize::from(m) + 4 * tags;
            let most = of_frame(settings, &frame(limit, OWN, &inside));
            assert_eq!(most.outcome(), Outcome::HandedOut);
            let length = limit + 1;
            let reason = of_frame(settings, &frame(length, OWN, &inside));
            assert_eq!(reason, Reason::TooLong { length, limit });
            let words = format!("oversized: length {length}, limit {limit}");
            assert_eq!(reason.to_string(), words);
        }
    }
}

#[test]
fn a_wrong_fcs_says_both() {
    let good = frame(64, OWN, &IPV4);
    let computed = fcs(&good[..60]);
    for bit in 0..32 {
        let stands = computed ^ 1 << bit;
        let damaged = [&good[..60], &stands.to_le_bytes()].concat();
        let reason = of_frame(Settings::new(OWN), &damaged);
        assert_eq!(reason, Reason::FcsDiffers { stands, computed });
    }
    let reason = Reason::FcsDiffers {
        stands: 1,
        computed: 0x89ABCDEF,
    };
    let words = "wrong FCS: stands 0x00000001, should be 0x89ABCDEF";
    assert_eq!(reason.to_string(), words);
}

#[test]
fn a_wrong_length_says_field_and_data() {
    let plain = Settings::new(OWN);
    let sized = |tags: usize, field: u16, data: usize| {
        let tag = [0x88, 0xA8, 0x00, 0x05].repeat(tags);
        let inside = [&tag[..], &field.to_be_bytes()].concat();
        of_frame(plain, &frame(18 + 4 * tags + data, OWN, &inside))
    };
    for (tags, field, data) in [
        (0, 45, 47),
        (0, 46, 47),
        (0, 47, 46),
        (0, 1500, 1499),
        (0, 1501, 1500),
        (0, 1535, 1500),
        (1, 10, 43),
        (1, 10, 45),
        (2, 10, 39),
        (2, 39, 40),
        (8, 0, 47),
        (8, 15, 16),
    ] {
        let reason = sized(tags, field, data);
        let broken = Reason::LengthBroken {
            field,
            data_length: data,
        };
        assert_eq!(reason, broken, "{tags} tags");
        let words = format!("wrong length: field 0x{field:04X}, data length {data}");
        assert_eq!(reason.to_string(), words);
    }
    for (tags, field, data, length) in [
        (0, 45, 46, 45),
        (0, 0, 46, 0),
        (0, 46, 46, 46),
        (0, 1500, 1500, 1500),
        (0, 1536, 46, 46),
        (1, 10, 42, 10),
        (1, 10, 46, 10),
        (2, 39, 39, 39),
        (8, 15, 46, 15),
    ] {
        let place = 25 + 4 * tags;
        let handed = Reason::Handed { place, length };
        assert_eq!(sized(tags, field, data), handed);
    }
    // with checking off all data is handed out
    let unchecked = plain.checking(false);
    let reason = of_frame(unchecked, &frame(64, OWN, &[0, 10]));
    let words = "handed out: data at 25, length 46";
    assert_eq!(reason.to_string(), words);
}

#[test]
fn filtered_says_the_destination() {
    let plain = Settings::new(OWN);
    for destination in [
        OTHER,
        Address([0x02, 0, 0, 0, 0, 0]),
        Address([0x01, 0x23, 0x45, 0x67, 0x89, 0xAB]),
    ] {
        let to_it = frame(64, destination, &IPV4);
        let reason = of_frame(plain, &to_it);
        assert_eq!(reason, Reason::NotForUs { destination });
        assert_eq!(reason.to_string(), format!("filtered: to {destination}"));
        // the job that lists it, and the other one
        let mut table = Table::new();
        table.add(Job::One, destination).unwrap();
        let to_it = run(&[&PREAMBLE, &to_it[..]].concat(), TERMINATE);
        let [zero, one] = Job::BOTH.map(|job| why(plain.listing(job, &table), &to_it));
        assert_eq!((zero, one.outcome()), (reason, Outcome::HandedOut));
    }
    let to_all = frame(64, Address::BROADCAST, &IPV4);
    let destination = Address::BROADCAST;
    let reason = of_frame(plain.broadcast(false), &to_all);
    assert_eq!(reason, Reason::NotForUs { destination });
}

#[test]
fn control_frames_say_their_opcode() {
    let control = |settings, opcode: u16| {
        let inside = [0x88, 0x08].into_iter().chain(opcode.to_be_bytes());
        let inside: Vec<u8> = inside.collect();
        of_frame(settings, &frame(64, Address::PAUSE_GROUP, &inside))
    };
    let plain = Settings::new(OWN);
    let pause = control(plain.flow(Flow::Pause), 1);
    assert_eq!(pause, Reason::TookPause { opcode: 1 });
    assert_eq!(pause.to_string(), "pause taken: opcode 0x0001");
    let pfc = control(plain.flow(Flow::Pfc), 0x0101);
    assert_eq!(pfc, Reason::TookPfc { opcode: 0x0101 });
    assert_eq!(pfc.to_string(), "PFC taken: opcode 0x0101");
    for opcode in [0, 1, 2, 0x0101, 0xFFFF] {
        let dropped = control(plain, opcode);
        assert_eq!(dropped, Reason::DroppedControl { opcode });
        let words = format!("control dropped: opcode 0x{opcode:04X}");
        assert_eq!(dropped.to_string(), words);
        let passed = control(plain.pass_control(true), opcode);
        assert_eq!(passed.outcome(), Outcome::HandedOut);
    }
}

#[test]
fn none_open_and_refusals_have_no_reason() {
    let settings = Settings::new(OWN);
    let (octets, marks) = ([0x07, 0xFB, 0x55, 0x55], [1, 1, 0, 0]);
    let capture = Capture::new(&octets, &marks);
    for (place, explained) in [
        (0, Explained::Open { start: 1 }),
        (1, Explained::Open { start: 1 }),
        (2, Explained::Nothing { end: 4 }),
        (4, Explained::Nothing { end: 4 }),
    ] {
        assert_eq!(capture.explain(&settings, place), Ok(explained));
        assert_eq!(explained.reason(), None);
        let reading = capture.read(&settings, &mut State::default(), place);
        let places = reading.map(|r| (r.start(), r.next()));
        assert_eq!(places, Ok((explained.start(), explained.next())));
    }
    let bad = settings.limit(1517);
    let short = Capture::new(&octets, &marks[..3]);
    let long = vec![0; SYMBOLS + 1];
    let long = Capture::new(&long, &long);
    for (settings, capture, place, refusal) in [
        (settings, capture, 5, Refusal::BadPlace),
        (settings, short, 5, Refusal::BadBuffers),
        (settings, long, 0, Refusal::BadBuffers),
        (bad, short, 5, Refusal::BadSettings),
        (bad, capture, 0, Refusal::BadSettings),
    ] {
        assert_eq!(capture.explain(&settings, place), Err(refusal));
    }
}

// Start by Start over what a station sent, with damage.
#[test]
fn a_line_is_explained_start_by_start() {
    use fenhamper::{Frame, Sender};
    let mut station = Station::new(Settings::new(OWN));
    let (mut octets, mut marks) = ([0; 512], [0; 512]);
    let mut sender = Sender::new(&mut octets, &mut marks);
    let tagged = Frame::to(OTHER).tags(&[Tag::customer(5)]);
    for frame in [Frame::to(OWN), Frame::to(OWN), tagged, Frame::to(OWN)] {
        station.send_client(&mut sender, &frame, b"test").unwrap();
    }
    octets[30] ^= 1;
    (octets[300], marks[300]) = (0xFE, 1);
    let capture = Capture::new(&octets, &marks);
    let mut lines = Vec::new();
    let mut place = 0;
    while let Explained::Because {
        start,
        next,
        reason,
    } = station.explain(capture, place).unwrap()
    {
        lines.push(format!("{start} {reason}"));
        place = next;
    }
    let (stands, computed) = match capture.explain(&station.settings, 0).unwrap().reason() {
        Some(Reason::FcsDiffers { stands, computed }) => (stands, computed),
        other => panic!("{other:?}"),
    };
    assert_eq!(computed, fcs(&octets[8..68]));
    assert_eq!(stands.to_le_bytes(), octets[68..72]);
    assert_eq!(
        lines,
        [
            format!("0 wrong FCS: stands 0x{stands:08X}, should be 0x{computed:08X}"),
            "84 handed out: data at 106, length 4".to_string(),
            "168 filtered: to 02-00-00-00-00-09".to_string(),
            "256 cut at 300 by 0xFE (Error)".to_string(),
        ]
    );
    assert!(Outcome::ALL.iter().all(|&o| station.state.counter(o) == 0));
}
