//! A first reading, a first sending, and every refusal, against the linked archive.
use fenhamper::{
    Address, Capture, Fcs, Flow, Frame, Job, Outcome, Reading, Refusal, Sender, Settings, State,
    Status, Table, Tag, Walk, SYMBOLS,
};

const OWN: Address = Address([0x02, 0, 0, 0, 0, 1]);
const OTHER: Address = Address([0x02, 0, 0, 0, 0, 9]);

// The symbols that `write` sends into a line of this length, up to the place where it ends.
fn line(
    length: usize,
    write: impl FnOnce(&mut Sender) -> Result<usize, Refusal>,
) -> (Vec<u8>, Vec<u8>) {
    let (mut octets, mut marks) = (vec![0; length], vec![0; length]);
    let end = write(&mut Sender::new(&mut octets, &mut marks)).unwrap();
    octets.truncate(end);
    marks.truncate(end);
    (octets, marks)
}

#[test]
fn the_printing_programs_sample() {
    let capture = Capture::new(&[0xFB, 0x07, 0xFB, 0x55, 0xFD], &[1, 1, 1, 0, 1]);
    let (settings, mut state) = (Settings::default(), State::default());
    let read: Vec<_> = capture
        .readings(&settings, &mut state)
        .map(|r| r.unwrap())
        .collect();
    let lines: Vec<_> = read
        .iter()
        .map(|r| (r.start, r.outcome.number(), r.status.word(), r.data.len()))
        .collect();
    assert_eq!(lines, [(0, 1, 0, 0), (2, 2, 0, 0)]);
    assert_eq!(
        state,
        State::with([1, 1, 0, 0, 0, 0, 0, 0, 0, 0, 0], [0; 8])
    );
}

#[test]
fn what_is_sent_is_read() {
    let settings = Settings::new(OWN).limit(9618);
    let frames = [
        (Frame::to(OWN), b"".to_vec(), 84, 0x4000400000),
        (Frame::to(OWN), vec![1; 46], 84, 0x400040002E),
        (
            Frame::to(OWN).tag(Tag::customer(0x2005)),
            vec![2; 47],
            89,
            0x420045002F,
        ),
        (
            Frame::to(OWN).tag(Tag::service(100)),
            vec![3; 45],
            88,
            0x420044002D,
        ),
        (
            Frame::to(OWN)
                .tag(Tag::service(100))
                .tag(Tag::customer(0x2005)),
            vec![4; 10],
            92,
            0x410048000A,
        ),
        (
            Frame::to(OWN).tags(&[Tag::service(0xFFFF); 8]),
            vec![],
            116,
            0x4100600000,
        ),
        (
            Frame::to(Address::BROADCAST),
            vec![3; 1500],
            1538,
            0x1005EE05DC,
        ),
        (
            Frame::to(OWN).by_type(0x0800).class(7),
            vec![4; 9600],
            9638,
            0x4025922580,
        ),
        (
            Frame::to(OWN).by_type(0x0800).tags(&[Tag::customer(1); 8]),
            vec![5; 9600],
            9670,
            0x4125B22580,
        ),
    ];
    let mut state = State::default();
    let (octets, marks) = line(30000, |sender| {
        for (frame, data, symbols, _) in &frames {
            let before = sender.place();
            assert_eq!(
                sender.client(&settings, &mut state, frame, data),
                Ok(before + symbols)
            );
        }
        sender.idle(&mut state, 5)
    });
    let capture = Capture::new(&octets, &marks);
    let mut readings = capture.readings(&settings, &mut state);
    for (_, data, _, status) in &frames {
        let r = readings.next().unwrap().unwrap();
        assert_eq!(
            (r.outcome, r.data, r.status),
            (Outcome::HandedOut, &data[..], Status::new(*status))
        );
        // a part of the capture, not a copy
        assert_eq!(r.data.as_ptr(), octets[r.at..].as_ptr());
    }
    assert!(readings.next().is_none());
    assert!(!readings.ended_open());
    assert_eq!(readings.place(), octets.len());
    assert_eq!(state.counter(Outcome::HandedOut), 9);
    assert_eq!(
        capture.walk(&settings, &mut state),
        Ok(Walk {
            starts: 9,
            open: false
        })
    );
    assert_eq!(state.counters(), [0, 0, 0, 0, 0, 0, 0, 0, 0, 0, 18]);
}

// The tags of a frame that is sent, as octets on the line.
fn tag_octets(frame: &Frame) -> Vec<u8> {
    let (octets, _) = line(200, |sender| {
        let settings = Settings::new(OWN);
        sender.client(&settings, &mut State::default(), frame, &[])
    });
    // behind Start, preamble and two addresses; before field, data, FCS and gap
    octets[20..octets.len() - 2 - 46 - 4 - 12].to_vec()
}

#[test]
fn tags_stand_in_their_order() {
    assert_eq!(tag_octets(&Frame::to(OWN)), []);
    // bit k of the choice is the kind of tag k
    for n in 1..=8 {
        for choice in 0..1 << n {
            let mut tags = Vec::new();
            let mut expected = Vec::new();
            for k in 0..n {
                let control = 0xA0B1 + k;
                let (tag, kind) = match choice >> k & 1 {
                    0 => (Tag::customer(control), [0x81, 0x00]),
                    _ => (Tag::service(control), [0x88, 0xA8]),
                };
                tags.push(tag);
                expected.extend(kind);
                expected.extend(control.to_be_bytes());
            }
            let frame = Frame::to(OWN).tags(&tags);
            assert_eq!(tag_octets(&frame), expected);
            let one_by_one = tags.iter().fold(Frame::to(OWN), |f, &tag| f.tag(tag));
            assert_eq!(one_by_one, frame);
        }
    }
}

#[test]
fn tags_replace_those_before() {
    let (a, b, c) = (Tag::customer(1), Tag::service(2), Tag::customer(3));
    let frame = Frame::to(OWN);
    assert_eq!(frame.tags(&[a, b]).tags(&[c]), frame.tag(c));
    assert_eq!(frame.tags(&[a; 300]).tags(&[c]), frame.tag(c));
    assert_eq!(frame.tags(&[a]).tag(b), frame.tags(&[a, b]));
    assert_ne!(frame.tag(a).tag(b), frame.tag(b).tag(a));
    assert_ne!(frame.tag(Tag::customer(0)), frame);
    assert_ne!(Tag::customer(2), b);
}

#[test]
fn more_than_eight_tags_are_refused() {
    let (settings, mut state) = (Settings::new(OWN), State::default());
    let (mut octets, mut marks) = ([0; 200], [0; 200]);
    let mut sender = Sender::new(&mut octets, &mut marks);
    // 264 would be eight if its high bits were lost
    for n in [9, 10, 255, 256, 264, 300] {
        let by_list = Frame::to(OTHER).tags(&vec![Tag::service(1); n]);
        let one_by_one = (0..n).fold(Frame::to(OTHER), |f, _| f.tag(Tag::service(1)));
        for frame in [by_list, one_by_one] {
            assert_eq!(
                sender.client(&settings, &mut state, &frame, b"data"),
                Err(Refusal::ManyTags)
            );
        }
    }
    assert_eq!(Refusal::ManyTags.number(), 10);
    assert_eq!(
        Refusal::ManyTags.to_string(),
        "refusal 10, many tags: more than eight tags"
    );
}

#[test]
fn tags_are_counted_in_the_status() {
    let (settings, mut state) = (Settings::new(OWN), State::default());
    for n in 0..=8 {
        let frame = Frame::to(OWN).tags(&vec![Tag::service(7); n]);
        let (octets, marks) = line(200, |sender| {
            sender.client(&settings, &mut state, &frame, b"data")
        });
        let capture = Capture::new(&octets, &marks);
        let Ok(Reading::Counted(r)) = capture.read(&settings, &mut state, 0) else {
            panic!("no frame");
        };
        assert_eq!((r.outcome, r.data), (Outcome::HandedOut, &b"data"[..]));
        assert_eq!(r.status.tagged(), n == 1);
        assert_eq!(r.status.stacked(), n >= 2);
        assert_eq!(usize::from(r.status.frame_length()), 64 + 4 * n);
        assert_eq!(r.at, 22 + 4 * n);
    }
}

#[test]
fn a_ninth_tag_is_a_type() {
    let (settings, mut state) = (Settings::new(OWN), State::default());
    let frame = Frame::to(OWN).tags(&[Tag::customer(7); 8]).by_type(0x0800);
    for kind in [[0x81, 0x00], [0x88, 0xA8]] {
        let (mut octets, marks) = line(200, |sender| {
            sender.client(&settings, &mut state, &frame, &[9; 46])
        });
        // the type behind eight tags, and the FCS
        octets[52..54].copy_from_slice(&kind);
        let check = fenhamper::fcs(&octets[8..100]);
        octets[100..104].copy_from_slice(&check.to_le_bytes());
        let capture = Capture::new(&octets, &marks);
        let Ok(Reading::Counted(r)) = capture.read(&settings, &mut state, 0) else {
            panic!("no frame");
        };
        assert_eq!((r.outcome, r.data), (Outcome::HandedOut, &[9; 46][..]));
        assert!(r.status.stacked() && !r.status.tagged());
    }
}

#[test]
fn a_short_type_frame_comes_out_padded() {
    let (settings, mut state) = (Settings::new(OWN), State::default());
    let frame = Frame::to(OWN).by_type(0x0800);
    let (octets, marks) = line(100, |sender| {
        sender.client(&settings, &mut state, &frame, b"short")
    });
    let Ok(Reading::Counted(r)) = Capture::new(&octets, &marks).read(&settings, &mut state, 0)
    else {
        panic!("no frame");
    };
    let mut padded = b"short".to_vec();
    padded.resize(46, 0);
    assert_eq!(r.data, padded);
}

#[test]
fn damage_costs_no_other_frame() {
    let (settings, mut state) = (Settings::new(OWN), State::default());
    let (mut octets, mut marks) = line(252, |sender| {
        sender.client(&settings, &mut state, &Frame::to(OWN), b"one")?;
        sender.client(&settings, &mut state, &Frame::to(OWN), b"two")?;
        sender.client(&settings, &mut state, &Frame::to(OTHER), b"three")
    });
    // cut the first inside, by an Error
    octets[40] = 0xFE;
    marks[40] = 1;
    let capture = Capture::new(&octets, &marks);
    let read: Vec<_> = capture
        .readings(&settings, &mut state)
        .map(|r| r.unwrap())
        .collect();
    assert_eq!(
        read.iter().map(|r| r.outcome).collect::<Vec<_>>(),
        [Outcome::Cut, Outcome::HandedOut, Outcome::Filtered]
    );
    assert_eq!(
        read.iter().map(|r| r.data).collect::<Vec<_>>(),
        [b"".as_slice(), b"two", b""]
    );
    // the other station, and a job that lists its address
    let mut table = Table::new();
    table.add(Job::One, OTHER).unwrap();
    for listener in [
        (&Settings::new(OTHER)).into(),
        settings.listing(Job::One, &table),
    ] {
        let last = capture
            .readings(listener, &mut state)
            .last()
            .unwrap()
            .unwrap();
        assert_eq!(last.data, b"three");
    }
}

#[test]
fn an_open_start_is_read_again() {
    let (settings, mut state) = (Settings::new(OWN), State::default());
    let (octets, marks) = line(84, |sender| {
        sender.client(&settings, &mut state, &Frame::to(OWN), b"late")
    });
    let part = Capture::new(&octets[..50], &marks[..50]);
    let mut readings = part.readings(&settings, &mut state);
    assert_eq!(readings.next(), None);
    assert!(readings.ended_open());
    let place = readings.place();
    assert_eq!(
        part.walk(&settings, &mut state),
        Ok(Walk {
            starts: 0,
            open: true
        })
    );
    assert_eq!(state, State::default());
    let whole = Capture::new(&octets, &marks);
    assert_eq!(
        whole
            .readings(&settings, &mut state)
            .at(place)
            .next()
            .unwrap()
            .unwrap()
            .data,
        b"late"
    );
}

#[test]
fn pause_and_pfc_set_timers() {
    let pause = Settings::new(OWN).flow(Flow::Pause);
    let pfc = Settings::new(OWN).flow(Flow::Pfc);
    let mut state = State::default();
    let (octets, marks) = line(84, |sender| sender.pause(&pause, &mut state, 0xFFFF));
    let Ok(Reading::Counted(r)) = Capture::new(&octets, &marks).read(&pause, &mut state, 0) else {
        panic!("no frame");
    };
    assert_eq!(
        (r.outcome, r.status),
        (Outcome::PauseTaken, Status::new(0x2C0040002E))
    );
    assert_eq!(state.timers(), [4_194_240; 8]);
    let (octets, marks) = line(84, |sender| {
        sender.pfc(&pfc, &mut state, 0b10, [9, 1, 9, 9, 9, 9, 9, 9])
    });
    let Ok(Reading::Counted(r)) = Capture::new(&octets, &marks).read(&pfc, &mut state, 0) else {
        panic!("no frame");
    };
    assert_eq!(
        (r.outcome, r.status),
        (Outcome::PfcTaken, Status::new(0xA40040002E))
    );
    assert!(r.status.pfc() && r.status.multicast() && r.status.control() && r.data.is_empty());
    // the sending lowered them all by 84 before the reading set class 1
    let mut timers = [4_194_240 - 84; 8];
    timers[1] = 64;
    assert_eq!(state.timers(), timers);
}

#[test]
fn readings_are_refused() {
    let good = Settings::new(OWN);
    let bad = [
        Settings::new(Address([0x03, 0, 0, 0, 0, 1])),
        good.limit(1517),
        good.limit(9619),
    ];
    let long = vec![0; SYMBOLS + 1];
    // the lowest number comes first
    let refused = |settings: Settings, octets: &[u8], marks: &[u8], place: usize, why: Refusal| {
        let capture = Capture::new(octets, marks);
        let old = State::with([u64::from(u32::MAX); 11], [7; 8]);
        let mut state = old.clone();
        assert_eq!(capture.read(&settings, &mut state, place), Err(why));
        let mut readings = capture.readings(&settings, &mut state).at(place);
        assert_eq!(readings.next(), Some(Err(why)));
        assert_eq!(readings.next(), None);
        assert!(!readings.ended_open());
        if why != Refusal::BadPlace {
            assert_eq!(capture.walk(&settings, &mut state), Err(why));
        }
        assert_eq!(state, old);
    };
    for settings in bad {
        refused(settings, &[1, 2], &[0], 3, Refusal::BadSettings);
    }
    refused(good, &[1, 2], &[0], 3, Refusal::BadBuffers);
    refused(good, &[], &[0], 0, Refusal::BadBuffers);
    refused(good, &long, &long, 0, Refusal::BadBuffers);
    refused(good, &[0xFB], &[1], 2, Refusal::BadPlace);
    refused(good, &[], &[], usize::MAX, Refusal::BadPlace);
}

#[test]
fn sendings_are_refused() {
    let good = Settings::new(OWN);
    let frame = Frame::to(OTHER);
    let old = State::with([3; 11], [0, 0, 0, 1, 0, 0, 0, 0]);
    let mut state = old.clone();
    let (mut octets, mut marks) = ([0xAA; 2000], [0xBB; 2000]);
    let long = vec![0; 9601];
    {
        let mut sender = Sender::new(&mut octets, &mut marks).at(1917);
        assert_eq!(
            sender.client(&good.limit(0), &mut state, &frame, b""),
            Err(Refusal::BadSettings)
        );
        assert_eq!(sender.pause(&good, &mut state, 1), Err(Refusal::OtherFlow));
        assert_eq!(
            sender.pause(&good.flow(Flow::Pfc), &mut state, 1),
            Err(Refusal::OtherFlow)
        );
        assert_eq!(
            sender.pfc(&good.flow(Flow::Pause), &mut state, 1, [1; 8]),
            Err(Refusal::OtherFlow)
        );
        assert_eq!(
            sender.client(&good, &mut state, &frame.class(8).by_type(0), &long),
            Err(Refusal::BadClass)
        );
        let many = frame.tags(&[Tag::customer(5); 9]);
        for field in [0, 1535, 0x8100, 0x8808, 0x88A8] {
            assert_eq!(
                sender.client(&good, &mut state, &many.by_type(field), &long),
                Err(Refusal::BadType)
            );
        }
        for many in [many, many.by_type(0x0800)] {
            assert_eq!(
                sender.client(&good, &mut state, &many.class(3), &long),
                Err(Refusal::ManyTags)
            );
        }
        assert_eq!(
            sender.client(&good, &mut state, &frame, &long[..1501]),
            Err(Refusal::LongData)
        );
        assert_eq!(
            sender.client(&good, &mut state, &frame.by_type(1536), &long[..1501]),
            Err(Refusal::LongData)
        );
        assert_eq!(
            sender.client(&good.limit(9618), &mut state, &frame.by_type(1536), &long),
            Err(Refusal::LongData)
        );
        // 84 symbols are needed, 83 are left
        assert_eq!(
            sender.client(&good, &mut state, &frame.class(3), b""),
            Err(Refusal::NoRoom)
        );
        assert_eq!(
            sender.pause(&good.flow(Flow::Pause), &mut state, 1),
            Err(Refusal::NoRoom)
        );
        assert_eq!(
            sender.pfc(&good.flow(Flow::Pfc), &mut state, 1, [1; 8]),
            Err(Refusal::NoRoom)
        );
        assert_eq!(sender.idle(&mut state, 84), Err(Refusal::NoRoom));
        assert_eq!(sender.idle(&mut state, usize::MAX), Err(Refusal::NoRoom));
        assert_eq!(sender.place(), 1917);
        let mut sender = sender.at(1916);
        assert_eq!(
            sender.client(&good, &mut state, &frame.class(3), b""),
            Err(Refusal::Held)
        );
        let mut sender = sender.at(2001);
        assert_eq!(
            sender.client(&good, &mut state, &frame, b""),
            Err(Refusal::BadPlace)
        );
        assert_eq!(sender.idle(&mut state, 0), Err(Refusal::BadPlace));
    }
    let mut uneven = Sender::new(&mut octets, &mut marks[1..]);
    assert_eq!(
        uneven.client(&good, &mut state, &frame, b""),
        Err(Refusal::BadBuffers)
    );
    assert_eq!(uneven.idle(&mut state, 0), Err(Refusal::BadBuffers));
    assert_eq!(state, old);
    assert!(octets.iter().all(|&o| o == 0xAA) && marks.iter().all(|&m| m == 0xBB));
}

#[test]
fn nothing_is_enough() {
    let (settings, mut state) = (Settings::new(OWN), State::default());
    let nothing = Capture::new(&[], &[]);
    assert_eq!(
        nothing.read(&settings, &mut state, 0),
        Ok(Reading::Nothing { end: 0 })
    );
    assert_eq!(
        nothing.walk(&settings, &mut state),
        Ok(Walk {
            starts: 0,
            open: false
        })
    );
    assert_eq!(nothing.readings(&settings, &mut state).count(), 0);
    let mut sender = Sender::new(&mut [], &mut []);
    assert_eq!(sender.idle(&mut state, 0), Ok(0));
    assert_eq!(
        sender.client(&settings, &mut state, &Frame::to(OWN), &[]),
        Err(Refusal::NoRoom)
    );
    assert_eq!(state, State::default());
    assert_eq!(Fcs::default().update(&[]).finish(), fenhamper::fcs(&[]));
}

#[test]
fn a_counter_rolls_over() {
    let narrow = u64::from(u32::MAX);
    for (before, after) in [(u64::MAX, 0), (narrow, narrow + 1)] {
        let mut state = State::with([before; 11], [0; 8]);
        Capture::new(&[0xFB, 0x07], &[1, 1])
            .walk(&Settings::default(), &mut state)
            .unwrap();
        assert_eq!(state.counter(Outcome::Cut), after);
        assert_eq!(state.counter(Outcome::BadPreamble), before);
        // the screen's value of 32 bits rolls over in both
        assert_eq!(state.screen()[..2], [0, u32::MAX]);
    }
}
