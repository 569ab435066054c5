//! The size table: frames of outcomes 8 to 11 by their length, beside walks over the same captures.
use fenhamper::{
    limits::MOST_LIMIT, Address, Capture, Flow, Frame, Job, Listener, Outcome, Refusal, Sender,
    Settings, Sizes, State, Table, Tag,
};

const OWN: Address = Address([0x02, 0, 0, 0, 0, 1]);
const OTHER: Address = Address([0x02, 0, 0, 0, 0, 9]);

// Octets and marks of frames with these lengths, destination to FCS, one after the other.
fn frames(to: Address, lengths: &[usize]) -> (Vec<u8>, Vec<u8>) {
    let settings = Settings::new(OWN).limit(MOST_LIMIT);
    let mut state = State::default();
    let symbols = lengths.iter().map(|length| length + 20).sum();
    let (mut octets, mut marks) = (vec![0; symbols], vec![0; symbols]);
    let mut sender = Sender::new(&mut octets, &mut marks);
    for &length in lengths {
        let frame = Frame::to(to).by_type(0x0800);
        sender
            .client(&settings, &mut state, &frame, &vec![7; length - 18])
            .unwrap();
    }
    (octets, marks)
}

// Adds a capture, beside a walk: the four counters rise by as much as all bands together.
fn added<'t>(sizes: Sizes, listener: impl Into<Listener<'t>>, capture: Capture<'_>) -> Sizes {
    let listener = listener.into();
    let (mut after, mut state) = (sizes, State::default());
    after.add_capture(listener, capture).unwrap();
    capture.walk(listener, &mut state).unwrap();
    let all = |sizes: &Sizes| {
        sizes
            .frames
            .iter()
            .fold(0, |sum: u64, &n| sum.wrapping_add(n))
    };
    let four: u64 = Outcome::ALL[7..].iter().map(|&o| state.counter(o)).sum();
    assert_eq!(all(&after).wrapping_sub(all(&sizes)), four);
    after
}

#[test]
fn a_fresh_table_is_empty() {
    assert_eq!(Sizes::new(), Sizes::default());
    assert!(Sizes::new()
        .bands()
        .all(|band| band.frames == 0 && band.octets == 0));
}

#[test]
fn frames_go_into_their_bands() {
    let settings = Settings::new(OWN).limit(MOST_LIMIT);
    for (band, (least, most)) in [
        (64, 64),
        (65, 127),
        (128, 255),
        (256, 511),
        (512, 1023),
        (1024, 1518),
        (1519, 9618),
    ]
    .into_iter()
    .enumerate()
    {
        for length in [least, most] {
            let (octets, marks) = frames(OWN, &[length]);
            let sizes = added(Sizes::new(), &settings, Capture::new(&octets, &marks));
            for (n, has) in sizes.bands().enumerate() {
                let expected = if n == band {
                    (1, length as u64)
                } else {
                    (0, 0)
                };
                assert_eq!((has.frames, has.octets), expected, "{length} in {has}");
            }
            let has = sizes.bands().nth(band).unwrap();
            assert!(has.least == least && has.most.unwrap_or(most) == most);
        }
    }
}

#[test]
fn a_tagged_frame_of_1522_octets_is_above() {
    let (settings, mut state) = (Settings::new(OWN), State::default());
    let (mut octets, mut marks) = ([0; 1542], [0; 1542]);
    let mut sender = Sender::new(&mut octets, &mut marks);
    let frame = Frame::to(OWN).tag(Tag::customer(5));
    sender
        .client(&settings, &mut state, &frame, &[7; 1500])
        .unwrap();
    let sizes = added(Sizes::new(), &settings, sender.written());
    assert_eq!((sizes.frames[6], sizes.octets[6]), (1, 1522));
}

// A pause frame is taken or dropped, and added; what is filtered, wrong or open is not.
#[test]
fn outcomes_8_to_11_are_added() {
    let (mut octets, mut marks) = ([0; 420], [0; 420]);
    let mut state = State::default();
    let pausing = Settings::new(OWN).flow(Flow::Pause);
    let mut sender = Sender::new(&mut octets, &mut marks);
    sender.pause(&pausing, &mut state, 3).unwrap();
    for to in [OWN, OTHER, OWN, OWN] {
        sender
            .client(&pausing, &mut state, &Frame::to(to), b"")
            .unwrap();
    }
    octets[84 * 3 + 30] ^= 1;
    let whole = Capture::new(&octets, &marks);
    let open = Capture::new(&octets[..420 - 12], &marks[..420 - 12]);
    for flow in [Flow::Off, Flow::Pause, Flow::Pfc] {
        let settings = pausing.flow(flow);
        assert_eq!(added(Sizes::new(), &settings, whole).frames[0], 3);
        assert_eq!(added(Sizes::new(), &settings, open).frames[0], 2);
    }
    let mut table = Table::new();
    table.add(Job::One, OTHER).unwrap();
    for (job, expected) in [(Job::Zero, 3), (Job::One, 4)] {
        let listener = pausing.listing(job, &table);
        assert_eq!(added(Sizes::new(), listener, whole).frames[0], expected);
    }
}

#[test]
fn captures_add_up_in_any_order_and_in_parts() {
    let settings = Settings::new(OWN).limit(MOST_LIMIT);
    let held: Vec<_> = [&[64, 65][..], &[127, 128, 1519], &[], &[1518], &[255, 256]]
        .map(|lengths| frames(OWN, lengths))
        .into();
    let captures: Vec<_> = held.iter().map(|(o, m)| Capture::new(o, m)).collect();
    // counts that roll over
    let before = Sizes {
        frames: [u64::MAX; 7],
        octets: [u64::MAX - 63; 7],
    };
    let all = |sizes, captures: &[Capture<'_>]| {
        captures
            .iter()
            .fold(sizes, |sizes, &capture| added(sizes, &settings, capture))
    };
    let expected = all(before, &captures);
    assert_eq!((expected.frames[0], expected.octets[0]), (0, 0));
    let backwards: Vec<_> = captures.iter().rev().copied().collect();
    assert_eq!(all(before, &backwards), expected);
    for cut in 0..=captures.len() {
        let (mut low, high) = (
            all(before, &captures[..cut]),
            all(Sizes::new(), &captures[cut..]),
        );
        low += high;
        assert_eq!(low, expected);
    }
}

#[test]
fn a_refused_capture_adds_nothing() {
    let good = Settings::new(OWN);
    let bad = Settings::new(Address([0x01, 0, 0, 0, 0, 1]));
    // entries 2 and 5 are job 1's, with one address
    let mut entries = [0; 128];
    (entries[16], entries[40]) = (2, 2);
    let (bad_table, table) = (Table::from_octets(entries), Table::new());
    let (octets, marks) = frames(OWN, &[64]);
    let short = Capture::new(&octets, &marks[1..]);
    let mut sizes = added(Sizes::new(), &good, Capture::new(&octets, &marks));
    let before = sizes;
    for (listener, refusal) in [
        (bad.listing(Job::One, &bad_table), Refusal::BadSettings),
        (good.listing(Job::One, &bad_table), Refusal::BadBuffers),
        (good.listing(Job::Zero, &table), Refusal::BadBuffers),
    ] {
        assert_eq!(sizes.add_capture(listener, short), Err(refusal));
        assert_eq!(sizes, before);
    }
    let whole = Capture::new(&octets, &marks);
    let listener = good.listing(Job::Zero, &bad_table);
    assert_eq!(sizes.add_capture(listener, whole), Err(Refusal::BadTable));
    assert_eq!(sizes, before);
}
