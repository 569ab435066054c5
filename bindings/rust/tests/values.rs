//! Addresses, getters, words for a status, records, and a station's calls beside those below it.
use fenhamper::records::{self, BadRecords};
use fenhamper::{
    limits, Address, Capture, Flow, Form, Frame, Job, Outcome, ParseAddressError, Refusal, Sender,
    Settings, State, Station, Status, Tag, Way,
};

const OWN: Address = Address([0x02, 0, 0, 0, 0, 1]);

#[test]
fn addresses_are_read_as_they_are_written() {
    for octets in [
        [0; 6],
        [0xFF; 6],
        [0x01, 0x80, 0xC2, 0, 0, 1],
        [0xAB, 0xCD, 0xEF, 0x12, 0x90, 0x0A],
    ] {
        let address = Address(octets);
        let text = address.to_string();
        let colons = text.replace('-', ":");
        for text in [&text, &colons, &text.to_lowercase(), &colons.to_lowercase()] {
            assert_eq!(text.parse(), Ok(address));
        }
        assert_eq!(Address::from(octets), address);
        assert_eq!(<[u8; 6]>::from(address), octets);
        assert_eq!(Address::try_from(address.as_ref()).unwrap(), address);
    }
    assert_eq!(Address::PAUSE_GROUP.to_string(), "01-80-C2-00-00-01");
    assert_eq!(format!("{OWN:?}"), "Address(02-00-00-00-00-01)");
    for length in [0, 1, 5, 7, 12] {
        assert!(Address::try_from(&[0; 12][..length]).is_err());
    }
}

#[test]
fn a_wrong_address_is_told_where() {
    let cases = [
        ("", 0),
        ("0", 1),
        ("02-00-00-00-00", 14),
        ("02-00-00-00-00-", 15),
        ("02-00-00-00-00-0", 16),
        ("02-00-00-00-00-01-", 17),
        ("02-00-00-00-00-01 ", 17),
        (" 02-00-00-00-00-01", 0),
        ("02-00-00:00-00-01", 8),
        ("02:00:00:00:00-01", 14),
        ("020000000001", 2),
        ("02.00.00.00.00.01", 2),
        ("2-00-00-00-00-01", 1),
        ("0x-00-00-00-00-01", 1),
        ("+2-00-00-00-00-01", 0),
        ("02-00-0g-00-00-01", 7),
        ("é2-00-00-00-00-01", 0),
        ("02-00-00-00-00-0é", 16),
    ];
    for (text, place) in cases {
        let error: ParseAddressError = text.parse::<Address>().unwrap_err();
        assert_eq!(error.place(), place, "{text}");
        assert!(error.to_string().contains(&format!(" {place} ")));
    }
}

#[test]
fn settings_give_back_what_they_were_set_to() {
    for own in [OWN, Address::PAUSE_GROUP, Address([0, 1, 2, 3, 4, 5])] {
        assert_eq!(Settings::new(own).own(), own);
    }
    for choice in 0..16 {
        let on = |bit: u8| choice >> bit & 1 == 1;
        let settings = Settings::new(OWN)
            .broadcast(on(0))
            .promiscuous(on(1))
            .checking(on(2))
            .pass_control(on(3));
        assert_eq!(settings.accepts_broadcast(), on(0));
        assert_eq!(settings.is_promiscuous(), on(1));
        assert_eq!(settings.checks_lengths(), on(2));
        assert_eq!(settings.passes_control(), on(3));
    }
    for limit in [
        0,
        1,
        255,
        256,
        limits::LEAST_LIMIT,
        limits::MOST_LIMIT,
        u16::MAX,
    ] {
        assert_eq!(Settings::new(OWN).limit(limit).frame_limit(), limit);
    }
    for flow in [Flow::Off, Flow::Pause, Flow::Pfc] {
        assert_eq!(Settings::new(OWN).flow(flow).flow_mode(), flow);
    }
}

#[test]
fn frames_give_back_what_they_were_named() {
    let tags: Vec<_> = (0..9)
        .map(|k| {
            if k % 2 == 0 {
                Tag::customer(k << 8 | 1)
            } else {
                Tag::service(k)
            }
        })
        .collect();
    for n in 0..=9 {
        let frame = Frame::to(OWN).tags(&tags[..n]);
        assert_eq!(frame.destination(), OWN);
        assert!(frame
            .tag_list()
            .eq(tags[..n.min(limits::MOST_TAGS)].iter().copied()));
    }
    for field in [0, 0x0800, 0x1234, u16::MAX] {
        let frame = Frame::to(OWN).by_type(field);
        assert_eq!(frame.form(), Form::Type(field));
        assert_eq!(frame.by_length().form(), Form::Length);
    }
    for class in [0, 7, 8, 255] {
        assert_eq!(Frame::to(OWN).class(class).class_number(), class);
    }
}

#[test]
fn a_status_is_told_in_words() {
    // the last two are words that no reading gives
    let cases = [
        (0, "none"),
        (0x4000400010, "unicast, frame 64, data 16"),
        (0x100040002E, "broadcast, frame 64, data 46"),
        (0x240040002E, "multicast, control, frame 64, data 46"),
        (
            0x2C0040002E,
            "multicast, control, pause taken, frame 64, data 46",
        ),
        (
            0xA40040002E,
            "multicast, control, PFC taken, frame 64, data 46",
        ),
        (0x42006A0054, "unicast, tagged, frame 106, data 84"),
        (0x410048000A, "unicast, stacked, frame 72, data 10"),
        (1, "frame 0, data 1"),
        (1 << 40, "frame 0, data 0"),
    ];
    for (word, text) in cases {
        assert_eq!(Status::new(word).to_string(), text);
    }
    assert_eq!(format!("{:>6}", Status::default()), "  none");
}

#[test]
fn counters_and_timers_have_one_width() {
    let counters = [1, 2, 3, 4, 5, 6, 7, 8, 9, 10, 0xFFFF_FFFF_u64];
    let timers = [8, 7, 6, 5, 4, 3, 2, 4_194_240_u64];
    let state = State::with(counters, timers);
    assert_eq!((state.counters(), state.timers()), (counters, timers));
    for outcome in Outcome::ALL {
        assert_eq!(
            state.counter(outcome),
            counters[usize::from(outcome.number()) - 1]
        );
    }
    for class in 0..8 {
        assert_eq!(state.timer(class), Some(timers[usize::from(class)]));
    }
    assert_eq!((state.timer(8), state.timer(255)), (None, None));
}

#[test]
fn records_are_split_and_joined() {
    for n in 0..=9 {
        let input: Vec<u8> = (0..2 * n).map(|k| u8::try_from(k).unwrap()).collect();
        let (mut octets, mut marks) = ([0xAA; 9], [0xBB; 10]);
        assert_eq!(records::split(&input, &mut octets, &mut marks), Ok(n));
        assert!(octets[n..].iter().all(|&o| o == 0xAA) && marks[n..].iter().all(|&m| m == 0xBB));
        let capture = records::capture(&input, &mut octets, &mut marks).unwrap();
        assert_eq!((capture.octets.len(), capture.marks.len()), (n, n));
        assert!(capture
            .marks
            .iter()
            .zip(capture.octets)
            .enumerate()
            .all(|(k, (&m, &o))| { (usize::from(m), usize::from(o)) == (2 * k, 2 * k + 1) }));
        assert_eq!(capture.records().len(), n);
        assert_eq!(capture.records().flatten().collect::<Vec<_>>(), input);
    }
    // octets and marks of different lengths
    assert!(Capture::new(&[1, 2, 3], &[4, 5])
        .records()
        .eq([[4, 1], [5, 2]]));
    assert_eq!(Capture::new(&[1], &[4, 5]).records().len(), 1);
}

#[test]
fn bad_records_are_told_and_nothing_is_written() {
    let (mut octets, mut marks) = ([0xAA; 3], [0xBB; 2]);
    for length in [1, 3, 5, 99] {
        let error = records::split(&[1; 99][..length], &mut octets, &mut marks).unwrap_err();
        assert_eq!(error, BadRecords::Odd { length });
    }
    for records in [3, 4, 49] {
        let error = records::split(&[1; 98][..2 * records], &mut octets, &mut marks).unwrap_err();
        assert_eq!(error, BadRecords::NoRoom { records, room: 2 });
        assert_eq!(
            error.to_string(),
            format!("bad records: {records} of them, and room for 2")
        );
        assert_eq!(
            records::capture(&[1; 98][..2 * records], &mut octets, &mut marks),
            Err(error)
        );
    }
    assert_eq!((octets, marks), ([0xAA; 3], [0xBB; 2]));
}

// Each call of a station is the call below it.
#[test]
fn a_station_is_its_settings_and_state() {
    let timers = [0, 0, 0, 500, 0, 0, 0, 0];
    for flow in [Flow::Off, Flow::Pause, Flow::Pfc] {
        let settings = Settings::new(OWN).flow(flow);
        let state = State::with([3; 11], timers);
        let mut station = Station {
            settings,
            job: Job::One,
            state: state.clone(),
        };
        let mut below = state;

        let frame = Frame::to(Address::BROADCAST).tag(Tag::customer(9));
        let quanta = [1, 2, 3, 4, 5, 6, 7, 8];
        let (mut ours, mut theirs) = (([0; 800], [0; 800]), ([0; 800], [0; 800]));
        let mut sender = Sender::new(&mut ours.0, &mut ours.1);
        let mut other = Sender::new(&mut theirs.0, &mut theirs.1);
        assert_eq!(
            [
                station.send_client(&mut sender, &frame, b"data"),
                station.send_client(&mut sender, &frame.class(3), b"data"),
                station.send_pause(&mut sender, 7),
                station.send_pfc(&mut sender, 0xFF, quanta),
                station.fill_idle(&mut sender, 10),
                station.fill_idle(&mut sender, 800),
            ],
            [
                other.client(&settings, &mut below, &frame, b"data"),
                other.client(&settings, &mut below, &frame.class(3), b"data"),
                other.pause(&settings, &mut below, 7),
                other.pfc(&settings, &mut below, 0xFF, quanta),
                other.idle(&mut below, 10),
                other.idle(&mut below, 800),
            ]
        );
        assert_eq!(sender.place(), other.place());
        assert_eq!(
            sender.written().octets,
            &other.capture().octets[..other.place()]
        );
        assert_eq!(
            sender.written().marks,
            &other.capture().marks[..other.place()]
        );
        assert_eq!(station.state, below);

        let line = sender.capture();
        assert_eq!(station.read(line, 1), line.read(&settings, &mut below, 1));
        assert_eq!(station.read(line, 801), Err(Refusal::BadPlace));
        assert_eq!(station.walk(line), line.walk(&settings, &mut below));
        let readings: Vec<_> = station.readings(line).collect();
        assert_eq!(
            readings,
            line.readings(&settings, &mut below).collect::<Vec<_>>()
        );
        let control = usize::from(flow != Flow::Off);
        assert_eq!(readings.len(), 1 + control);
        assert_eq!(
            station,
            Station {
                settings,
                job: Job::One,
                state: below
            }
        );
    }
    assert_eq!(Station::default(), Station::new(Settings::default()));
}

#[test]
fn what_is_written_ends_at_the_place() {
    let (mut octets, mut marks) = ([1; 4], [2; 5]);
    let sender = Sender::new(&mut octets, &mut marks).at(5);
    assert_eq!(sender.written(), Capture::new(&[1; 4], &[2; 5]));
    let sender = sender.at(3);
    assert_eq!(sender.written(), Capture::new(&[1; 3], &[2; 3]));
}

#[test]
fn outcomes_have_the_numbers_1_to_11() {
    for number in 0..=u8::MAX {
        let outcome = Outcome::from_number(number);
        assert_eq!(outcome.is_some(), (1..=11).contains(&number));
        assert_eq!(outcome.map_or(number, Outcome::number), number);
    }
}

#[test]
fn ways_have_their_numbers() {
    for number in 0..=u8::MAX {
        let way = Way::from_number(number);
        assert_eq!(way.is_some(), matches!(number, 1 | 6..=8 | 16..=31));
        assert_eq!(way.map_or(number, Way::number), number);
    }
    for entry in 0..=u8::MAX {
        let way = Way::Entry(entry);
        let number = if entry < 16 { 16 + entry } else { 0 };
        assert_eq!(way.number(), number);
        assert_eq!(way.to_string(), format!("listed entry {entry}"));
    }
    let words = [Way::Own, Way::Broadcast, Way::Promiscuous, Way::Reserved]
        .map(|way| format!("{way:>14}."));
    assert_eq!(
        words,
        [
            "   own address.",
            "     broadcast.",
            "   promiscuous.",
            "reserved group.",
        ]
    );
}
