//! The plain reader: what a reading of each Start says, at the symbol that ends its run.
use fenhamper::{
    Address, Capture, Flow, Frame, Job, Listener, Outcome, Plain, Reading, Refusal, Sender,
    Settings, State, Symbol, Table, Tag, SYMBOLS,
};

const OWN: Address = Address([0x02, 0, 0, 0, 0, 1]);

// Pushes the capture's symbols beside its readings.
fn beside_readings(listener: Listener<'_>, capture: Capture<'_>) {
    let mut state = State::default();
    let mut plain = Plain::new(listener);
    let mut expected = capture.read(listener, &mut state, 0).unwrap();
    for (place, symbol) in capture.records().map(Symbol::from).enumerate() {
        assert_eq!(plain.place(), place);
        let told = plain.push(symbol).unwrap();
        match expected {
            Reading::Counted(r) if r.next == place => {
                let told = told.expect("a run ends here");
                assert_eq!((told.start, told.next), (r.start, r.next));
                assert_eq!(
                    (told.outcome, told.status, told.way, told.at),
                    (r.outcome, r.status, r.way, r.at)
                );
                assert_eq!((told.length, told.data(capture)), (r.data.len(), r.data));
                assert_eq!(plain.state, state);
                expected = capture.read(listener, &mut state, r.next).unwrap();
            }
            _ => assert_eq!(told, None),
        }
    }
    let open = matches!(expected, Reading::Open { .. });
    assert_eq!(plain.is_open(), open);
    assert_eq!(plain.run().is_some(), open);
    assert_eq!(plain.state, state);
}

#[test]
fn it_tells_what_readings_tell() {
    let settings = Settings::new(OWN).flow(Flow::Pause);
    let group = Address([0x01, 0, 0x5E, 0, 0, 1]);
    let mut table = Table::new();
    table.add(Job::One, group).unwrap();
    let mut state = State::default();
    let (mut octets, mut marks) = ([0; 400], [0; 400]);
    let mut sender = Sender::new(&mut octets, &mut marks).at(3);
    let tagged = Frame::to(group).tag(Tag::customer(5));
    sender
        .client(&settings, &mut state, &Frame::to(OWN), b"to you")
        .unwrap();
    sender.client(&settings, &mut state, &tagged, b"").unwrap();
    let end = sender.pause(&settings, &mut state, 7).unwrap();
    // a run that a Start ends, and one that is still open
    for (place, octet) in [(end, 0xFB), (end + 2, 0xFB)] {
        octets[place] = octet;
        marks[place] = 255;
    }
    for damaged in 0..end {
        octets[damaged] ^= 0x20;
        for job in Job::BOTH {
            let listener = settings.listing(job, &table);
            beside_readings(
                listener,
                Capture::new(&octets[..end + 4], &marks[..end + 4]),
            );
        }
        octets[damaged] ^= 0x20;
    }
    for end in 0..=end + 4 {
        let capture = Capture::new(&octets[..end], &marks[..end]);
        beside_readings(settings.listing(Job::One, &table), capture);
    }
}

#[test]
fn it_takes_65536_symbols() {
    let settings = Settings::new(OWN);
    let mut plain = Plain::new(&settings);
    assert_eq!(plain.push(Symbol::control(0xFB)), Ok(None));
    for _ in 1..SYMBOLS {
        assert_eq!(plain.push(Symbol::data(0x55)), Ok(None));
    }
    assert_eq!((plain.place(), plain.run()), (SYMBOLS, Some(65_535)));
    let then = plain.clone();
    for symbol in [
        Symbol::data(0),
        Symbol::control(0xFD),
        Symbol::control(0xFB),
    ] {
        assert_eq!(plain.push(symbol), Err(Refusal::BadBuffers));
        assert_eq!(plain, then);
    }
}

#[test]
fn the_last_symbol_is_answered() {
    let settings = Settings::new(OWN);
    let mut plain = Plain::new(&settings);
    for _ in 2..SYMBOLS {
        plain.push(Symbol::control(0x07)).unwrap();
    }
    plain.push(Symbol::control(0xFB)).unwrap();
    let told = plain.push(Symbol::control(0xFB)).unwrap().unwrap();
    assert_eq!((told.start, told.next), (SYMBOLS - 2, SYMBOLS - 1));
    assert_eq!(told.outcome, Outcome::Cut);
    assert!(plain.is_open());
}

// Refused by 1, 20 and 2, in that order, with all kept; and it goes on where it was.
#[test]
fn it_is_refused_in_order() {
    let good = Settings::new(OWN);
    let bad = Settings::new(Address([0x01, 0, 0, 0, 0, 1]));
    // entries 2 and 5 are job 1's, with one address
    let mut entries = [0; 128];
    (entries[16], entries[40]) = (2, 2);
    let bad_table = Table::from_octets(entries);
    let table = Table::new();
    let mut plain = Plain::new(&good);
    plain.push(Symbol::control(0xFB)).unwrap();
    let then = plain.clone();
    for (listener, refusal) in [
        (bad.listing(Job::One, &bad_table), Refusal::BadSettings),
        (bad.listing(Job::One, &table), Refusal::BadSettings),
        (good.listing(Job::Zero, &bad_table), Refusal::BadTable),
    ] {
        for symbol in [Symbol::data(0x55), Symbol::control(0xFD)] {
            plain.listener = listener;
            assert_eq!(plain.push(symbol), Err(refusal));
            plain.listener = then.listener;
            assert_eq!(plain, then);
        }
    }
    let told = plain.push(Symbol::control(0xFD)).unwrap().unwrap();
    assert_eq!(told.outcome, Outcome::BadPreamble);
}

#[test]
fn it_shows_its_place_and_run() {
    let settings = Settings::new(OWN);
    let mut plain = Plain::new(&settings);
    plain.push(Symbol::control(0xFB)).unwrap();
    plain.push(Symbol::data(0x55)).unwrap();
    let shown = format!("{plain:?}");
    assert!(shown.contains("place: 2, run: Some(1)"), "{shown}");
}
