//! Which address let a frame in: each rule of document 02's item 7, in readings and in records.
use fenhamper::{
    fcs, Address, Capture, Flow, Job, Listener, Log, Outcome, Reading, Record, Settings, State,
    Station, Table, Way,
};

const OWN: Address = Address([0x02, 0, 0, 0, 0, 1]);
const OTHER: Address = Address([0x02, 0, 0, 0, 0, 9]);
const RESERVED: Address = Address::PAUSE_GROUP;
const IPV4: [u8; 2] = [0x08, 0x00];
const CONTROL: [u8; 2] = [0x88, 0x08];

// A group of the list.
const fn group(n: u8) -> Address {
    Address([0x01, 0, 0x5E, 0, 0, n])
}

// A frame of so many octets to this address, with these behind its source, on the line.
fn line(length: usize, to: Address, inside: &[u8]) -> (Vec<u8>, Vec<u8>) {
    let mut frame = [to.as_ref(), OTHER.as_ref(), inside].concat();
    frame.resize(length - 4, 0);
    frame.extend(fcs(&frame).to_le_bytes());
    let preamble = [0xFB, 0x55, 0x55, 0x55, 0x55, 0x55, 0x55, 0xD5];
    let octets = [&preamble, &frame[..], &[0xFD]].concat();
    let mut marks = vec![0; octets.len()];
    (marks[0], marks[8 + length]) = (1, 1);
    (octets, marks)
}

// A table in which a job lists these. Before each stands an entry of the other job, so that their
// entries are 1, 3 and so on.
fn listed(job: Job, addresses: &[Address]) -> Table {
    let mut table = Table::new();
    for (n, &address) in (0..).zip(addresses) {
        assert_eq!(
            table.add(job.other(), group(100 + n)),
            Ok(2 * usize::from(n))
        );
        assert_eq!(table.add(job, address), Ok(2 * usize::from(n) + 1));
    }
    table
}

// Reads that frame; its records, by a walk and from the reading, say what the reading says.
fn read<'t>(who: impl Into<Listener<'t>>, to: Address, inside: &[u8]) -> (Outcome, Option<Way>) {
    let who = who.into();
    let (octets, marks) = line(64, to, inside);
    let capture = Capture::new(&octets, &marks);
    let reading = capture.read(who, &mut State::default(), 0).unwrap();
    let Reading::Counted(counted) = reading else {
        panic!("{reading:?}");
    };
    let (mut by_walk, mut by_reading) = ([0; 16], [0; 16]);
    let mut log = Log::new(&mut by_walk).unwrap();
    let kept = capture.walk_log(who, &mut State::default(), 0, &mut log);
    assert_eq!(kept.unwrap().records, 1);
    let record: Record = log.record(0).unwrap();
    assert_eq!(record.way(), counted.way);
    assert_eq!(record.way_number, counted.way.map_or(0, Way::number));
    let mut log = Log::new(&mut by_reading).unwrap();
    log.append_reading(&reading).unwrap();
    assert_eq!(by_walk, by_reading);
    (counted.outcome, counted.way)
}

// A client frame: handed out by this address, or filtered.
fn client<'t>(who: impl Into<Listener<'t>>, to: Address) -> Option<Way> {
    let (outcome, way) = read(who, to, &IPV4);
    let let_in = match way {
        Some(_) => Outcome::HandedOut,
        None => Outcome::Filtered,
    };
    assert_eq!(outcome, let_in);
    way
}

#[test]
fn own_comes_first() {
    for job in Job::BOTH {
        for addresses in [&[][..], &[group(1), OWN]] {
            let table = listed(job, addresses);
            for promiscuous in [false, true] {
                let settings = Settings::new(OWN).promiscuous(promiscuous);
                assert_eq!(client(&settings, OWN), Some(Way::Own));
                assert_eq!(client(settings.listing(job, &table), OWN), Some(Way::Own));
            }
        }
    }
}

#[test]
fn the_jobs_entry_is_named() {
    let groups = [1, 2, 3, 4, 5, 6, 7, 8].map(group);
    for job in Job::BOTH {
        let table = listed(job, &groups);
        for promiscuous in [false, true] {
            let settings = Settings::new(OWN).promiscuous(promiscuous);
            let by_none = promiscuous.then_some(Way::Promiscuous);
            for (n, to) in (0..).zip(groups) {
                let who = settings.listing(job, &table);
                assert_eq!(client(who, to), Some(Way::Entry(2 * n + 1)));
                // the other job's entries do not match, nor do this job's for the other one
                assert_eq!(client(who, group(100 + n)), by_none);
                let other = settings.listing(job.other(), &table);
                assert_eq!(client(other, to), by_none);
                assert_eq!(client(other, group(100 + n)), Some(Way::Entry(2 * n)));
                // once it is removed, no entry does
                let mut fewer = table.clone();
                assert_eq!(fewer.remove(job, to), Ok(2 * usize::from(n) + 1));
                assert_eq!(client(settings.listing(job, &fewer), to), by_none);
                // and with nothing listed none
                assert_eq!(client(&settings, to), by_none);
            }
        }
    }
}

#[test]
fn broadcast_goes_by_its_setting() {
    for job in Job::BOTH {
        for addresses in [
            &[][..],
            &[Address::BROADCAST],
            &[group(1), Address::BROADCAST],
        ] {
            let table = listed(job, addresses);
            for promiscuous in [false, true] {
                let on = Settings::new(OWN).promiscuous(promiscuous);
                let way =
                    |settings: Settings| client(settings.listing(job, &table), Address::BROADCAST);
                assert_eq!(way(on), Some(Way::Broadcast));
                let by_none = promiscuous.then_some(Way::Promiscuous);
                assert_eq!(way(on.broadcast(false)), by_none);
            }
        }
    }
}

#[test]
fn a_control_frame_to_the_reserved_group_says_so() {
    let plain = Settings::new(OWN);
    for addresses in [&[][..], &[RESERVED], &[group(1), RESERVED]] {
        let table = listed(Job::One, addresses);
        for promiscuous in [false, true] {
            for flow in [Flow::Off, Flow::Pause, Flow::Pfc] {
                for passing in [false, true] {
                    let settings = plain
                        .promiscuous(promiscuous)
                        .flow(flow)
                        .pass_control(passing);
                    let who = settings.listing(Job::One, &table);
                    let not_taken = if passing {
                        Outcome::HandedOut
                    } else {
                        Outcome::ControlDropped
                    };
                    // opcodes of pause, of PFC, and another
                    for (opcode, taken, by) in [
                        ([0, 1], Outcome::PauseTaken, Some(Flow::Pause)),
                        ([1, 1], Outcome::PfcTaken, Some(Flow::Pfc)),
                        ([0, 2], not_taken, None),
                    ] {
                        let inside = [CONTROL, opcode].concat();
                        let outcome = if by == Some(flow) { taken } else { not_taken };
                        let read = read(who, RESERVED, &inside);
                        assert_eq!(read, (outcome, Some(Way::Reserved)));
                    }
                }
            }
        }
    }
}

#[test]
fn other_control_frames_go_by_their_address() {
    let (plain, table) = (Settings::new(OWN), listed(Job::Zero, &[group(1), RESERVED]));
    let read = |settings: Settings, to, inside: &[u8]| {
        read(settings.listing(Job::Zero, &table), to, inside)
    };
    let dropped = |way| (Outcome::ControlDropped, Some(way));
    assert_eq!(read(plain, OWN, &CONTROL), dropped(Way::Own));
    let paused = read(plain.flow(Flow::Pause), OWN, &[0x88, 0x08, 0, 1]);
    assert_eq!(paused, (Outcome::PauseTaken, Some(Way::Own)));
    assert_eq!(read(plain, group(1), &CONTROL), dropped(Way::Entry(1)));
    let to_all = read(plain, Address::BROADCAST, &CONTROL);
    assert_eq!(to_all, dropped(Way::Broadcast));
    assert_eq!(read(plain, OTHER, &CONTROL), (Outcome::Filtered, None));
    let any = read(plain.promiscuous(true), OTHER, &CONTROL);
    assert_eq!(any, dropped(Way::Promiscuous));
}

// A client frame, and 0x8808 behind a tag, which is a type.
#[test]
fn another_frame_to_the_reserved_group_goes_by_its_address() {
    for inside in [&IPV4[..], &[0x81, 0x00, 0, 5, 0x88, 0x08, 0, 1]] {
        let plain = Settings::new(OWN).flow(Flow::Pause);
        let handed = |way| (Outcome::HandedOut, Some(way));
        let table = listed(Job::One, &[group(1), group(2), RESERVED]);
        let by = |settings: Settings, job| read(settings.listing(job, &table), RESERVED, inside);
        let any = plain.promiscuous(true);
        assert_eq!(by(plain, Job::Zero), (Outcome::Filtered, None));
        assert_eq!(by(any, Job::Zero), handed(Way::Promiscuous));
        assert_eq!(by(plain, Job::One), handed(Way::Entry(5)));
        assert_eq!(by(any, Job::One), handed(Way::Entry(5)));
    }
}

// Outcomes 1 to 7, where every address would let the frame in but for the filtered one.
#[test]
fn a_frame_not_let_in_says_none() {
    let settings = Settings::new(OWN).promiscuous(true);
    let told = |(octets, marks): (Vec<u8>, Vec<u8>)| {
        let reading = Station::new(settings).read(Capture::new(&octets, &marks), 0);
        let Ok(Reading::Counted(counted)) = reading else {
            panic!("{reading:?}");
        };
        (counted.outcome, counted.way)
    };
    let good = line(64, OWN, &IPV4);
    assert_eq!(told(good.clone()), (Outcome::HandedOut, Some(Way::Own)));
    for (outcome, at, octet) in [
        (Outcome::Cut, 72, 0x07),
        (Outcome::BadPreamble, 7, 0x55),
        (Outcome::WrongFcs, 40, 1),
    ] {
        let mut damaged = good.clone();
        damaged.0[at] = octet;
        assert_eq!(told(damaged), (outcome, None));
    }
    for (outcome, length, field) in [
        (Outcome::Undersized, 63, IPV4),
        (Outcome::Oversized, 1519, IPV4),
        (Outcome::WrongLength, 64, [0, 47]),
    ] {
        assert_eq!(told(line(length, OWN, &field)), (outcome, None));
    }
    let filtered = read(&Settings::new(OWN), OTHER, &IPV4);
    assert_eq!(filtered, (Outcome::Filtered, None));
}
