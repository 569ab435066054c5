//! Two jobs on one table of addresses: document 02's item 10, sentence by sentence.
use fenhamper::{
    limits, Address, Capture, Entry, Frame, Job, Listener, Log, Outcome, Reading, Refusal, Sender,
    Settings, State, Station, Table, Way,
};

const OWN: Address = Address([0x02, 0, 0, 0, 0, 1]);

const fn group(n: u8) -> Address {
    Address([0x01, 0, 0x5E, 0, 0, n])
}

// A table that holds these, in order.
fn table(held: &[(Job, Address)]) -> Table {
    let mut table = Table::new();
    for (entry, &(job, address)) in held.iter().enumerate() {
        assert_eq!(table.add(job, address), Ok(entry));
    }
    table
}

// Frames to these addresses, each with its number as data.
fn frames(to: &[Address]) -> (Vec<u8>, Vec<u8>) {
    let (mut octets, mut marks) = (vec![0; 84 * to.len()], vec![0; 84 * to.len()]);
    let mut sender = Sender::new(&mut octets, &mut marks);
    let mut station = Station::new(Settings::new(Address([0x02, 0, 0, 0, 0, 9])));
    for (n, &address) in (0..).zip(to) {
        let frame = Frame::to(address);
        station.send_client(&mut sender, &frame, &[n]).unwrap();
    }
    (octets, marks)
}

// Outcome, way and data of each reading; the walk and the walk with a log leave the same state.
fn readings(who: Listener, capture: Capture) -> Vec<(Outcome, Option<Way>, Vec<u8>)> {
    let [mut state, mut walked, mut kept] = [(); 3].map(|()| State::default());
    let counted = capture.readings(who, &mut state).map(|r| r.unwrap());
    let answers = counted.map(|r| (r.outcome, r.way, r.data.to_vec()));
    let answers: Vec<_> = answers.collect();
    let walk = capture.walk(who, &mut walked).unwrap();
    assert_eq!(walk.starts, answers.len());
    let mut octets = vec![0; answers.len() * limits::RECORD_SIZE];
    let mut log = Log::new(&mut octets).unwrap();
    let _ = capture.walk_log(who, &mut kept, 0, &mut log).unwrap();
    assert!(log
        .records()
        .map(|record| (record.outcome().unwrap(), record.way()))
        .eq(answers.iter().map(|(outcome, way, _)| (*outcome, *way))));
    assert_eq!((&walked, &kept), (&state, &state));
    answers
}

#[test]
fn each_job_holds_at_most_twelve_and_always_gets_four() {
    for first in Job::BOTH {
        let mut table = Table::new();
        for n in 0..12 {
            assert_eq!(table.add(first, group(n)), Ok(n.into()));
        }
        let twelve = table.clone();
        assert_eq!(table.add(first, group(12)), Err(Refusal::HoldsTwelve));
        assert_eq!(table, twelve);
        for n in 0..4 {
            assert_eq!(table.add(first.other(), group(n)), Ok(12 + usize::from(n)));
        }
        let all = table.clone();
        assert_eq!(table.add(first.other(), group(4)), Err(Refusal::AllInUse));
        // 15 comes before 16, and 17 before both
        assert_eq!(table.add(first, group(12)), Err(Refusal::HoldsTwelve));
        for n in 0..12 {
            let already = Err(Refusal::AlreadyListed);
            assert_eq!(table.add(first, group(n)), already);
            let other = table.add(first.other(), group(n));
            assert_eq!(
                other,
                if n < 4 {
                    already
                } else {
                    Err(Refusal::AllInUse)
                }
            );
        }
        assert_eq!(table, all);
        assert_eq!((table.holds(first), table.holds(first.other())), (12, 4));
    }
    assert_eq!(limits::MOST_HELD + limits::LEAST_HELD, limits::ENTRIES);
}

// Whichever entries the other job holds, four additions come through.
#[test]
fn four_come_through_whatever_the_other_holds() {
    for job in Job::BOTH {
        for entries in 0_u16..=u16::MAX {
            if entries.count_ones() > 12 {
                continue;
            }
            let mut octets = [0; 128];
            for k in (0..16).filter(|k| entries >> k & 1 == 1) {
                octets[8 * k] = job.other().number() + 1;
                octets[8 * k + 6] = u8::try_from(k).unwrap();
            }
            let mut table = Table::from_octets(octets);
            let free = (0..16).filter(|k| entries >> k & 1 == 0);
            for (n, lowest) in (0..4).zip(free) {
                assert_eq!(table.add(job, group(n)), Ok(lowest));
            }
            assert_eq!(table.holds(job.other()), entries.count_ones() as usize);
        }
    }
}

#[test]
fn freed_entries_are_used_again() {
    let mut table = table(&[
        (Job::Zero, group(0)),
        (Job::One, group(1)),
        (Job::Zero, group(1)),
        (Job::One, group(3)),
    ]);
    assert_eq!(table.remove(Job::Zero, group(1)), Ok(2));
    assert_eq!(table.remove(Job::One, group(1)), Ok(1));
    assert_eq!(table.add(Job::Zero, group(9)), Ok(1));
    assert_eq!(table.add(Job::One, group(9)), Ok(2));
    assert_eq!(table.add(Job::One, group(8)), Ok(4));
    let held = [
        (Job::Zero, group(0)),
        (Job::Zero, group(9)),
        (Job::One, group(9)),
        (Job::One, group(3)),
        (Job::One, group(8)),
    ];
    let held = held.map(|(job, address)| Entry { job, address });
    assert!(table.entries().eq(held.into_iter().enumerate()));
    // what a job does not list it cannot remove
    let before = table.clone();
    for (job, address) in [(Job::Zero, group(8)), (Job::One, group(0)), (Job::One, OWN)] {
        assert_eq!(table.remove(job, address), Err(Refusal::NotListed));
    }
    assert_eq!(table, before);
    // an entry that is freed is all zeros
    assert_eq!(table.remove(Job::One, group(8)), Ok(4));
    assert_eq!(table.octets()[32..40], [0; 8]);
}

#[test]
fn an_address_may_be_listed_by_both() {
    let table = table(&[(Job::One, group(1)), (Job::Zero, group(1))]);
    let (octets, marks) = frames(&[group(1)]);
    let capture = Capture::new(&octets, &marks);
    for (job, entry) in [(Job::One, 0), (Job::Zero, 1)] {
        let read = readings(Settings::new(OWN).listing(job, &table), capture);
        let expected = (Outcome::HandedOut, Some(Way::Entry(entry)), vec![0]);
        assert_eq!(read, [expected]);
    }
}

// Two tables in which a job lists the same, in other entries and beside others of the other job.
#[test]
fn a_jobs_readings_depend_on_its_own_entries() {
    let to = [OWN, group(1), group(2), group(3), Address::BROADCAST];
    let (octets, marks) = frames(&to);
    let capture = Capture::new(&octets, &marks);
    for job in Job::BOTH {
        let other = job.other();
        let few = table(&[(job, group(1)), (job, group(3))]);
        let many = table(&[
            (other, group(2)),
            (other, OWN),
            (job, group(3)),
            (other, group(1)),
            (other, Address::BROADCAST),
            (job, group(1)),
        ]);
        for promiscuous in [false, true] {
            let settings = Settings::new(OWN).promiscuous(promiscuous);
            let [few, many] = [&few, &many].map(|t| readings(settings.listing(job, t), capture));
            // where the table put it is all that differs
            let ways = [&few, &many].map(|read| [1, 3].map(|k| read[k].1));
            assert_eq!(ways[0], [0, 1].map(|k| Some(Way::Entry(k))));
            assert_eq!(ways[1], [5, 2].map(|k| Some(Way::Entry(k))));
            for (k, (one, another)) in few.iter().zip(&many).enumerate() {
                assert_eq!((one.0, &one.2), (another.0, &another.2));
                assert!(one.1 == another.1 || k == 1 || k == 3);
            }
            let outcome = |on| {
                if on {
                    Outcome::HandedOut
                } else {
                    Outcome::Filtered
                }
            };
            assert!(few
                .iter()
                .map(|r| r.0)
                .eq([true, true, promiscuous, true, true].map(outcome)));
        }
    }
}

// Each set of entries as a table's octets: job 0 holds those of the one, job 1 those of the other.
fn held(zero: u16, one: u16, address: impl Fn(usize) -> Address) -> Table {
    let mut octets = [0xA5; 128];
    for k in 0..16 {
        octets[8 * k] = match (zero >> k & 1, one >> k & 1) {
            (1, _) => 1,
            (_, 1) => 2,
            // any other octet is nobody's
            _ => [0, 3, 0x80, 0xFF][k % 4],
        };
        octets[8 * k + 1..8 * k + 7].copy_from_slice(&address(k).0);
    }
    Table::from_octets(octets)
}

// Whether every call that takes the table is refused for it; else none is.
fn is_bad(table: &Table) -> bool {
    let capture = Capture::new(&[0xFB, 0xFD], &[1, 1]);
    let told = Job::BOTH.map(|job| {
        let who = Settings::new(OWN).listing(job, table);
        let mut state = State::default();
        let mut octets = [0; 16];
        let mut log = Log::new(&mut octets).unwrap();
        let (mut added, mut removed) = (table.clone(), table.clone());
        let refusals = [
            capture.read(who, &mut state, 0).err(),
            capture.readings(who, &mut state).next().unwrap().err(),
            capture.explain(who, 0).err(),
            capture.walk(who, &mut state).err(),
            capture.walk_log(who, &mut state, 0, &mut log).err(),
            who.screen_data([capture; 2], 0).err(),
        ];
        let bad = refusals[0].is_some();
        assert_eq!(refusals, [bad.then_some(Refusal::BadTable); 6]);
        if bad {
            assert_eq!(state, State::default());
            assert_eq!(octets, [0; 16]);
            assert_eq!(added.add(job, group(99)), Err(Refusal::BadTable));
            assert_eq!(removed.remove(job, group(99)), Err(Refusal::BadTable));
            assert_eq!((&added, &removed), (table, table));
        } else {
            assert_ne!(added.add(job, group(99)), Err(Refusal::BadTable));
            assert_eq!(removed.remove(job, group(99)), Err(Refusal::NotListed));
        }
        bad
    });
    assert_eq!(told[0], told[1]);
    told[0]
}

#[test]
fn a_table_of_more_than_twelve_is_refused() {
    let distinct = |k| group(u8::try_from(k).unwrap());
    for n in 0..=16 {
        let low = u16::try_from((1_u32 << n) - 1).unwrap();
        // from the front and from the back
        for entries in [low, low.reverse_bits()] {
            assert_eq!(is_bad(&held(entries, 0, distinct)), n > 12);
            assert_eq!(is_bad(&held(0, entries, distinct)), n > 12);
            let fine = (4..=12).contains(&n);
            assert_eq!(is_bad(&held(entries, !entries, distinct)), !fine);
        }
    }
}

#[test]
fn a_table_with_an_address_twice_is_refused() {
    for first in 0..16 {
        for second in first + 1..16 {
            let twice = |k| group(u8::try_from(if k == second { first } else { k }).unwrap());
            let (a, b) = (1 << first, 1 << second);
            assert!(is_bad(&held(a | b, 0, twice)));
            assert!(is_bad(&held(0, a | b, twice)));
            assert!(!is_bad(&held(a, b, twice)));
            // of an entry that is free nothing is looked at
            assert!(!is_bad(&held(a, 0, twice)));
            assert!(!is_bad(&held(0, 0, |_| OWN)));
            // all six octets count
            for octet in 0..6 {
                let near = |k| {
                    let mut address = twice(k);
                    address.0[octet] ^= if k == second { 0x40 } else { 0 };
                    address
                };
                assert!(!is_bad(&held(a | b, 0, near)));
            }
        }
    }
}

// 1, 2, 3, 20; 14 has no job in Rust that gives it.
#[test]
fn readings_are_refused_in_order() {
    let bad = held(0x1FFF, 0, |k| group(u8::try_from(k).unwrap()));
    let good = Table::new();
    let (fine, wrong) = (Settings::new(OWN), Settings::new(OWN).limit(0));
    let cases = [
        (wrong, &bad, &[0xFB][..], 9, Refusal::BadSettings),
        (fine, &bad, &[0xFB], 9, Refusal::BadBuffers),
        (fine, &bad, &[0xFB, 0xFD], 9, Refusal::BadPlace),
        (fine, &bad, &[0xFB, 0xFD], 0, Refusal::BadTable),
        (fine, &good, &[0xFB, 0xFD], 9, Refusal::BadPlace),
    ];
    for job in Job::BOTH {
        for (settings, table, octets, place, why) in cases {
            let capture = Capture::new(octets, &[1, 1]);
            let who = settings.listing(job, table);
            let mut state = State::default();
            assert_eq!(capture.read(who, &mut state, place), Err(why));
            assert_eq!(capture.explain(who, place), Err(why));
            let fine = Capture::new(&[0xFB, 0xFD], &[1, 1]);
            let mut captures = [fine; 2];
            captures[usize::from(job.number())] = capture;
            assert_eq!(who.screen_data(captures, place), Err(why));
            assert_eq!(state, State::default());
        }
    }
}

// The screen shows what the reading of the chosen job hands out, from its own octets.
#[test]
fn the_screen_shows_the_chosen_jobs_data() {
    let to = [group(1), OWN, group(2), Address::BROADCAST];
    let (octets, marks) = frames(&to);
    let table = table(&[(Job::Zero, group(1)), (Job::One, group(2))]);
    let here = Capture::new(&octets, &marks);
    let elsewhere = [
        Capture::new(&[], &[]),
        // what would be refused of this job's
        Capture::new(&[0xFB; 5], &[1; 4]),
        Capture::new(&octets[84..], &marks[84..]),
    ];
    for job in Job::BOTH {
        let mut station = Station::of(job, Settings::new(OWN));
        for other in elsewhere {
            let mut captures = [other; 2];
            captures[usize::from(job.number())] = here;
            for place in 0..=octets.len() + 1 {
                let mut listing = station.listing(&table);
                let shown = listing.screen_data(captures, place);
                let read = listing.read(here, place);
                let handed = read.map(|reading| match reading {
                    Reading::Counted(counted) => counted.data,
                    _ => &[],
                });
                assert_eq!(shown, handed);
                // the very octets, not equal ones
                if let (Ok(shown), Ok(handed)) = (shown, handed) {
                    assert!(handed.is_empty() || shown.as_ptr() == handed.as_ptr());
                }
            }
        }
    }
}

// No state has a part in it, and none is changed.
#[test]
fn the_screen_needs_no_state() {
    let (octets, marks) = frames(&[OWN]);
    let captures = [Capture::new(&octets, &marks); 2];
    let mut station = Station::new(Settings::new(OWN));
    let shown = station.listing(&Table::new()).screen_data(captures, 0);
    assert_eq!(shown, Ok(&[0][..]));
    assert_eq!(station, Station::new(Settings::new(OWN)));
}

// A station with a table, the listener it stands for, and, where nothing is listed, the settings.
#[test]
fn a_station_is_its_listener() {
    let (octets, marks) = frames(&[OWN, group(1), group(2)]);
    let capture = Capture::new(&octets, &marks);
    let table = table(&[(Job::Zero, group(1)), (Job::One, group(2))]);
    for job in Job::BOTH {
        let mut station = Station::of(job, Settings::new(OWN));
        let who = station.listener(&table);
        assert_eq!(who, station.settings.listing(job, &table));
        let mut state = State::default();
        let mut listing = station.listing(&table);
        assert_eq!(listing.read(capture, 1), capture.read(who, &mut state, 1));
        assert_eq!(listing.explain(capture, 1), capture.explain(who, 1));
        assert_eq!(listing.walk(capture), capture.walk(who, &mut state));
        let (mut ours, mut theirs) = ([0; 48], [0; 48]);
        assert_eq!(
            listing.walk_log(capture, 0, &mut Log::new(&mut ours).unwrap()),
            capture.walk_log(who, &mut state, 0, &mut Log::new(&mut theirs).unwrap())
        );
        assert_eq!(ours, theirs);
        let read: Vec<_> = listing.readings(capture).collect();
        let below: Vec<_> = capture.readings(who, &mut state).collect();
        assert_eq!(read, below);
        assert_eq!(station.state, state);
        // with nothing listed
        let (mut plain, mut settings) = (State::default(), State::default());
        let empty = capture.walk(who.settings.listing(job, &Table::new()), &mut plain);
        assert_eq!(empty, capture.walk(&who.settings, &mut settings));
        assert_eq!(plain, settings);
        let mut station = Station::of(job, Settings::new(OWN));
        assert_eq!((station.walk(capture), station.state), (empty, plain));
    }
}

#[test]
fn any_octets_are_a_table() {
    let mut octets = [0; 128];
    for (k, octet) in octets.iter_mut().enumerate() {
        *octet = u8::try_from(k).unwrap();
    }
    assert_eq!(Table::from_octets(octets).octets(), octets);
    assert_eq!(Table::new().octets(), [0; 128]);
    // who holds what; 0 and 8 and so on are nobody
    octets[8] = 2;
    octets[24] = 1;
    let table = Table::from_octets(octets);
    let entry = |job, first: u8| Entry {
        job,
        address: Address([0, 1, 2, 3, 4, 5].map(|k| first + k)),
    };
    let expected = [(1, entry(Job::One, 9)), (3, entry(Job::Zero, 25))];
    assert!(table.entries().eq(expected));
    assert!(table.entries().rev().eq(expected.into_iter().rev()));
    assert_eq!((table.entry(0), table.entry(16)), (None, None));
    assert_eq!(Job::BOTH.map(|job| table.holds(job)), [1, 1]);
    let words = format!("{table:?}");
    assert!(
        words.starts_with("{1: Entry { job: One, address: Address(09-0A"),
        "{words}"
    );
    // a spare octet makes another table, and no other answer
    octets[8 + 7] ^= 1;
    let worn = Table::from_octets(octets);
    assert_ne!(worn, table);
    assert!(worn.entries().eq(table.entries()));
}

#[test]
fn clearing_frees_every_entry() {
    let mut table = held(0xFFFF, 0, |_| OWN);
    table.clear();
    assert_eq!((&table, Table::default()), (&Table::new(), Table::new()));
    assert_eq!(table.entries().count(), 0);
    assert_eq!(table.add(Job::One, OWN), Ok(0));
}

// Job 0 and job 1 go on side by side, and the table changes between their readings.
#[test]
fn two_stations_share_a_table() {
    let [mut zero, mut one] = Job::BOTH.map(|job| Station::of(job, Settings::new(OWN)));
    let (octets, marks) = frames(&[group(1), group(2)]);
    let capture = Capture::new(&octets, &marks);
    let mut table = Table::new();
    for n in 1..=2 {
        table.add(zero.job, group(n)).unwrap();
        zero.listing(&table).walk(capture).unwrap();
        one.listing(&table).walk(capture).unwrap();
    }
    table.remove(zero.job, group(1)).unwrap();
    table.add(one.job, group(1)).unwrap();
    zero.listing(&table).walk(capture).unwrap();
    one.listing(&table).walk(capture).unwrap();
    let counted = |station: &Station| {
        [Outcome::HandedOut, Outcome::Filtered].map(|outcome| station.state.counter(outcome))
    };
    assert_eq!((counted(&zero), counted(&one)), ([4, 2], [1, 5]));
}
