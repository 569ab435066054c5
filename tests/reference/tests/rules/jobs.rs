//! "Two jobs on one tester", item 10 of document 02: the table, the readings of
//! two jobs and the screen call.

use reference::{explain, read, show, walk, walk_log};
use reference::{Answer, Check, Entry, LogEnd, Part, Reading, Settings, State, Table, Walked, Why};

use crate::hand::{frame, listing, ramp, Capture, Reader, KINDS};
use crate::hand::{BROADCAST, IDLE, MULTICAST, OTHER, OWN, PLAIN, RESERVED, START, TERMINATE};
use crate::robust::Dice;

/// Addresses of which no two are alike.
fn group(n: usize) -> [u8; 6] {
    [0x01, 0, 0x5E, 1, 0, n as u8]
}

/// How many entries a job holds.
fn held(table: &Table, job: u8) -> usize {
    let entries = table.entries().iter();
    entries
        .filter(|entry| entry.address_of(job).is_some())
        .count()
}

/// Adds, and checks what holds each time: the lowest free entry is taken, for
/// this job and with this address, and no other entry changes.
fn add(table: &mut Table, job: u8, address: [u8; 6]) -> Result<usize, u8> {
    let before = *table;
    let added = table.add(job, address);
    let Ok(entry) = added else {
        assert_eq!(*table, before);
        return added;
    };
    let mut entries = *before.entries();
    assert!(entries[..entry].iter().all(|entry| *entry != Entry::Free));
    assert_eq!(entries[entry], Entry::Free);
    entries[entry] = Entry::held(job, address);
    assert_eq!(*table, Table::from_entries(entries));
    assert!(held(table, 0) <= 12 && held(table, 1) <= 12);
    added
}

/// Removes, and checks what holds each time.
fn remove(table: &mut Table, job: u8, address: [u8; 6]) -> Result<usize, u8> {
    let before = *table;
    let removed = table.remove(job, address);
    let Ok(entry) = removed else {
        assert_eq!(*table, before);
        return removed;
    };
    let mut entries = *before.entries();
    assert_eq!(entries[entry].address_of(job), Some(address));
    entries[entry] = Entry::Free;
    assert_eq!(*table, Table::from_entries(entries));
    removed
}

/// A table in which the jobs hold so many entries, job 0 the first ones.
fn filled(of_0: usize, of_1: usize) -> Table {
    let mut entries = [Entry::Free; 16];
    for (n, entry) in entries.iter_mut().take(of_0 + of_1).enumerate() {
        *entry = Entry::held(u8::from(n >= of_0), group(n));
    }
    Table::from_entries(entries)
}

#[test]
fn twelve_each_and_sixteen_together() {
    for of_0 in 0..=12 {
        for of_1 in 0..=12.min(16 - of_0) {
            let table = filled(of_0, of_1);
            for (job, holds) in [(0, of_0), (1, of_1)] {
                let expected = if holds == 12 {
                    Err(15)
                } else if of_0 + of_1 == 16 {
                    Err(16)
                } else {
                    Ok(of_0 + of_1)
                };
                assert_eq!(add(&mut table.clone(), job, OTHER), expected);
                // "each always gets 4 whatever the other does"
                assert!(expected != Err(16) || holds >= 4);
            }
        }
    }
    // 12 of one job and 4 of the other: 15 for the one, 16 for the other.
    assert_eq!(add(&mut filled(12, 4), 0, OTHER), Err(15));
    assert_eq!(add(&mut filled(12, 4), 1, OTHER), Err(16));
    assert_eq!(add(&mut filled(8, 8), 0, OTHER), Err(16));
}

#[test]
fn each_always_gets_four() {
    for job in [0, 1] {
        let mut table = Table::EMPTY;
        for n in 0..12 {
            assert_eq!(add(&mut table, 1 - job, group(n)), Ok(n));
        }
        assert_eq!(add(&mut table, 1 - job, group(12)), Err(15));
        for n in 0..4 {
            assert_eq!(add(&mut table, job, group(n)), Ok(12 + n));
        }
        assert_eq!(add(&mut table, job, group(4)), Err(16));
        assert_eq!(add(&mut table, 1 - job, group(12)), Err(15));
    }
}

#[test]
fn freed_entries_are_used_again() {
    let mut table = Table::EMPTY;
    for n in 0..8 {
        assert_eq!(add(&mut table, 0, group(n)), Ok(2 * n));
        assert_eq!(add(&mut table, 1, group(n)), Ok(2 * n + 1));
    }
    assert_eq!(add(&mut table, 0, OTHER), Err(16));
    for n in [6, 1, 3] {
        assert_eq!(remove(&mut table, 0, group(n)), Ok(2 * n));
    }
    assert_eq!(remove(&mut table, 1, group(2)), Ok(5));
    // The lowest first, whoever freed them.
    for (job, address, entry) in [(1, OTHER, 2), (0, OTHER, 5), (1, OWN, 6), (0, OWN, 12)] {
        assert_eq!(add(&mut table, job, address), Ok(entry));
    }
    assert_eq!(add(&mut table, 0, MULTICAST), Err(16));
}

#[test]
fn both_list_the_same_address() {
    let mut table = Table::EMPTY;
    assert_eq!(add(&mut table, 0, MULTICAST), Ok(0));
    assert_eq!(remove(&mut table, 1, MULTICAST), Err(18));
    assert_eq!(add(&mut table, 1, MULTICAST), Ok(1));
    assert_eq!(add(&mut table, 0, MULTICAST), Err(17));
    assert_eq!(add(&mut table, 1, MULTICAST), Err(17));
    assert_eq!(remove(&mut table, 0, MULTICAST), Ok(0));
    assert_eq!(remove(&mut table, 0, MULTICAST), Err(18));
    assert_eq!(remove(&mut table, 1, MULTICAST), Ok(1));
    assert_eq!(table, Table::EMPTY);
}

#[test]
fn any_address_can_be_listed() {
    let any = [[0; 6], OWN, OTHER, MULTICAST, RESERVED, BROADCAST];
    let mut table = Table::EMPTY;
    for (n, address) in any.into_iter().enumerate() {
        assert_eq!(add(&mut table, 1, address), Ok(n));
    }
    for (n, address) in any.into_iter().enumerate().rev() {
        assert_eq!(remove(&mut table, 1, address), Ok(n));
    }
    // All six octets count.
    for at in 0..6 {
        let mut near = MULTICAST;
        near[at] ^= 0x40;
        let mut table = listing(0, &[MULTICAST]);
        assert_eq!(remove(&mut table, 0, near), Err(18));
        assert_eq!(add(&mut table, 0, near), Ok(1));
    }
}

/// Broken tables: above 12 of a job, or an address twice.
fn broken() -> Vec<Table> {
    let mut tables = vec![filled(13, 0), filled(0, 13), filled(16, 0), filled(0, 16)];
    tables.extend([filled(13, 3), filled(3, 13)]);
    for job in [0, 1] {
        for (one, two) in [(0, 1), (0, 15), (7, 9), (14, 15)] {
            let mut entries = [Entry::Free; 16];
            entries[one] = Entry::held(job, MULTICAST);
            entries[two] = Entry::held(job, MULTICAST);
            tables.push(Table::from_entries(entries));
            entries[one + 1..two].fill(Entry::held(1 - job, MULTICAST));
            tables.push(Table::from_entries(entries));
        }
    }
    tables
}

#[test]
fn broken_tables() {
    for table in broken() {
        for job in [0, 1] {
            for address in [MULTICAST, OTHER, group(0)] {
                assert_eq!(add(&mut table.clone(), job, address), Err(20));
                assert_eq!(remove(&mut table.clone(), job, address), Err(20));
            }
            let by = Reader {
                s: PLAIN,
                job,
                table,
            };
            assert_eq!(refusals(&by, &Capture::new(), 0), [Some(20); 5]);
        }
    }
    // Twelve of each job are no reason, nor is an address of both.
    for table in [filled(12, 4), filled(4, 12), filled(8, 8)] {
        let by = Reader {
            s: PLAIN,
            job: 0,
            table,
        };
        assert_eq!(refusals(&by, &Capture::new(), 0), [None; 5]);
    }
}

#[test]
fn ladder_of_the_table_calls() {
    for job in [2, 3, 255] {
        for table in broken().into_iter().chain([Table::EMPTY, filled(12, 4)]) {
            assert_eq!(add(&mut table.clone(), job, group(0)), Err(14));
            assert_eq!(remove(&mut table.clone(), job, group(0)), Err(14));
        }
    }
    // Job 0 holds 12, all are in use, and the address is listed.
    let mut table = filled(12, 4);
    assert_eq!(add(&mut table, 0, group(3)), Err(17));
    assert_eq!(add(&mut table, 1, group(12)), Err(17));
    assert_eq!(add(&mut table, 0, OTHER), Err(15));
    assert_eq!(remove(&mut table, 0, group(0)), Ok(0));
    assert_eq!(add(&mut table, 0, OTHER), Ok(0));
    assert_eq!(add(&mut table, 1, OTHER), Err(16));
    assert_eq!(remove(&mut table, 1, OTHER), Err(18));
}

#[test]
fn calls_on_a_table_of_all_sorts() {
    let mut dice = Dice::new(10);
    let mut answers = [0; 21];
    let mut table = Table::EMPTY;
    for step in 0..20_000 {
        if step % 1_000 == 0 {
            table = dice.table();
        }
        let job = [0, 0, 0, 1, 1, 1, 2][dice.roll(7)];
        let address = group(dice.roll(14));
        let answer = match dice.roll(5) {
            0 => remove(&mut table, job, address),
            _ => add(&mut table, job, address),
        };
        answers[usize::from(answer.err().unwrap_or(0))] += 1;
    }
    for number in [0, 14, 15, 16, 17, 18, 20] {
        assert!(answers[number] > 0, "{number}: {answers:?}");
    }
    assert_eq!(answers[1..14], [0; 13]);
}

/// The refusals of all five calls that take a table besides its own.
fn refusals(by: &Reader, capture: &Capture, place: usize) -> [Option<u8>; 5] {
    let Reader { s, job, table } = by;
    let kind = Check::Bitwise;
    let (octets, marks) = (&capture.octets, &capture.marks);
    let state = &mut State::default();
    let reading = read(kind, s, state, *job, table, octets, marks, place).answer;
    let walked = walk(kind, s, state, *job, table, octets, marks);
    let logged = walk_log(kind, s, state, *job, table, octets, marks, place, &mut []);
    let explained = explain(kind, s, *job, table, octets, marks, place).why;
    let shown = show(kind, s, *job, table, [capture.lent(); 2], place);
    [
        match reading {
            Answer::Refused(number) => Some(number),
            _ => None,
        },
        match walked {
            Walked::Refused(number) => Some(number),
            _ => None,
        },
        match logged.end {
            LogEnd::Refused(number) => Some(number),
            _ => None,
        },
        match explained {
            Why::Refused(number) => Some(number),
            _ => None,
        },
        shown.err(),
    ]
}

#[test]
fn job_above_1() {
    let capture = Capture::new().control(START);
    for job in 0..=255 {
        let by = Reader {
            job,
            ..Reader::from(&PLAIN)
        };
        let expected = if job > 1 { Some(14) } else { None };
        assert_eq!(refusals(&by, &capture, 0), [expected; 5]);
    }
}

/// Frames to addresses of all kinds, and some that are not accepted.
fn capture_of(data: usize) -> Capture {
    let mut capture = Capture::new().control(IDLE);
    for dest in [
        group(0),
        OWN,
        group(1),
        OTHER,
        BROADCAST,
        RESERVED,
        group(2),
    ] {
        capture = capture.frame(&frame(dest, &[0x0800], &ramp(data)));
        capture = capture.frame(&frame(dest, &[0x8808], &ramp(data)));
    }
    capture.control(START).control(TERMINATE).control(START)
}

/// All readings of a capture.
fn readings(by: &Reader, capture: &Capture) -> (Vec<Reading>, State) {
    let mut state = State::default();
    let mut all = vec![];
    let mut place = 0;
    loop {
        let reading = capture.read(by, &mut state, place);
        all.push(reading);
        let Answer::Counted { .. } = reading.answer else {
            return (all, state);
        };
        place = reading.next;
    }
}

/// The readings without the numbers of item 7 that come from an entry.
fn without_entries(readings: Vec<Reading>) -> Vec<Reading> {
    let mut readings = readings;
    for reading in &mut readings {
        if let Answer::Counted { address, .. } = &mut reading.answer {
            *address = (*address).min(16);
        }
    }
    readings
}

#[test]
fn a_job_reads_by_its_own_entries() {
    let capture = capture_of(60);
    let own = [group(0), OTHER];
    for job in [0, 1] {
        // The entries of the job, and the same with what the other one may hold.
        let alone = listing(job, &own);
        let mut tables = vec![];
        for others in [
            &[group(0)][..],
            &[group(1), group(2)],
            &[RESERVED, BROADCAST, OWN],
        ] {
            let mut table = alone;
            for &address in others {
                add(&mut table, 1 - job, address).unwrap();
            }
            tables.push(table);
        }
        let by = |table| Reader {
            s: PLAIN,
            job,
            table,
        };
        let expected = readings(&by(alone), &capture);
        for table in tables {
            assert_eq!(readings(&by(table), &capture), expected);
        }
        // In other entries: the same but for the numbers.
        let mut moved = Table::EMPTY;
        add(&mut moved, 1 - job, group(1)).unwrap();
        add(&mut moved, job, own[1]).unwrap();
        add(&mut moved, job, own[0]).unwrap();
        let (after, state) = readings(&by(moved), &capture);
        assert_eq!(state, expected.1);
        assert_ne!(after, expected.0);
        assert_eq!(without_entries(after), without_entries(expected.0));
    }
}

#[test]
fn where_an_addition_goes_depends_on_the_other() {
    // Only on which entries the other holds, not with what.
    let mut dice = Dice::new(11);
    for _ in 0..2_000 {
        let table = dice.table();
        let job = dice.roll(2) as u8;
        let mut entries = *table.entries();
        for (n, entry) in entries.iter_mut().enumerate() {
            if entry.address_of(1 - job).is_some() {
                *entry = Entry::held(1 - job, [0x55, 0, 0, 0, 0, n as u8]);
            }
        }
        let mut other = Table::from_entries(entries);
        let address = group(dice.roll(4));
        let mut table = table;
        let (one, two) = (add(&mut table, job, address), add(&mut other, job, address));
        // The new addresses of the other make a broken table whole at most.
        assert!(one == two || one == Err(20));
        let (one, two) = (
            remove(&mut table, job, address),
            remove(&mut other, job, address),
        );
        // The new addresses of the other make a broken table whole at most.
        assert!(one == two || one == Err(20));
    }
}

/// Asks the screen in all three ways.
fn shown(by: &Reader, captures: [&Capture; 2], place: usize) -> Result<Part, u8> {
    let Reader { s, job, table } = by;
    let captures = captures.map(Capture::lent);
    let answers = KINDS.map(|kind| show(kind, s, *job, table, captures, place));
    assert_eq!(answers, [answers[0]; 3]);
    answers[0]
}

#[test]
fn the_screen_shows_what_the_chosen_job_reads() {
    let captures = [&capture_of(60), &capture_of(100)];
    let mut table = Table::EMPTY;
    add(&mut table, 0, group(0)).unwrap();
    add(&mut table, 1, group(1)).unwrap();
    let mut parts = 0;
    for job in [0, 1] {
        let s = PLAIN;
        let by = Reader { s, job, table };
        let capture = captures[usize::from(job)];
        for place in 0..=capture.octets.len() {
            let reading = capture.read(by, &mut State::default(), place);
            let expected = match reading.answer {
                Answer::Counted { at, len, .. } => Part { at, len },
                _ => Part { at: 0, len: 0 },
            };
            assert_eq!(shown(&by, captures, place), Ok(expected));
            if expected.len > 0 {
                let data = [60, 100][usize::from(job)];
                let part = &capture.octets[expected.at..expected.at + expected.len];
                assert_eq!(part, ramp(data));
                parts += 1;
            }
        }
        let beyond = capture.octets.len() + 1;
        assert_eq!(shown(&by, captures, beyond), Err(3));
    }
    assert!(parts > 0);
}

#[test]
fn the_screen_looks_at_no_other_capture() {
    let good = Capture::new().frame(&frame(OWN, &[0x0800], &ramp(46)));
    let mut bad = good.clone();
    bad.marks.pop();
    let long = Capture::new().data(&[0].repeat(65_537));
    let empty = Capture::new();
    let part = Part { at: 22, len: 46 };
    for other in [&bad, &long, &empty, &capture_of(60)] {
        for job in [0, 1] {
            let by = Reader {
                job,
                ..Reader::from(&PLAIN)
            };
            let captures = if job == 0 {
                [&good, other]
            } else {
                [other, &good]
            };
            assert_eq!(shown(&by, captures, 0), Ok(part));
        }
    }
    // And at the chosen one in each case.
    for (chosen, place, number) in [(&bad, 0, 2), (&long, 0, 2), (&empty, 1, 3)] {
        for (job, captures) in [(0, [chosen, &good]), (1, [&good, chosen])] {
            let by = Reader {
                job,
                ..Reader::from(&PLAIN)
            };
            assert_eq!(shown(&by, captures, place), Err(number));
        }
    }
}

#[test]
fn ladder_of_the_screen() {
    let mut bad = Capture::new().control(START);
    bad.marks.pop();
    let good = Capture::new().control(IDLE);
    let mut by = Reader {
        s: Settings { limit: 0, ..PLAIN },
        job: 2,
        table: listing(0, &[OTHER, OTHER]),
    };
    let captures = [&good, &bad];
    assert_eq!(shown(&by, captures, 2), Err(1));
    by.s = PLAIN;
    assert_eq!(shown(&by, captures, 2), Err(14));
    by.job = 1;
    assert_eq!(shown(&by, captures, 2), Err(2));
    by.job = 0;
    assert_eq!(shown(&by, captures, 2), Err(3));
    assert_eq!(shown(&by, captures, 1), Err(20));
    by.table = Table::EMPTY;
    assert_eq!(shown(&by, captures, 1), Ok(Part { at: 0, len: 0 }));
}

#[test]
fn no_data_but_its_place() {
    // A length of 0 is handed out as an empty part where it stands.
    let capture = Capture::new().frame(&frame(OWN, &[0], &[0; 46]));
    let by = Reader::from(&PLAIN);
    let part = Part { at: 22, len: 0 };
    assert_eq!(shown(&by, [&capture; 2], 0), Ok(part));
}
