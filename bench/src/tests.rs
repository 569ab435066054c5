//! That the rivals do the same job: frames of every kind, good and damaged, with the same counters.
use reference::{Check, Port, State, Table};

use crate::baseline::{self, Reader};
use crate::captures::{data, symbols, Kind, Line, Random, FRAMES, HOSTILE};
use crate::files::{Captures, Through, Who};
use crate::measure::{agree, Rivals};
use crate::report::{placed, Cell, Growth, Report, Row};
use crate::rivals::{full_log, reference_settings, Asker, By, Filler, InC, Independent};
use crate::rivals::{IndependentSender, Job, Making, Proved, ProvedSender, Rival, RoomMaker};
use crate::rivals::{Whose, OWN};

const LIMIT: u16 = 1518;

// All readers of one capture give the same; what they counted.
fn same(name: &str, line: &Line, limit: u16) -> Vec<u64> {
    let mut walks: Rivals = vec![
        Box::new(Proved::new(By::Walk, line, limit)),
        Box::new(Proved::new(By::WalkLog, line, limit)),
        Box::new(Independent::new(Check::ByteTable, By::Walk, line, limit)),
        Box::new(Independent::new(Check::Slicing16, By::Walk, line, limit)),
    ];
    for reader in Reader::all() {
        walks.push(Box::new(InC::new(reader, line, limit)));
    }
    let mut reads: Rivals = vec![
        Box::new(Proved::new(By::Read, line, limit)),
        Box::new(Proved::new(By::Readings, line, limit)),
        Box::new(Proved::new(By::Plain, line, limit)),
        Box::new(Independent::new(Check::Slicing16, By::Read, line, limit)),
        Box::new(Independent::new(Check::Slicing16, By::Plain, line, limit)),
    ];
    let mut whys: Rivals = vec![
        Box::new(Proved::new(By::Explain, line, limit)),
        Box::new(Independent::new(Check::Slicing16, By::Explain, line, limit)),
    ];
    let mut sizes: Rivals = vec![
        Box::new(Proved::new(By::Sizes, line, limit)),
        Box::new(Independent::new(Check::Slicing16, By::Sizes, line, limit)),
    ];
    // what a full table lists is no frame's destination here
    for by in [By::Walk, By::Read] {
        let both: Rivals = vec![
            Box::new(Proved::new(by, line, limit).listing()),
            Box::new(Independent::new(Check::Slicing16, by, line, limit).listing()),
        ];
        match by {
            By::Walk => walks.extend(both),
            _ => reads.extend(both),
        }
    }
    agree(name, &mut sizes);
    let counted = agree(name, &mut walks);
    assert_eq!(counted, agree(name, &mut reads));
    assert_eq!(counted, agree(name, &mut whys));
    assert!(logs_alike(line, limit), "{name}: another log");
    counted
}

// Whether a walk leaves the reference's log.
fn logs_alike(line: &Line, limit: u16) -> bool {
    let mut proved = Proved::new(By::WalkLog, line, limit);
    let mut log = vec![0; proved.log().len()];
    proved.run();
    reference::walk_log(
        Check::Slicing16,
        &reference_settings(limit),
        &mut State::default(),
        0,
        &Table::EMPTY,
        &line.octets,
        &line.marks,
        0,
        &mut log,
    );
    proved.log() == log
}

// One of these.
fn one<T: Copy>(random: &mut Random, of: &[T]) -> T {
    of[random.below(of.len())]
}

// A frame from destination to FCS, of a size, destination and field near some rule's edge.
fn frame(random: &mut Random) -> Vec<u8> {
    let group = [0x01, 0x80, 0xC2, 0, 0, 1];
    let other = [0x02, 0, 0, 0, 0, 2];
    let mut frame = one(random, &[OWN, OWN, OWN, [0xFF; 6], group, other]).to_vec();
    frame.extend(other);
    for _ in 0..one(random, &[0, 0, 0, 0, 1, 1, 2, 3, 8, 9]) {
        let kind: u16 = one(random, &[0x8100, 0x88A8]);
        frame.extend(kind.to_be_bytes());
        frame.extend([0x20, 0x05]);
    }
    let field: u16 = one(
        random,
        &[
            0, 10, 45, 46, 47, 100, 1500, 1501, 1535, 1536, 0x0800, 0x8100, 0x88A8, 0x8808, 0x8808,
        ],
    );
    frame.extend(field.to_be_bytes());
    frame.extend(one(random, &[[0x00, 0x01], [0x01, 0x01], [0x12, 0x34]]));
    let data = one(
        random,
        &[38, 41, 42, 43, 44, 45, 98, 558, 1494, 1498, 1499, 1502],
    );
    frame.extend((0..data).map(|_| random.octet()));
    let check = reference::fcs(Check::Bitwise, &frame);
    frame.extend(check.to_le_bytes());
    if random.below(8) == 0 {
        let at = random.below(frame.len());
        frame[at] ^= 0x10;
    }
    frame
}

// Frames with damage between them and in their preambles, marks of every value.
fn traffic(random: &mut Random, size: usize) -> Line {
    let mut line = Line {
        octets: Vec::new(),
        marks: Vec::new(),
    };
    while line.octets.len() < size {
        let mark = one(random, &[1, 1, 2, 0x80, 0xFF]);
        let mut run = vec![0x55, 0x55, 0x55, 0x55, 0x55, 0x55, 0xD5];
        run.extend(frame(random));
        if random.below(10) == 0 {
            let at = random.below(7);
            run[at] ^= 1;
        }
        if random.below(10) == 0 {
            run.truncate(random.below(72));
        }
        let end = one(random, &[0xFD, 0xFD, 0xFD, 0xFD, 0xFD, 0xFD, 0xFE, 0xFB]);
        line.octets.push(0xFB);
        line.octets.extend(&run);
        line.octets.push(end);
        line.marks.push(mark);
        line.marks.resize(line.marks.len() + run.len(), 0);
        line.marks.push(mark);
        for _ in 0..random.below(14) {
            line.octets.push(one(random, &[0x07, 0x07, 0x07, 0xFB]));
            line.marks.push(u8::from(random.below(9) > 0));
        }
    }
    line.octets.truncate(size);
    line.marks.truncate(size);
    line
}

#[test]
fn all_readers_count_the_same() {
    let mut random = Random::new(7);
    let mut counted = vec![0; 11];
    for n in 0..200 {
        let line = traffic(&mut random, 40 + 300 * n);
        for (sum, more) in counted.iter_mut().zip(same("traffic", &line, LIMIT)) {
            *sum += more;
        }
    }
    // flow mode none: 8 and 9 do not come up, and each other outcome does
    for (index, count) in counted.into_iter().enumerate() {
        assert_eq!(
            count == 0,
            index == 7 || index == 8,
            "outcome {}",
            index + 1
        );
    }
}

// Totals and Starts before a place, by all three.
#[test]
fn all_count_the_same_starts() {
    let mut random = Random::new(9);
    let noise = HOSTILE[8].capture(65_536);
    let lines = (0..40).map(|n| traffic(&mut random, 255 * n + n % 5));
    let lines: Vec<_> = lines.chain(noise).collect();
    for line in &lines {
        let all = [Whose::Proved, Whose::Independent, Whose::Plain];
        let filler = |whose| -> Box<dyn Rival> { Box::new(Filler::new(whose, line)) };
        let mut fillers: Rivals = all.map(filler).into();
        let totals = agree("totals", &mut fillers);
        let length = line.octets.len();
        assert_eq!(totals.len(), length.div_ceil(256));
        let sum: u64 = totals.iter().sum();
        assert_eq!(sum, baseline::starts_before(line, length) as u64);
        for place in [0, length / 2, length.saturating_sub(1), length] {
            let asker = |whose| -> Box<dyn Rival> { Box::new(Asker::new(whose, line, place)) };
            let mut askers: Rivals = all.map(asker).into();
            agree("starts", &mut askers);
        }
    }
}

// The tool counts a file of captures as walks over them do, wherever its stretches end.
#[test]
fn the_tool_counts_the_same() {
    for kind in &FRAMES {
        let captures = Captures::new(kind, 3).expect("a file of captures");
        let through = |who| -> Box<dyn Rival + '_> { Box::new(Through::new(who, &captures)) };
        let mut rivals: Rivals = [Who::Count, Who::Walk].map(through).into();
        let counted = agree(kind.name, &mut rivals);
        assert!(counted[10] > 0, "{}", kind.name);
        let mut reader = Through::new(Who::Read, &captures);
        assert_eq!(reader.run(), Default::default());
    }
}

// On both ports, with totals and without, and run after run: what a run before left does not refuse a frame.
#[test]
fn all_senders_write_the_same() {
    let mut odd = Random::new(3);
    let odd: Vec<_> = (0..300).map(|_| 64 + odd.below(100)).collect();
    let all = FRAMES.iter().map(|kind| kind.sizes(65_536)).chain([odd]);
    for (sizes, data) in all.zip(std::iter::repeat(data())) {
        let all = [Port::Plain, Port::FourLane].map(|port| [(port, false), (port, true)]);
        for (port, counted) in all.into_iter().flatten() {
            let job = Job {
                port,
                counted,
                limit: 9618,
                sizes: &sizes,
                data: &data,
            };
            let mut senders: Rivals = vec![
                Box::new(ProvedSender::new(job)),
                Box::new(IndependentSender::new(Check::Slicing16, job)),
            ];
            for _ in 0..4 {
                agree("senders", &mut senders);
                let ends = senders.iter_mut().map(|sender| sender.run().count);
                let most = symbols(&sizes);
                assert!(ends.into_iter().all(|end| end.abs_diff(most) <= 3));
            }
        }
    }
}

#[test]
fn captures_are_what_they_are_called() {
    let count = |kind: &Kind, size| {
        let line = kind.capture(size)?;
        assert!(line.octets.len() == line.marks.len() && line.octets.len() <= size);
        Some(same(kind.name, &line, kind.limit))
    };
    for kind in &FRAMES {
        let sizes = kind.sizes(65_536);
        let handed = count(kind, 65_536).map(|counters| counters[10] as usize);
        assert_eq!(handed, Some(sizes.len()), "{}", kind.name);
    }
    for kind in &HOSTILE {
        for size in [1, 128, 1000, 65_536] {
            let counters = count(kind, size).unwrap_or_default();
            assert_eq!(counters.last(), Some(&0), "{}", kind.name);
        }
    }
    // the mix is dealt as 7:4:1
    let deck = &FRAMES[1].sizes(65_536)[..12];
    let of = |size| deck.iter().filter(|&&s| s == size).count();
    assert_eq!([of(64), of(576), of(1518)], [7, 4, 1]);
}

#[test]
fn figures_go_between_the_marks() {
    let page = |one: &str, two: &str| {
        let marked = |name: &str, text: &str| {
            let begin = format!("<!-- {name}: bench/run --markdown writes from here -->\n");
            format!("before {name}\n{begin}{text}<!-- {name}: to here -->\nafter\n")
        };
        marked("one", one) + &marked("two", two)
    };
    let sections = [("one", "new\n".to_owned()), ("two", "newer\n".to_owned())];
    let once = placed(&page("old\n", ""), &sections);
    assert_eq!(once, Ok(page("\nnew\n\n", "\nnewer\n\n")));
    assert_eq!(placed(&once.clone().unwrap(), &sections), once);
    assert_eq!(
        placed("no marks", &sections),
        Ok("new\n\nnewer\n".to_owned())
    );
    let half = page("", "").replace("<!-- two: to here -->", "");
    assert!(placed(&half, &sections).is_err());
}

// What was measured of one call on frames, by what is compared with it.
fn row(capture: &'static str, rates: [f64; 6]) -> Row {
    Row {
        call: "walk",
        capture,
        hostile: false,
        rates: rates.map(|rate| Some(rate).filter(|&rate| rate > 0.0)),
    }
}

// A ratio has its row: met, missed, on which captures it is missed, or not measured.
#[test]
fn what_is_missed_is_told() {
    // walks without tables and with them: 50 ns and 1 for each symbol, 3000 and a half
    let cell = |symbols: usize, ns: f64| {
        Some(Cell {
            symbols,
            walk: ns / symbols as f64,
            ratio: 3.0,
            walk_log: 1.0,
        })
    };
    let report = Report {
        machine: Vec::new(),
        rows: vec![
            row("64", [4.0, 1.0, 2.0, 3.0, 2.0, 8.0]),
            row("mix", [4.0, 1.0, 2.0, 3.2, 2.0, 8.0]),
            row("1518", [6.25, 1.0, 2.0, 3.0, 2.0, 0.0]),
            row("9018", [6.0, 1.0, 2.0, 3.0, 4.0, 8.0]),
        ],
        listed: Vec::new(),
        room: Vec::new(),
        totals: Vec::new(),
        of_files: Vec::new(),
        sizes: vec![1024, 4096, 16_384, 65_536],
        growth: vec![Growth {
            capture: "64",
            hostile: false,
            cells: vec![
                cell(1000, 1050.0),
                cell(4000, 4050.0),
                cell(16_000, 11_000.0),
                cell(65_000, 35_500.0),
            ],
        }],
    };
    let [(_, overview), (_, asked), (_, growth), _] = report.sections();
    assert_eq!(overview.lines().count(), 2 + 4);
    assert!(overview.contains("| `walk` | 64 | 4.00 | 3.2 | 2.00 | 1.33 | 2.00 | 0.50 |\n"));
    assert!(overview.contains("| `walk` | 1518 | 6.25 | 5.0 | 3.12 | 2.08 | 3.12 | - |\n"));
    for line in [
        "| `walk` to C, by 16 | 64 / mix / 1518 / 9018 | 1.05 / 1.3 / 1.9 / 2.3 | 1.33 / 1.25 / 2.08 / 2.00 | **missed**: mix / 9018 |",
        "| `walk` to C, zlib | 64 / mix / 1518 / 9018 | 1.0 / 1.0 / 2.0 / 2.0 | 2.00 / 2.00 / 3.12 / 1.50 | **missed**: 9018 |",
        "| `walk` in lines of 10 Gbit/s | 1518 | 5.0 | 5.00 | met |",
        "| `walk` of 1K to 8K symbols to reference, by 16, the worst | 64 at 1K | 2.5 | 3.00 | met |",
        "| `read` to reference, by 16 | 64 / mix / 1518 / 9018 | 1.5 / 3.0 / 5.0 / 8.0 | - | not measured |",
        "| `walk` on hostile captures to reference, by 16, the worst |  |  |  | not measured |",
    ] {
        assert!(asked.lines().any(|one| one == line), "{line}\n{asked}");
    }
    assert!(
        growth.ends_with("| 64 | 50 | 1.000 | 3000 | 0.500 | 5900 |\n"),
        "{growth}"
    );
}

// Both make the same room, and it is the room that there is.
#[test]
fn the_same_room_is_made() {
    for records in [0, 1, 2, 3, 780] {
        for (making, holes, deleted) in [
            (Making::Compact, false, 0),
            (Making::Compact, true, 0),
            (Making::Delete, false, records / 2),
            (Making::Delete, true, 0),
        ] {
            let log = full_log(records, holes);
            let maker =
                |whose| -> Box<dyn Rival> { Box::new(RoomMaker::new(whose, making, log.clone())) };
            let mut makers: Rivals = [Whose::Proved, Whose::Independent].map(maker).into();
            let after = agree("room", &mut makers);
            makers[0].ready();
            assert_eq!(makers[0].run().count, deleted);
            let used = after.chunks(16).filter(|record| record[4] != 0).count();
            let left = if holes {
                records.div_ceil(2)
            } else {
                records - deleted
            };
            assert_eq!(used, left);
        }
    }
}
