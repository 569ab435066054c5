//! The examples' own functions, run on captures that are made here, and on the samples where they are.
use fenhamper::{
    limits, records, Address, Capture, End, Flow, Frame, Log, Outcome, Record, Sender, Settings,
    Station, Status, Tag, Way, SYMBOLS,
};
use std::fs;
use std::path::Path;

#[allow(dead_code)]
#[path = "../examples/keep_readings.rs"]
mod keep_readings;

#[allow(dead_code)]
#[path = "../examples/read_capture.rs"]
mod read_capture;

#[allow(dead_code)]
#[path = "../examples/wait_out_a_pause.rs"]
mod wait_out_a_pause;

// What the reader prints, or what it says of its input.
fn printed(records: &[u8]) -> Result<String, String> {
    let mut out = Vec::new();
    match read_capture::print(records, &mut out) {
        Ok(()) => Ok(String::from_utf8(out).unwrap()),
        Err(error) => Err(error.to_string()),
    }
}

#[test]
fn the_reader_names_what_it_reads() {
    let mut station = Station::default();
    let own = station.settings.own();
    let (mut octets, mut marks) = ([0; 300], [0; 300]);
    let mut sender = Sender::new(&mut octets, &mut marks);
    let tags = [Tag::service(100), Tag::customer(0xE005)];
    let frame = Frame::to(own).tags(&tags).by_type(0x0800);
    station.send_client(&mut sender, &frame, b"ping").unwrap();
    let to_another = Frame::to(Address([0x02, 0, 0, 0, 0, 2]));
    station.send_client(&mut sender, &to_another, b"").unwrap();
    station
        .send_client(&mut sender, &Frame::to(own), b"")
        .unwrap();
    // the last one's Terminate is missing
    let cut = 92 + 84 + 72;
    let capture = Capture::new(&octets[..cut], &marks[..cut]);
    let records: Vec<u8> = capture.records().flatten().collect();
    assert_eq!(
        printed(&records).unwrap(),
        "     0 handed out: unicast, stacked, frame 72, data 46; to 02-00-00-00-00-01 from \
         02-00-00-00-00-01, tag 88A8 0064, tag 8100 E005, type 0800\n    \
         92 filtered; to 02-00-00-00-00-02 from 02-00-00-00-00-01, length 0\n   \
         176 open\n     \
         1 filtered\n     \
         1 handed out\n"
    );
}

// What the keeper prints, with so many records in each log.
fn printed_logs(records: &[u8], capacity: usize) -> Result<String, String> {
    let mut out = Vec::new();
    match keep_readings::print(records, capacity, &mut out) {
        Ok(()) => Ok(String::from_utf8(out).unwrap()),
        Err(error) => Err(error.to_string()),
    }
}

#[test]
fn the_keeper_goes_on_with_another_log() {
    // cut, bad preamble, open
    let records = [1, 0xFB, 1, 0x07, 1, 0xFB, 0, 0x55, 1, 0xFD, 1, 0xFB];
    let (cut, bad, open) = ("     0 cut\n", "     2 bad preamble\n", "     5 open\n");
    let expected = [
        // with no record a log is full at once
        "log 1, 0 of 0 records:\n".to_string(),
        format!("log 1, 1 of 1 records:\n{cut}log 2, 1 of 1 records:\n{bad}{open}"),
        format!("log 1, 2 of 2 records:\n{cut}{bad}{open}"),
        format!("log 1, 2 of 3 records:\n{cut}{bad}{open}"),
    ];
    for (capacity, expected) in (0..).zip(expected) {
        assert_eq!(printed_logs(&records, capacity), Ok(expected));
    }
    assert_eq!(printed_logs(&[], 1).unwrap(), "log 1, 0 of 1 records:\n");
    // a frame that was let in, with the address that it came by
    let mut station = Station::default();
    let (mut octets, mut marks) = ([0; 84], [0; 84]);
    let mut sender = Sender::new(&mut octets, &mut marks);
    let frame = Frame::to(Address::BROADCAST);
    station.send_client(&mut sender, &frame, b"all").unwrap();
    let records: Vec<u8> = sender.written().records().flatten().collect();
    assert_eq!(
        printed_logs(&records, 1).unwrap(),
        "log 1, 1 of 1 records:\n     \
         0 handed out (broadcast): 3 octets; broadcast, frame 64, data 3\n"
    );
    printed_logs(&[1], 1).unwrap_err();
}

#[test]
fn the_reader_tells_bad_records() {
    assert_eq!(printed(&[]).unwrap(), "");
    assert_eq!(
        printed(&[1]).unwrap_err(),
        "bad records: 1 octets are no whole number of records of two"
    );
    assert_eq!(
        printed(&vec![0; 2 * SYMBOLS + 2]).unwrap_err(),
        "bad records: 65537 of them, and room for 65536"
    );
}

// The samples with their texts, which have place, outcome, status word and length of each reading;
// none outside the repository.
fn samples() -> Vec<(Vec<u8>, String)> {
    let samples = Path::new(env!("CARGO_MANIFEST_DIR")).join("../../samples");
    if !samples.is_dir() {
        return Vec::new();
    }
    let names = [
        "empty", "example", "first", "noise", "odd", "open", "outcomes", "tags",
    ];
    let sample = |name: &str| {
        let records = fs::read(samples.join(name).with_extension("capture")).unwrap();
        let text = fs::read_to_string(samples.join(name).with_extension("txt")).unwrap();
        (records, text)
    };
    names.map(sample).to_vec()
}

// Which address let a frame in, by a status word of the printing program's station: it lists none.
fn way(status: Status) -> Option<Way> {
    let ways = [
        (status.unicast(), Way::Own),
        (status.broadcast(), Way::Broadcast),
        (status.multicast() && status.control(), Way::Reserved),
    ];
    ways.into_iter().find_map(|(on, way)| on.then_some(way))
}

// A text's numbers as the record of a log.
fn record(line: &str) -> Record {
    let numbers: Vec<u64> = line.split(' ').map(|n| n.parse().unwrap()).collect();
    let status = Status::new(numbers[2]);
    Record {
        place: u32::try_from(numbers[0]).unwrap(),
        outcome_number: u8::try_from(numbers[1]).unwrap(),
        way_number: way(status).map_or(0, Way::number),
        data_length: u16::try_from(numbers[3]).unwrap(),
        status,
    }
}

#[test]
fn the_keeper_keeps_the_samples() {
    for (records, text) in samples() {
        let (mut octets, mut marks) = (vec![0; SYMBOLS], vec![0; SYMBOLS]);
        let Ok(capture) = records::capture(&records, &mut octets, &mut marks) else {
            assert_eq!(text, "bad input\n");
            continue;
        };
        let (readings, last) = text.trim_end().rsplit_once('\n').unwrap_or(("", &text));
        let expected: Vec<_> = readings.lines().map(record).collect();
        for capacity in [1, 2, 7, 100] {
            let (mut station, mut logs) = (Station::default(), Vec::new());
            let kept = keep_readings::keep(&mut station, capture, capacity, |log| {
                assert_eq!(log.capacity(), capacity);
                logs.push(log.records().collect::<Vec<_>>());
            });
            let open = kept.unwrap().end == End::Open;
            assert_eq!(logs.concat(), expected);
            assert_eq!(
                last.trim_end(),
                format!("starts {} open {}", expected.len(), u8::from(open))
            );
            // each log is full before the next is begun
            assert_eq!(logs.len(), expected.len().div_ceil(capacity).max(1));
        }
    }
}

// The sample of a log that is too short for its run, after each call that made room in it.
#[test]
fn room_is_made_in_the_sample_log() {
    let samples = Path::new(env!("CARGO_MANIFEST_DIR")).join("../../samples");
    // none outside the repository
    let Ok(expected) = fs::read(samples.join("room.log")) else {
        return;
    };
    let records = fs::read(samples.join("first.capture")).unwrap();
    let (mut octets, mut marks) = (vec![0; SYMBOLS], vec![0; SYMBOLS]);
    let capture = records::capture(&records, &mut octets, &mut marks).unwrap();
    let mut station = Station::default();
    let mut octets = [0; 6 * limits::RECORD_SIZE];
    let mut log = Log::new(&mut octets).unwrap();
    let mut made = Vec::new();

    let kept = station.walk_log(capture, 0, &mut log).unwrap();
    assert_eq!((kept.end, kept.records), (End::Full, 6));
    made.extend_from_slice(log.octets());
    for outcome in [Outcome::WrongFcs, Outcome::Cut] {
        assert_eq!(log.delete_outcome(outcome.number()), 1);
    }
    made.extend_from_slice(log.octets());
    let kept = station.walk_log(capture, kept.next, &mut log).unwrap();
    assert_eq!((kept.end, kept.records), (End::Full, 2));
    made.extend_from_slice(log.octets());
    for number in [0, 5] {
        log.delete(number).unwrap();
    }
    made.extend_from_slice(log.octets());
    let kept = station.walk_log(capture, kept.next, &mut log).unwrap();
    assert_eq!((kept.end, kept.records), (End::None, 1));
    made.extend_from_slice(log.octets());
    log.compact();
    made.extend_from_slice(log.octets());
    assert_eq!(made, expected);
}

#[test]
fn the_reader_reads_the_samples() {
    for (records, text) in samples() {
        let expected: Vec<_> = text.lines().collect();
        let Some((last, expected)) = expected
            .split_last()
            .filter(|(last, _)| **last != "bad input")
        else {
            printed(&records).unwrap_err();
            continue;
        };
        let lines = printed(&records).unwrap();
        let lines: Vec<_> = lines.lines().collect();
        assert!(lines.len() >= expected.len());
        for (line, expected) in lines.iter().zip(expected) {
            let expected = record(expected);
            let outcome = expected.outcome().unwrap();
            let (place, status) = (expected.place, expected.status);
            let words = match status.word() {
                0 => String::new(),
                _ => format!(": {status}"),
            };
            let start = format!("{place:6} {outcome}{words}");
            assert!(line.starts_with(&start), "{line}");
        }
        let open = lines.iter().any(|line| line.ends_with(" open"));
        assert_eq!(last.ends_with("open 1"), open);
    }
}

#[test]
fn the_sender_waits_as_long_as_it_must() {
    for quanta in [0, 1, 255, 256, 257, 0xFFFF] {
        let (octets, marks, idles) = wait_out_a_pause::paused(quanta).unwrap();
        assert_eq!(idles, u64::from(quanta) * limits::QUANTUM);
        let waited = usize::try_from(idles).unwrap();
        assert!(octets[..waited].iter().all(|&octet| octet == 0x07));
        assert!(marks.iter().take(waited).all(|&mark| mark == 1));
        let mut far = Station::new(Settings::new(Address([0x02, 0, 0, 0, 0, 9])));
        let frame = Capture::new(&octets[waited..], &marks[waited..]);
        let counted = far.readings(frame).next().unwrap().unwrap();
        assert_eq!((counted.start, counted.data), (0, &b"after the pause"[..]));
    }
}

#[test]
fn the_sender_does_not_wait_in_vain() {
    let mut station = Station::new(Settings::default().flow(Flow::Pause));
    let frame = Frame::to(Address::BROADCAST).class(8);
    let refused = wait_out_a_pause::send_when_let_go(&mut station, &frame, b"", |_| {});
    assert_eq!(refused, Err(fenhamper::Refusal::BadClass));
}
