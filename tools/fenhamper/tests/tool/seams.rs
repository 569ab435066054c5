//! Files longer than a capture.
use crate::common::{tool, tool_on, typed, Folder};
use crate::drawn::{good, noise, traffic, Line, Random, ERROR, IDLE, PREAMBLE, START, TERMINATE};
use crate::json::Json;
use fenhamper_tool::source::Source;
use fenhamper_tool::stretch::Stretches;
use reference::{Answer, Check, Settings, State, Table};
use std::io::{Cursor, Read};

/// The most symbols of a capture.
const MOST: usize = 65_536;

// What is printed of a file of any length, from each Start by itself: the second program reads the
// symbols from a Start to the one that ends its run; a longer run goes by the rules as they stand.
fn printed(records: &[u8]) -> String {
    let symbols: Vec<(u8, u8)> = records.chunks(2).map(|r| (r[0], r[1])).collect();
    let starts = (0..symbols.len()).filter(|&at| symbols[at].0 != 0 && symbols[at].1 == START);
    let (mut text, mut counted, mut open) = (String::new(), 0, 0);
    for start in starts {
        let run = symbols[start + 1..].iter().position(|symbol| symbol.0 != 0);
        let Some(length) = run else {
            open = 1;
            continue;
        };
        counted += 1;
        let line = &symbols[start..start + length + 2];
        text += &format!("{start} {}\n", reading(line));
    }
    text + &format!("starts {counted} open {open}\n")
}

// Outcome, status word and octets handed out of one Start.
fn reading(line: &[(u8, u8)]) -> String {
    let (marks, octets): (Vec<u8>, Vec<u8>) = line.iter().copied().unzip();
    if line.len() > MOST {
        let whole = octets[octets.len() - 1] == TERMINATE;
        let outcome = match octets[1..8] == PREAMBLE {
            _ if !whole => 1,
            false => 2,
            true => 4,
        };
        return format!("{outcome} 0 0");
    }
    let (settings, mut state) = (Settings::PRINTED, State::default());
    let (check, table) = (Check::Slicing16, Table::EMPTY);
    let read = reference::read(check, &settings, &mut state, 0, &table, &octets, &marks, 0);
    match read.answer {
        Answer::Counted {
            outcome,
            status,
            len,
            ..
        } => format!("{outcome} {status} {len}"),
        _ => panic!("a Start whose run ends is counted"),
    }
}

// Hands out octets in short pieces.
struct Pieces<'a>(Cursor<&'a [u8]>, Random);

impl Read for Pieces<'_> {
    fn read(&mut self, buffer: &mut [u8]) -> std::io::Result<usize> {
        let most = 1 + self.1.below(50_001);
        let length = buffer.len().min(most);
        self.0.read(&mut buffer[..length])
    }
}

// The same of a file, of a pipe, and counted.
fn agree(records: &[u8]) {
    let folder = Folder::new();
    let file = folder.with("long.capture", records);
    let expected = printed(records);
    let listed = tool(&["list", "--plain", &file]).good();
    let first = listed
        .text()
        .lines()
        .zip(expected.lines())
        .find(|(a, b)| a != b);
    assert!(listed.text() == expected, "{first:?}");
    let mut pieces = Pieces(Cursor::new(records), Random(records.len() as u64));
    assert!(
        tool_on(&["list", "--plain", "-"], &mut pieces)
            .good()
            .text()
            == expected
    );
    let counted = tool(&["count", "--sizes", &file]).good();
    assert_eq!(table(counted.text()), counts(&expected));
    assert_eq!(sized(counted.text()), sizes(&expected));
}

// Starts, each outcome that came, and whether the last is open, of a table of one file.
fn table(text: &str) -> Vec<u64> {
    let heads = text.lines().filter(|line| line.starts_with("file"));
    let rows = heads.clone().count();
    let mut numbers = Vec::new();
    let lines: Vec<&str> = text.lines().collect();
    let blocks = (0..lines.len()).filter(|&at| lines[at].starts_with("file"));
    for at in blocks {
        let cells = lines[at + 1].split_whitespace().skip(1);
        let cells = cells.filter(|cell| !cell.ends_with('%'));
        numbers.extend(cells.map(|cell| cell.parse::<u64>().unwrap()));
    }
    assert!(rows > 0);
    numbers
}

// The same of a plain list.
fn counts(text: &str) -> Vec<u64> {
    let mut counters = [0; 12];
    let mut last = Vec::new();
    for line in text.lines() {
        let words: Vec<&str> = line.split(' ').collect();
        match words[0] {
            "starts" => last = vec![words[1].parse().unwrap(), words[3].parse().unwrap()],
            _ => counters[words[1].parse::<usize>().unwrap()] += 1,
        }
    }
    let came = counters.into_iter().filter(|&count| count > 0);
    [last[0]].into_iter().chain(came).chain([last[1]]).collect()
}

// Frames and octets of each band, of a size table.
fn sized(text: &str) -> Vec<[u64; 2]> {
    let lines = text
        .lines()
        .skip_while(|line| !line.starts_with("octets a frame"));
    let band = |line: &str| {
        let words: Vec<&str> = line.trim_end_matches('#').split_whitespace().collect();
        [2, 1].map(|behind| words[words.len() - behind].parse().unwrap())
    };
    lines.skip(1).take(7).map(band).collect()
}

// The same of a plain list: outcomes 8 to 11, by the frame length in the status word.
fn sizes(text: &str) -> Vec<[u64; 2]> {
    let mut bands = vec![[0; 2]; 7];
    for line in text.lines().filter(|line| !line.starts_with("starts")) {
        let numbers: Vec<u64> = line.split(' ').map(|word| word.parse().unwrap()).collect();
        let length = numbers[2] >> 16 & 0xFFFF;
        let longest = [64, 127, 255, 511, 1023, 1518];
        if numbers[1] >= 8 {
            let band = &mut bands[longest
                .into_iter()
                .filter(|&longest| length > longest)
                .count()];
            *band = [band[0] + 1, band[1] + length];
        }
    }
    bands
}

#[test]
fn drawn_files_of_several_captures() {
    let mut random = Random(1);
    for symbols in [MOST - 1, MOST, MOST + 1, 2 * MOST, 2 * MOST + 1, 300_000] {
        let mut records = traffic(&mut random, symbols);
        records.truncate(2 * symbols);
        agree(&records);
        agree(&noise(&mut random, symbols));
    }
}

// The seam goes through every symbol of a frame, its gap and the frame behind it.
#[test]
fn a_seam_anywhere_in_a_frame() {
    let frame = good(46);
    for before in 0..=180 {
        let mut line = Line::default();
        line.idle(MOST - 180 + before)
            .frame(&frame)
            .frame(&frame)
            .idle(11);
        line.frame(&frame).idle(11);
        let said = tool_on(&["list", "--plain", "-"], &mut Cursor::new(&line.0)).good();
        assert_eq!(said.text(), printed(&line.0));
        assert_eq!(said.text().matches(" 11 ").count(), 3);
        // and the symbols before the Start are shown on either side of it
        let why = tool_on(&["why", "-", "0"], &mut Cursor::new(&line.0)).good();
        let row = format!("    {} /I/ /I/", MOST - 180 + before - 16);
        assert!(why.text().contains(&row), "{}", why.text());
    }
}

#[test]
fn runs_about_as_long_as_a_capture_and_longer() {
    let ends = [TERMINATE, ERROR, START, IDLE, 0x9C];
    for length in [
        MOST - 3,
        MOST - 2,
        MOST - 1,
        MOST,
        MOST + 1,
        2 * MOST - 1,
        2 * MOST,
        200_001,
    ] {
        for before in [0, 1, 9, 40_000] {
            for (n, end) in ends.into_iter().enumerate() {
                let mut line = Line::default();
                line.idle(before).control(START);
                line.data(if n % 2 == 0 { &PREAMBLE } else { &[0x55; 7] });
                line.data(&vec![0xA5; length - 7]).control(end);
                line.frame(&good(46)).idle(3);
                agree(&line.0);
            }
        }
    }
}

// The preamble is looked at where the ending symbol allows it.
#[test]
fn a_long_run_has_the_outcome_of_the_whole() {
    for (preamble, end, why) in [
        (PREAMBLE, TERMINATE, "oversized: length 99993, limit 1518"),
        (PREAMBLE, ERROR, "cut at 100006 by 0xFE (Error)"),
        ([0x55; 7], TERMINATE, "bad preamble: first wrong place 12"),
        ([0x55; 7], START, "cut at 100006 by 0xFB (Start)"),
    ] {
        let mut line = Line::default();
        line.idle(5).control(START).data(&preamble);
        line.data(&vec![0x11; 100_000 - 7])
            .control(end)
            .frame(&good(46));
        let folder = Folder::new();
        let file = folder.with("long.capture", &line.0);
        let said = tool(&["list", "--json", &file]).good();
        let document = Json::parse(said.text()).unwrap();
        let file_object = &document.get("files").list()[0];
        let first = &file_object.get("readings").list()[0];
        assert_eq!(first.get("why").text(), why);
        let [place, next, frame] = ["place", "next", "frame"].map(|n| first.get(n).number());
        assert_eq!((place, next, frame), (5, 100_006, 99_993));
        let last = file_object.get("readings").list().last().unwrap().clone();
        assert_eq!(last.get("outcome").number(), 11);
        let told = tool(&["why", &file, "5"]).good();
        assert!(told.text().contains(why));
        // the symbol that ends it stands at its place in the file
        assert!(told
            .text()
            .lines()
            .any(|line| line.trim_start().starts_with("100006 /")));
    }
}

#[test]
fn a_long_open_run_is_open() {
    for length in [MOST - 2, MOST - 1, MOST, 3 * MOST, 150_000] {
        let mut line = Line::default();
        line.idle(7).control(START).data(&vec![0x55; length]);
        agree(&line.0);
        let said = tool_on(&["list", "-"], &mut Cursor::new(&line.0)).good();
        assert!(said.text().ends_with("; the Start at 7 is open\n"));
        let why = tool_on(&["why", "-", "0"], &mut Cursor::new(&line.0)).good();
        assert!(why.text().contains("the Start at 7 is open"));
    }
}

// What a pause frame sets in one stretch is there at the end of the file.
#[test]
fn state_is_carried_on() {
    let line = typed("send -o - pause --quanta 3 idle --symbols 200000")
        .good()
        .out;
    let words = ["count", "--flow", "pause", "-"];
    let said = tool_on(&words, &mut Cursor::new(&line)).good();
    let timers = "  0: 192  1: 192  2: 192  3: 192  4: 192  5: 192  6: 192  7: 192\n";
    assert!(said.text().ends_with(timers), "{}", said.text());
}

#[test]
fn reading_begins_at_any_place() {
    let mut random = Random(2);
    let records = traffic(&mut random, 200_000);
    let folder = Folder::new();
    let file = folder.with("long.capture", &records);
    let whole = printed(&records);
    for from in [
        0,
        1,
        65_535,
        65_536,
        65_537,
        131_072,
        170_001,
        records.len() / 2,
    ] {
        let place = |line: &str| line.split(' ').next().unwrap().parse::<usize>();
        let rest = whole
            .lines()
            .filter(|line| place(line).is_ok_and(|at| at >= from));
        let from = from.to_string();
        let by_file = tool(&["list", "--plain", "--from", &from, &file]).good();
        let mut input = Cursor::new(&records);
        let by_pipe = tool_on(&["list", "--plain", "--from", &from, "-"], &mut input).good();
        assert!(by_file.out == by_pipe.out);
        let listed = by_file
            .text()
            .lines()
            .filter(|line| !line.starts_with("starts"));
        assert!(listed.eq(rest), "{from}");
    }
    let beyond = (records.len() / 2 + 1).to_string();
    tool(&["list", "--from", &beyond, &file]).bad("is beyond its");
    let mut input = Cursor::new(&records);
    tool_on(&["list", "--from", &beyond, "-"], &mut input).bad("is beyond its");
    let mut input = Cursor::new(&records);
    tool_on(&["why", "-", &beyond], &mut input).bad("is beyond its");
}

// How many stretches a file takes, and that their captures are full or the last.
fn stretches(records: &[u8]) -> usize {
    let mut input = Cursor::new(records);
    let source = Source::of("standard input", &mut input);
    let mut stretches = Stretches::new(source, true).unwrap();
    let mut number = 0;
    while let Some(stretch) = stretches.next_stretch().unwrap() {
        assert!(stretch.capture.octets.len() <= MOST);
        number += 1;
    }
    number
}

// Whatever is carried over, a file is read in time that is linear in its length.
#[test]
fn files_are_read_in_linear_time() {
    let mut worst = Line::default();
    while worst.symbols() < 40 * MOST {
        // a run that fills all but a symbol of a stretch, so that nearly all of it is carried over
        worst.control(IDLE).control(START).data(&vec![0; MOST - 2]);
    }
    for records in [
        worst.0,
        [1, START].repeat(40 * MOST),
        [0, 0].repeat(40 * MOST),
    ] {
        let captures = records.len() / 2 / MOST;
        let number = stretches(&records);
        assert!(
            number <= 2 * captures + 3,
            "{number} for {captures} captures"
        );
    }
    let mut one = Line::default();
    one.control(START).data(&vec![0; 40 * MOST]);
    assert!(stretches(&one.0) <= 2);
}
