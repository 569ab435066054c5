//! The printing program against the reference's printer.
use differential::generate::{capture, Listener, IDLE, START};
use differential::prng::Prng;
use differential::seed::seeds;
use differential::show;
use reference::Settings;
use std::collections::BTreeSet;
use std::env;
use std::fs;
use std::io::Write;
use std::path::{Path, PathBuf};
use std::process::{Command, Stdio};
use std::thread;
use std::time::Duration;

/// Runs the program, which is for x86-64, on any processor.
const RUN: &str = "../../tools/run_x86_64";
/// Most records that the program reads.
const RECORDS: usize = 32_768;
/// Inputs drawn with each seed, besides those at the limits.
const DRAWN: u64 = 500;

/// The program, or nothing if it is to be left out.
fn program() -> Option<PathBuf> {
    if env::var_os("FENHAMPER_NO_READINGS").is_some() {
        println!("left out by FENHAMPER_NO_READINGS");
        return None;
    }
    let named = env::var_os("FENHAMPER_READINGS");
    let path = named.map_or("../../target/bin/readings".into(), PathBuf::from);
    assert!(
        path.is_file(),
        "the printing program {} is not there: make it by `tools/program readings`, name another in \
         FENHAMPER_READINGS, or set FENHAMPER_NO_READINGS to leave this test out",
        path.display()
    );
    Some(path)
}

/// What the program prints for an input that comes in pieces of this size.
fn printed(program: &Path, input: &[u8], piece: usize) -> String {
    let mut child = Command::new(RUN)
        .arg(program)
        .stdin(Stdio::piped())
        .stdout(Stdio::piped())
        .spawn()
        .expect("the printing program runs");
    let mut stdin = child.stdin.take().expect("its input is ours");
    let input = input.to_vec();
    // written beside, since the program may print before it has read all
    let writer = thread::spawn(move || {
        let pause = Duration::from_millis(u64::from(input.len() > piece));
        for piece in input.chunks(piece) {
            // a program that has seen enough may stop reading
            if stdin.write_all(piece).is_err() {
                break;
            }
            thread::sleep(pause);
        }
    });
    let output = child.wait_with_output().expect("the program ends");
    writer.join().expect("the writer ends");
    assert!(output.status.code().is_some(), "{}", output.status);
    String::from_utf8(output.stdout).expect("the program prints text")
}

/// Records: mark, then octet.
fn records(octets: &[u8], marks: &[u8]) -> Vec<u8> {
    let pairs = octets.iter().zip(marks);
    pairs.flat_map(|(&octet, &mark)| [mark, octet]).collect()
}

/// Inputs at the limits of the section on the program.
fn edges() -> Vec<Vec<u8>> {
    let example = [1, 0xFB, 1, 0x07, 1, 0xFB, 0, 0x55, 1, 0xFD];
    let mut inputs = vec![example.to_vec()];
    // one record less than the most, the most, one more, twice as many
    for n in [0, 1, 2, RECORDS - 1, RECORDS, RECORDS + 1, 2 * RECORDS] {
        for (octet, mark) in [(START, 1), (START, 0xFF), (START, 0), (IDLE, 1), (0x55, 0)] {
            let whole = records(&vec![octet; n], &vec![mark; n]);
            // half a record more, and half a record less
            inputs.push([&whole[..], &[mark]].concat());
            inputs.push(whole[..whole.len().saturating_sub(1)].to_vec());
            inputs.push(whole);
        }
    }
    inputs
}

/// A drawn capture as records, at times with half a record too many.
fn drawn(prng: &mut Prng) -> Vec<u8> {
    let symbols = capture(prng, &Settings::PRINTED, &Listener::alone());
    let mut input = records(&symbols.octets, &symbols.marks);
    if !prng.one_in(8) {
        input.truncate(2 * RECORDS);
    }
    if prng.one_in(16) {
        input.push(prng.octet());
    }
    input
}

/// What a text says: outcomes by their numbers, and how it ended.
fn kinds(text: &str) -> impl Iterator<Item = String> + '_ {
    text.lines().map(|line| {
        let words: Vec<_> = line.split(' ').collect();
        match words[..] {
            ["starts", _, "open", open] => format!("open {open}"),
            [_, outcome, _, _] => format!("outcome {outcome}"),
            _ => line.to_string(),
        }
    })
}

/// Compares what is printed for an input, and gives it.
fn compare(program: &Path, name: &str, input: &[u8], piece: usize) -> String {
    let (library, reference) = (printed(program, input, piece), reference::print(input));
    if library == reference {
        // refused exactly if it ends in half a record or has too many, whatever both sides say
        let whole = input.chunks_exact(2).remainder().is_empty();
        let taken = whole && input.len() <= 2 * RECORDS;
        assert_eq!(reference != "bad input\n", taken, "{name}");
        return reference;
    }
    let kept = Path::new(env!("CARGO_TARGET_TMPDIR")).join("input");
    fs::write(&kept, input).expect("the input is kept");
    let records = input.chunks_exact(2).map(|record| (record[1], record[0]));
    let (octets, marks): (Vec<u8>, Vec<u8>) = records.unzip();
    let same = library.lines().zip(reference.lines());
    let same = same.take_while(|(library, reference)| library == reference);
    let line = same.count();
    panic!(
        "{name}, {} octets in pieces of {piece}, is printed otherwise from line {} on\n\
         program:   {:?}\n\
         reference: {:?}\n\
         input: {}\n\
         it is kept in {}",
        input.len(),
        line + 1,
        library.lines().nth(line),
        reference.lines().nth(line),
        show::symbols(&octets, &marks, false),
        kept.display()
    );
}

#[test]
fn prints_what_the_reference_prints() {
    let Some(program) = program() else {
        return;
    };
    let mut seen = BTreeSet::new();
    for (i, input) in edges().iter().enumerate() {
        let piece = input.len().max(1);
        let text = compare(&program, &format!("edge {i}"), input, piece);
        seen.extend(kinds(&text));
    }
    let drawn_with = seeds();
    println!("seeds {drawn_with:?}");
    let all = drawn_with
        .iter()
        .flat_map(|&seed| (0..DRAWN).map(move |i| (seed, i)));
    for (seed, i) in all {
        let mut prng = Prng::new(seed, i);
        let input = drawn(&mut prng);
        // one in eight comes in up to four pieces
        let pieces = if prng.one_in(8) { 4 } else { 1 };
        let piece = input.len().div_ceil(pieces).max(1);
        let text = compare(&program, &format!("seed {seed}, input {i}"), &input, piece);
        seen.extend(kinds(&text));
    }
    // flow mode none takes no pause and no PFC frame, so there is no 8 and no 9
    let outcomes = [1, 2, 3, 4, 5, 6, 7, 10, 11].map(|outcome| format!("outcome {outcome}"));
    let ends = ["bad input", "open 0", "open 1"].map(str::to_string);
    assert_eq!(seen, outcomes.into_iter().chain(ends).collect());
}
