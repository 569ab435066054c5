//! What cannot be done is said in one line, with exit code 2.
use crate::common::{kept, program, sample, tool, tool_on, typed, Folder};
use std::fs::{self, OpenOptions};
use std::io::{Cursor, Read};
use std::process::Stdio;

// Each in one line, and nothing is printed. FIRST is the first sample.
fn said_of(cases: &[(&str, &str)]) {
    for (line, what) in cases {
        let line = line.replace("FIRST", "samples/first.capture");
        assert_eq!(typed(&line).bad(what).out, b"", "{line}");
    }
}

#[test]
fn wrong_words_of_list() {
    said_of(&[
        (
            "",
            "which command? list, count, why, pcap, from-pcap, draw, send",
        ),
        ("lsit FIRST", "there is no command lsit; did you mean list?"),
        ("help nothing", "there is no command nothing"),
        (
            "list",
            "list: which file? - is standard input (fenhamper list --help)",
        ),
        (
            "list - FIRST -",
            "- is named twice, and standard input can be read once",
        ),
        (
            "list --onyl cut FIRST",
            "there is no flag --onyl; did you mean --only?",
        ),
        ("list -x FIRST", "there is no flag -x"),
        ("list --only", "--only needs OUTCOME behind it"),
        (
            "list --only broken FIRST",
            "--only broken: no outcome; there are cut, bad-preamble",
        ),
        ("list --json=yes FIRST", "--json takes no value"),
        (
            "list --json --csv FIRST",
            "of --plain, --json and --csv one can be given",
        ),
        ("list --from -1 FIRST", "--from -1: it takes a number"),
        (
            "list --from 863 FIRST",
            "place 863 is beyond its 862 symbols",
        ),
        (
            "list --colour red FIRST",
            "--colour red: it takes one of auto, always, never",
        ),
    ]);
}

#[test]
fn wrong_words_of_reading() {
    said_of(&[
        ("count --sizes=64 FIRST", "--sizes takes no value"),
        (
            "count --own 02-00 FIRST",
            "--own 02-00: no address; six pairs",
        ),
        (
            "count --own 01-00-00-00-00-01 FIRST",
            "a group's address is no station's own",
        ),
        (
            "count --limit 1517 FIRST",
            "--limit 1517: it takes a number from 1518 to 9618",
        ),
        (
            "count --limit many FIRST",
            "--limit many: it takes a number from 1518 to 9618",
        ),
        (
            "count --flow on FIRST",
            "--flow on: it takes one of none, pause, pfc",
        ),
        (
            "count --job 2 FIRST",
            "--job 2: it takes a number from 0 to 1",
        ),
        (
            "count --list 2=02-00-00-00-00-02 FIRST",
            "there is no job 2, 0 and 1 are",
        ),
        (
            "count --list=02-00-00-00-00-02 --list=02-00-00-00-00-02 FIRST",
            "refusal 17, already listed",
        ),
        ("why FIRST", "why: it takes FILE PLACE"),
        ("why FIRST here", "PLACE is a number"),
        ("why FIRST 863", "place 863 is beyond its 862 symbols"),
        ("why FIRST 900", "place 900 is beyond its 862 symbols"),
        ("why FIRST 1 2", "it takes FILE PLACE"),
    ]);
}

#[test]
fn wrong_words_of_writing() {
    said_of(&[
        ("pcap FIRST", "-o FILE is missing"),
        ("pcap -o -", "it takes FILE -o OUT.pcapng"),
        ("pcap FIRST -o FIRST", "is the file that is read"),
        (
            "pcap FIRST -o - --rate 2G",
            "--rate 2G: it takes one of 1G, 10G, 40G",
        ),
        ("from-pcap -o -", "it takes IN -o FILE"),
        (
            "draw FIRST -o - --to 0",
            "--to 0 is not 1 to 65536 symbols behind --from 0",
        ),
        (
            "draw FIRST -o - --to 65537",
            "is not 1 to 65536 symbols behind",
        ),
        ("send -o -", "what? client, pause, pfc or idle"),
        ("send -o - jam", "jam cannot be sent"),
        ("send idle --symbols 1", "-o FILE is missing"),
        ("send -o - idle", "idle needs --symbols"),
        ("send -o - pause", "pause needs --quanta"),
        ("send -o - client", "client needs --to ADDRESS"),
        ("send -o - pfc --quanta 8=1", "of pfc it is CLASS=NUMBER"),
        (
            "send -o - --text x client",
            "--text goes behind the word client",
        ),
        ("send -o - pause --to x", "--to goes behind the word client"),
    ]);
}

#[test]
fn refusals_of_sending() {
    let long = format!("--hex {}", "00".repeat(1501));
    let nine = "--tag c5 ".repeat(9);
    for (flags, what) in [
        ("--type 0x8100", "refusal 6, bad type"),
        (&long, "refusal 7, long data"),
        ("--hex 0", "pairs of hexadecimal digits"),
        ("--tag 5", "--tag 5: a tag is c or s and its VLAN"),
        (
            "--text a --hex 00",
            "of --text, --hex and --data one can be given",
        ),
        ("--data nowhere", "nowhere: cannot be read"),
        (&nine, "refusal 10, many tags"),
    ] {
        typed(&format!("send -o - client --to 02-00-00-00-00-01 {flags}")).bad(what);
    }
    let flow = "refusal 4, other flow: pause or PFC asked in another flow mode; leave out --flow";
    typed("send -o - --flow none pause --quanta 1").bad(flow);
}

#[test]
fn files_that_are_no_captures() {
    let folder = Folder::new();
    let gzip = [&[0x1F, 0x8B, 8][..], &[0; 60]].concat();
    let pcapng = tool(&["pcap", &sample("first"), "-o", "-"]).good().out;
    let cases: [(&str, &[u8], &str); 9] = [
        (
            "gzip",
            &gzip,
            "is no capture, it looks like gzip: unpack it first",
        ),
        (
            "zstd",
            &[0x28, 0xB5, 0x2F, 0xFD, 0, 0],
            "it looks like Zstandard: unpack it first",
        ),
        (
            "xz",
            &[0xFD, 0x37, 0x7A, 0x58, 0x5A, 0, 0, 0],
            "it looks like xz: unpack it first",
        ),
        (
            "zip",
            b"PK\x03\x04\x00\x00",
            "it looks like ZIP: unpack it first",
        ),
        (
            "pcapng",
            &pcapng,
            "it looks like pcapng: fenhamper from-pcap makes a capture of it",
        ),
        (
            "pcap",
            &[0xD4, 0xC3, 0xB2, 0xA1, 2, 0],
            "it looks like pcap: fenhamper from-pcap",
        ),
        (
            "text",
            b"place outcome status\n",
            "it looks like text: a capture is records of two",
        ),
        (
            "snoop",
            b"snoop\0\0\0\0\0\0\x02",
            "it looks like snoop: Wireshark saves it as pcapng",
        ),
        (
            "odd",
            &[1, 0xFB, 1],
            "3 octets are no whole number of records of two",
        ),
    ];
    for (name, octets, what) in cases {
        let file = folder.with(name, octets);
        let out = folder.name("out");
        for words in [
            &["list", &file][..],
            &["list", "--json", &file],
            &["count", &file],
            &["why", &file, "0"],
            &["pcap", &file, "-o", &out],
            &["draw", &file, "-o", &out],
        ] {
            tool(words).bad(what);
        }
        assert!(!folder.files().contains(&"out".to_owned()));
        let mut input = Cursor::new(octets);
        let said = tool_on(&["count", "-"], &mut input).bad("standard input: is no capture");
        assert!(said.err.contains(what));
    }
    // a capture may begin so all the same
    let file = folder.with("gzip", &gzip[..62]);
    tool(&["count", "--force", &file]).good();
}

#[test]
fn files_that_cannot_be_read() {
    tool(&["list", "nowhere.capture"]).bad("nowhere.capture: cannot be read: No such file");
    tool(&["count", "samples"]).bad("samples: is a folder; name the files in it");
    tool(&["from-pcap", "nowhere", "-o", "-"]).bad("nowhere: cannot be read");
    let said = tool(&["pcap", &sample("first"), "-o", "nowhere/out"]);
    said.bad("nowhere/out: cannot be written: No such file");
    // the others are read all the same
    let said = tool(&["count", "nowhere", &sample("first"), "samples/odd.capture"]);
    assert_eq!((said.code, said.err.lines().count()), (2, 2));
    assert!(said.text().contains("samples/first.capture       9"));
    let said = tool(&["list", "samples/odd.capture", &sample("example")]);
    assert_eq!((said.code, said.err.lines().count()), (2, 1));
    assert!(said.text().starts_with("samples/example.capture\n"));
}

#[test]
fn input_that_breaks_off() {
    struct Broken;
    impl Read for Broken {
        fn read(&mut self, _: &mut [u8]) -> std::io::Result<usize> {
            Err(std::io::Error::other("the cable is out"))
        }
    }
    let said = tool_on(&["list", "-"], &mut Broken);
    said.bad("standard input: cannot be read: the cable is out");
}

// A full disk, for each command that writes.
#[test]
fn a_full_disk() {
    let first = sample("first");
    let folder = Folder::new();
    let pcapng = folder.name("first.pcapng");
    tool(&["pcap", &first, "-o", &pcapng]).good();
    let full = || OpenOptions::new().write(true).open("/dev/full").unwrap();
    for words in [
        &["list", &first][..],
        &["list", "--json", &first],
        &["count", &first],
        &["why", &first, "0"],
        &["pcap", &first, "-o", "-"],
        &["from-pcap", &pcapng, "-o", "-"],
        &["draw", &first, "-o", "-"],
        &["send", "idle", "--symbols", "9", "-o", "-"],
        &["--help"],
    ] {
        let output = program(words).stdout(Stdio::from(full())).output().unwrap();
        let err = String::from_utf8(output.stderr).unwrap();
        let expected = "fenhamper: standard output: cannot be written: No space left on device\n";
        assert_eq!(
            (output.status.code(), err.as_str()),
            (Some(2), expected),
            "{words:?}"
        );
    }
    for words in [
        &["pcap", &first, "-o", "/dev/full"][..],
        &["from-pcap", &pcapng, "-o", "/dev/full"],
        &["draw", &first, "-o", "/dev/full"],
        &["send", "idle", "--symbols", "9", "-o", "/dev/full"],
    ] {
        tool(words).bad("/dev/full: cannot be written: No space left on device");
    }
}

// Whoever reads the output may stop; that is no fault, and nothing is said of it.
#[test]
fn a_closed_pipe() {
    let folder = Folder::new();
    let long = folder.with("long.capture", &[1, 0xFB].repeat(200_000));
    for words in [
        &["list", &long][..],
        &["list", "--plain", &long],
        &["list", "--csv", &long],
        &["pcap", &long, "-o", "-"],
    ] {
        let mut command = program(words);
        let mut child = command
            .stdout(Stdio::piped())
            .stderr(Stdio::piped())
            .spawn()
            .unwrap();
        drop(child.stdout.take());
        let output = child.wait_with_output().unwrap();
        let err = String::from_utf8(output.stderr).unwrap();
        assert_eq!(
            (output.status.code(), err.as_str()),
            (Some(0), ""),
            "{words:?}"
        );
    }
}

// As a program, with standard input from a file.
#[test]
fn standard_input_is_a_dash() {
    let expected = kept("samples/first.txt");
    let input = fs::File::open(crate::common::root().join("samples/first.capture")).unwrap();
    let output = program(&["list", "--plain", "-"])
        .stdin(input)
        .output()
        .unwrap();
    assert!(output.stdout == expected);
    assert_eq!(output.status.code(), Some(0));
    let strict = program(&["count", "--strict", "samples/first.capture"])
        .output()
        .unwrap();
    assert_eq!(strict.status.code(), Some(1));
}

// An output that is not finished is taken away, and what was there before stays.
#[test]
fn no_half_files() {
    let folder = Folder::new();
    let out = folder.name("out");
    let mut odd = [1, 0xFB].repeat(100_000);
    odd.push(1);
    for command in ["pcap", "draw"] {
        let mut input = Cursor::new(&odd);
        tool_on(&[command, "-", "-o", &out, "--from", "90000"], &mut input).bad("200001 octets");
        assert_eq!(folder.files(), Vec::<String>::new());
    }
    folder.with("out", b"before");
    typed(&format!(
        "send idle --symbols 9 client --to 02-00-00-00-00-01 --type 5 -o {out}"
    ))
    .bad("6, bad type");
    assert_eq!(
        (folder.files(), fs::read(&out).unwrap()),
        (vec!["out".to_owned()], b"before".to_vec())
    );
    // through a link to it the file itself is written
    let link = folder.name("link");
    std::os::unix::fs::symlink(&out, &link).unwrap();
    typed(&format!("send idle --symbols 1 -o {link}")).good();
    assert_eq!(fs::read(&out).unwrap(), [1, 7]);
    assert!(fs::symlink_metadata(&link).unwrap().is_symlink());
    assert_eq!(folder.files().len(), 2);
}
