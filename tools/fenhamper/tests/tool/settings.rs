//! What a station is set to, by flags.
use crate::common::{sample, tool, tool_on, typed, typed_on, Folder};
use crate::json::Json;
use std::io::Cursor;

// Outcomes, and which address let each in, with these flags.
fn read(flags: &[&str], file: &str) -> Vec<(u64, u64)> {
    let said = tool(&[&["list", "--json", file], flags].concat()).good();
    let document = Json::parse(said.text()).unwrap();
    let readings = document.get("files").list()[0].get("readings").list();
    let way = |way: &Json| match way {
        Json::Null => 0,
        way => way.number(),
    };
    readings
        .iter()
        .map(|r| (r.get("outcome").number(), way(r.get("way"))))
        .collect()
}

// Which readings are other ones, and which.
type Changed<'a> = &'a [(usize, (u64, u64))];

#[test]
fn each_flag_sets_what_it_names() {
    let first = sample("first");
    let usual = [
        (11, 1),
        (11, 6),
        (11, 1),
        (5, 0),
        (1, 0),
        (11, 1),
        (7, 0),
        (10, 8),
        (11, 1),
    ];
    // the flags, and which readings they change
    let cases: [(&[&str], Changed<'_>); 12] = [
        (&[], &[]),
        (&["--promiscuous"], &[(6, (11, 7))]),
        (&["--no-broadcast"], &[(1, (7, 0))]),
        (&["--flow", "pause"], &[(7, (8, 8))]),
        (&["--flow", "pfc"], &[]),
        (&["--flow", "none"], &[]),
        (&["--pass-control"], &[(7, (11, 8))]),
        (&["--list", "02-00-00-00-00-02"], &[(6, (11, 16))]),
        (
            &["--list", "01-00-5E-00-00-01", "--list", "02:00:00:00:00:02"],
            &[(6, (11, 17))],
        ),
        (&["--list", "1=02-00-00-00-00-02"], &[]),
        (
            &[
                "--list",
                "0=02-00-00-00-00-02",
                "--list=1=02-00-00-00-00-02",
                "--job=1",
            ],
            &[(6, (11, 17))],
        ),
        (
            &["--own", "02-00-00-00-00-02", "--no-broadcast"],
            &[
                (0, (7, 0)),
                (1, (7, 0)),
                (2, (7, 0)),
                (5, (7, 0)),
                (6, (11, 1)),
                (8, (7, 0)),
            ],
        ),
    ];
    for (flags, changed) in cases {
        let mut expected = usual;
        for (at, reading) in changed {
            expected[*at] = *reading;
        }
        assert_eq!(read(flags, &first), expected, "{flags:?}");
    }
    let outcomes = sample("outcomes");
    assert_eq!(read(&[], &outcomes)[3], (4, 0));
    assert_eq!(read(&["--limit", "1519"], &outcomes)[3], (11, 1));
    assert_eq!(read(&["--no-check"], &outcomes)[5], (11, 1));
}

#[test]
fn a_table_comes_from_a_file() {
    let folder = Folder::new();
    let mut octets = [0; 128];
    // entry 3, of job 1
    octets[24..32].copy_from_slice(&[2, 0x02, 0, 0, 0, 0, 2, 0]);
    let table = folder.with("table", &octets);
    let first = sample("first");
    assert_eq!(
        read(&["--table", &table, "--job", "1"], &first)[6],
        (11, 19)
    );
    assert_eq!(read(&["--table", &table], &first)[6], (7, 0));
    // what is listed beside it takes the lowest free entry
    let more = ["--table", &table, "--list", "02-00-00-00-00-02"];
    assert_eq!(read(&more, &first)[6], (11, 16));

    let short = folder.with("short", &octets[1..]);
    tool(&["list", &first, "--table", &short]).bad("127 octets, and a table has 128");
    let twice = folder.with("twice", &[1; 128]);
    tool(&["list", &first, "--table", &twice]).bad("more than 12 entries, or has an address twice");
    tool(&["list", &first, "--table", "nowhere"]).bad("nowhere: cannot be read: No such file");
}

// Strict: 1 where anything was thrown away, and 0 else; what was taken was not.
#[test]
fn strict_tells_by_the_exit_code() {
    let folder = Folder::new();
    let out = folder.name("out");
    let code = |words: &[&str], file: &str| {
        let words = [words, &["--strict", file]].concat();
        let said = tool(&words);
        assert_eq!(said.err, "");
        said.code
    };
    for (file, expected) in [
        ("first", 1),
        ("tags", 0),
        ("open", 0),
        ("empty", 0),
        ("noise", 1),
    ] {
        let file = sample(file);
        for command in [
            &["list"][..],
            &["count"],
            &["pcap", "-o", &out],
            &["draw", "-o", &out],
        ] {
            assert_eq!(code(command, &file), expected, "{command:?} {file}");
        }
    }
    let first = sample("first");
    let why = |place: &str| tool(&["why", "--strict", &first, place]).good();
    why("12");
    assert_eq!(tool(&["why", "--strict", &first, "302"]).code, 1);
    assert_eq!(tool(&["list", &first]).code, 0);
    // only what is listed is another matter
    assert_eq!(code(&["list", "--only", "handed out"], &first), 1);
    // a file that cannot be read outdoes it
    assert_eq!(tool(&["count", "--strict", &first, "nowhere"]).code, 2);

    let line = typed("send -o - pause --quanta 1 pfc --quanta 0=1")
        .good()
        .out;
    let strict = |flow: &str, from: &str| {
        let words = ["count", "--strict", "--flow", flow, "--from", from, "-"];
        tool_on(&words, &mut Cursor::new(&line)).code
    };
    assert_eq!(
        [
            strict("pause", "0"),
            strict("pfc", "84"),
            strict("pfc", "0")
        ],
        [1, 0, 1]
    );
}

// On the four-lane port Starts stand at multiples of four, from one thing sent to the next.
#[test]
fn sending_on_four_lanes() {
    let mut words = vec!["send", "-o", "-", "--port", "four-lane"];
    let texts: Vec<String> = (46..60).map(|n| "x".repeat(n)).collect();
    for text in &texts {
        words.extend(["client", "--to", "02-00-00-00-00-01", "--text", text]);
    }
    let line = tool(&words).good().out;
    let starts = line
        .chunks(2)
        .enumerate()
        .filter(|(_, record)| *record == [1, 0xFB]);
    let places: Vec<usize> = starts.map(|(place, _)| place).collect();
    assert_eq!(places.len(), 14);
    assert!(places.iter().all(|place| place % 4 == 0));
    let octets: usize = (46..60).map(|n| n + 26).sum();
    let gaps = line.len() / 2 - octets;
    assert!((12 * 14 - 3..=12 * 14).contains(&gaps), "{gaps}");
    // behind three Idles no frame can begin
    typed("send -o - --port four-lane idle --symbols 3 pause --quanta 1")
        .bad("idle before it brings it to a place divisible by four");
}

#[test]
fn sending_many_and_from_files() {
    let folder = Folder::new();
    let data = folder.with("data", b"from a file");
    let client = "send -o - client --to 02-00-00-00-00-01";
    let text = typed(&format!("{client} --text 'from a file'")).good().out;
    assert_eq!(text.len(), 2 * 84);
    let three = typed(&format!("{client} --data {data} --times 3"))
        .good()
        .out;
    assert!(three == text.repeat(3));
    let piped = typed_on(
        &format!("{client} --data -"),
        &mut Cursor::new(b"from a file"),
    );
    assert!(piped.good().out == text);
    let idle = |symbols| {
        typed(&format!("send -o - idle --symbols {symbols}"))
            .good()
            .out
    };
    assert!(idle(200_001) == [1, 7].repeat(200_001));
    assert_eq!(idle(0), b"");
}
