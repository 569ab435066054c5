//! Each command on the samples, with expected output.
use crate::common::{expect, kept, sample, tool, typed, Folder, SAMPLES};
use std::fs;
use std::path::Path;

// What the command prints of the words is kept in this file.
fn printed(file: &str, words: &[&str]) {
    expect(file, &tool(words).good().out);
}

#[test]
fn list() {
    for name in SAMPLES {
        printed(&format!("list-{name}.txt"), &["list", &sample(name)]);
    }
    let [first, outcomes] = ["first", "outcomes"].map(sample);
    printed("list-both.txt", &["list", &first, &outcomes]);
    printed(
        "list-colour.txt",
        &["list", "--colour", "always", &outcomes],
    );
    printed(
        "list-json.json",
        &["list", "--json", &first, &outcomes, &sample("open")],
    );
    printed("list-csv.csv", &["list", "--csv", &first, &sample("tags")]);
    let only = ["--only", "wrong-fcs", "--only=Cut", "--only", "7"];
    printed("list-only.txt", &[&["list", &first], &only[..]].concat());
    printed("list-from.txt", &["list", "--from", "303", &first]);
}

#[test]
fn count() {
    let files = SAMPLES.map(sample);
    let files: Vec<&str> = files.iter().map(String::as_str).collect();
    printed("count.txt", &[&["count"], &files[..]].concat());
    printed("count-first.txt", &["count", &sample("first")]);
    printed(
        "count-pause.txt",
        &["count", "--flow", "pause", &sample("first")],
    );
    printed("count-from.txt", &["count", "--from=303", &sample("first")]);
    let sized = ["count", "--sizes", &sample("first"), &sample("sizes")];
    printed("count-sizes.txt", &sized);
}

// The size table is the one that the program prints, in columns and under heads; of several files it
// is the one of all of them together.
#[test]
fn sizes_are_those_of_the_program() {
    let words = |line: &str| {
        line.split_whitespace()
            .map(str::to_owned)
            .collect::<Vec<_>>()
    };
    let sized = |files: &[&str]| {
        let said = tool(&[&["count", "--sizes"], files].concat()).good();
        let table = said.text().split("\n\n").last().unwrap().lines().skip(1);
        table.map(words).collect::<Vec<_>>()
    };
    for name in SAMPLES {
        let expected = String::from_utf8(kept(&format!("samples/{name}.sizes.txt"))).unwrap();
        let expected: Vec<Vec<String>> = expected.lines().map(words).collect();
        let table = sized(&[&sample(name)]);
        assert_eq!(table[..7], expected[..7], "{name}");
        assert_eq!(table[7], words("a mark is 1 frame"));
        assert_eq!(expected[7], words("frames to a mark 1"));
    }
    let both = sized(&[&sample("first"), &sample("sizes")]);
    assert_eq!(
        both[1],
        words(&format!("65 to 127 11 1054 {}", "#".repeat(11)))
    );
}

#[test]
fn why() {
    let mut all = Vec::new();
    let places = [
        (
            "outcomes",
            &[0, 52, 136, 219, 1758, 1842, 1927, 2011, 2095][..],
        ),
        ("first", &[0, 181, 424, 652, 862]),
        ("tags", &[176, 360, 476]),
        ("example", &[0, 1]),
        ("noise", &[124]),
        ("open", &[1]),
    ];
    for (name, places) in places {
        for place in places {
            let said = tool(&["why", &sample(name), &place.to_string()]).good();
            all.extend(said.out);
            all.push(b'\n');
        }
    }
    all.pop();
    expect("why.txt", &all);
}

// The reason is the one that the program `why` prints.
#[test]
fn why_says_what_the_program_says() {
    for name in SAMPLES {
        let expected = String::from_utf8(kept(&format!("samples/{name}.why.txt"))).unwrap();
        for line in expected.lines().filter(|line| !line.starts_with("starts")) {
            let (place, reason) = line.split_once(' ').unwrap();
            let said = tool(&["why", &sample(name), place]).good();
            let told = said.text().lines().nth(1).unwrap();
            assert_eq!(told, format!("  why         {reason}"), "{name}");
        }
    }
}

#[test]
fn draw() {
    let folder = Folder::new();
    let drawn = |words: &[&str]| {
        let out = folder.name("out.svg");
        tool(&[&["draw", "-o", &out], words].concat()).good();
        fs::read(out).unwrap()
    };
    let first = sample("first");
    expect(
        "draw-zoom.svg",
        &drawn(&[&first, "--from", "400", "--to", "500"]),
    );
    expect("draw-empty.svg", &drawn(&[&sample("empty")]));
    expect("draw-noise.svg", &drawn(&[&sample("noise"), "--to", "64"]));
    expect("draw-outcomes.svg", &drawn(&[&sample("outcomes")]));
}

// The frames of the sample that station 02-00-00-00-00-09 sends.
#[test]
fn send() {
    let sent = |line: &str| {
        typed(&format!("send --own 02:00:00:00:00:09 -o - {line}"))
            .good()
            .out
    };
    let [first, tags, outcomes] = ["first", "tags", "outcomes"].map(|name| kept(&sample(name)));
    let part = |line: &[u8], from: usize, to: usize| line[2 * from..2 * to].to_vec();
    let two = "idle --symbols 12 client --to 02-00-00-00-00-01 --text 'hello, fenhamper' \
               client --to FF-FF-FF-FF-FF-FF --type=0x0806 \
               --hex '0001080006040001 020000000009 c0000209 000000000000 c0000201'";
    assert!(sent(two) == part(&first, 0, 180));
    let hex: String = b"a provider's tag outside"
        .map(|octet| format!("{octet:02x}"))
        .concat();
    let tagged = format!("client --to 02-00-00-00-00-01 --tag s100/1 --tag c5/1 --hex {hex}");
    assert!(sent(&tagged) == part(&tags, 176, 268));
    assert!(sent("pause --quanta 0xFFFF") == part(&first, 652, 736));
    let quanta = [0, 1, 2, 3, 4, 5, 6, 7].map(|class| format!("--quanta {class}=1"));
    assert!(sent(&format!("pfc {}", quanta.join(" "))) == part(&outcomes, 2011, 2095));
}

#[test]
fn help() {
    for name in ["list", "count", "why", "pcap", "from-pcap", "draw", "send"] {
        let page = tool(&[name, "--help"]).good().out;
        assert_eq!(page, tool(&["help", name]).good().out);
        assert_eq!(page, tool(&[name, "some", "words", "-h"]).good().out);
        expect(&format!("help-{name}.txt"), &page);
    }
    printed("help.txt", &["--help"]);
    assert!(tool(&["--version"]).good().text().starts_with("fenhamper "));
}

// Pages and tables fit a hundred columns, and need no colour.
#[test]
fn lines_fit() {
    let folder = Path::new(env!("CARGO_MANIFEST_DIR")).join("tests/expected");
    let mut seen = 0;
    for file in fs::read_dir(folder).unwrap() {
        let path = file.unwrap().path();
        let name = path.file_name().unwrap().to_str().unwrap().to_owned();
        if path.extension() != Some("txt".as_ref()) || name == "list-colour.txt" {
            continue;
        }
        let text = fs::read_to_string(path).unwrap();
        let fits = |line: &str| line.chars().count() <= 100 && !line.contains('\x1B');
        assert!(text.lines().all(fits), "{name}");
        seen += 1;
    }
    assert!(seen > 20, "{seen}");
}
