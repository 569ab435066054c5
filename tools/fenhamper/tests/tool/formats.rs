//! JSON, CSV and SVG are what they are called, and say what the plain list says.
use crate::common::{sample, tool, tool_on, typed, Folder, SAMPLES};
use crate::csv::rows;
use crate::drawn::{noise, traffic, Random};
use crate::json::Json;
use crate::xml::elements;
use std::io::Cursor;

// What a plain line says, of each reading of a document.
fn plain_lines(file: &Json) -> String {
    let mut text = String::new();
    for r in file.get("readings").list() {
        let handed = match r.get("data") {
            Json::Null => 0,
            data => data.get("length").number(),
        };
        let [place, outcome, status] = ["place", "outcome", "status"].map(|n| r.get(n).number());
        text += &format!("{place} {outcome} {status} {handed}\n");
    }
    let open = u8::from(file.get("open") != &Json::Null);
    text + &format!("starts {} open {open}\n", file.get("starts").number())
}

// A line of names and one for each reading, likewise.
fn plain_rows(text: &str) -> String {
    let rows = rows(text);
    let column = |name: &str| rows[0].iter().position(|n| n == name).unwrap();
    let columns = ["place", "outcome", "status", "data_length"].map(column);
    let mut text = String::new();
    for row in &rows[1..] {
        assert_eq!(row.len(), rows[0].len());
        let [place, outcome, status, handed] = columns.map(|column| row[column].as_str());
        let handed = if handed.is_empty() { "0" } else { handed };
        text += &format!("{place} {outcome} {status} {handed}\n");
    }
    text
}

#[test]
fn json_and_csv_say_what_plain_says() {
    let mut random = Random(3);
    for n in 0..60 {
        let input = if n % 3 == 0 {
            noise(&mut random, 500)
        } else {
            traffic(&mut random, 2000)
        };
        let list = |how| tool_on(&["list", how, "-"], &mut Cursor::new(&input)).good();
        let plain = list("--plain");
        let document = Json::parse(list("--json").text()).unwrap();
        let [file] = document.get("files").list() else {
            panic!("one file was read");
        };
        assert_eq!(file.get("file").text(), "standard input");
        assert_eq!(file.get("symbols").number() as usize, input.len() / 2);
        assert_eq!(plain_lines(file), plain.text());
        let csv = plain_rows(list("--csv").text());
        let sum = plain.text().lines().last().unwrap();
        assert_eq!(csv + sum + "\n", plain.text());
    }
}

// Whatever stands in a file's name.
#[test]
fn names_of_files_are_escaped() {
    let folder = Folder::new();
    let odd = "a \"name\", <with> & \u{7} all\n.capture";
    let name = folder.with(odd, &[1, 0xFB, 1, 0x07]);
    let document = tool(&["list", "--json", &name]).good();
    let document = Json::parse(document.text()).unwrap();
    assert_eq!(document.get("files").list()[0].get("file").text(), name);
    let csv = tool(&["list", "--csv", &name]).good();
    assert_eq!(rows(csv.text())[1][0], name);
    let drawn = tool(&["draw", &name, "-o", "-"]).good();
    elements(drawn.text()).unwrap();
}

// A document stays whole where a file is left out or breaks off.
#[test]
fn json_stays_whole_where_a_file_does_not() {
    let said = tool(&[
        "list",
        "--json",
        &sample("first"),
        "samples/odd.capture",
        "nowhere",
    ]);
    assert_eq!((said.code, said.err.lines().count()), (2, 2));
    let document = Json::parse(said.text()).unwrap();
    assert_eq!(document.get("files").list().len(), 1);

    // a pipe whose odd octet comes when most of it is printed
    let mut long = [1, 0xFB].repeat(70_000);
    long.push(1);
    let said = tool_on(&["list", "--json", "-"], &mut Cursor::new(&long)).bad("140001 octets");
    let document = Json::parse(said.text()).unwrap();
    let file = &document.get("files").list()[0];
    assert!(file.get("error").text().contains("140001 octets"));
    assert_eq!(file.get("readings").list().len(), 65_535);
}

// Whatever a capture has, lines fit a hundred columns.
#[test]
fn lines_fit_whatever_is_read() {
    let mut random = Random(4);
    let fits = |text: &str| text.lines().all(|line| line.chars().count() <= 100);
    for flags in [
        &[][..],
        &["--promiscuous"],
        &["--flow", "pfc", "--limit", "9618"],
    ] {
        let input = traffic(&mut random, 30_000);
        let said = |words: &[&str]| {
            let words = [words, flags].concat();
            let said = tool_on(&words, &mut Cursor::new(&input)).good();
            assert!(fits(said.text()), "{words:?}: {}", said.text());
            said
        };
        said(&["list", "-"]);
        said(&["count", "-"]);
        let plain = said(&["list", "--plain", "-"]);
        for line in plain
            .text()
            .lines()
            .filter(|line| !line.starts_with("starts"))
        {
            let place = line.split(' ').next().unwrap();
            said(&["why", "-", place]);
        }
    }
}

fn drawn(words: &[&str], input: &[u8]) -> String {
    let words = [&["draw", "-", "-o", "-"], words].concat();
    let said = tool_on(&words, &mut Cursor::new(input));
    assert_eq!(said.code, 0, "{}", said.err);
    said.text().to_owned()
}

#[test]
fn pictures_are_well_formed() {
    for name in SAMPLES {
        let said = tool(&["draw", &sample(name), "-o", "-"]).good();
        elements(said.text()).unwrap_or_else(|wrong| panic!("{name}: {wrong}"));
    }
    let mut random = Random(5);
    for symbols in [1, 63, 64, 65, 511, 513, 5000, 65_535, 65_536, 70_000] {
        for input in [noise(&mut random, symbols), traffic(&mut random, symbols)] {
            let text = drawn(&[], &input);
            elements(&text).unwrap_or_else(|wrong| panic!("{symbols}: {wrong}"));
        }
    }
}

// Of a whole capture each frame has its box and a name in it, and what is worst stays small.
#[test]
fn a_whole_capture_stays_readable() {
    let line = typed("send -o - client --to 02-00-00-00-00-01 --times 780")
        .good()
        .out;
    assert_eq!(line.len() / 2, 65_520);
    let text = drawn(&[], &line);
    let mut boxes: Vec<&str> = text.split("<title>Start at ").skip(1).collect();
    let place = |title: &str| title.split(':').next().unwrap().parse::<usize>().unwrap();
    boxes.dedup_by_key(|title| place(title));
    assert_eq!(boxes.len(), 780, "a frame in two rows has two boxes");
    let named = text.matches(">ok</text>").count();
    assert!(named >= 780, "{named}");
    assert!(text.len() < 250_000, "{}", text.len());

    let mut random = Random(6);
    let text = drawn(&[], &noise(&mut random, 65_536));
    assert!(text.len() < 600_000, "{}", text.len());
    let text = drawn(&[], &[1, 0xFB].repeat(65_536));
    assert!(text.len() < 20_000, "{}", text.len());
}

// Without colour each sign has a pattern of its own or none, and its name.
#[test]
fn signs_are_told_apart_without_colour() {
    let text = tool(&["draw", &sample("outcomes"), "-o", "-"]).good();
    let patterns: Vec<&str> = text
        .text()
        .lines()
        .filter(|line| line.starts_with("<pattern id=\"p-o"))
        .map(|line| line.rsplit("d=\"").next().unwrap())
        .collect();
    let mut different = patterns.clone();
    different.sort_unstable();
    different.dedup();
    assert_eq!((patterns.len(), different.len()), (12, 12));
}
