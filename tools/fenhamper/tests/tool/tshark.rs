//! Where tshark is installed: what Wireshark makes of the exported samples.
use crate::common::{sample, skipped, tool, typed, Folder, SAMPLES};
use crate::json::Json;
use std::process::Command;

/// What is asked of each packet.
const FIELDS: [&str; 22] = [
    "frame.len",
    "frame.time_relative",
    "frame.comment",
    "frame.packet_flags_symbol_error",
    "frame.packet_flags_preamble_error",
    "frame.packet_flags_packet_too_short_error",
    "frame.packet_flags_packet_too_error",
    "frame.packet_flags_crc_error",
    "eth.src",
    "eth.dst",
    "eth.fcs.status",
    "eth.type",
    "eth.len",
    "vlan.id",
    "vlan.priority",
    "vlan.dei",
    "vlan.etype",
    "vlan.len",
    "ieee8021ad.id",
    "ieee8021ad.priority",
    "ieee8021ad.dei",
    "ieee8021ah.etype",
];
/// The flags of outcomes 1 to 5.
const ERRORS: &[&str] = FIELDS.split_at(3).1.split_at(5).0;

/// The kinds of tags by their types, each with its fields: VLAN, priority, whether it may be dropped
/// first, and the type or the length behind it.
const KINDS: [(u64, [&str; 5]); 2] = [
    (
        0x8100,
        [
            "vlan.id",
            "vlan.priority",
            "vlan.dei",
            "vlan.etype",
            "vlan.len",
        ],
    ),
    (
        0x88A8,
        [
            "ieee8021ad.id",
            "ieee8021ad.priority",
            "ieee8021ad.dei",
            "ieee8021ah.etype",
            "ieee8021ah.etype",
        ],
    ),
];

// What is said of a packet, in the order of the fields.
struct Row(Vec<String>);

impl Row {
    fn text(&self, field: &str) -> &str {
        let at = FIELDS.iter().position(|known| *known == field).unwrap();
        self.0.get(at).map_or("", String::as_str)
    }

    // All numbers of a field, which has commas between them.
    fn numbers(&self, field: &str) -> Vec<u64> {
        let number = |text: &str| match text.strip_prefix("0x") {
            Some(digits) => u64::from_str_radix(digits, 16).ok(),
            None if text == "True" => Some(1),
            None if text == "False" => Some(0),
            None => text.parse().ok(),
        };
        self.text(field).split(',').filter_map(number).collect()
    }

    // Whether an FCS is right, if there is one.
    fn fcs(&self) -> Option<bool> {
        match self.text("eth.fcs.status") {
            "0" | "Bad" => Some(false),
            "1" | "Good" => Some(true),
            "" => None,
            other => panic!("an FCS is {other}"),
        }
    }

    // Nanoseconds since the first packet.
    fn time(&self) -> u64 {
        let (seconds, rest) = self.text("frame.time_relative").split_once('.').unwrap();
        seconds.parse::<u64>().unwrap() * 1_000_000_000 + rest.parse::<u64>().unwrap()
    }

    // The first so many tags as type, VLAN, priority and whether they may be dropped, and the type or
    // length behind them. Tags are dissected one inside the other, and a kind's fields told together.
    fn tags(&self, most: usize) -> (Vec<[u64; 4]>, Option<u64>) {
        let mut field = self.behind("eth.type", "eth.len", 0);
        let (mut tags, mut seen) = (Vec::new(), [0; KINDS.len()]);
        while tags.len() < most {
            let kind = KINDS.iter().position(|(number, _)| Some(*number) == field);
            let Some(kind) = kind else {
                break;
            };
            let (number, [id, priority, dei, types, length]) = KINDS[kind];
            let at = seen[kind];
            seen[kind] += 1;
            let [id, priority, dei] = [id, priority, dei].map(|field| self.numbers(field)[at]);
            tags.push([number, id, priority, dei]);
            field = self.behind(types, length, at);
        }
        (tags, field)
    }

    // The type of this number, or else the one length.
    fn behind(&self, types: &str, length: &str, at: usize) -> Option<u64> {
        let types = self.numbers(types);
        types.get(at).or(self.numbers(length).first()).copied()
    }
}

// What tshark says of each packet of a file.
fn dissected(file: &str) -> Vec<Row> {
    let mut tshark = Command::new("tshark");
    tshark.args(["-n", "-r", file, "-o", "eth.check_fcs:TRUE", "-T", "fields"]);
    for field in FIELDS {
        tshark.args(["-e", field]);
    }
    let output = tshark.output().unwrap();
    let said = String::from_utf8_lossy(&output.stderr);
    assert!(output.status.success(), "{file}: {said}");
    let text = String::from_utf8_lossy(&output.stdout).into_owned();
    let row = |line: &str| Row(line.split('\t').map(str::to_owned).collect());
    text.lines().map(row).collect()
}

// Length, comment, errors, addresses, FCS verdict, tags and type.
fn compare(row: &Row, reading: &Json) {
    let number = |name: &str| reading.get(name).number();
    let outcome = number("outcome");
    assert_eq!(row.numbers("frame.len"), [number("frame")]);
    let why = reading.get("why").text();
    let comment = format!("Start at {}: {why}", number("place"));
    assert_eq!(row.text("frame.comment"), comment);
    for (flag, of) in ERRORS.iter().zip(1..) {
        assert_eq!(row.numbers(flag), [u64::from(outcome == of)], "{flag}");
    }
    // a cut frame has no FCS, and of a frame that is too short for a header nothing is dissected
    let verdict = match outcome {
        1 => None,
        2..=4 => row.fcs(),
        _ => Some(outcome != 5),
    };
    assert_eq!(row.fcs(), verdict);
    if reading.get("field") == &Json::Null {
        return;
    }
    for (theirs, ours) in [("eth.src", "source"), ("eth.dst", "destination")] {
        let ours = reading.get(ours).text().replace('-', ":").to_lowercase();
        assert_eq!(row.text(theirs), ours);
    }
    let tag = |tag: &Json| {
        let service = tag.get("kind").text() == "service";
        let drop = tag.get("drop_eligible") == &Json::Bool(true);
        let [vlan, priority] = ["vlan", "priority"].map(|name| tag.get(name).number());
        [KINDS[usize::from(service)].0, vlan, priority, drop.into()]
    };
    let ours: Vec<[u64; 4]> = reading.get("tags").list().iter().map(tag).collect();
    let theirs = row.tags(ours.len());
    assert_eq!(theirs, (ours, Some(number("field"))));
}

#[test]
fn wireshark_agrees() {
    if Command::new("tshark").arg("--version").output().is_err() {
        skipped("what Wireshark makes of the samples, since tshark is not installed");
        return;
    }
    let folder = Folder::new();
    let tagged = folder.name("tagged.capture");
    let send =
        "send client --to 02-00-00-00-00-01 --type 0x88B5 --tag s4094/7d --tag c1/3 --tag c0/5d \
                client --to 02-00-00-00-00-01 --tag c4095/6 --text four -o";
    typed(&format!("{send} {tagged}")).good();
    for file in SAMPLES.map(sample).into_iter().chain([tagged]) {
        let out = folder.name("out.pcapng");
        tool(&["pcap", &file, "-o", &out]).good();
        let said = tool(&["list", "--json", &file]).good();
        let document = Json::parse(said.text()).unwrap();
        let readings = document.get("files").list()[0].get("readings").list();
        let rows = dissected(&out);
        assert_eq!(rows.len(), readings.len(), "{file}");
        for (row, reading) in rows.iter().zip(readings) {
            println!("{file}: {:?}", row.0);
            compare(row, reading);
            let since = reading.get("place").number() - readings[0].get("place").number();
            assert_eq!(row.time(), 8 * since);
        }
    }
}
