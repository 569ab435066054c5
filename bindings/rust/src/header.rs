//! Holds `sys.rs`, limits and the numbers of outcomes and refusals to the header, which no compiler
//! does.
use crate::{sys, Outcome, Refusal};
use std::collections::{BTreeMap, BTreeSet};
use std::format;
use std::string::{String, ToString};
use std::vec::Vec;

const HEADER: &str = include_str!("../fenhamper.h");
const SYS: &str = include_str!("sys.rs");
const LIMITS: &str = include_str!("limits.rs");

// Records that only C has.
const RECORDS_ONLY_IN_C: [&str; 3] = ["capture", "line", "counted_line"];

// The header with its comments taken out.
fn header() -> String {
    let pieces = HEADER.split("/*").enumerate();
    let code = pieces.map(|(i, piece)| match piece.split_once("*/") {
        Some((_, after)) => after,
        None if i == 0 => piece,
        None => panic!("a comment has no end"),
    });
    code.collect()
}

// One space for any white space.
fn plain(text: &str) -> String {
    text.split_whitespace().collect::<Vec<_>>().join(" ")
}

// A number as both languages write it, or a mask.
fn value(text: &str) -> u64 {
    let text = text.trim().replace("UINT64_C(1)", "1");
    let text = text.trim_start_matches('(').trim_end_matches(')');
    match text.strip_prefix("1 << ") {
        Some(bit) => 1 << bit.parse::<u32>().unwrap(),
        None => text.parse().unwrap(),
    }
}

// Every #define of a number and every enum's name of the header, without its FENHAMPER_.
fn header_numbers() -> BTreeMap<String, u64> {
    let code = header();
    let defines = code.lines().filter_map(|line| {
        let (name, value) = line.strip_prefix("#define ")?.split_once(' ')?;
        let number = value
            .trim()
            .starts_with(|c: char| c.is_ascii_digit() || c == '(');
        (number && !name.contains('(')).then(|| (name.to_string(), value.to_string()))
    });
    let enums = code.split("typedef enum ").skip(1).flat_map(|piece| {
        let (_, body) = piece.split_once('{').unwrap();
        let body = body.split('}').next().unwrap();
        let named = body.split(',').map(|item| item.split_once('=').unwrap());
        named
            .map(|(name, value)| (plain(name), value.to_string()))
            .collect::<Vec<_>>()
    });
    let all = defines.chain(enums);
    all.map(|(name, number)| {
        (
            name.strip_prefix("FENHAMPER_").unwrap().to_string(),
            value(&number),
        )
    })
    .collect()
}

// BadPreamble as BAD_PREAMBLE.
fn in_capitals(name: &str) -> String {
    let mut capitals = String::new();
    for c in name.chars() {
        if c.is_uppercase() && !capitals.is_empty() {
            capitals.push('_');
        }
        capitals.extend(c.to_uppercase());
    }
    capitals
}

// All refusals, in the order of their numbers.
fn refusals() -> impl Iterator<Item = Refusal> {
    (1..=u64::from(u8::MAX))
        .map(|number| Refusal::check(number).unwrap_err())
        .filter(|refusal| !matches!(refusal, Refusal::Unknown(_)))
}

#[test]
fn numbers_are_the_headers() {
    let mut ours = BTreeMap::new();
    for line in SYS.lines().chain(LIMITS.lines()) {
        if let Some((name, rest)) = line
            .strip_prefix("pub const ")
            .and_then(|rest| rest.split_once(':'))
        {
            let number = rest.split_once('=').unwrap().1.trim().trim_end_matches(';');
            // a limit that `sys.rs` has too goes by the same name there
            if number != format!("sys::{name}") {
                ours.insert(name.to_string(), value(number));
            }
        }
    }
    for outcome in Outcome::ALL {
        ours.insert(
            in_capitals(&format!("{outcome:?}")),
            u64::from(outcome.number()),
        );
    }
    for number in 1..=u8::MAX {
        let refusal = Refusal::check(number.into()).unwrap_err();
        assert_eq!(refusal.number(), number);
    }
    for refusal in refusals() {
        let number = u64::from(refusal.number());
        ours.insert(in_capitals(&format!("{refusal:?}")), number);
    }
    ours.insert("LAYOUT".to_string(), sys::layout().into());
    assert_eq!(ours, header_numbers());
}

// The names that the header gives to outcomes and refusals are this face's.
#[test]
fn names_are_the_headers() {
    let code = header();
    let cases = code.split("case FENHAMPER_").skip(1).map(|piece| {
        let (name, rest) = piece.split_once(':').unwrap();
        let said = rest.split('"').nth(1).unwrap();
        (name.to_string(), said.to_string())
    });
    let outcomes = Outcome::ALL.map(|o| (format!("{o:?}"), o.name()));
    let refusals = refusals().map(|r| (format!("{r:?}"), r.name()));
    let ours = outcomes.into_iter().chain(refusals);
    assert_eq!(
        ours.map(|(name, said)| (in_capitals(&name), said.to_string()))
            .collect::<BTreeMap<_, _>>(),
        cases.collect::<BTreeMap<_, _>>()
    );
}

// A Rust number's or record's name in C.
fn kind_in_c(rust: &str) -> String {
    match rust {
        "u8" => "uint8_t".to_string(),
        "u16" => "uint16_t".to_string(),
        "u32" => "uint32_t".to_string(),
        "u64" => "uint64_t".to_string(),
        "usize" => "size_t".to_string(),
        record => format!("fenhamper_{}", record.to_lowercase()),
    }
}

// A name of this kind, as the header declares it.
fn declared_in_c(name: &str, kind: &str) -> String {
    let Some(array) = kind.strip_prefix('[') else {
        return format!("{} {name}", kind_in_c(kind));
    };
    let (element, length) = array.trim_end_matches(']').split_once("; ").unwrap();
    let length = match length.parse::<u64>() {
        Ok(n) => n.to_string(),
        Err(_) => format!("FENHAMPER_{length}"),
    };
    format!("{} {name}[{length}]", kind_in_c(element))
}

// A Rust parameter as the header writes it.
fn parameter_in_c(rust: &str) -> String {
    let (name, kind) = rust.split_once(": ").unwrap();
    let pointer = |constant: &str, kind: &str| {
        if kind.starts_with('[') {
            format!("{constant}{}", declared_in_c(name, kind))
        } else {
            format!("{constant}{} *{name}", kind_in_c(kind))
        }
    };
    let ways = [
        ("&mut ", ""),
        ("&", "const "),
        ("*mut ", ""),
        ("*const ", "const "),
    ];
    for (way, constant) in ways {
        if let Some(kind) = kind.strip_prefix(way) {
            return pointer(constant, kind);
        }
    }
    declared_in_c(name, kind)
}

// Each record's members, in order.
#[test]
fn records_are_the_headers() {
    let ours = SYS.split("pub struct ").skip(1).map(|piece| {
        let (name, rest) = piece.split_once(" {").unwrap();
        let (body, _) = rest.split_once("\n}").unwrap();
        let members = body.lines().filter_map(|line| {
            let member = line.trim().strip_prefix("pub ")?.replace("r#", "");
            let (name, kind) = member.trim_end_matches(',').split_once(": ").unwrap();
            Some(declared_in_c(name, kind))
        });
        (name.to_lowercase(), members.collect::<Vec<_>>())
    });
    let code = header();
    let theirs = code
        .split("typedef struct fenhamper_")
        .skip(1)
        .map(|piece| {
            let (name, rest) = piece.split_once(" {").unwrap();
            let (body, rest) = rest.split_once('}').unwrap();
            assert_eq!(
                rest.split(';').next(),
                Some(format!(" fenhamper_{name}").as_str())
            );
            let members = body
                .split(';')
                .map(plain)
                .filter(|member| !member.is_empty());
            (name.to_string(), members.collect::<Vec<_>>())
        });
    let mut theirs: BTreeMap<_, _> = theirs.collect();
    for name in RECORDS_ONLY_IN_C {
        assert!(theirs.remove(name).is_some(), "{name}");
    }
    assert_eq!(ours.collect::<BTreeMap<_, _>>(), theirs);
}

#[test]
fn declarations_are_the_headers() {
    let (_, block) = SYS.split_once("extern \"C\" {").unwrap();
    let (block, _) = block.split_once("\n}").unwrap();
    let ours = block.split("fn ").skip(1).map(|declaration| {
        let (name, rest) = declaration.split_once('(').unwrap();
        let (parameters, answer) = rest.rsplit_once(')').unwrap();
        let answer = answer.trim().trim_end_matches(';').strip_prefix("-> ");
        let answer = answer.map_or("void".to_string(), kind_in_c);
        let parameters = parameters.split(',').map(plain).filter(|p| !p.is_empty());
        let parameters = parameters.map(|p| parameter_in_c(&p)).collect::<Vec<_>>();
        let parameters = match parameters.len() {
            0 => "void".to_string(),
            _ => parameters.join(", "),
        };
        format!("{answer} {name}({parameters})")
    });
    // a line that begins with an answer's kind begins a declaration
    let code = header();
    let starts = ["void ", "uint32_t "];
    let at = |line: &str| starts.iter().any(|start| line.starts_with(start));
    let mut lines = code.lines().skip_while(|line| !at(line)).peekable();
    let mut theirs = BTreeSet::new();
    while let Some(line) = lines.next() {
        if !at(line) {
            continue;
        }
        let mut whole = line.to_string();
        while !whole.contains(';') {
            whole += lines.next().unwrap();
        }
        theirs.insert(plain(whole.split(';').next().unwrap()));
    }
    assert_eq!(ours.collect::<BTreeSet<_>>(), theirs);
}
