//! Every name of the Rust face against the documents' names and the header's.
use differential::names::{OUTCOMES, REFUSALS};
use fenhamper::{Outcome, Refusal};

const HEADER: &str = include_str!("../../../include/fenhamper.h");

/// In the order of their numbers.
const ALL_REFUSALS: [Refusal; 22] = [
    Refusal::BadSettings,
    Refusal::BadBuffers,
    Refusal::BadPlace,
    Refusal::OtherFlow,
    Refusal::BadClass,
    Refusal::BadType,
    Refusal::LongData,
    Refusal::NoRoom,
    Refusal::Held,
    Refusal::ManyTags,
    Refusal::BadLog,
    Refusal::LogFull,
    Refusal::NotUsed,
    Refusal::BadJob,
    Refusal::HoldsTwelve,
    Refusal::AllInUse,
    Refusal::AlreadyListed,
    Refusal::NotListed,
    Refusal::HighDeficit,
    Refusal::BadTable,
    Refusal::WrongTotals,
    Refusal::HighTotal,
];

/// Whether the header gives this name this number, and says it in these words.
fn header_has(name: &str, number: u8) {
    let constant = format!("FENHAMPER_{}", name.to_uppercase().replace(' ', "_"));
    let words: Vec<_> = HEADER.split_whitespace().collect();
    let number = number.to_string();
    let given = words
        .windows(3)
        .any(|w| w[0] == constant && w[1] == "=" && w[2].trim_end_matches(',') == number);
    assert!(given, "the header has no {constant} = {number}");
    assert!(
        HEADER.contains(&format!("\"{name}\"")),
        "the header does not say {name:?}"
    );
}

#[test]
fn outcomes() {
    for (number, name) in (1..).zip(OUTCOMES) {
        let outcome = Outcome::from_number(number).expect("there are eleven");
        assert_eq!((outcome.number(), outcome.name()), (number, name));
        assert_eq!(outcome.to_string(), name);
        header_has(name, number);
    }
    assert_eq!(Outcome::ALL.map(Outcome::name), OUTCOMES);
    for number in [0, 12, 255] {
        assert_eq!(Outcome::from_number(number), None);
    }
}

#[test]
fn refusals() {
    for ((number, name), refusal) in REFUSALS.into_iter().zip(ALL_REFUSALS) {
        assert_eq!((refusal.number(), refusal.name()), (number, name));
        let shown = refusal.to_string();
        assert!(
            shown.starts_with(&format!("refusal {number}, {name}")),
            "{shown}"
        );
        header_has(name, number);
    }
}
