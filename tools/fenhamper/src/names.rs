//! Names in place of numbers.
use fenhamper::limits::{self, OUTCOMES};
use fenhamper::{Address, Outcome, Tag, TagKind, Way};

/// Types that a crew meets.
const TYPES: &[(u16, &str)] = &[
    (0x0800, "IPv4"),
    (0x0806, "ARP"),
    (0x22F0, "AVTP"),
    (0x8100, "tag"),
    (0x86DD, "IPv6"),
    (0x8808, "MAC control"),
    (0x8809, "slow protocols"),
    (0x8847, "MPLS"),
    (0x8863, "PPPoE discovery"),
    (0x8864, "PPPoE session"),
    (0x888E, "802.1X"),
    (0x88A8, "service tag"),
    (0x88CC, "LLDP"),
    (0x88E5, "MACsec"),
    (0x88F7, "PTP"),
    (0x9100, "old service tag"),
];

/// The name of a type, if it has one here.
#[must_use]
pub fn type_name(field: u16) -> Option<&'static str> {
    let known = TYPES.iter().find(|(number, _)| *number == field);
    known.map(|(_, name)| *name)
}

/// What the field behind the last tag says: a type with its name, or a length.
#[must_use]
pub fn field_text(field: u16) -> String {
    match type_name(field) {
        _ if field < limits::LEAST_TYPE => format!("length {field}"),
        Some(name) => format!("type 0x{field:04X} ({name})"),
        None => format!("type 0x{field:04X}"),
    }
}

/// So many octets, in words.
#[must_use]
pub fn octets(number: u64) -> String {
    match number {
        0 => "no octets".to_owned(),
        1 => "1 octet".to_owned(),
        _ => format!("{number} octets"),
    }
}

/// The VLAN of a tag.
#[must_use]
pub fn vlan(tag: Tag) -> u16 {
    tag.control & 0x0FFF
}

/// The priority of a tag.
#[must_use]
pub fn priority(tag: Tag) -> u16 {
    tag.control >> 13
}

/// Whether a tag says that the frame may be dropped first.
#[must_use]
pub fn drop_eligible(tag: Tag) -> bool {
    tag.control & 0x1000 != 0
}

/// The kind of a tag.
#[must_use]
pub fn kind_name(kind: TagKind) -> &'static str {
    match kind {
        TagKind::Customer => "customer",
        TagKind::Service => "service",
    }
}

fn kind_letter(kind: TagKind) -> char {
    match kind {
        TagKind::Customer => 'c',
        TagKind::Service => 's',
    }
}

/// A tag by the letter of its kind and its VLAN: c5.
#[must_use]
pub fn short_tag(tag: Tag) -> String {
    format!("{}{}", kind_letter(tag.kind), vlan(tag))
}

/// A tag whole, as `send --tag` takes it: c5, with priority c5/1, drop eligible c5/1d.
#[must_use]
pub fn whole_tag(tag: Tag) -> String {
    let mut text = short_tag(tag);
    if tag.control >> 12 != 0 {
        text += &format!("/{}", priority(tag));
    }
    if drop_eligible(tag) {
        text.push('d');
    }
    text
}

/// The tag of such a text.
#[must_use]
pub fn parse_tag(text: &str) -> Option<Tag> {
    let kind = match text.chars().next()? {
        'c' => TagKind::Customer,
        's' => TagKind::Service,
        _ => return None,
    };
    let (vlan, more) = text[1..].split_once('/').unwrap_or((&text[1..], "0"));
    let (priority, drop) = match more.strip_suffix('d') {
        Some(priority) => (priority, 0x1000),
        None => (more, 0),
    };
    let vlan: u16 = vlan.parse().ok().filter(|&vlan| vlan < 0x1000)?;
    let priority: u16 = priority.parse().ok().filter(|&priority| priority < 8)?;
    Some(Tag {
        kind,
        control: priority << 13 | drop | vlan,
    })
}

/// Which address let a frame in, in a column's width.
#[must_use]
pub fn short_way(way: Way) -> String {
    match way {
        Way::Reserved => "reserved".to_owned(),
        Way::Entry(entry) => format!("entry {entry}"),
        other => other.to_string(),
    }
}

/// The name of a control frame's opcode, if it has one.
#[must_use]
pub fn opcode_name(opcode: u16) -> Option<&'static str> {
    match opcode {
        0x0001 => Some("pause"),
        0x0101 => Some("PFC"),
        _ => None,
    }
}

/// A control symbol's name.
#[must_use]
pub fn control_name(octet: u8) -> Option<&'static str> {
    match octet {
        0x07 => Some("Idle"),
        0xFB => Some("Start"),
        0xFD => Some("Terminate"),
        0xFE => Some("Error"),
        _ => None,
    }
}

/// A control symbol's name, or its octet.
#[must_use]
pub fn control_text(octet: u8) -> String {
    control_name(octet).map_or_else(|| format!("0x{octet:02X}"), str::to_owned)
}

/// Why a destination is not ours, by what it is.
#[must_use]
pub fn not_ours(destination: Address) -> &'static str {
    if destination == Address::BROADCAST {
        "broadcast is off"
    } else if destination.is_group() {
        "group not listed"
    } else {
        "another station"
    }
}

/// Whether frames of this outcome are thrown away: neither handed out nor taken.
#[must_use]
pub fn thrown_away(outcome: Outcome) -> bool {
    !matches!(
        outcome,
        Outcome::PauseTaken | Outcome::PfcTaken | Outcome::HandedOut
    )
}

/// How many of these counts were handed out, how many taken and how many thrown away.
#[must_use]
pub fn summed(counters: &[u64; OUTCOMES]) -> (u64, u64, u64) {
    let (mut handed, mut taken, mut thrown) = (0, 0, 0);
    for (outcome, count) in Outcome::ALL.into_iter().zip(counters) {
        match outcome {
            Outcome::HandedOut => handed += count,
            _ if thrown_away(outcome) => thrown += count,
            _ => taken += count,
        }
    }
    (handed, taken, thrown)
}

/// The outcome of a text: its name, with any of space, '-' and '_' between words, or its number.
#[must_use]
pub fn parse_outcome(text: &str) -> Option<Outcome> {
    let plain = |name: &str| name.to_lowercase().replace(['-', '_'], " ");
    let by_name = Outcome::ALL
        .into_iter()
        .find(|outcome| plain(outcome.name()) == plain(text));
    by_name.or_else(|| Outcome::from_number(text.parse().ok()?))
}

#[cfg(test)]
mod tests {
    use super::*;

    #[test]
    fn tags_are_written_and_read_back() {
        for control in 0..=u16::MAX {
            for tag in [Tag::customer(control), Tag::service(control)] {
                assert_eq!(parse_tag(&whole_tag(tag)), Some(tag));
            }
        }
        let wrong = [
            "", "c", "x5", "c4096", "c5/8", "c5/", "c-1", "c5/1x", "ü5", "c5d",
        ];
        assert_eq!(wrong.map(parse_tag), [None; 10]);
    }

    #[test]
    fn outcomes_go_by_name_or_number() {
        for outcome in Outcome::ALL {
            let name = outcome.name();
            let texts = [
                name.to_owned(),
                name.to_uppercase(),
                name.replace(' ', "-"),
                outcome.number().to_string(),
            ];
            for text in texts {
                assert_eq!(parse_outcome(&text), Some(outcome), "{text}");
            }
        }
        assert_eq!(
            ["", "0", "12", "open", "wrong"].map(parse_outcome),
            [None; 5]
        );
    }

    #[test]
    fn eight_outcomes_are_thrown_away() {
        let thrown = Outcome::ALL
            .into_iter()
            .filter(|&outcome| thrown_away(outcome));
        assert!(thrown.map(Outcome::number).eq([1, 2, 3, 4, 5, 6, 7, 10]));
    }
}
