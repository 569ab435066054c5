//! What a file that is no capture looks like, by its first octets.

/// As many octets as are looked at.
pub const LOOKED_AT: usize = 512;

/// A text is told by this many octets or more.
const LEAST_TEXT: usize = 16;

// First octets, what they are of, and what to do.
const KINDS: &[(&[u8], &str, &str)] = &[
    (&[0x1F, 0x8B, 0x08], "gzip", UNPACK),
    (&[0x1F, 0x9D], "compress (.Z)", UNPACK),
    (&[0x28, 0xB5, 0x2F, 0xFD], "Zstandard", UNPACK),
    (&[0xFD, 0x37, 0x7A, 0x58, 0x5A, 0x00], "xz", UNPACK),
    (b"BZh", "bzip2", UNPACK),
    (&[0x04, 0x22, 0x4D, 0x18], "LZ4", UNPACK),
    (b"7z\xBC\xAF\x27\x1C", "7-Zip", UNPACK),
    (b"PK\x03\x04", "ZIP", UNPACK),
    (b"Rar!", "RAR", UNPACK),
    (&[0x0A, 0x0D, 0x0D, 0x0A], "pcapng", CONVERT),
    (&[0xD4, 0xC3, 0xB2, 0xA1], "pcap", CONVERT),
    (&[0xA1, 0xB2, 0xC3, 0xD4], "pcap", CONVERT),
    (&[0x4D, 0x3C, 0xB2, 0xA1], "pcap", CONVERT),
    (&[0xA1, 0xB2, 0x3C, 0x4D], "pcap", CONVERT),
    (&[0x34, 0xCD, 0xB2, 0xA1], "modified pcap", SAVE),
    (&[0xA1, 0xB2, 0xCD, 0x34], "modified pcap", SAVE),
    (b"snoop\0\0\0", "snoop", SAVE),
    (b"GMBU", "Network Monitor", SAVE),
    (b"RTSS", "Network Monitor", SAVE),
    (b"\x89PNG", "a PNG picture", OTHER),
    (&[0xFF, 0xD8, 0xFF], "a JPEG picture", OTHER),
    (b"%PDF", "PDF", OTHER),
    (b"\x7FELF", "a program (ELF)", OTHER),
    (b"<svg", "an SVG picture", OTHER),
    (b"<?xml", "XML", OTHER),
];

const UNPACK: &str = "unpack it first";
const CONVERT: &str = "fenhamper from-pcap makes a capture of it";
const SAVE: &str = "Wireshark saves it as pcapng, and fenhamper from-pcap makes a capture of that";
/// There is nothing to do but to name another file.
const OTHER: &str = "";

/// What these first octets look like and what to do, `advice` if that is not known; nothing where
/// they may be a capture.
#[must_use]
pub fn other_format(head: &[u8], advice: &str) -> Option<String> {
    let known = KINDS.iter().find(|(first, ..)| head.starts_with(first));
    let (name, known) = match known {
        Some((_, name, known)) => (*name, *known),
        None if is_text(head) => ("text", OTHER),
        None => return None,
    };
    let advice = if known == OTHER { advice } else { known };
    Some(format!("it looks like {name}: {advice}"))
}

// No Start is in a text: as a capture it would have nothing to tell.
fn is_text(head: &[u8]) -> bool {
    let head = &head[..head.len().min(LOOKED_AT)];
    // its last letter may go on behind what is looked at
    let text = match std::str::from_utf8(head) {
        Err(error) if error.error_len().is_some() => return false,
        Err(error) => std::str::from_utf8(&head[..error.valid_up_to()]).unwrap_or_default(),
        Ok(text) => text,
    };
    let written = |letter: char| matches!(letter, '\t' | '\n' | '\r') || !letter.is_control();
    head.len() >= LEAST_TEXT && text.chars().all(written)
}

#[cfg(test)]
mod tests {
    use super::*;

    #[test]
    fn formats_are_named() {
        let said = |head: &[u8]| other_format(head, "no").unwrap();
        assert_eq!(
            said(b"\x1F\x8B\x08\x00"),
            "it looks like gzip: unpack it first"
        );
        assert!(said(b"\x0A\x0D\x0D\x0A").contains("pcapng: fenhamper from-pcap"));
        assert!(said(b"snoop\0\0\0\0\0\0\x02").contains("snoop: Wireshark saves it"));
        assert_eq!(said(b"0 1 0 0\n2 2 0 0\nstarts"), "it looks like text: no");
        // cut inside a letter of two octets
        let mut long = "ä".repeat(LOOKED_AT);
        long.insert(0, '\n');
        assert_eq!(said(long.as_bytes()), "it looks like text: no");
    }

    #[test]
    fn captures_are_let_through() {
        let idle = [1, 7].repeat(64);
        let noise = b"no text: \xFB is in none of them";
        for head in [&b""[..], b"\x01\xFB\x00\x55", b"short text", &idle, noise] {
            assert_eq!(other_format(head, ""), None);
        }
    }
}
