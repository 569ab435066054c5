//! "The line": symbols, and where things are in a capture.

/// Most symbols that the two buffers may hold.
pub(crate) const MAX_SYMBOLS: usize = 65_536;

/// The mark written for data.
pub(crate) const DATA: u8 = 0;
/// The mark written for control; in a capture any mark but 0 means control.
pub(crate) const CONTROL: u8 = 1;

pub(crate) const IDLE: u8 = 0x07;
pub(crate) const START: u8 = 0xFB;
pub(crate) const TERMINATE: u8 = 0xFD;

/// The seven data octets between Start and frame.
pub(crate) const PREAMBLE: [u8; 7] = [0x55, 0x55, 0x55, 0x55, 0x55, 0x55, 0xD5];

/// Octets of the FCS.
pub(crate) const FCS_LEN: usize = 4;

/// Data shorter than this is padded.
pub(crate) const MIN_DATA: usize = 46;

/// Fields that say that a tag follows; each is the first half of its tag.
pub(crate) const CUSTOMER_TAG: u16 = 0x8100;
pub(crate) const SERVICE_TAG: u16 = 0x88A8;
/// Octets of a tag: its kind and its tag control.
pub(crate) const TAG_LEN: usize = 4;
/// Most tags that a frame has; a ninth is an ordinary type.
pub(crate) const MAX_TAGS: usize = 8;
/// Field of a control frame.
pub(crate) const CONTROL_FIELD: u16 = 0x8808;
/// Opcode of a pause frame.
pub(crate) const PAUSE_OPCODE: u16 = 0x0001;
/// Opcode of a PFC frame.
pub(crate) const PFC_OPCODE: u16 = 0x0101;
/// Smallest field that is a type.
pub(crate) const FIRST_TYPE: u16 = 1536;
/// Largest field that is a length.
pub(crate) const LAST_LENGTH: u16 = 1500;

/// Destination of control frames.
pub(crate) const RESERVED_GROUP: [u8; 6] = [0x01, 0x80, 0xC2, 0x00, 0x00, 0x01];
pub(crate) const BROADCAST: [u8; 6] = [0xFF; 6];

/// Does this field say that a tag follows?
pub(crate) fn is_tag(field: u16) -> bool {
    field == CUSTOMER_TAG || field == SERVICE_TAG
}

/// Is the group bit (lowest bit of the first octet) set?
pub(crate) fn is_group(address: &[u8; 6]) -> bool {
    address[0] & 1 == 1
}

/// Only a control symbol starts a frame: 0xFB as data is none.
pub(crate) fn is_start(octet: u8, mark: u8) -> bool {
    mark != DATA && octet == START
}

/// Place of the first Start at `place` or later.
pub(crate) fn find_start(octets: &[u8], marks: &[u8], place: usize) -> Option<usize> {
    let mut symbols = octets.get(place..)?.iter().zip(marks.get(place..)?);
    let ahead = symbols.position(|(&octet, &mark)| is_start(octet, mark))?;
    Some(place + ahead)
}

/// Place of the first control symbol at `place` or later.
pub(crate) fn find_control(marks: &[u8], place: usize) -> Option<usize> {
    let ahead = marks.get(place..)?.iter().position(|&mark| mark != DATA)?;
    Some(place + ahead)
}
