//! The pcapng format: blocks and options that are written and read here (draft-ietf-opsawg-pcapng).

/// A block's type, in its first four octets.
pub mod block {
    /// Section Header Block.
    pub const SECTION: u32 = 0x0A0D_0D0A;
    /// Interface Description Block.
    pub const INTERFACE: u32 = 1;
    /// Packet Block, which is obsolete.
    pub const PACKET: u32 = 2;
    /// Simple Packet Block.
    pub const SIMPLE: u32 = 3;
    /// Enhanced Packet Block.
    pub const ENHANCED: u32 = 6;
}

/// An option's code.
pub mod option {
    /// The end of options.
    pub const END: u16 = 0;
    /// A comment on the block.
    pub const COMMENT: u16 = 1;
    /// Of an interface, its name.
    pub const NAME: u16 = 2;
    /// Of a packet, its flags.
    pub const FLAGS: u16 = 2;
    /// Of a section, what wrote it.
    pub const APPLICATION: u16 = 4;
    /// Of an interface, its speed in bits per second.
    pub const SPEED: u16 = 8;
    /// Of an interface, the power of ten that times are counted in.
    pub const RESOLUTION: u16 = 9;
    /// Of an interface, the octets of FCS that its packets end with.
    pub const FCS_LENGTH: u16 = 13;
}

/// A packet's flags.
pub mod flag {
    /// It was received.
    pub const INBOUND: u32 = 1;
    /// It went to one station.
    pub const UNICAST: u32 = 1 << 2;
    /// It went to a group.
    pub const MULTICAST: u32 = 2 << 2;
    /// It went to all.
    pub const BROADCAST: u32 = 3 << 2;
    /// Where the octets of FCS stand that it ends with, in four bits.
    pub const FCS_SHIFT: u32 = 5;
    /// Those four bits.
    pub const FCS_BITS: u32 = 0xF;
    /// The FCS is wrong.
    pub const CRC: u32 = 1 << 24;
    /// It is too long.
    pub const TOO_LONG: u32 = 1 << 25;
    /// It is too short.
    pub const TOO_SHORT: u32 = 1 << 26;
    /// The octet that ends the preamble is wrong.
    pub const DELIMITER: u32 = 1 << 29;
    /// The preamble is wrong.
    pub const PREAMBLE: u32 = 1 << 30;
    /// A symbol that does not belong there ended it.
    pub const SYMBOL: u32 = 1 << 31;
}

/// The first four octets of a section's body, in the order in which it is written.
pub const BYTE_ORDER: u32 = 0x1A2B_3C4D;

/// The link type of Ethernet.
pub const ETHERNET: u16 = 1;

/// Octets and zeros to a multiple of four.
fn padded(octets: &[u8]) -> Vec<u8> {
    let mut padded = octets.to_vec();
    padded.resize(octets.len().next_multiple_of(4), 0);
    padded
}

// An option: code, length, value.
fn written_option((code, value): &(u16, Vec<u8>)) -> Vec<u8> {
    let length = value.len() as u16;
    let mut octets = code.to_le_bytes().to_vec();
    octets.extend(length.to_le_bytes());
    octets.extend(padded(value));
    octets
}

/// A block of a body and options, low octet first.
#[must_use]
pub fn written_block(kind: u32, body: &[u8], options: &[(u16, Vec<u8>)]) -> Vec<u8> {
    let mut inner = padded(body);
    inner.extend(options.iter().flat_map(written_option));
    inner.extend([0; 4]);
    let length = inner.len() as u32 + 12;
    let mut octets = kind.to_le_bytes().to_vec();
    octets.extend(length.to_le_bytes());
    octets.extend(inner);
    octets.extend(length.to_le_bytes());
    octets
}

/// The block that begins a section.
#[must_use]
pub fn section(application: &str) -> Vec<u8> {
    let mut body = BYTE_ORDER.to_le_bytes().to_vec();
    // version 1.0, and a length that is not said
    body.extend([1, 0, 0, 0]);
    body.extend([0xFF; 8]);
    let application = application.as_bytes().to_vec();
    written_block(block::SECTION, &body, &[(option::APPLICATION, application)])
}

/// An Ethernet interface.
pub struct Interface<'a> {
    /// Its name.
    pub name: &'a str,
    /// Bits per second.
    pub speed: u64,
    /// Times are counted in this power of ten, made negative, of seconds.
    pub resolution: u8,
    /// The octets of FCS that its packets end with.
    pub fcs_length: u8,
}

impl Interface<'_> {
    /// Its block.
    #[must_use]
    pub fn block(&self) -> Vec<u8> {
        let mut body = ETHERNET.to_le_bytes().to_vec();
        // two reserved octets, and no limit on a packet's length
        body.extend([0; 6]);
        let options = [
            (option::NAME, self.name.as_bytes().to_vec()),
            (option::SPEED, self.speed.to_le_bytes().to_vec()),
            (option::RESOLUTION, vec![self.resolution]),
            (option::FCS_LENGTH, vec![self.fcs_length]),
        ];
        written_block(block::INTERFACE, &body, &options)
    }
}

/// A packet.
pub struct Packet<'a> {
    /// The number of its interface.
    pub interface: u32,
    /// Its time, in the interface's units.
    pub time: u64,
    /// Its octets.
    pub octets: &'a [u8],
    /// How many it had on the line.
    pub length: u64,
    /// Its flags.
    pub flags: u32,
    /// A comment on it.
    pub comment: &'a str,
}

impl Packet<'_> {
    /// Its block.
    #[must_use]
    pub fn block(&self) -> Vec<u8> {
        let length = u32::try_from(self.length).unwrap_or(u32::MAX);
        let numbers = [
            self.interface,
            (self.time >> 32) as u32,
            self.time as u32,
            self.octets.len() as u32,
            length,
        ];
        let mut body: Vec<u8> = numbers
            .iter()
            .flat_map(|number| number.to_le_bytes())
            .collect();
        body.extend(self.octets);
        let options = [
            (option::COMMENT, self.comment.as_bytes().to_vec()),
            (option::FLAGS, self.flags.to_le_bytes().to_vec()),
        ];
        written_block(block::ENHANCED, &body, &options)
    }
}
