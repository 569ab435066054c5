//! Packets of pcap and pcapng files.
use crate::failure::Failure;
use crate::look::other_format;
use crate::pcapng::{block, flag, option, BYTE_ORDER, ETHERNET};
use crate::progress::Progress;
use crate::source::{fill, Source};
use std::io::BufReader;

/// No packet and no block is longer: what says so is no capture.
const LONGEST: usize = 16 << 20;

/// What is said of what needs no making.
const CAPTURE: &str = "it looks like a capture already";

/// A packet.
#[derive(Debug, PartialEq, Eq)]
pub struct Packet {
    /// Its octets, as far as they were kept.
    pub octets: Vec<u8>,
    /// How many it had.
    pub length: u64,
    /// Whether it ends with its FCS, where the file says so.
    pub fcs: Option<bool>,
    /// Its flags, as pcapng has them.
    pub flags: u32,
}

// Order of octets in numbers.
#[derive(Clone, Copy)]
enum Order {
    LowFirst,
    HighFirst,
}

impl Order {
    fn u16(self, octets: &[u8]) -> u16 {
        let octets = octets[..2].try_into().expect("two octets");
        match self {
            Order::LowFirst => u16::from_le_bytes(octets),
            Order::HighFirst => u16::from_be_bytes(octets),
        }
    }

    fn u32(self, octets: &[u8]) -> u32 {
        let octets = octets[..4].try_into().expect("four octets");
        match self {
            Order::LowFirst => u32::from_le_bytes(octets),
            Order::HighFirst => u32::from_be_bytes(octets),
        }
    }
}

// An interface of a section.
struct Interface {
    link: u16,
    fcs: Option<bool>,
    snap: u32,
}

enum Kind {
    // by whether the header says that there is an FCS
    Pcap(Option<bool>),
    Pcapng(Vec<Interface>),
}

/// The packets of a file, one after the other.
pub struct Packets<'a> {
    name: String,
    source: BufReader<Source<'a>>,
    kind: Kind,
    order: Order,
    // octets that were read, and all of them where that is known
    at: u64,
    all: Option<u64>,
}

impl<'a> Packets<'a> {
    /// Begins to read a pcap or a pcapng file.
    pub fn new(source: Source<'a>) -> Result<Packets<'a>, Failure> {
        let mut packets = Packets {
            name: source.name().to_owned(),
            all: source.octets(),
            source: BufReader::new(source),
            kind: Kind::Pcapng(Vec::new()),
            order: Order::LowFirst,
            at: 0,
        };
        let first = packets.exactly::<4>()?;
        let Some(first) = first else {
            return Err(packets.wrong("is empty: neither pcap nor pcapng".to_owned()));
        };
        match u32::from_le_bytes(first) {
            block::SECTION => packets.section()?,
            0xA1B2_C3D4 | 0xA1B2_3C4D => packets.pcap_header(Order::LowFirst)?,
            0xD4C3_B2A1 | 0x4D3C_B2A1 => packets.pcap_header(Order::HighFirst)?,
            _ => return Err(packets.neither(first)),
        }
        Ok(packets)
    }

    /// Says how far it is, if that takes long.
    pub fn tell(&self, progress: &mut Progress<'_>) {
        progress.tell(&self.name, self.at, self.all, "octets");
    }

    // The header of pcap behind its first number.
    fn pcap_header(&mut self, order: Order) -> Result<(), Failure> {
        self.order = order;
        let header = self.whole::<20>()?;
        // above the link type stands a length of FCS in units of two octets, if a bit says so
        let link = order.u32(&header[16..]);
        self.ethernet((link & 0xFFFF) as u16)?;
        let said = link & (1 << 26) != 0;
        self.kind = Kind::Pcap(said.then_some(link >> 28 != 0));
        Ok(())
    }

    // The rest of a section's header: the order of its octets, and no interface so far.
    fn section(&mut self) -> Result<(), Failure> {
        let head = self.whole::<8>()?;
        self.order = match u32::from_le_bytes([head[4], head[5], head[6], head[7]]) {
            BYTE_ORDER => Order::LowFirst,
            order if order == BYTE_ORDER.swap_bytes() => Order::HighFirst,
            _ => return Err(self.wrong("is no pcapng: its section has no order".to_owned())),
        };
        let length = self.order.u32(&head) as usize;
        self.kind = Kind::Pcapng(Vec::new());
        // type, length and order are read
        self.octets(self.checked(length, 28)? - 12).map(|_| ())
    }

    /// The next packet; nothing at the end.
    pub fn next_packet(&mut self) -> Result<Option<Packet>, Failure> {
        match self.kind {
            Kind::Pcap(fcs) => self.next_pcap(fcs),
            Kind::Pcapng(_) => self.next_pcapng(),
        }
    }

    fn next_pcap(&mut self, fcs: Option<bool>) -> Result<Option<Packet>, Failure> {
        let Some(header) = self.exactly::<16>()? else {
            return Ok(None);
        };
        let kept = self.order.u32(&header[8..]) as usize;
        let length = self.order.u32(&header[12..]).into();
        let octets = self.octets(self.checked(kept, 0)?)?;
        Ok(Some(Packet {
            octets,
            length,
            fcs,
            flags: 0,
        }))
    }

    // Block by block up to the next that is a packet.
    fn next_pcapng(&mut self) -> Result<Option<Packet>, Failure> {
        loop {
            let Some(kind) = self.exactly::<4>()? else {
                return Ok(None);
            };
            // a section's type is the same in both orders
            let kind = self.order.u32(&kind);
            if kind == block::SECTION {
                self.section()?;
                continue;
            }
            let length = self.whole::<4>()?;
            let length = self.order.u32(&length) as usize;
            let mut body = self.octets(self.checked(length, 12)? - 8)?;
            // the length stands at the end once more
            body.truncate(body.len() - 4);
            match kind {
                block::INTERFACE => self.interface(&body)?,
                block::ENHANCED | block::PACKET | block::SIMPLE => {
                    return self.packet(kind, &body).map(Some);
                }
                _ => {}
            }
        }
    }

    fn interface(&mut self, body: &[u8]) -> Result<(), Failure> {
        if body.len() < 8 {
            return Err(self.wrong("is no pcapng: an interface is too short".to_owned()));
        }
        let (order, mut fcs) = (self.order, None);
        for (code, value) in options(order, &body[8..]) {
            if code == option::FCS_LENGTH && !value.is_empty() {
                // some count it in octets, some in bits: of Ethernet it is one length or none
                fcs = Some(value[0] != 0);
            }
        }
        let (link, snap) = (order.u16(body), order.u32(&body[4..]));
        if let Kind::Pcapng(interfaces) = &mut self.kind {
            interfaces.push(Interface { link, fcs, snap });
        }
        Ok(())
    }

    // A packet's block, of whichever kind.
    fn packet(&self, kind: u32, body: &[u8]) -> Result<Packet, Failure> {
        let order = self.order;
        let short = || self.wrong("is no pcapng: a packet is too short".to_owned());
        let numbers = if kind == block::SIMPLE { 4 } else { 20 };
        let head = body.get(..numbers).ok_or_else(short)?;
        let number = match kind {
            block::SIMPLE => 0,
            block::PACKET => order.u16(head).into(),
            _ => order.u32(head),
        };
        let interface = self.of_number(number)?;
        let length = order.u32(&head[numbers - 4..]);
        let kept = match kind {
            block::SIMPLE if interface.snap > 0 => length.min(interface.snap),
            block::SIMPLE => length,
            _ => order.u32(&head[12..]),
        };
        let octets = body.get(numbers..numbers + kept as usize);
        let octets = octets.ok_or_else(short)?.to_vec();
        let rest = numbers + (kept as usize).next_multiple_of(4);
        let mut flags = 0;
        for (code, value) in options(order, body.get(rest..).unwrap_or_default()) {
            if code == option::FLAGS && value.len() == 4 && kind != block::SIMPLE {
                flags = order.u32(value);
            }
        }
        // of a packet 0 says nothing
        let of_packet = flags >> flag::FCS_SHIFT & flag::FCS_BITS != 0;
        Ok(Packet {
            octets,
            length: length.into(),
            fcs: of_packet.then_some(true).or(interface.fcs),
            flags,
        })
    }

    fn of_number(&self, number: u32) -> Result<&Interface, Failure> {
        let Kind::Pcapng(interfaces) = &self.kind else {
            return Err(self.wrong("is no pcapng".to_owned()));
        };
        let interface = interfaces.get(number as usize).ok_or_else(|| {
            self.wrong(format!(
                "is no pcapng: a packet is of interface {number}, which is not there"
            ))
        })?;
        self.ethernet(interface.link)?;
        Ok(interface)
    }

    fn ethernet(&self, link: u16) -> Result<(), Failure> {
        if link == ETHERNET {
            return Ok(());
        }
        let name = link_name(link);
        Err(self.wrong(format!(
            "is of link type {link}{name}, and only Ethernet, 1, has frames"
        )))
    }

    // What is no capture of packets, by what it looks like.
    fn neither(&mut self, first: [u8; 4]) -> Failure {
        let mut head = first.to_vec();
        let mut more = [0; 508];
        let read = fill(&mut self.source, &mut more).unwrap_or_default();
        head.extend(&more[..read]);
        let looks = match head[..] {
            [1, 0x07 | 0xFB | 0xFD | 0xFE, ..] => Some(CAPTURE.to_owned()),
            _ => other_format(&head, "name a file of packets"),
        };
        let looks = looks.map_or(String::new(), |looks| format!(", {looks}"));
        self.wrong(format!("is neither pcap nor pcapng{looks}"))
    }

    fn wrong(&self, what: String) -> Failure {
        Failure::input(&self.name, what)
    }

    // A length that a file gives, if it can be one.
    fn checked(&self, length: usize, least: usize) -> Result<usize, Failure> {
        if length < least || length > LONGEST {
            let at = self.at;
            return Err(self.wrong(format!(
                "is damaged: a length of {length} before octet {at}"
            )));
        }
        Ok(length)
    }

    fn fill(&mut self, octets: &mut [u8]) -> Result<usize, Failure> {
        let read = fill(&mut self.source, octets);
        let read = read.map_err(|error| Failure::reading(&self.name, &error))?;
        self.at += read as u64;
        Ok(read)
    }

    // So many octets, or nothing at the file's end.
    fn exactly<const N: usize>(&mut self) -> Result<Option<[u8; N]>, Failure> {
        let mut octets = [0; N];
        let read = self.fill(&mut octets)?;
        match read {
            0 => Ok(None),
            _ if read == N => Ok(Some(octets)),
            _ => Err(self.cut_short()),
        }
    }

    // So many octets, which must be there.
    fn whole<const N: usize>(&mut self) -> Result<[u8; N], Failure> {
        self.exactly()?.ok_or_else(|| self.cut_short())
    }

    fn octets(&mut self, length: usize) -> Result<Vec<u8>, Failure> {
        let mut octets = vec![0; length];
        let read = self.fill(&mut octets)?;
        if read < length {
            return Err(self.cut_short());
        }
        Ok(octets)
    }

    fn cut_short(&self) -> Failure {
        self.wrong(format!(
            "is cut short: it ends inside a packet, at octet {}",
            self.at
        ))
    }
}

// Codes and values up to the end of options, as far as they are whole.
fn options(order: Order, octets: &[u8]) -> impl Iterator<Item = (u16, &[u8])> {
    let mut rest = octets;
    std::iter::from_fn(move || {
        let head = rest.get(..4)?;
        let (code, length) = (order.u16(head), usize::from(order.u16(&head[2..])));
        let value = rest.get(4..4 + length)?;
        rest = rest
            .get(4 + length.next_multiple_of(4)..)
            .unwrap_or_default();
        (code != option::END).then_some((code, value))
    })
}

// Link types that are met where Ethernet is expected.
fn link_name(link: u16) -> &'static str {
    match link {
        0 => " (loopback)",
        101 => " (IP without frames)",
        105 | 127 => " (wireless)",
        113 | 276 => " (Linux cooked)",
        _ => "",
    }
}
