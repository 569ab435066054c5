//! Frames as line symbols, in the records of a capture file.
use crate::failure::Failure;
use crate::sink::Sink;
use fenhamper::Capture;

const IDLE: u8 = 0x07;
const START: u8 = 0xFB;
const TERMINATE: u8 = 0xFD;
const ERROR: u8 = 0xFE;
const PREAMBLE: [u8; 7] = [0x55, 0x55, 0x55, 0x55, 0x55, 0x55, 0xD5];
/// A preamble that never comes to its end.
const NO_DELIMITER: [u8; 7] = [0x55; 7];
/// Idles behind a frame, with the symbol that ends it twelve.
const IDLES: usize = 11;

/// How a frame stands on the line.
pub struct Run<'a> {
    /// From destination to FCS.
    pub octets: &'a [u8],
    /// Whether the preamble is right.
    pub preamble: bool,
    /// Whether it ends with Terminate, and not with Error.
    pub whole: bool,
}

impl Run<'_> {
    /// Its records, mark then octet, with Start, preamble and gap.
    #[must_use]
    pub fn records(&self) -> Vec<u8> {
        let preamble = if self.preamble {
            PREAMBLE
        } else {
            NO_DELIMITER
        };
        let end = if self.whole { TERMINATE } else { ERROR };
        let data = preamble.iter().chain(self.octets).map(|&octet| [0, octet]);
        let mut records = vec![[1, START]];
        records.extend(data);
        records.push([1, end]);
        records.extend([[1, IDLE]; IDLES]);
        records.into_flattened()
    }
}

/// Writes the symbols of a line as records.
pub fn write_symbols(sink: &mut Sink<'_>, line: Capture<'_>) -> Result<(), Failure> {
    let records: Vec<[u8; 2]> = line.records().collect();
    sink.write(records.as_flattened())
}
