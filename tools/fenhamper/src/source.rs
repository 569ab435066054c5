//! Files to read, and standard input.
use crate::failure::Failure;
use std::ffi::OsStr;
use std::fs::File;
use std::io::{self, Read, Seek, SeekFrom};

/// The word that stands for standard input, and for standard output.
pub const STANDARD: &str = "-";

/// Octets of a record: mark, then octet.
pub const RECORD: usize = 2;

enum From<'a> {
    File(File),
    Other(&'a mut dyn Read),
}

/// A file that is open to be read, or standard input.
pub struct Source<'a> {
    name: String,
    from: From<'a>,
    octets: Option<u64>,
}

impl<'a> Source<'a> {
    /// Opens a file; `-` is standard input.
    pub fn open(name: &OsStr, input: &'a mut dyn Read) -> Result<Source<'a>, Failure> {
        let shown = name.to_string_lossy().into_owned();
        if name == STANDARD {
            return Ok(Source::of("standard input", input));
        }
        let file = File::open(name).map_err(|error| Failure::reading(&shown, &error))?;
        let about = file
            .metadata()
            .map_err(|error| Failure::reading(&shown, &error))?;
        if about.is_dir() {
            let what = "is a folder; name the files in it";
            return Err(Failure::input(&shown, what));
        }
        Ok(Source {
            name: shown,
            from: From::File(file),
            octets: about.is_file().then_some(about.len()),
        })
    }

    /// Octets that come from anywhere else.
    pub fn of(name: &str, from: &'a mut dyn Read) -> Source<'a> {
        Source {
            name: name.to_owned(),
            from: From::Other(from),
            octets: None,
        }
    }

    /// The file's name, to be shown.
    #[must_use]
    pub fn name(&self) -> &str {
        &self.name
    }

    /// How many octets it has, where that is known before they are read.
    #[must_use]
    pub fn octets(&self) -> Option<u64> {
        self.octets
    }

    /// How many symbols it has, where that is known before they are read.
    #[must_use]
    pub fn symbols(&self) -> Option<u64> {
        self.octets.map(|octets| octets / RECORD as u64)
    }

    /// Reads until the buffer is full or the file ends, and gives how many octets there were.
    pub fn fill(&mut self, buffer: &mut [u8]) -> Result<usize, Failure> {
        fill(self, buffer).map_err(|error| Failure::reading(&self.name, &error))
    }

    /// Goes to this octet, if the file has a length and so can be gone about in.
    pub fn go_to(&mut self, octet: u64) -> Result<bool, Failure> {
        match &mut self.from {
            From::File(file) if self.octets.is_some() => match file.seek(SeekFrom::Start(octet)) {
                Ok(_) => Ok(true),
                Err(error) => Err(Failure::reading(&self.name, &error)),
            },
            _ => Ok(false),
        }
    }
}

impl Read for Source<'_> {
    fn read(&mut self, buffer: &mut [u8]) -> io::Result<usize> {
        match &mut self.from {
            From::File(file) => file.read(buffer),
            From::Other(other) => other.read(buffer),
        }
    }
}

/// Reads until the buffer is full or there is no more, and gives how many octets there were.
pub fn fill(from: &mut impl Read, buffer: &mut [u8]) -> io::Result<usize> {
    let mut filled = 0;
    while filled < buffer.len() {
        match from.read(&mut buffer[filled..]) {
            Ok(0) => break,
            Ok(n) => filled += n,
            Err(error) if error.kind() == io::ErrorKind::Interrupted => {}
            Err(error) => return Err(error),
        }
    }
    Ok(filled)
}
