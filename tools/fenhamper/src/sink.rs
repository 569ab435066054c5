//! Files that are written.
use crate::failure::Failure;
use crate::io::STANDARD_OUTPUT;
use crate::source::STANDARD;
use crate::words::{Words, OUT};
use std::ffi::OsStr;
use std::fs::{self, File, OpenOptions};
use std::io::{self, BufWriter, Write};
use std::path::{Path, PathBuf};
use std::process;

/// A file that is being written, or standard output. A file has its name when it is finished: until
/// then what was there before stays, and what is not finished is taken away again.
pub struct Sink<'a> {
    name: String,
    to: Box<dyn Write + 'a>,
    unfinished: Option<Unfinished>,
}

// A file under another name, beside its place.
struct Unfinished {
    written: PathBuf,
    place: PathBuf,
}

impl<'a> Sink<'a> {
    /// Opens the file that -o names; `-` is standard output. The file that is read is not written over.
    pub fn open(
        words: &Words,
        read: Option<&OsStr>,
        output: &'a mut dyn Write,
    ) -> Result<Sink<'a>, Failure> {
        let name = words.value(OUT).ok_or_else(|| {
            words.wrong("-o FILE is missing: where to write, - for standard output")
        })?;
        if name == STANDARD {
            return Ok(Sink {
                name: STANDARD_OUTPUT.to_owned(),
                to: Box::new(output),
                unfinished: None,
            });
        }
        let path = Path::new(name);
        if read.is_some_and(|read| is_same(Path::new(read), path)) {
            let what = format!("-o {} is the file that is read", path.display());
            return Err(words.wrong(&what));
        }
        let name = path.display().to_string();
        let (file, unfinished) = create(path).map_err(|error| Failure::writing(&name, error))?;
        Ok(Sink {
            name,
            to: Box::new(BufWriter::new(file)),
            unfinished,
        })
    }

    /// Writes octets.
    pub fn write(&mut self, octets: &[u8]) -> Result<(), Failure> {
        let written = self.to.write_all(octets);
        written.map_err(|error| Failure::writing(&self.name, error))
    }

    /// All is written.
    pub fn finish(mut self) -> Result<(), Failure> {
        let mut finished = self.to.flush();
        if let (Ok(()), Some(unfinished)) = (&finished, &self.unfinished) {
            finished = fs::rename(&unfinished.written, &unfinished.place);
        }
        finished.map_err(|error| Failure::writing(&self.name, error))?;
        self.unfinished = None;
        Ok(())
    }
}

impl Drop for Sink<'_> {
    fn drop(&mut self) {
        if let Some(unfinished) = self.unfinished.take() {
            let _ = fs::remove_file(unfinished.written);
        }
    }
}

// A file to be written to. What is no file, as a device, and what cannot stand beside its place is
// written at once.
fn create(path: &Path) -> io::Result<(File, Option<Unfinished>)> {
    let place = path.canonicalize().unwrap_or_else(|_| path.to_owned());
    let before = fs::metadata(&place).ok();
    if before.is_some() {
        // that it may be written is found here, and nothing of it is lost
        let file = OpenOptions::new().write(true).open(&place)?;
        if !file.metadata()?.is_file() {
            return Ok((file, None));
        }
    }
    let mut beside = place.file_name().unwrap_or_default().to_owned();
    beside.push(format!(".{}.part", process::id()));
    let written = place.with_file_name(beside);
    let Ok(file) = File::create(&written) else {
        return Ok((File::create(place)?, None));
    };
    if let Some(before) = before {
        let _ = fs::set_permissions(&written, before.permissions());
    }
    Ok((file, Some(Unfinished { written, place })))
}

// Whether two names are of one file.
fn is_same(a: &Path, b: &Path) -> bool {
    match (a.canonicalize(), b.canonicalize()) {
        (Ok(a), Ok(b)) => a == b,
        _ => false,
    }
}
