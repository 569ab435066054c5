//! Running the tool, and what is expected of it.
use fenhamper_tool::io::Io;
use std::ffi::OsString;
use std::fs;
use std::io::{Cursor, Read, Write};
use std::path::{Path, PathBuf};
use std::process::{Command, Stdio};
use std::sync::atomic::{AtomicUsize, Ordering};
use std::sync::Once;

/// What a run of the tool gave.
#[derive(Debug)]
pub struct Said {
    pub code: u8,
    pub out: Vec<u8>,
    pub err: String,
}

impl Said {
    pub fn text(&self) -> &str {
        std::str::from_utf8(&self.out).unwrap()
    }

    /// It was done, with nothing on standard error.
    pub fn good(self) -> Self {
        assert_eq!((self.code, self.err.as_str()), (0, ""));
        self
    }

    /// It failed with one line on standard error, which has this.
    pub fn bad(self, what: &str) -> Self {
        assert_eq!(self.code, 2, "{self:?}");
        assert_eq!(self.err.matches('\n').count(), 1, "{:?}", self.err);
        assert!(self.err.starts_with("fenhamper: ") && self.err.ends_with('\n'));
        assert!(self.err.contains(what), "{:?} has no {what:?}", self.err);
        self
    }
}

/// The repository, from which names of files are told.
pub fn root() -> &'static Path {
    static GONE: Once = Once::new();
    let root = Path::new(concat!(env!("CARGO_MANIFEST_DIR"), "/../.."));
    GONE.call_once(|| std::env::set_current_dir(root).unwrap());
    root
}

/// The words of a command line; quotes hold words together.
pub fn words(line: &str) -> Vec<String> {
    let mut words = Vec::new();
    for (n, part) in line.split('\'').enumerate() {
        if n % 2 == 1 {
            words.push(part.to_owned());
        } else {
            words.extend(part.split_whitespace().map(str::to_owned));
        }
    }
    words
}

/// Runs the tool on the words of a line.
pub fn typed(line: &str) -> Said {
    typed_on(line, &mut Cursor::new([]))
}

/// Runs the tool on the words of a line, with something on standard input.
pub fn typed_on(line: &str, input: &mut dyn Read) -> Said {
    let words = words(line);
    tool_on(&words.iter().map(String::as_str).collect::<Vec<_>>(), input)
}

/// Runs the tool on these words, in this process.
pub fn tool(words: &[&str]) -> Said {
    tool_on(words, &mut Cursor::new([]))
}

/// Runs the tool with something on standard input.
pub fn tool_on(words: &[&str], input: &mut dyn Read) -> Said {
    root();
    let (mut out, mut err) = (Vec::new(), Vec::new());
    let mut io = Io {
        input,
        output: &mut out,
        errors: &mut err,
        shown: false,
        colours: false,
        terminal: false,
    };
    let code = fenhamper_tool::run(words.iter().map(OsString::from), &mut io);
    Said {
        code,
        out,
        err: String::from_utf8(err).unwrap(),
    }
}

/// The program itself, which is emulated where it is for another processor.
pub fn program(words: &[&str]) -> Command {
    let program = env!("CARGO_BIN_EXE_fenhamper");
    let emulator = std::env::var_os("FENHAMPER_EMULATOR").filter(|name| !name.is_empty());
    let mut command = match emulator {
        Some(emulator) => {
            let mut command = Command::new(emulator);
            command.arg(program);
            command
        }
        None => Command::new(program),
    };
    command.args(words).current_dir(root());
    command.stdin(Stdio::null());
    command
}

/// Says what is left out, so that it is seen of a test that passes too.
pub fn skipped(what: &str) {
    let _ = writeln!(std::io::stderr(), "\nskipped: {what}");
}

/// A folder for files, which goes when it is dropped.
pub struct Folder(PathBuf);

impl Folder {
    pub fn new() -> Folder {
        static NUMBER: AtomicUsize = AtomicUsize::new(0);
        let number = NUMBER.fetch_add(1, Ordering::Relaxed);
        let name = format!("fenhamper-tool-{}-{number}", std::process::id());
        let path = std::env::temp_dir().join(name);
        fs::create_dir(&path).unwrap();
        Folder(path)
    }

    /// The name of a file in it.
    pub fn name(&self, file: &str) -> String {
        self.0.join(file).to_str().unwrap().to_owned()
    }

    /// A file in it with these octets, and its name.
    pub fn with(&self, file: &str, octets: &[u8]) -> String {
        let name = self.name(file);
        fs::write(&name, octets).unwrap();
        name
    }

    /// The names of its files.
    pub fn files(&self) -> Vec<String> {
        let files = fs::read_dir(&self.0).unwrap();
        let name = |file: std::io::Result<fs::DirEntry>| file.unwrap().file_name().into_string();
        files.map(|file| name(file).unwrap()).collect()
    }
}

impl Drop for Folder {
    fn drop(&mut self) {
        let _ = fs::remove_dir_all(&self.0);
    }
}

/// The samples that are captures, by name.
pub const SAMPLES: [&str; 8] = [
    "empty", "example", "first", "noise", "open", "outcomes", "sizes", "tags",
];

/// A sample's file.
pub fn sample(name: &str) -> String {
    format!("samples/{name}.capture")
}

/// The octets of a file of the repository.
pub fn kept(name: &str) -> Vec<u8> {
    fs::read(root().join(name)).unwrap_or_else(|error| panic!("{name}: {error}"))
}

/// Compares with a file of tests/expected; with `FENHAMPER_BLESS` set it is written.
pub fn expect(name: &str, given: &[u8]) {
    let path = Path::new(env!("CARGO_MANIFEST_DIR"))
        .join("tests/expected")
        .join(name);
    if std::env::var_os("FENHAMPER_BLESS").is_some() {
        fs::write(&path, given).unwrap();
    }
    let expected = fs::read(&path).unwrap_or_default();
    if expected != given {
        let text = |octets: &[u8]| String::from_utf8_lossy(octets).into_owned();
        let (expected, given) = (text(&expected), text(given));
        let lines = expected.lines().zip(given.lines());
        let first = lines.enumerate().find(|(_, (a, b))| a != b);
        panic!("tests/expected/{name} differs: {first:#?}");
    }
}
