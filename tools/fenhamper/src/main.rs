//! The program: standard input, output and error lent to the tool.
use fenhamper_tool::io::Io;
use std::env;
use std::io::{stderr, stdin, stdout, BufWriter, IsTerminal};
use std::process::ExitCode;

/// Octets that are gathered before they are written.
const GATHERED: usize = 1 << 16;

fn main() -> ExitCode {
    let shown = stdout().is_terminal();
    let plain = env::var_os("NO_COLOR").is_some_and(|value| !value.is_empty())
        || env::var_os("TERM").is_some_and(|value| value == "dumb");
    let mut io = Io {
        input: &mut stdin().lock(),
        output: &mut BufWriter::with_capacity(GATHERED, stdout().lock()),
        errors: &mut stderr().lock(),
        shown,
        colours: shown && !plain,
        terminal: stderr().is_terminal(),
    };
    ExitCode::from(fenhamper_tool::run(env::args_os().skip(1), &mut io))
}
