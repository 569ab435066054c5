//! The seeds that a run draws with, and numbers from the environment.
use std::env;
use std::process::Command;

/// Drawn with in every run.
const FIXED: u64 = 1;

/// A number from the environment.
pub fn number(name: &str) -> Option<u64> {
    let value = env::var(name).ok()?;
    match value.parse() {
        Ok(number) => Some(number),
        Err(_) => panic!("{name} is no number: {value}"),
    }
}

/// The seed that `FENHAMPER_SEED` names, alone; else 1 and one made of the commit's id.
pub fn seeds() -> Vec<u64> {
    if let Some(named) = number("FENHAMPER_SEED") {
        return vec![named];
    }
    let of_commit = of_commit().filter(|&seed| seed != FIXED);
    [FIXED].into_iter().chain(of_commit).collect()
}

/// The first 16 digits of the commit's id; nothing where there is no git or no commit.
fn of_commit() -> Option<u64> {
    let mut git = Command::new("git");
    let output = git.args(["rev-parse", "HEAD"]).output().ok()?;
    let id = String::from_utf8(output.stdout).ok()?;
    u64::from_str_radix(id.get(..16)?, 16).ok()
}
