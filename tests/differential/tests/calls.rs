//! Drawn calls, the library against the reference, until there are enough. The table of what they
//! hit is printed, and a row that was never hit fails.
use differential::cases;
use differential::compare::{Bench, Difference};
use differential::seed::{number, seeds};
use std::env;
use std::process::ExitCode;
use std::time::Instant;

/// With the first seed; with the second half as many.
const CALLS: u64 = 2_000_000;

/// Says which case was running if the thread panics.
struct Running {
    seed: u64,
    case: u64,
}

impl Drop for Running {
    fn drop(&mut self) {
        if std::thread::panicking() {
            eprintln!("in seed {}, case {}", self.seed, self.case);
        }
    }
}

/// Cases of a seed, from 0 on until there are so many calls, or one case alone.
fn run(bench: &mut Bench, seed: u64, calls: u64, only: Option<u64>) -> Result<(), Difference> {
    let traced = env::var_os("FENHAMPER_TRACE").is_some();
    let (began, before) = (Instant::now(), bench.calls());
    let mut running = Running {
        seed,
        case: only.unwrap_or(0),
    };
    loop {
        if traced {
            eprintln!("seed {seed}, case {}", running.case);
        }
        cases::run(bench, seed, running.case)?;
        running.case += 1;
        if only.is_some() || bench.calls() - before >= calls {
            break;
        }
    }
    let calls = bench.calls() - before;
    match only {
        Some(case) => println!("seed {seed}, case {case}: {calls} calls agree"),
        None => println!(
            "seed {seed}: {calls} calls in {} cases agree, {:.1} s",
            running.case,
            began.elapsed().as_secs_f64()
        ),
    }
    Ok(())
}

fn main() -> ExitCode {
    let calls = number("FENHAMPER_CALLS").unwrap_or(CALLS);
    let only = number("FENHAMPER_CASE");
    let mut bench = Bench::new(only.is_some());
    let seeds = seeds();
    println!("seeds {seeds:?}");
    for (seed, calls) in seeds.into_iter().zip([calls, calls / 2]) {
        if let Err(difference) = run(&mut bench, seed, calls, only) {
            println!("{difference}");
            return ExitCode::FAILURE;
        }
    }
    if only.is_some() {
        return ExitCode::SUCCESS;
    }
    println!("{}", bench.coverage);
    let missing = bench.coverage.missing();
    for name in &missing {
        println!("never hit: {name}");
    }
    if missing.is_empty() {
        ExitCode::SUCCESS
    } else {
        ExitCode::FAILURE
    }
}
