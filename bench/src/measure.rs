//! Timing: the best batch of several interleaved rounds.
use std::hint::black_box;
use std::time::{Duration, Instant};

use crate::rivals::Rival;

/// A job's ways to be done.
pub type Rivals<'a> = Vec<Box<dyn Rival + 'a>>;

/// How long to measure.
#[derive(Clone, Copy)]
pub struct Effort {
    /// How often all rivals take their turn.
    pub rounds: usize,
    /// How long a turn lasts at least.
    pub turn: Duration,
}

/// A turn is cut into batches, half a millisecond each: on a busy machine few longer ones go undisturbed.
const BATCHES: u32 = 100;

// Where something has to be made ready, each run is timed by itself.
fn batch(rival: &mut dyn Rival, runs: u32) -> Duration {
    if rival.ready() {
        let one = |_| {
            rival.ready();
            let from = Instant::now();
            black_box(rival.run());
            from.elapsed()
        };
        return (0..runs).map(one).sum();
    }
    let from = Instant::now();
    for _ in 0..runs {
        black_box(rival.run());
    }
    from.elapsed()
}

// How many runs take at least that long.
fn runs(rival: &mut dyn Rival, least: Duration) -> u32 {
    let mut runs = 1;
    loop {
        let took = batch(rival, runs);
        if took >= least {
            return runs;
        }
        let missing = least.as_secs_f64() / took.as_secs_f64().max(1e-9);
        runs = runs.saturating_mul((missing * 1.1).clamp(2.0, 100.0) as u32);
    }
}

impl Effort {
    /// The seconds that one run takes, for each rival: the best batch of all its turns.
    pub fn seconds(&self, rivals: &mut Rivals) -> Vec<f64> {
        let least = self.turn / BATCHES;
        let runs: Vec<u32> = rivals.iter_mut().map(|r| runs(r.as_mut(), least)).collect();
        let mut best = vec![f64::INFINITY; rivals.len()];
        for _ in 0..self.rounds {
            for ((rival, &runs), best) in rivals.iter_mut().zip(&runs).zip(&mut best) {
                for _ in 0..BATCHES {
                    let took = batch(rival.as_mut(), runs).as_secs_f64();
                    *best = best.min(took / f64::from(runs));
                }
            }
        }
        best
    }
}

/// Runs each rival once; all must give the same. Gives what they left behind.
pub fn agree(job: &str, rivals: &mut Rivals) -> Vec<u64> {
    let once = |rival: &mut Box<dyn Rival + '_>| {
        rival.ready();
        (rival.run(), rival.kept())
    };
    let results: Vec<_> = rivals.iter_mut().map(once).collect();
    for (number, result) in results.iter().enumerate() {
        assert_eq!(
            result.0, results[0].0,
            "{job}: rival {number} answers otherwise"
        );
        assert!(
            result.1 == results[0].1,
            "{job}: rival {number} counts or writes otherwise"
        );
    }
    results
        .into_iter()
        .next()
        .map(|(_, kept)| kept)
        .unwrap_or_default()
}
