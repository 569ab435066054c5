//! "Quiet means quiet", item 14 of document 02: a count for each class that is kept here, neither by
//! the library nor by the reference. What a reading set is taken from its outcome and the octets
//! captured, and what was written from the line; no timer is asked.
use crate::generate::START;

/// Symbols that a quantum lasts.
const QUANTUM: u64 = 64;

/// In which call a reading was made.
#[derive(Clone, Copy, Debug, PartialEq, Eq)]
pub enum Ear {
    /// A reading.
    Read,
    /// A walk.
    Walk,
    /// A walk that keeps its readings.
    WalkLog,
    /// A symbol of the plain reader.
    Plain,
}

/// What happened since a class was set, to others than it.
#[derive(Clone, Copy, Debug, Default)]
pub struct Meanwhile {
    /// A control frame was written.
    pub control: bool,
    /// A client frame was written; of this class there can be none in its wait.
    pub client: bool,
    /// Idles were written.
    pub idles: bool,
    /// A reading set another class and not this one.
    pub passed_over: bool,
}

/// How a class was set last.
#[derive(Clone, Copy, Debug)]
pub struct Set {
    /// In which call, and by which job.
    pub by: (Ear, u8),
    /// To how many quanta.
    pub quanta: u16,
    /// How many symbols were written since.
    pub written: u64,
    /// How many symbols it had still to wait by the setting before.
    pub before: u64,
    /// Whether the same call set it before, and to how many quanta.
    pub same_call: Option<u16>,
    /// What happened since.
    pub meanwhile: Meanwhile,
}

/// What is kept of each class.
#[derive(Clone, Copy, Debug, Default)]
pub struct Watch {
    /// How many symbols it has still to wait.
    pub left: [u64; 8],
    /// How it was set last.
    pub set: [Option<Set>; 8],
}

impl Watch {
    /// From timers that were given at the beginning.
    pub fn new(timers: [u64; 8]) -> Watch {
        Watch {
            left: timers,
            set: [None; 8],
        }
    }

    /// A call gave these Starts their outcomes, in order.
    pub fn heard(&mut self, by: (Ear, u8), octets: &[u8], starts: &[(u8, usize)]) {
        let mut in_this_call = [None; 8];
        for &start in starts {
            let sets = quanta_set(octets, start);
            let some = sets.iter().any(Option::is_some);
            for (class, quanta) in sets.into_iter().enumerate() {
                if let (Some(set), None, true) = (&mut self.set[class], quanta, some) {
                    set.meanwhile.passed_over = true;
                }
                let Some(quanta) = quanta else { continue };
                self.set[class] = Some(Set {
                    by,
                    quanta,
                    written: 0,
                    before: self.left[class],
                    same_call: in_this_call[class].replace(quanta),
                    meanwhile: Meanwhile::default(),
                });
                self.left[class] = QUANTUM * u64::from(quanta);
            }
        }
    }

    /// A call wrote these symbols, in order; `client` is the class if it was asked for a client
    /// frame. Says whether one of them is the Start of such a frame that had still to wait.
    pub fn wrote(&mut self, client: Option<u8>, octets: &[u8], marks: &[u8]) -> bool {
        let (mut loud, n) = (false, octets.len() as u64);
        for ((&octet, &mark), before) in octets.iter().zip(marks).zip(0..) {
            if let Some(class) = client.filter(|_| octet == START && mark != 0) {
                loud |= self.left[usize::from(class)] > before;
            }
        }
        for left in &mut self.left {
            *left = left.saturating_sub(n);
        }
        let frame = octets.first() == Some(&START) && marks[0] != 0;
        for set in self.set.iter_mut().flatten() {
            set.written += n;
            let since = &mut set.meanwhile;
            match (client, frame) {
                (Some(_), _) => since.client = true,
                (None, true) => since.control = true,
                (None, false) => since.idles |= n > 0,
            }
        }
        loud
    }
}

/// The quanta to which the frame behind this Start sets each class, by its outcome.
pub fn quanta_set(octets: &[u8], (outcome, start): (u8, usize)) -> [Option<u16>; 8] {
    let frame = start + 8;
    let number = |at: usize| u16::from_be_bytes([octets[frame + at], octets[frame + at + 1]]);
    match outcome {
        8 => [Some(number(16)); 8],
        9 => std::array::from_fn(|class| {
            let named = octets[frame + 17] >> class & 1 == 1;
            named.then(|| number(18 + 2 * class))
        }),
        _ => [None; 8],
    }
}
