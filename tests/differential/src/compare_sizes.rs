//! The size table, through both faces, beside the reference's and beside the library's own walk.
use crate::compare::{heard, Bench, Difference, Lent};
use crate::generate::{Listener, SYMBOLS};
use crate::raw::sizes::{self as layout, BANDS};
use crate::seen_reason::Face;
use crate::seen_sizes::{CaptureSized, SizesSeen};
use crate::{face, raw, records};
use fenhamper::{Capture, Outcome, Sizes};
use reference::{Answer, Check, Settings, SizeTable, State, Walked};

/// A table as the Rust face has it, and back.
fn of_face(sizes: &Sizes) -> SizeTable {
    SizeTable {
        frames: sizes.frames,
        octets: sizes.octets,
    }
}

fn to_face(sizes: &SizeTable) -> Sizes {
    Sizes {
        frames: sizes.frames,
        octets: sizes.octets,
    }
}

/// A table as the C face's numbers, and back.
fn numbers(sizes: &SizeTable) -> layout::Sizes {
    let mut numbers = [0; layout::SIZES];
    numbers[..BANDS].copy_from_slice(&sizes.frames);
    numbers[BANDS..].copy_from_slice(&sizes.octets);
    numbers
}

fn of_numbers(numbers: &layout::Sizes) -> SizeTable {
    SizeTable {
        frames: std::array::from_fn(|band| numbers[band]),
        octets: std::array::from_fn(|band| numbers[BANDS + band]),
    }
}

/// Two tables in one, by hand.
fn together(a: &SizeTable, b: &SizeTable) -> SizeTable {
    let sum = |a: [u64; 7], b: [u64; 7]| std::array::from_fn(|k| a[k].wrapping_add(b[k]));
    SizeTable {
        frames: sum(a.frames, b.frames),
        octets: sum(a.octets, b.octets),
    }
}

fn all(counts: &[u64; 7]) -> u64 {
    counts.iter().fold(0, |sum, &n| sum.wrapping_add(n))
}

/// Which of 1, 14, 2 and 20 hold: each but 2 by the reference's walk with nothing else wrong.
fn holds(s: &Settings, l: &Listener, (octets, marks): (usize, usize)) -> [bool; 4] {
    let good = Listener::alone();
    let refused = |s: &Settings, job, table| {
        let mut state = State::default();
        let walked = reference::walk(Check::Bitwise, s, &mut state, job, table, &[], &[]);
        matches!(walked, Walked::Refused(_))
    };
    [
        refused(s, 0, &good.table),
        refused(&Settings::PRINTED, l.job, &good.table),
        octets != marks || octets > SYMBOLS,
        refused(&Settings::PRINTED, 0, &l.table),
    ]
}

/// The Starts that a walk counts, by outcome, frame and data length, and whether it ends open.
fn starts(
    check: Check,
    s: &Settings,
    l: &Listener,
    lent: &Lent,
) -> (Vec<(u8, usize, usize)>, bool) {
    let (mut state, mut place, mut met) = (State::default(), 0, Vec::new());
    let (octets, marks) = (lent.octets(), lent.marks());
    loop {
        let (job, table) = (l.job, &l.table);
        let r = reference::read(check, s, &mut state, job, table, octets, marks, place);
        let Answer::Counted {
            outcome, status, ..
        } = r.answer
        else {
            return (met, r.answer == Answer::Open);
        };
        let length = (r.next - r.start).saturating_sub(8);
        met.push((outcome, length, (status & 0xFFFF) as usize));
        place = r.next;
    }
}

impl Bench {
    /// A capture added through one face or both; gives the table after it.
    fn sized(
        &mut self,
        (face, name): (Face, &'static str),
        (s, l): (&Settings, &Listener),
        lent: &Lent,
        before: &SizeTable,
        add: impl Fn() -> (u8, SizeTable),
    ) -> Result<(Option<usize>, SizeTable), Difference> {
        self.calls += 1;
        let (octets, marks) = (lent.octets(), lent.marks());
        let mut expected = *before;
        let added = expected.add(self.check, s, l.job, &l.table, octets, marks);
        let inputs = || {
            let read = heard(s, l, &State::default(), lent, 0, self.whole);
            format!("before {before:?}\n{read}")
        };
        let (refusal, after) = add();
        let refusals = (refusal, added.err().unwrap_or(0));
        self.same((name, "refusal"), refusals, inputs)?;
        self.same((name, "table"), (after, expected), inputs)?;
        let (starts, open) = starts(self.check, s, l, lent);
        self.coverage.sizes(&SizesSeen::Capture(&CaptureSized {
            face,
            s,
            holds: holds(s, l, (octets.len(), marks.len())),
            refusal: added.err().unwrap_or(0),
            symbols: octets.len(),
            starts: &starts,
            open,
            before: *before,
            after: expected,
        }));
        Ok((added.ok(), expected))
    }

    /// A capture added through the Rust face, beside the library's own walk from this state: "All
    /// bands together equal the rise of those four counters, modulo 2^64".
    pub(crate) fn sizes(
        &mut self,
        (s, l): (&Settings, &Listener),
        state: &State,
        lent: &Lent,
        before: &SizeTable,
    ) -> Result<(Option<usize>, SizeTable), Difference> {
        let table = face::table(l);
        let listener = face::listener(s, l, &table);
        let capture = Capture::new(lent.octets(), lent.marks());
        let add = || {
            let mut sizes = to_face(before);
            let answer = sizes.add_capture(listener, capture);
            (
                answer.err().map_or(0, |refusal| refusal.number()),
                of_face(&sizes),
            )
        };
        let (added, after) = self.sized((Face::Rust, "sizes"), (s, l), lent, before, add)?;
        let mut walked = face::state(state);
        let four = |state: &fenhamper::State| {
            let counters = Outcome::ALL[7..]
                .iter()
                .map(|&outcome| state.counter(outcome));
            counters.fold(0, u64::wrapping_add)
        };
        let counters = four(&walked);
        // a refused walk leaves the counters
        let _ = capture.walk(listener, &mut walked);
        let rises = (
            all(&after.frames).wrapping_sub(all(&before.frames)),
            four(&walked).wrapping_sub(counters),
        );
        let inputs = || heard(s, l, state, lent, 0, self.whole);
        self.same(("sizes", "all bands, and four counters"), rises, inputs)?;
        Ok((added, after))
    }

    /// The same through the C face, with any settings.
    pub(crate) fn c_sizes(
        &mut self,
        settings: &raw::Settings,
        l: &Listener,
        lent: &Lent,
        before: &SizeTable,
    ) -> Result<SizeTable, Difference> {
        let s = records::settings(settings);
        let add = || {
            let mut sizes = numbers(before);
            let capture = (lent.octets(), lent.marks());
            let refusal = raw::sizes_add_capture(settings, l.raw(), capture, &mut sizes);
            (u8::try_from(refusal).unwrap_or(u8::MAX), of_numbers(&sizes))
        };
        let (_, after) = self.sized((Face::C, "sizes in C"), (&s, l), lent, before, add)?;
        Ok(after)
    }

    /// A table added to another, through both faces.
    pub(crate) fn join(&mut self, a: &SizeTable, b: &SizeTable) -> Result<SizeTable, Difference> {
        self.calls += 2;
        let expected = together(a, b);
        let inputs = || format!("{a:?}\n{b:?}");
        let (mut by_call, mut by_sign, mut in_c) = (to_face(a), to_face(a), numbers(a));
        by_call.add_table(&to_face(b));
        by_sign += to_face(b);
        raw::sizes_add_table(&mut in_c, &numbers(b));
        self.same(
            ("add table", "table"),
            (of_face(&by_call), expected),
            inputs,
        )?;
        self.same(
            ("add table", "by +="),
            (of_face(&by_sign), expected),
            inputs,
        )?;
        self.same(
            ("add table in C", "table"),
            (in_c, numbers(&expected)),
            inputs,
        )?;
        for face in [Face::Rust, Face::C] {
            let tables = [*a, *b, expected];
            self.coverage.sizes(&SizesSeen::Table { face, tables });
        }
        Ok(expected)
    }

    /// Captures in order, in another order, and cut into two halves and added up: the same table.
    pub(crate) fn size_orders(
        &mut self,
        (settings, l): (&raw::Settings, &Listener),
        state: &State,
        captures: &[Lent],
        (before, cut): (&SizeTable, usize),
    ) -> Result<(), Difference> {
        let s = records::settings(settings);
        let (mut whole, mut added) = (*before, Vec::new());
        for lent in captures {
            let (frames, after) = self.sizes((&s, l), state, lent, &whole)?;
            added.push(frames);
            whole = after;
        }
        let mut back = *before;
        for lent in captures.iter().rev() {
            back = self.c_sizes(settings, l, lent, &back)?;
        }
        let inputs = || format!("{} captures, {before:?}", captures.len());
        self.same(("sizes", "another order"), (back, whole), inputs)?;
        let fresh = (of_face(&Sizes::new()), of_numbers(&raw::sizes_fresh()));
        self.same(("sizes", "a fresh table"), fresh, inputs)?;
        let (mut front, mut rest) = (*before, fresh.0);
        for (n, lent) in captures.iter().enumerate() {
            let half = if n < cut { &mut front } else { &mut rest };
            *half = self.c_sizes(settings, l, lent, half)?;
        }
        let joined = self.join(&front, &rest)?;
        self.same(("sizes", "two halves"), (joined, whole), inputs)?;
        self.coverage
            .sizes(&SizesSeen::Orders { added: &added, cut });
        Ok(())
    }
}
