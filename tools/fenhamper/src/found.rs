//! A counted Start of a file, with what is told of it. Places are those of the whole file.
use crate::failure::Failure;
use crate::stretch::{Stretch, Stretches};
use fenhamper::{Counted, Flow, FrameView, Listener, Outcome, Reason, State};

/// From a Start to its frame: the Start itself and seven octets of preamble.
pub const BEFORE_FRAME: u64 = 8;

/// A Start that was counted.
#[derive(Clone, Copy)]
pub struct Found<'a> {
    /// The reading, whose places are those of the stretch.
    pub counted: Counted<'a>,
    /// The stretch that it was read in.
    pub stretch: Stretch<'a>,
    listener: Listener<'a>,
}

impl<'a> Found<'a> {
    /// A reading of a stretch.
    #[must_use]
    pub fn new(counted: Counted<'a>, stretch: Stretch<'a>, listener: Listener<'a>) -> Found<'a> {
        Found {
            counted,
            stretch,
            listener,
        }
    }

    /// The Start's place.
    #[must_use]
    pub fn start(&self) -> u64 {
        self.stretch.place(self.counted.start)
    }

    /// The place of the control symbol that ended the run.
    #[must_use]
    pub fn next(&self) -> u64 {
        self.stretch.place(self.counted.next)
    }

    /// The outcome.
    #[must_use]
    pub fn outcome(&self) -> Outcome {
        self.counted.outcome
    }

    /// The frame; of a run longer than a capture its front.
    pub fn frame(&self) -> FrameView<'a> {
        self.counted.frame()
    }

    /// The frame's octets in all: what the run has behind its preamble.
    #[must_use]
    pub fn frame_length(&self) -> u64 {
        (self.next() - self.start()).saturating_sub(BEFORE_FRAME)
    }

    /// The flow mode that it was read in.
    #[must_use]
    pub fn flow_mode(&self) -> Flow {
        self.listener.settings.flow_mode()
    }

    /// Why the outcome is what it is.
    ///
    /// # Panics
    ///
    /// Where the archive gives no reason for a Start that it counted, which is proved not to be.
    #[must_use]
    pub fn reason(&self) -> Reason {
        let explained = self
            .stretch
            .capture
            .explain(self.listener, self.counted.start);
        let reason = explained.ok().and_then(|explained| explained.reason());
        let reason = reason.expect("a counted Start has a reason");
        in_file(reason, &self.stretch)
    }
}

// The same reason with the places of the whole file, and the length of the whole run.
fn in_file(reason: Reason, stretch: &Stretch<'_>) -> Reason {
    let moved = |place| stretch.place(place) as usize;
    match reason {
        Reason::CutAt { place, octet } => Reason::CutAt {
            place: moved(place),
            octet,
        },
        Reason::WrongOctet { place } => Reason::WrongOctet {
            place: moved(place),
        },
        Reason::TooLong { length, limit } => Reason::TooLong {
            length: length + stretch.left_out() as usize,
            limit,
        },
        Reason::Handed { place, length } => Reason::Handed {
            place: moved(place),
            length,
        },
        other => other,
    }
}

/// How the reading of a file ended.
#[derive(Clone, Copy, Debug, PartialEq, Eq)]
pub struct End {
    /// How many Starts were counted.
    pub starts: u64,
    /// A last Start whose run has not ended inside the file.
    pub open: Option<u64>,
    /// The file's length in symbols.
    pub symbols: u64,
}

/// Reads Start after Start of a file, and hands each out.
pub fn each_found(
    stretches: &mut Stretches<'_>,
    listener: Listener<'_>,
    state: &mut State,
    mut take: impl FnMut(&Found<'_>) -> Result<(), Failure>,
) -> Result<End, Failure> {
    let (mut starts, mut open) = (0, None);
    while let Some(stretch) = stretches.next_stretch()? {
        let mut readings = stretch.capture.readings(listener, state);
        for counted in readings.by_ref() {
            let counted = counted?;
            starts += 1;
            take(&Found::new(counted, stretch, listener))?;
        }
        if stretch.last && readings.ended_open() {
            open = stretch.open();
        }
    }
    Ok(End {
        starts,
        open,
        symbols: stretches.read(),
    })
}

/// What a file has from where its stretches begin.
pub enum First<T> {
    /// A Start that is counted, and what was made of it.
    Found(T),
    /// A Start whose run has not ended inside the file.
    Open(u64),
    /// No Start up to the file's end, which is here.
    Nothing(u64),
}

/// Reads the first Start.
pub fn first_found<T>(
    stretches: &mut Stretches<'_>,
    listener: Listener<'_>,
    state: &mut State,
    take: impl FnOnce(&Found<'_>) -> T,
) -> Result<First<T>, Failure> {
    while let Some(stretch) = stretches.next_stretch()? {
        let mut readings = stretch.capture.readings(listener, state);
        if let Some(counted) = readings.next() {
            let counted = counted?;
            let found = Found::new(counted, stretch, listener);
            return Ok(First::Found(take(&found)));
        }
        if stretch.last && readings.ended_open() {
            return Ok(First::Open(stretch.place(readings.place())));
        }
    }
    Ok(First::Nothing(stretches.read()))
}
