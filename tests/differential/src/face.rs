//! The reference's values as those of the library's face, and back.
use crate::generate::Listener;
use crate::names::StatusParts;
use fenhamper::{Address, Counted, End, Job, Refusal, Status, Table, Way};
use reference::{Answer, Client, Entry, Flow, Form, LogEnd, Logged, Reading, Record};
use reference::{Port, Sent, Settings, State, Tag, TagKind, Walked};

/// Settings for the library.
pub fn settings(s: &Settings) -> fenhamper::Settings {
    fenhamper::Settings::new(Address(s.own))
        .broadcast(s.broadcast)
        .promiscuous(s.promiscuous)
        .checking(s.checking)
        .limit(s.limit)
        .flow(match s.flow {
            Flow::None => fenhamper::Flow::Off,
            Flow::Pause => fenhamper::Flow::Pause,
            Flow::Pfc => fenhamper::Flow::Pfc,
        })
        .pass_control(s.pass_control)
}

/// A job for the library, which has no third one.
pub fn job(number: u8) -> Job {
    Job::from_number(number).expect("the Rust face has no job above 1")
}

/// A table for the library.
pub fn table(listener: &Listener) -> Table {
    Table::from_octets(listener.octets)
}

/// Who listens, for the library.
pub fn listener<'t>(s: &Settings, l: &Listener, table: &'t Table) -> fenhamper::Listener<'t> {
    settings(s).listing(job(l.job), table)
}

/// What the library says of a table's entries.
pub fn entries(table: &Table) -> reference::Table {
    let mut entries = [Entry::Free; 16];
    for (k, entry) in table.entries() {
        entries[k] = Entry::held(entry.job.number(), entry.address.0);
    }
    reference::Table::from_entries(entries)
}

/// A state for the library. Two of them are equal only if all that the library keeps is.
pub fn state(state: &State) -> fenhamper::State {
    let (counters, timers) = (state.counters, state.timers);
    fenhamper::State::with(counters.map(Into::into), timers.map(Into::into))
        .with_deficit(state.deficit.into())
}

/// A port for the library.
pub fn port(port: Port) -> fenhamper::Port {
    match port {
        Port::Plain => fenhamper::Port::Plain,
        Port::FourLane => fenhamper::Port::FourLane,
    }
}

/// A tag for the library.
fn tag(tag: &Tag) -> fenhamper::Tag {
    match tag.kind {
        TagKind::Customer => fenhamper::Tag::customer(tag.control),
        TagKind::Service => fenhamper::Tag::service(tag.control),
    }
}

/// A client frame for the library.
pub fn frame(client: &Client) -> fenhamper::Frame {
    let tags: Vec<_> = client.tags.iter().map(tag).collect();
    let frame = fenhamper::Frame::to(Address(client.dest)).class(client.class);
    let frame = match client.form {
        Form::Length => frame.by_length(),
        Form::Type(field) => frame.by_type(field),
    };
    frame.tags(&tags)
}

/// A status word by the face's own accessors.
pub fn status(status: Status) -> StatusParts {
    StatusParts {
        bits: [
            status.pfc(),
            status.unicast(),
            status.multicast(),
            status.broadcast(),
            status.pause(),
            status.control(),
            status.tagged(),
            status.stacked(),
        ],
        frame_length: status.frame_length(),
        data_length: status.data_length(),
    }
}

/// A counted reading of the library.
pub fn counted(counted: &Counted) -> Reading {
    Reading {
        answer: Answer::Counted {
            outcome: counted.outcome.number(),
            status: counted.status.word(),
            at: counted.at,
            len: counted.data.len(),
            address: counted.way.map_or(0, Way::number),
        },
        start: counted.start,
        next: counted.next,
    }
}

/// A reading of the library at a place, which a refusal gives back.
pub fn reading(place: usize, answer: &Result<fenhamper::Reading, Refusal>) -> Reading {
    let uncounted = |answer, start, next| Reading {
        answer,
        start,
        next,
    };
    match answer {
        Err(refusal) => uncounted(Answer::Refused(refusal.number()), place, place),
        Ok(fenhamper::Reading::Counted(c)) => counted(c),
        Ok(r @ fenhamper::Reading::Nothing { .. }) => uncounted(Answer::None, r.start(), r.next()),
        Ok(r @ fenhamper::Reading::Open { .. }) => uncounted(Answer::Open, r.start(), r.next()),
    }
}

/// A walk of the library.
pub fn walked(answer: Result<fenhamper::Walk, Refusal>) -> Walked {
    match answer {
        Err(refusal) => Walked::Refused(refusal.number()),
        Ok(walk) => Walked::Ended {
            starts: walk.starts,
            open: walk.open,
        },
    }
}

/// A record of a log for the library.
pub fn record(record: &Record) -> fenhamper::Record {
    fenhamper::Record {
        place: record.place,
        outcome_number: record.outcome,
        way_number: record.address,
        data_length: record.handed,
        status: Status::new(record.status),
    }
}

/// A walk of the library that keeps its readings, from a place, which a refusal gives back.
pub fn kept(place: usize, answer: Result<fenhamper::Kept, Refusal>) -> Logged {
    let logged = |end, next, appended| Logged {
        end,
        next,
        appended,
    };
    match answer {
        Err(refusal) => logged(LogEnd::Refused(refusal.number()), place, 0),
        Ok(kept) => {
            let end = match kept.end {
                End::None => LogEnd::None,
                End::Open => LogEnd::Open,
                End::Full => LogEnd::Full,
            };
            logged(end, kept.next, kept.records)
        }
    }
}

/// A sending of the library.
pub fn sent(answer: Result<usize, Refusal>) -> Sent {
    match answer {
        Err(refusal) => Sent::Refused(refusal.number()),
        Ok(place) => Sent::Wrote(place),
    }
}
