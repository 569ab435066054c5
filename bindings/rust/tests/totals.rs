//! Totals of Starts beside a capture and a line, against the linked archive.
use fenhamper::{
    blocks, limits, Address, Buffers, Capture, Flow, Frame, Line, Port, Refusal, Sender, Settings,
    State, Station, SYMBOLS,
};

const OWN: Address = Address([0x02, 0, 0, 0, 0, 1]);
const PORTS: [Port; 2] = [Port::Plain, Port::FourLane];

// Three blocks, and a last one of 232 symbols.
const SHORT: usize = 1000;

// A symbol is a Start.
fn is_start((octet, mark): (&u8, &u8)) -> bool {
    *octet == 0xFB && *mark != 0
}

// A count over everything before a place.
fn count(capture: Capture<'_>, place: usize) -> usize {
    let before = capture.octets[..place].iter().zip(capture.marks);
    before.filter(|&symbol| is_start(symbol)).count()
}

// The totals as they should be.
fn true_totals(capture: Capture<'_>) -> Vec<u16> {
    let octets = capture.octets.chunks(limits::BLOCK);
    let marks = capture.marks.chunks(limits::BLOCK);
    let starts = octets.zip(marks).map(|(octets, marks)| {
        let symbols = octets.iter().zip(marks);
        symbols.filter(|&symbol| is_start(symbol)).count()
    });
    starts.map(|n| u16::try_from(n).unwrap()).collect()
}

// Start codes at each multiple of 7, but where the mark says data; other marks are 1 to 255.
fn symbols(n: usize) -> (Vec<u8>, Vec<u8>) {
    let octet = |i| if i % 7 == 0 { 0xFB } else { 0x07 };
    let mark = |i: usize| match i % 5 {
        0 => 0,
        _ => u8::try_from(1 + i % 255).unwrap(),
    };
    ((0..n).map(octet).collect(), (0..n).map(mark).collect())
}

// Everything that a call could change.
#[derive(Clone, Debug, PartialEq)]
struct All {
    state: State,
    octets: Vec<u8>,
    marks: Vec<u8>,
    totals: Vec<u16>,
}

impl All {
    fn new() -> All {
        let (octets, marks) = symbols(SHORT);
        let totals = true_totals(Capture::new(&octets, &marks));
        let state = State::default();
        All {
            state,
            octets,
            marks,
            totals,
        }
    }

    fn capture(&self) -> Capture<'_> {
        Capture::new(&self.octets, &self.marks)
    }
}

// The calls that write, with the settings that they need.
#[derive(Clone, Copy, Debug, PartialEq)]
enum Call {
    Client,
    Pause,
    Pfc,
    Idle,
}

impl Call {
    const ALL: [Call; 4] = [Call::Client, Call::Pause, Call::Pfc, Call::Idle];

    fn settings(self) -> Settings {
        Settings::new(OWN).flow(match self {
            Call::Pause => Flow::Pause,
            Call::Pfc => Flow::Pfc,
            _ => Flow::Off,
        })
    }

    // Of 84 symbols each.
    fn on(self, station: &mut Station, to: &mut impl Buffers) -> Result<usize, Refusal> {
        match self {
            Call::Client => station.send_client(to, &Frame::to(OWN), b"data"),
            Call::Pause => station.send_pause(to, 0x1234),
            Call::Pfc => station.send_pfc(to, 0x81, [5; 8]),
            Call::Idle => station.fill_idle(to, 84),
        }
    }
}

#[test]
fn blocks_are_of_256_symbols() {
    let expected = [(0, 0), (1, 1), (255, 1), (256, 1), (257, 2), (512, 2)];
    assert_eq!(expected.map(|(n, _)| blocks(n)), expected.map(|(_, k)| k));
    assert_eq!(blocks(SYMBOLS), limits::MOST_BLOCKS);
    assert_eq!(blocks(usize::MAX), usize::MAX / 256 + 1);
}

#[test]
fn refusals_have_their_numbers() {
    assert_eq!(Refusal::WrongTotals.number(), 21);
    assert_eq!(Refusal::HighTotal.number(), 22);
    assert_eq!(
        Refusal::WrongTotals.to_string(),
        "refusal 21, wrong totals: number of totals is not the number of blocks"
    );
    assert_eq!(
        Refusal::HighTotal.to_string(),
        "refusal 22, high total: a total above 256"
    );
}

// Of lengths around a block's, at every place.
#[test]
fn the_answer_is_a_count() {
    for n in [0, 1, 7, 255, 256, 257, 511, 512, 513, SHORT] {
        let (mut octets, mut marks) = symbols(n);
        let mut totals = vec![0xFFFF; blocks(n)];
        let capture = Capture::new(&octets, &marks);
        capture.fill_totals(&mut totals).unwrap();
        assert_eq!(totals, true_totals(capture));
        for place in 0..=n {
            let answer = capture.starts_before(&totals, place);
            assert_eq!(answer, Ok(count(capture, place)), "{place} of {n}");
        }
        for place in [n + 1, usize::MAX] {
            let refused = capture.starts_before(&totals, place);
            assert_eq!(refused, Err(Refusal::BadPlace));
        }
        // a line fills them itself
        let mut others = vec![0xFFFF; blocks(n)];
        let line = Line::new(&mut octets, &mut marks, &mut others).unwrap();
        assert_eq!(line.totals(), totals);
        assert_eq!(line.starts_before(n), Ok(count(line.capture(), n)));
    }
}

#[test]
fn the_most_symbols() {
    let (mut octets, mut marks) = (vec![0xFB; SYMBOLS], vec![0xFF; SYMBOLS]);
    let mut totals = vec![0; limits::MOST_BLOCKS];
    let line = Line::new(&mut octets, &mut marks, &mut totals).unwrap();
    assert_eq!(line.totals(), [256; 256]);
    for place in [0, 1, 255, 256, 65535, 65536] {
        assert_eq!(line.starts_before(place), Ok(place));
    }
    // 2 before 21
    octets.push(0);
    marks.push(0);
    for n in [256, 257] {
        let mut totals = vec![0; n];
        let refused = Line::new(&mut octets, &mut marks, &mut totals);
        assert_eq!(refused.unwrap_err(), Refusal::BadBuffers);
        assert_eq!(totals, vec![0; n]);
    }
}

// A call into a line is the one into a sender, refused or not; it counts anew the blocks that it
// writes into, and touches no other total.
#[test]
fn a_line_counts_the_blocks_it_writes_into() {
    let places = [0, 100, 172, 173, 256, 508, 600, 768, 916, 917, 1000, 1001];
    for (call, port) in Call::ALL
        .into_iter()
        .flat_map(|call| PORTS.map(|port| (call, port)))
    {
        for place in places {
            let (mut all, mut plain) = (All::new(), All::new());
            // false, but none above 256
            let were = vec![250, 251, 252, 253];
            all.totals.clone_from(&were);
            let mut station = Station::new(call.settings());
            let line = Line::with_totals(&mut all.octets, &mut all.marks, &mut all.totals);
            let mut line = line.at(place).on(port);
            assert_eq!((line.place(), line.port()), (place, port));
            let sent = call.on(&mut station, &mut line);
            assert_eq!(line.place(), sent.unwrap_or(place));

            let mut other = Station::new(call.settings());
            let sender = Sender::new(&mut plain.octets, &mut plain.marks);
            let expected = call.on(&mut other, &mut sender.at(place).on(port));
            assert_eq!((sent, &station), (expected, &other));
            assert_eq!(all.capture(), plain.capture());
            let anew = true_totals(all.capture());
            for k in 0..4 {
                let (from, to) = (k * limits::BLOCK, (k + 1) * limits::BLOCK);
                let written = sent.is_ok_and(|end| place < to && from < end);
                let expected = if written { anew[k] } else { were[k] };
                assert_eq!(all.totals[k], expected, "{call:?} at {place}, block {k}");
            }
        }
    }
}

// Over a row of calls, asked after each.
#[test]
fn true_totals_stay_true() {
    let (mut octets, mut marks) = symbols(5000);
    let mut totals = [0; blocks(5000)];
    let mut line = Line::new(&mut octets, &mut marks, &mut totals).unwrap();
    let mut station = Station::default();
    let mut refused = 0;
    for n in 0..100_usize {
        let call = Call::ALL[n % 3 + n % 2];
        station.settings = call.settings();
        // also over what was written before, at places of any remainder
        line = line.at(n * 1237 % 5000).on(PORTS[n % 5 % 2]);
        refused += usize::from(call.on(&mut station, &mut line).is_err());
        assert_eq!(line.totals(), true_totals(line.capture()));
        for place in [0, line.place(), 4999, 5000] {
            let answer = line.starts_before(place);
            assert_eq!(answer, Ok(count(line.capture(), place)));
        }
        let walk = station.walk(line.capture()).unwrap();
        assert_eq!(
            walk.starts + usize::from(walk.open),
            line.starts_before(5000).unwrap()
        );
    }
    assert!((1..50).contains(&refused), "{refused}");
}

// What can be wrong with a call, in the order in which it is refused.
const SETTINGS: u32 = 1;
const BUFFERS: u32 = 2;
const PLACE: u32 = 4;
const DEFICIT: u32 = 8;
const NUMBER: u32 = 16;
const HIGH: u32 = 32;
const LATER: u32 = 64;
const WRONGS: u32 = 128;

// The first refusal in order.
fn first(wrongs: u32, later: Refusal) -> Option<Refusal> {
    let order = [
        (SETTINGS, Refusal::BadSettings),
        (BUFFERS, Refusal::BadBuffers),
        (PLACE, Refusal::BadPlace),
        (DEFICIT, Refusal::HighDeficit),
        (NUMBER, Refusal::WrongTotals),
        (HIGH, Refusal::HighTotal),
        (LATER, later),
    ];
    let wrong = order.into_iter().find(|(bit, _)| wrongs & bit != 0);
    wrong.map(|(_, refusal)| refusal)
}

// A call on the four-lane port with these things wrong, and everything behind it.
fn with_wrongs(call: Call, wrongs: u32) -> (Result<usize, Refusal>, All, All) {
    let has = |bit| wrongs & bit != 0;
    let mut all = All::new();
    if has(HIGH) {
        all.totals[2] = 257;
    }
    all.state = all.state.with_deficit(if has(DEFICIT) { 4 } else { 0 });
    let before = all.clone();
    let mut settings = call.settings().limit(if has(SETTINGS) { 0 } else { 1518 });
    if has(LATER) {
        settings = settings.flow(Flow::Off);
    }
    let line = Line::with_totals(
        &mut all.octets,
        &mut all.marks[usize::from(has(BUFFERS))..],
        &mut all.totals[usize::from(has(NUMBER))..],
    );
    let place = if has(PLACE) { SHORT + 4 } else { 256 };
    let mut line = line.on(Port::FourLane).at(place);
    let state = &mut all.state;
    let sent = match call {
        Call::Client => {
            let frame = Frame::to(OWN).class(if has(LATER) { 8 } else { 0 });
            line.client(&settings, state, &frame, b"data")
        }
        Call::Pause => line.pause(&settings, state, 5),
        Call::Pfc => line.pfc(&settings, state, 1, [5; 8]),
        Call::Idle => line.idle(state, if has(LATER) { SHORT } else { 5 }),
    };
    assert_eq!(line.place(), sent.unwrap_or(place));
    (sent, before, all)
}

// Each call with each set of wrongs.
#[test]
fn refusals_in_their_order() {
    let calls = [
        (Call::Client, WRONGS - 1, Refusal::BadClass),
        (Call::Pause, WRONGS - 1, Refusal::OtherFlow),
        (Call::Pfc, WRONGS - 1, Refusal::OtherFlow),
        (Call::Idle, WRONGS - 1 - SETTINGS - DEFICIT, Refusal::NoRoom),
    ];
    for wrongs in 0..WRONGS {
        for (call, looks_at, later) in calls {
            let (sent, before, all) = with_wrongs(call, wrongs);
            let expected = first(wrongs & looks_at, later);
            assert_eq!(sent.err(), expected, "{call:?}, {wrongs}");
            // a refused call leaves everything
            assert_eq!(before == all, expected.is_some(), "{call:?}, {wrongs}");
        }
    }
}

#[test]
fn refusals_of_the_question_and_of_filling() {
    for wrongs in 0..WRONGS {
        let has = |bit| wrongs & bit != 0;
        let mut all = All::new();
        if has(HIGH) {
            all.totals[3] = 0xFFFF;
        }
        let before = all.clone();
        let marks = &mut all.marks[usize::from(has(BUFFERS))..];
        let totals = &mut all.totals[usize::from(has(NUMBER))..];
        let mut line = Line::with_totals(&mut all.octets, marks, totals);
        let place = SHORT + usize::from(has(PLACE));
        let looks_at = BUFFERS | PLACE | NUMBER | HIGH;
        let expected = match first(wrongs & looks_at, Refusal::Held) {
            None => Ok(count(before.capture(), SHORT)),
            Some(refusal) => Err(refusal),
        };
        assert_eq!(line.starts_before(place), expected);
        // filling looks at no total, and puts a high one right
        let expected = first(wrongs & (BUFFERS | NUMBER), Refusal::Held);
        assert_eq!(line.refill().err(), expected);
        let totals = match expected {
            None => true_totals(before.capture()),
            Some(_) => before.totals,
        };
        assert_eq!(all.totals, totals);
    }
}

// One total too many or too few, and none at all; 256 is a total, and 257 is none, in any block.
#[test]
fn the_totals_that_are_refused() {
    for n in [0, 1, 3, 5, 256] {
        let mut all = All::new();
        let mut totals = vec![0; n];
        assert_eq!(
            all.capture().starts_before(&totals, 0),
            Err(Refusal::WrongTotals)
        );
        assert_eq!(
            all.capture().fill_totals(&mut totals),
            Err(Refusal::WrongTotals)
        );
        let refused = Line::new(&mut all.octets, &mut all.marks, &mut totals);
        assert_eq!(refused.unwrap_err(), Refusal::WrongTotals);
    }
    for k in 0..4 {
        let all = All::new();
        for (total, answer) in [
            (256, Ok(0)),
            (257, Err(Refusal::HighTotal)),
            (u16::MAX, Err(Refusal::HighTotal)),
        ] {
            let mut totals = all.totals.clone();
            totals[k] = total;
            assert_eq!(all.capture().starts_before(&totals, 0), answer);
        }
    }
}

// Buffers that are lent out may be written into; the totals follow when they are filled again.
#[test]
fn buffers_are_lent_out() {
    let mut all = All::new();
    let before = all.totals.clone();
    let mut line = Line::new(&mut all.octets, &mut all.marks, &mut all.totals).unwrap();
    let (octets, marks) = line.buffers();
    octets.fill(0xFB);
    marks.fill(1);
    assert_eq!(line.totals(), before);
    let false_one: u16 = before[..3].iter().sum();
    assert_eq!(line.starts_before(768), Ok(usize::from(false_one)));
    // a call counts the blocks anew that it writes into, and no other
    let mut state = State::default();
    assert_eq!(line.idle(&mut state, 0), Ok(0));
    assert_eq!(line.totals(), before);
    assert_eq!(line.idle(&mut state, 1), Ok(1));
    assert_eq!(line.totals()[0], 255);
    assert_eq!(line.totals()[1..], before[1..]);
    line.refill().unwrap();
    assert_eq!(line.totals(), [255, 256, 256, 232]);
    assert_eq!(line.starts_before(SHORT), Ok(999));
    assert_eq!(line.written().octets, [7]);
}
