//! What `Counted::frame` shows, against what was put on the line and against the status word.
use fenhamper::{
    fcs, limits, Address, Capture, Counted, Flow, Outcome, Reading, Settings, Station, Status, Tag,
};

const OWN: Address = Address([0x02, 0, 0, 0, 0, 1]);
const SOURCE: Address = Address([0x02, 0, 0, 0, 0, 9]);
const IPV4: u16 = 0x0800;
const CONTROL: u16 = 0x8808;

// A frame that may break any rule.
#[derive(Clone)]
struct Made {
    destination: Address,
    tags: Vec<Tag>,
    field: u16,
    data: Vec<u8>,
}

impl Made {
    fn new(tags: &[Tag], field: u16, data: &[u8]) -> Made {
        Made {
            destination: OWN,
            tags: tags.to_vec(),
            field,
            data: data.to_vec(),
        }
    }

    // From destination to FCS.
    fn octets(&self) -> Vec<u8> {
        let mut octets = [self.destination.as_ref(), SOURCE.as_ref()].concat();
        for tag in &self.tags {
            octets.extend(tag.kind.number().to_be_bytes());
            octets.extend(tag.control.to_be_bytes());
        }
        octets.extend(self.field.to_be_bytes());
        octets.extend(&self.data);
        let check = fcs(&octets);
        octets.extend(check.to_le_bytes());
        octets
    }
}

const PREAMBLE: [u8; 7] = [0x55, 0x55, 0x55, 0x55, 0x55, 0x55, 0xD5];

// Start, these octets as data, and an ending control symbol.
fn line(run: &[u8], end: u8) -> (Vec<u8>, Vec<u8>) {
    let octets = [&[0xFB], run, &[end]].concat();
    let mut marks = vec![0; octets.len()];
    marks[0] = 1;
    *marks.last_mut().unwrap() = 1;
    (octets, marks)
}

fn framed(frame: &[u8]) -> Vec<u8> {
    [&PREAMBLE[..], frame].concat()
}

// The reading of the one Start of a line, lent to a test.
fn read(settings: Settings, run: &[u8], end: u8, test: impl FnOnce(&Counted)) {
    let (octets, marks) = line(run, end);
    let capture = Capture::new(&octets, &marks);
    let reading = Station::new(settings).read(capture, 0);
    let Ok(Reading::Counted(counted)) = reading else {
        panic!("{reading:?}");
    };
    assert_eq!(counted.run(), run);
    // a part of the capture, not a copy
    assert_eq!(counted.run().as_ptr(), octets[1..].as_ptr());
    test(&counted);
}

// What the view shows is what was made.
fn shows(counted: &Counted, made: &Made) {
    let frame = counted.frame();
    let octets = made.octets();
    assert_eq!(frame.octets(), octets);
    assert_eq!(frame.destination(), Some(made.destination));
    assert_eq!(frame.source(), Some(SOURCE));
    assert!(frame.tags().eq(made.tags.iter().copied()));
    assert_eq!(frame.field(), Some(made.field));
    assert_eq!(frame.data(), Some(&made.data[..]));
    let covered = &octets[..octets.len() - 4];
    assert_eq!(frame.covered(), Some(covered));
    assert_eq!(frame.fcs(), Some(fcs(covered)));
    assert_eq!(
        frame.is_control(),
        made.tags.is_empty() && made.field == CONTROL
    );
}

// The view agrees with a status word that is not 0, and with what is handed out.
fn agrees(counted: &Counted, checking: bool) {
    let (frame, status) = (counted.frame(), counted.status);
    let destination = frame.destination().unwrap();
    let tags = frame.tags().count();
    let data = frame.data().unwrap();
    let broadcast = destination == Address::BROADCAST;
    assert_eq!(status.broadcast(), broadcast);
    assert_eq!(status.multicast(), destination.is_group() && !broadcast);
    assert_eq!(status.unicast(), !destination.is_group());
    assert_eq!(status.tagged(), tags == 1);
    assert_eq!(status.stacked(), tags >= 2);
    assert_eq!(status.control(), frame.is_control());
    assert_eq!(usize::from(status.frame_length()), frame.octets().len());
    assert_eq!(frame.fcs(), frame.covered().map(fcs));
    if counted.outcome == Outcome::HandedOut {
        let field = usize::from(frame.field().unwrap());
        let unpadded = if checking && field < limits::LEAST_DATA {
            field
        } else {
            data.len()
        };
        assert_eq!(counted.data, &data[..unpadded]);
        assert_eq!(counted.data.as_ptr(), data.as_ptr());
        assert_eq!(usize::from(status.data_length()), unpadded);
    } else {
        assert_eq!(usize::from(status.data_length()), data.len());
    }
}

#[test]
fn every_outcome_shows_its_frame() {
    let settings = Settings::new(OWN).flow(Flow::Pause);
    let good = Made::new(&[Tag::service(7), Tag::customer(5)], IPV4, &[1; 50]);
    let mut pause = Made::new(&[], CONTROL, &[0; 46]);
    pause.data[..4].copy_from_slice(&[0, 1, 0, 9]);
    let mut pfc = pause.clone();
    pfc.data[0] = 1;
    let mut filtered = good.clone();
    filtered.destination = SOURCE;
    let cases = [
        (Outcome::Undersized, Made::new(&[], IPV4, &[2; 45])),
        (Outcome::Undersized, Made::new(&[], IPV4, &[])),
        (
            Outcome::Oversized,
            Made::new(&[Tag::customer(1)], IPV4, &[3; 1501]),
        ),
        (Outcome::WrongLength, Made::new(&[], 1501, &[4; 1501 - 1])),
        (Outcome::Filtered, filtered),
        (Outcome::PauseTaken, pause),
        (Outcome::ControlDropped, pfc.clone()),
        (Outcome::HandedOut, good.clone()),
    ];
    for (outcome, made) in cases {
        read(settings, &framed(&made.octets()), 0xFD, |counted| {
            assert_eq!(counted.outcome, outcome);
            shows(counted, &made);
            if counted.status != Status::default() {
                agrees(counted, true);
            }
        });
    }
    // PFC
    pfc.destination = Address::PAUSE_GROUP;
    read(
        settings.flow(Flow::Pfc),
        &framed(&pfc.octets()),
        0xFD,
        |counted| {
            assert_eq!(counted.outcome, Outcome::PfcTaken);
            shows(counted, &pfc);
            agrees(counted, true);
        },
    );
    // a wrong FCS is shown as it stands
    let mut octets = good.octets();
    *octets.last_mut().unwrap() ^= 0x80;
    read(settings, &framed(&octets), 0xFD, |counted| {
        let frame = counted.frame();
        assert_eq!(counted.outcome, Outcome::WrongFcs);
        assert_eq!(
            frame.fcs(),
            frame.covered().map(|covered| fcs(covered) ^ 1 << 31)
        );
        assert_eq!(frame.data(), Some(&[1; 50][..]));
    });
    // a frame with a wrong preamble
    let mut run = framed(&good.octets());
    run[3] = 0;
    read(settings, &run, 0xFD, |counted| {
        assert_eq!(counted.outcome, Outcome::BadPreamble);
        shows(counted, &good);
    });
}

#[test]
fn a_cut_frame_is_shown_as_far_as_it_goes() {
    let tags = [Tag::service(0x8100), Tag::customer(0x88A8)];
    let made = Made::new(&tags, IPV4, &[6; 46]);
    let run = framed(&made.octets());
    for length in 0..=run.len() {
        // by a Terminate it is bad preamble, undersized or whole
        for end in [0x07, 0xFB, 0xFD, 0xFE] {
            read(Settings::new(OWN), &run[..length], end, |counted| {
                let cut = end != 0xFD;
                assert_eq!(counted.outcome == Outcome::Cut, cut);
                let frame = counted.frame();
                let there = length.saturating_sub(7);
                let has = |octets: usize| there >= octets;
                assert_eq!(frame.octets(), &made.octets()[..there]);
                assert_eq!(frame.destination(), has(6).then_some(OWN));
                assert_eq!(frame.source(), has(12).then_some(SOURCE));
                let expected: Vec<_> = (0..2)
                    .filter(|k| has(16 + 4 * k))
                    .map(|k| tags[k])
                    .collect();
                assert_eq!(frame.tags().collect::<Vec<_>>(), expected);
                // where the second tag control is not whole, its kind is all that is known
                let field = match there {
                    14..=15 => Some(0x88A8),
                    18..=19 => Some(0x8100),
                    22.. => Some(IPV4),
                    _ => None,
                };
                assert_eq!(frame.field(), field);
                assert_eq!(frame.fcs().is_some(), !cut && has(4));
                assert_eq!(frame.covered().is_some(), !cut && has(4));
                if has(22) {
                    let data = &frame.octets()[22..];
                    let data = if cut {
                        Some(data)
                    } else {
                        data.len().checked_sub(4).map(|n| &data[..n])
                    };
                    assert_eq!(frame.data(), data);
                }
                assert!(!format!("{frame:?}").is_empty());
            });
        }
    }
}

#[test]
fn a_ninth_tag_is_a_type() {
    for count in 0..=8 {
        for ninth in [0x8100, 0x88A8] {
            let tags: Vec<_> = (0..count)
                .map(|k| {
                    if k % 2 == 0 {
                        Tag::service(k)
                    } else {
                        Tag::customer(k)
                    }
                })
                .collect();
            let field = if count == 8 { ninth } else { IPV4 };
            let made = Made::new(&tags, field, &[8; 46]);
            read(
                Settings::new(OWN),
                &framed(&made.octets()),
                0xFD,
                |counted| {
                    shows(counted, &made);
                    agrees(counted, true);
                },
            );
        }
    }
}

// Numbers from a fixed seed (xorshift).
struct Drawn(u64);

impl Drawn {
    fn below(&mut self, bound: u64) -> u64 {
        self.0 ^= self.0 << 13;
        self.0 ^= self.0 >> 7;
        self.0 ^= self.0 << 17;
        self.0 % bound
    }

    fn of<T: Copy>(&mut self, choices: &[T]) -> T {
        let bound = choices.len() as u64;
        choices[usize::try_from(self.below(bound)).unwrap()]
    }

    fn number(&mut self) -> u16 {
        u16::try_from(self.below(1 << 16)).unwrap()
    }

    fn made(&mut self) -> Made {
        let destinations = [OWN, OWN, SOURCE, Address::BROADCAST, Address::PAUSE_GROUP];
        let fields = [
            0, 45, 46, 47, 60, 1500, 1535, 1536, IPV4, CONTROL, CONTROL, 0x8100, 0x88A8,
        ];
        let tags = self.of(&[0, 0, 0, 1, 1, 2, 3, 7, 8, 9, 10]);
        let length = self.of(&[45, 46, 46, 46, 47, 60, 1500, 1501]);
        let tag = |_| {
            if self.below(2) == 0 {
                Tag::customer(self.number())
            } else {
                Tag::service(self.number())
            }
        };
        let tags = (0..tags).map(tag).collect();
        let mut data: Vec<u8> = (0..length)
            .map(|_| self.number().to_be_bytes()[0])
            .collect();
        // an opcode
        data[0] = self.of(&[0, 0, 1, 2]);
        data[1] = self.of(&[1, 1, 2]);
        Made {
            destination: self.of(&destinations),
            tags,
            field: self.of(&fields),
            data,
        }
    }
}

#[test]
fn drawn_frames_agree_with_their_status() {
    let mut drawn = Drawn(0x9E37_79B9_7F4A_7C15);
    let mut outcomes = [0; limits::OUTCOMES];
    for _ in 0..3000 {
        let made = drawn.made();
        let checking = drawn.below(4) > 0;
        let settings = Settings::new(OWN)
            .promiscuous(drawn.below(2) == 0)
            .checking(checking)
            .pass_control(drawn.below(2) == 0)
            .flow(drawn.of(&[Flow::Off, Flow::Pause, Flow::Pfc]));
        let mut octets = made.octets();
        if drawn.below(16) == 0 {
            octets[20] ^= 1;
        }
        read(settings, &framed(&octets), 0xFD, |counted| {
            outcomes[usize::from(counted.outcome.number() - 1)] += 1;
            assert_eq!(counted.frame().octets(), octets);
            if counted.status != Status::default() {
                agrees(counted, checking);
            }
        });
    }
    // all but cut and bad preamble
    assert!(outcomes[2..].iter().all(|&n| n > 0), "{outcomes:?}");
}

#[test]
fn readings_are_compared_by_answer_and_run() {
    let (octets, marks) = line(&framed(&Made::new(&[], IPV4, &[1; 46]).octets()), 0xFD);
    let mut station = Station::new(Settings::new(SOURCE));
    let once = station.read(Capture::new(&octets, &marks), 0).unwrap();
    let mut longer = (octets.clone(), marks.clone());
    longer.0.push(7);
    longer.1.push(1);
    assert_eq!(
        station.read(Capture::new(&longer.0, &longer.1), 0),
        Ok(once)
    );
    // the same answer, filtered, of another run
    let other = framed(&Made::new(&[], IPV4, &[2; 46]).octets());
    let (octets, marks) = line(&other, 0xFD);
    let other = station.read(Capture::new(&octets, &marks), 0).unwrap();
    assert_eq!((other.start(), other.next()), (once.start(), once.next()));
    assert_ne!(other, once);
    assert!(size_of::<Counted>() <= 72);
}
