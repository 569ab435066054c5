//! "The printing program".

use reference::print;

use crate::hand::{frame, ramp, Capture, BROADCAST, MULTICAST, OWN, START, TERMINATE};

fn records(capture: &Capture) -> Vec<u8> {
    let symbols = capture.marks.iter().zip(&capture.octets);
    symbols.flat_map(|(&mark, &octet)| [mark, octet]).collect()
}

#[test]
fn example() {
    let input = [0x01, 0xFB, 0x01, 0x07, 0x01, 0xFB, 0x00, 0x55, 0x01, 0xFD];
    assert_eq!(print(&input), "0 1 0 0\n2 2 0 0\nstarts 2 open 0\n");
}

#[test]
fn empty_and_open() {
    assert_eq!(print(&[]), "starts 0 open 0\n");
    assert_eq!(print(&[1, START]), "starts 0 open 1\n");
    assert_eq!(print(&[0, START]), "starts 0 open 0\n");
    assert_eq!(print(&[1, START, 1, START]), "0 1 0 0\nstarts 1 open 1\n");
}

#[test]
fn bad_input() {
    assert_eq!(print(&[1]), "bad input\n");
    assert_eq!(print(&[1, START, 1]), "bad input\n");
    assert_eq!(print(&[7; 65_535]), "bad input\n");
    assert_eq!(print(&[7; 65_536]), "starts 0 open 0\n");
    assert_eq!(print(&[7; 65_537]), "bad input\n");
    assert_eq!(print(&[7; 65_538]), "bad input\n");
}

#[test]
fn frames() {
    let capture = Capture::new()
        .data(&[START])
        .frame(&frame(OWN, &[45], &ramp(46)))
        .frame(&frame(BROADCAST, &[0x0800], &ramp(100)))
        .frame(&frame(MULTICAST, &[0x0800], &ramp(100)))
        .frame(&frame(OWN, &[0x8808], &ramp(46)))
        .control(START);
    let expected = format!(
        "1 11 {} 45\n74 11 {} 100\n201 7 0 0\n328 10 {} 0\nstarts 4 open 1\n",
        0x40_0040_002Du64, 0x10_0076_0064u64, 0x44_0040_002Eu64
    );
    assert_eq!(print(&records(&capture)), expected);
}

#[test]
fn any_mark_but_zero_is_control() {
    assert_eq!(
        print(&[255, START, 2, TERMINATE]),
        "0 2 0 0\nstarts 1 open 0\n"
    );
}
