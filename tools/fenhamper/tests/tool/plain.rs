//! `list --plain` is what the printing program prints.
use crate::common::{kept, sample, skipped, tool, tool_on, SAMPLES};
use crate::drawn::{noise, traffic, Random};
use std::io::{Cursor, Write};
use std::process::{Command, Stdio};

#[test]
fn on_every_sample() {
    for name in SAMPLES {
        let expected = kept(&format!("samples/{name}.txt"));
        let said = tool(&["list", "--plain", &sample(name)]).good();
        assert!(said.out == expected, "{name}");
    }
}

#[test]
fn bad_input_is_said_as_it_is_there() {
    let said = tool(&["list", "--plain", "samples/odd.capture"]).bad("169 octets are no whole");
    assert_eq!(said.out, kept("samples/odd.txt"));
}

// Held to the second program, which prints by itself what document 01 asks for.
fn agree(input: &[u8]) {
    let said = tool_on(&["list", "--plain", "-"], &mut Cursor::new(input));
    assert!(said.text() == reference::print(input), "{input:02X?}");
    assert_eq!(said.code, if input.len() % 2 == 0 { 0 } else { 2 });
}

#[test]
fn on_drawn_inputs() {
    let mut random = Random(26);
    for n in 0..400 {
        let symbols = random.one(&[0, 5, 100, 300, 900, 3000]) + n % 7;
        let mut input = if n % 4 == 0 {
            noise(&mut random, symbols)
        } else {
            traffic(&mut random, symbols)
        };
        if random.below(20) == 0 {
            input.pop();
        }
        agree(&input);
    }
}

#[test]
fn on_the_largest_inputs() {
    let mut random = Random(27);
    let most = 2 * 32_768;
    let mut frames = traffic(&mut random, 32_768);
    frames.truncate(most);
    for input in [
        [1, 0xFB].repeat(32_768),
        [0, 0xFB].repeat(32_768),
        [1, 0xFB, 1, 0xFD].repeat(16_384),
        noise(&mut random, 32_768),
        frames,
    ] {
        agree(&input);
        agree(&input[..most - 1]);
        agree(&input[..most - 2]);
    }
}

// Where the proved program has been built, what it prints itself.
#[test]
fn as_the_program_prints() {
    let built = crate::common::root().join("target/bin/readings");
    if !built.is_file() {
        skipped("what the program readings itself prints, since target/bin has none");
        return;
    }
    let mut random = Random(28);
    let drawn = (0..40).map(|n| traffic(&mut random, 50 * n));
    let samples = SAMPLES.map(|name| kept(&sample(name)));
    for input in samples.into_iter().chain(drawn) {
        let mut program = Command::new("tools/run_x86_64");
        program.arg("target/bin/readings").stdin(Stdio::piped());
        let mut program = program.stdout(Stdio::piped()).spawn().unwrap();
        program.stdin.take().unwrap().write_all(&input).unwrap();
        let printed = program.wait_with_output().unwrap().stdout;
        let said = tool_on(&["list", "--plain", "-"], &mut Cursor::new(&input));
        assert!(said.out == printed);
    }
}
