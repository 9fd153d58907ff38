//! Both programs print what the model prints, to the byte, on generated inputs without questions and withdrawals, valid and damaged.

use benchmark::board::Board;
use benchmark::counter::Counter;
use benchmark::program;
use benchmark::sorter::Sorter;
use model::inputs::{self, KINDS};
use model::program::run_bytes;
use std::io::{self, Read};

/// Inputs of each kind.
const SEEDS: u64 = 40;
/// The kind that always has a million lines has fewer.
const LONG_SEEDS: u64 = 2;

/// Hands its bytes on so many at a time.
struct InPieces<'a> {
    bytes: &'a [u8],
    piece: usize,
}

impl Read for InPieces<'_> {
    fn read(&mut self, buffer: &mut [u8]) -> io::Result<usize> {
        let length = self.piece.min(buffer.len());
        self.bytes.read(&mut buffer[..length])
    }
}

/// An input without the lines that begin as a question or a withdrawal, which these programs do not know.
fn without_others(input: &[u8]) -> Vec<u8> {
    let lines = input.split_inclusive(|&byte| byte == b'\n');
    let known = lines.filter(|line| !matches!(line[0], b'Q' | b'W'));
    known.flatten().copied().collect()
}

fn printed<B: Board>(bytes: &[u8], piece: usize) -> Vec<u8> {
    let mut output = Vec::new();
    program::run::<B>(InPieces { bytes, piece }, &mut output).expect("memory");
    output
}

/// Compares both programs with the model, the input in one piece and in pieces that end anywhere.
fn compare(name: &str, input: &[u8], small: usize) {
    let expected = run_bytes(input);
    for piece in [usize::MAX, small] {
        let said = format!("{name}, {piece} bytes at a time");
        assert!(
            expected == printed::<Sorter>(input, piece),
            "{said}: sorting"
        );
        assert!(
            expected == printed::<Counter>(input, piece),
            "{said}: counts"
        );
    }
}

#[test]
fn generated_inputs() {
    for kind in KINDS.iter().filter(|kind| kind.name != "end") {
        for seed in 0..SEEDS {
            let input = without_others(&kind.input(seed, None));
            let name = format!("{} {seed}", kind.name);
            compare(&name, &input, 1 + seed as usize % 50);
        }
    }
}

#[test]
fn the_end_of_the_book() {
    let kind = inputs::find("end").expect("a kind of that name");
    for seed in 0..LONG_SEEDS {
        let input = without_others(&kind.input(seed, None));
        compare(&format!("end {seed}"), &input, 4093);
    }
}

#[test]
fn long_days() {
    let kind = inputs::find("long").expect("a kind of that name");
    for seed in 0..4 {
        compare("long", &kind.input(seed, Some(20_000)), 65_521);
    }
}

/// Lines that stand about where the buffers end, which hold 65,536 bytes.
#[test]
fn at_the_end_of_the_buffers() {
    for before in 65_536 - 45..65_536 + 3 {
        let mut input = vec![b'7'; before];
        input.extend(b"\nD,2\nA,10,24,3\nA,11,1,\nA,4294967295,024,0\nB\nB");
        compare(&format!("{before} bytes before"), &input, 65_536);
    }
}
