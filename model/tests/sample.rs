//! The paper's sample input and its output, byte for byte; the B lines have the
//! shortfall (02, Five), the T lines the racks withdrawn (02, Seven).

use model::program::run_bytes;

const INPUT: &[u8] = b"D,1\nA,1,1,1\nA,2,2,1\nA,3,2,0\nB\nB\nB\n";

const OUTPUT: &[u8] = b"D,1
A,1,1
A,2,2
A,3,2
B,1,3,0,1,1
G,1,1,1
B,2,2,1,0,0
B,3,0,0,0,0
T,0,1,1,0,0
T,1,2,1,1,0
";

#[test]
fn sample_whole() {
    assert_eq!(run_bytes(INPUT), OUTPUT);
}

#[test]
fn sample_without_its_last_line_end() {
    assert_eq!(run_bytes(&INPUT[..INPUT.len() - 1]), OUTPUT);
}
