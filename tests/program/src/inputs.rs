//! The inputs.

use model::inputs::{Kind, KINDS};
use model::limits::{LONGEST_LAXITY, MOST_PER_SLOT};

/// Bytes that the program reads at once, at the most.
const READ_BUFFER: usize = 65_536;

/// Closings of a day about as many as pages hold.
const CLOSINGS: [u32; 7] = [0, 1, 47, 48, 49, 96, 97];

pub struct Case {
    pub name: String,
    pub bytes: Vec<u8>,
    /// Bytes written to the program at a time; 0 for all at once.
    pub piece: usize,
    /// What must be printed, where the paper says it; else the model says it.
    pub expected: Option<Vec<u8>>,
}

pub fn all() -> Vec<Case> {
    let mut cases = vec![
        sample(),
        board_nine(),
        given_up(),
        shortfall(),
        promise(),
        sold_out(),
        withdrawals(),
    ];
    cases.extend(generated());
    cases.extend(in_pieces());
    cases.extend(at_the_buffer());
    cases
}

fn case(name: String, bytes: Vec<u8>, piece: usize) -> Case {
    Case {
        name,
        bytes,
        piece,
        expected: None,
    }
}

/// 01's sample session.
fn sample() -> Case {
    let bytes = b"D,1\nA,1,1,1\nA,2,2,1\nA,3,2,0\nB\nB\nB\n".to_vec();
    let expected = b"D,1\nA,1,1\nA,2,2\nA,3,2\nB,1,3,0,1,1\nG,1,1,1\nB,2,2,1,0,0\nB,3,0,0,0,0\nT,0,1,1,0,0\nT,1,2,1,1,0\n".to_vec();
    Case {
        name: "sample".to_string(),
        bytes,
        piece: 0,
        expected: Some(expected),
    }
}

/// 01's board 9 as far as lines can say it; its last slot is in the kind `end`.
fn board_nine() -> Case {
    let (longest, longer) = (LONGEST_LAXITY, LONGEST_LAXITY + 1);
    let waits = format!("D,0\nA,1,{longest},0\nA,2,{longer},0\nA,2,0,0\nA,1,1,0\nA,1,{longer},0\n");
    let mut bytes = waits.into_bytes();
    let mut expected = format!("D,0\nA,1,{longest}\nR,3,5\nR,4,5\nR,5,4\nR,6,4\n").into_bytes();
    for ticket in 2..=8 {
        bytes.extend(format!("A,{ticket},5,0\n").bytes());
        expected.extend(format!("A,{ticket},5\n").bytes());
    }
    bytes.extend(b"A,9,5,0\n");
    expected.extend(b"R,14,7\n");
    bytes.extend(
        [b'7'; 40]
            .iter()
            .chain(b"\n")
            .chain(&[b'7'; 41])
            .chain(b"\n"),
    );
    expected.extend(b"R,15,12\nR,16,11\nT,0,8,0,0,0\n");
    Case {
        name: "board 9".to_string(),
        bytes,
        piece: 0,
        expected: Some(expected),
    }
}

/// Six racks given up in one slot, 'by grade from best to worst, within a grade by
/// rising ticket' (02, Four), tickets of one, two and three digits.
fn given_up() -> Case {
    let bytes = b"D,3\nA,8,2,6\nA,9,2,1\nA,10,2,6\nA,11,3,0\nA,12,2,1\nB\nA,13,1,7\nA,99,1,6\nA,100,1,1\nA,101,1,0\nB\nB\n".to_vec();
    let mut expected =
        b"D,3\nA,8,2\nA,9,2\nA,10,2\nA,11,3\nA,12,2\nB,1,9,1,0,2\nA,13,2\nA,99,2\nA,100,2\nA,101,2\n"
            .to_vec();
    expected.extend(
        b"B,2,101,0,6,6\nG,2,12,1\nG,2,100,1\nG,2,8,6\nG,2,10,6\nG,2,99,6\nG,2,13,7\nB,3,11,0,0,0\n",
    );
    expected.extend(
        b"T,0,2,2,0,0\nT,1,3,1,2,0\nT,2,0,0,0,0\nT,3,0,0,0,0\nT,4,0,0,0,0\nT,5,0,0,0,0\nT,6,3,0,3,0\nT,7,1,0,1,0\n",
    );
    Case {
        name: "racks given up".to_string(),
        bytes,
        piece: 0,
        expected: Some(expected),
    }
}

/// Four racks for three slots: 'how many are lost already' (02, Five) is said from the
/// first slot on, two slots before the rack is given up.
fn shortfall() -> Case {
    let bytes = b"D,1\nA,1,3,1\nA,2,3,0\nA,3,3,1\nA,4,3,0\nB\nB\nB\nB\n".to_vec();
    let mut expected =
        b"D,1\nA,1,3\nA,2,3\nA,3,3\nA,4,3\nB,1,2,0,0,1\nB,2,4,0,0,1\nB,3,1,1,1,1\nG,3,3,1\n"
            .to_vec();
    expected.extend(b"B,4,0,0,0,0\nT,0,2,2,0,0\nT,1,2,1,1,0\n");
    Case {
        name: "shortfall".to_string(),
        bytes,
        piece: 0,
        expected: Some(expected),
    }
}

/// 'What can we still promise?' (02, Six): the last full wait counts and not the first,
/// and a rack that is lost already leaves nothing to promise.
fn promise() -> Case {
    let bytes =
        b"Q\nD,1\nQ\nA,1,1,1\nQ\nA,2,4,0\nA,3,4,1\nA,4,4,0\nQ\nA,5,4,1\nQ\nB\nQ\nB\nQ\nQ,\nq\n"
            .to_vec();
    let mut expected =
        b"R,1,15\nD,1\nQ,1\nA,1,1\nQ,2\nA,2,4\nA,3,4\nA,4,4\nQ,5\nA,5,4\nQ,0\n".to_vec();
    expected.extend(b"B,1,2,0,1,1\nG,1,1,1\nQ,4\nB,2,4,0,0,0\nQ,3\nR,16,13\nR,17,12\n");
    expected.extend(b"T,0,2,2,0,0\nT,1,3,0,1,0\n");
    Case {
        name: "promise".to_string(),
        bytes,
        piece: 0,
        expected: Some(expected),
    }
}

/// Racks of the longest wait, eight in each slot: each slot bakes one, and seven more are left. In the last slot so many
/// come that there are as many racks as slots up to the longest wait, so nothing can be promised, though none is lost.
fn sold_out() -> Case {
    let (mut bytes, mut expected) = (b"D,0\n".to_vec(), b"D,0\n".to_vec());
    let mut line = |asked: String, told: String| {
        bytes.extend(asked.bytes());
        expected.extend(told.bytes());
    };
    let (longest, eight) = (LONGEST_LAXITY, MOST_PER_SLOT as u32);
    let slots = (longest - 1) / (eight - 1);
    for slot in 1..=slots {
        for ticket in eight * (slot - 1) + 1..=eight * slot {
            line(
                format!("A,{ticket},{longest},0\n"),
                format!("A,{ticket},{}\n", slot + longest - 1),
            );
        }
        line("B\n".to_string(), format!("B,{slot},{slot},0,0,0\n"));
    }
    let (now, left) = (slots + 1, longest - (eight - 1) * slots);
    for number in 1..=left {
        let ticket = eight * slots + number;
        line(
            format!("A,{ticket},{longest},0\nQ\n"),
            format!(
                "A,{ticket},{}\nQ,{}\n",
                slots + longest,
                u32::from(number < left)
            ),
        );
    }
    line(
        "B\nQ\n".to_string(),
        format!(
            "B,{now},{now},0,0,0\nQ,{longest}\nT,0,{},{now},0,0\n",
            eight * slots + left
        ),
    );
    Case {
        name: "sold out".to_string(),
        bytes,
        piece: 0,
        expected: Some(expected),
    }
}

/// Racks taken back (02, Seven): three racks for two slots, and one of them withdrawn. 17 for a ticket of this slot, one
/// that is withdrawn, baked or 0; 4 for a withdrawn ticket that is admitted again.
fn withdrawals() -> Case {
    let mut bytes = b"W,1\nD,1\nA,1,2,1\nA,2,2,0\nA,3,2,1\nW,1\nB\nW,01\nW,1\nA,1,1,0\n".to_vec();
    bytes.extend(b"W,2\nW,0\nW,0000000003\nA,4,2,1\nW\nW,\nW,1,\nw,1\nW,00000000003\nB\nB\nW,4\n");
    let mut expected =
        b"R,1,15\nD,1\nA,1,2\nA,2,2\nA,3,2\nR,6,17\nB,1,2,0,0,1\nW,1\nR,9,17\nR,10,4\n".to_vec();
    expected.extend(b"R,11,17\nR,12,17\nW,3\nA,4,3\nR,15,13\nR,16,14\nR,17,13\nR,18,12\nR,19,14\n");
    expected.extend(b"B,2,4,1,0,0\nB,3,0,0,0,0\nR,22,17\nT,0,1,1,0,0\nT,1,3,1,0,2\n");
    Case {
        name: "withdrawals".to_string(),
        bytes,
        piece: 0,
        expected: Some(expected),
    }
}

/// Each kind many times, short and long.
fn generated() -> Vec<Case> {
    let mut cases = Vec::new();
    for kind in &KINDS {
        if kind.name == "end" {
            cases.push(case("end".to_string(), kind.input(1, None), 0));
            continue;
        }
        for seed in 0..300 {
            cases.push(case(
                format!("{} {seed}", kind.name),
                kind.input(seed, size(kind, seed as usize)),
                0,
            ));
        }
    }
    cases
}

/// The size of a kind's input, the sizes in turn.
fn size(kind: &Kind, turn: usize) -> Option<u32> {
    if kind.name == "pages" {
        return Some(CLOSINGS[turn % CLOSINGS.len()]);
    }
    [None, Some(1), Some(3), Some(20)][turn % 4]
}

/// Small days, and days of three pages, written a few bytes at a time.
fn in_pieces() -> Vec<Case> {
    let mut cases = Vec::new();
    for (number, kind) in KINDS.iter().filter(|kind| kind.name != "end").enumerate() {
        for piece in [1, 2, 3, 7, 40] {
            let seed = (1_000 + number) as u64;
            let size = if kind.name == "pages" { 97 } else { 10 };
            cases.push(case(
                format!("{} by {piece}", kind.name),
                kind.input(seed, Some(size)),
                piece,
            ));
        }
    }
    cases
}

/// A day that the end of the read buffer cuts at every place of its first lines.
fn at_the_buffer() -> Vec<Case> {
    let day = b"D,2\nA,1,3,0\nA,2,1,3\nW,1\n\nA,4294967295,2,1\n0123456789012345678901234567890123456789x\nB\nB,\nB\n".to_vec();
    (0..=day.len())
        .map(|place| {
            let mut bytes = vec![b'\n'; READ_BUFFER - place];
            bytes.extend(&day);
            case(format!("buffer at {place}"), bytes, 0)
        })
        .collect()
}
