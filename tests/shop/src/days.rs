//! The two programs, the days to feed them, and what they print.

/// A day in pieces, each with what is printed once it is written, and what is printed at the end of the day.
pub struct Day {
    pub pieces: Vec<(String, String)>,
    pub end: String,
}

impl Day {
    fn new(pieces: &[(&str, &str)], end: &str) -> Day {
        let pieces = pieces.iter().map(|(lines, printed)| (lines.to_string(), printed.to_string()));
        Day { pieces: pieces.collect(), end: end.to_string() }
    }

    pub fn lines(&self) -> Vec<u8> {
        self.pieces.iter().flat_map(|(lines, _)| lines.bytes()).collect()
    }

    /// What is printed before the end.
    pub fn begun(&self) -> Vec<u8> {
        self.pieces.iter().flat_map(|(_, printed)| printed.bytes()).collect()
    }

    pub fn printed(&self) -> Vec<u8> {
        [self.begun(), self.end.clone().into_bytes()].concat()
    }
}

/// A program, and its days.
pub struct Program {
    pub binary: String,
    /// It begins what it says on standard error with its name.
    pub name: &'static str,
    pub sample: Day,
    /// Lines in pieces, and one that has no end when the input ends.
    pub in_pieces: Day,
    /// A day of so many slots that bake nothing.
    pub empty_slots: fn(u32) -> Day,
    /// What it prints for three refused lines.
    pub refused: &'static str,
}

pub fn board(binary: &str) -> Program {
    let sample = [
        ("D,1\n", "D,1\n"),
        ("A,1,1,1\n", "A,1,1\n"),
        ("A,2,2,1\n", "A,2,2\n"),
        ("A,3,2,0\n", "A,3,2\n"),
        ("Q\n", "Q,0\n"),
        ("B\n", "B,1,3,0,1,1\nG,1,1,1\n"),
        ("Q\n", "Q,2\n"),
        ("W,3\n", "R,8,17\n"),
        ("B\n", "B,2,2,1,0,0\n"),
        ("B\n", "B,3,0,0,0,0\n"),
    ];
    let in_pieces = [("D", ""), (",1\nA,", "D,1\n"), ("7,3,0", "")];
    Program {
        binary: binary.to_string(),
        name: "oven",
        sample: Day::new(&sample, "T,0,1,1,0,0\nT,1,2,1,1,0\n"),
        in_pieces: Day::new(&in_pieces, "A,7,3\nT,0,1,0,0,0\nT,1,0,0,0,0\n"),
        empty_slots: answers_of_empty_slots,
        refused: "R,1,15\nR,2,12\nR,3,12\n",
    }
}

/// Its sample is 01's and goes on to slot 50: a page comes as soon as it is full, and the next one at the end.
pub fn sheet(binary: &str) -> Program {
    let first = ["1          3 0   1".to_string(), "2          2 1   0".to_string()];
    let first = first.into_iter().chain((3..=48).map(empty_slot));
    let second = [empty_slot(49), "50          9 1   0".to_string()];
    let closings = "B\n".repeat(44);
    let sample = [
        ("D,1\nA,1,1,1\nA,2,2,1\nA,3,2,0\n", ""),
        ("B\nB\nB\n", ""),
        (&closings, ""),
        ("B\n", &page(first, "2     1")),
        ("hello\nQ\nW,9\nB\n", ""),
        ("A,9,1,\nB\n", ""),
    ];
    let in_pieces = [("D", ""), (",1\nA,", ""), ("7,3,0\nB", "")];
    Program {
        binary: binary.to_string(),
        name: "sheet",
        sample: Day::new(&sample, &page(second, "1     0")),
        in_pieces: Day::new(&in_pieces, &page(["1          7 0   0".to_string()], "1     0")),
        empty_slots: pages_of_empty_slots,
        refused: "",
    }
}

fn answers_of_empty_slots(slots: u32) -> Day {
    let mut pieces = vec![("D,0\n".to_string(), "D,0\n".to_string())];
    pieces.extend((1..=slots).map(|slot| ("B\n".to_string(), format!("B,{slot},0,0,0,0\n"))));
    Day { pieces, end: "T,0,0,0,0,0\n".to_string() }
}

fn pages_of_empty_slots(slots: u32) -> Day {
    let numbers: Vec<u32> = (1..=slots).collect();
    let text = |numbers: &[u32]| page(numbers.iter().map(|slot| empty_slot(*slot)), "0     0");
    let full = numbers.chunks_exact(48);
    let rest = full.remainder();
    let mut pieces = vec![("D,0\n".to_string(), String::new())];
    pieces.extend(full.map(|numbers| ("B\n".repeat(48), text(numbers))));
    pieces.push(("B\n".repeat(rest.len()), String::new()));
    Day { pieces, end: if rest.is_empty() { String::new() } else { text(rest) } }
}

/// The line of a slot that bakes nothing, from its first figure on.
fn empty_slot(slot: u32) -> String {
    format!("{slot}          0 0   0")
}

/// A page of these slots, their lines and the totals given from their first figure on.
fn page(slots: impl IntoIterator<Item = String>, totals: &str) -> String {
    let mut lines = vec!["SLOT     TICKET G OUT".to_string()];
    lines.extend(slots);
    lines.resize(49, String::new());
    lines.push(totals.to_string());
    lines.iter().map(|line| format!("{line:>24}\n")).collect()
}
