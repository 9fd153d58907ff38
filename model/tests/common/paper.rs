//! Lines of the sheet, written by 02's column numbers, and read by them.

/// Lines of a page.
pub const LINES: usize = 50;
/// Bytes of a page: 24 and a line end, 50 times.
pub const PAGE: usize = 1250;
/// 'The heading reads SLOT, TICKET, G, OUT, each ending in its field's last column.'
pub const HEADING: &str = "   SLOT     TICKET G OUT";
/// A line of spaces.
pub const SPACES: &str = "                        ";

/// A line of 24 bytes: each figure ends in its column, from 1; spaces elsewhere.
fn line(figures: &[(usize, u32)]) -> String {
    let mut line = SPACES.to_string();
    for &(last, figure) in figures {
        let digits = figure.to_string();
        line.replace_range(last - digits.len()..last, &digits);
    }
    line
}

/// The line of a closing: slot, ticket, grade, racks given up.
pub fn closing([slot, ticket, grade, given_up]: [u32; 4]) -> String {
    line(&[(7, slot), (18, ticket), (20, grade), (24, given_up)])
}

/// The line of totals: racks baked, racks given up.
pub fn totals(baked: u32, given_up: u32) -> String {
    line(&[(18, baked), (24, given_up)])
}

/// The text of a page with these lines of closings and this line of totals.
pub fn page<L: AsRef<str>>(closings: &[L], totals: &str) -> String {
    let mut lines = vec![HEADING];
    lines.extend(closings.iter().map(|line| line.as_ref()));
    lines.resize(LINES - 1, SPACES);
    lines.push(totals);
    lines.iter().map(|line| format!("{line}\n")).collect()
}

/// The figures in these columns, from 1, both included, of a line; other columns
/// must be spaces, and no figure begins with a zero that it can do without.
pub fn figures<const N: usize>(line: &str, columns: [(usize, usize); N]) -> [u32; N] {
    let read = |(first, last): (usize, usize)| line[first - 1..last].trim_start().parse();
    let seen = columns.map(|field| read(field).expect("a figure"));
    let fields: Vec<_> = columns.iter().map(|field| field.1).zip(seen).collect();
    assert_eq!(self::line(&fields), line);
    seen
}
