//! Questions between the lines of a day: what can still be promised?

use crate::draw::Draw;

/// The lines with a question after about one in so many of them, now and then with
/// two or more. The lines stay as they are; each of them has its end.
pub fn with_questions(draw: &mut Draw, lines: &[u8], seldom: u32) -> Vec<u8> {
    let mut bytes = Vec::new();
    for line in lines.split_inclusive(|&byte| byte == b'\n') {
        bytes.extend_from_slice(line);
        while draw.one_in(seldom) {
            bytes.extend_from_slice(b"Q\n");
        }
    }
    bytes
}
