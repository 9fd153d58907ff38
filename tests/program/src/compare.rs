//! Outputs compared, to the byte.

/// The first line, from 1, at which two outputs differ, if they do.
pub fn difference(printed: &[u8], expected: &[u8]) -> Option<usize> {
    if printed == expected {
        return None;
    }
    let (printed, expected) = (lines(printed), lines(expected));
    let pairs = printed.iter().zip(&expected);
    Some(pairs.take_while(|(a, b)| a == b).count() + 1)
}

/// The lines, each with its end.
fn lines(output: &[u8]) -> Vec<&[u8]> {
    output.split_inclusive(|byte| *byte == b'\n').collect()
}

#[cfg(test)]
mod tests {
    use super::difference;

    #[test]
    fn given_up_lines_have_their_order() {
        let one = b"B,1,3,0,2,2\nG,1,2,1\nG,1,1,2\nB,2,0,0,0,0\n";
        let other = b"B,1,3,0,2,2\nG,1,1,2\nG,1,2,1\nB,2,0,0,0,0\n";
        let moved = b"B,1,3,0,2,2\nG,1,2,1\nB,2,0,0,0,0\nG,1,1,2\n";
        let twice = b"B,1,3,0,2,2\nG,1,2,1\nG,1,2,1\nB,2,0,0,0,0\n";
        assert_eq!(difference(one, one), None);
        assert_eq!(difference(one, other), Some(2));
        assert_eq!(difference(one, moved), Some(3));
        assert_eq!(difference(one, twice), Some(3));
    }

    #[test]
    fn a_missing_line_end_is_a_difference() {
        assert_eq!(
            difference(b"D,1\nT,0,0,0,0,0", b"D,1\nT,0,0,0,0,0\n"),
            Some(2)
        );
        assert_eq!(difference(b"D,1\n", b"D,1\nR,2,12\n"), Some(2));
    }

    #[test]
    fn a_byte_is_a_difference() {
        assert_eq!(difference(b"", b""), None);
        assert_eq!(difference(b"  1 0\n  2 0\n", b"  1 0\n  2 0\n"), None);
        assert_eq!(difference(b"  1 0\n 2  0\n", b"  1 0\n  2 0\n"), Some(2));
        assert_eq!(difference(b"  1 0\n  2 0\n", b"  1 0\n  2 0"), Some(2));
        assert_eq!(difference(b"  1 0\n", b""), Some(1));
        assert_eq!(difference(b"  1 0\n", b"  1 0\n  2 0\n"), Some(2));
    }
}
