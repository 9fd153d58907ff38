//! Eight decimal digits at a time, as the bytes of one word; the first byte is the lowest.

/// The digit 0 in every byte.
const ZEROS: u64 = 0x3030_3030_3030_3030;
/// The least number of nine digits.
pub const NINE_DIGITS: u32 = 100_000_000;

/// The word at the start of some bytes.
#[inline]
pub fn word(bytes: &[u8]) -> u64 {
    let mut word = [0; 8];
    word.copy_from_slice(&bytes[..8]);
    u64::from_le_bytes(word)
}

/// How many digits a word begins with.
#[inline]
pub fn count(word: u64) -> usize {
    let values = word ^ ZEROS;
    let others = (values.wrapping_add(0x7676_7676_7676_7676) | values) & 0x8080_8080_8080_8080;
    others.trailing_zeros() as usize / 8
}

/// The number written by the first digits of a word, 1 to 8 of them.
#[inline]
pub fn value(word: u64, count: usize) -> u32 {
    let ones = (word ^ ZEROS) << (64 - 8 * count);
    let pairs = (ones.wrapping_mul(1 + (10 << 8)) >> 8) & 0x00ff_00ff_00ff_00ff;
    let fours = (pairs.wrapping_mul(1 + (100 << 16)) >> 16) & 0x0000_ffff_0000_ffff;
    (fours.wrapping_mul(1 + (10_000 << 32)) >> 32) as u32
}

/// The digits of a number below 100,000,000, zeros in front, as values.
#[inline]
fn values(number: u32) -> u64 {
    let number = u64::from(number);
    let fours = (number / 10_000) | ((number % 10_000) << 32);
    let hundreds = ((fours * 10_486) >> 20) & 0x0000_007f_0000_007f;
    let pairs = (fours - 100 * hundreds) << 16 | hundreds;
    let tens = ((pairs * 103) >> 10) & 0x000f_000f_000f_000f;
    (pairs - 10 * tens) << 8 | tens
}

/// A number below 100,000,000 without zeros in front: a word that begins with its digits, and how many they are.
#[inline]
pub fn of(number: u32) -> (u64, usize) {
    let values = values(number);
    // the last digit is printed even if it is a zero
    let before = (values | 1 << 56).trailing_zeros() / 8;
    ((values | ZEROS) >> (8 * before), 8 - before as usize)
}

/// The last eight digits of a number, zeros in front with them.
pub fn last_eight(number: u32) -> u64 {
    values(number % NINE_DIGITS) | ZEROS
}
