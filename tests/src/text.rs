//! Lines, words and numbers of a text. Text is bytes.

use crate::plan::Few;

/// No longer text is read, and no sheet is longer.
pub const LONGEST_TEXT: usize = 262_144;

/// The last line may lack its line feed.
pub fn lines(text: &[u8]) -> impl Iterator<Item = &[u8]> {
    text.split_inclusive(|&byte| byte == b'\n')
}

/// The words in front of a comment, and no more than `MOST` of them.
pub fn words<const MOST: usize>(line: &[u8]) -> Few<&[u8], MOST> {
    let mut rest = line;
    let next_word = || {
        let first = rest.iter().position(|&byte| !parts_words(byte)).unwrap_or(rest.len());
        let word = &rest[first..];
        let end = word.iter().position(|&byte| parts_words(byte) || byte == b'#');
        let (word, behind) = word.split_at(end.unwrap_or(word.len()));
        rest = behind;
        (!word.is_empty()).then_some(word)
    };
    std::iter::from_fn(next_word).collect()
}

fn parts_words(byte: u8) -> bool {
    matches!(byte, b' ' | b'\t' | b'\r' | b'\n')
}

/// A run of digits that stands for less than 2^64.
pub fn number(word: &[u8]) -> Option<u64> {
    if word.is_empty() {
        return None;
    }
    word.iter().try_fold(0u64, |value, &byte| {
        let digit = char::from(byte).to_digit(10)?;
        value.checked_mul(10)?.checked_add(digit.into())
    })
}

/// As long as any number with its sign.
pub const LONGEST_NUMBER: usize = 20;

/// Writes a number's digits at the right end of the bytes, and gives where they begin.
pub fn put_digits(bytes: &mut [u8], number: u64) -> usize {
    let mut left = number;
    let mut first = bytes.len();
    loop {
        first -= 1;
        bytes[first] = b'0' + (left % 10) as u8;
        left /= 10;
        if left == 0 {
            return first;
        }
    }
}
