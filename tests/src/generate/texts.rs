//! Texts of any sort, as a person or an editor may leave them.

use super::damage::below_or_few;
use super::random::Rng;
use crate::text::LONGEST_TEXT;
use std::ops::Range;
use std::slice::from_ref;

/// What is put into texts of a sort, besides numbers: words, and lines that begin or end its parts.
pub struct Sort {
    pub words: &'static [&'static str],
    pub lines: &'static [&'static [u8]],
}

/// Numbers at the ends of their ranges, and what is none.
const NUMBERS: [&str; 29] = [
    "-",
    "-0",
    "-1",
    "--1",
    "+1",
    "0",
    "1",
    "08",
    "010",
    "255",
    "256",
    "00000000000000000000000255",
    "65535",
    "65536",
    "4294967295",
    "4294967296",
    "18446744073709551615",
    "18446744073709551616",
    "184467440737095516150",
    "-18446744073709551615",
    "-18446744073709551616",
    "1_000",
    "1,000",
    "1.0",
    "0x1",
    "1-",
    "#",
    "#1",
    "1#",
];

const SEPARATORS: [&str; 8] = [" ", " ", " ", "  ", "\t", "\r", " \t ", "\u{b}"];

/// Often at an end of its range, seldom beyond it; now and then with zeros in front.
pub fn any_number(rng: &mut Rng, most: u64) -> String {
    let number = match rng.below(1_000) {
        0 => u128::from(most) + 1,
        1..200 => 0,
        200..400 => most.into(),
        _ => (rng.number() % most).into(),
    };
    let zeros = if rng.one_in(20) { rng.pick(&[1, 3, 40]) } else { 0 };
    "0".repeat(zeros) + &number.to_string()
}

impl Sort {
    /// Texts that a person or an editor may have made of a good one; one in five is left as it is.
    pub fn damage(&self, rng: &mut Rng, text: &mut Vec<u8>) {
        if rng.one_in(5) {
            return;
        }
        for _ in 0..rng.pick(&[1, 1, 1, 2, 5]) {
            self.damage_once(rng, text);
        }
    }

    fn damage_once(&self, rng: &mut Rng, text: &mut Vec<u8>) {
        match rng.below(25) {
            0..6 => change_bytes(rng, text),
            6..14 => self.change_words(rng, text),
            14..20 => self.change_lines(rng, text),
            20..24 => change_layout(rng, text),
            _ => lengthen(rng, text),
        }
    }

    pub fn any_words(&self, rng: &mut Rng) -> Vec<u8> {
        let mut text = String::new();
        for _ in 0..rng.below(40) {
            text += self.any_word(rng);
            text += if rng.one_in(5) { "\n" } else { rng.pick(&SEPARATORS) };
        }
        text.into_bytes()
    }

    fn any_word(&self, rng: &mut Rng) -> &'static str {
        let words = if rng.one_in(3) { self.words } else { &NUMBERS };
        rng.pick(words)
    }

    /// Words of a line lost, doubled, exchanged, replaced or put in; other spaces between them.
    fn change_words(&self, rng: &mut Rng, text: &mut Vec<u8>) {
        let line = any_line(rng, text);
        let old = String::from_utf8_lossy(&text[line.clone()]).into_owned();
        let mut words: Vec<&str> = old.split_whitespace().collect();
        if words.is_empty() {
            words.push("0");
        }
        let (one, other) = (rng.below(words.len()), rng.below(words.len()));
        match rng.below(6) {
            0 => drop(words.remove(one)),
            1 => words.insert(one, words[other]),
            2 => words.swap(one, other),
            3 | 4 => words[one] = self.any_word(rng),
            _ => words.insert(one, self.any_word(rng)),
        }
        let new = words.join(rng.pick(&SEPARATORS)) + "\n";
        drop(text.splice(line, new.into_bytes()));
    }

    /// Lines lost, doubled, moved or put in.
    fn change_lines(&self, rng: &mut Rng, text: &mut Vec<u8>) {
        let line = any_line(rng, text);
        let other = any_line(rng, text).start;
        let copy = text[line.clone()].to_vec();
        match rng.below(5) {
            0 => drop(text.drain(line)),
            1 => drop(text.splice(other..other, copy)),
            2 => drop(text.splice(line.clone(), [copy.as_slice(), &copy].concat())),
            _ => drop(text.splice(other..other, rng.pick(self.lines).iter().copied())),
        }
    }
}

/// What parts words, what almost does, and what a number may be mistaken for.
const BYTES: &[u8] = b" \t\r\n\x0b\x0c\0#-+.,_x09a\x80\xa0\xff";

/// Long texts, too, are damaged near their beginning.
const FIRST_LINES: usize = 400;

fn any_place(rng: &mut Rng, text: &[u8]) -> usize {
    below_or_few(rng, text.len() + 1, FIRST_LINES)
}

fn change_bytes(rng: &mut Rng, text: &mut Vec<u8>) {
    for _ in 0..rng.between(1, 3) {
        let at = any_place(rng, text);
        let behind = text.len().min(at + 1);
        let byte = rng.pick(BYTES);
        match rng.below(8) {
            0 => text.truncate(at),
            1 | 2 => drop(text.drain(at..behind)),
            3 | 4 => text.insert(at, byte),
            _ => drop(text.splice(at..behind, [byte])),
        }
    }
}

/// A line with its line feed.
fn any_line(rng: &mut Rng, text: &[u8]) -> Range<usize> {
    let (before, behind) = text.split_at(any_place(rng, text));
    let start = before.iter().rposition(|&byte| byte == b'\n').map_or(0, |at| at + 1);
    let rest = behind.iter().position(|&byte| byte == b'\n').map_or(behind.len(), |at| at + 1);
    start..before.len() + rest
}

/// Other line ends, spaces and comments, as an editor or a person may leave them.
fn change_layout(rng: &mut Rng, text: &mut Vec<u8>) {
    let all = |byte: u8, new: &'static [u8]| -> Vec<u8> {
        text.iter()
            .flat_map(|old| if *old == byte { new } else { from_ref(old) })
            .copied()
            .collect()
    };
    *text = match rng.below(10) {
        0 => all(b'\n', b"\r\n"),
        1 => all(b'\n', b"\r"),
        2 => all(b'\n', b"\n\n"),
        3 => all(b'\n', b" # a person's own # words\n"),
        4 => all(b' ', b"\t"),
        5 => all(b' ', b"  "),
        6 => all(b'#', b"# "),
        7 => all(b'#', b""),
        8 => comments_behind_words(text),
        _ => text.trim_ascii_end().to_vec(),
    };
}

fn comments_behind_words(text: &[u8]) -> Vec<u8> {
    let behind_words = |line: &[u8]| {
        let (told, comment) =
            line.split_at(line.iter().position(|&byte| byte == b'#').unwrap_or(0));
        [told.trim_ascii_end(), comment].concat()
    };
    text.split_inclusive(|&byte| byte == b'\n').flat_map(behind_words).collect()
}

/// As long as a text may be, or a byte beside it.
fn lengthen(rng: &mut Rng, text: &mut Vec<u8>) {
    let length = rng.pick(&[LONGEST_TEXT - 1, LONGEST_TEXT, LONGEST_TEXT, LONGEST_TEXT + 1]);
    if rng.one_in(2) {
        text.push(b'#');
    }
    text.resize(length, rng.pick(b" \n0"));
}
