//! The names and numbers of `include/olbiothar.h` and those of this crate are the same, and the version is one.

use olbiothar::{Edition, Reason, Refusal, Word};
use std::collections::BTreeMap;

const HEADER: &str = include_str!("../../include/olbiothar.h");

/// The names that have a number, without what all of them begin with.
fn header() -> BTreeMap<String, u64> {
    let lines = HEADER.lines().filter_map(|line| line.trim().strip_prefix("OLBIOTHAR_"));
    let numbered = lines.filter_map(|line| {
        let (name, value) = line.split_once(" = ")?;
        let digits = value.split([',', ' ']).next()?;
        let plain = value.trim_start_matches(digits).trim_start_matches(',').trim_start();
        let number = digits.parse().ok().filter(|_| plain.is_empty() || plain.starts_with("/*"))?;
        Some((name.to_string(), number))
    });
    numbered.collect()
}

/// `BadRecords { offset: 0 }` as C would have it: `BAD_RECORDS`.
fn c_name(thing: impl std::fmt::Debug) -> String {
    let mut name = String::new();
    for letter in format!("{thing:?}").chars().take_while(|letter| letter.is_alphanumeric()) {
        if letter.is_uppercase() && !name.is_empty() {
            name.push('_');
        }
        name.push(letter.to_ascii_uppercase());
    }
    name
}

#[test]
fn names_and_numbers() {
    let sizes = [
        ("NODES", olbiothar::NODES),
        ("MODULES", olbiothar::MODULES),
        ("MODES", olbiothar::MODES),
        ("TASKS", olbiothar::TASKS),
        ("FRAMES", olbiothar::FRAMES),
        ("LONGEST_SHEET", olbiothar::LONGEST_SHEET),
        ("LONGEST_WORDS", olbiothar::LONGEST_WORDS),
    ];
    let mut here: BTreeMap<String, u64> =
        sizes.iter().map(|(name, size)| (name.to_string(), *size as u64)).collect();
    for edition in [Edition::Basic, Edition::Consumers] {
        here.insert(c_name(edition), edition as u64);
    }
    here.insert("DONE".into(), 0);
    here.insert("NO_REASON".into(), 0);
    here.insert("WORD_EXPECTED".into(), Reason::Expected(Word::Bus).number().into());
    for number in 1..=100 {
        here.extend(Refusal::from_number(number, 0).map(|it| (c_name(it), number.into())));
        let reason = Reason::from_number(number);
        let reason = reason.filter(|reason| !matches!(reason, Reason::Expected(_)));
        here.extend(reason.map(|it| (c_name(it), number.into())));
    }
    assert_eq!(here, header());
}

#[test]
fn the_longest_table() {
    let sum = "OLBIOTHAR_LONGEST_TABLE = 8 + OLBIOTHAR_NODES * 10 + OLBIOTHAR_FRAMES * 14 + 1,";
    assert!(HEADER.contains(sum));
    assert_eq!(olbiothar::LONGEST_TABLE, 14_425);
}

#[test]
fn one_version() {
    let version = env!("CARGO_PKG_VERSION");
    assert_eq!(include_str!("../../VERSION").trim_end(), version);
    assert!(HEADER.contains(&format!("#define OLBIOTHAR_VERSION \"{version}\"")));
}
