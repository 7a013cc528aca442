//! How often seeded cases come to which answer.

use reference::Refusal;
use std::collections::BTreeMap;

/// Refused by the number of the refusal; not refused under 0.
pub type Counts = BTreeMap<u32, usize>;

pub fn count<T>(counts: &mut Counts, answer: &Result<T, Refusal>) {
    let number = answer.as_ref().err().map_or(0, |refusal| refusal.number);
    *counts.entry(number).or_default() += 1;
}

pub fn assert_reached(counts: &Counts, numbers: impl IntoIterator<Item = u32>) {
    println!("{counts:?}");
    for number in numbers {
        assert!(counts.contains_key(&number), "{number} was not reached");
    }
}
