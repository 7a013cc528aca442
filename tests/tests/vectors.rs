//! Every vector of `vectors/`.

use reference::program::Reference;
use reference::vectors;

#[test]
fn made_tables() {
    vectors::make_tables(&mut Reference::default());
}

#[test]
fn checked_tables() {
    vectors::check_tables(&mut Reference::default());
}

#[test]
fn requests() {
    vectors::requests(&mut Reference::default());
}

/// None of the lines of texts is passed over.
#[test]
fn lines_of_texts() {
    let lines = vectors::named(vectors::ASK_01);
    let count = |sort: &str| lines.iter().filter(|[_, word, _]| *word == sort).count();
    assert_eq!(["sheet", "back", "plantext", "textplan"].map(count), [117, 239, 35, 83]);
    assert_eq!(lines.len(), 117 + 239 + 35 + 83);
}

/// Nor is one of the lines of either edition: in all of them no frames are joined.
#[test]
fn lines_of_editions() {
    let lines = vectors::named(vectors::ASK_04);
    let count = |sort: &str| lines.iter().filter(|[_, word, _]| *word == sort).count();
    let counts = ["make", "check", "begin", "tick", "quiet"].map(count);
    assert_eq!(counts, [445, 994, 61, 1_374, 738]);
    assert_eq!(lines.len(), counts.iter().sum());
    let made = |words: &str| lines.iter().filter(|[.., rest]| rest.starts_with(words)).count();
    assert_eq!(["basic none ", "consumers none "].map(made), [221, 224]);
}

#[test]
fn played_histories() {
    vectors::play_histories(&mut Reference::default());
}
