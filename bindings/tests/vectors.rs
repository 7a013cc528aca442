//! Every stored case of the repository, through these bindings.

mod program;

use olbiothar::Refusal;
use program::Bindings;
use reference::vectors;

#[test]
fn every_stored_case_and_almost_every_refusal() {
    let bindings = &mut Bindings::default();
    vectors::make_tables(bindings);
    vectors::check_tables(bindings);
    vectors::play_histories(bindings);
    vectors::requests(bindings);
    let numbers = (0..=100).filter(|&number| Refusal::from_number(number, 0).is_some());
    let missing: Vec<u32> = numbers.filter(|number| !bindings.refused.contains(number)).collect();
    // No text that is too long is stored: `texts.rs` has one. An edition always has a number.
    assert_eq!(missing, [61, 62]);
}
