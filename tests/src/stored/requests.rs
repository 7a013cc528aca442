//! The vectors of the requests: plans whose tables are made, and tables that are checked.

use super::cases::{Case, checked, made};
use crate::vectors::{ASK_04, REQUESTS, named};

/// Called by the comment in front of each; request 4's have a file of their own.
pub fn all() -> Vec<Case> {
    let others = REQUESTS.iter().filter(|text| **text != ASK_04);
    let called = |line: [&str; 3]| case(line).map(|case| case.called(line[0]));
    others.flat_map(|text| named(text)).filter_map(called).collect()
}

/// Request 4's, which have no names.
pub fn editions() -> Vec<Case> {
    named(ASK_04).into_iter().filter_map(case).collect()
}

/// Histories are not stored: no station is played.
fn case([_, word, given]: [&str; 3]) -> Option<Case> {
    match word {
        "make" => Some(made(given)),
        "check" => Some(checked(given)),
        _ => None,
    }
}
