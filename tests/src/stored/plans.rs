//! Plans: those of the vectors, each read and its table made, and our own, read.

use super::cases::{Case, made};
use crate::vectors::MAKE;

/// Our own plans, each behind its length in four bytes: the empty file and every other proper prefix of
/// job A's plan; files that break the order of kinds, with known and unknown kinds; each count, name,
/// number and rule of refusals 2 to 5 within its limit and beyond it; plans with several faults; noise
/// of 70,000 bytes, 34,990 modules, and job A's plan with one byte changed; of a bus record of kind 9,
/// cuts, places and numbers.
const OWN: &[u8] = include_bytes!("../../vectors/plans");

pub fn own() -> Vec<Case> {
    let mut cases = Vec::new();
    let mut rest = OWN;
    while let Some((length, behind)) = rest.split_first_chunk() {
        let (plan, next) = behind.split_at(u32::from_le_bytes(*length) as usize);
        cases.push(Case::read(plan));
        rest = next;
    }
    cases
}

pub fn vectors() -> Vec<Case> {
    let mut cases: Vec<Case> = Vec::new();
    for made in MAKE.lines().map(made) {
        if cases.last().is_none_or(|last| last.plan != made.plan) {
            cases.push(Case::read(&made.plan));
        }
        cases.push(made);
    }
    cases
}
