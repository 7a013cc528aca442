//! Tables that are checked: the vectors, job A's table damaged, jobs, seeded ones.

use super::cases::{Case, checked};
use super::jobs;
use crate::generate::{Made, Rng, check_case, job_a};
use crate::vectors::CHECK;
use crate::{Edition, MOST_FRAMES};

const SEED: u64 = 5;
const SEEDED: usize = 60;

pub fn all() -> Vec<Case> {
    let mut cases: Vec<Case> = CHECK.lines().map(checked).collect();
    cases.extend(damaged());
    // A start whose sum with the sending time is 2^32 more than its stop.
    cases.push(jobs::moved(0, u32::MAX - 95, 0));
    let mut rng = Rng::new(SEED);
    cases.extend((0..SEEDED).map(|_| seeded(&mut rng)));
    cases
}

/// Job A's table cut, grown and with each byte changed; too few rows, and more than enough.
fn damaged() -> Vec<Case> {
    let Made { plan, table, .. } =
        Made::of(&job_a().bytes(), Edition::Basic).expect("job A is made");
    let table = table.bytes();
    let mut cases = Vec::new();
    for rows in [MOST_FRAMES, MOST_FRAMES - 1, 256, 255, 0, MOST_FRAMES + 1] {
        cases.push(Case::check(&plan, &table, rows));
        cases.push(Case::check(&[], &table, rows));
    }
    for length in 0..table.len() {
        cases.push(Case::check(&plan, &table[..length], MOST_FRAMES));
        let mut changed = table.clone();
        changed[length] ^= 1;
        cases.push(Case::check(&plan, &changed, MOST_FRAMES));
    }
    cases.push(Case::check(&plan, &[table, vec![0]].concat(), MOST_FRAMES));
    cases
}

fn seeded(rng: &mut Rng) -> Case {
    let case = check_case(rng, Edition::Basic);
    Case::check(&case.plan, &case.table, case.rows)
}
