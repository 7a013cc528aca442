//! Example sheets: job A's table, and the same with the row that job G lays too early.

use super::{Stored, stored};
use crate::generate::{Made, job_a};
use crate::{Edition, LONGEST_SHEET, sheet};

pub fn all() -> Vec<Stored> {
    let Made { plan, mut table, .. } =
        Made::of(&job_a().bytes(), Edition::Basic).expect("job A is made");
    let passed = sheet_of(&plan, &table.bytes());
    (table.data[0].start, table.data[0].stop) = (999, 1_095);
    let early = table.bytes();
    let refused = sheet_of(&plan, &early);
    vec![
        stored("docs/examples/job-a.sheet", passed),
        stored("docs/examples/job-a-early.sheet", refused),
        stored("docs/examples/job-a-early.table", early),
    ]
}

pub fn sheet_of(plan: &[u8], table: &[u8]) -> Vec<u8> {
    let mut text = vec![0; LONGEST_SHEET];
    let printed = sheet(plan, table, &mut text);
    text.truncate(printed.length);
    text
}
