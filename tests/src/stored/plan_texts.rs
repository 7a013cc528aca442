//! Example plans as text: job A's as it is printed, and one that a person has written, with the plan that
//! it reads as and the sheet of its table.

use super::sheets::sheet_of;
use super::{Stored, stored, table_of};
use crate::generate::{job_a, text_of};
use crate::{Edition, text_plan};

/// A station with four boards; its comments explain each line.
const WIPING_STATION: &[u8] = include_bytes!("../../../docs/examples/wiping-station.plan.txt");

pub fn all() -> Vec<Stored> {
    let printed = text_of(&job_a().bytes()).expect("job A keeps the record rules");
    let plan = plan_of(WIPING_STATION);
    let sheet = sheet_of(&plan, &table_of(&plan, Edition::Basic));
    vec![
        stored("docs/examples/job-a.plan.txt", printed),
        stored("docs/examples/wiping-station.plan", plan),
        stored("docs/examples/wiping-station.sheet", sheet),
    ]
}

/// A plan is never longer than its text.
fn plan_of(text: &[u8]) -> Vec<u8> {
    let mut plan = vec![0; text.len()];
    let length = text_plan(text, &mut plan).expect("the text is read");
    plan.truncate(length);
    plan
}
