//! The jobs of docs/RULES.md that need no played station.

use super::cases::Case;
use crate::generate::{Draft, Made, PLENTY, job_a, job_j};
use crate::{Edition, MOST_FRAMES};

pub fn all() -> Vec<Case> {
    let mut jobs = made();
    jobs.extend(checked());
    jobs
}

fn make(name: &str, plan: &Draft) -> Case {
    Case::make(&plan.bytes(), MOST_FRAMES, PLENTY).called(name)
}

fn made() -> Vec<Case> {
    let a = job_a();
    let with_worst_time = |worst_time| {
        let mut plan = job_a();
        plan.tasks[0].worst_time = worst_time;
        plan
    };
    let mut off_the_resolution = job_a();
    off_the_resolution.bits.resolution = 7;
    vec![
        make("A", &a),
        make("B with 19894", &with_worst_time(19_894)),
        make("B with 19895", &with_worst_time(19_895)),
        Case::make(&a.bytes(), MOST_FRAMES, 74).called("C"),
        Case::make(&[], MOST_FRAMES, PLENTY).called("D"),
        make("E", &off_the_resolution),
        make("J", &job_j()),
        make("A with 10 bits to the byte", &a.with_byte_bits(Some(10))),
        make("B with 10 bits and 19870", &with_worst_time(19_870).with_byte_bits(Some(10))),
        make("B with 10 bits and 19871", &with_worst_time(19_871).with_byte_bits(Some(10))),
    ]
}

/// Job A's table with another start and stop in a data row, counted from 0.
pub fn moved(row: usize, start: u32, stop: u32) -> Case {
    let Made { plan, mut table, .. } =
        Made::of(&job_a().bytes(), Edition::Basic).expect("job A is made");
    (table.data[row].start, table.data[row].stop) = (start, stop);
    Case::check(&plan, &table.bytes(), MOST_FRAMES)
}

/// Job J's table, which the latest-release rule does not find.
pub fn missed_by_the_rule() -> Case {
    let row = |task: u8, deadline: u32, start: u32, stop: u32| {
        [vec![18, task], [deadline, start, stop].map(u32::to_le_bytes).concat()].concat()
    };
    let control = |node: u8| {
        let start = u32::from(node);
        [vec![17, node], [start, start + 1].map(u32::to_le_bytes).concat()].concat()
    };
    let header = vec![16, 20, 0, 0, 0, 3, 4, 0];
    let data = [row(0, 20, 3, 8), row(1, 10, 8, 10), row(2, 20, 11, 15), row(1, 20, 18, 20)];
    let table = [header, [0, 1, 2].map(control).concat(), data.concat(), vec![0]].concat();
    Case::check(&job_j().bytes(), &table, MOST_FRAMES)
}

fn checked() -> Vec<Case> {
    vec![
        moved(0, 1_000, 1_096).called("G with 1000"),
        moved(0, 999, 1_095).called("G with 999"),
        moved(1, 20_010, 20_106).called("H with 20010"),
        moved(1, 20_005, 20_101).called("H with 20005"),
        moved(2, 39_905, 40_001).called("I"),
        moved(3, 59_895, 59_991).called("A with 59895"),
        moved(3, 59_904, 60_000).called("A with 59904"),
        missed_by_the_rule().called("J's table"),
    ]
}
