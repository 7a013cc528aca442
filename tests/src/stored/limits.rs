//! As many frames as a table may have, and one more: plans on both sides of refusal 9, the longest table,
//! and its last row against each rule.

use super::cases::Case;
use crate::checker::DataRow;
use crate::generate::{Draft, Made, TableDraft, also_in_modes, longest_table, plan_with_rates};
use crate::maker::LONGEST_TABLE;
use crate::{Edition, MOST_FRAMES};

pub fn all() -> Vec<Case> {
    let longest = Made::of(&longest_table().bytes(), Edition::Basic).expect("the plan is made");
    let too_short = Case::make(&longest.plan, MOST_FRAMES, LONGEST_TABLE - 1);
    let mut cases = counted();
    cases.push(too_short.called("one byte too few"));
    cases.extend(checked(&longest));
    cases.extend(last_row_wrong(&longest));
    cases
}

/// Without room for a table: 13 where 9 does not come before it.
fn counted() -> Vec<Case> {
    let case = |name: &str, plan: Draft| Case::make(&plan.bytes(), MOST_FRAMES, 0).called(name);
    let last_deadline = |often: u16, tasks: usize| {
        let rates = [vec![1; tasks - 1], vec![often]].concat();
        plan_with_rates(20 * u32::from(often), &rates)
    };
    vec![
        case("1,022 frames, then 2 at the last deadline", last_deadline(1_023, 2)),
        case("1,023 frames, then 2 at the last deadline", last_deadline(1_024, 2)),
        case("993 frames, then 31 at the last deadline", last_deadline(994, 31)),
        case("994 frames, then 31 at the last deadline", last_deadline(995, 31)),
        case("1,023 frames, then 31 at the last deadline", last_deadline(1_024, 31)),
        case(
            "1,301 messages, 800 frames",
            also_in_modes(plan_with_rates(60_000, &[600]), &[400, 300, 1]),
        ),
        case(
            "1,921 messages, 1,024 frames",
            also_in_modes(plan_with_rates(20_480, &[1_024]), &[512, 256, 128, 1]),
        ),
        case(
            "1,922 messages, 1,025 frames",
            also_in_modes(plan_with_rates(20_480, &[1_024, 1]), &[512, 256, 128, 1]),
        ),
    ]
}

fn edited(made: &Made, edit: impl FnOnce(&mut TableDraft)) -> Case {
    let mut table = made.table.clone();
    edit(&mut table);
    Case::check(&made.plan, &table.bytes(), MOST_FRAMES)
}

/// As many rows as have a place in memory, more of either kind, a row named twice, rows exchanged.
fn checked(longest: &Made) -> Vec<Case> {
    const LAST: usize = MOST_FRAMES - 1;
    let edited = |edit: fn(&mut TableDraft)| edited(longest, edit);
    vec![
        edited(|_| {}),
        edited(|table| table.data.extend_from_within(..1)),
        edited(|table| table.data.extend_from_within(..)),
        edited(|table| table.control.resize(9, table.control[0])),
        edited(|table| table.data[LAST] = table.data[LAST - 1]),
        edited(|table| table.data[LAST - 1] = table.data[LAST]),
        edited(|table| table.data.swap(0, LAST)),
        edited(|table| table.data_count = LAST as u16),
    ]
}

/// Each of refusals 23 to 28 at the last record.
fn last_row_wrong(longest: &Made) -> Vec<Case> {
    let [.., before, last] = longest.table.data[..] else { panic!("rows") };
    let (release, time) = longest.release_and_time(&last).expect("a frame");
    let with = |row: DataRow| {
        edited(longest, |table| {
            table.data.pop();
            table.data.push(row);
        })
    };
    let from = |start: u32| DataRow { start, stop: start + time, ..last };
    vec![
        with(DataRow { task: 8, ..last }).called("23"),
        with(DataRow { stop: last.stop + 1, ..last }).called("24"),
        with(from(release - 1)).called("25"),
        with(from(last.deadline - time + 1)).called("26"),
        with(from(before.stop)).called("27"),
        with(from(last.deadline - time)).called("28"),
    ]
}
