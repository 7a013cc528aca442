//! Tables made and judged, and what is left in lent memory. `vectors.rs` has all refusals.

use olbiothar::{Edition, FRAMES, Frame, LONGEST_TABLE, Refusal, check, make};

const PLAN: &[u8] = include_bytes!("../../docs/examples/job-a.plan");
const EARLY: &[u8] = include_bytes!("../../docs/examples/job-a-early.table");
const OLD: u8 = 0x5a;
const OLD_ROW: Frame = Frame { task: 9, release: 99, deadline: 999, start: 9_999 };

#[test]
fn a_table_is_made_and_passes() {
    let (mut rows, mut table) = ([OLD_ROW; FRAMES + 1], [OLD; LONGEST_TABLE]);
    assert_eq!(make(PLAN, Edition::Basic, &mut rows, &mut table), Ok(75));
    assert!(table[75..].iter().all(|&byte| byte == OLD));
    let made = rows;
    assert_eq!(made[0], Frame { task: 0, release: 1_000, deadline: 20_000, start: 19_904 });
    assert!(made[4..].iter().all(|row| *row == Frame::default()));
    assert_eq!(check(PLAN, &table[..75], &mut rows), Ok(()));
    assert_eq!(rows, made);
}

/// Job A's consumer runs once in a cycle, and reads what is there at its beginning.
#[test]
fn a_table_for_consumers_is_made_and_passes() {
    let (mut rows, mut table) = ([OLD_ROW; FRAMES], [OLD; LONGEST_TABLE]);
    assert_eq!(make(PLAN, Edition::Consumers, &mut rows, &mut table), Ok(33));
    assert_eq!(Edition::of_table(&table), Edition::Consumers);
    assert!(table[33..].iter().all(|&byte| byte == OLD));
    let made = rows;
    assert_eq!(made[0], Frame { task: 0, release: 41_000, deadline: 60_000, start: 59_894 });
    assert!(made[1..].iter().all(|row| *row == Frame::default()));
    assert_eq!(check(PLAN, &table[..33], &mut rows), Ok(()));
    assert_eq!(rows, made);
    table[0] = 16;
    assert_eq!(Edition::of_table(&table), Edition::Basic);
    assert_eq!(check(PLAN, &table[..33], &mut rows), Err(Refusal::WrongHeader));
}

#[test]
fn editions_by_number() {
    for edition in [Edition::Basic, Edition::Consumers] {
        assert_eq!(Edition::from_number(edition as u8), Some(edition));
    }
    assert!((2..=255).all(|number| Edition::from_number(number).is_none()));
    assert_eq!(Edition::default(), Edition::Basic);
}

#[test]
fn a_refusal_leaves_the_table_and_clears_the_rows() {
    let (mut rows, mut table) = ([OLD_ROW; FRAMES], [OLD; 74]);
    let made = make(PLAN, Edition::Basic, &mut rows, &mut table);
    assert_eq!(made, Err(Refusal::BufferTooShort { needed: 75 }));
    assert_eq!((rows, table), ([Frame::default(); FRAMES], [OLD; 74]));
    rows = [OLD_ROW; FRAMES];
    assert_eq!(check(PLAN, EARLY, &mut rows), Err(Refusal::BeforeRelease { record: 2 }));
    assert_eq!(rows, [Frame::default(); FRAMES]);
}

#[test]
fn too_few_rows_change_nothing() {
    let (mut rows, mut table) = ([OLD_ROW; FRAMES - 1], [OLD; LONGEST_TABLE]);
    for edition in [Edition::Basic, Edition::Consumers] {
        assert_eq!(make(PLAN, edition, &mut rows, &mut table), Err(Refusal::TooFewRows));
    }
    assert_eq!(check(PLAN, EARLY, &mut rows), Err(Refusal::TooFewRows));
    assert_eq!(Refusal::TooFewRows.place(), FRAMES as u64);
    assert_eq!((rows, table), ([OLD_ROW; FRAMES - 1], [OLD; LONGEST_TABLE]));
}
