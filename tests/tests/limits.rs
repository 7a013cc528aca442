//! Both sides of single limits, from job A.

use reference::generate::{PLENTY, also_in_modes, job_a, longest_table, plan_with_rates};
use reference::records::{NODES, TABLE, record_length};
use reference::{Edition, FrameRow, MOST_FRAMES, Refusal, check, make};

fn made_in(edition: Edition, plan: &[u8]) -> Result<Vec<u8>, Refusal> {
    let mut table = [0; PLENTY];
    let length = make(plan, edition, &mut [FrameRow::default(); MOST_FRAMES], &mut table)?;
    Ok(table[..length].to_vec())
}

fn made(plan: &[u8]) -> Result<Vec<u8>, Refusal> {
    made_in(Edition::Basic, plan)
}

fn refused<T>(number: u32, place: usize) -> Result<T, Refusal> {
    Err(Refusal { number, place })
}

#[test]
fn frames() {
    let length =
        |rates: &[u16]| made(&plan_with_rates(60_000, rates).bytes()).map(|table| table.len());
    assert_eq!(length(&[1_000, 20, 3, 1]), Ok(8 + 10 + 1_024 * 14 + 1));
    assert_eq!(length(&[1_000, 20, 4, 1]), refused(9, 0));
    assert_eq!(length(&[60_000, 1]), refused(9, 0));
}

#[test]
fn room_for_the_longest_table() {
    let plan = longest_table().bytes();
    let mut rows = [FrameRow::default(); MOST_FRAMES];
    let mut table = [0; 14_425];
    assert_eq!(make(&plan, Edition::Basic, &mut rows, &mut table), Ok(14_425));
    assert_eq!(make(&plan, Edition::Basic, &mut rows, &mut table[1..]), refused(13, 14_425));
}

/// 9 counts pairs of task and deadline: 1,921 messages are 1,024 frames.
#[test]
fn messages() {
    let runs = |rates: &[u16]| also_in_modes(plan_with_rates(20_480, rates), &[512, 256, 128, 1]);
    let table = made(&runs(&[1_024]).bytes()).unwrap();
    assert_eq!(table.len(), 8 + 10 + 1_024 * 14 + 1);
    assert_eq!(made(&runs(&[1_024, 1]).bytes()), refused(9, 0));
}

/// Refusal 11 leaves C = P to refusal 12: no frame finds room.
#[test]
fn control_frames() {
    let mut plan = job_a();
    let control = plan.bits.sending(1).ticks;
    for mode in &mut plan.modes {
        (mode.period, mode.switch_period) = (600, 600);
    }
    plan.invocations.iter_mut().for_each(|run| run.rate = 1);
    plan.tasks.iter_mut().for_each(|task| task.worst_time = 1);
    plan.bits.gap_bits = (600 - control) as u16;
    assert_eq!(made(&plan.bytes()), refused(12, 0));
    plan.bits.gap_bits += 1;
    assert_eq!(made(&plan.bytes()), refused(11, 0));
}

#[test]
fn payloads() {
    let mut plan = job_a();
    plan.bits.largest_payload = 4;
    assert!(made(&plan.bytes()).is_ok());
    plan.bits.largest_payload = 3;
    assert_eq!(made(&plan.bytes()), refused(10, 0));
    plan.tasks[0].size = 3;
    assert!(made(&plan.bytes()).is_ok(), "a task that is no bus task may be larger");
}

#[test]
fn bits_of_a_byte() {
    for bits in 0..=255 {
        let answer = made(&job_a().with_byte_bits(Some(bits)).bytes());
        match bits {
            8..=12 => assert!(answer.is_ok(), "{bits}"),
            _ => assert_eq!(answer, refused(4, 0), "{bits}"),
        }
    }
}

/// One with a bus record of kind 1, one with kind 9.
fn plans() -> [Vec<u8>; 2] {
    [job_a().bytes(), job_a().with_byte_bits(Some(10)).bytes()]
}

fn checked(plan: &[u8], table: &[u8]) -> Result<(), Refusal> {
    check(plan, table, &mut [FrameRow::default(); MOST_FRAMES])
}

#[test]
fn cut_files() {
    for (plan, edition) in plans().iter().flat_map(|plan| Edition::ALL.map(|of| (plan, of))) {
        let table = made_in(edition, plan).unwrap();
        for length in 0..plan.len() {
            assert_eq!(made_in(edition, &plan[..length]), refused(1, length));
        }
        for length in 0..table.len() {
            assert_eq!(checked(plan, &table[..length]), refused(20, length));
        }
        let [more_plan, more_table] = [plan, &table].map(|file| [file, [0].as_slice()].concat());
        assert_eq!(made_in(edition, &more_plan), refused(1, plan.len()));
        assert_eq!(checked(plan, &more_table), refused(20, table.len()));
    }
}

/// Of a right kind the body is missing.
fn cut_if(right: bool, number: u32, at: usize) -> Refusal {
    Refusal { number, place: at + usize::from(right) }
}

/// A wrong kind goes before a cut body; a bus record of either kind stands first, and there alone.
#[test]
fn wrong_kinds() {
    for plan in plans() {
        let nodes = record_length(plan[0]);
        let modules = nodes + record_length(NODES);
        for kind in 0..=255 {
            let behind = |records: usize| made(&[&plan[..records], &[kind]].concat());
            assert_eq!(behind(0), Err(cut_if([1, 9].contains(&kind), 1, 0)));
            assert_eq!(behind(nodes), Err(cut_if(kind == 2, 1, nodes)));
            let expected = match kind {
                0 => refused(2, 3),
                _ => Err(cut_if((3..8).contains(&kind), 1, modules)),
            };
            assert_eq!(behind(modules), expected);
        }
    }
}

/// The plan's kinds are wrong in a table; a header of either kind stands first, and there alone.
#[test]
fn wrong_kinds_of_rows() {
    let plan = job_a().bytes();
    let table = made(&plan).unwrap();
    for (kind, edition) in (0..=255).flat_map(|kind| Edition::ALL.map(|of| (kind, of))) {
        let header = [&[edition.kind()], &table[1..record_length(TABLE)]].concat();
        let header = header.as_slice();
        assert_eq!(checked(&plan, &[kind]), Err(cut_if([16, 20].contains(&kind), 20, 0)));
        let expected = match kind {
            0 => refused(21, 0),
            _ => Err(cut_if([17, 18].contains(&kind), 20, header.len())),
        };
        assert_eq!(checked(&plan, &[header, &[kind]].concat()), expected);
    }
}

#[test]
fn order_of_numbers() {
    let mut plan = job_a();
    let mut rows = [FrameRow::default(); 1_024];
    assert_eq!(make(&[], Edition::Basic, &mut rows[1..], &mut []), refused(19, 1_024));
    plan.tasks[0].worst_time = 19_905;
    assert_eq!(make(&plan.bytes(), Edition::Basic, &mut rows, &mut []), refused(12, 3));
    plan.bits.resolution = 7;
    assert_eq!(made(&plan.bytes()), refused(8, 0));
    plan.modules[1].node = 0;
    assert_eq!(made(&plan.bytes()), refused(6, 0));
    plan.connections[0].consumer = 0;
    assert_eq!(made(&plan.bytes()), refused(5, 12));
    plan.invocations[2].rate = 7;
    assert_eq!(made(&plan.bytes()), refused(5, 11));
    plan.bits.gap_bits = 1_001;
    assert_eq!(made(&plan.bytes()), refused(4, 0));
    plan.connections[0].consumer = 2;
    assert_eq!(made(&plan.bytes()), refused(3, 12));
    plan.connections.resize(65, plan.connections[0]);
    assert_eq!(made(&plan.bytes()), refused(2, 7));
}
