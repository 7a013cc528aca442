//! The jobs of docs/RULES.md.

use reference::bus::{ControlRow, Sending};
use reference::generate::{Draft, PLENTY, TableDraft, job_a, job_j};
use reference::plan::Connection;
use reference::{Edition, FrameRow, MOST_FRAMES, Refusal, Row, Station, check, make};

const TABLE_A: [&[u8]; 7] = [
    &[0x10, 0x60, 0xea, 0, 0, 1, 4, 0],
    &[0x11, 0, 0, 0, 0, 0, 0x48, 0, 0, 0],
    &[0x12, 0, 0x20, 0x4e, 0, 0, 0xc0, 0x4d, 0, 0, 0x20, 0x4e, 0, 0],
    &[0x12, 0, 0x30, 0x75, 0, 0, 0xd0, 0x74, 0, 0, 0x30, 0x75, 0, 0],
    &[0x12, 0, 0x40, 0x9c, 0, 0, 0xe0, 0x9b, 0, 0, 0x40, 0x9c, 0, 0],
    &[0x12, 0, 0x60, 0xea, 0, 0, 0xf6, 0xe9, 0, 0, 0x56, 0xea, 0, 0],
    &[0],
];

fn make_with_room(plan: &Draft, room: usize) -> Result<Vec<u8>, Refusal> {
    let mut table = vec![0; room];
    let mut rows = [FrameRow::default(); MOST_FRAMES];
    let length = make(&plan.bytes(), Edition::Basic, &mut rows, &mut table)?;
    table.truncate(length);
    Ok(table)
}

fn made(plan: &Draft) -> Result<Vec<u8>, Refusal> {
    make_with_room(plan, PLENTY)
}

fn checked(plan: &Draft, table: &[u8]) -> Result<(), Refusal> {
    check(&plan.bytes(), table, &mut [FrameRow::default(); MOST_FRAMES])
}

fn refused<T>(number: u32, place: usize) -> Result<T, Refusal> {
    Err(Refusal { number, place })
}

/// Table A with one data row moved.
fn moved(row: usize, start: u32, stop: u32) -> Vec<u8> {
    let mut table = TABLE_A.map(<[u8]>::to_vec);
    table[2 + row][6..10].copy_from_slice(&start.to_le_bytes());
    table[2 + row][10..14].copy_from_slice(&stop.to_le_bytes());
    table.concat()
}

#[test]
fn a_the_whole_table() {
    assert_eq!(made(&job_a()), Ok(TABLE_A.concat()));
    let mut rows = [FrameRow::default(); MOST_FRAMES + 44];
    assert_eq!(make(&job_a().bytes(), Edition::Basic, &mut rows, &mut [0; 75]), Ok(75));
    let windows = rows.map(|row| (row.task, row.release, row.deadline));
    let frames = [(0, 1_000, 20_000), (0, 1_000, 30_000), (0, 21_000, 40_000), (0, 41_000, 60_000)];
    assert_eq!(windows[..4], frames);
    assert!(rows[4..].iter().all(|row| *row == FrameRow::default()));
}

#[test]
fn b_worst_time() {
    let mut plan = job_a();
    plan.tasks[0].worst_time = 19_894;
    assert!(made(&plan).is_ok());
    plan.tasks[0].worst_time = 19_895;
    assert_eq!(made(&plan), refused(12, 3));
}

#[test]
fn a_and_b_with_ten_bits_to_the_byte() {
    let mut plan = job_a().with_byte_bits(Some(10));
    assert_eq!(plan.bits.sending(1), Sending { bits: 90, ticks: 90 });
    assert_eq!(plan.bits.sending(4), Sending { bits: 120, ticks: 120 });
    let table = TableDraft::read(&made(&plan).unwrap()).unwrap();
    assert_eq!(table.control, [ControlRow { node: 0, start: 0, stop: 90 }]);
    let times: Vec<(u32, u32)> = table.data.iter().map(|row| (row.start, row.stop)).collect();
    let expected = [(19_880, 20_000), (29_880, 30_000), (39_880, 40_000), (59_870, 59_990)];
    assert_eq!(times, expected);
    plan.tasks[0].worst_time = 19_870;
    assert!(made(&plan).is_ok());
    plan.tasks[0].worst_time = 19_871;
    assert_eq!(made(&plan), refused(12, 3));
}

#[test]
fn c_short_buffer() {
    assert_eq!(make_with_room(&job_a(), 74), refused(13, 75));
}

#[test]
fn d_empty_plan() {
    let mut rows = [FrameRow::default(); MOST_FRAMES];
    assert_eq!(make(&[], Edition::Basic, &mut rows, &mut []), refused(1, 0));
}

#[test]
fn e_resolution() {
    let mut plan = job_a();
    plan.bits.resolution = 7;
    assert_eq!(made(&plan), refused(8, 0));
}

#[test]
fn g_release() {
    assert_eq!(checked(&job_a(), &moved(0, 1_000, 1_096)), Ok(()));
    assert_eq!(checked(&job_a(), &moved(0, 999, 1_095)), refused(25, 2));
}

#[test]
fn h_gap() {
    assert_eq!(checked(&job_a(), &moved(1, 20_010, 20_106)), Ok(()));
    assert_eq!(checked(&job_a(), &moved(1, 20_005, 20_101)), refused(27, 3));
}

#[test]
fn i_deadline() {
    assert_eq!(checked(&job_a(), &moved(2, 39_905, 40_001)), refused(26, 4));
}

#[test]
fn gap_at_the_end() {
    assert_eq!(checked(&job_a(), &moved(3, 59_894, 59_990)), Ok(()));
    assert_eq!(checked(&job_a(), &moved(3, 59_895, 59_991)), refused(28, 5));
    assert_eq!(checked(&job_a(), &moved(3, 59_904, 60_000)), refused(28, 5));
    assert_eq!(checked(&job_a(), &moved(3, 59_905, 60_001)), refused(26, 5));
}

/// Job A with these connections.
fn connected(pairs: &[(u8, u8)]) -> Draft {
    let connection = |&(producer, consumer): &(u8, u8)| Connection { producer, consumer };
    Draft { connections: pairs.iter().map(connection).collect(), ..job_a() }
}

#[test]
fn doubtful_connections() {
    assert!(made(&connected(&[(0, 1), (1, 0)])).is_ok(), "there and back");
    assert_eq!(made(&connected(&[(0, 1), (0, 1)])), refused(5, 13));
    assert_eq!(made(&connected(&[(0, 1), (1, 0), (0, 1)])), refused(5, 14));
    assert_eq!(made(&connected(&[(0, 0)])), refused(5, 12));
    assert_eq!(made(&connected(&[(0, 1), (1, 1), (0, 1)])), refused(5, 13));
    assert_eq!(made(&connected(&[(2, 2), (0, 1), (0, 1)])), refused(3, 12));
    assert_eq!(made(&connected(&[(0, 1); 65])), refused(2, 7));
}

#[test]
fn j_a_table_that_the_rule_misses() {
    let data_row = |task: u8, deadline: u32, start: u32, stop: u32| {
        [vec![18, task], [deadline, start, stop].map(u32::to_le_bytes).concat()].concat()
    };
    let control_row = |node: u8, start: u32| {
        [vec![17, node], [start, start + 1].map(u32::to_le_bytes).concat()].concat()
    };
    let table = [
        vec![16, 20, 0, 0, 0, 3, 4, 0],
        control_row(0, 0),
        control_row(1, 1),
        control_row(2, 2),
        data_row(0, 20, 3, 8),
        data_row(1, 10, 8, 10),
        data_row(2, 20, 11, 15),
        data_row(1, 20, 18, 20),
        vec![0],
    ];
    assert_eq!(made(&job_j()), refused(12, 0));
    assert_eq!(checked(&job_j(), &table.concat()), Ok(()));
}

#[test]
fn k_played() {
    let mut modes = [None; 16];
    (modes[0], modes[1]) = (Some(0), Some(2));
    let table = made(&job_a()).unwrap();
    let mut station = Station::begin(&job_a().bytes(), &table, modes).unwrap();
    let first_row = Row::Control { node: 0, start: 0, stop: 72 };
    for time in 0..60_000 {
        let mut results = [None; 32];
        match time {
            1_000 => (results[0], results[1]) = (Some(5), Some(1)),
            31_000 => results[0] = Some(6),
            30_000 => {
                let mut change = [None; 16];
                change[0] = Some(1);
                assert_eq!(station.tick(&results, &change), refused(44, 0));
            }
            _ => {}
        }
        let row = station.tick(&results, &[None; 16]).unwrap();
        assert_eq!(row == Some(first_row), time == 0);
        assert_eq!(station.shown(1, 0), if time < 30_000 { 0 } else { 5 });
    }
    let mut change = [None; 16];
    change[0] = Some(1);
    assert_eq!(station.tick(&[None; 32], &change), Ok(Some(first_row)));
    assert_eq!(station.shown(1, 0), 6);
}
