//! Hostile input for libFuzzer: the proved library and the Rust program are given the same bytes, and
//! must answer the same. The library's code cannot be instrumented; the Rust program's is, and leads
//! libFuzzer to inputs that go other ways. Memory that the library is lent lies against a page that
//! nothing may touch, so that a read or a write behind it ends the run.
//!
//! An input is a byte that says what is done, a byte for the lent rows or bytes, a plan behind its length
//! (two bytes), and what the rest is for: an edition and the table's buffer, a table, or a history. A text
//! that is read as a sheet or as a plan has no plan in front, and a plan that is printed has nothing behind it.

pub mod input;
pub mod lent;

use input::{Input, Tick};
use lent::Lent;
use olbiothar::{Frame, Refusal, TextRefusal};
use reference::{Edition, FrameRow, LONGEST_SHEET, MOST_FRAMES, Reason};

/// libFuzzer's entry.
///
/// # Safety
/// `data` leads to `size` bytes.
#[unsafe(no_mangle)]
pub unsafe extern "C" fn LLVMFuzzerTestOneInput(data: *const u8, size: usize) -> i32 {
    // SAFETY: libFuzzer keeps what this function asks for; where there is no byte the pointer, which may be null, is not used.
    let bytes = if size == 0 { &[] } else { unsafe { std::slice::from_raw_parts(data, size) } };
    run(bytes);
    0
}

pub fn run(bytes: &[u8]) {
    let mut input = Input::new(bytes);
    let what = input.byte();
    let lent = input.byte();
    match what % 7 {
        0 => make(input.file(), input.edition(), near(lent, MOST_FRAMES), input.rest()),
        1 => check(input.file(), input.rest(), near(lent, MOST_FRAMES)),
        2 => play(input.file(), input),
        3 => sheet(input.file(), input.rest(), near(lent, LONGEST_SHEET)),
        4 => sheet_table(input.rest(), usize::from(lent)),
        5 => plan_text(input.rest(), usize::from(lent)),
        _ => text_plan(input.rest(), usize::from(lent)),
    }
}

/// As many as must be lent, or some more or fewer.
fn near(byte: u8, needed: usize) -> usize {
    match byte {
        0..128 => needed,
        128..192 => needed + usize::from(byte - 128),
        _ => needed - usize::from(byte - 191),
    }
}

type Refused = (u32, u64);

fn proved<T>(answer: Result<T, Refusal>) -> Result<T, Refused> {
    answer.map_err(|refusal| (refusal.number(), refusal.place()))
}

fn rust<T>(answer: Result<T, reference::Refusal>) -> Result<T, Refused> {
    answer.map_err(|refusal| (refusal.number, refusal.place as u64))
}

const OLD_ROW: (Frame, FrameRow) = (
    Frame { task: 9, release: 99, deadline: 999, start: 9_999 },
    FrameRow { task: 9, release: 99, deadline: 999, start: 9_999 },
);

fn same_rows(proved: &[Frame], rust: &[FrameRow]) -> bool {
    proved.iter().zip(rust).all(|(proved, rust)| {
        let Frame { task, release, deadline, start } = *proved;
        *rust == FrameRow { task, release, deadline, start }
    })
}

fn make(plan: &[u8], edition: Edition, rows: usize, old: &[u8]) {
    let (plan_lent, mut buffer) = (Lent::copy(plan), Lent::copy(old));
    let mut rows_lent = Lent::copy(&vec![OLD_ROW.0; rows]);
    let proved_edition = olbiothar::Edition::from_number(edition as u8).expect("as many editions");
    let made = proved(olbiothar::make(&plan_lent, proved_edition, &mut rows_lent, &mut buffer));
    let (mut rust_rows, mut rust_buffer) = (vec![OLD_ROW.1; rows], old.to_vec());
    assert_eq!(made, rust(reference::make(plan, edition, &mut rust_rows, &mut rust_buffer)));
    assert!(same_rows(&rows_lent, &rust_rows));
    assert_eq!(*buffer, rust_buffer[..]);
    assert_eq!(*plan_lent, *plan);
    if let Ok(length) = made {
        assert_eq!(proved(olbiothar::check(plan, &buffer[..length], &mut rows_lent)), Ok(()));
        assert!(same_rows(&rows_lent, &rust_rows));
    }
}

fn check(plan: &[u8], table: &[u8], rows: usize) {
    let (plan_lent, table_lent) = (Lent::copy(plan), Lent::copy(table));
    let mut rows_lent = Lent::copy(&vec![OLD_ROW.0; rows]);
    let passed = proved(olbiothar::check(&plan_lent, &table_lent, &mut rows_lent));
    let mut rust_rows = vec![OLD_ROW.1; rows];
    assert_eq!(passed, rust(reference::check(plan, table, &mut rust_rows)));
    assert!(same_rows(&rows_lent, &rust_rows));
    assert_eq!((&*plan_lent, &*table_lent), (plan, table));
}

/// The table is the input's, or the plan's own if the input has none.
fn play(plan: &[u8], mut input: Input) {
    let given = input.file();
    let own = if given.is_empty() { own_table(plan, input.edition()) } else { Vec::new() };
    let table = if given.is_empty() { &own } else { given };
    let modes = input.modes();
    let (plan_lent, table_lent) = (Lent::copy(plan), Lent::copy(table));
    let begun = proved(olbiothar::Station::begun(&plan_lent, &table_lent, &modes));
    let rust_begun = rust(reference::Station::begin(plan, table, modes));
    assert_eq!(begun.as_ref().err(), rust_begun.as_ref().err());
    let (Ok(mut station), Ok(mut rust_station)) = (begun, rust_begun) else { return };
    while let Some(Tick { results, modes }) = input.tick() {
        let row = proved(station.tick(&results, &modes)).map(|row| row.map(rust_row));
        assert_eq!(row, rust(rust_station.tick(&results, &modes)));
        let mut places = (0..8).flat_map(|node| (0..32).map(move |task| (node, task)));
        assert!(
            places.all(|(node, task)| {
                station.shown(node, task) == rust_station.shown(node, task)
            })
        );
        assert!(stand_alike(&station, &rust_station));
    }
}

/// In what they say of their time, their modules and their tasks.
fn stand_alike(proved: &olbiothar::Station, rust: &reference::Station) -> bool {
    let time = proved.time().map(|now| (now.clock, now.period));
    let rust_time = rust.time();
    time == rust_time.begun.then_some((rust_time.clock, rust_time.period))
        && (0..=255).all(|module| {
            let now = proved.module(usize::from(module)).map(|now| (now.node, now.mode, now.age));
            let rust = rust.module(module);
            now == rust.there.then_some((rust.node, rust.mode, rust.age))
        })
        && (0..=255).all(|task| {
            let now = proved.task(usize::from(task)).map(|now| (now.home, now.awaits, now.left));
            let rust = rust.task(task);
            now == rust.there.then_some((rust.home, rust.awaits, rust.left))
        })
}

const OLD_BYTE: u8 = 0x5a;

/// What has rows reads back to the table.
fn sheet(plan: &[u8], table: &[u8], room: usize) {
    let old = vec![OLD_BYTE; room];
    let (plan_lent, table_lent) = (Lent::copy(plan), Lent::copy(table));
    let mut text = Lent::copy(&old);
    let olbiothar::Sheet { checked, length } = olbiothar::sheet(&plan_lent, &table_lent, &mut text);
    let mut rust_text = old;
    let rust_sheet = reference::sheet(plan, table, &mut rust_text);
    assert_eq!((proved(checked), length), (rust(rust_sheet.checked), rust_sheet.length));
    assert!(*text == rust_text[..]);
    assert_eq!((&*plan_lent, &*table_lent), (plan, table));
    if checked.map_or_else(|refusal| (25..=28).contains(&refusal.number()), |()| true) {
        let mut back = Lent::copy(&vec![OLD_BYTE; table.len()]);
        assert_eq!(olbiothar::sheet_table(&text[..length], &mut back), Ok(table.len()));
        assert_eq!(*back, *table);
    }
}

/// Into a room of few bytes, and into one that is always enough.
fn sheet_table(text: &[u8], few: usize) {
    let text_lent = Lent::copy(text);
    for room in [few, olbiothar::LONGEST_TABLE] {
        let mut table = Lent::copy(&vec![OLD_BYTE; room]);
        let read = proved(olbiothar::sheet_table(&text_lent, &mut table));
        let mut rust_table = vec![OLD_BYTE; room];
        assert_eq!(read, rust(reference::sheet_table(text, &mut rust_table)));
        assert_eq!(*table, rust_table[..]);
        assert_eq!(*text_lent, *text);
    }
}

/// Into a room of few bytes, and into one that is just enough, whose text reads back to the plan.
fn plan_text(plan: &[u8], few: usize) {
    let plan_lent = Lent::copy(plan);
    let needed = reference::plan_text(plan, &mut []).err().map_or(0, |refusal| refusal.place);
    for room in [few, needed] {
        let mut text = Lent::copy(&vec![OLD_BYTE; room]);
        let printed = proved(olbiothar::plan_text(&plan_lent, &mut text));
        let mut rust_text = vec![OLD_BYTE; room];
        assert_eq!(printed, rust(reference::plan_text(plan, &mut rust_text)));
        assert!(*text == rust_text[..]);
        assert_eq!(*plan_lent, *plan);
        if printed.is_ok_and(|length| length <= LONGEST_SHEET) {
            let mut back = Lent::copy(&vec![OLD_BYTE; plan.len()]);
            assert_eq!(olbiothar::text_plan(&text[..needed], &mut back), Ok(plan.len()));
            assert_eq!(*back, *plan);
        }
    }
}

/// Into a room of few bytes, and into one as long as the text, which is always enough.
fn text_plan(text: &[u8], few: usize) {
    let text_lent = Lent::copy(text);
    for room in [few, text.len()] {
        let mut plan = Lent::copy(&vec![OLD_BYTE; room]);
        let read = olbiothar::text_plan(&text_lent, &mut plan);
        let mut rust_plan = vec![OLD_BYTE; room];
        let rust_read = reference::text_plan(text, &mut rust_plan);
        let reason = match read {
            Err(TextRefusal::Unreadable { reason, .. }) => Reason::numbered(reason.number()),
            _ => None,
        };
        assert_eq!(reason, rust_read.err().and_then(|refusal| refusal.reason));
        let too_short = matches!(read, Err(TextRefusal::BufferTooShort { .. }));
        assert!(!too_short || room < text.len());
        let rust_read = rust_read.map_err(|refusal| refusal.refusal);
        assert_eq!(proved(read.map_err(Refusal::from)), rust(rust_read));
        assert_eq!(*plan, rust_plan[..]);
        assert_eq!(*text_lent, *text);
    }
}

fn own_table(plan: &[u8], edition: Edition) -> Vec<u8> {
    let mut table = vec![0; olbiothar::LONGEST_TABLE];
    let made = reference::make(plan, edition, &mut [OLD_ROW.1; MOST_FRAMES], &mut table);
    table.truncate(made.unwrap_or(0));
    table
}

fn rust_row(row: olbiothar::Row) -> reference::Row {
    match row {
        olbiothar::Row::Control { node, start, stop } => {
            reference::Row::Control { node, start, stop }
        }
        olbiothar::Row::Data { task, deadline, start, stop } => {
            reference::Row::Data { task, deadline, start, stop }
        }
    }
}
