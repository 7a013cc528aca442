//! Calls one function of the proved library, or of the Rust program, again and again and writes nothing:
//! `calls proved|rust FUNCTION FRAMES TIMES`; for FRAMES may stand `read`, the plan for consumers. `bench/instructions` counts what a call takes by it.

use bench::{SIZES, plan_read, plan_with, ticks_of};
use olbiothar::{FRAMES, Frame, LONGEST_SHEET, LONGEST_TABLE, Station};
use reference::generate::{Draft, text_of};
use reference::{Edition, FrameRow};
use std::hint::black_box;

/// A plan and its table, and both as text.
#[derive(Clone, Copy)]
struct Given {
    edition: Edition,
    plan: &'static [u8],
    table: &'static [u8],
    sheet: &'static [u8],
    text: &'static [u8],
}

type Call = Box<dyn FnMut()>;

fn proved(function: &str, given: Given) -> Option<Call> {
    let Given { edition, plan, table, sheet, text } = given;
    let edition = olbiothar::Edition::from_number(edition as u8)?;
    let (mut rows, mut room) = ([Frame::default(); FRAMES], [0; LONGEST_TABLE]);
    let mut long_room = vec![0; LONGEST_SHEET];
    let (modes, ticks) = ticks_of(plan);
    let mut station = Station::begun(plan, table, &modes).expect("the table passes");
    let mut ticks = ticks.into_iter();
    Some(match function {
        "make" => Box::new(move || {
            assert!(olbiothar::make(black_box(plan), edition, &mut rows, &mut room).is_ok());
        }),
        "check" => Box::new(move || {
            assert!(olbiothar::check(black_box(plan), table, &mut rows).is_ok());
        }),
        "tick" => Box::new(move || {
            let tick = ticks.next().expect("a history is long enough");
            assert!(station.tick(&tick.results, &tick.modes).is_ok());
        }),
        "sheet" => Box::new(move || {
            assert!(olbiothar::sheet(black_box(plan), table, &mut long_room).checked.is_ok());
        }),
        "sheet_table" => Box::new(move || {
            assert!(olbiothar::sheet_table(black_box(sheet), &mut room).is_ok());
        }),
        "plan_text" => Box::new(move || {
            assert!(olbiothar::plan_text(black_box(plan), &mut long_room).is_ok());
        }),
        "text_plan" => Box::new(move || {
            assert!(olbiothar::text_plan(black_box(text), &mut long_room).is_ok());
        }),
        _ => return None,
    })
}

fn rust(function: &str, given: Given) -> Option<Call> {
    let Given { edition, plan, table, sheet, text } = given;
    let (mut rows, mut room) = ([FrameRow::default(); FRAMES], [0; LONGEST_TABLE]);
    let mut long_room = vec![0; LONGEST_SHEET];
    let (modes, ticks) = ticks_of(plan);
    let mut station = reference::Station::begin(plan, table, modes).expect("the table passes");
    let mut ticks = ticks.into_iter();
    Some(match function {
        "make" => Box::new(move || {
            assert!(reference::make(black_box(plan), edition, &mut rows, &mut room).is_ok());
        }),
        "check" => Box::new(move || {
            assert!(reference::check(black_box(plan), table, &mut rows).is_ok());
        }),
        "tick" => Box::new(move || {
            let tick = ticks.next().expect("a history is long enough");
            assert!(station.tick(&tick.results, &tick.modes).is_ok());
        }),
        "sheet" => Box::new(move || {
            assert!(reference::sheet(black_box(plan), table, &mut long_room).checked.is_ok());
        }),
        "sheet_table" => Box::new(move || {
            assert!(reference::sheet_table(black_box(sheet), &mut room).is_ok());
        }),
        "plan_text" => Box::new(move || {
            assert!(reference::plan_text(black_box(plan), &mut long_room).is_ok());
        }),
        "text_plan" => Box::new(move || {
            assert!(reference::text_plan(black_box(text), &mut long_room).is_ok());
        }),
        _ => return None,
    })
}

/// As the Rust program has them.
fn given(edition: Edition, plan: &Draft) -> Given {
    let plan = plan.bytes();
    let mut table = vec![0; LONGEST_TABLE];
    let made = reference::make(&plan, edition, &mut [FrameRow::default(); FRAMES], &mut table);
    table.truncate(made.expect("the plan has a table"));
    let mut sheet = vec![0; LONGEST_SHEET];
    let printed = reference::sheet(&plan, &table, &mut sheet);
    sheet.truncate(printed.length);
    let text = text_of(&plan).expect("the plan keeps the record rules");
    let [plan, table, sheet, text] = [plan, table, sheet, text].map(|bytes| &*bytes.leak());
    Given { edition, plan, table, sheet, text }
}

fn main() {
    let words: Vec<String> = std::env::args().collect();
    let [_, library, function, frames, times] = &words[..] else {
        panic!("calls proved|rust FUNCTION FRAMES TIMES");
    };
    let given = match frames.as_str() {
        "read" => given(Edition::Consumers, &plan_read()),
        frames => {
            let frames: usize = frames.parse().expect("a number of frames");
            let of_size = SIZES.iter().find(|(size, _)| *size == frames);
            let (_, rates) = of_size.expect("a size of the benchmark");
            given(Edition::Basic, &plan_with(rates))
        }
    };
    let calls = if library == "rust" { rust } else { proved };
    let mut call = calls(function, given).expect("a function of the library");
    for _ in 0..times.parse().expect("how often") {
        call();
    }
}
