//! The proved library against the Rust program, on the same inputs, in one run. Each round times
//! both, one after the other; a line has the medians over the rounds, the median of the rounds'
//! ratios, and the ratios between which the middle half of the rounds lies.

use bench::{READ_FRAMES, SIZES, TICKS, plan_read, plan_with, ticks_of};
use olbiothar::{FRAMES, Frame, LONGEST_SHEET, LONGEST_TABLE, Refusal, Station};
use reference::generate::quick_runs;
use reference::{Edition, FrameRow};
use std::hint::black_box;
use std::time::Instant;

const ROUNDS: usize = 101;
/// Of one side in one round.
const ROUND_NANOSECONDS: f64 = 2_000_000.0;

/// Nanoseconds of one call: the mean over so many calls.
fn time<T>(calls: usize, call: &mut impl FnMut() -> T) -> f64 {
    let began = Instant::now();
    for _ in 0..calls {
        black_box(call());
    }
    began.elapsed().as_nanos() as f64 / calls as f64
}

fn quantile(sorted: &[f64], part: f64) -> f64 {
    sorted[(part * (sorted.len() - 1) as f64).round() as usize]
}

fn sorted(values: impl Iterator<Item = f64>) -> Vec<f64> {
    let mut values: Vec<f64> = values.collect();
    values.sort_by(f64::total_cmp);
    values
}

/// `parts` is how many of what the line speaks of are in a call.
fn compare<P, R>(
    line: &str,
    parts: usize,
    mut proved: impl FnMut() -> P,
    mut rust: impl FnMut() -> R,
) {
    let calls =
        (ROUND_NANOSECONDS / time(1, &mut proved).max(time(1, &mut rust))).max(1.0) as usize;
    let mut round = || (time(calls, &mut proved), time(calls, &mut rust));
    round();
    let rounds: Vec<(f64, f64)> = (0..ROUNDS).map(|_| round()).collect();
    let proved = sorted(rounds.iter().map(|(proved, _)| proved / parts as f64));
    let rust = sorted(rounds.iter().map(|(_, rust)| rust / parts as f64));
    let ratios = sorted(rounds.iter().map(|(proved, rust)| proved / rust));
    println!(
        "{line} {:>12.0} {:>10.0} {:>8.2} {:>8.2} to {:.2}",
        quantile(&proved, 0.5),
        quantile(&rust, 0.5),
        quantile(&ratios, 0.5),
        quantile(&ratios, 0.25),
        quantile(&ratios, 0.75),
    );
}

fn line(name: &str, frames: usize) -> String {
    format!("{name:<11} {frames:>6}")
}

/// What a line is called by: consumers have lines of their own.
fn name(function: &str, edition: Edition) -> String {
    match edition {
        Edition::Basic => function.to_string(),
        Edition::Consumers => format!("{function}, read"),
    }
}

fn compare_make(edition: Edition, frames: usize, plan: &[u8]) -> Vec<u8> {
    let proved_edition = olbiothar::Edition::from_number(edition as u8).expect("as many editions");
    let (mut proved_rows, mut rows) = ([Frame::default(); FRAMES], [FrameRow::default(); FRAMES]);
    let (mut proved_table, mut table) = ([0; LONGEST_TABLE], [0; LONGEST_TABLE]);
    let length =
        reference::make(plan, edition, &mut rows, &mut table).expect("the plan has a table");
    let made = olbiothar::make(plan, proved_edition, &mut proved_rows, &mut proved_table);
    assert_eq!(made, Ok(length));
    assert_eq!(proved_table, table);
    assert_eq!(rows.iter().filter(|row| row.deadline > 0).count(), frames);
    let made = table[..length].to_vec();
    compare(
        &line(&name("make", edition), frames),
        1,
        || olbiothar::make(black_box(plan), proved_edition, &mut proved_rows, &mut proved_table),
        || reference::make(black_box(plan), edition, &mut rows, &mut table),
    );
    made
}

fn compare_check(frames: usize, plan: &[u8], table: &[u8]) {
    let (mut proved_rows, mut rows) = ([Frame::default(); FRAMES], [FrameRow::default(); FRAMES]);
    assert_eq!(olbiothar::check(plan, table, &mut proved_rows), Ok(()));
    compare(
        &line(&name("check", Edition::of_table(table)), frames),
        1,
        || olbiothar::check(black_box(plan), table, &mut proved_rows),
        || reference::check(black_box(plan), table, &mut rows),
    );
}

fn compare_sheet(frames: usize, plan: &[u8], table: &[u8]) -> Vec<u8> {
    let (mut proved_text, mut text) = (vec![0; LONGEST_SHEET], vec![0; LONGEST_SHEET]);
    let printed = reference::sheet(plan, table, &mut text);
    let proved = olbiothar::sheet(plan, table, &mut proved_text);
    assert_eq!((proved.checked, proved.length), (Ok(()), printed.length));
    assert_eq!(proved_text, text);
    let sheet = text[..printed.length].to_vec();
    compare(
        &line("sheet", frames),
        1,
        || olbiothar::sheet(black_box(plan), table, &mut proved_text),
        || reference::sheet(black_box(plan), table, &mut text),
    );
    sheet
}

fn compare_sheet_table(frames: usize, sheet: &[u8], table: &[u8]) {
    let (mut proved_table, mut rust_table) = ([0; LONGEST_TABLE], [0; LONGEST_TABLE]);
    assert_eq!(olbiothar::sheet_table(sheet, &mut proved_table), Ok(table.len()));
    assert_eq!(proved_table[..table.len()], *table);
    compare(
        &line("sheet_table", frames),
        1,
        || olbiothar::sheet_table(black_box(sheet), &mut proved_table),
        || reference::sheet_table(black_box(sheet), &mut rust_table),
    );
}

fn compare_plan_text(frames: usize, plan: &[u8]) -> Vec<u8> {
    let refusal = reference::plan_text(plan, &mut []).expect_err("13");
    let (mut proved_text, mut text) = (vec![0; refusal.place], vec![0; refusal.place]);
    assert_eq!(reference::plan_text(plan, &mut text), Ok(refusal.place));
    assert_eq!(olbiothar::plan_text(plan, &mut proved_text), Ok(refusal.place));
    assert_eq!(proved_text, text);
    let printed = text.clone();
    compare(
        &line("plan_text", frames),
        1,
        || olbiothar::plan_text(black_box(plan), &mut proved_text),
        || reference::plan_text(black_box(plan), &mut text),
    );
    printed
}

fn compare_text_plan(frames: usize, text: &[u8], plan: &[u8]) {
    let (mut proved_plan, mut rust_plan) = (vec![0; plan.len()], vec![0; plan.len()]);
    assert_eq!(olbiothar::text_plan(text, &mut proved_plan), Ok(plan.len()));
    assert_eq!(proved_plan, plan);
    compare(
        &line("text_plan", frames),
        1,
        || olbiothar::text_plan(black_box(text), &mut proved_plan),
        || reference::text_plan(black_box(text), &mut rust_plan),
    );
}

/// The same history again and again, each time from the beginning.
fn compare_ticks(frames: usize, plan: &[u8], table: &[u8]) {
    let (modes, ticks) = ticks_of(plan);
    let begun = Station::begun(plan, table, &modes).expect("the table passes");
    let rust_begun = reference::Station::begin(plan, table, modes).expect("the table passes");
    compare(
        &line(&name("tick", Edition::of_table(table)), frames),
        TICKS,
        || {
            let mut station = begun.clone();
            for tick in &ticks {
                assert!(station.tick(&tick.results, &tick.modes).is_ok());
            }
            station
        },
        || {
            let mut station = rust_begun.clone();
            for tick in &ticks {
                assert!(station.tick(&tick.results, &tick.modes).is_ok());
            }
            station
        },
    );
}

/// Runs so quick that refusal 9 is settled long before the end of the period: in short periods and in
/// long ones. All else of these plans is the same.
fn compare_quick(tasks: usize, ticks: u32, period: u32) {
    let rate = u16::try_from(period / ticks).expect("a rate");
    let plan = quick_runs(period, &vec![rate; tasks]).bytes();
    let (mut proved_rows, mut rows) = ([Frame::default(); FRAMES], [FrameRow::default(); FRAMES]);
    let (mut proved_table, mut table) = ([0; LONGEST_TABLE], [0; LONGEST_TABLE]);
    let basic = olbiothar::Edition::Basic;
    let made = olbiothar::make(&plan, basic, &mut proved_rows, &mut proved_table);
    assert_eq!(made, Err(Refusal::TooManyFrames));
    let refusal = reference::make(&plan, Edition::Basic, &mut rows, &mut table).expect_err("9");
    assert_eq!((refusal.number, refusal.place), (9, 0));
    let messages = tasks * usize::from(rate) + 1;
    compare(
        &format!("{tasks:>5} {ticks:>6} {period:>10} {messages:>10}"),
        1,
        || olbiothar::make(black_box(&plan), basic, &mut proved_rows, &mut proved_table),
        || reference::make(black_box(&plan), Edition::Basic, &mut rows, &mut table),
    );
}

fn main() {
    println!("            frames    proved ns    Rust ns    ratio   middle half");
    for (frames, rates) in SIZES {
        let plan = plan_with(rates).bytes();
        let table = compare_make(Edition::Basic, frames, &plan);
        compare_check(frames, &plan, &table);
        compare_ticks(frames, &plan, &table);
        let sheet = compare_sheet(frames, &plan, &table);
        compare_sheet_table(frames, &sheet, &table);
        let text = compare_plan_text(frames, &plan);
        compare_text_plan(frames, &text, &plan);
    }
    let plan = plan_read().bytes();
    let table = compare_make(Edition::Consumers, READ_FRAMES, &plan);
    compare_check(READ_FRAMES, &plan, &table);
    compare_ticks(READ_FRAMES, &plan, &table);
    println!("\nrefused 9 at 0");
    println!("tasks  ticks          P   messages    proved ns    Rust ns    ratio   middle half");
    for tasks in [1, 31] {
        for (ticks, period) in [(1, 2_000), (1, 65_535), (16, 32_000), (16, 1_000_000)] {
            compare_quick(tasks, ticks, period);
        }
    }
}
