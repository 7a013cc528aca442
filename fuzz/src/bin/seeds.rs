//! Writes inputs to begin with into a folder: good and broken plans, tables, histories, sheets and plans as text.

use reference::generate::{CheckCase, History, MakeCase, PlayCase, Rng, SheetCase};
use reference::generate::{any_plan, any_plan_text, any_sheet};
use reference::generate::{check_case, make_case, play_case, seeds, sheet_case};
use reference::{Edition, plan};
use std::path::Path;

/// Of each edition.
const CASES: u64 = 150;

fn file(bytes: &[u8]) -> Vec<u8> {
    [&(bytes.len() as u16).to_le_bytes(), bytes].concat()
}

fn make_input(rng: &mut Rng, edition: Edition) -> Vec<u8> {
    let MakeCase { plan, edition, room, .. } = make_case(rng, edition);
    [vec![0, 0], file(&plan), vec![edition as u8], vec![0x5a; room]].concat()
}

fn check_input(rng: &mut Rng, edition: Edition) -> Vec<u8> {
    let CheckCase { plan, table, .. } = check_case(rng, edition);
    [vec![1, 0], file(&plan), table].concat()
}

fn play_input(rng: &mut Rng, edition: Edition) -> Vec<u8> {
    let PlayCase { plan, table, modes } = play_case(rng, edition);
    let mut input = [vec![2, 0], file(&plan), file(&table)].concat();
    input.extend(modes.map(|mode| mode.unwrap_or(255)));
    let Ok(read) = plan::read(&plan) else { return input };
    if reference::Station::begin(&plan, &table, modes).is_ok() {
        let mut history = History::new(rng, &read, &modes, Some(50));
        (0..200).for_each(|_| put_tick(&mut input, &history.next_tick().0));
    }
    input
}

/// As far as an input can say it: three small results and one change.
fn put_tick(input: &mut Vec<u8>, tick: &reference::generate::Tick) {
    let given: Vec<(u8, u64)> = (0..)
        .zip(tick.results)
        .filter_map(|(task, result)| Some((task, result?)))
        .take(3)
        .collect();
    input.push(given.len() as u8);
    given.iter().for_each(|&(task, result)| input.extend([task, 0, result as u8]));
    let change = (0..).zip(tick.modes).find_map(|(module, mode)| Some([module, mode?]));
    input.extend(change.unwrap_or([0, 255]));
}

fn sheet_input(rng: &mut Rng, edition: Edition) -> Vec<u8> {
    let SheetCase { plan, table, .. } = sheet_case(rng, edition);
    [vec![3, 0], file(&plan), table].concat()
}

/// What is read or printed, with nothing in front of it but how few bytes are lent.
fn alone(what: u8, rng: &mut Rng, bytes: Vec<u8>) -> Vec<u8> {
    [vec![what, rng.number() as u8], bytes].concat()
}

fn main() -> std::io::Result<()> {
    let folder = std::env::args().nth(1).unwrap_or("corpus".into());
    std::fs::create_dir_all(&folder)?;
    for (edition, seed) in seeds(CASES) {
        let rng = &mut Rng::new(seed);
        let (text, plan, plan_text) = (any_sheet(rng, edition), any_plan(rng), any_plan_text(rng));
        for (name, input) in [
            ("make", make_input(rng, edition)),
            ("check", check_input(rng, edition)),
            ("play", play_input(rng, edition)),
            ("sheet", sheet_input(rng, edition)),
            ("text", alone(4, rng, text)),
            ("plan", alone(5, rng, plan)),
            ("plan-text", alone(6, rng, plan_text)),
        ] {
            std::fs::write(
                Path::new(&folder).join(format!("{name}-{}-{seed}", edition as u8)),
                input,
            )?;
        }
    }
    Ok(())
}
