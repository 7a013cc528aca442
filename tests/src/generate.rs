//! Seeded cases: plans, tables, sheets, texts of plans and histories, good, near the limits and damaged.
//! The same seed gives the same cases.

mod damage;
mod draft;
mod histories;
mod plan_texts;
mod plans;
mod random;
mod sheets;
mod tables;
mod texts;

pub use damage::{break_plan_rule, break_table_rule, damage_bytes};
pub use draft::{Draft, TableDraft, job_a, job_a_read_twice, job_j};
pub use histories::{History, Tick, broken_starting_modes, starting_modes};
pub use plan_texts::{any_plan, any_plan_text, any_records, printed_plan, rewritten, text_of};
pub use plans::{
    Size, also_in_modes, any_bits, longest_table, near_limit_plan, plan_with_rates, quick_runs,
    read_often, valid_plan,
};
pub use random::Rng;
pub use sheets::{any_sheet, printed};
pub use tables::{Made, made_plan, move_rows, playable_plan};

use crate::maker::LONGEST_TABLE;
use crate::station::Modes;
use crate::{Edition, LONGEST_SHEET, MOST_FRAMES, Refusal, plan_text, sheet_table, text_plan};

#[derive(Clone, Debug)]
pub struct MakeCase {
    pub plan: Vec<u8>,
    pub edition: Edition,
    pub rows: usize,
    pub room: usize,
}

#[derive(Clone, Debug)]
pub struct CheckCase {
    pub plan: Vec<u8>,
    pub table: Vec<u8>,
    pub rows: usize,
}

#[derive(Clone, Debug)]
pub struct PlayCase {
    pub plan: Vec<u8>,
    pub table: Vec<u8>,
    pub modes: Modes,
}

#[derive(Clone, Debug)]
pub struct SheetCase {
    pub plan: Vec<u8>,
    pub table: Vec<u8>,
    pub room: usize,
}

#[derive(Clone, Debug)]
pub struct PlanCase {
    pub plan: Vec<u8>,
    pub room: usize,
}

/// Of a sheet or of a plan.
#[derive(Clone, Debug)]
pub struct TextCase {
    pub text: Vec<u8>,
    pub room: usize,
}

/// So many seeds of each edition.
pub fn seeds(count: u64) -> impl Iterator<Item = (Edition, u64)> {
    let seeds = move |edition| (0..count).map(move |seed| (edition, seed));
    Edition::ALL.into_iter().flat_map(seeds)
}

/// Longer than any table.
pub const PLENTY: usize = 16_384;
const _: () = assert!(PLENTY > LONGEST_TABLE);

/// A plan file of any sort; the good ones are such as this edition makes tables of.
pub fn plan_file(rng: &mut Rng, edition: Edition) -> Vec<u8> {
    match rng.below(10) {
        0..3 => any_valid_plan(rng, edition).bytes(),
        3 => near_limit_plan(rng, edition).bytes(),
        4..9 => broken_plan(rng, edition, 1),
        _ => broken_plan(rng, edition, 3),
    }
}

fn any_valid_plan(rng: &mut Rng, edition: Edition) -> Draft {
    let size = Size::any(rng);
    valid_plan(rng, edition, &size)
}

fn broken_plan(rng: &mut Rng, edition: Edition, most_faults: u32) -> Vec<u8> {
    let mut draft =
        if rng.one_in(4) { near_limit_plan(rng, edition) } else { any_valid_plan(rng, edition) };
    let mut cut = false;
    for _ in 0..rng.between(1, most_faults) {
        match rng.between(1, 12) {
            1 => cut = true,
            rule => break_plan_rule(rng, edition, &mut draft, rule),
        }
    }
    let mut bytes = draft.bytes();
    if cut {
        damage_bytes(rng, &mut bytes);
    }
    bytes
}

/// Where consumers count, now and then a plan, or a table, that was made without them.
fn made_for(rng: &mut Rng, edition: Edition) -> Edition {
    match edition {
        Edition::Consumers if rng.one_in(8) => Edition::Basic,
        _ => edition,
    }
}

pub fn make_case(rng: &mut Rng, edition: Edition) -> MakeCase {
    let meant = made_for(rng, edition);
    let plan = plan_file(rng, meant);
    // Where no table is made, the room is as for a small one.
    let length = Made::of(&plan, edition).map_or(100, |made| made.table.bytes().len());
    let room = any_room(rng, length);
    MakeCase { plan, edition, rows: lent_rows(rng), room }
}

fn any_room(rng: &mut Rng, length: usize) -> usize {
    let some_more = length + rng.below(500);
    rng.pick(&[0, length / 2, length - 1, length, some_more, some_more, some_more, PLENTY])
}

fn lent_rows(rng: &mut Rng) -> usize {
    match rng.below(16) {
        0 => {
            // 256 were enough before request 7.
            let too_few = rng.below(MOST_FRAMES);
            rng.pick(&[too_few, 256, MOST_FRAMES - 1])
        }
        1 => MOST_FRAMES + rng.below(50),
        _ => MOST_FRAMES,
    }
}

pub fn check_case(rng: &mut Rng, edition: Edition) -> CheckCase {
    let size = Size::any(rng);
    let meant = made_for(rng, edition);
    let mut made = made_plan(rng, meant, &size);
    made.table.edition = edition;
    let plan = if rng.one_in(4) { plan_file(rng, edition) } else { made.plan.clone() };
    if made_for(rng, edition) != edition {
        made.table.edition = Edition::Basic;
    }
    CheckCase { plan, table: any_table(rng, &mut made), rows: lent_rows(rng) }
}

/// A made table, a moved one, or a damaged one.
fn any_table(rng: &mut Rng, made: &mut Made) -> Vec<u8> {
    if rng.one_in(2) {
        move_rows(rng, made);
    }
    if rng.one_in(4) {
        return made.table.bytes();
    }
    for _ in 0..rng.pick(&[1, 1, 1, 2]) {
        let rule = rng.between(21, 28);
        break_table_rule(rng, made, rule);
    }
    let mut bytes = made.table.bytes();
    if rng.one_in(6) {
        damage_bytes(rng, &mut bytes);
    }
    bytes
}

pub fn sheet_case(rng: &mut Rng, edition: Edition) -> SheetCase {
    let CheckCase { plan, table, .. } = check_case(rng, edition);
    let room = match rng.below(16) {
        0 => {
            let too_little = rng.below(LONGEST_SHEET);
            rng.pick(&[0, too_little, LONGEST_SHEET - 1])
        }
        1 => LONGEST_SHEET + rng.below(500),
        _ => LONGEST_SHEET,
    };
    SheetCase { plan, table, room }
}

pub fn sheet_text_case(rng: &mut Rng, edition: Edition) -> TextCase {
    let text = any_sheet(rng, edition);
    // Where the text is unreadable, the room is as for a small table.
    let length = sheet_table(&text, &mut [0; LONGEST_TABLE]).unwrap_or(100);
    let room = any_room(rng, length);
    TextCase { text, room }
}

pub fn plan_case(rng: &mut Rng) -> PlanCase {
    let plan = any_plan(rng);
    let length = needed(plan_text(&plan, &mut []));
    let room = any_room(rng, length);
    PlanCase { plan, room }
}

pub fn plan_text_case(rng: &mut Rng) -> TextCase {
    let text = any_plan_text(rng);
    let length = needed(text_plan(&text, &mut []).map_err(|unread| unread.refusal));
    let room = any_room(rng, length);
    TextCase { text, room }
}

/// Where nothing is lent the bytes needed are refused with 13; where all is refused, as for little.
fn needed(answer: Result<usize, Refusal>) -> usize {
    match answer {
        Err(Refusal { number: 13, place }) => place,
        _ => 100,
    }
}

pub fn play_case(rng: &mut Rng, edition: Edition) -> PlayCase {
    let mut made = playable_plan(rng, edition);
    let modes = if rng.one_in(4) {
        broken_starting_modes(rng, &made.read_plan)
    } else {
        starting_modes(rng, &made.read_plan)
    };
    let table = if rng.one_in(8) {
        any_table(rng, &mut made)
    } else {
        move_rows(rng, &mut made);
        made.table.bytes()
    };
    let plan = if rng.one_in(16) { plan_file(rng, edition) } else { made.plan };
    PlayCase { plan, table, modes }
}
