//! The rules of docs/RULES.md in plain Rust: unproved, independent of the proved program, written for speed.
//! It is what the proved program is compared with, in its answers and in its time.
#![forbid(unsafe_code)]

pub mod bus;
pub mod checker;
pub mod driver;
pub mod edition;
pub mod generate;
pub mod maker;
pub mod one_board;
pub mod plan;
pub mod plan_text;
pub mod program;
pub mod records;
pub mod sheet;
pub mod station;
pub mod stored;
pub mod text;
pub mod vectors;

pub use checker::check;
pub use edition::Edition;
pub use maker::make;
pub use plan_text::{Reason, TextRefusal, plan_text, text_plan};
pub use sheet::{LONGEST_SHEET, Sheet, sheet, sheet_table};
pub use station::{Row, Station};

pub const MOST_NODES: usize = 8;
pub const MOST_MODULES: usize = 16;
pub const MOST_MODES: usize = 32;
pub const MOST_TASKS: usize = 32;
pub const MOST_INVOCATIONS: usize = 64;
pub const MOST_CONNECTIONS: usize = 64;
pub const MOST_FRAMES: usize = 1_024;

#[repr(C)]
#[derive(Clone, Copy, Debug, Default, PartialEq, Eq)]
pub struct FrameRow {
    pub task: u32,
    pub release: u32,
    pub deadline: u32,
    pub start: u32,
}

#[derive(Clone, Copy, Debug, PartialEq, Eq)]
pub struct Refusal {
    pub number: u32,
    pub place: usize,
}

impl Refusal {
    pub const fn new(number: u32, place: usize) -> Refusal {
        Refusal { number, place }
    }
}

/// What every rule gives: nothing, or its refusal at the lowest place.
pub(crate) fn refuse_at(number: u32, place: Option<usize>) -> Result<(), Refusal> {
    match place {
        Some(place) => Err(Refusal::new(number, place)),
        None => Ok(()),
    }
}

/// Sets of tasks, modules and nodes are bit sets.
pub(crate) fn has(set: u32, number: u8) -> bool {
    set >> number & 1 == 1
}

/// Lends the rows to `work`, which gives the number of frames it left there beside its answer.
/// On return the rows behind the frames are zero, all of them after a refusal; 19 changes none.
pub(crate) fn with_rows<T>(
    rows: &mut [FrameRow],
    work: impl FnOnce(&mut [FrameRow]) -> Result<(usize, T), Refusal>,
) -> Result<T, Refusal> {
    if rows.len() < MOST_FRAMES {
        return Err(Refusal::new(19, MOST_FRAMES));
    }
    let answer = work(rows);
    let frames = answer.as_ref().map_or(0, |(frames, _)| *frames);
    rows[frames..].fill(FrameRow::default());
    answer.map(|(_, given)| given)
}
