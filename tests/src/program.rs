//! What can be compared: make, check, begin and tick, what a station says of itself, sheets and plans
//! printed and read, on lent memory, whoever performs them.

use crate::station::{Modes, ModuleNow, Results, TaskNow, TimeNow};
use crate::{
    Edition, FrameRow, MOST_FRAMES, MOST_MODULES, MOST_NODES, MOST_TASKS, Refusal, Row, Sheet,
    Station, TextRefusal, check, make, plan_text, sheet, sheet_table, text_plan,
};

/// By node, then task.
pub type Shown = [[u64; MOST_TASKS]; MOST_NODES];

/// What a tick answers, and what all nodes show after it.
#[derive(Clone, Debug, PartialEq, Eq)]
pub struct Ticked {
    pub answer: Result<Option<Row>, Refusal>,
    pub shown: Shown,
}

/// What a station says of itself.
#[derive(Clone, Debug, PartialEq, Eq)]
pub struct Now {
    pub time: TimeNow,
    pub modules: [ModuleNow; MOST_MODULES],
    pub tasks: [TaskNow; MOST_TASKS],
}

pub trait Program {
    /// The edition is given by its number.
    fn make(
        &mut self,
        plan: &[u8],
        edition: u8,
        rows: &mut [FrameRow],
        buffer: &mut [u8],
    ) -> Result<usize, Refusal>;

    fn check(&mut self, plan: &[u8], table: &[u8], rows: &mut [FrameRow]) -> Result<(), Refusal>;

    /// Leaves a station not begun behind.
    fn forget(&mut self);

    /// Leaves a station behind; if it refuses, the one that stood there.
    fn begin(&mut self, plan: &[u8], table: &[u8], modes: &Modes) -> Result<(), Refusal>;

    /// A tick of the station that was left behind.
    fn tick(&mut self, results: &Results, modes: &Modes) -> Ticked;

    fn now(&mut self) -> Now;

    /// The lent text is one byte, again and again.
    fn sheet(&mut self, plan: &[u8], table: &[u8], text: &mut [u8]) -> Sheet;

    fn sheet_table(&mut self, text: &[u8], table: &mut [u8]) -> Result<usize, Refusal>;

    /// The lent text is one byte, again and again.
    fn plan_text(&mut self, plan: &[u8], text: &mut [u8]) -> Result<usize, Refusal>;

    fn text_plan(&mut self, text: &[u8], plan: &mut [u8]) -> Result<usize, TextRefusal>;
}

/// The Rust program of this package.
#[derive(Debug)]
pub struct Reference {
    station: Station,
}

impl Default for Reference {
    fn default() -> Reference {
        Reference { station: Station::not_begun() }
    }
}

impl Program for Reference {
    fn make(
        &mut self,
        plan: &[u8],
        edition: u8,
        rows: &mut [FrameRow],
        buffer: &mut [u8],
    ) -> Result<usize, Refusal> {
        if let Some(named) = Edition::numbered(edition) {
            return make(plan, named, rows, buffer);
        }
        if rows.len() < MOST_FRAMES {
            return Err(Refusal::new(19, MOST_FRAMES));
        }
        rows.fill(FrameRow::default());
        Err(Refusal::new(62, edition.into()))
    }

    fn check(&mut self, plan: &[u8], table: &[u8], rows: &mut [FrameRow]) -> Result<(), Refusal> {
        check(plan, table, rows)
    }

    fn forget(&mut self) {
        self.station = Station::not_begun();
    }

    fn begin(&mut self, plan: &[u8], table: &[u8], modes: &Modes) -> Result<(), Refusal> {
        self.station = Station::begin(plan, table, *modes)?;
        Ok(())
    }

    fn tick(&mut self, results: &Results, modes: &Modes) -> Ticked {
        let answer = self.station.tick(results, modes);
        let node = |node| std::array::from_fn(|task| self.station.shown(node, task));
        Ticked { answer, shown: std::array::from_fn(node) }
    }

    fn now(&mut self) -> Now {
        Now {
            time: self.station.time(),
            modules: std::array::from_fn(|module| self.station.module(module as u8)),
            tasks: std::array::from_fn(|task| self.station.task(task as u8)),
        }
    }

    fn sheet(&mut self, plan: &[u8], table: &[u8], text: &mut [u8]) -> Sheet {
        sheet(plan, table, text)
    }

    fn sheet_table(&mut self, text: &[u8], table: &mut [u8]) -> Result<usize, Refusal> {
        sheet_table(text, table)
    }

    fn plan_text(&mut self, plan: &[u8], text: &mut [u8]) -> Result<usize, Refusal> {
        plan_text(plan, text)
    }

    fn text_plan(&mut self, text: &[u8], plan: &mut [u8]) -> Result<usize, TextRefusal> {
        text_plan(text, plan)
    }
}
