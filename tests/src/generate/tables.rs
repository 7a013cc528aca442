//! Made tables, and tables moved within their windows.

use super::PLENTY;
use super::draft::{Draft, TableDraft, job_a};
use super::plans::{Size, crowded_cycle, near_limit_plan, valid_plan};
use super::random::Rng;
use crate::bus::{self, Bus};
use crate::checker::{DataRow, frame_of};
use crate::plan::{self, Plan};
use crate::{Edition, FrameRow, MOST_FRAMES, make};

/// A plan with its table and what the plan asks of the bus.
#[derive(Clone, Debug)]
pub struct Made {
    pub plan: Vec<u8>,
    pub read_plan: Plan,
    pub bus: Bus,
    pub frames: Vec<FrameRow>,
    pub table: TableDraft,
}

impl Made {
    pub fn of(plan: &[u8], edition: Edition) -> Option<Made> {
        let mut rows = [FrameRow::default(); MOST_FRAMES];
        let read_plan = plan::read(plan).ok()?;
        let bus = bus::derive(&read_plan, edition, &mut rows).ok()?;
        let mut table = [0; PLENTY];
        let length = make(plan, edition, &mut rows, &mut table).ok()?;
        let frames = rows[..bus.frames].to_vec();
        let table = TableDraft::read(&table[..length])?;
        Some(Made { plan: plan.to_vec(), read_plan, bus, frames, table })
    }

    pub fn release_and_time(&self, row: &DataRow) -> Option<(u32, u32)> {
        let frame = &self.frames[frame_of(&self.frames, row)?];
        Some((frame.release, self.bus.sending_times[usize::from(row.task)]))
    }
}

const TRIES: usize = 40;

/// A plan of this size, or near a limit, that has a table.
pub fn made_plan(rng: &mut Rng, edition: Edition, size: &Size) -> Made {
    let near_limits = size.base > 1_000 && rng.one_in(4);
    let mut try_one = || -> Option<Made> {
        let draft: Draft = if near_limits {
            near_limit_plan(rng, edition)
        } else {
            valid_plan(rng, edition, size)
        };
        Made::of(&draft.bytes(), edition)
    };
    let found = (0..TRIES).find_map(|_| try_one());
    found.or_else(|| Made::of(&job_a().bytes(), edition)).expect("job A has a table")
}

/// A plan whose cycle is short enough to be played, now and then one of very many frames.
pub fn playable_plan(rng: &mut Rng, edition: Edition) -> Made {
    if rng.one_in(32) {
        let crowded = crowded_cycle(rng, edition).bytes();
        return Made::of(&crowded, edition).expect("each run has a tick for each frame");
    }
    let size = Size::short(rng);
    made_plan(rng, edition, &size)
}

/// Moves every data row to any start that keeps the rules, and exchanges neighbours where they fit.
pub fn move_rows(rng: &mut Rng, made: &mut Made) {
    for index in 0..made.table.data.len() {
        let (from, to) = free_time(made, index);
        if index + 1 < made.table.data.len() && rng.one_in(4) {
            exchange(made, index);
        } else {
            move_row(rng, made, index, from, to);
        }
    }
}

/// From when a row may start, and until when it may stop, by the rows beside it.
fn free_time(made: &Made, index: usize) -> (u32, u32) {
    let data = &made.table.data;
    let before = index.checked_sub(1).map(|before| data[before].stop + made.bus.gap);
    let behind = data.get(index + 1).map(|behind| behind.start - made.bus.gap);
    (before.unwrap_or(made.bus.control_end), behind.unwrap_or(made.bus.period - made.bus.gap))
}

fn move_row(rng: &mut Rng, made: &mut Made, index: usize, from: u32, to: u32) {
    let row = made.table.data[index];
    let Some((release, time)) = made.release_and_time(&row) else { return };
    let step = made.bus.resolution;
    let earliest = from.max(release).div_ceil(step);
    let latest = (to.min(row.deadline) - time) / step;
    let start = rng.often_extreme(earliest, latest) * step;
    made.table.data[index] = DataRow { start, stop: start + time, ..row };
}

/// The row behind goes first, both as early as they may, if both still fit.
fn exchange(made: &mut Made, index: usize) {
    let (from, _) = free_time(made, index);
    let (_, to) = free_time(made, index + 1);
    let (later, first) = (made.table.data[index], made.table.data[index + 1]);
    let Some(first) = earliest(made, &first, from) else { return };
    let Some(later) = earliest(made, &later, first.stop + made.bus.gap) else { return };
    if first.stop <= first.deadline && later.stop <= later.deadline.min(to) {
        (made.table.data[index], made.table.data[index + 1]) = (first, later);
    }
}

fn earliest(made: &Made, row: &DataRow, from: u32) -> Option<DataRow> {
    let (release, time) = made.release_and_time(row)?;
    let start = from.max(release).next_multiple_of(made.bus.resolution);
    Some(DataRow { start, stop: start + time, ..*row })
}
