//! The latest-release rule and the table's bytes: refusals 12 and 13.

use crate::bus::{self, Bus, ControlRow};
use crate::checker::DataRow;
use crate::records::{CONTROL_ROW, DATA_ROW, END, TABLE, record_length};
use crate::{Edition, FrameRow, MOST_FRAMES, MOST_NODES, Refusal, plan, with_rows};
use std::collections::BinaryHeap;

/// Makes the table at the front of the buffer and gives its length.
pub fn make(
    plan: &[u8],
    edition: Edition,
    rows: &mut [FrameRow],
    buffer: &mut [u8],
) -> Result<usize, Refusal> {
    with_rows(rows, |rows| {
        let plan = plan::read(plan)?;
        let bus = bus::derive(&plan, edition, rows)?;
        let frames = &mut rows[..bus.frames];
        let order = place_frames(&bus, frames)?;
        let needed = table_length(bus.control.len(), bus.frames);
        let table = buffer.get_mut(..needed).ok_or(Refusal::new(13, needed))?;
        let row = |&number: &u16| data_row(&bus, &frames[usize::from(number)]);
        write_table(edition, bus.period, &bus.control, order.iter().rev().map(row), table);
        Ok((bus.frames, needed))
    })
}

pub const LONGEST_TABLE: usize = table_length(MOST_NODES, MOST_FRAMES);

pub(crate) const fn table_length(control_rows: usize, data_rows: usize) -> usize {
    record_length(TABLE)
        + control_rows * record_length(CONTROL_ROW)
        + data_rows * record_length(DATA_ROW)
        + record_length(END)
}

/// The latest-release rule: writes the starts and gives the frame numbers by start, the last first.
fn place_frames(bus: &Bus, frames: &mut [FrameRow]) -> Result<Vec<u16>, Refusal> {
    let mut order = Vec::with_capacity(frames.len());
    let mut candidates = BinaryHeap::with_capacity(frames.len());
    let mut not_yet = frames.len();
    // The next cycle's first frame starts at the bus period; C is at least a gap and at most the period.
    let mut end = bus.period - bus.gap;
    while order.len() < frames.len() {
        // A candidate's deadline is not before the end, so only without one the end can fall.
        if candidates.is_empty() {
            end = end.min(frames[not_yet - 1].deadline);
        }
        while not_yet > 0 && frames[not_yet - 1].deadline >= end {
            not_yet -= 1;
            candidates.push(u64::from(frames[not_yet].release) << 32 | not_yet as u64);
        }
        let Some(latest) = candidates.pop() else { break };
        let number = latest as u32 as usize;
        let start = latest_start(bus, &frames[number], end).ok_or(Refusal::new(12, number))?;
        frames[number].start = start;
        order.push(number as u16);
        end = start - bus.gap;
    }
    Ok(order)
}

fn latest_start(bus: &Bus, frame: &FrameRow, end: u32) -> Option<u32> {
    let latest = end.checked_sub(bus.sending_times[frame.task as usize])?;
    let start = latest - latest % bus.resolution;
    (start >= frame.release && start >= bus.control_end).then_some(start)
}

fn data_row(bus: &Bus, frame: &FrameRow) -> DataRow {
    let FrameRow { task, deadline, start, .. } = *frame;
    let stop = start + bus.sending_times[task as usize];
    DataRow { task: task as u8, deadline, start, stop }
}

/// Fills the table, which is as long as the rows make it. There are few enough of them for a header.
pub(crate) fn write_table(
    edition: Edition,
    period: u32,
    control: &[ControlRow],
    data: impl ExactSizeIterator<Item = DataRow>,
    table: &mut [u8],
) {
    let (header, rows) = table.split_at_mut(record_length(TABLE));
    let (control_rows, rows) = rows.split_at_mut(control.len() * record_length(CONTROL_ROW));
    let (data_rows, end) = rows.split_at_mut(data.len() * record_length(DATA_ROW));
    let [p0, p1, p2, p3] = period.to_le_bytes();
    let [d0, d1] = (data.len() as u16).to_le_bytes();
    header.copy_from_slice(&[edition.kind(), p0, p1, p2, p3, control.len() as u8, d0, d1]);
    for (bytes, row) in control_rows.as_chunks_mut().0.iter_mut().zip(control) {
        *bytes = control_record(row);
    }
    for (bytes, row) in data_rows.as_chunks_mut().0.iter_mut().zip(data) {
        *bytes = data_record(&row);
    }
    end.copy_from_slice(&[END]);
}

fn control_record(row: &ControlRow) -> [u8; record_length(CONTROL_ROW)] {
    let [s0, s1, s2, s3] = row.start.to_le_bytes();
    let [t0, t1, t2, t3] = row.stop.to_le_bytes();
    [CONTROL_ROW, row.node, s0, s1, s2, s3, t0, t1, t2, t3]
}

fn data_record(row: &DataRow) -> [u8; record_length(DATA_ROW)] {
    let [d0, d1, d2, d3] = row.deadline.to_le_bytes();
    let [s0, s1, s2, s3] = row.start.to_le_bytes();
    let [t0, t1, t2, t3] = row.stop.to_le_bytes();
    [DATA_ROW, row.task, d0, d1, d2, d3, s0, s1, s2, s3, t0, t1, t2, t3]
}
