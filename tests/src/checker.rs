//! A table read and judged: refusals 20 to 28.

use crate::bus::{self, Bus, ControlRow, frame_key};
use crate::plan::{self, Plan};
use crate::records::{CONTROL_ROW, DATA_ROW, TABLE, TABLE_FILE, outline, record_length};
use crate::{Edition, FrameRow, MOST_FRAMES, Refusal, refuse_at, with_rows};

/// On a pass the rows hold the frames by number, with the starts of this table.
pub fn check(plan: &[u8], table: &[u8], rows: &mut [FrameRow]) -> Result<(), Refusal> {
    with_rows(rows, |rows| judge(plan, table, rows).map(|passed| (passed.bus.frames, ())))
}

#[derive(Clone, Copy, Debug, Default, PartialEq, Eq)]
pub struct DataRow {
    pub task: u8,
    pub deadline: u32,
    pub start: u32,
    pub stop: u32,
}

type ControlRecord = [u8; record_length(CONTROL_ROW)];
type DataRecord = [u8; record_length(DATA_ROW)];

/// A table's data rows, in the lent file.
#[derive(Clone, Copy, Debug)]
pub struct DataRows<'a>(&'a [DataRecord]);

/// By data row, the number of the frame that it names.
pub type Named = [u16; MOST_FRAMES];

impl<'a> DataRows<'a> {
    pub fn iter(self) -> impl DoubleEndedIterator<Item = DataRow> + 'a {
        self.0.iter().map(read_data_row)
    }

    /// Each row with the number of its frame.
    pub fn numbered(self, named: &Named) -> impl Iterator<Item = (DataRow, usize)> {
        self.iter().zip(named.iter().map(|&number| usize::from(number)))
    }
}

/// A passed table's data rows, and the plan it was checked for.
#[derive(Debug)]
pub struct Passed<'a> {
    pub plan: Plan,
    pub bus: Bus,
    pub data: DataRows<'a>,
}

/// Takes `MOST_FRAMES` rows at least; after a refusal their contents mean nothing.
pub fn judge<'a>(
    plan: &[u8],
    table: &'a [u8],
    rows: &mut [FrameRow],
) -> Result<Passed<'a>, Refusal> {
    let plan = plan::read(plan)?;
    let bus = bus::derive(&plan, Edition::of_table(table), rows)?;
    let frames = &mut rows[..bus.frames];
    let mut named = [0; MOST_FRAMES];
    let data = locate(&bus, table, frames, &mut named)?;
    judge_places(&bus, data, &named, frames)?;
    for (row, number) in data.numbered(&named) {
        frames[number].start = row.start;
    }
    Ok(Passed { plan, bus, data })
}

/// Refusals 20 to 24: whether the rows are the plan's, wherever in the cycle they stand.
pub fn locate<'a>(
    bus: &Bus,
    table: &'a [u8],
    frames: &[FrameRow],
    named: &mut Named,
) -> Result<DataRows<'a>, Refusal> {
    let cut = outline(table, &TABLE_FILE).map_err(|place| Refusal::new(20, place))?;
    let [header] = cut.once;
    let [control, data] = cut.repeated;
    let control: &[ControlRecord] = control.as_chunks().0;
    let data = DataRows(data.as_chunks().0);
    let as_planned = header_fits(bus, header)
        && control.len() == bus.control.len()
        && data.0.len() == bus.frames;
    refuse_at(21, (!as_planned).then_some(0))?;
    let mut rows_read = control.iter().map(read_control_row).zip(bus.control.iter());
    refuse_at(22, rows_read.position(|(row, fixed)| row != *fixed).map(|index| 1 + index))?;
    refuse_at(23, record(bus, name_frames(data.iter(), frames, named)))?;
    refuse_at(24, record(bus, data.iter().position(|row| !keeps_time(bus, &row))))?;
    Ok(data)
}

/// Refusals 25 to 28, rule by rule over all rows: a lower number goes before a lower record.
pub fn judge_places(
    bus: &Bus,
    data: DataRows,
    named: &Named,
    frames: &[FrameRow],
) -> Result<(), Refusal> {
    let early = data.numbered(named).position(|(row, number)| row.start < frames[number].release);
    refuse_at(25, record(bus, early))?;
    refuse_at(26, record(bus, data.iter().position(|row| row.stop > row.deadline)))?;
    refuse_at(27, record(bus, first_crowded(bus, data.iter())))?;
    let last_stop = data.iter().next_back().map_or(0, |row| row.stop);
    refuse_at(28, (last_stop + bus.gap > bus.period).then_some(bus.control.len() + data.0.len()))
}

/// The record of a data row.
fn record(bus: &Bus, index: Option<usize>) -> Option<usize> {
    index.map(|index| 1 + bus.control.len() + index)
}

fn header_fits(bus: &Bus, header: &[u8]) -> bool {
    let &[_, p0, p1, p2, p3, control, d0, d1] = header else { return false };
    const { assert!(record_length(TABLE) == 8) };
    u32::from_le_bytes([p0, p1, p2, p3]) == bus.period
        && usize::from(control) == bus.control.len()
        && usize::from(u16::from_le_bytes([d0, d1])) == bus.frames
}

pub fn read_control_row(&[_, node, s0, s1, s2, s3, t0, t1, t2, t3]: &ControlRecord) -> ControlRow {
    ControlRow {
        node,
        start: u32::from_le_bytes([s0, s1, s2, s3]),
        stop: u32::from_le_bytes([t0, t1, t2, t3]),
    }
}

pub fn read_data_row(record: &DataRecord) -> DataRow {
    let &[_, task, d0, d1, d2, d3, s0, s1, s2, s3, t0, t1, t2, t3] = record;
    DataRow {
        task,
        deadline: u32::from_le_bytes([d0, d1, d2, d3]),
        start: u32::from_le_bytes([s0, s1, s2, s3]),
        stop: u32::from_le_bytes([t0, t1, t2, t3]),
    }
}

/// The number of the frame that a row names.
pub fn frame_of(frames: &[FrameRow], row: &DataRow) -> Option<usize> {
    let key = u64::from(row.deadline) << 32 | u64::from(row.task);
    frames.binary_search_by_key(&key, frame_key).ok()
}

/// Writes the frame number of each row; gives the first row that names no frame or one already named.
fn name_frames(
    mut rows: impl Iterator<Item = DataRow>,
    frames: &[FrameRow],
    numbers: &mut Named,
) -> Option<usize> {
    let mut taken = [false; MOST_FRAMES];
    let mut numbers = numbers.iter_mut();
    rows.position(|row| match (frame_of(frames, &row), numbers.next()) {
        (Some(found), Some(number)) => {
            *number = found as u16;
            std::mem::replace(&mut taken[found], true)
        }
        _ => true,
    })
}

fn keeps_time(bus: &Bus, row: &DataRow) -> bool {
    let sending_time = bus.sending_times[usize::from(row.task)];
    // The sum is one of whole numbers: it does not wrap.
    row.start.checked_add(sending_time) == Some(row.stop)
        && row.start.is_multiple_of(bus.resolution)
}

/// Rule 26 has bounded the stops.
fn first_crowded(bus: &Bus, mut rows: impl Iterator<Item = DataRow>) -> Option<usize> {
    let mut clear = bus.control_end;
    rows.position(|row| {
        let crowded = row.start < clear;
        clear = row.stop + bus.gap;
        crowded
    })
}
