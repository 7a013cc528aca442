//! Faults: in bytes, and against one rule at a time.

use super::draft::{Draft, bus_record};
use super::plans::any_bits;
use super::random::Rng;
use super::tables::Made;
use crate::checker::DataRow;
use crate::plan::{Connection, Mode};
use crate::records::{BODY_LENGTHS, BUS_WITH_BYTE_BITS, NODES, record_length};
use crate::{Edition, MOST_CONNECTIONS, MOST_INVOCATIONS, MOST_MODES, MOST_MODULES, MOST_TASKS};

/// Flips, cuts, insertions; whole records taken out, doubled or given another kind; a bus record in front
/// of another record or in its place.
pub fn damage_bytes(rng: &mut Rng, file: &mut Vec<u8>) {
    let starts = record_starts(file);
    let record = below_or_few(rng, starts.len(), 3);
    let start = starts[record];
    let stop = starts.get(record + 1).copied().unwrap_or(file.len());
    let at = below_or_few(rng, file.len() + 1, FIRST_BYTES);
    match rng.below(10) {
        0 => flip(rng, file),
        1 => file.truncate(at),
        2 => file.insert(at, rng.number() as u8),
        3 => drop(file.splice(at..at, [0; 3])),
        4 => drop(file.drain(start..stop)),
        5 => file.extend_from_within(start..stop),
        6 => {
            let copy = file[start..stop].to_vec();
            drop(file.splice(start..start, copy));
        }
        7 | 8 => drop(file.splice(start..rng.pick(&[start, stop]), bus_record(&any_bits(rng)))),
        _ => file[start..stop].iter_mut().take(1).for_each(|kind| *kind = rng.below(22) as u8),
    }
}

/// The longest bus record and the nodes.
const FIRST_BYTES: usize = record_length(BUS_WITH_BYTE_BITS) + record_length(NODES);

/// Long files, too, are damaged near their beginning.
pub(super) fn below_or_few(rng: &mut Rng, limit: usize, few: usize) -> usize {
    let limit = if rng.one_in(2) { limit.min(few) } else { limit };
    rng.below(limit)
}

fn flip(rng: &mut Rng, file: &mut [u8]) {
    for _ in 0..rng.between(1, 3) {
        if let Some(byte) = any(rng, file) {
            *byte ^= 1 << rng.below(8);
        }
    }
}

/// Offsets of the records, up to the first byte that is no kind; 0 at least.
fn record_starts(file: &[u8]) -> Vec<usize> {
    let length = |at: usize| {
        let kind = usize::from(*file.get(at)?);
        Some(1 + BODY_LENGTHS.get(kind).copied().flatten()?)
    };
    let next = |&at: &usize| length(at).map(|length| at + length).filter(|&next| next < file.len());
    std::iter::successors(Some(0), next).collect()
}

/// Breaks rule 2 to 12 of a plan, as a rule without breaking one before it.
pub fn break_plan_rule(rng: &mut Rng, edition: Edition, draft: &mut Draft, rule: u32) {
    match rule {
        2 => wrong_count(rng, draft),
        3 => unknown_name(rng, draft),
        4 => number_out_of_range(rng, draft),
        5 => broken_sentence(rng, draft),
        6 if edition == Edition::Consumers && rng.one_in(2) => never_read(draft),
        6 => keep_on_nodes(rng, draft),
        7 => foreign_period(rng, edition, draft),
        8 => draft.bits.resolution = rng.between(2, 1_000),
        9 => many_frames(rng, draft),
        10 => {
            draft.bits.least_payload = 0;
            draft.bits.largest_payload = rng.between(1, 4) as u16;
        }
        11 => slow_control(rng, draft),
        _ => narrow_windows(rng, draft),
    }
}

fn wrong_count(rng: &mut Rng, draft: &mut Draft) {
    match rng.below(6) {
        0 => draft.nodes = rng.pick(&[0, 9, 255]),
        1 => miscount(rng, &mut draft.modules, MOST_MODULES),
        2 => miscount(rng, &mut draft.modes, MOST_MODES),
        3 => miscount(rng, &mut draft.tasks, MOST_TASKS),
        4 => miscount(rng, &mut draft.invocations, MOST_INVOCATIONS),
        _ => miscount(rng, &mut draft.connections, MOST_CONNECTIONS),
    }
}

fn miscount<T: Copy + Default>(rng: &mut Rng, things: &mut Vec<T>, most: usize) {
    if rng.one_in(3) {
        return things.clear();
    }
    let filler = things.last().copied().unwrap_or_default();
    things.resize(rng.pick(&[most + 1, most + 1, most + 300]), filler);
}

fn any<'a, T>(rng: &mut Rng, things: &'a mut [T]) -> Option<&'a mut T> {
    if things.is_empty() { None } else { Some(&mut things[rng.below(things.len())]) }
}

fn change<T>(rng: &mut Rng, things: &mut [T], change: impl FnOnce(&mut T)) {
    if let Some(thing) = any(rng, things) {
        change(thing);
    }
}

fn beyond(rng: &mut Rng, count: usize) -> u8 {
    rng.pick(&[count.min(255) as u8, 255])
}

fn unknown_name(rng: &mut Rng, draft: &mut Draft) {
    let node = beyond(rng, usize::from(draft.nodes));
    let module = beyond(rng, draft.modules.len());
    let mode = beyond(rng, draft.modes.len());
    let task = beyond(rng, draft.tasks.len());
    match rng.below(7) {
        0 => change(rng, &mut draft.modules, |of| of.node = node),
        1 => change(rng, &mut draft.modes, |of| of.module = module),
        2 => change(rng, &mut draft.tasks, |of| of.module = module),
        3 => change(rng, &mut draft.invocations, |of| of.mode = mode),
        4 => change(rng, &mut draft.invocations, |of| of.task = task),
        5 => change(rng, &mut draft.connections, |of| of.producer = task),
        _ => change(rng, &mut draft.connections, |of| of.consumer = task),
    }
}

fn number_out_of_range(rng: &mut Rng, draft: &mut Draft) {
    let period = rng.pick(&[0, 1_000_001, u32::MAX]);
    let bits = &mut draft.bits;
    match rng.below(13) {
        0 => bits.kbits = rng.pick(&[0, 100_001, u32::MAX]),
        1 => bits.overhead = rng.pick(&[65, u16::MAX]),
        2 => bits.least_payload = rng.pick(&[255, u16::MAX]),
        3 => bits.largest_payload = rng.pick(&[0, 255, u16::MAX]),
        4 => (bits.least_payload, bits.largest_payload) = (9, 8),
        5 => bits.gap_bits = rng.pick(&[1_001, u16::MAX]),
        6 => bits.resolution = rng.pick(&[0, 1_001, u32::MAX]),
        7 => change(rng, &mut draft.modes, |mode| mode.period = period),
        8 => change(rng, &mut draft.modes, |mode| mode.switch_period = period),
        9 => {
            let size = rng.pick(&[0, 9, 255]);
            change(rng, &mut draft.tasks, |task| task.size = size);
        }
        10 => change(rng, &mut draft.tasks, |task| task.worst_time = period),
        11 => bits.byte_bits = Some(rng.pick(&[0, 7, 13, 255])),
        _ => change(rng, &mut draft.invocations, |run| run.rate = 0),
    }
}

fn broken_sentence(rng: &mut Rng, draft: &mut Draft) {
    let number = rng.between(2, 1_000_000);
    let other_task = rng.below(draft.tasks.len()) as u8;
    match rng.below(10) {
        0 => change(rng, &mut draft.modes, |mode| mode.switch_period = number),
        1 => change(rng, &mut draft.invocations, |run| run.rate = number as u16 | 1),
        2 => change(rng, &mut draft.modes, |mode| mode.switch_period = 1),
        3 => change(rng, &mut draft.tasks, |task| task.worst_time = number),
        4 => change(rng, &mut draft.invocations, |run| run.task = other_task),
        5 => repeat(rng, &mut draft.invocations, MOST_INVOCATIONS),
        6 => {
            if draft.modules.len() < MOST_MODULES {
                draft.modules.extend(draft.modules.last().copied());
            }
        }
        _ => doubtful_connections(rng, draft),
    }
}

/// Puts a thing anywhere, in the place of another where there are as many as may be.
fn put<T>(rng: &mut Rng, things: &mut Vec<T>, most: usize, thing: T) {
    if things.len() < most {
        things.insert(rng.below(things.len() + 1), thing);
    } else {
        change(rng, things, |other| *other = thing);
    }
}

fn repeat<T: Copy>(rng: &mut Rng, things: &mut Vec<T>, most: usize) {
    if let Some(&mut thing) = any(rng, things) {
        put(rng, things, most, thing);
    }
}

/// Connections repeated, and connections of a task with itself.
fn doubtful_connections(rng: &mut Rng, draft: &mut Draft) {
    for _ in 0..rng.pick(&[1, 1, 2, 3]) {
        if rng.one_in(2) {
            let task = rng.below(draft.tasks.len()) as u8;
            let own = Connection { producer: task, consumer: task };
            put(rng, &mut draft.connections, MOST_CONNECTIONS, own);
        } else {
            repeat(rng, &mut draft.connections, MOST_CONNECTIONS);
        }
    }
}

fn keep_on_nodes(rng: &mut Rng, draft: &mut Draft) {
    if rng.one_in(2) {
        draft.modules.iter_mut().for_each(|module| module.node = 0);
    } else {
        let node = |task: u8| {
            let task = draft.tasks.get(usize::from(task))?;
            draft.modules.get(usize::from(task.module)).map(|module| module.node)
        };
        draft.connections.retain(|of| node(of.producer) == node(of.consumer));
    }
}

/// No consumer on another node ever runs.
fn never_read(draft: &mut Draft) {
    let mut read = 0u32;
    for of in &draft.connections {
        let nodes = [of.producer, of.consumer].map(|task| {
            let task = draft.tasks.get(usize::from(task))?;
            draft.modules.get(usize::from(task.module)).map(|module| module.node)
        });
        if nodes[0] != nodes[1] {
            read |= 1u32.checked_shl(of.consumer.into()).unwrap_or(0);
        }
    }
    draft.invocations.retain(|run| read.checked_shr(run.task.into()).unwrap_or(0) & 1 == 0);
}

/// A mode that invokes nothing but counts for G.
fn foreign_period(rng: &mut Rng, edition: Edition, draft: &mut Draft) {
    let counts = match edition {
        Edition::Basic => draft.tasks.first(),
        Edition::Consumers => draft.tasks.get(rng.below(draft.tasks.len().max(1))),
    };
    let module = counts.map_or(0, |task| task.module);
    let period = rng.pick(&[1, 7, 999_983, 65_536, 500_000]);
    if draft.modes.len() < MOST_MODES {
        draft.modes.push(Mode { module, period, switch_period: period });
    }
}

/// Runs of one tick, or of a few.
fn many_frames(rng: &mut Rng, draft: &mut Draft) {
    let parts = rng.pick(&[1, 2, 3, 10, 100]);
    for run in &mut draft.invocations {
        let Some(mode) = draft.modes.get(usize::from(run.mode)) else { continue };
        let rate = mode.period / parts;
        if mode.period.is_multiple_of(parts) && (1..=65_535).contains(&rate) {
            run.rate = rate as u16;
            draft.tasks.iter_mut().for_each(|task| task.worst_time = 1);
        }
    }
}

fn slow_control(rng: &mut Rng, draft: &mut Draft) {
    draft.bits.overhead = rng.pick(&[0, 64]);
    draft.bits.gap_bits = rng.pick(&[draft.bits.gap_bits, 1_000]);
    draft.bits.kbits = rng.between(1, 1.max(draft.bits.kbits / 8));
}

fn narrow_windows(rng: &mut Rng, draft: &mut Draft) {
    if rng.one_in(2) {
        draft.bits.kbits = 1.max(draft.bits.kbits / rng.between(2, 4));
        return;
    }
    let mut least_periods = vec![1_000_000; draft.tasks.len()];
    for run in &draft.invocations {
        let Some(mode) = draft.modes.get(usize::from(run.mode)) else { continue };
        if let Some(least) = least_periods.get_mut(usize::from(run.task)) {
            *least = (*least).min(mode.period / u32::from(run.rate.max(1)));
        }
    }
    for (task, least) in draft.tasks.iter_mut().zip(least_periods) {
        task.worst_time = least.saturating_sub(rng.between(0, 3)).max(1);
    }
}

/// Breaks rule 21 to 28 of a table, as a rule without breaking one before it.
pub fn break_table_rule(rng: &mut Rng, made: &mut Made, rule: u32) {
    match rule {
        21 => wrong_header(rng, made),
        22 => wrong_control_row(rng, made),
        23 => wrong_name(rng, made),
        24 => wrong_times(rng, made),
        25 => move_to(rng, made, |window| window.release.checked_sub(window.step)),
        26 => move_to(rng, made, |window| (window.deadline - window.time).checked_add(window.step)),
        27 => crowd(rng, made),
        _ => end_late(rng, made),
    }
}

fn wrong_header(rng: &mut Rng, made: &mut Made) {
    let table = &mut made.table;
    match rng.below(7) {
        0 => {
            table.period = rng.pick(&[0, table.period.wrapping_add(1), table.period / 2, u32::MAX])
        }
        1 => table.control_count ^= 1 << rng.below(8),
        2 => table.data_count ^= 1 << rng.below(16),
        3 => table.control.extend(table.control.last().copied()),
        4 => table.data.extend(table.data.last().copied()),
        5 => drop(table.control.pop()),
        _ => drop(table.data.pop()),
    }
}

fn wrong_control_row(rng: &mut Rng, made: &mut Made) {
    let Some(row) = any(rng, &mut made.table.control) else { return };
    match rng.below(3) {
        0 => row.node = row.node.wrapping_add(1),
        1 => row.start = row.start.wrapping_sub(1),
        _ => row.stop = row.stop.wrapping_add(1),
    }
}

fn wrong_name(rng: &mut Rng, made: &mut Made) {
    let Some(&mut other) = any(rng, &mut made.table.data) else { return };
    let (task, deadline) =
        (rng.below(34) as u8, rng.pick(&[0, other.deadline.wrapping_add(1), u32::MAX]));
    let choice = rng.below(4);
    let Some(row) = any(rng, &mut made.table.data) else { return };
    match choice {
        0 => row.task = task,
        1 => row.task = 255,
        2 => row.deadline = deadline,
        _ => (row.task, row.deadline) = (other.task, other.deadline),
    }
}

/// Among them a start whose stop wraps to a number that would fit.
fn wrong_times(rng: &mut Rng, made: &mut Made) {
    let (resolution, late) = (made.bus.resolution, rng.between(1, 64));
    let choice = rng.below(5);
    let Some(row) = any(rng, &mut made.table.data) else { return };
    let time = row.stop.wrapping_sub(row.start);
    match choice {
        0 => row.stop = row.stop.wrapping_add(1),
        1 => row.stop = row.start,
        2 => row.start = row.start.wrapping_add(1),
        3 => {
            let off = if resolution > 1 { 1 } else { 0 };
            row.start = row.start.wrapping_add(off);
            row.stop = row.start.wrapping_add(time);
        }
        _ => {
            row.start = (u32::MAX / resolution).wrapping_sub(late % 2) * resolution;
            row.stop = row.start.wrapping_add(time);
        }
    }
}

struct Window {
    release: u32,
    deadline: u32,
    time: u32,
    step: u32,
}

fn move_to(rng: &mut Rng, made: &mut Made, start: impl Fn(&Window) -> Option<u32>) {
    let index = rng.below(made.table.data.len().max(1));
    let Some(&row) = made.table.data.get(index) else { return };
    let Some((release, time)) = made.release_and_time(&row) else { return };
    let step = made.bus.resolution;
    let window =
        Window { release: release.next_multiple_of(step), deadline: row.deadline, time, step };
    if let Some(start) = start(&window) {
        let row = &mut made.table.data[index];
        row.start = start - start % step;
        row.stop = row.start + time;
    }
}

/// A row too near to the one before it, or two rows exchanged.
fn crowd(rng: &mut Rng, made: &mut Made) {
    let data = &mut made.table.data;
    let index = rng.below(data.len().max(1));
    if index == 0 || index >= data.len() {
        return;
    }
    if rng.one_in(2) {
        return data.swap(index - 1, index);
    }
    let (before, time) = (data[index - 1], data[index].stop.wrapping_sub(data[index].start));
    let near = before.stop.wrapping_add(made.bus.gap).saturating_sub(made.bus.resolution);
    data[index].start = near - near % made.bus.resolution;
    data[index].stop = data[index].start.wrapping_add(time);
}

/// The last row leaves no gap before the next cycle, by one step or as far as its deadline lets it.
fn end_late(rng: &mut Rng, made: &mut Made) {
    let Some(&row) = made.table.data.last() else { return };
    let Some((_, time)) = made.release_and_time(&row) else { return };
    let step = made.bus.resolution;
    let first = (made.bus.period - made.bus.gap - time) / step * step + step;
    let last = (row.deadline - time) / step * step;
    if first <= last {
        let start = rng.pick(&[first, last]);
        *made.table.data.last_mut().expect("a row") = DataRow { start, stop: start + time, ..row };
    }
}
