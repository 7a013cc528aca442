//! What a plan asks of the bus: bus tasks, the bus period, frames, control rows: refusals 6 to 11.

use crate::plan::{Bits, Connection, Few, LONGEST_PERIOD, Plan, Task};
use crate::{
    Edition, FrameRow, MOST_CONNECTIONS, MOST_FRAMES, MOST_INVOCATIONS, MOST_NODES, MOST_TASKS,
    Refusal, has,
};

#[derive(Clone, Copy, Debug, Default, PartialEq, Eq)]
pub struct ControlRow {
    pub node: u8,
    pub start: u32,
    pub stop: u32,
}

/// Times are in ticks.
#[derive(Clone, Debug)]
pub struct Bus {
    pub tasks: u32,
    /// Which of their messages are kept.
    pub reads: Reads,
    pub modules: u32,
    pub period: u32,
    pub resolution: u32,
    pub gap: u32,
    pub sending_times: [u32; MOST_TASKS],
    pub control: Few<ControlRow, MOST_NODES>,
    /// C: before it no data row may start.
    pub control_end: u32,
    pub frames: usize,
}

/// A bus task's distinct period.
#[derive(Clone, Copy, Debug, Default, PartialEq, Eq, PartialOrd, Ord)]
struct Run {
    task: u8,
    period: u32,
}

/// Leaves the frames by number at the front of the rows, with start 0.
pub fn derive(plan: &Plan, edition: Edition, rows: &mut [FrameRow]) -> Result<Bus, Refusal> {
    let connections = connections_left(plan, edition);
    let tasks = connections.iter().fold(0, |set, of| set | 1 << of.producer);
    refuse_if(6, tasks == 0)?;
    let modules = modules_of(plan, tasks);
    let runs = bus_runs(plan, tasks);
    let Consumers { modules: consuming, readers, reads } = match edition {
        Edition::Basic => Consumers::default(),
        Edition::Consumers => Consumers::of(plan, &connections),
    };
    let divisor = greatest_bus_period(plan, modules | consuming);
    let read_at = plan.invocations.iter().filter(|run| has(readers, run.task));
    let read_at = read_at.map(|run| plan.period_of(run));
    let periods = runs.iter().map(|run| run.period).chain(read_at);
    // P divides G exactly if each period does: no product is formed before the test.
    refuse_if(7, periods.clone().any(|period| !divisor.is_multiple_of(period)))?;
    let period = periods.fold(1, common_multiple);
    refuse_if(8, !period.is_multiple_of(plan.bits.resolution))?;
    let frames = list_frames(plan, &runs, &reads, period, rows).ok_or(Refusal::new(9, 0))?;
    let payloads = control_payloads(plan, modules);
    refuse_if(10, payload_too_large(plan, tasks, &payloads))?;
    let gap = plan.bits.gap().ticks;
    let control = control_rows(&plan.bits, &payloads, gap);
    let control_end = control.last().map_or(0, |row| row.stop + gap);
    refuse_if(11, control_end > period)?;
    Ok(Bus {
        tasks,
        reads,
        modules,
        period,
        resolution: plan.bits.resolution,
        gap,
        sending_times: sending_times(plan),
        control,
        control_end,
        frames,
    })
}

fn refuse_if(number: u32, applies: bool) -> Result<(), Refusal> {
    if applies { Err(Refusal::new(number, 0)) } else { Ok(()) }
}

/// Connections between two nodes whose producer has an invocation; for the sake of consumers, theirs too.
fn connections_left(plan: &Plan, edition: Edition) -> Few<Connection, MOST_CONNECTIONS> {
    let invoked = plan.invocations.iter().fold(0, |set, run| set | 1 << run.task);
    let left = |of: &&Connection| {
        plan.node_of_task(of.producer) != plan.node_of_task(of.consumer)
            && has(invoked, of.producer)
            && (edition == Edition::Basic || has(invoked, of.consumer))
    };
    plan.connections.iter().filter(left).copied().collect()
}

/// What the consumers of the connections left have a say in; in the basic edition in nothing.
#[derive(Default)]
struct Consumers {
    /// Their modules.
    modules: u32,
    /// Those of connections that can be thinned.
    readers: u32,
    reads: Reads,
}

impl Consumers {
    fn of(plan: &Plan, connections: &[Connection]) -> Consumers {
        let least_periods = least_periods(plan);
        let least_period = |task: u8| least_periods[usize::from(task)];
        let (mut consumers, mut all, mut readers) = (0, 0, 0);
        let mut readers_of = [0; MOST_TASKS];
        for &Connection { producer, consumer } in connections {
            consumers |= 1 << consumer;
            if least_period(consumer) > least_period(producer) {
                readers |= 1 << consumer;
                readers_of[usize::from(producer)] |= 1 << consumer;
            } else {
                all |= 1 << producer;
            }
        }
        for (producer, readers) in (0..).zip(&mut readers_of) {
            if has(all, producer) {
                *readers = 0;
            }
        }
        let modules = modules_of(plan, consumers);
        Consumers { modules, readers, reads: Reads::by(plan, &readers_of) }
    }
}

/// By task; of one that never runs there is none.
fn least_periods(plan: &Plan) -> [u32; MOST_TASKS] {
    let mut least = [u32::MAX; MOST_TASKS];
    for run in plan.invocations.iter() {
        let least = &mut least[usize::from(run.task)];
        *least = plan.period_of(run).min(*least);
    }
    least
}

/// Which messages of a bus task are kept: those that are read. What is read at a time is the message with
/// the latest deadline not after it.
#[derive(Clone, Debug, Default)]
pub struct Reads {
    /// The periods of reads, by task, rising; none is a multiple of another.
    periods: Vec<u32>,
    /// By task: where its periods end. A task without any keeps all messages.
    ends: [u16; MOST_TASKS],
}

impl Reads {
    /// Takes by producer the set of tasks that read it.
    fn by(plan: &Plan, readers: &[u32; MOST_TASKS]) -> Reads {
        let mut reads = Reads::default();
        for (end, &readers) in reads.ends.iter_mut().zip(readers) {
            if readers != 0 {
                let runs = plan.invocations.iter().filter(|run| has(readers, run.task));
                put_reads(&mut reads.periods, runs.map(|run| plan.period_of(run)));
            }
            *end = reads.periods.len() as u16;
        }
        reads
    }

    fn of(&self, task: u8) -> &[u32] {
        let task = usize::from(task);
        let start = task.checked_sub(1).map_or(0, |before| self.ends[before]);
        &self.periods[usize::from(start)..usize::from(self.ends[task])]
    }

    /// The message with this deadline of a run with this period: it is read until the next one's.
    pub fn keep(&self, task: u8, period: u32, deadline: u32) -> bool {
        let reads = self.of(task);
        let last = deadline + period - 1;
        reads.is_empty() || reads.iter().any(|read| last % read < period)
    }
}

/// A multiple of another period reads nothing more.
fn put_reads(reads: &mut Vec<u32>, periods: impl Iterator<Item = u32>) {
    let first = reads.len();
    let mut rising: Vec<u32> = periods.collect();
    rising.sort_unstable();
    for period in rising {
        if !reads[first..].iter().any(|read| period.is_multiple_of(*read)) {
            reads.push(period);
        }
    }
}

fn of_set(plan: &Plan, tasks: u32) -> impl Iterator<Item = &Task> {
    (0..)
        .zip(plan.tasks.iter())
        .filter(move |&(number, _)| has(tasks, number))
        .map(|(_, task)| task)
}

fn modules_of(plan: &Plan, tasks: u32) -> u32 {
    of_set(plan, tasks).fold(0, |set, task| set | 1 << task.module)
}

/// By task, then by period: a task's least period stands first.
fn bus_runs(plan: &Plan, tasks: u32) -> Few<Run, MOST_INVOCATIONS> {
    let invocations = plan.invocations.iter().filter(|run| has(tasks, run.task));
    let mut runs = [Run::default(); MOST_INVOCATIONS];
    let mut count = 0;
    for (run, invocation) in runs.iter_mut().zip(invocations) {
        *run = Run { task: invocation.task, period: plan.period_of(invocation) };
        count += 1;
    }
    let runs = &mut runs[..count];
    runs.sort_unstable();
    runs.chunk_by(|one, next| one == next).map(|equal| equal[0]).collect()
}

/// G.
fn greatest_bus_period(plan: &Plan, modules: u32) -> u32 {
    let modes = plan.modes.iter().filter(|mode| has(modules, mode.module));
    modes.fold(0, |divisor, mode| {
        common_divisor(common_divisor(divisor, mode.period), mode.switch_period)
    })
}

fn common_divisor(mut a: u32, mut b: u32) -> u32 {
    while b != 0 {
        (a, b) = (b, a % b);
    }
    a
}

/// Of divisors of one number that is at most `LONGEST_PERIOD`, so it does not overflow.
fn common_multiple(a: u32, b: u32) -> u32 {
    a / common_divisor(a, b) * b
}

/// The number of frames, or `None` above `MOST_FRAMES`.
fn list_frames(
    plan: &Plan,
    runs: &[Run],
    reads: &Reads,
    period: u32,
    rows: &mut [FrameRow],
) -> Option<usize> {
    let messages: u32 = runs.iter().map(|run| period / run.period).sum();
    // A plan of few messages does not pay for memory that a plan of many needs.
    let mut packed = vec![0; MOST_FRAMES.min(messages as usize)];
    let mut frames = 0;
    for of_task in runs.chunk_by(|one, next| one.task == next.task) {
        let task = of_task[0].task;
        let worst_time = plan.tasks[usize::from(task)].worst_time;
        let packed = &mut packed[frames..];
        frames += match reads.of(task) {
            [] => list_task(of_task, worst_time, period, packed)?,
            reads => list_thinned_task(of_task, reads, worst_time, period, packed)?,
        };
    }
    let packed = &mut packed[..frames];
    packed.sort_unstable();
    for (row, &frame) in rows.iter_mut().zip(packed.iter()) {
        *row = unpack(frame);
    }
    Some(frames)
}

/// Frames are numbered by deadline, then by task: so are these numbers ordered. No time is above
/// `LONGEST_PERIOD`, so a frame fits into one number.
fn pack(task: u8, release: u32, deadline: u32) -> u64 {
    u64::from(deadline) << 32 | u64::from(task) << TIME_BITS | u64::from(release)
}

fn unpack(frame: u64) -> FrameRow {
    FrameRow {
        task: (frame as u32) >> TIME_BITS,
        release: frame as u32 & ((1 << TIME_BITS) - 1),
        deadline: (frame >> 32) as u32,
        start: 0,
    }
}

const TIME_BITS: u32 = 20;
const _: () = assert!(LONGEST_PERIOD < 1 << TIME_BITS);

pub fn frame_key(row: &FrameRow) -> u64 {
    u64::from(row.deadline) << 32 | u64::from(row.task)
}

/// Goes from each deadline of a task straight to its next one. A task's messages have one worst
/// time, so of those with one deadline the run with the least period is released last.
fn list_task(runs: &[Run], worst: u32, period: u32, packed: &mut [u64]) -> Option<usize> {
    let mut next = [0; MOST_INVOCATIONS];
    for (next, run) in next.iter_mut().zip(runs) {
        *next = run.period;
    }
    let next = &mut next[..runs.len()];
    let mut packed = packed.iter_mut();
    let mut frames = 0;
    loop {
        let deadline = next.iter().fold(u32::MAX, |least, &next| least.min(next));
        let mut least_period = 0;
        for (next, run) in next.iter_mut().zip(runs).rev() {
            if *next == deadline {
                *next += run.period;
                least_period = run.period;
            }
        }
        *packed.next()? = pack(runs[0].task, deadline - least_period + worst, deadline);
        frames += 1;
        if deadline >= period {
            return Some(frames);
        }
    }
}

/// A read again and again, of what a run with this period has sent last.
#[derive(Clone, Copy, Debug)]
struct Reading {
    at: u32,
    every: u32,
    period: u32,
}

impl Reading {
    /// Where reads come as often as messages, or more often, each message is read.
    fn of<'a>(run: &'a Run, reads: &'a [u32]) -> impl Iterator<Item = Reading> + 'a {
        let period = run.period;
        let reads = if reads[0] <= period { std::slice::from_ref(&run.period) } else { reads };
        reads.iter().map(move |&every| Reading { at: every, every, period })
    }

    /// The deadline of what is read; at the first read there is one, as reads are no closer than messages.
    fn deadline(&self) -> u32 {
        self.at - self.at % self.period
    }
}

/// Goes from each kept deadline of a task straight to its next one, read by read: no two reads of one
/// period find the same message, and the bus period is a multiple of all of these periods.
fn list_thinned_task(
    runs: &[Run],
    reads: &[u32],
    worst: u32,
    period: u32,
    packed: &mut [u64],
) -> Option<usize> {
    let mut readings: Vec<Reading> = runs.iter().flat_map(|run| Reading::of(run, reads)).collect();
    let mut next: Vec<u32> = readings.iter().map(Reading::deadline).collect();
    let mut packed = packed.iter_mut();
    let mut frames = 0;
    loop {
        let deadline = next.iter().fold(u32::MAX, |least, &next| least.min(next));
        let mut least_period = 0;
        for (next, reading) in next.iter_mut().zip(&mut readings).rev() {
            if *next == deadline {
                reading.at += reading.every;
                *next = reading.deadline();
                least_period = reading.period;
            }
        }
        *packed.next()? = pack(runs[0].task, deadline - least_period + worst, deadline);
        frames += 1;
        if deadline >= period {
            return Some(frames);
        }
    }
}

/// By node, one byte for each sending module on it.
pub(crate) fn control_payloads(plan: &Plan, modules: u32) -> [u32; MOST_NODES] {
    let mut payloads = [0; MOST_NODES];
    for (number, module) in (0..).zip(plan.modules.iter()) {
        payloads[usize::from(module.node)] += u32::from(has(modules, number));
    }
    payloads
}

fn payload_too_large(plan: &Plan, tasks: u32, payloads: &[u32; MOST_NODES]) -> bool {
    let largest = u32::from(plan.bits.largest_payload);
    of_set(plan, tasks).any(|task| u32::from(task.size) > largest)
        || payloads.iter().any(|&payload| payload > largest)
}

fn control_rows(
    bits: &Bits,
    payloads: &[u32; MOST_NODES],
    gap: u32,
) -> Few<ControlRow, MOST_NODES> {
    let mut start = 0;
    let sending = (0..).zip(payloads).filter(|&(_, &payload)| payload > 0);
    sending
        .map(|(node, &payload)| {
            let row = ControlRow { node, start, stop: start + bits.sending(payload).ticks };
            start = row.stop + gap;
            row
        })
        .collect()
}

fn sending_times(plan: &Plan) -> [u32; MOST_TASKS] {
    let mut by_size = [0; 9];
    for (time, size) in by_size.iter_mut().zip(0..) {
        *time = plan.bits.sending(size).ticks;
    }
    let mut by_task = [0; MOST_TASKS];
    for (time, task) in by_task.iter_mut().zip(plan.tasks.iter()) {
        *time = by_size[usize::from(task.size)];
    }
    by_task
}

/// What a frame or a gap takes of the bus: its bits, and their time.
#[derive(Clone, Copy, Debug, Default, PartialEq, Eq)]
pub struct Sending {
    pub bits: u32,
    pub ticks: u32,
}

impl Bits {
    /// Of a frame with a payload of so many bytes.
    pub fn sending(&self, payload: u32) -> Sending {
        let bytes = u32::from(self.overhead) + payload.max(u32::from(self.least_payload));
        self.sending_bits(self.bits_in_byte() * bytes)
    }

    pub fn gap(&self) -> Sending {
        self.sending_bits(u32::from(self.gap_bits))
    }

    /// Up to a whole tick, then up to the resolution.
    fn sending_bits(&self, bits: u32) -> Sending {
        let ticks = (bits * 1_000).div_ceil(self.kbits).next_multiple_of(self.resolution);
        Sending { bits, ticks }
    }
}
