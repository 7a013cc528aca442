//! A plan in memory, and what a plan must keep: refusals 1 to 5.

use crate::records::{
    BUS, CONNECTION, INVOCATION, MODE, MODULE, NODES, PLAN_FILE, TASK, outline, record_length,
};
use crate::{
    MOST_CONNECTIONS, MOST_INVOCATIONS, MOST_MODES, MOST_MODULES, MOST_NODES, MOST_TASKS, Refusal,
    has, refuse_at,
};
use std::ops::Deref;

pub const LONGEST_PERIOD: u32 = 1_000_000;

/// A list of at most `MOST` things, kept without an allocation.
#[derive(Clone, Copy, Debug)]
pub struct Few<T, const MOST: usize> {
    things: [T; MOST],
    count: usize,
}

impl<T: Copy + Default, const MOST: usize> FromIterator<T> for Few<T, MOST> {
    fn from_iter<I: IntoIterator<Item = T>>(given: I) -> Self {
        let mut things = [T::default(); MOST];
        let mut count = 0;
        for (place, thing) in things.iter_mut().zip(given) {
            *place = thing;
            count += 1;
        }
        Few { things, count }
    }
}

impl<T, const MOST: usize> Deref for Few<T, MOST> {
    type Target = [T];
    fn deref(&self) -> &[T] {
        &self.things[..self.count]
    }
}

#[derive(Clone, Copy, Debug, Default, PartialEq, Eq)]
pub struct Bits {
    pub kbits: u32,
    pub overhead: u16,
    pub least_payload: u16,
    pub largest_payload: u16,
    pub gap_bits: u16,
    pub resolution: u32,
    /// Kind 9 says it, kind 1 does not.
    pub byte_bits: Option<u8>,
}

#[derive(Clone, Copy, Debug, Default, PartialEq, Eq)]
pub struct Module {
    pub node: u8,
}

#[derive(Clone, Copy, Debug, Default, PartialEq, Eq)]
pub struct Mode {
    pub module: u8,
    pub period: u32,
    pub switch_period: u32,
}

#[derive(Clone, Copy, Debug, Default, PartialEq, Eq)]
pub struct Task {
    pub module: u8,
    pub size: u8,
    pub worst_time: u32,
}

#[derive(Clone, Copy, Debug, Default, PartialEq, Eq, PartialOrd, Ord)]
pub struct Invocation {
    pub mode: u8,
    pub task: u8,
    pub rate: u16,
}

#[derive(Clone, Copy, Debug, Default, PartialEq, Eq)]
pub struct Connection {
    pub producer: u8,
    pub consumer: u8,
}

#[derive(Clone, Copy, Debug)]
pub struct Plan {
    pub bits: Bits,
    pub nodes: u8,
    pub modules: Few<Module, MOST_MODULES>,
    pub modes: Few<Mode, MOST_MODES>,
    pub tasks: Few<Task, MOST_TASKS>,
    pub invocations: Few<Invocation, MOST_INVOCATIONS>,
    pub connections: Few<Connection, MOST_CONNECTIONS>,
}

/// From the bytes to a plan that keeps rules 1 to 5.
pub fn read(file: &[u8]) -> Result<Plan, Refusal> {
    let plan = gather(file)?;
    refuse_at(3, plan.unknown_name())?;
    refuse_at(4, plan.number_out_of_range())?;
    refuse_at(5, plan.broken_sentence())?;
    Ok(plan)
}

/// Rules 1 and 2; once the counts are in their ranges the lists hold all things.
fn gather(file: &[u8]) -> Result<Plan, Refusal> {
    let cut = outline(file, &PLAN_FILE).map_err(|place| Refusal::new(1, place))?;
    let [bus, nodes] = cut.once;
    let [modules, modes, tasks, invocations, connections] = cut.repeated;
    let nodes = nodes[1];
    let modules = modules.as_chunks::<{ record_length(MODULE) }>().0;
    let modes = modes.as_chunks::<{ record_length(MODE) }>().0;
    let tasks = tasks.as_chunks::<{ record_length(TASK) }>().0;
    let invocations = invocations.as_chunks::<{ record_length(INVOCATION) }>().0;
    let connections = connections.as_chunks::<{ record_length(CONNECTION) }>().0;
    let counts = [
        (NODES, usize::from(nodes), 1..=MOST_NODES),
        (MODULE, modules.len(), 1..=MOST_MODULES),
        (MODE, modes.len(), 1..=MOST_MODES),
        (TASK, tasks.len(), 1..=MOST_TASKS),
        (INVOCATION, invocations.len(), 1..=MOST_INVOCATIONS),
        (CONNECTION, connections.len(), 0..=MOST_CONNECTIONS),
    ];
    let wrong = counts.iter().find(|(_, count, range)| !range.contains(count));
    refuse_at(2, wrong.map(|&(kind, ..)| usize::from(kind)))?;
    Ok(Plan {
        bits: read_bits(bus),
        nodes,
        modules: modules.iter().map(|&[_, node]| Module { node }).collect(),
        modes: modes.iter().map(read_mode).collect(),
        tasks: tasks.iter().map(read_task).collect(),
        invocations: invocations.iter().map(read_invocation).collect(),
        connections: connections.iter().map(read_connection).collect(),
    })
}

/// Kind 9 is kind 1 with one number more.
fn read_bits(record: &[u8]) -> Bits {
    let (numbers, more) = record.split_first_chunk().unwrap_or((&[0; record_length(BUS)], &[]));
    let &[_, k0, k1, k2, k3, o0, o1, l0, l1, m0, m1, g0, g1, r0, r1, r2, r3] = numbers;
    Bits {
        kbits: u32::from_le_bytes([k0, k1, k2, k3]),
        overhead: u16::from_le_bytes([o0, o1]),
        least_payload: u16::from_le_bytes([l0, l1]),
        largest_payload: u16::from_le_bytes([m0, m1]),
        gap_bits: u16::from_le_bytes([g0, g1]),
        resolution: u32::from_le_bytes([r0, r1, r2, r3]),
        byte_bits: more.first().copied(),
    }
}

fn read_mode(&[_, module, p0, p1, p2, p3, s0, s1, s2, s3]: &[u8; record_length(MODE)]) -> Mode {
    Mode {
        module,
        period: u32::from_le_bytes([p0, p1, p2, p3]),
        switch_period: u32::from_le_bytes([s0, s1, s2, s3]),
    }
}

fn read_task(&[_, module, size, w0, w1, w2, w3]: &[u8; record_length(TASK)]) -> Task {
    Task { module, size, worst_time: u32::from_le_bytes([w0, w1, w2, w3]) }
}

fn read_invocation(&[_, mode, task, r0, r1]: &[u8; record_length(INVOCATION)]) -> Invocation {
    Invocation { mode, task, rate: u16::from_le_bytes([r0, r1]) }
}

fn read_connection(&[_, producer, consumer]: &[u8; record_length(CONNECTION)]) -> Connection {
    Connection { producer, consumer }
}

impl Bits {
    /// Kind 1 means 8.
    pub fn bits_in_byte(&self) -> u32 {
        self.byte_bits.map_or(8, u32::from)
    }

    fn in_range(&self) -> bool {
        (1..=100_000).contains(&self.kbits)
            && self.overhead <= 64
            && self.least_payload <= 254
            && (1..=254).contains(&self.largest_payload)
            && self.least_payload <= self.largest_payload
            && self.gap_bits <= 1_000
            && (1..=1_000).contains(&self.resolution)
            && (8..=12).contains(&self.bits_in_byte())
    }
}

/// Pairs of a mode or a task with a task: a bit set for each first number.
#[derive(Default)]
struct Pairs([u32; u32::BITS as usize]);

impl Pairs {
    /// Says whether the pair is new.
    fn insert(&mut self, first: u8, second: u8) -> bool {
        let set = &mut self.0[usize::from(first)];
        let new = !has(*set, second);
        *set |= 1 << second;
        new
    }
}

impl Plan {
    pub fn mode_of(&self, invocation: &Invocation) -> &Mode {
        &self.modes[usize::from(invocation.mode)]
    }

    pub fn task_of(&self, invocation: &Invocation) -> &Task {
        &self.tasks[usize::from(invocation.task)]
    }

    pub fn period_of(&self, invocation: &Invocation) -> u32 {
        self.mode_of(invocation).period / u32::from(invocation.rate)
    }

    pub fn node_of_task(&self, task: u8) -> u8 {
        let module = self.tasks[usize::from(task)].module;
        self.modules[usize::from(module)].node
    }

    /// Rule 3: the lowest record that names a thing not there.
    fn unknown_name(&self) -> Option<usize> {
        let no_module = |module: u8| usize::from(module) >= self.modules.len();
        let no_mode = |mode: u8| usize::from(mode) >= self.modes.len();
        let no_task = |task: u8| usize::from(task) >= self.tasks.len();
        let modules = self.modules.iter().map(|module| module.node >= self.nodes);
        let modes = self.modes.iter().map(|mode| no_module(mode.module));
        let tasks = self.tasks.iter().map(|task| no_module(task.module));
        let invocations = self.invocations.iter().map(|run| no_mode(run.mode) || no_task(run.task));
        let connections = (self.connections.iter())
            .map(|connection| no_task(connection.producer) || no_task(connection.consumer));
        let things = modules.chain(modes).chain(tasks).chain(invocations).chain(connections);
        [false, false].into_iter().chain(things).position(|at_fault| at_fault)
    }

    /// Rule 4: the lowest record with another number outside its range.
    fn number_out_of_range(&self) -> Option<usize> {
        let period = |period: u32| (1..=LONGEST_PERIOD).contains(&period);
        let modules = self.modules.iter().map(|_| false);
        let modes =
            self.modes.iter().map(|mode| !period(mode.period) || !period(mode.switch_period));
        let tasks = (self.tasks.iter())
            .map(|task| !(1..=8).contains(&task.size) || !period(task.worst_time));
        let invocations = self.invocations.iter().map(|run| run.rate == 0);
        let things = modules.chain(modes).chain(tasks).chain(invocations);
        [!self.bits.in_range(), false].into_iter().chain(things).position(|at_fault| at_fault)
    }

    /// Rule 5: the lowest record with any of its faults.
    fn broken_sentence(&self) -> Option<usize> {
        let with_mode = self.modes.iter().fold(0, |seen, mode| seen | 1 << mode.module);
        let modules = (0..).zip(self.modules.iter()).map(|(number, _)| !has(with_mode, number));
        let modes = self.modes.iter().map(|mode| !mode.period.is_multiple_of(mode.switch_period));
        let tasks = self.tasks.iter().map(|_| false);
        let (mut invoked, mut connected) = (Pairs::default(), Pairs::default());
        let invocations = (self.invocations.iter())
            .map(|run| !invoked.insert(run.mode, run.task) || !self.fits(run));
        let connections = (self.connections.iter()).map(|&Connection { producer, consumer }| {
            producer == consumer || !connected.insert(producer, consumer)
        });
        let things = modules.chain(modes).chain(tasks).chain(invocations).chain(connections);
        [false, false].into_iter().chain(things).position(|at_fault| at_fault)
    }

    fn fits(&self, invocation: &Invocation) -> bool {
        let (mode, task) = (self.mode_of(invocation), self.task_of(invocation));
        let period = self.period_of(invocation);
        mode.module == task.module
            && mode.period.is_multiple_of(u32::from(invocation.rate))
            && mode.switch_period.is_multiple_of(period)
            && task.worst_time <= period
    }
}
