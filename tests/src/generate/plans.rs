//! Plans that keep rules 1 to 5, most of them with a table.

use super::draft::{Draft, job_a};
use super::random::Rng;
use crate::plan::{Bits, Connection, Invocation, LONGEST_PERIOD, Mode, Module, Task};
use crate::{
    Edition, FrameRow, MOST_CONNECTIONS, MOST_FRAMES, MOST_INVOCATIONS, MOST_MODES, MOST_MODULES,
    MOST_NODES, MOST_TASKS, bus, plan,
};

/// How many things a plan has, and the period from which those of its senders are built.
#[derive(Clone, Debug)]
pub struct Size {
    pub nodes: usize,
    pub modules: usize,
    pub modes: usize,
    pub tasks: usize,
    pub invocations: usize,
    pub connections: usize,
    pub base: u32,
}

const BASES: [u32; 14] =
    [20, 36, 60, 120, 240, 360, 720, 1_000, 5_040, 20_000, 60_000, 100_000, 360_360, 720_720];

impl Size {
    pub fn any(rng: &mut Rng) -> Size {
        match rng.below(4) {
            0 => Size::up_to(rng, 3),
            1 => Size::up_to(rng, 8),
            2 => Size::up_to(rng, MOST_TASKS),
            _ => Size { base: rng.pick(&BASES[4..]), ..Size::full(rng) },
        }
    }

    /// A plan whose cycles are short enough to be played.
    pub fn short(rng: &mut Rng) -> Size {
        let tasks = rng.pick(&[3, 6, 12, MOST_TASKS]);
        Size { base: rng.pick(&BASES[..8]), ..Size::up_to(rng, tasks) }
    }

    pub fn full(rng: &mut Rng) -> Size {
        Size {
            nodes: MOST_NODES,
            modules: MOST_MODULES,
            modes: MOST_MODES,
            tasks: MOST_TASKS,
            invocations: MOST_INVOCATIONS,
            connections: MOST_CONNECTIONS,
            base: rng.pick(&BASES[8..]),
        }
    }

    fn up_to(rng: &mut Rng, most_tasks: usize) -> Size {
        let mut count =
            |least: u32, most: usize| rng.between(least, least.max(most as u32)) as usize;
        let nodes = count(2, MOST_NODES.min(most_tasks));
        let modules = count(2, MOST_MODULES.min(most_tasks));
        Size {
            nodes,
            modules,
            modes: count(modules as u32, MOST_MODES.min(2 * most_tasks)),
            tasks: count(2, most_tasks),
            invocations: count(1, 2 * most_tasks),
            connections: count(1, 2 * most_tasks),
            base: rng.pick(&BASES),
        }
    }
}

/// A plan that keeps rules 1 to 5. Modules that may send have periods built from the base, and
/// their tasks may be read on other nodes; the others have any periods.
pub fn valid_plan(rng: &mut Rng, edition: Edition, size: &Size) -> Draft {
    let mut draft = Draft { nodes: size.nodes as u8, ..Draft::default() };
    draft.modules = modules(rng, size);
    // Task 0 may be read by task 1.
    let first = if edition == Edition::Basic { 1 } else { 2 };
    let senders: Vec<bool> =
        (0..size.modules).map(|module| module < first || !rng.one_in(3)).collect();
    draft.modes = modes(rng, edition, size, &senders);
    draft.tasks = tasks(rng, size);
    draft.invocations = invocations(rng, size, &draft, &senders);
    shorten_worst_times(rng, &mut draft);
    draft.connections = connections(rng, edition, size, &draft, &senders);
    draft.bits = loose_bits();
    draft.bits = fitting_bits(rng, edition, &draft);
    draft
}

/// Modules 0 and 1 stand on different nodes where there are two.
fn modules(rng: &mut Rng, size: &Size) -> Vec<Module> {
    let mut modules: Vec<Module> =
        (0..size.modules).map(|_| Module { node: rng.below(size.nodes) as u8 }).collect();
    if size.modules > 1 {
        modules[1].node = (modules[0].node + 1) % size.nodes as u8;
    }
    modules
}

fn modes(rng: &mut Rng, edition: Edition, size: &Size, senders: &[bool]) -> Vec<Mode> {
    let mut modes: Vec<Mode> = (0..size.modes)
        .map(|number| {
            let module = if number < size.modules { number } else { rng.below(size.modules) };
            let longest = LONGEST_PERIOD.min(2 * size.base);
            let unit = match edition {
                _ if senders[module] => size.base,
                Edition::Consumers if rng.one_in(2) => part_of(rng, size.base),
                _ => rng.between(1, longest),
            };
            let switch_period = times_within(rng, unit);
            let period = times_within(rng, switch_period);
            Mode { module: module as u8, period, switch_period }
        })
        .collect();
    rng.shuffle(&mut modes);
    modes
}

/// Modes of readers could begin where a cycle of so many ticks is not at its end.
fn part_of(rng: &mut Rng, base: u32) -> u32 {
    let parts = rng.pick(&[2, 3, 4]);
    if base.is_multiple_of(parts) { base / parts } else { base }
}

/// A small multiple that is no longer than a period may be.
fn times_within(rng: &mut Rng, period: u32) -> u32 {
    let times = rng.pick(&[1, 1, 1, 2, 3]);
    if period * times <= LONGEST_PERIOD { period * times } else { period }
}

fn tasks(rng: &mut Rng, size: &Size) -> Vec<Task> {
    (0..size.tasks)
        .map(|number| {
            let module = if number < 2 { number % size.modules } else { rng.below(size.modules) };
            let size = rng.pick(&[1, 2, 4, 8, 3, 5, 7, 8]);
            Task { module: module as u8, size, worst_time: LONGEST_PERIOD }
        })
        .collect()
}

/// Different pairs of a mode and a task of one module.
fn invocations(rng: &mut Rng, size: &Size, draft: &Draft, senders: &[bool]) -> Vec<Invocation> {
    let mut pairs: Vec<(usize, usize)> = (0..size.modes)
        .flat_map(|mode| (0..size.tasks).map(move |task| (mode, task)))
        .filter(|&(mode, task)| draft.modes[mode].module == draft.tasks[task].module)
        .collect();
    rng.shuffle(&mut pairs);
    pairs.truncate(size.invocations);
    let many = if size.tasks > 12 { 4 } else { 12 };
    let mut invocations = Vec::new();
    for (mode, task) in pairs {
        let Mode { module, period, switch_period } = draft.modes[mode];
        let longest = if senders[usize::from(module)] { size.base } else { switch_period };
        let parts = rng.between(1, many);
        let parts = if longest.is_multiple_of(parts) { parts } else { 1 };
        let rate = (period / longest * parts) as u16;
        invocations.push(Invocation { mode: mode as u8, task: task as u8, rate });
    }
    invocations
}

fn shorten_worst_times(rng: &mut Rng, draft: &mut Draft) {
    let share = rng.pick(&[1, 2, 4, 8, 16]);
    for run in &draft.invocations {
        let period = draft.modes[usize::from(run.mode)].period / u32::from(run.rate);
        let worst_time = &mut draft.tasks[usize::from(run.task)].worst_time;
        *worst_time = (*worst_time).min(period);
    }
    for task in &mut draft.tasks {
        let least_period = task.worst_time;
        task.worst_time = rng.between(1, 1.max(least_period / share));
        if rng.one_in(30) {
            task.worst_time = least_period;
        }
    }
}

/// Different pairs of two tasks, of one node where the producer may not send; for the sake of consumers as
/// a rule also where the consumer may not. The first pair, from task 0 to task 1, is always among them.
fn connections(
    rng: &mut Rng,
    edition: Edition,
    size: &Size,
    draft: &Draft,
    senders: &[bool],
) -> Vec<Connection> {
    let may_send = |task: usize| senders[usize::from(draft.tasks[task].module)];
    let any_reads = edition == Edition::Basic || rng.one_in(8);
    let mut pairs: Vec<(usize, usize)> = (0..size.tasks)
        .flat_map(|producer| (0..size.tasks).map(move |consumer| (producer, consumer)))
        .filter(|(producer, consumer)| producer != consumer)
        .filter(|&(producer, consumer)| {
            may_send(producer) && (any_reads || may_send(consumer))
                || draft.node_of_task(producer) == draft.node_of_task(consumer)
        })
        .collect();
    rng.shuffle(pairs.get_mut(1..).unwrap_or_default());
    pairs.truncate(size.connections);
    rng.shuffle(&mut pairs);
    let connection =
        |(producer, consumer)| Connection { producer: producer as u8, consumer: consumer as u8 };
    pairs.into_iter().map(connection).collect()
}

/// No time is shorter than this bus's.
fn loose_bits() -> Bits {
    Bits {
        kbits: 100_000,
        overhead: 0,
        least_payload: 0,
        largest_payload: 254,
        gap_bits: 0,
        resolution: 1,
        byte_bits: None,
    }
}

/// Kind 9 as often as kind 1, and 8 bits in both.
fn any_byte_bits(rng: &mut Rng) -> Option<u8> {
    rng.one_in(2).then(|| rng.often_extreme(8, 12) as u8)
}

/// A bus that is loaded from little to a bit too much.
fn fitting_bits(rng: &mut Rng, edition: Edition, draft: &Draft) -> Bits {
    let mut rows = [FrameRow::default(); MOST_FRAMES];
    let asked = plan::read(&draft.bytes()).and_then(|plan| bus::derive(&plan, edition, &mut rows));
    let Ok(asked) = asked else { return draft.bits };
    let rows = (asked.frames + asked.control.len()) as u32;
    let room = asked.period / rows;
    let time = (room * rng.pick(&[1, 2, 4, 7, 9]) / 10).max(1);
    let bits = Bits {
        overhead: rng.pick(&[0, 0, 1, 8, 64]),
        least_payload: rng.pick(&[0, 0, 1, 4, 8]),
        largest_payload: rng.pick(&[254, 254, 64, 16]),
        resolution: resolution_within(rng, asked.period, time),
        byte_bits: any_byte_bits(rng),
        ..loose_bits()
    };
    let kbits = (1_000 * bits.sending(8).bits).div_ceil(time).clamp(1, 100_000);
    let gap_time = rng.pick(&[0, 0, time / 8, time / 3]);
    let gap_bits = (u64::from(kbits) * u64::from(gap_time) / 1_000).min(1_000) as u16;
    Bits { kbits, gap_bits, ..bits }
}

fn resolution_within(rng: &mut Rng, period: u32, time: u32) -> u32 {
    let resolution = rng.between(1, time.min(1_000));
    if period.is_multiple_of(resolution) { resolution } else { rng.pick(&[1, 1, 2]) }
}

/// A plan at a limit or just beside it.
pub fn near_limit_plan(rng: &mut Rng, edition: Edition) -> Draft {
    match rng.below(8) {
        0 => frames_near_limit(rng, edition),
        1 => {
            let size = Size::full(rng);
            valid_plan(rng, edition, &size)
        }
        2 => extreme_bits(rng, edition),
        3 => tight_window(rng, edition),
        4 => control_near_period(rng),
        5 => long_common_multiple(rng, edition),
        6 => any_quick_runs(rng, edition),
        _ => counts_near_limits(rng, edition),
    }
}

/// Has many divisors.
const DIVISIBLE: u32 = 720_720;

/// Two nodes; task i of node 0 runs `rates[i]` times in the period, and a task of node 1 reads all.
pub fn plan_with_rates(period: u32, rates: &[u16]) -> Draft {
    let mut draft = job_a();
    draft.bits = loose_bits();
    draft.modes = [0, 1].map(|module| Mode { module, period, switch_period: period }).to_vec();
    draft.tasks = rates.iter().map(|_| Task { module: 0, size: 1, worst_time: 1 }).collect();
    draft.tasks.push(Task { module: 1, size: 1, worst_time: 1 });
    let runs = (0..).zip(rates);
    draft.invocations = runs.map(|(task, &rate)| Invocation { mode: 0, task, rate }).collect();
    let consumer = rates.len() as u8;
    draft.connections = (0..consumer).map(|producer| Connection { producer, consumer }).collect();
    draft
}

/// The same plan, where the task of node 1 runs so many times in the period.
pub fn read_often(plan: Draft, rate: u16) -> Draft {
    let mut draft = plan;
    let task = draft.tasks.len() as u8 - 1;
    draft.invocations.push(Invocation { mode: 1, task, rate });
    draft
}

/// For the sake of consumers: the same plan, read as often as one of its tasks runs.
fn read_in(rng: &mut Rng, edition: Edition, plan: Draft) -> Draft {
    match edition {
        Edition::Basic => plan,
        Edition::Consumers => {
            let rate = rng.pick(&plan.invocations).rate;
            read_often(plan, rate)
        }
    }
}

/// The same plan with its tasks on all nodes, one module on each; task 0 reads what others send, and
/// task 1 what node 0 sends.
fn on_all_nodes(plan: Draft) -> Draft {
    let nodes = MOST_NODES as u8;
    let Mode { period, switch_period, .. } = plan.modes[0];
    let mut draft = Draft { nodes, ..plan };
    draft.modules = (0..nodes).map(|node| Module { node }).collect();
    draft.modes = (0..nodes).map(|module| Mode { module, period, switch_period }).collect();
    for (number, task) in (0..).zip(&mut draft.tasks) {
        task.module = number % nodes;
    }
    draft.invocations.iter_mut().for_each(|run| run.mode = run.task % nodes);
    for Connection { producer, consumer } in &mut draft.connections {
        *consumer = u8::from(*producer % nodes == 0);
    }
    draft
}

/// Eight tasks on eight nodes, with as many frames as there may be, on a bus whose gap is a tick.
pub fn longest_table() -> Draft {
    let mut draft = on_all_nodes(plan_with_rates(60_000, &[300, 250, 200, 150, 100, 20, 3, 1]));
    draft.bits.gap_bits = 100;
    draft
}

/// The same plan, where task 0 runs in further modes too.
pub fn also_in_modes(plan: Draft, rates: &[u16]) -> Draft {
    let mut draft = plan;
    for (mode, &rate) in (draft.modes.len() as u8..).zip(rates) {
        draft.modes.push(draft.modes[0]);
        draft.invocations.push(Invocation { mode, task: 0, rate });
    }
    draft
}

/// Any number of frames above 256, most often as many as may be or a few more or less; on one node or on
/// all, with a bus that has room or one that is loaded.
fn frames_near_limit(rng: &mut Rng, edition: Edition) -> Draft {
    let most = MOST_FRAMES as u32;
    let frames =
        if rng.one_in(3) { rng.between(257, most) } else { rng.between(most - 2, most + 2) };
    let mut rates = rates_for(rng, frames);
    let read = rates.iter().copied().max().unwrap_or(1);
    if edition == Edition::Consumers && rng.one_in(2) {
        run_more_often(rng, &mut rates, read);
    }
    let mut draft = plan_with_rates(DIVISIBLE, &rates).with_byte_bits(any_byte_bits(rng));
    if edition == Edition::Consumers {
        draft = read_often(draft, read);
    }
    if rng.one_in(2) {
        draft = on_all_nodes(draft);
    }
    if rng.one_in(2) {
        draft.bits = fitting_bits(rng, edition, &draft);
    }
    draft
}

/// What runs as often as it is read, or more often, has a frame for each read.
fn run_more_often(rng: &mut Rng, rates: &mut [u16], read: u16) {
    let above: Vec<u16> =
        (read..=u16::MAX).filter(|&rate| DIVISIBLE.is_multiple_of(u32::from(rate))).collect();
    for rate in rates.iter_mut().filter(|rate| **rate == read) {
        *rate = rng.pick(&above);
    }
}

/// Rates of at most thirty-one tasks that come to so many frames. The first is 1: so P is the period.
fn rates_for(rng: &mut Rng, frames: u32) -> Vec<u16> {
    let most_often = rng.pick(&[40, 120, frames]);
    let mut rates = vec![1];
    let mut left = frames - 1;
    while left > 0 {
        // Of what is left the last tasks take as much as they can: three are enough.
        let last = rates.len() + 4 >= MOST_TASKS;
        let most = if last { left } else { rng.between(1, left.min(most_often)) };
        let rate = (1..=most).rev().find(|&rate| DIVISIBLE.is_multiple_of(rate)).unwrap_or(1);
        rates.push(rate as u16);
        left -= rate;
    }
    rates
}

/// Each number anywhere in its range, often at an end of it.
pub fn any_bits(rng: &mut Rng) -> Bits {
    let largest_payload = rng.often_extreme(1, 254);
    Bits {
        kbits: rng.often_extreme(1, 100_000),
        overhead: rng.often_extreme(0, 64) as u16,
        least_payload: rng.often_extreme(0, largest_payload) as u16,
        largest_payload: largest_payload as u16,
        gap_bits: rng.often_extreme(0, 1_000) as u16,
        resolution: rng.often_extreme(1, 1_000),
        byte_bits: any_byte_bits(rng),
    }
}

fn extreme_bits(rng: &mut Rng, edition: Edition) -> Draft {
    let mut draft = read_in(rng, edition, plan_with_rates(DIVISIBLE, &[1, 2, 3]));
    draft.bits = any_bits(rng);
    draft.bits.resolution = rng.pick(&[1, 1, 3, 7, 13, 720, 1_000]);
    draft.tasks[0].size = rng.between(1, 8) as u8;
    draft
}

/// Job B: the sending time just fits between worst time and deadline, or just not.
fn tight_window(rng: &mut Rng, edition: Edition) -> Draft {
    let mut draft = job_a().with_byte_bits(any_byte_bits(rng));
    if edition == Edition::Consumers {
        draft.invocations[2].rate = rng.pick(&[1, 2, 3, 6]);
    }
    draft.bits.resolution = rng.pick(&[1, 1, 2, 4, 8]);
    draft.bits.gap_bits = rng.pick(&[0, 10, 1_000]);
    let size = u32::from(draft.tasks[0].size);
    let taken = draft.bits.sending(size).ticks + draft.bits.gap().ticks;
    draft.tasks[0].worst_time = rng.between(19_998, 20_003) - taken;
    draft
}

/// C is the bus period, or one tick beside it.
fn control_near_period(rng: &mut Rng) -> Draft {
    let mut draft = job_a().with_byte_bits(any_byte_bits(rng));
    let left: u16 = rng.pick(&[0, 28, 168, 528, 928]);
    let period = draft.bits.sending(1).ticks + u32::from(left);
    for mode in &mut draft.modes {
        (mode.period, mode.switch_period) = (period, period);
    }
    draft.invocations.iter_mut().for_each(|run| run.rate = 1);
    draft.tasks.iter_mut().for_each(|task| task.worst_time = 1);
    draft.bits.gap_bits = rng.pick(&[left.saturating_sub(1), left, left + 1]);
    draft
}

/// Periods whose common multiple does not fit into a machine number.
fn long_common_multiple(rng: &mut Rng, edition: Edition) -> Draft {
    let primes = [999_983, 999_979, 999_961, 999_959, 999_953, 999_931, 65_537, 65_536];
    let mut draft = plan_with_rates(DIVISIBLE, &[1; 8]).with_byte_bits(any_byte_bits(rng));
    draft.nodes = 2;
    draft.modules = (0..9).map(|module| Module { node: u8::from(module == 8) }).collect();
    draft.modes = (0..9)
        .map(|module| {
            let counts = module < 8 || edition == Edition::Consumers;
            let period = if counts { rng.pick(&primes) } else { 1 };
            Mode { module, period, switch_period: period }
        })
        .collect();
    for (module, task) in (0..).zip(&mut draft.tasks) {
        task.module = module;
    }
    let runs = if edition == Edition::Basic { 0..8 } else { 0..9 };
    draft.invocations = runs.map(|task| Invocation { mode: task, task, rate: 1 }).collect();
    draft
}

/// A plan with these rates whose first task also runs once in the period, in another mode: so P is the
/// period, and a run has as many messages as its rate.
pub fn quick_runs(period: u32, rates: &[u16]) -> Draft {
    also_in_modes(plan_with_rates(period, rates), &[1])
}

/// Plans of up to two million messages: one task or up to thirty-one of them, with runs from one tick
/// in 65,535, and 16 in a million, up to the whole period; and such with few enough for a table.
fn any_quick_runs(rng: &mut Rng, edition: Edition) -> Draft {
    let period = rng.pick(&[65_535, 65_535, 65_520, 720_720, LONGEST_PERIOD, LONGEST_PERIOD]);
    let tasks = rng.pick(&[1, 1, 2, 5, MOST_TASKS - 1]);
    let most_often = rng.pick(&[u16::MAX, u16::MAX, (MOST_FRAMES / tasks) as u16]);
    let rates: Vec<u16> =
        (1..=most_often).filter(|&rate| period.is_multiple_of(u32::from(rate))).collect();
    let quickest = rates[rates.len() - 1];
    let all_alike = rng.one_in(3);
    let mut rate = || if all_alike { quickest } else { rng.pick(&rates) };
    let rates: Vec<u16> = (0..tasks).map(|_| rate()).collect();
    let draft = read_in(rng, edition, quick_runs(period, &rates));
    draft.with_byte_bits(any_byte_bits(rng))
}

/// As many frames as may be, or almost, in a cycle that is short enough to be played: all tasks send in
/// every run of little more ticks than there are tasks.
pub fn crowded_cycle(rng: &mut Rng, edition: Edition) -> Draft {
    let tasks = rng.pick(&[8, 16, MOST_TASKS - 1]);
    let often = MOST_FRAMES / tasks;
    let period = ((tasks + 2) * often) as u32;
    let mut draft = quick_runs(period, &vec![often as u16; tasks]);
    if edition == Edition::Consumers {
        draft = read_often(draft, often as u16);
    }
    draft.with_byte_bits(any_byte_bits(rng))
}

/// A full plan with one list a thing shorter or longer.
fn counts_near_limits(rng: &mut Rng, edition: Edition) -> Draft {
    let size = Size::full(rng);
    let mut draft = valid_plan(rng, edition, &size);
    let longer = rng.one_in(2);
    match rng.below(5) {
        0 => resize(&mut draft.modules, longer),
        1 => resize(&mut draft.modes, longer),
        2 => resize(&mut draft.tasks, longer),
        3 => resize(&mut draft.invocations, longer),
        _ => resize(&mut draft.connections, longer),
    }
    draft
}

fn resize<T: Copy>(things: &mut Vec<T>, longer: bool) {
    let last = things.pop();
    if longer {
        things.extend([last, last].into_iter().flatten());
    }
}
