//! The plans and histories of the benchmark.

use reference::generate::{Draft, History, Rng, Tick, job_a, starting_modes};
use reference::plan::{self, Connection, Invocation, Mode, Task};
use reference::station::Modes;

/// Of a history.
pub const TICKS: usize = 2_000;

/// How often each bus task runs in a cycle: the sum is the number of frames. All divide the cycle.
pub const SIZES: [(usize, &[u16]); 4] = [
    (8, &[1, 2, 5]),
    (64, &[1, 2, 3, 4, 5, 6, 7, 8, 9, 10, 9]),
    (256, &[1, 2, 3, 4, 5, 6, 7, 8, 9, 10, 11, 12, 13, 14, 15, 16, 18, 20, 21, 22, 24, 15]),
    (
        1_024,
        &[
            1, 2, 3, 4, 5, 6, 7, 8, 9, 10, 11, 12, 13, 14, 15, 16, 18, 20, 21, 22, 24, 28, 36, 44,
            55, 70, 88, 104, 112, 120, 126,
        ],
    ),
];

/// Two nodes: all bus tasks are on one, and one task on the other reads them.
pub fn plan_with(rates: &[u16]) -> Draft {
    let period = 720_720;
    let mut draft = job_a();
    (draft.bits.kbits, draft.bits.overhead) = (10_000, 8);
    draft.modes = [0, 1].map(|module| Mode { module, period, switch_period: period }).to_vec();
    draft.tasks = rates.iter().map(|_| Task { module: 0, size: 4, worst_time: 1_000 }).collect();
    draft.tasks.push(Task { module: 1, size: 4, worst_time: 1_000 });
    let runs = (0..).zip(rates);
    draft.invocations = runs.map(|(task, &rate)| Invocation { mode: 0, task, rate }).collect();
    let consumer = rates.len() as u8;
    draft.invocations.push(Invocation { mode: 1, task: consumer, rate: 1 });
    draft.connections = (0..consumer).map(|producer| Connection { producer, consumer }).collect();
    draft
}

/// Read so often in the cycle, in one mode and in another, tasks that run more often have fewer frames than messages.
const READ_RATES: [u16; 2] = [60, 44];
/// How many frames there are then.
pub const READ_FRAMES: usize = 1_024;
const RATES_READ: [u16; 15] = [110, 112, 117, 120, 126, 130, 132, 140, 143, 144, 60, 56, 52, 28, 1];

/// The same plan with other rates, for consumers: its one reader runs in two modes.
pub fn plan_read() -> Draft {
    let mut draft = plan_with(&RATES_READ);
    let reader = RATES_READ.len() as u8;
    draft.invocations.pop();
    draft.modes.push(draft.modes[1]);
    let modes = (1..).zip(READ_RATES);
    draft.invocations.extend(modes.map(|(mode, rate)| Invocation { mode, task: reader, rate }));
    draft
}

/// Starting modes, and ticks that are all accepted.
pub fn ticks_of(plan: &[u8]) -> (Modes, Vec<Tick>) {
    let read = plan::read(plan).expect("the plan is good");
    let rng = &mut Rng::new(1);
    let modes = starting_modes(rng, &read);
    let mut history = History::new(rng, &read, &modes, None);
    (modes, (0..TICKS).map(|_| history.next_tick().0).collect())
}
