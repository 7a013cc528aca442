//! Histories: what a station is given, tick by tick, most of it acceptable.

use super::random::Rng;
use crate::one_board::OneBoard;
use crate::plan::Plan;
use crate::station::{Modes, Results};
use crate::{MOST_MODULES, MOST_TASKS, Refusal};

pub fn starting_modes(rng: &mut Rng, plan: &Plan) -> Modes {
    std::array::from_fn(|module| any_mode_of(rng, plan, module))
}

fn any_mode_of(rng: &mut Rng, plan: &Plan, module: usize) -> Option<u8> {
    let own: Vec<u8> = (0..)
        .zip(plan.modes.iter())
        .filter(|(_, mode)| usize::from(mode.module) == module)
        .map(|(number, _)| number)
        .collect();
    if own.is_empty() { None } else { Some(rng.pick(&own)) }
}

/// One place holds nothing, a number of no mode, or any mode.
pub fn broken_starting_modes(rng: &mut Rng, plan: &Plan) -> Modes {
    let mut modes = starting_modes(rng, plan);
    let mode = rng.below(plan.modes.len()) as u8;
    modes[rng.below(MOST_MODULES)] =
        rng.pick(&[None, Some(255), Some(plan.modes.len() as u8), Some(mode)]);
    modes
}

#[derive(Clone, Debug)]
pub struct Tick {
    pub results: Results,
    pub modes: Modes,
}

/// Gives the ticks of one history, and what the station must answer to each, as far as refusals go.
#[derive(Debug)]
pub struct History {
    board: OneBoard,
    rng: Rng,
    /// One tick in so many is given a fault; `None`: no tick is.
    fault_in: Option<usize>,
}

impl History {
    /// Takes starting modes that a station accepts.
    pub fn new(rng: &mut Rng, plan: &Plan, modes: &Modes, fault_in: Option<usize>) -> History {
        History { board: OneBoard::begin(plan, modes), rng: Rng::new(rng.number()), fault_in }
    }

    pub fn board(&self) -> &OneBoard {
        &self.board
    }

    pub fn next_tick(&mut self) -> (Tick, Result<(), Refusal>) {
        let mut tick = Tick { results: self.results(), modes: self.changes() };
        if self.fault_in.is_some_and(|times| self.rng.one_in(times)) {
            for _ in 0..self.rng.pick(&[1, 1, 1, 2, 3]) {
                self.add_fault(&mut tick);
            }
        }
        let answer = self.board.tick(&tick.results, &tick.modes);
        (tick, answer)
    }

    /// A result comes at any time of its run, the last instant among them.
    fn results(&mut self) -> Results {
        std::array::from_fn(|task| {
            let run = self.board.run(task).filter(|run| run.awaits())?;
            let left = (run.worst_time - run.age) as usize;
            (run.is_due() || self.rng.one_in(left.clamp(2, 64))).then(|| self.value(task))
        })
    }

    fn value(&mut self, task: usize) -> u64 {
        let largest = u64::MAX >> (64 - 8 * u32::from(self.board.plan().tasks[task].size));
        match self.rng.below(8) {
            0 => largest,
            1 => 0,
            _ => self.rng.number() & largest,
        }
    }

    fn changes(&mut self) -> Modes {
        std::array::from_fn(|module| {
            let there = module < self.board.plan().modules.len();
            let changes = there && self.board.may_change(module) && self.rng.one_in(3);
            if changes { any_mode_of(&mut self.rng, self.board.plan(), module) } else { None }
        })
    }

    fn add_fault(&mut self, tick: &mut Tick) {
        let rng = &mut self.rng;
        let task = rng.below(MOST_TASKS);
        match rng.below(4) {
            0 => tick.results[task] = Some(rng.number() & 255),
            1 => tick.results.iter_mut().flatten().for_each(|result| *result |= 1 << rng.below(64)),
            2 => tick.results = [None; MOST_TASKS],
            _ => tick.modes[rng.below(MOST_MODULES)] = Some(rng.pick(&[0, 1, 2, 3, 31, 255])),
        }
    }
}
