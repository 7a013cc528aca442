//! The same history with all tasks on one board and no bus: what demand 3 compares the station with.
//! Written for reading: it keeps the time since each mode began and divides.

use crate::plan::Plan;
use crate::station::{Modes, Results};
use crate::{MOST_MODULES, MOST_TASKS, Refusal, refuse_at};

#[derive(Debug)]
pub struct OneBoard {
    plan: Plan,
    modes: [u8; MOST_MODULES],
    /// Ticks since the module's mode began.
    since: [u64; MOST_MODULES],
    /// The result of the present run.
    results: [Option<u64>; MOST_TASKS],
    /// The result of the last run that had ended, or zero.
    shown: [u64; MOST_TASKS],
}

/// The run of a task that is under way before a tick, at this tick.
#[derive(Clone, Copy, Debug)]
pub struct Run {
    /// 1 to the period; at its release a run is not yet under way.
    pub age: u64,
    pub period: u64,
    pub worst_time: u64,
    pub has_result: bool,
}

impl Run {
    pub fn awaits(&self) -> bool {
        !self.has_result && self.age <= self.worst_time
    }

    pub fn is_due(&self) -> bool {
        !self.has_result && self.age == self.worst_time
    }
}

impl OneBoard {
    /// Takes starting modes that a station accepts; `None` stands for places behind the modules.
    pub fn begin(plan: &Plan, modes: &Modes) -> OneBoard {
        OneBoard {
            plan: *plan,
            modes: modes.map(|mode| mode.unwrap_or(0)),
            since: [0; MOST_MODULES],
            results: [None; MOST_TASKS],
            shown: [0; MOST_TASKS],
        }
    }

    pub fn plan(&self) -> &Plan {
        &self.plan
    }

    pub fn shown(&self, task: usize) -> u64 {
        self.shown[task]
    }

    pub fn run(&self, task: usize) -> Option<Run> {
        let module = usize::from(self.plan.tasks.get(task)?.module);
        let present = (self.plan.invocations.iter())
            .find(|run| run.mode == self.modes[module] && usize::from(run.task) == task)?;
        let period = u64::from(self.plan.period_of(present));
        let before = self.since[module].checked_sub(1)?;
        Some(Run {
            age: before % period + 1,
            period,
            worst_time: u64::from(self.plan.tasks[task].worst_time),
            has_result: self.results[task].is_some(),
        })
    }

    /// At the last accepted tick a run of the task was released.
    pub fn released(&self, task: usize) -> bool {
        // From there on the run has the age of one tick.
        self.run(task).is_some_and(|run| run.age == 1)
    }

    pub fn may_change(&self, module: usize) -> bool {
        let mode = &self.plan.modes[usize::from(self.modes[module])];
        self.since[module].is_multiple_of(u64::from(mode.switch_period))
    }

    /// Refusals 41 to 44 by their sentences; a refused tick changes nothing.
    pub fn tick(&mut self, results: &Results, modes: &Modes) -> Result<(), Refusal> {
        let runs: [Option<Run>; MOST_TASKS] = std::array::from_fn(|task| self.run(task));
        refuse_at(
            41,
            first(|task| results[task].is_some() && !runs[task].is_some_and(|run| run.awaits())),
        )?;
        refuse_at(42, first(|task| results[task].is_some_and(|value| !self.fits(task, value))))?;
        refuse_at(
            43,
            first(|task| results[task].is_none() && runs[task].is_some_and(|run| run.is_due())),
        )?;
        refuse_at(44, (0..MOST_MODULES).find(|&module| !self.allows(module, modes[module])))?;
        for (task, run) in runs.iter().enumerate() {
            self.results[task] = self.results[task].or(results[task]);
            if run.is_some_and(|run| run.age == run.period) {
                self.shown[task] = self.results[task].take().unwrap_or(0);
            }
        }
        for (module, mode) in modes.iter().enumerate() {
            if let &Some(mode) = mode {
                self.modes[module] = mode;
                self.since[module] = 0;
            }
            self.since[module] += 1;
        }
        Ok(())
    }

    fn fits(&self, task: usize, value: u64) -> bool {
        let bytes = value.to_le_bytes();
        bytes[usize::from(self.plan.tasks[task].size)..].iter().all(|&byte| byte == 0)
    }

    fn allows(&self, module: usize, mode: Option<u8>) -> bool {
        let Some(mode) = mode else { return true };
        let own = self.plan.modes.get(usize::from(mode));
        module < self.plan.modules.len()
            && own.is_some_and(|own| usize::from(own.module) == module)
            && self.may_change(module)
    }
}

fn first(fails: impl Fn(usize) -> bool) -> Option<usize> {
    (0..MOST_TASKS).find(|&task| fails(task))
}
