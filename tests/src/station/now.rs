//! What a caller may ask of a station: the time, its modules, its tasks. Where it has not begun, or has no
//! such module or task, all is zero.

use super::Station;
use crate::has;

#[derive(Clone, Copy, Debug, Default, PartialEq, Eq)]
pub struct TimeNow {
    pub begun: bool,
    /// Of the next tick: 0 for the first, and then 1 to the period.
    pub clock: u32,
    pub period: u32,
}

#[derive(Clone, Copy, Debug, Default, PartialEq, Eq)]
pub struct ModuleNow {
    pub there: bool,
    pub node: u8,
    pub mode: u8,
    /// Since its mode began, within that mode's period.
    pub age: u32,
}

#[derive(Clone, Copy, Debug, Default, PartialEq, Eq)]
pub struct TaskNow {
    pub there: bool,
    pub home: u8,
    /// The next tick may bring a result.
    pub awaits: bool,
    /// Ticks that may still pass without it.
    pub left: u32,
}

impl Station {
    pub fn time(&self) -> TimeNow {
        if !self.begun {
            return TimeNow::default();
        }
        let period = self.fixed.bus_period;
        let clock = if self.ticked && self.bus_time == 0 { period } else { self.bus_time };
        TimeNow { begun: true, clock, period }
    }

    pub fn module(&self, module: u8) -> ModuleNow {
        let place = usize::from(module);
        if place >= self.fixed.modules {
            return ModuleNow::default();
        }
        let mode = self.modes[place];
        let left = self.period_ends_at[place].wrapping_sub(self.now);
        ModuleNow {
            there: true,
            node: self.fixed.node_of_module[place],
            mode,
            age: self.fixed.mode_periods[usize::from(mode)] - left,
        }
    }

    pub fn task(&self, task: u8) -> TaskNow {
        let place = usize::from(task);
        if place >= self.fixed.tasks {
            return TaskNow::default();
        }
        let awaits = has(self.awaiting, task);
        let left = if awaits { self.due_at[place].wrapping_sub(self.now) } else { 0 };
        TaskNow { there: true, home: self.fixed.module_of_task[place], awaits, left }
    }
}
