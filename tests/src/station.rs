//! The played station: refusals 40 to 44. It plays in place; a tick costs what happens in it,
//! and compares the instants at which something will happen with now, without a division.

mod now;

pub use now::{ModuleNow, TaskNow, TimeNow};

use crate::bus::{Bus, Reads};
use crate::checker::{self, DataRow, Passed};
use crate::plan::Plan;
use crate::{
    FrameRow, MOST_FRAMES, MOST_MODES, MOST_MODULES, MOST_NODES, MOST_TASKS, Refusal, bus, has,
    refuse_at,
};

pub type Results = [Option<u64>; MOST_TASKS];
pub type Modes = [Option<u8>; MOST_MODULES];

#[derive(Clone, Copy, Debug, PartialEq, Eq)]
pub enum Row {
    Control { node: u8, start: u32, stop: u32 },
    Data { task: u8, deadline: u32, start: u32, stop: u32 },
}

/// What travels on the bus until the row's stop.
#[derive(Clone, Copy, Debug)]
enum Cargo {
    Nothing,
    Modes { node: u8, modes: [u8; MOST_MODULES] },
    Value { task: u8, value: u64 },
}

/// What a beginning fixes: the plan's and the table's part in a tick.
#[derive(Clone, Debug)]
struct Fixed {
    modules: usize,
    modes: usize,
    tasks: usize,
    node_of_module: [u8; MOST_MODULES],
    module_of_mode: [u8; MOST_MODES],
    mode_periods: [u32; MOST_MODES],
    switch_periods: [u32; MOST_MODES],
    /// By mode, then task; 0: not invoked.
    periods: [[u32; MOST_TASKS]; MOST_MODES],
    tasks_of_module: [u32; MOST_MODULES],
    module_of_task: [u8; MOST_TASKS],
    node_of_task: [u8; MOST_TASKS],
    worst_times: [u32; MOST_TASKS],
    largest_results: [u64; MOST_TASKS],
    bus_tasks: u32,
    reads: Reads,
    /// By node: the modules whose modes its control frame carries.
    carried_modules: [u32; MOST_NODES],
    bus_period: u32,
    rows: Vec<Row>,
}

#[derive(Clone, Debug)]
pub struct Station {
    begun: bool,
    fixed: Fixed,
    /// Counts ticks and wraps: instants are only compared for equality, never more than one
    /// period away, so there is no last tick.
    now: u32,
    ticked: bool,
    /// 0 to the bus period less 1.
    bus_time: u32,
    next_row: usize,
    cargo: Cargo,
    cargo_stop: u32,
    modes: [u8; MOST_MODULES],
    /// The next instant at which the module may change its mode.
    switch_at: [u32; MOST_MODULES],
    /// The next end of the mode's period, which is such an instant.
    period_ends_at: [u32; MOST_MODULES],
    running: u32,
    /// Runs that have taken no result yet, from the tick after their release on.
    awaiting: u32,
    /// Runs released at this tick.
    released: u32,
    /// Release plus worst time.
    due_at: [u32; MOST_TASKS],
    /// Release plus period.
    end_at: [u32; MOST_TASKS],
    out_box: [u64; MOST_TASKS],
    /// The mode bytes held, by module, then node.
    held_modes: [[u8; MOST_NODES]; MOST_MODULES],
    /// By task, then node.
    landed: [[u64; MOST_NODES]; MOST_TASKS],
    shown: [[u64; MOST_NODES]; MOST_TASKS],
}

impl Station {
    /// A station not begun: every tick gives 40 at 0.
    pub fn not_begun() -> Station {
        Station {
            begun: false,
            fixed: Fixed::nothing(),
            now: 0,
            ticked: false,
            bus_time: 0,
            next_row: 0,
            cargo: Cargo::Nothing,
            cargo_stop: 0,
            modes: [0; MOST_MODULES],
            switch_at: [0; MOST_MODULES],
            period_ends_at: [0; MOST_MODULES],
            running: 0,
            awaiting: 0,
            released: 0,
            due_at: [0; MOST_TASKS],
            end_at: [0; MOST_TASKS],
            out_box: [0; MOST_TASKS],
            held_modes: [[0; MOST_NODES]; MOST_MODULES],
            landed: [[0; MOST_NODES]; MOST_TASKS],
            shown: [[0; MOST_NODES]; MOST_TASKS],
        }
    }

    pub fn begin(plan: &[u8], table: &[u8], modes: Modes) -> Result<Station, Refusal> {
        let mut rows = [FrameRow::default(); MOST_FRAMES];
        let passed = checker::judge(plan, table, &mut rows)?;
        if let Some(module) =
            (0..).zip(modes).position(|(module, mode)| !starts(&passed.plan, module, mode))
        {
            return Err(Refusal::new(40, module));
        }
        let mut station =
            Station { begun: true, fixed: Fixed::of(&passed), ..Station::not_begun() };
        for (module, mode) in modes.iter().enumerate() {
            if let &Some(mode) = mode {
                station.start_mode(module, mode);
                // A change is allowed at time 0 too.
                station.switch_at[module] = 0;
            }
        }
        Ok(station)
    }

    /// The value that the node shows of the task at moment (e) of the last accepted tick.
    pub fn shown(&self, node: usize, task: usize) -> u64 {
        self.shown.get(task).and_then(|nodes| nodes.get(node)).copied().unwrap_or(0)
    }

    /// One tick; a refused one changes nothing.
    pub fn tick(&mut self, results: &Results, modes: &Modes) -> Result<Option<Row>, Refusal> {
        if !self.begun {
            return Err(Refusal::new(40, 0));
        }
        let given = given(results);
        self.judge_results(given, results)?;
        self.judge_modes(modes)?;
        self.take_results(given, results);
        // At the end of a cycle the bus time is P for what ends and 0 for what begins.
        let ending_time = if self.bus_time == 0 { self.fixed.bus_period } else { self.bus_time };
        self.land(ending_time);
        self.end_runs(ending_time);
        self.change_modes(modes);
        let row = self.start_row();
        self.pass();
        Ok(row)
    }

    fn judge_results(&self, given: u32, results: &Results) -> Result<(), Refusal> {
        refuse_lowest(41, given & !self.awaiting)?;
        let too_large = numbers(given).find(|&task| {
            results[task].is_some_and(|result| result > self.fixed.largest_results[task])
        });
        refuse_at(42, too_large)?;
        refuse_lowest(43, instants(&self.due_at, self.now) & self.awaiting & !given)
    }

    fn judge_modes(&self, modes: &Modes) -> Result<(), Refusal> {
        let refused = |(module, mode): (usize, &Option<u8>)| {
            mode.is_some_and(|mode| {
                !self.fixed.is_mode_of(module, mode) || self.switch_at[module] != self.now
            })
        };
        refuse_at(44, modes.iter().enumerate().position(refused))
    }

    /// (a)
    fn take_results(&mut self, given: u32, results: &Results) {
        for task in numbers(given) {
            self.out_box[task] = results[task].unwrap_or(0);
        }
        self.awaiting &= !given;
    }

    /// (b)
    fn land(&mut self, ending_time: u32) {
        if self.cargo_stop != ending_time {
            return;
        }
        match std::mem::replace(&mut self.cargo, Cargo::Nothing) {
            Cargo::Nothing => {}
            Cargo::Modes { node, modes } => {
                for module in numbers(self.fixed.carried_modules[usize::from(node)]) {
                    put_elsewhere(&mut self.held_modes[module], node, modes[module]);
                }
            }
            Cargo::Value { task, value } => {
                let task = usize::from(task);
                put_elsewhere(&mut self.landed[task], self.fixed.node_of_task[task], value);
            }
        }
    }

    /// (c), and the next runs are released.
    fn end_runs(&mut self, ending_time: u32) {
        for task in numbers(instants(&self.end_at, self.now) & self.running) {
            if has(self.fixed.bus_tasks, task as u8) {
                self.show_landed(task, ending_time);
            }
            let own = usize::from(self.fixed.node_of_task[task]);
            self.shown[task][own] = self.out_box[task];
            let mode = self.modes[usize::from(self.fixed.module_of_task[task])];
            self.release(task, self.fixed.periods[usize::from(mode)][task]);
        }
    }

    fn show_landed(&mut self, task: usize, deadline: u32) {
        let module = usize::from(self.fixed.module_of_task[task]);
        let mode = self.modes[module];
        let due_by_mode = self.fixed.has_message(mode, task, deadline);
        let (shown, landed) = (&mut self.shown[task], &self.landed[task]);
        for (node, &held) in self.held_modes[module].iter().enumerate() {
            // Nodes hold the running mode as a rule; the division is done once for all of them.
            let due = if held == mode {
                due_by_mode
            } else {
                self.fixed.has_message(held, task, deadline)
            };
            if due {
                shown[node] = landed[node];
            }
        }
    }

    /// (d)
    fn change_modes(&mut self, modes: &Modes) {
        for module in numbers(instants(&self.switch_at, self.now)) {
            if module < self.fixed.modules {
                match modes[module] {
                    Some(mode) => self.start_mode(module, mode),
                    None => self.keep_mode(module),
                }
            }
        }
    }

    fn switch_period(&self, module: usize) -> u32 {
        self.fixed.switch_periods[usize::from(self.modes[module])]
    }

    fn keep_mode(&mut self, module: usize) {
        self.switch_at[module] = self.now.wrapping_add(self.switch_period(module));
        if self.period_ends_at[module] == self.now {
            self.begin_period(module);
        }
    }

    fn begin_period(&mut self, module: usize) {
        let period = self.fixed.mode_periods[usize::from(self.modes[module])];
        self.period_ends_at[module] = self.now.wrapping_add(period);
    }

    fn start_mode(&mut self, module: usize, mode: u8) {
        self.modes[module] = mode;
        self.switch_at[module] = self.now.wrapping_add(self.switch_period(module));
        self.begin_period(module);
        let own = self.fixed.tasks_of_module[module];
        self.running &= !own;
        self.awaiting &= !own;
        self.released &= !own;
        for task in numbers(own) {
            let period = self.fixed.periods[usize::from(mode)][task];
            if period > 0 {
                self.running |= 1 << task;
                self.release(task, period);
            }
        }
    }

    fn release(&mut self, task: usize, period: u32) {
        self.released |= 1 << task;
        self.due_at[task] = self.now.wrapping_add(self.fixed.worst_times[task]);
        self.end_at[task] = self.now.wrapping_add(period);
    }

    /// (f)
    fn start_row(&mut self) -> Option<Row> {
        let row = self.fixed.rows[self.next_row];
        let (start, stop) = row.times();
        if start != self.bus_time {
            return None;
        }
        self.next_row =
            if self.next_row + 1 < self.fixed.rows.len() { self.next_row + 1 } else { 0 };
        self.cargo_stop = stop;
        self.cargo = match row {
            Row::Control { node, .. } => Cargo::Modes { node, modes: self.modes },
            Row::Data { task, deadline, .. } => self.data_cargo(task, deadline),
        };
        Some(row)
    }

    fn data_cargo(&self, task: u8, deadline: u32) -> Cargo {
        let mode = self.modes[usize::from(self.fixed.module_of_task[usize::from(task)])];
        if self.fixed.has_message(mode, usize::from(task), deadline) {
            Cargo::Value { task, value: self.out_box[usize::from(task)] }
        } else {
            Cargo::Nothing
        }
    }

    fn pass(&mut self) {
        self.awaiting |= std::mem::take(&mut self.released);
        self.now = self.now.wrapping_add(1);
        self.ticked = true;
        self.bus_time =
            if self.bus_time + 1 < self.fixed.bus_period { self.bus_time + 1 } else { 0 };
    }
}

/// A module's starting place holds a mode of its own, a later place nothing.
fn starts(plan: &Plan, module: u8, mode: Option<u8>) -> bool {
    match mode {
        None => usize::from(module) >= plan.modules.len(),
        Some(mode) => plan.modes.get(usize::from(mode)).is_some_and(|mode| mode.module == module),
    }
}

fn given(results: &Results) -> u32 {
    (0..).zip(results).fold(0, |set, (task, result)| set | u32::from(result.is_some()) << task)
}

fn refuse_lowest(number: u32, places: u32) -> Result<(), Refusal> {
    refuse_at(number, numbers(places).next())
}

/// The places whose instant is now.
fn instants<const PLACES: usize>(at: &[u32; PLACES], now: u32) -> u32 {
    (0..).zip(at).fold(0, |set, (place, &at)| set | u32::from(at == now) << place)
}

/// The numbers in a set, ascending.
fn numbers(mut set: u32) -> impl Iterator<Item = usize> {
    std::iter::from_fn(move || {
        let lowest = set.trailing_zeros();
        set &= set.wrapping_sub(1);
        (lowest < u32::BITS).then_some(lowest as usize)
    })
}

/// A frame lands on every node but its sender.
fn put_elsewhere<T: Copy>(nodes: &mut [T; MOST_NODES], sender: u8, value: T) {
    let own = nodes[usize::from(sender)];
    nodes.fill(value);
    nodes[usize::from(sender)] = own;
}

impl Row {
    fn times(&self) -> (u32, u32) {
        match *self {
            Row::Control { start, stop, .. } | Row::Data { start, stop, .. } => (start, stop),
        }
    }
}

impl From<bus::ControlRow> for Row {
    fn from(bus::ControlRow { node, start, stop }: bus::ControlRow) -> Row {
        Row::Control { node, start, stop }
    }
}

impl From<DataRow> for Row {
    fn from(DataRow { task, deadline, start, stop }: DataRow) -> Row {
        Row::Data { task, deadline, start, stop }
    }
}

impl Fixed {
    fn nothing() -> Fixed {
        Fixed {
            modules: 0,
            modes: 0,
            tasks: 0,
            node_of_module: [0; MOST_MODULES],
            module_of_mode: [0; MOST_MODES],
            mode_periods: [0; MOST_MODES],
            switch_periods: [0; MOST_MODES],
            periods: [[0; MOST_TASKS]; MOST_MODES],
            tasks_of_module: [0; MOST_MODULES],
            module_of_task: [0; MOST_TASKS],
            node_of_task: [0; MOST_TASKS],
            worst_times: [0; MOST_TASKS],
            largest_results: [0; MOST_TASKS],
            bus_tasks: 0,
            reads: Reads::default(),
            carried_modules: [0; MOST_NODES],
            bus_period: 0,
            rows: Vec::new(),
        }
    }

    fn of(passed: &Passed) -> Fixed {
        let Passed { plan, bus, data } = passed;
        let mut fixed = Fixed::nothing();
        fixed.keep_modes(plan);
        fixed.keep_tasks(plan);
        fixed.keep_bus(plan, bus);
        let control = bus.control.iter().copied().map(Row::from);
        fixed.rows = control.chain(data.iter().map(Row::from)).collect();
        fixed
    }

    fn keep_modes(&mut self, plan: &Plan) {
        self.modules = plan.modules.len();
        self.modes = plan.modes.len();
        for (number, mode) in plan.modes.iter().enumerate() {
            self.module_of_mode[number] = mode.module;
            self.mode_periods[number] = mode.period;
            self.switch_periods[number] = mode.switch_period;
        }
        for invocation in plan.invocations.iter() {
            let periods = &mut self.periods[usize::from(invocation.mode)];
            periods[usize::from(invocation.task)] = plan.period_of(invocation);
        }
    }

    fn keep_tasks(&mut self, plan: &Plan) {
        self.tasks = plan.tasks.len();
        for (number, task) in (0..).zip(plan.tasks.iter()) {
            let place = usize::from(number);
            self.tasks_of_module[usize::from(task.module)] |= 1 << number;
            self.module_of_task[place] = task.module;
            self.node_of_task[place] = plan.node_of_task(number);
            self.worst_times[place] = task.worst_time;
            self.largest_results[place] = u64::MAX >> (64 - 8 * u32::from(task.size));
        }
    }

    fn keep_bus(&mut self, plan: &Plan, bus: &Bus) {
        self.bus_tasks = bus.tasks;
        self.reads = bus.reads.clone();
        self.bus_period = bus.period;
        for (number, module) in (0..).zip(plan.modules.iter()) {
            self.node_of_module[usize::from(number)] = module.node;
            if has(bus.modules, number) {
                self.carried_modules[usize::from(module.node)] |= 1 << number;
            }
        }
    }

    fn is_mode_of(&self, module: usize, mode: u8) -> bool {
        let mode = usize::from(mode);
        mode < self.modes && usize::from(self.module_of_mode[mode]) == module
    }

    /// A message of the task with this deadline is kept if the mode runs.
    fn has_message(&self, mode: u8, task: usize, deadline: u32) -> bool {
        let period = self.periods[usize::from(mode)][task];
        has(self.bus_tasks, task as u8)
            && period > 0
            && deadline.is_multiple_of(period)
            && self.reads.keep(task as u8, period, deadline)
    }
}

#[cfg(test)]
mod tests {
    use super::*;
    use crate::Edition;
    use crate::generate::{History, Made, Rng, job_a, starting_modes};

    /// A station that has run for almost as long as its clock counts.
    fn aged(mut station: Station, ticks: u32) -> Station {
        station.now = ticks;
        let Station { due_at, end_at, switch_at, period_ends_at, .. } = &mut station;
        let instants = [&mut due_at[..], end_at, switch_at, period_ends_at];
        instants.into_iter().flatten().for_each(|at| *at = at.wrapping_add(ticks));
        station
    }

    #[test]
    fn there_is_no_last_tick() {
        let made = Made::of(&job_a().bytes(), Edition::Basic).expect("job A has a table");
        let rng = &mut Rng::new(1);
        let modes = starting_modes(rng, &made.read_plan);
        let mut young = Station::begin(&made.plan, &made.table.bytes(), modes).expect("it passes");
        let mut old = aged(young.clone(), u32::MAX - 100_000);
        let mut history = History::new(rng, &made.read_plan, &modes, None);
        for _ in 0..300_000 {
            let (tick, _) = history.next_tick();
            let answer = young.tick(&tick.results, &tick.modes);
            assert!(answer.is_ok());
            assert_eq!(answer, old.tick(&tick.results, &tick.modes));
            assert_eq!(young.shown, old.shown);
            assert_eq!(young.time(), old.time());
            assert!((0..16).all(|module| young.module(module) == old.module(module)));
            assert!((0..32).all(|task| young.task(task) == old.task(task)));
        }
    }
}
