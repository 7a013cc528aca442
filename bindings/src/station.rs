//! The played station.

use crate::raw;
use crate::{MODULES, Refusal, TASKS};
use core::fmt;

/// For each task, nothing or its result.
pub type Results = [Option<u64>; TASKS];
/// For each module, nothing or a mode.
pub type Modes = [Option<u8>; MODULES];

/// The row of the table that starts at a tick. Its times are those of the table: ticks from the beginning of a cycle.
#[derive(Clone, Copy, Debug, PartialEq, Eq, Hash)]
pub enum Row {
    /// The control row of a node.
    Control {
        /// That sends.
        node: u8,
        /// Its first tick.
        start: u32,
        /// The tick behind its last.
        stop: u32,
    },
    /// A data row.
    Data {
        /// Whose result is sent, if its module is in a mode that has it.
        task: u8,
        /// Of the frame: the result is shown from then on.
        deadline: u32,
        /// Its first tick.
        start: u32,
        /// The tick behind its last.
        stop: u32,
    },
}

/// Where a station that has begun stands in the cycle of its bus.
#[derive(Clone, Copy, Debug, PartialEq, Eq, Hash)]
pub struct TimeNow {
    /// The bus time of the tick to come: 0 before the first, then 1 to the period.
    pub clock: u32,
    /// The length of the cycle, in ticks.
    pub period: u32,
}

/// What a module of a station does.
#[derive(Clone, Copy, Debug, PartialEq, Eq, Hash)]
pub struct ModuleNow {
    /// That it is on.
    pub node: u8,
    /// In which it is.
    pub mode: u8,
    /// Ticks from the beginning of the mode to the tick to come; after a whole period of the mode it counts anew.
    pub age: u32,
}

/// What a task of a station does.
#[derive(Clone, Copy, Debug, PartialEq, Eq, Hash)]
pub struct TaskNow {
    /// The module that it is of.
    pub home: u8,
    /// At the next tick a result of it would not be refused with [`Refusal::NotAwaited`].
    pub awaits: bool,
    /// Where it awaits a result, how many ticks may still pass without one: at 0 it must come with the next tick, which is
    /// else refused with [`Refusal::ResultOverdue`].
    pub left: u32,
}

/// A played station. It holds its own copy of what it needs of plan and table, 27,016 bytes, and nothing elsewhere.
///
/// With a table that passes, and behind each accepted tick, a task's own node and each node that consumes the task shows the
/// value that the task would have if all tasks ran on one board and there were no bus: that is proved. With a table of
/// [`Edition::Consumers`](crate::Edition::Consumers) a node that consumes the task shows it at each tick at which a run of the
/// consumer is released.
///
/// # Examples
/// ```
/// use olbiothar::{Edition, FRAMES, Frame, LONGEST_TABLE, MODULES, Station, TASKS, TimeNow, make};
///
/// let plan = include_bytes!("../../docs/examples/job-a.plan");
/// let mut table = [0; LONGEST_TABLE];
/// let length = make(plan, Edition::Basic, &mut [Frame::default(); FRAMES], &mut table)?;
///
/// // Modules 0 and 1 start in modes 0 and 2.
/// let mut modes = [None; MODULES];
/// (modes[0], modes[1]) = (Some(0), Some(2));
/// let mut station = Station::not_begun();
/// station.begin(plan, &table[..length], &modes)?;
/// assert_eq!(station.time(), Some(TimeNow { clock: 0, period: 60_000 }));
///
/// station.tick(&[None; TASKS], &[None; MODULES])?;
/// let mut results = [None; TASKS];
/// results[0] = Some(7);
/// assert!(station.task(0).is_some_and(|task| task.awaits));
/// station.tick(&results, &[None; MODULES])?;
/// assert!(station.task(0).is_some_and(|task| !task.awaits));
/// # Ok::<(), olbiothar::Refusal>(())
/// ```
#[derive(Clone, PartialEq, Eq)]
pub struct Station(raw::Station);

impl Station {
    /// A station that has not begun: each tick of it is refused with [`Refusal::NotBegun`].
    #[must_use]
    pub const fn not_begun() -> Station {
        Station(raw::Station::ZERO)
    }

    /// A station that begins as by [`begin`](Station::begin), by value.
    ///
    /// # Errors
    /// Those of [`begin`](Station::begin).
    pub fn begun(plan: &[u8], table: &[u8], modes: &Modes) -> Result<Station, Refusal> {
        let mut station = Station::not_begun();
        station.begin(plan, table, modes)?;
        Ok(station)
    }

    /// Begins, in place, with a plan, a table that passes, and a mode for each module of the plan. The next tick is time 0.
    /// What the station was before does not matter.
    ///
    /// # Errors
    /// What [`check`](crate::check) refuses, but for [`Refusal::TooFewRows`]; then [`Refusal::NotBegun`] at the lowest module
    /// that is given no mode of its own, or that the plan does not have and that is given one. The station is then as it was.
    pub fn begin(&mut self, plan: &[u8], table: &[u8], modes: &Modes) -> Result<(), Refusal> {
        let (modes, given) = split(modes);
        let starting = raw::Starting { modes, given };
        // SAFETY: each pointer leads to as many bytes as the number behind it says.
        let answer = unsafe {
            raw::olbiothar_begin(
                plan.as_ptr(),
                plan.len(),
                table.as_ptr(),
                table.len(),
                starting,
                &mut self.0,
            )
        };
        Refusal::of(answer).map(|_| ())
    }

    /// Plays one tick, a microsecond, with the results and the changes of mode that come at it, and gives the row that starts
    /// at it.
    ///
    /// # Errors
    /// [`Refusal::NotBegun`], [`Refusal::NotAwaited`], [`Refusal::ResultTooLarge`], [`Refusal::ResultOverdue`] and
    /// [`Refusal::ChangeNotAllowed`]. A refused tick changes nothing: it may be tried again with other results and changes.
    pub fn tick(&mut self, results: &Results, changes: &Modes) -> Result<Option<Row>, Refusal> {
        let (results, given) = split(results);
        let (modes, changed) = split(changes);
        let input = raw::Input { results, given, modes, changed };
        let tick = raw::olbiothar_tick(&mut self.0, input);
        Refusal::of(tick.answer)?;
        let raw::Row { kind, sender, deadline, start, stop } = tick.row;
        Ok(match kind {
            17 => Some(Row::Control { node: sender, start, stop }),
            18 => Some(Row::Data { task: sender, deadline, start, stop }),
            _ => None,
        })
    }

    /// What a node shows of a task after the last accepted tick; 0 where there is no such place.
    #[must_use]
    pub fn shown(&self, node: usize, task: usize) -> u64 {
        let node = self.0.nodes.get(node);
        node.and_then(|node| node.shown.get(task)).copied().unwrap_or(0)
    }

    /// The time of the tick to come; `None` where the station has not begun.
    #[must_use]
    pub fn time(&self) -> Option<TimeNow> {
        let raw::TimeNow { begun, clock, period } = raw::olbiothar_time(&self.0);
        (begun != 0).then_some(TimeNow { clock, period })
    }

    /// A module of the plan, as it stands before the tick to come; `None` where the station has not begun or has no such
    /// module.
    #[must_use]
    pub fn module(&self, module: usize) -> Option<ModuleNow> {
        let module = u8::try_from(module).ok()?;
        let raw::ModuleNow { there, node, mode, age } = raw::olbiothar_module(&self.0, module);
        (there != 0).then_some(ModuleNow { node, mode, age })
    }

    /// A task of the plan, as it stands before the tick to come; `None` where the station has not begun or has no such task.
    #[must_use]
    pub fn task(&self, task: usize) -> Option<TaskNow> {
        let task = u8::try_from(task).ok()?;
        let raw::TaskNow { there, home, awaits, left } = raw::olbiothar_task(&self.0, task);
        (there != 0).then_some(TaskNow { home, awaits: awaits != 0, left })
    }

    /// All modules of the plan, by number; none where the station has not begun.
    pub fn modules(&self) -> impl Iterator<Item = ModuleNow> {
        (0..MODULES).map_while(|module| self.module(module))
    }

    /// All tasks of the plan, by number; none where the station has not begun.
    pub fn tasks(&self) -> impl Iterator<Item = TaskNow> {
        (0..TASKS).map_while(|task| self.task(task))
    }
}

/// A station that has not begun.
impl Default for Station {
    fn default() -> Station {
        Station::not_begun()
    }
}

/// Where it stands, not the 27,016 bytes.
impl fmt::Debug for Station {
    fn fmt(&self, f: &mut fmt::Formatter<'_>) -> fmt::Result {
        /// A list without its names.
        struct Modules<'a>(&'a Station);
        impl fmt::Debug for Modules<'_> {
            fn fmt(&self, f: &mut fmt::Formatter<'_>) -> fmt::Result {
                f.debug_list().entries(self.0.modules()).finish()
            }
        }
        let mut said = f.debug_struct("Station");
        said.field("time", &self.time()).field("modules", &Modules(self)).finish_non_exhaustive()
    }
}

/// The values, and which of them are given.
fn split<T: Copy + Default, const PLACES: usize>(
    places: &[Option<T>; PLACES],
) -> ([T; PLACES], [u8; PLACES]) {
    (places.map(Option::unwrap_or_default), places.map(|place| u8::from(place.is_some())))
}
