//! The functions and structs of `include/olbiothar.h`, which says what each does.

mod layout;

use crate::{FRAMES, Frame, MODES, MODULES, NODES, TASKS};

#[repr(C)]
#[derive(Clone, Copy, Debug, PartialEq, Eq)]
pub struct Answer {
    pub number: u32,
    pub place: u64,
}

#[repr(C)]
#[derive(Clone, Copy, Debug, PartialEq, Eq)]
pub struct Modules {
    pub count: u8,
    pub sites: [u8; MODULES],
    pub sending: [u8; MODULES],
}

#[repr(C)]
#[derive(Clone, Copy, Debug, PartialEq, Eq)]
pub struct Modes {
    pub count: u8,
    pub homes: [u8; MODES],
    pub periods: [u32; MODES],
    pub switches: [u32; MODES],
}

#[repr(C)]
#[derive(Clone, Copy, Debug, PartialEq, Eq)]
pub struct Tasks {
    pub count: u8,
    pub homes: [u8; TASKS],
    pub sizes: [u8; TASKS],
    pub worsts: [u32; TASKS],
}

#[repr(C)]
#[derive(Clone, Copy, Debug, PartialEq, Eq)]
pub struct Controls {
    pub count: u8,
    pub nodes: [u8; NODES],
    pub starts: [u32; NODES],
    pub stops: [u32; NODES],
}

#[repr(C)]
#[derive(Clone, Copy, Debug, PartialEq, Eq)]
pub struct Play {
    pub clock: u32,
    pub running: [u8; MODULES],
    pub ages: [u32; MODULES],
    pub bytes: [u8; MODULES],
    pub givens: [u8; TASKS],
    pub out: [u64; TASKS],
    pub held: [u8; NODES * MODULES],
    pub full: [u8; TASKS],
    pub loads: [u64; TASKS],
}

#[repr(C)]
#[derive(Clone, Copy, Debug, PartialEq, Eq)]
pub struct Node {
    pub landed: [u64; TASKS],
    pub shown: [u64; TASKS],
}

#[repr(C)]
#[derive(Clone, Copy, Debug, PartialEq, Eq)]
pub struct Fixed {
    pub modules: Modules,
    pub modes: Modes,
    pub tasks: Tasks,
    pub controls: Controls,
    pub period: u32,
    pub pairs: u16,
}

#[repr(C)]
#[derive(Clone, Copy, Debug, PartialEq, Eq)]
pub struct Station {
    pub fixed: Fixed,
    pub runs: [u32; MODES * TASKS],
    pub pair_tasks: [u8; FRAMES],
    pub pair_deadlines: [u32; FRAMES],
    pub pair_starts: [u32; FRAMES],
    pub pair_stops: [u32; FRAMES],
    pub pair_modes: [u32; FRAMES],
    pub play: Play,
    pub nodes: [Node; NODES],
}

impl Station {
    // SAFETY: every field is a number or a row of numbers, and may be zero.
    pub const ZERO: Station = unsafe { core::mem::zeroed() };
}

#[repr(C)]
#[derive(Clone, Copy, Debug, PartialEq, Eq)]
pub struct TimeNow {
    pub begun: u8,
    pub clock: u32,
    pub period: u32,
}

#[repr(C)]
#[derive(Clone, Copy, Debug, PartialEq, Eq)]
pub struct ModuleNow {
    pub there: u8,
    pub node: u8,
    pub mode: u8,
    pub age: u32,
}

#[repr(C)]
#[derive(Clone, Copy, Debug, PartialEq, Eq)]
pub struct TaskNow {
    pub there: u8,
    pub home: u8,
    pub awaits: u8,
    pub left: u32,
}

#[repr(C)]
#[derive(Clone, Copy, Debug, PartialEq, Eq)]
pub struct Starting {
    pub modes: [u8; MODULES],
    pub given: [u8; MODULES],
}

#[repr(C)]
#[derive(Clone, Copy, Debug, PartialEq, Eq)]
pub struct Input {
    pub results: [u64; TASKS],
    pub given: [u8; TASKS],
    pub modes: [u8; MODULES],
    pub changed: [u8; MODULES],
}

#[repr(C)]
#[derive(Clone, Copy, Debug, PartialEq, Eq)]
pub struct Row {
    pub kind: u8,
    pub sender: u8,
    pub deadline: u32,
    pub start: u32,
    pub stop: u32,
}

#[repr(C)]
#[derive(Clone, Copy, Debug, PartialEq, Eq)]
pub struct TickAnswer {
    pub answer: Answer,
    pub row: Row,
}

#[repr(C)]
#[derive(Clone, Copy, Debug, PartialEq, Eq)]
pub struct SheetAnswer {
    pub checked: Answer,
    pub length: u64,
}

#[repr(C)]
#[derive(Clone, Copy, Debug, PartialEq, Eq)]
pub struct PlanAnswer {
    pub answer: Answer,
    pub reason: u32,
}

// SAFETY: these are the functions of the header, which the library exports as C functions; the structs above lie as it has them. Those
// that are lent memory by pointer and length have callers that answer for both. The others are lent a reference to a station, and are
// proved to end and to stay within it whatever it holds, so that anyone may call them.
unsafe extern "C" {
    pub fn olbiothar_make(
        plan: *const u8,
        plan_length: usize,
        edition: u8,
        rows: *mut Frame,
        row_count: usize,
        table: *mut u8,
        table_length: usize,
    ) -> Answer;

    pub fn olbiothar_check(
        plan: *const u8,
        plan_length: usize,
        table: *const u8,
        table_length: usize,
        rows: *mut Frame,
        row_count: usize,
    ) -> Answer;

    pub fn olbiothar_begin(
        plan: *const u8,
        plan_length: usize,
        table: *const u8,
        table_length: usize,
        starting: Starting,
        station: &mut Station,
    ) -> Answer;

    pub safe fn olbiothar_tick(station: &mut Station, input: Input) -> TickAnswer;

    pub safe fn olbiothar_time(station: &Station) -> TimeNow;

    pub safe fn olbiothar_module(station: &Station, module: u8) -> ModuleNow;

    pub safe fn olbiothar_task(station: &Station, task: u8) -> TaskNow;

    pub fn olbiothar_sheet(
        plan: *const u8,
        plan_length: usize,
        table: *const u8,
        table_length: usize,
        text: *mut u8,
        text_length: usize,
    ) -> SheetAnswer;

    pub fn olbiothar_sheet_table(
        text: *const u8,
        text_length: usize,
        table: *mut u8,
        table_length: usize,
    ) -> Answer;

    pub fn olbiothar_plan_text(
        plan: *const u8,
        plan_length: usize,
        text: *mut u8,
        text_length: usize,
    ) -> Answer;

    pub fn olbiothar_text_plan(
        text: *const u8,
        text_length: usize,
        plan: *mut u8,
        plan_length: usize,
    ) -> PlanAnswer;

    pub fn olbiothar_words(number: u32, text: *mut u8, text_length: usize) -> u64;

    pub fn olbiothar_reason_words(reason: u32, text: *mut u8, text_length: usize) -> u64;
}
