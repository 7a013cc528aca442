//! The bindings as a program that can be compared with the Rust program of `tests`.

use olbiothar::{Edition, Frame, Refusal, Station};
use reference::program::{Now, Program, Ticked};
use reference::station::{Modes, ModuleNow, Results, TaskNow, TimeNow};
use reference::{FrameRow, Reason, Row, Sheet, TextRefusal};
use std::array::from_fn;
use std::collections::BTreeSet;

/// The bindings, and the numbers of what they refused.
#[derive(Debug, Default)]
pub struct Bindings {
    pub station: Station,
    pub refused: BTreeSet<u32>,
}

impl Bindings {
    fn said<T>(&mut self, answer: Result<T, Refusal>) -> Result<T, reference::Refusal> {
        answer.map_err(|refusal| {
            let (number, place) = (refusal.number(), refusal.place());
            assert_eq!(Refusal::from_number(number, place), Some(refusal));
            self.refused.insert(number);
            reference::Refusal { number, place: place as usize }
        })
    }
}

/// What is done with rows of this crate, done with those of the other.
fn with_rows<T>(rows: &mut [FrameRow], work: impl FnOnce(&mut [Frame]) -> T) -> T {
    let frame = |row: &FrameRow| {
        let FrameRow { task, release, deadline, start } = *row;
        Frame { task, release, deadline, start }
    };
    let mut frames: Vec<Frame> = rows.iter().map(frame).collect();
    let answer = work(&mut frames);
    for (row, &Frame { task, release, deadline, start }) in rows.iter_mut().zip(&frames) {
        *row = FrameRow { task, release, deadline, start };
    }
    answer
}

fn row(row: olbiothar::Row) -> Row {
    match row {
        olbiothar::Row::Control { node, start, stop } => Row::Control { node, start, stop },
        olbiothar::Row::Data { task, deadline, start, stop } => {
            Row::Data { task, deadline, start, stop }
        }
    }
}

impl Program for Bindings {
    fn make(
        &mut self,
        plan: &[u8],
        edition: u8,
        rows: &mut [FrameRow],
        buffer: &mut [u8],
    ) -> Result<usize, reference::Refusal> {
        let edition = Edition::from_number(edition).expect("only the library takes others");
        let made = with_rows(rows, |rows| olbiothar::make(plan, edition, rows, buffer));
        self.said(made)
    }

    fn check(
        &mut self,
        plan: &[u8],
        table: &[u8],
        rows: &mut [FrameRow],
    ) -> Result<(), reference::Refusal> {
        let checked = with_rows(rows, |rows| olbiothar::check(plan, table, rows));
        self.said(checked)
    }

    fn forget(&mut self) {
        self.station = Station::not_begun();
    }

    fn begin(
        &mut self,
        plan: &[u8],
        table: &[u8],
        modes: &Modes,
    ) -> Result<(), reference::Refusal> {
        let old = self.station.clone();
        let begun = self.station.begin(plan, table, modes);
        assert!(begun.is_ok() || self.station == old);
        self.said(begun)
    }

    fn tick(&mut self, results: &Results, modes: &Modes) -> Ticked {
        let ticked = self.station.tick(results, modes).map(|started| started.map(row));
        let shown = from_fn(|node| from_fn(|task| self.station.shown(node, task)));
        Ticked { answer: self.said(ticked), shown }
    }

    fn now(&mut self) -> Now {
        let (none, station) = (reference::Station::not_begun(), &self.station);
        let time = station.time().map_or(none.time(), |now| TimeNow {
            begun: true,
            clock: now.clock,
            period: now.period,
        });
        let modules = from_fn(|module| match station.module(module) {
            Some(now) => ModuleNow { there: true, node: now.node, mode: now.mode, age: now.age },
            None => none.module(0),
        });
        let tasks = from_fn(|task| match station.task(task) {
            Some(now) => {
                TaskNow { there: true, home: now.home, awaits: now.awaits, left: now.left }
            }
            None => none.task(0),
        });
        Now { time, modules, tasks }
    }

    fn sheet(&mut self, plan: &[u8], table: &[u8], text: &mut [u8]) -> Sheet {
        let olbiothar::Sheet { checked, length } = olbiothar::sheet(plan, table, text);
        Sheet { checked: self.said(checked), length }
    }

    fn sheet_table(&mut self, text: &[u8], table: &mut [u8]) -> Result<usize, reference::Refusal> {
        self.said(olbiothar::sheet_table(text, table))
    }

    fn plan_text(&mut self, plan: &[u8], text: &mut [u8]) -> Result<usize, reference::Refusal> {
        self.said(olbiothar::plan_text(plan, text))
    }

    fn text_plan(&mut self, text: &[u8], plan: &mut [u8]) -> Result<usize, TextRefusal> {
        olbiothar::text_plan(text, plan).map_err(|refusal| {
            let reason = match refusal {
                olbiothar::TextRefusal::Unreadable { reason, .. } => {
                    assert_eq!(olbiothar::Reason::from_number(reason.number()), Some(reason));
                    Reason::numbered(reason.number())
                }
                _ => None,
            };
            let said = self.said::<()>(Err(refusal.into()));
            TextRefusal { refusal: said.unwrap_err(), reason }
        })
    }
}
