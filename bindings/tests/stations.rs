//! A station: begun in place, ticked, and asked where it stands.

mod program;

use olbiothar::{
    Edition, FRAMES, Frame, LONGEST_TABLE, MODULES, Modes, Refusal, Row, Station, TASKS, TimeNow,
    make,
};
use program::Bindings;
use reference::generate::{History, PlayCase, Rng, Tick, play_case, seeds};
use reference::plan;
use reference::program::{Program, Reference};

const PLAN: &[u8] = include_bytes!("../../docs/examples/job-a.plan");
const NOTHING: [Option<u64>; TASKS] = [None; TASKS];
const NO_CHANGE: Modes = [None; MODULES];

fn table() -> Vec<u8> {
    let mut table = vec![0; LONGEST_TABLE];
    let length = make(PLAN, Edition::Basic, &mut [Frame::default(); FRAMES], &mut table).unwrap();
    table.truncate(length);
    table
}

fn modes(first: u8, second: u8) -> Modes {
    let mut modes = NO_CHANGE;
    (modes[0], modes[1]) = (Some(first), Some(second));
    modes
}

fn job_a() -> Station {
    Station::begun(PLAN, &table(), &modes(0, 2)).unwrap()
}

#[test]
fn a_station_that_has_not_begun() {
    static NOT_BEGUN: Station = Station::not_begun();
    let mut station = Station::default();
    assert_eq!(station.tick(&NOTHING, &NO_CHANGE), Err(Refusal::NotBegun { module: 0 }));
    assert_eq!(station, NOT_BEGUN);
    assert_eq!(station.time(), None);
    assert_eq!((station.modules().count(), station.tasks().count()), (0, 0));
    assert_eq!(station.shown(0, 0), 0);
    assert_eq!(format!("{station:?}"), "Station { time: None, modules: [], .. }");
}

#[test]
fn begins_in_place_also_where_another_stood() {
    let mut station = job_a();
    let begun = station.clone();
    station.tick(&NOTHING, &NO_CHANGE).unwrap();
    assert_ne!(station, begun);
    station.begin(PLAN, &table(), &modes(0, 2)).unwrap();
    assert_eq!(station, begun);
    let said = "Station { time: Some(TimeNow { clock: 0, period: 60000 }), modules: [ModuleNow { node: 0, mode: 0, age: 0 }, \
                ModuleNow { node: 1, mode: 2, age: 0 }], .. }";
    assert_eq!(format!("{station:?}"), said);
}

#[test]
fn a_refused_beginning_leaves_the_station() {
    let mut station = job_a();
    let old = station.clone();
    let no_plan = station.begin(&[], &table(), &modes(0, 2));
    assert_eq!(no_plan, Err(Refusal::BadRecords { offset: 0 }));
    let no_table = station.begin(PLAN, &[], &modes(0, 2));
    assert_eq!(no_table, Err(Refusal::BadTableRecords { offset: 0 }));
    let others_mode = station.begin(PLAN, &table(), &modes(0, 1));
    assert_eq!(others_mode, Err(Refusal::NotBegun { module: 1 }));
    assert_eq!(station, old);
    assert_eq!(Station::begun(PLAN, &table(), &NO_CHANGE), Err(Refusal::NotBegun { module: 0 }));
}

#[test]
fn a_refused_tick_leaves_the_station() {
    let mut station = job_a();
    let old = station.clone();
    let mut results = NOTHING;
    results[0] = Some(1);
    assert_eq!(station.tick(&results, &NO_CHANGE), Err(Refusal::NotAwaited { task: 0 }));
    assert_eq!(station.tick(&NOTHING, &modes(2, 2)), Err(Refusal::ChangeNotAllowed { module: 0 }));
    assert_eq!(station, old);
    let row = Row::Control { node: 0, start: 0, stop: 72 };
    assert_eq!(station.tick(&NOTHING, &modes(1, 2)), Ok(Some(row)));
    assert_eq!(station.module(0).map(|now| (now.mode, now.age)), Some((1, 1)));
    assert_eq!(station.time(), Some(TimeNow { clock: 1, period: 60_000 }));
}

/// At each tick of more than a run, and in both of its cases: what `awaits` and `left` say is what the next tick does.
#[test]
fn a_result_is_taken_where_it_is_awaited_and_must_come_where_nothing_is_left() {
    let mut station = job_a();
    let mut late = 0;
    for _ in 0..31_100 {
        let mut results = NOTHING;
        for (task, now) in station.tasks().enumerate() {
            let mut given = NOTHING;
            given[task] = Some(1);
            let others = station.tasks().any(|now| now.awaits && now.left == 0);
            let tried = station.clone().tick(&given, &NO_CHANGE);
            assert_eq!(tried == Err(Refusal::NotAwaited { task: task as u64 }), !now.awaits);
            assert!(others || tried.is_ok() == now.awaits);
            if now.awaits && now.left == 0 {
                results[task] = Some(1);
            }
        }
        let must = results.iter().position(Option::is_some).map(|task| task as u64);
        let without = station.clone().tick(&NOTHING, &NO_CHANGE);
        assert_eq!(without.err(), must.map(|task| Refusal::ResultOverdue { task }));
        late += usize::from(must.is_some());
        station.tick(&results, &NO_CHANGE).unwrap();
    }
    assert_eq!(late, 2);
}

#[test]
fn what_is_not_there() {
    let station = job_a();
    assert_eq!((station.modules().count(), station.tasks().count()), (2, 2));
    for nowhere in [2, TASKS, 255, 256, usize::MAX] {
        assert_eq!((station.module(nowhere), station.task(nowhere)), (None, None));
    }
    assert_eq!((station.shown(8, 0), station.shown(0, TASKS)), (0, 0));
}

/// Seeded histories, with faults in them, in both programs.
#[test]
fn answers_as_the_rust_program_at_every_tick() {
    for (edition, seed) in seeds(50) {
        let rng = &mut Rng::new(seed);
        let PlayCase { plan, table, modes, .. } = play_case(rng, edition);
        let (mut proved, mut rust) = (Bindings::default(), Reference::default());
        let begun = proved.begin(&plan, &table, &modes);
        assert_eq!(begun, rust.begin(&plan, &table, &modes), "seed {seed}");
        assert_eq!(proved.now(), rust.now(), "seed {seed}");
        if begun.is_err() {
            continue;
        }
        let read = plan::read(&plan).expect("a station has begun with it");
        let mut history = History::new(rng, &read, &modes, Some(50));
        for _ in 0..300 {
            let Tick { results, modes } = history.next_tick().0;
            assert_eq!(proved.tick(&results, &modes), rust.tick(&results, &modes), "seed {seed}");
            assert_eq!(proved.now(), rust.now(), "seed {seed}");
        }
    }
}
