//! What a station says of itself, held against what it does then.

use reference::generate::{History, PlayCase, Rng, play_case, seeds};
use reference::plan::{self, Plan};
use reference::station::{ModuleNow, TaskNow, TimeNow};
use reference::{MOST_MODULES, MOST_TASKS, Refusal, Station};

const NO_RESULTS: [Option<u64>; MOST_TASKS] = [None; MOST_TASKS];
const NO_CHANGES: [Option<u8>; MOST_MODULES] = [None; MOST_MODULES];

#[test]
fn a_station_not_begun() {
    let station = Station::not_begun();
    assert_eq!(station.time(), TimeNow::default());
    assert!((0..=255).all(|module| station.module(module) == ModuleNow::default()));
    assert!((0..=255).all(|task| station.task(task) == TaskNow::default()));
}

/// The number that a tick of a copy is refused with, if only this result is given.
fn refused(station: &Station, task: usize, result: Option<u64>) -> Option<Refusal> {
    let mut results = NO_RESULTS;
    results[task] = result;
    station.clone().tick(&results, &NO_CHANGES).err()
}

/// A result that is awaited is not refused with 41; one that has no tick left is overdue without it.
fn tasks_do_as_they_say(station: &Station, plan: &Plan) {
    let mut overdue = None;
    for task in 0..MOST_TASKS {
        let now = station.task(task as u8);
        assert_eq!(now.there, task < plan.tasks.len());
        assert_eq!(now.home, plan.tasks.get(task).map_or(0, |task| task.module));
        let not_awaited = Refusal { number: 41, place: task };
        assert_eq!(now.awaits, refused(station, task, Some(0)) != Some(not_awaited));
        assert!(now.awaits || now.left == 0);
        if now.awaits && now.left == 0 {
            overdue = overdue.or(Some(Refusal { number: 43, place: task }));
        }
    }
    assert_eq!(refused(station, 0, None), overdue);
}

/// A mode may change when its age is a multiple of its switch period.
fn modules_do_as_they_say(station: &Station, plan: &Plan) {
    for place in 0..MOST_MODULES {
        let now = station.module(place as u8);
        let Some(module) = plan.modules.get(place) else {
            assert_eq!(now, ModuleNow::default());
            continue;
        };
        let mode = plan.modes[usize::from(now.mode)];
        assert_eq!((now.there, now.node, mode.module), (true, module.node, place as u8));
        assert!(now.age <= mode.period);
        let mut changes = NO_CHANGES;
        changes[place] = Some(now.mode);
        let refused = station.clone().tick(&NO_RESULTS, &changes).err();
        let overdue = refused.is_some_and(|refusal| refusal.number == 43);
        let may_change = now.age.is_multiple_of(mode.switch_period);
        assert!(overdue || refused.is_none() == may_change, "{now:?} {refused:?}");
    }
}

/// Ages and the clock count the accepted ticks, a task's ticks run out one by one.
fn a_tick_later(before: &Station, after: &Station, accepted: bool) {
    let (then, now) = (before.time(), after.time());
    let clock = if accepted { then.clock % then.period + 1 } else { then.clock };
    assert_eq!(now, TimeNow { clock, ..then });
    for task in 0..MOST_TASKS as u8 {
        let (then, now) = (before.task(task), after.task(task));
        let same_run = then.left > 0 && after.module(now.home).age != 1;
        if accepted && then.awaits && now.awaits && same_run {
            assert_eq!(now.left + 1, then.left);
        }
    }
}

#[test]
fn stations_seeded() {
    let mut asked = 0;
    for (edition, seed) in seeds(300) {
        let rng = &mut Rng::new(seed);
        let PlayCase { plan, table, modes } = play_case(rng, edition);
        let Ok(mut station) = Station::begin(&plan, &table, modes) else { continue };
        let plan = plan::read(&plan).expect("a station has begun with it");
        assert_eq!(station.time().clock, 0);
        assert!((0..16).all(|module| station.module(module).age == 0));
        let fault_in = rng.pick(&[Some(20), None]);
        let mut history = History::new(rng, &plan, &modes, fault_in);
        for _ in 0..rng.below(200) {
            tasks_do_as_they_say(&station, &plan);
            modules_do_as_they_say(&station, &plan);
            let before = station.clone();
            let (tick, _) = history.next_tick();
            let accepted = station.tick(&tick.results, &tick.modes).is_ok();
            a_tick_later(&before, &station, accepted);
            asked += 1;
        }
    }
    assert!(asked > 10_000, "{asked}");
}
