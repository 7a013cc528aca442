//! The edition for consumers: the examples that show it, printed as they are checked (`--nocapture`), and how the two
//! editions stand to each other.

use reference::bus::derive;
use reference::generate::{
    self, Draft, PLENTY, Rng, Size, TableDraft, job_a, job_a_read_twice, plan_with_rates,
    playable_plan, read_often, valid_plan,
};
use reference::plan::{self, Bits, Connection, Invocation, Mode, Module, Plan, Task};
use reference::vectors::bytes;
use reference::{Edition, FrameRow, MOST_FRAMES, Refusal, Station, check, make};
use std::collections::{BTreeMap, BTreeSet};

type Rows = Vec<FrameRow>;

fn made(edition: Edition, plan: &Draft) -> Result<(Vec<u8>, Rows), Refusal> {
    let (mut rows, mut table) = (vec![FrameRow::default(); MOST_FRAMES], vec![0; PLENTY]);
    let length = make(&plan.bytes(), edition, &mut rows, &mut table)?;
    table.truncate(length);
    rows.retain(|row| row.deadline > 0);
    Ok((table, rows))
}

fn made_for_consumers(plan: &Draft) -> Result<(Vec<u8>, Rows), Refusal> {
    made(Edition::Consumers, plan)
}

fn is_made(edition: Edition, plan: &Draft) -> Result<(), Refusal> {
    made(edition, plan).map(|_| ())
}

fn checked(plan: &Draft, table: &[u8]) -> Result<(), Refusal> {
    check(&plan.bytes(), table, &mut [FrameRow::default(); MOST_FRAMES])
}

fn refused<T>(number: u32, place: usize) -> Result<T, Refusal> {
    Err(Refusal { number, place })
}

/// Task, release, deadline and start of each frame, with the table; printed, for whoever wants to see them.
fn figures(name: &str, plan: &Draft) -> (Vec<[u32; 4]>, Vec<u8>) {
    let (table, rows) = made_for_consumers(plan).unwrap();
    println!("{name}");
    for FrameRow { task, release, deadline, start } in &rows {
        println!("  task {task}: window {release} to {deadline}, start {start}");
    }
    println!("  table {}", table.iter().map(|byte| format!("{byte:02x}")).collect::<String>());
    assert_eq!(checked(plan, &table), Ok(()));
    let row = |row: &FrameRow| [row.task, row.release, row.deadline, row.start];
    (rows.iter().map(row).collect(), table)
}

const FIGURE_5: [&[u8]; 6] = [
    &[0x14, 0x60, 0xea, 0, 0, 1, 3, 0],
    &[0x11, 0, 0, 0, 0, 0, 0x48, 0, 0, 0],
    &[0x12, 0, 0x20, 0x4e, 0, 0, 0xc0, 0x4d, 0, 0, 0x20, 0x4e, 0, 0],
    &[0x12, 0, 0x30, 0x75, 0, 0, 0xd0, 0x74, 0, 0, 0x30, 0x75, 0, 0],
    &[0x12, 0, 0x60, 0xea, 0, 0, 0xf6, 0xe9, 0, 0, 0x56, 0xea, 0, 0],
    &[0],
];

#[test]
fn figure_5() {
    let plan = job_a_read_twice();
    let (rows, table) = figures("figure 5", &plan);
    assert_eq!(
        rows,
        [[0, 1_000, 20_000, 19_904], [0, 1_000, 30_000, 29_904], [0, 41_000, 60_000, 59_894]]
    );
    assert_eq!((table.len(), &table), (61, &FIGURE_5.concat()));
    let mut basic = table;
    basic[0] = 16;
    assert_eq!(checked(&plan, &basic), refused(21, 0));
    assert_eq!(figures("job A", &job_a()).0, [[0, 41_000, 60_000, 59_894]]);
}

fn modes<const COUNT: usize>(given: [u8; COUNT]) -> [Option<u8>; 16] {
    std::array::from_fn(|module| given.get(module).copied())
}

/// Gives each task its results at the instants beside them, and what nodes 0 and 1 show of task 0 after the last tick.
fn play(station: &mut Station, from: u32, to: u32, given: &[(u32, usize, u64)]) -> [u64; 2] {
    for time in from..to {
        let mut results = [None; 32];
        given.iter().filter(|of| of.0 == time).for_each(|of| results[of.1] = Some(of.2));
        station.tick(&results, &[None; 16]).unwrap();
    }
    [0, 1].map(|node| station.shown(node, 0))
}

/// In mode b the message at 40,000 is dropped: the consumer's node shows the old value until 60,000.
#[test]
fn figure_5_played() {
    let plan = job_a_read_twice();
    let mut station = Station::begin(&plan.bytes(), &FIGURE_5.concat(), modes([1, 2])).unwrap();
    let given = [(1_000, 0, 5), (1_000, 1, 1), (21_000, 0, 6), (31_000, 1, 1), (41_000, 0, 7)];
    assert_eq!(play(&mut station, 0, 20_000, &given), [0, 0]);
    assert_eq!(play(&mut station, 20_000, 20_001, &given), [5, 5]);
    assert_eq!(play(&mut station, 20_001, 30_001, &given), [5, 5]);
    assert_eq!(play(&mut station, 30_001, 40_000, &given), [5, 5]);
    assert_eq!(play(&mut station, 40_000, 40_001, &given), [6, 5]);
    assert_eq!(play(&mut station, 40_001, 60_000, &given), [6, 5]);
    assert_eq!(play(&mut station, 60_000, 60_001, &given), [7, 7]);
}

/// A bus on which a byte takes a tick; modes of modules with their periods, each its own switch period; tasks of
/// modules with their sizes; runs of modes and tasks with their rates; module m stands on node m.
fn quick(
    modes: &[(u8, u32)],
    tasks: &[(u8, u8)],
    runs: &[(u8, u8, u16)],
    pairs: &[(u8, u8)],
) -> Draft {
    let modules = tasks.iter().map(|&(module, _)| module).max().unwrap_or(0) + 1;
    Draft {
        bits: Bits {
            kbits: 8_000,
            overhead: 0,
            least_payload: 0,
            largest_payload: 254,
            gap_bits: 0,
            resolution: 1,
            byte_bits: None,
        },
        nodes: modules,
        modules: (0..modules).map(|node| Module { node }).collect(),
        modes: modes
            .iter()
            .map(|&(module, period)| Mode { module, period, switch_period: period })
            .collect(),
        tasks: tasks.iter().map(|&(module, size)| Task { module, size, worst_time: 1 }).collect(),
        invocations: runs
            .iter()
            .map(|&(mode, task, rate)| Invocation { mode, task, rate })
            .collect(),
        connections: pairs
            .iter()
            .map(|&(producer, consumer)| Connection { producer, consumer })
            .collect(),
    }
}

fn dropped_in_one_mode() -> Draft {
    quick(
        &[(0, 120), (0, 120), (1, 120)],
        &[(0, 2), (1, 1)],
        &[(0, 0, 2), (1, 0, 6), (2, 1, 3)],
        &[(0, 1)],
    )
}

const DROPPED_IN_ONE_MODE: [&str; 3] = [
    "01401f000000000000fe000000010000000202030003010400780000007800000004007800000078000000",
    "0401780000007800000005000201000000050101010000000600000200060100060006020103000700",
    "0100",
];

#[test]
fn dropped_in_one_mode_only() {
    let plan = dropped_in_one_mode();
    assert_eq!(plan.bytes(), bytes(&DROPPED_IN_ONE_MODE.concat()));
    let (rows, table) = figures("dropped in one mode only", &plan);
    assert_eq!(rows, [[0, 21, 40, 38], [0, 1, 60, 58], [0, 61, 80, 78], [0, 101, 120, 118]]);
    let mut station = Station::begin(&plan.bytes(), &table, modes([1, 2])).unwrap();
    let results: Vec<(u32, usize, u64)> =
        (0..6).map(|run| (20 * run + 1, 0, 10 + u64::from(run))).collect();
    let others = (0..3).map(|run| (40 * run + 1, 1, 1));
    let given: Vec<(u32, usize, u64)> = results.into_iter().chain(others).collect();
    assert_eq!(play(&mut station, 0, 41, &given), [11, 11]);
    assert_eq!(play(&mut station, 41, 60, &given), [11, 11]);
    assert_eq!(play(&mut station, 60, 61, &given), [12, 11]);
    assert_eq!(play(&mut station, 61, 80, &given), [12, 11]);
    assert_eq!(play(&mut station, 80, 81, &given), [13, 13]);
}

/// The receiver could start its second mode where the bus is in the middle of a cycle.
#[test]
fn two_receivers() {
    let plan = quick(
        &[(0, 120), (1, 40), (1, 60)],
        &[(0, 1), (1, 1)],
        &[(0, 0, 6), (1, 1, 1), (2, 1, 1)],
        &[(0, 1)],
    );
    println!("two receivers: {:?}, {:?}", made(Edition::Basic, &plan), made_for_consumers(&plan));
    assert_eq!(is_made(Edition::Basic, &plan), Ok(()));
    assert_eq!(is_made(Edition::Consumers, &plan), refused(7, 0));
}

#[test]
fn equal_least() {
    let plan = quick(
        &[(0, 12), (1, 12), (1, 12)],
        &[(0, 1), (1, 1)],
        &[(0, 0, 3), (1, 1, 3), (2, 1, 2)],
        &[(0, 1)],
    );
    let (rows, table) = figures("equal least", &plan);
    assert_eq!(rows, [[0, 1, 4, 3]]);
    assert_eq!(TableDraft::read(&table).unwrap().period, 4);
}

/// What each of these would give without a read at 0, or with the consumer's least period alone.
#[test]
fn reads_of_all_modes() {
    let plan = quick(
        &[(0, 24), (1, 24), (1, 24)],
        &[(0, 1), (1, 1)],
        &[(0, 0, 6), (1, 1, 3), (2, 1, 2)],
        &[(0, 1)],
    );
    let deadlines: Vec<u32> = figures("U = 8 and 12", &plan).0.iter().map(|row| row[2]).collect();
    assert_eq!(deadlines, [8, 12, 16, 24]);
}

#[test]
fn a_receiver_with_another_period() {
    let mut plan = job_a();
    plan.modes[2] = Mode { module: 1, period: 40_000, switch_period: 40_000 };
    assert_eq!(is_made(Edition::Basic, &plan), Ok(()));
    assert_eq!(is_made(Edition::Consumers, &plan), refused(7, 0));
}

#[test]
fn a_consumer_never_invoked() {
    let mut plan = job_a();
    plan.invocations.truncate(2);
    assert_eq!(is_made(Edition::Basic, &plan), Ok(()));
    assert_eq!(is_made(Edition::Consumers, &plan), refused(6, 0));
}

/// A module that neither sends nor receives across nodes has no say, nor has a connection within a node.
#[test]
fn connections_within_a_node() {
    let mut plan = job_a_read_twice();
    let (table, _) = made_for_consumers(&plan).unwrap();
    plan.modules.push(Module { node: 0 });
    plan.modes.push(Mode { module: 2, period: 7, switch_period: 7 });
    plan.tasks.push(Task { module: 2, size: 8, worst_time: 1 });
    plan.invocations.push(Invocation { mode: 3, task: 2, rate: 7 });
    plan.connections.push(Connection { producer: 0, consumer: 2 });
    plan.connections.push(Connection { producer: 2, consumer: 0 });
    assert_eq!(made_for_consumers(&plan).unwrap().0, table);
}

/// What can't be thinned needs all, whatever other connections of its producer need; those that can be thinned count for P
/// beside it.
#[test]
fn one_that_needs_all() {
    let plan = quick(
        &[(0, 24), (1, 24), (2, 24)],
        &[(0, 1), (1, 1), (2, 1)],
        &[(0, 0, 6), (1, 1, 2), (2, 2, 6)],
        &[(0, 1), (0, 2)],
    );
    let (table, rows) = made_for_consumers(&plan).unwrap();
    assert_eq!(TableDraft::read(&table).unwrap().period, 12);
    assert_eq!(rows.iter().map(|row| row.deadline).collect::<Vec<_>>(), [4, 8, 12]);
}

/// Which edition a table is in says its first byte, before a plan is looked at.
#[test]
fn the_edition_comes_first() {
    let mut never_read = job_a();
    never_read.invocations.truncate(2);
    for (table, number) in [(&[][..], 20), (&[16], 20), (&[19], 20), (&[0], 20), (&[20], 6)] {
        let refusal = checked(&never_read, table).unwrap_err();
        assert_eq!(refusal.number, number, "{table:?}");
        let begun = Station::begin(&never_read.bytes(), table, modes([0, 2]));
        assert_eq!(begun.err(), Some(refusal), "{table:?}");
    }
    assert_eq!(checked(&job_a(), &[20]), refused(20, 1));
    assert_eq!(checked(&job_a(), &[21]), refused(20, 0));
    let mut broken = never_read.bytes();
    broken.pop();
    assert_eq!(
        check(&broken, &[20], &mut [FrameRow::default(); MOST_FRAMES]),
        refused(1, broken.len())
    );
}

/// 9 counts what is kept; and in a longer cycle others have more frames.
#[test]
fn frames_kept() {
    let read = |rates: &[u16], rate: u16| read_often(plan_with_rates(720_720, rates), rate);
    let frames = |plan: &Draft| made_for_consumers(plan).map(|(_, rows)| rows.len());
    let often = read(&[1_680, 1_008, 1], 504);
    assert_eq!(frames(&often), Ok(1_009));
    assert_eq!(is_made(Edition::Basic, &often), refused(9, 0));
    let thrice = |more: &[u16]| read(&[&[1_680, 1_008, 1_001], more].concat(), 336);
    assert_eq!(frames(&thrice(&[14, 2])), Ok(1_024));
    assert_eq!(frames(&thrice(&[14, 3])), refused(9, 0));
    let seldom = quick(
        &[(0, 700_700), (1, 700_700), (2, 700_700)],
        &[(0, 1), (1, 1), (0, 1), (2, 1)],
        &[(0, 0, 1_078), (1, 1, 1), (0, 2, 1_078), (2, 3, 1_078)],
        &[(0, 1), (2, 3)],
    );
    assert_eq!(made(Edition::Basic, &seldom).map(|(_, rows)| rows.len()), Ok(2));
    assert_eq!(frames(&seldom), refused(9, 0));
}

fn needs_all(plan: &Plan) -> bool {
    let runs = |task: u8| plan.invocations.iter().filter(move |run| run.task == task);
    let least = |task: u8| runs(task).map(|run| plan.period_of(run)).min();
    plan.connections.iter().all(|of| {
        plan.node_of_task(of.producer) == plan.node_of_task(of.consumer)
            || least(of.producer).is_none()
            || least(of.consumer).is_some() && least(of.consumer) <= least(of.producer)
    })
}

/// Where no connection can be thinned and every consumer runs, the tables differ in their first byte. Else each frame
/// kept is one of the basic ones where the cycle is as long, released no later; where the tasks are the same the cycle
/// is as long, or so many times; and each bus task has a frame at its end.
#[test]
fn beside_the_basic_edition() {
    let (mut same, mut fewer, mut earlier, mut longer) = (0, 0, 0, 0);
    for seed in 0..20_000 {
        let rng = &mut Rng::new(seed);
        let size = Size::any(rng);
        let mut draft = valid_plan(rng, Edition::Consumers, &size);
        if rng.one_in(4) {
            read_at_least_as_often(&mut draft);
        }
        let read = plan::read(&draft.bytes()).unwrap();
        let mut rows = [[FrameRow::default(); MOST_FRAMES]; 2];
        let derived =
            Edition::ALL.map(|edition| derive(&read, edition, &mut rows[edition as usize]));
        let [Ok(basic), Ok(kept)] = derived else { continue };
        let [basic_frames, frames] = [&rows[0][..basic.frames], &rows[1][..kept.frames]];
        let at_end = frames.iter().filter(|frame| frame.deadline == kept.period).count();
        assert_eq!(at_end, kept.tasks.count_ones() as usize, "seed {seed}");
        if needs_all(&read) {
            assert_eq!((basic_frames, basic.period), (frames, kept.period), "seed {seed}");
            let tables = Edition::ALL.map(|edition| made(edition, &draft).map(|(table, _)| table));
            let [basic, kept] = tables.map(|table| table.map(|table| table[1..].to_vec()));
            assert_eq!(basic, kept, "seed {seed}");
            same += 1;
        } else if basic.period == kept.period {
            for frame in frames {
                let twin = |of: &&FrameRow| (of.task, of.deadline) == (frame.task, frame.deadline);
                let release = basic_frames.iter().find(twin).map(|of| of.release).unwrap();
                assert!(frame.release <= release, "seed {seed}");
                earlier += usize::from(frame.release < release);
            }
            fewer += usize::from(frames.len() < basic_frames.len());
        } else if basic.tasks == kept.tasks {
            assert!(kept.period.is_multiple_of(basic.period), "seed {seed}");
            longer += 1;
        }
    }
    println!("same {same}, fewer {fewer}, earlier {earlier}, longer {longer}");
    assert!([same, fewer, earlier, longer].iter().all(|&plans| plans > 100));
}

/// Every task runs in each mode as often as the quickest does.
fn read_at_least_as_often(draft: &mut Draft) {
    let period = |run: &Invocation| draft.modes[usize::from(run.mode)].period / u32::from(run.rate);
    let Some(least) = draft.invocations.iter().map(period).min() else { return };
    let whole = draft.modes.iter().all(|mode| {
        mode.switch_period.is_multiple_of(least) && mode.period / least <= u32::from(u16::MAX)
    });
    if whole {
        for run in &mut draft.invocations {
            run.rate = (draft.modes[usize::from(run.mode)].period / least) as u16;
        }
        draft.tasks.iter_mut().for_each(|task| task.worst_time = task.worst_time.min(least));
    }
}

/// A table of one edition is one of the other only where both give it.
#[test]
fn headers_exchanged() {
    let mut passed = [0; 2];
    for (edition, seed) in generate::seeds(5_000) {
        let rng = &mut Rng::new(seed);
        let size = Size::any(rng);
        let draft = valid_plan(rng, Edition::Consumers, &size);
        let Ok((mut table, rows)) = made(edition, &draft) else { continue };
        let other = if edition == Edition::Basic { Edition::Consumers } else { Edition::Basic };
        table[0] = other.kind();
        let given = plan::read(&draft.bytes()).and_then(|plan| {
            let mut rows = [FrameRow::default(); MOST_FRAMES];
            let bus = derive(&plan, other, &mut rows)?;
            Ok((bus.period, rows[..bus.frames].to_vec()))
        });
        let names =
            |rows: &[FrameRow]| rows.iter().map(|row| (row.task, row.deadline)).collect::<Vec<_>>();
        let period = TableDraft::read(&table).unwrap().period;
        match (checked(&draft, &table), given) {
            (Ok(()), Ok((given_period, given))) => {
                assert_eq!((given_period, names(&given)), (period, names(&rows)), "seed {seed}");
                passed[edition as usize] += 1;
            }
            (Err(refusal), Err(given)) => assert_eq!(refusal, given, "seed {seed}"),
            (Err(Refusal { number: 21..=25, .. }), Ok((given_period, given))) => {
                assert!(given_period != period || given != rows, "seed {seed}");
            }
            (checked, given) => panic!("seed {seed}: {checked:?} {given:?}"),
        }
    }
    println!("passed in both editions: {passed:?}");
    assert!(passed.iter().all(|&tables| tables > 100));
}

/// What plans there are among those that are played: each sort of reading that can go wrong.
#[test]
fn sorts_of_plans() {
    const SORTS: [&str; 8] = [
        "reads at multiples of the producer's period",
        "reads at no multiples of it",
        "equal least periods",
        "a consumer that never runs",
        "two readers on different nodes",
        "a reader with two periods",
        "a producer with two periods",
        "a message dropped in one mode and kept in another",
    ];
    let mut counts = [0; SORTS.len()];
    for seed in 0..2_000 {
        let made = playable_plan(&mut Rng::new(seed), Edition::Consumers);
        let plan = &made.read_plan;
        let periods = |task: u8| -> Vec<u32> {
            let runs = plan.invocations.iter().filter(|run| run.task == task);
            let mut periods: Vec<u32> = runs.map(|run| plan.period_of(run)).collect();
            periods.sort_unstable();
            periods.dedup();
            periods
        };
        let crossing = |of: &&Connection| {
            plan.node_of_task(of.producer) != plan.node_of_task(of.consumer)
                && !periods(of.producer).is_empty()
        };
        let mut found = [false; SORTS.len()];
        let mut readers = BTreeMap::new();
        for of in plan.connections.iter().filter(crossing) {
            let (sent, read) = (periods(of.producer), periods(of.consumer));
            let thinned = read.first().is_some_and(|least| *least > sent[0]);
            let mut pairs = sent.iter().flat_map(|sent| read.iter().map(move |read| (sent, read)));
            found[0] |= thinned && pairs.clone().any(|(sent, read)| read % sent == 0);
            found[1] |= thinned && pairs.any(|(sent, read)| read > sent && read % sent != 0);
            found[2] |= read.first() == sent.first();
            found[3] |= read.is_empty();
            if thinned {
                let nodes: &mut BTreeSet<u8> = readers.entry(of.producer).or_default();
                nodes.insert(plan.node_of_task(of.consumer));
                found[4] |= nodes.len() > 1;
                found[5] |= read.len() > 1;
                found[6] |= sent.len() > 1;
            }
        }
        found[7] = made.frames.iter().any(|frame| {
            let sent = periods(frame.task as u8);
            let mut sent = sent.iter().filter(|sent| frame.deadline.is_multiple_of(**sent));
            !sent.all(|&sent| made.bus.reads.keep(frame.task as u8, sent, frame.deadline))
        });
        counts.iter_mut().zip(found).for_each(|(count, found)| *count += usize::from(found));
    }
    for (sort, count) in SORTS.iter().zip(counts) {
        println!("{count:>5} {sort}");
        assert!(count >= 50, "{sort}: {count}");
    }
}
