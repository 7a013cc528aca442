//! Seeded cases: every refusal is reached, and the answers agree with each other and with sections 4
//! and 5 of docs/RULES.md taken word by word.

mod counts;

use counts::{Counts, assert_reached, count};
use reference::bus::{Bus, Sending, derive};
use reference::checker::DataRow;
use reference::generate::{
    self, CheckCase, Draft, History, Made, MakeCase, PLENTY, PlayCase, Rng, Size, any_bits,
    break_table_rule, made_plan, move_rows, playable_plan, seeds, starting_modes, valid_plan,
};
use reference::one_board::OneBoard;
use reference::plan::{self, Bits, Connection, Invocation, Mode, Plan};
use reference::records::{BUS, BUS_WITH_BYTE_BITS, record_length};
use reference::{
    Edition, FrameRow, MOST_CONNECTIONS, MOST_FRAMES, MOST_NODES, MOST_TASKS, Refusal, Row,
    Station, check, make,
};
use std::collections::{BTreeMap, BTreeSet};

/// Of each edition.
const MAKE_CASES: u64 = 40_000;
const CHECK_CASES: u64 = 40_000;
const PLAY_CASES: u64 = 3_000;
const TICKS: usize = 1_500;

const OLD_BYTE: u8 = 0x5a;
const OLD_ROW: FrameRow = FrameRow { task: 9, release: 99, deadline: 999, start: 9_999 };

fn assert_rows_refused(rows: &[FrameRow], refusal: Refusal) {
    let left = if refusal.number == 19 { OLD_ROW } else { FrameRow::default() };
    assert!(rows.iter().all(|row| *row == left));
}

fn checked(plan: &[u8], table: &[u8]) -> Result<(), Refusal> {
    check(plan, table, &mut [OLD_ROW; MOST_FRAMES])
}

type Rows = Vec<FrameRow>;

/// The answer, and what is lent as it is afterwards.
fn make_into(case: &MakeCase) -> (Result<usize, Refusal>, Rows, Vec<u8>) {
    let (mut rows, mut buffer) = (vec![OLD_ROW; case.rows], vec![OLD_BYTE; case.room]);
    let answer = make(&case.plan, case.edition, &mut rows, &mut buffer);
    (answer, rows, buffer)
}

fn check_into(plan: &[u8], table: &[u8], rows: usize) -> (Result<(), Refusal>, Rows) {
    let mut rows = vec![OLD_ROW; rows];
    let answer = check(plan, table, &mut rows);
    (answer, rows)
}

#[test]
fn make_cases() {
    for edition in Edition::ALL {
        let mut counts = Counts::new();
        for seed in 0..MAKE_CASES {
            let case = generate::make_case(&mut Rng::new(seed), edition);
            let (made, rows, buffer) = make_into(&case);
            count(&mut counts, &made);
            let unchanged = made.unwrap_or(0);
            assert!(buffer[unchanged..].iter().all(|&byte| byte == OLD_BYTE), "seed {seed}");
            match made {
                Err(refusal) => assert_rows_refused(&rows, refusal),
                Ok(length) => {
                    let checked = check_into(&case.plan, &buffer[..length], rows.len());
                    assert_eq!(checked, (Ok(()), rows), "seed {seed}");
                    assert_eq!(buffer[0], edition.kind(), "seed {seed}");
                }
            }
        }
        assert_reached(&counts, (0..=13).chain([19]));
    }
}

#[test]
fn check_cases() {
    for edition in Edition::ALL {
        let mut counts = Counts::new();
        for seed in 0..CHECK_CASES {
            let CheckCase { plan, table, rows } =
                generate::check_case(&mut Rng::new(seed), edition);
            let (answer, rows) = check_into(&plan, &table, rows);
            count(&mut counts, &answer);
            if let Err(refusal) = answer {
                assert_rows_refused(&rows, refusal);
            }
        }
        assert_reached(&counts, (0..=11).chain([19]).chain(20..=28));
    }
}

/// Rows moved within their windows pass; a table with any fault does not.
#[test]
fn moved_tables() {
    let mut counts = Counts::new();
    for (edition, seed) in seeds(15_000) {
        let rng = &mut Rng::new(seed);
        let size = Size::any(rng);
        let mut made = made_plan(rng, edition, &size);
        move_rows(rng, &mut made);
        assert_eq!(checked(&made.plan, &made.table.bytes()), Ok(()), "seed {seed}");
        assert_apart(&made);
        let good = made.table.clone();
        let rule = rng.between(21, 28);
        break_table_rule(rng, &mut made, rule);
        let answer = checked(&made.plan, &made.table.bytes());
        count(&mut counts, &answer);
        assert_eq!(answer.is_ok(), made.table == good, "seed {seed}, rule {rule}");
    }
    assert_reached(&counts, 21..=28);
}

/// No two frames of two cycles are closer than the gap: by start, each keeps it to the next.
fn assert_apart(made: &Made) {
    let control = made.table.control.iter().map(|row| (row.start, row.stop));
    let data = made.table.data.iter().map(|row| (row.start, row.stop));
    let cycle: Vec<(u32, u32)> = control.chain(data).collect();
    let next = cycle.iter().map(|(start, stop)| (start + made.bus.period, stop + made.bus.period));
    let mut frames: Vec<(u32, u32)> = cycle.iter().copied().chain(next).collect();
    frames.sort_unstable();
    for pair in frames.windows(2) {
        assert!(pair[0].1 + made.bus.gap <= pair[1].0, "{pair:?}");
    }
}

/// A valid plan is read; with doubtful connections put anywhere it is refused, 5 at the first of them;
/// without them it comes to what it came to before.
#[test]
fn doubtful_connections() {
    let mut counts = Counts::new();
    for (edition, seed) in seeds(10_000) {
        let rng = &mut Rng::new(seed);
        let size = Size::any(rng);
        let mut draft = valid_plan(rng, edition, &size);
        let answer = made(&draft, edition);
        let room = MOST_CONNECTIONS - draft.connections.len();
        for _ in 0..room.min(rng.below(4)) {
            let task = rng.below(draft.tasks.len()) as u8;
            let own = Connection { producer: task, consumer: task };
            let other = rng.pick(&draft.connections);
            let at = rng.below(draft.connections.len() + 1);
            draft.connections.insert(at, rng.pick(&[own, other]));
        }
        let things = [draft.modules.len(), draft.modes.len(), draft.tasks.len()];
        let before = 2 + things.iter().sum::<usize>() + draft.invocations.len();
        let (good, first) = without_doubtful(&draft.connections);
        let refusal = first.map(|first| Refusal { number: 5, place: before + first });
        let read = plan::read(&draft.bytes());
        count(&mut counts, &read);
        assert_eq!(read.err(), refusal, "seed {seed}");
        draft.connections = good;
        assert_eq!(made(&draft, edition), answer, "seed {seed}");
    }
    assert_reached(&counts, [0, 5]);
}

fn made(plan: &Draft, edition: Edition) -> Result<Vec<u8>, Refusal> {
    let mut table = vec![0; PLENTY];
    let length = make(&plan.bytes(), edition, &mut [OLD_ROW; MOST_FRAMES], &mut table)?;
    table.truncate(length);
    Ok(table)
}

/// The connections that are not doubtful, and the number of the first that is.
fn without_doubtful(connections: &[Connection]) -> (Vec<Connection>, Option<usize>) {
    let (mut good, mut first) = (Vec::new(), None);
    for (number, connection) in connections.iter().enumerate() {
        if connection.producer != connection.consumer && !good.contains(connection) {
            good.push(*connection);
        } else {
            first = first.or(Some(number));
        }
    }
    (good, first)
}

/// Kind 9 with 8 bits is kind 1: the same rows and bytes, and the same refusal at the same place; only
/// offsets in the plan lie a byte further.
#[test]
fn eight_bits_said() {
    let (mut made, mut checked) = (Counts::new(), Counts::new());
    for (edition, seed) in seeds(15_000) {
        let case = generate::make_case(&mut Rng::new(seed), edition);
        if let Some([unsaid, said]) = with_eight_bits(&case.plan) {
            let (answer, rows, buffer) = make_into(&MakeCase { plan: unsaid, ..case });
            count(&mut made, &answer);
            let expected = (answer.map_err(a_byte_further), rows, buffer);
            assert_eq!(make_into(&MakeCase { plan: said, ..case }), expected, "seed {seed}");
        }
        let CheckCase { plan, table, rows } = generate::check_case(&mut Rng::new(seed), edition);
        if let Some([unsaid, said]) = with_eight_bits(&plan) {
            let (answer, rows_then) = check_into(&unsaid, &table, rows);
            count(&mut checked, &answer);
            let expected = (answer.map_err(a_byte_further), rows_then);
            assert_eq!(check_into(&said, &table, rows), expected, "seed {seed}");
        }
    }
    assert_reached(&made, (0..=13).chain([19]));
    assert_reached(&checked, (0..=11).chain([19]).chain(20..=28));
}

/// The file with a bus record of kind 1, and with one of kind 9 that says 8; `None` where it does not
/// begin with a whole bus record.
fn with_eight_bits(file: &[u8]) -> Option<[Vec<u8>; 2]> {
    let &kind = file.first().filter(|kind| [BUS, BUS_WITH_BYTE_BITS].contains(kind))?;
    let (bus, behind) = file.split_at_checked(record_length(kind))?;
    let numbers = &bus[1..record_length(BUS)];
    let unsaid = [&[BUS], numbers, behind].concat();
    Some([unsaid, [&[BUS_WITH_BYTE_BITS], numbers, &[8], behind].concat()])
}

fn a_byte_further(refusal: Refusal) -> Refusal {
    let further = usize::from(refusal.number == 1);
    Refusal { place: refusal.place + further, ..refusal }
}

/// For any number of bits in a byte, also one that no plan may have, a larger payload takes no fewer bits
/// and no fewer ticks. The gap is the same for all.
#[test]
fn larger_payloads() {
    for seed in 0..2_000 {
        let rng = &mut Rng::new(seed);
        let bits = any_bits(rng);
        for byte_bits in (8..=12).chain([rng.below(256) as u8]) {
            let bits = Bits { byte_bits: Some(byte_bits), ..bits };
            let sendings: Vec<Sending> = (0..=254).map(|payload| bits.sending(payload)).collect();
            for (payload, sending) in (0..).zip(&sendings) {
                let bytes = bits.overhead + bits.least_payload.max(payload);
                assert_eq!(sending.bits, u32::from(byte_bits) * u32::from(bytes), "seed {seed}");
                assert_least_ticks(&bits, sending);
            }
            for pair in sendings.windows(2) {
                assert!(pair[0].bits <= pair[1].bits && pair[0].ticks <= pair[1].ticks, "{pair:?}");
            }
            assert_eq!(bits.gap().bits, u32::from(bits.gap_bits), "seed {seed}");
            assert_least_ticks(&bits, &bits.gap());
        }
    }
}

/// Both roundings together: the ticks are the least multiple of the resolution that holds the bits.
fn assert_least_ticks(bits: &Bits, sending: &Sending) {
    let Sending { bits: sent, ticks } = *sending;
    let holds = |ticks: u32| u64::from(ticks) * u64::from(bits.kbits) >= u64::from(sent) * 1_000;
    assert!(ticks.is_multiple_of(bits.resolution) && holds(ticks), "{bits:?}, {sending:?}");
    let fewer = ticks.checked_sub(bits.resolution);
    assert!(!fewer.is_some_and(holds), "{bits:?}, {sending:?}");
}

#[test]
fn frames_and_rule_word_by_word() {
    let mut compared: BTreeMap<(Edition, Option<u8>), usize> = BTreeMap::new();
    let mut counts = Counts::new();
    for (edition, seed) in seeds(20_000) {
        let rng = &mut Rng::new(seed);
        let plan = generate::plan_file(rng, edition);
        let mut rows = [OLD_ROW; MOST_FRAMES];
        let Ok(read) = plan::read(&plan) else { continue };
        let derived = derive(&read, edition, &mut rows);
        count(&mut counts, &derived);
        if derived.as_ref().is_err_and(|refusal| refusal.number == 9) && has_quick_runs(&read) {
            continue;
        }
        let frames = match (derived.as_ref(), frames_word_by_word(&read, edition)) {
            (Ok(bus), Ok((period, frames))) => {
                assert_eq!((bus.period, &rows[..bus.frames]), (period, &frames[..]), "seed {seed}");
                frames
            }
            // Behind these stand sentences about the bus, and the frames' number.
            (Err(Refusal { number: 8 | 10 | 11, .. }), Ok(_)) => continue,
            (Err(refusal), Err(number)) => {
                assert!(refusal.number == number || (refusal.number, number) == (8, 9));
                continue;
            }
            (derived, expected) => panic!("seed {seed}: {derived:?}, {expected:?}"),
        };
        let bus = derived.expect("compared above");
        assert_kept(&read, edition, &bus);
        let made = make(&plan, edition, &mut rows, &mut [0; PLENTY]);
        match starts_word_by_word(&bus, &frames) {
            Err(number) => {
                assert_eq!(made, Err(Refusal { number: 12, place: number }), "seed {seed}")
            }
            Ok(placed) => assert_eq!(rows[..bus.frames], placed, "seed {seed}"),
        }
        *compared.entry((edition, read.bits.byte_bits)).or_default() += 1;
    }
    println!("plans compared, by the bits of a byte: {compared:?}");
    for edition in Edition::ALL {
        for byte_bits in [None].into_iter().chain((8..=12).map(Some)) {
            let plans = compared.get(&(edition, byte_bits));
            assert!(plans.is_some_and(|&plans| plans > 100), "{edition:?} {byte_bits:?}");
        }
    }
    assert_reached(&counts, [0].into_iter().chain(6..=11));
}

/// Each message that the bus keeps, and none that it drops, where they are few.
fn assert_kept(plan: &Plan, edition: Edition, bus: &Bus) {
    let runs = plan.invocations.iter().filter(|run| bus.tasks >> run.task & 1 == 1);
    if runs.clone().map(|run| bus.period / plan.period_of(run)).sum::<u32>() > 5_000 {
        return;
    }
    let kept = messages_kept(plan, edition, &connections_left(plan, edition), bus.period);
    for run in runs {
        let period = plan.period_of(run);
        for deadline in (1..=bus.period / period).map(|message| message * period) {
            let keeps = bus.reads.keep(run.task, period, deadline);
            assert_eq!(keeps, kept.contains(&(*run, deadline)), "{run:?} at {deadline}");
        }
    }
}

/// Too many messages to be listed one by one.
fn has_quick_runs(plan: &Plan) -> bool {
    let longest = plan.modes.iter().map(|mode| mode.period).max().unwrap_or(0);
    plan.invocations.iter().any(|run| longest / plan.period_of(run) > 2 * MOST_FRAMES as u32)
}

/// The bus period and the frames, with start 0; or 6, 7 or 9.
fn frames_word_by_word(plan: &Plan, edition: Edition) -> Result<(u32, Vec<FrameRow>), u32> {
    let connections = connections_left(plan, edition);
    if connections.is_empty() {
        return Err(6);
    }
    let period = bus_period(plan, edition, &connections);
    let greatest = greatest_bus_period(plan, edition, &connections);
    if !u128::from(greatest).is_multiple_of(period) {
        return Err(7);
    }
    let period = period as u32;
    let mut releases = BTreeMap::new();
    for (run, deadline) in messages_kept(plan, edition, &connections, period) {
        let release = deadline - plan.period_of(&run) + plan.task_of(&run).worst_time;
        let greatest = releases.entry((deadline, u32::from(run.task))).or_insert(release);
        *greatest = release.max(*greatest);
    }
    if releases.len() > MOST_FRAMES {
        return Err(9);
    }
    let frame = |((deadline, task), release)| FrameRow { task, release, deadline, start: 0 };
    Ok((period, releases.into_iter().map(frame).collect()))
}

fn runs_of(plan: &Plan, task: u8) -> impl Iterator<Item = Invocation> {
    plan.invocations.iter().copied().filter(move |run| run.task == task)
}

/// Between two nodes; the producer has an invocation, and where consumers count so has the consumer.
fn connections_left(plan: &Plan, edition: Edition) -> Vec<Connection> {
    let left = |of: &&Connection| {
        plan.node_of_task(of.producer) != plan.node_of_task(of.consumer)
            && runs_of(plan, of.producer).next().is_some()
            && (edition == Edition::Basic || runs_of(plan, of.consumer).next().is_some())
    };
    plan.connections.iter().filter(left).copied().collect()
}

fn can_be_thinned(plan: &Plan, of: &Connection) -> bool {
    let least = |task: u8| runs_of(plan, task).map(|run| plan.period_of(&run)).min();
    least(of.consumer) > least(of.producer)
}

fn bus_period(plan: &Plan, edition: Edition, connections: &[Connection]) -> u128 {
    let counts = |of: &Connection, task: u8| {
        task == of.producer
            || task == of.consumer && edition == Edition::Consumers && can_be_thinned(plan, of)
    };
    let counts = |run: &&Invocation| connections.iter().any(|of| counts(of, run.task));
    let periods = plan.invocations.iter().filter(counts).map(|run| plan.period_of(run));
    periods.fold(1, |multiple: u128, period| {
        // Above any G it does not matter by how much.
        let common = multiple / divisor(multiple, period.into()) * u128::from(period);
        if common > 1 << 100 { 1 << 100 } else { common }
    })
}

fn greatest_bus_period(plan: &Plan, edition: Edition, connections: &[Connection]) -> u32 {
    let module = |task: u8| plan.tasks[usize::from(task)].module;
    let counts = |of: &Connection, mode: &Mode| {
        mode.module == module(of.producer)
            || edition == Edition::Consumers && mode.module == module(of.consumer)
    };
    let modes = plan.modes.iter().filter(|mode| connections.iter().any(|of| counts(of, mode)));
    let periods = modes.flat_map(|mode| [mode.period, mode.switch_period]);
    periods.fold(0, |common, period| divisor(common.into(), period.into()) as u32)
}

fn divisor(one: u128, other: u128) -> u128 {
    if other == 0 { one } else { divisor(other, one % other) }
}

/// Runs and deadlines, connection by connection: all of the producer's; of a connection that can be thinned
/// those that a read needs, in any two modes. A read needs the latest deadline not after it, or the bus
/// period's if there is none.
fn messages_kept(
    plan: &Plan,
    edition: Edition,
    connections: &[Connection],
    bus_period: u32,
) -> BTreeSet<(Invocation, u32)> {
    let mut kept = BTreeSet::new();
    for of in connections {
        for run in runs_of(plan, of.producer) {
            let period = plan.period_of(&run);
            let deadlines = (1..=bus_period / period).map(|message| message * period);
            if edition == Edition::Basic || !can_be_thinned(plan, of) {
                kept.extend(deadlines.map(|deadline| (run, deadline)));
                continue;
            }
            for reader in runs_of(plan, of.consumer) {
                let every = plan.period_of(&reader);
                let (mut deadlines, mut latest) = (deadlines.clone().peekable(), None);
                for read in (0..bus_period / every).map(|read| read * every) {
                    while let Some(deadline) = deadlines.next_if(|&deadline| deadline <= read) {
                        latest = Some(deadline);
                    }
                    kept.insert((run, latest.unwrap_or(bus_period)));
                }
            }
        }
    }
    kept
}

/// The latest-release rule by scanning the frames left; on refusal the number of the frame taken.
fn starts_word_by_word(bus: &Bus, frames: &[FrameRow]) -> Result<Vec<FrameRow>, usize> {
    let mut placed = frames.to_vec();
    let mut left: Vec<usize> = (0..frames.len()).collect();
    let mut end = i64::from(bus.period) - i64::from(bus.gap);
    while let Some(greatest) = left.iter().map(|&number| frames[number].deadline).max() {
        end = end.min(i64::from(greatest));
        let candidates =
            left.iter().copied().filter(|&number| i64::from(frames[number].deadline) >= end);
        let taken = candidates.max_by_key(|&number| (frames[number].release, number)).unwrap();
        let FrameRow { task, release, .. } = frames[taken];
        let latest = end - i64::from(bus.sending_times[task as usize]);
        let start = latest.div_euclid(i64::from(bus.resolution)) * i64::from(bus.resolution);
        if latest < 0 || start < i64::from(release) || start < i64::from(bus.control_end) {
            return Err(taken);
        }
        placed[taken].start = start as u32;
        left.retain(|&number| number != taken);
        end = start - i64::from(bus.gap);
    }
    Ok(placed)
}

#[test]
fn play_cases() {
    for edition in Edition::ALL {
        play_cases_in(edition);
    }
}

fn play_cases_in(edition: Edition) {
    let (mut counts, mut ticks, mut late) = (Counts::new(), Counts::new(), 0);
    for seed in 0..PLAY_CASES {
        let rng = &mut Rng::new(seed);
        let PlayCase { plan, table, modes } = generate::play_case(rng, edition);
        let begun = Station::begin(&plan, &table, modes);
        count(&mut counts, &begun);
        match begun {
            Err(refusal) if refusal.number == 40 => {
                assert_eq!(checked(&plan, &table), Ok(()), "seed {seed}");
            }
            Err(refusal) => assert_eq!(checked(&plan, &table), Err(refusal), "seed {seed}"),
            Ok(station) => {
                let read = plan::read(&plan).unwrap();
                let fault_in = rng.pick(&[Some(5), Some(50), None]);
                let history = History::new(rng, &read, &modes, fault_in);
                let edition = Edition::of_table(&table);
                let (demands, mut others) =
                    (Demands::of(&read, edition), Others::of(&read, edition));
                late += play(station, history, &demands, &mut others, &mut ticks);
            }
        }
    }
    assert_reached(&counts, (20..=28).chain([0, 40]));
    assert_reached(&ticks, [0, 41, 42, 43, 44]);
    println!("late: {late}");
    assert_eq!(late > 0, edition == Edition::Consumers);
}

/// Demand 3: which nodes show of which tasks what one board shows.
struct Demands {
    /// Task and node: at every tick.
    always: Vec<(usize, usize)>,
    /// Task, node and consumer there: at every tick at which the consumer is released.
    at_releases: Vec<(usize, usize, usize)>,
}

impl Demands {
    fn of(plan: &Plan, edition: Edition) -> Demands {
        let node = |task: u8| usize::from(plan.node_of_task(task));
        let own = (0..plan.tasks.len() as u8).map(|task| (task.into(), node(task)));
        let (mut always, mut at_releases): (Vec<_>, _) = (own.collect(), Vec::new());
        for &Connection { producer, consumer } in plan.connections.iter() {
            let (task, node) = (producer.into(), node(consumer));
            match edition {
                Edition::Basic => always.push((task, node)),
                Edition::Consumers => at_releases.push((task, node, consumer.into())),
            }
        }
        if edition == Edition::Consumers {
            let unthinned = connections_left(plan, edition).into_iter();
            let unthinned = unthinned.filter(|of| !can_be_thinned(plan, of));
            always.extend(
                unthinned
                    .flat_map(|of| (0..MOST_NODES).map(move |node| (of.producer.into(), node))),
            );
        }
        Demands { always, at_releases }
    }
}

/// What other nodes than a task's own show of it: what it showed at the last deadline of a message that is kept.
struct Others {
    kept: BTreeSet<(usize, u64, u64)>,
    bus_period: u64,
    time: u64,
    shown: [u64; MOST_TASKS],
}

impl Others {
    fn of(plan: &Plan, edition: Edition) -> Others {
        let connections = connections_left(plan, edition);
        let bus_period = bus_period(plan, edition, &connections) as u32;
        let kept = messages_kept(plan, edition, &connections, bus_period).into_iter();
        let kept = kept
            .map(|(run, deadline)| (run.task.into(), plan.period_of(&run).into(), deadline.into()));
        let shown = [0; MOST_TASKS];
        Others { kept: kept.collect(), bus_period: bus_period.into(), time: 0, shown }
    }

    /// The tasks whose runs end at the next tick, with their periods.
    fn ending(board: &OneBoard) -> Vec<(usize, u64)> {
        let run = |task| board.run(task).filter(|run| run.age == run.period);
        (0..MOST_TASKS).filter_map(|task| Some((task, run(task)?.period))).collect()
    }

    fn pass(&mut self, board: &OneBoard, ended: &[(usize, u64)]) {
        let within = self.time % self.bus_period;
        let deadline = if within == 0 { self.bus_period } else { within };
        for &(task, period) in ended {
            if self.kept.contains(&(task, period, deadline)) {
                self.shown[task] = board.shown(task);
            }
        }
        self.time += 1;
    }
}

/// Gives how often a node that consumes was late, where it may be.
fn play(
    mut station: Station,
    mut history: History,
    demands: &Demands,
    others: &mut Others,
    ticks: &mut Counts,
) -> usize {
    let mut late = 0;
    for _ in 0..TICKS {
        let ending = Others::ending(history.board());
        let (tick, expected) = history.next_tick();
        let answer = station.tick(&tick.results, &tick.modes);
        count(ticks, &answer);
        assert_eq!(answer.map(|_| ()), expected);
        let board = history.board();
        if expected.is_ok() {
            others.pass(board, &ending);
        }
        for &(task, node) in &demands.always {
            assert_eq!(station.shown(node, task), board.shown(task));
        }
        for &(task, node, consumer) in &demands.at_releases {
            let same = station.shown(node, task) == board.shown(task);
            assert!(same || !board.released(consumer), "{task} on {node}");
            late += usize::from(!same);
        }
        for (number, task) in (0..).zip(board.plan().tasks.iter()) {
            let own = usize::from(board.plan().modules[usize::from(task.module)].node);
            for node in (0..MOST_NODES).filter(|&node| node != own) {
                assert_eq!(station.shown(node, number), others.shown[number], "{task:?} on {node}");
            }
        }
    }
    late
}

/// The rows that a station starts are the table's, each at its start, cycle after cycle.
#[test]
fn rows_started() {
    for (edition, seed) in seeds(300) {
        let rng = &mut Rng::new(seed);
        let made = playable_plan(rng, edition);
        let modes = starting_modes(rng, &made.read_plan);
        let mut station = Station::begin(&made.plan, &made.table.bytes(), modes).unwrap();
        let mut history = History::new(rng, &made.read_plan, &modes, None);
        let control = made.table.control.iter().copied().map(Row::from);
        let rows: Vec<Row> =
            control.chain(made.table.data.iter().copied().map(Row::from)).collect();
        let starts: BTreeMap<u32, Row> = rows.iter().map(|row| (start_of(row), *row)).collect();
        assert_eq!(starts.len(), rows.len());
        for time in 0..2 * made.bus.period {
            let (tick, _) = history.next_tick();
            let answer = station.tick(&tick.results, &tick.modes);
            assert_eq!(answer, Ok(starts.get(&(time % made.bus.period)).copied()), "seed {seed}");
        }
    }
}

fn start_of(row: &Row) -> u32 {
    match *row {
        Row::Control { start, .. } => start,
        Row::Data { start, .. } => start,
    }
}

/// A row alone, moved outside its window by one step of the resolution.
#[test]
fn moved_outside() {
    for (edition, seed) in seeds(5_000) {
        let rng = &mut Rng::new(seed);
        let size = Size::any(rng);
        let mut made = made_plan(rng, edition, &size);
        move_rows(rng, &mut made);
        let index = rng.below(made.table.data.len());
        let row = made.table.data[index];
        let (release, time) = made.release_and_time(&row).unwrap();
        let step = made.bus.resolution;
        let record = 1 + made.table.control.len() + index;
        if let Some(start) = release.next_multiple_of(step).checked_sub(step) {
            made.table.data[index] = DataRow { start, stop: start + time, ..row };
            let refusal = Refusal { number: 25, place: record };
            assert_eq!(checked(&made.plan, &made.table.bytes()), Err(refusal), "seed {seed}");
        }
        let start = (row.deadline - time) / step * step + step;
        made.table.data[index] = DataRow { start, stop: start + time, ..row };
        let refusal = Refusal { number: 26, place: record };
        assert_eq!(checked(&made.plan, &made.table.bytes()), Err(refusal), "seed {seed}");
    }
}

/// Any bytes at all, and long files: an answer, no panic.
#[test]
fn any_bytes() {
    for (edition, seed) in seeds(30_000) {
        let rng = &mut Rng::new(seed);
        let mut file: Vec<u8> = (0..rng.below(200)).map(|_| rng.below(22) as u8).collect();
        if rng.one_in(2) {
            let mut plan = generate::plan_file(rng, edition);
            file.iter().for_each(|_| generate::damage_bytes(rng, &mut plan));
            file = plan;
        }
        let _ = make(&file, edition, &mut [OLD_ROW; MOST_FRAMES], &mut [0; PLENTY]);
        let _ = checked(&generate::job_a().bytes(), &file);
        let _ = Station::begin(&file, &file, [Some(0); 16]);
    }
    for bus in [[BUS; 17].as_slice(), &[BUS_WITH_BYTE_BITS; 18]] {
        let many_modules = [bus, &[2, 1], &[3; 2_000_000], &[0]].concat();
        let refusal = Refusal { number: 2, place: 3 };
        assert_eq!(
            make(&many_modules, Edition::Basic, &mut [OLD_ROW; MOST_FRAMES], &mut []),
            Err(refusal)
        );
    }
}
