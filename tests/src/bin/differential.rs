//! The proved library against the Rust program: every vector, then seeded cases. The words of the
//! command line start the driver. The run ends with an error at the first difference, and if a
//! refusal of docs/RULES.md, or a reason why a line is unreadable, was not reached.

use reference::driver::{Driver, Words};
use reference::generate::{
    self, CheckCase, History, MakeCase, PLENTY, PlanCase, PlayCase, Rng, SheetCase, TextCase,
    job_a, job_j,
};
use reference::plan;
use reference::program::{Program, Reference};
use reference::{Edition, FrameRow, MOST_FRAMES, Reason, Refusal, vectors};
use std::collections::BTreeMap;
use std::time::Instant;

/// Of each edition.
const MAKE_CASES: u64 = 30_000;
const CHECK_CASES: u64 = 30_000;
const PLAY_CASES: u64 = 1_000;
const SHEET_CASES: u64 = 15_000;
const SHEET_TEXT_CASES: u64 = 15_000;
/// In all.
const NOISE_CASES: u64 = 10_000;
const PLAN_CASES: u64 = 20_000;
const PLAN_TEXT_CASES: u64 = 20_000;
const MOST_TICKS: usize = 400;
/// A station is asked about itself behind its first ticks, and then now and then: each time by 512 calls.
const FIRST_ASKED: usize = 4;
const ASKED_EACH: usize = 61;
/// A table of so many bytes is played for more than its cycle, so that every row starts.
const LONG_TABLE: usize = 4_096;
const WHOLE_CYCLE: usize = 1_500;

/// The numbers that a run must reach, 0 for "not refused".
fn numbers() -> impl Iterator<Item = u32> {
    (0..=13).chain(19..=28).chain(40..=44).chain(60..=62)
}

/// The reasons that a run must reach. Some words only begin lines, and no line lacks its beginning.
fn reasons() -> impl Iterator<Item = Reason> {
    let begins = |word: &str| matches!(word, "bus" | "nodes" | "run" | "connect");
    let reached = move |reason: &Reason| !matches!(reason, Reason::Word(word) if begins(word));
    (0..ALL_REASONS).filter_map(Reason::numbered).filter(reached)
}

/// Above any number of a reason.
const ALL_REASONS: u32 = 100;

struct Comparison {
    proved: Driver,
    rust: Reference,
    reached: BTreeMap<u32, u64>,
    reasons: BTreeMap<String, u64>,
}

impl Comparison {
    fn count<T>(&mut self, answer: &Result<T, Refusal>) {
        let number = answer.as_ref().err().map_or(0, |refusal| refusal.number);
        *self.reached.entry(number).or_default() += 1;
    }

    fn make(&mut self, case: &str, plan: &[u8], edition: u8, rows: &[FrameRow], buffer: &[u8]) {
        let (mut proved_rows, mut proved_buffer) = (rows.to_vec(), buffer.to_vec());
        let proved = self.proved.make(plan, edition, &mut proved_rows, &mut proved_buffer);
        let (mut rows, mut buffer) = (rows.to_vec(), buffer.to_vec());
        let rust = self.rust.make(plan, edition, &mut rows, &mut buffer);
        assert_eq!(proved, rust, "make, {case}: {plan:02x?}");
        assert_eq!(proved_rows, rows, "make, rows, {case}: {plan:02x?}");
        assert_eq!(proved_buffer, buffer, "make, table, {case}: {plan:02x?}");
        self.count(&rust);
    }

    fn check(&mut self, case: &str, plan: &[u8], table: &[u8], rows: &[FrameRow]) {
        let mut proved_rows = rows.to_vec();
        let proved = self.proved.check(plan, table, &mut proved_rows);
        let mut rows = rows.to_vec();
        let rust = self.rust.check(plan, table, &mut rows);
        assert_eq!(proved, rust, "check, {case}: {plan:02x?} {table:02x?}");
        assert_eq!(proved_rows, rows, "check, rows, {case}: {plan:02x?} {table:02x?}");
        self.count(&rust);
    }

    fn play(&mut self, case: &str, rng: &mut Rng, given: &PlayCase) {
        let PlayCase { plan, table, modes } = given;
        // Behind a refused beginning a station plays on, if there is one.
        if rng.one_in(2) {
            self.proved.forget();
            self.rust.forget();
        }
        let proved = self.proved.begin(plan, table, modes);
        let rust = self.rust.begin(plan, table, modes);
        assert_eq!(proved, rust, "begin, {case}");
        self.now(&format!("{case}, begun"));
        self.count(&rust);
        match plan::read(plan) {
            Ok(read) if rust.is_ok() => {
                let fault_in = rng.pick(&[Some(5), Some(50), None]);
                let history = History::new(rng, &read, modes, fault_in);
                let long = table.len() >= LONG_TABLE;
                let ticks = if long { WHOLE_CYCLE } else { 1 + rng.below(MOST_TICKS) };
                self.play_on(case, history, ticks);
            }
            _ => self.tick(case, &generate::Tick { results: [None; 32], modes: [None; 16] }),
        }
    }

    fn play_on(&mut self, case: &str, mut history: History, ticks: usize) {
        for time in 0..ticks {
            let (tick, _) = history.next_tick();
            let case = format!("{case}, tick {time}");
            self.tick(&case, &tick);
            if time < FIRST_ASKED || time % ASKED_EACH == 0 {
                self.now(&case);
            }
        }
    }

    fn now(&mut self, case: &str) {
        assert_eq!(self.proved.now(), self.rust.now(), "{case}");
    }

    fn tick(&mut self, case: &str, given: &generate::Tick) {
        let proved = self.proved.tick(&given.results, &given.modes);
        let rust = self.rust.tick(&given.results, &given.modes);
        assert_eq!(proved, rust, "{case}");
        self.count(&rust.answer);
    }

    fn sheet(&mut self, case: &str, old: u8, given: &SheetCase) {
        let SheetCase { plan, table, room } = given;
        let (mut proved_text, mut text) = (vec![old; *room], vec![old; *room]);
        let proved = self.proved.sheet(plan, table, &mut proved_text);
        let rust = self.rust.sheet(plan, table, &mut text);
        assert_eq!(proved, rust, "sheet, {case}: {plan:02x?} {table:02x?}");
        assert!(proved_text == text, "sheet, text, {case}: {plan:02x?} {table:02x?}");
        self.count(&rust.checked);
    }

    fn sheet_table(&mut self, case: &str, text: &[u8], buffer: &[u8]) {
        let (mut proved_buffer, mut rust_buffer) = (buffer.to_vec(), buffer.to_vec());
        let proved = self.proved.sheet_table(text, &mut proved_buffer);
        let rust = self.rust.sheet_table(text, &mut rust_buffer);
        assert_eq!(proved, rust, "sheet_table, {case}: {}", text.escape_ascii());
        assert_eq!(proved_buffer, rust_buffer, "sheet_table, {case}: {}", text.escape_ascii());
        self.count(&rust);
    }

    /// Gives the bytes needed, where they are too few.
    fn plan_text(&mut self, case: &str, plan: &[u8], old: u8, room: usize) -> Option<usize> {
        let (mut proved_text, mut text) = (vec![old; room], vec![old; room]);
        let proved = self.proved.plan_text(plan, &mut proved_text);
        let rust = self.rust.plan_text(plan, &mut text);
        assert_eq!(proved, rust, "plan_text, {case}: {plan:02x?}");
        assert!(proved_text == text, "plan_text, text, {case}: {plan:02x?}");
        self.count(&rust);
        rust.err().filter(|refusal| refusal.number == 13).map(|refusal| refusal.place)
    }

    fn text_plan(&mut self, case: &str, text: &[u8], buffer: &[u8]) -> Option<usize> {
        let (mut proved_buffer, mut rust_buffer) = (buffer.to_vec(), buffer.to_vec());
        let proved = self.proved.text_plan(text, &mut proved_buffer);
        let rust = self.rust.text_plan(text, &mut rust_buffer);
        assert_eq!(proved, rust, "text_plan, {case}: {}", text.escape_ascii());
        assert_eq!(proved_buffer, rust_buffer, "text_plan, {case}: {}", text.escape_ascii());
        if let Some(reason) = rust.err().and_then(|unread| unread.reason) {
            *self.reasons.entry(reason.to_string()).or_default() += 1;
        }
        let rust = rust.map_err(|unread| unread.refusal);
        self.count(&rust);
        rust.err().filter(|refusal| refusal.number == 13).map(|refusal| refusal.place)
    }
}

/// Lent memory has any contents.
fn any_rows(rng: &mut Rng, count: usize) -> Vec<FrameRow> {
    let mut row = || {
        let (one, other) = (rng.number(), rng.number());
        FrameRow {
            task: u32::from(one as u8),
            release: (one >> 32) as u32,
            deadline: other as u32,
            start: (other >> 32) as u32,
        }
    };
    (0..count).map(|_| row()).collect()
}

fn any_bytes(rng: &mut Rng, count: usize) -> Vec<u8> {
    std::iter::repeat_with(|| rng.number().to_le_bytes()).flatten().take(count).collect()
}

/// So many seeds of each edition: how a case is called, its edition, its random numbers.
fn seeds(count: u64) -> impl Iterator<Item = (String, Edition, Rng)> {
    let case = |(edition, seed)| (format!("{edition:?}, seed {seed}"), edition, Rng::new(seed));
    generate::seeds(count).map(case)
}

fn make_cases(comparison: &mut Comparison) {
    for (case, edition, mut rng) in seeds(MAKE_CASES) {
        let MakeCase { plan, edition, rows, room } = generate::make_case(&mut rng, edition);
        let (rows, buffer) = (any_rows(&mut rng, rows), any_bytes(&mut rng, room));
        comparison.make(&case, &plan, edition as u8, &rows, &buffer);
    }
}

/// A number that no edition has is refused behind 19 and before all others.
fn no_editions(comparison: &mut Comparison) {
    let rng = &mut Rng::new(0);
    for edition in (0..=u8::MAX).filter(|&number| Edition::numbered(number).is_none()) {
        let MakeCase { plan, rows, room, .. } = generate::make_case(rng, Edition::Basic);
        let (rows, buffer) = (any_rows(rng, rows), any_bytes(rng, room));
        comparison.make(&format!("edition {edition}"), &plan, edition, &rows, &buffer);
    }
}

fn check_cases(comparison: &mut Comparison) {
    for (case, edition, mut rng) in seeds(CHECK_CASES) {
        let CheckCase { plan, table, rows } = generate::check_case(&mut rng, edition);
        let rows = any_rows(&mut rng, rows);
        comparison.check(&case, &plan, &table, &rows);
    }
}

/// Bytes that are hardly a file, and files of many times the length of any plan.
fn noise_cases(comparison: &mut Comparison) {
    let rows = [FrameRow::default(); MOST_FRAMES];
    for seed in 0..NOISE_CASES {
        let rng = &mut Rng::new(seed);
        let mut file: Vec<u8> = (0..rng.below(200)).map(|_| rng.below(22) as u8).collect();
        if rng.one_in(2) {
            let edition = rng.pick(&Edition::ALL);
            let mut plan = generate::plan_file(rng, edition);
            file.iter().for_each(|_| generate::damage_bytes(rng, &mut plan));
            file = plan;
        }
        let case = format!("noise {seed}");
        comparison.make(&case, &file, rng.below(2) as u8, &rows, &[0; PLENTY]);
        comparison.check(&case, &job_j().bytes(), &file, &rows);
    }
    for (kind, length) in [(3, 2), (7, 3), (6, 5)] {
        let records = [kind].repeat(length * 100_000);
        let file = [&job_a().bytes()[..19], &records, &[0]].concat();
        comparison.make("many records", &file, 0, &rows, &[]);
    }
    for edition in Edition::ALL {
        let header = [edition.kind(); 8];
        let rows_of_a_table = [header.as_slice(), &[18; 14 * 100_000], &[0]].concat();
        comparison.check("many records", &job_a().bytes(), &rows_of_a_table, &rows);
    }
}

fn play_cases(comparison: &mut Comparison) {
    for (name, edition, mut rng) in seeds(PLAY_CASES) {
        let case = generate::play_case(&mut rng, edition);
        comparison.play(&name, &mut rng, &case);
    }
}

fn sheet_cases(comparison: &mut Comparison) {
    for (name, edition, mut rng) in seeds(SHEET_CASES) {
        let case = generate::sheet_case(&mut rng, edition);
        comparison.sheet(&name, rng.number() as u8, &case);
    }
}

fn sheet_text_cases(comparison: &mut Comparison) {
    for (name, edition, mut rng) in seeds(SHEET_TEXT_CASES) {
        let TextCase { text, room } = generate::sheet_text_case(&mut rng, edition);
        comparison.sheet_table(&name, &text, &any_bytes(&mut rng, room));
    }
}

/// Where the room is too small, also one that is just enough, and one byte less.
fn plan_cases(comparison: &mut Comparison) {
    for seed in 0..PLAN_CASES {
        let rng = &mut Rng::new(seed);
        let PlanCase { plan, room } = generate::plan_case(rng);
        let (case, old) = (format!("seed {seed}"), rng.number() as u8);
        if let Some(needed) = comparison.plan_text(&case, &plan, old, room) {
            assert_eq!(comparison.plan_text(&case, &plan, old, needed), None, "{case}");
            assert_eq!(comparison.plan_text(&case, &plan, old, needed - 1), Some(needed), "{case}");
        }
    }
}

fn plan_text_cases(comparison: &mut Comparison) {
    for seed in 0..PLAN_TEXT_CASES {
        let rng = &mut Rng::new(seed);
        let TextCase { text, room } = generate::plan_text_case(rng);
        let case = format!("seed {seed}");
        if let Some(needed) = comparison.text_plan(&case, &text, &any_bytes(rng, room)) {
            let buffer = any_bytes(rng, needed);
            assert_eq!(comparison.text_plan(&case, &text, &buffer), None, "{case}");
            assert_eq!(comparison.text_plan(&case, &text, &buffer[1..]), Some(needed), "{case}");
        }
    }
}

/// A room beyond any that words need.
const AMPLE: usize = 512;

/// The words that stand in so many lent bytes; a zero byte ends them, and the rest is as it was.
fn words_in(proved: &mut Driver, sort: Words, number: u32, room: usize) -> String {
    const OLD: u8 = 0xa5;
    let mut text = vec![OLD; room];
    let length = proved.words(sort, number, &mut text);
    let (words, behind) = text.split_at(length);
    let rest = match behind {
        [0, rest @ ..] => rest,
        _ if length == 0 => behind,
        _ => panic!("{sort:?} {number} in {room} bytes: no zero byte"),
    };
    assert!(rest.iter().all(|&byte| byte == OLD), "{sort:?} {number} in {room} bytes");
    String::from_utf8(words.to_vec()).expect("words are text")
}

/// The words of a number, and the least room that gets any.
fn words_of(proved: &mut Driver, sort: Words, number: u32) -> (String, usize) {
    let words = words_in(proved, sort, number, AMPLE);
    let rooms: Vec<String> = (0..AMPLE).map(|room| words_in(proved, sort, number, room)).collect();
    let least = rooms.iter().position(|words| !words.is_empty()).unwrap_or(AMPLE);
    assert!(rooms[least..].iter().all(|same| *same == words), "{sort:?} {number}");
    (words, least)
}

/// Each number of an answer has words of its own, each reason those that a line is refused with; all ask
/// for the same room, which is longer than any words.
fn words_of_numbers(comparison: &mut Comparison) {
    let mut answers = BTreeMap::new();
    let (_, room) = words_of(&mut comparison.proved, Words::OfNumber, 1);
    for number in numbers().skip(1) {
        let (words, least) = words_of(&mut comparison.proved, Words::OfNumber, number);
        assert!(words.len() < room && least == room, "{number}: {words} {least}");
        assert_eq!(answers.insert(words, number), None, "{number}");
    }
    for number in [14, 18, 29, 39, 45, 59, 63, 256, 268, u32::MAX] {
        let (words, _) = words_of(&mut comparison.proved, Words::OfNumber, number);
        assert!(!answers.contains_key(&words), "{number}: {words}");
    }
    for reason in (1..ALL_REASONS).chain([256 + 32, u32::MAX]) {
        let (words, least) = words_of(&mut comparison.proved, Words::OfReason, reason);
        if let Some(known) = Reason::numbered(reason) {
            assert_eq!((words, least), (known.to_string(), room), "{reason}");
        } else {
            assert!(!words.ends_with("expected"), "{reason}: {words}");
        }
    }
}

fn main() {
    let command: Vec<String> = std::env::args().skip(1).collect();
    let proved = Driver::start(&command).expect("the driver starts");
    let mut comparison = Comparison {
        proved,
        rust: Reference::default(),
        reached: BTreeMap::new(),
        reasons: BTreeMap::new(),
    };
    let run = |name: &str, comparison: &mut Comparison, part: fn(&mut Comparison)| {
        let began = Instant::now();
        part(comparison);
        println!("{name}: no difference ({:.1} s)", began.elapsed().as_secs_f64());
    };
    run("vectors", &mut comparison, |comparison| {
        vectors::make_tables(&mut comparison.proved);
        vectors::check_tables(&mut comparison.proved);
        vectors::play_histories(&mut comparison.proved);
        vectors::requests(&mut comparison.proved);
    });
    run("plans made", &mut comparison, make_cases);
    run("no editions", &mut comparison, no_editions);
    run("tables checked", &mut comparison, check_cases);
    run("noise", &mut comparison, noise_cases);
    run("histories played", &mut comparison, play_cases);
    run("sheets printed", &mut comparison, sheet_cases);
    run("sheets read", &mut comparison, sheet_text_cases);
    run("plans printed", &mut comparison, plan_cases);
    run("plans read", &mut comparison, plan_text_cases);
    run("words", &mut comparison, words_of_numbers);
    all_were_reached(&comparison);
    assert!(comparison.proved.stop(), "the driver ends well");
}

fn all_were_reached(comparison: &Comparison) {
    let times = |number: &u32| comparison.reached.get(number).copied().unwrap_or(0);
    let times_said =
        |reason: &Reason| comparison.reasons.get(&reason.to_string()).copied().unwrap_or(0);
    numbers().for_each(|number| println!("{number:>2}: {}", times(&number)));
    reasons().for_each(|reason| println!("{reason}: {}", times_said(&reason)));
    let missed: Vec<u32> = numbers().filter(|number| times(number) == 0).collect();
    let never_said: Vec<Reason> = reasons().filter(|reason| times_said(reason) == 0).collect();
    assert!(missed.is_empty() && never_said.is_empty(), "not reached: {missed:?} {never_said:?}");
}
