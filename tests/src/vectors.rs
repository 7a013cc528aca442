//! The vectors of `vectors/`, run on any program. Bytes are in hex, `-` is an empty file or list.
//! - `make.txt`: `PLAN ROWS ROOM -> table BYTES rows T,R,D,S ..` or `-> refused N at P`; ROWS is how
//!   many frame rows are lent, ROOM how many bytes of table (`-`: plenty).
//! - `check.txt`: `PLAN TABLE ROWS -> passed rows T,R,D,S ..` or `-> refused N at P`.
//! - `play.txt`: histories. `begin PLAN TABLE MODES -> begun`, then ticks `tick results R modes M ->
//!   shown S`, where S lists the places that are not zero at moment (e), `node/task=value`, or says
//!   `same`; `quiet N` is N ticks at which nothing is given and nothing shown changes.
//! - `ask-NN.txt`: what shows request NN: all of these lines, each with `make`, `check` or `begin` in
//!   front; `#` begins a comment, which names the case behind it. In `ask-04.txt` a line `make` has two
//!   words more in front of its plan, EDITION, `basic` or `consumers`, and `none`, which says that no
//!   frames are joined. `ask-01.txt` has lines of its own:
//!   `sheet PLAN TABLE -> TEXT` and `back TEXT -> BYTES`, where the bytes are a table or what the
//!   program `sheettable` says in its place; and likewise `plantext PLAN -> TEXT` and
//!   `textplan TEXT -> BYTES`.

use crate::generate::PLENTY;
use crate::program::{Program, Shown};
use crate::station::{Modes, Results};
use crate::text::LONGEST_TEXT;
use crate::{
    Edition, FrameRow, LONGEST_SHEET, MOST_MODULES, MOST_NODES, MOST_TASKS, Refusal, Sheet,
    TextRefusal,
};

pub const MAKE: &str = include_str!("../vectors/make.txt");
pub const CHECK: &str = include_str!("../vectors/check.txt");
pub const ASK_01: &str = include_str!("../vectors/ask-01.txt");
const ASK_02: &str = include_str!("../vectors/ask-02.txt");
pub const ASK_03: &str = include_str!("../vectors/ask-03.txt");
pub const ASK_04: &str = include_str!("../vectors/ask-04.txt");
const ASK_07: &str = include_str!("../vectors/ask-07.txt");
const ASK_08: &str = include_str!("../vectors/ask-08.txt");
const ASK_11: &str = include_str!("../vectors/ask-11.txt");

/// A file for each request that has landed, in the order of landing.
pub const REQUESTS: [&str; 7] = [ASK_03, ASK_02, ASK_11, ASK_07, ASK_08, ASK_01, ASK_04];

const OLD_BYTE: u8 = 0xa5;
const OLD_ROW: FrameRow = FrameRow { task: 7, release: 77, deadline: 777, start: 7_777 };

/// What a vector's hex digits stand for; `-` is none.
pub fn bytes(hex: &str) -> Vec<u8> {
    let digits = if hex == "-" { "" } else { hex };
    digits.as_bytes().chunks(2).map(hex_byte).collect()
}

fn hex_byte(digits: &[u8]) -> u8 {
    u8::from_str_radix(std::str::from_utf8(digits).unwrap(), 16).unwrap()
}

fn refusal(answer: &str) -> Option<Refusal> {
    let (number, place) = answer.strip_prefix("refused ")?.split_once(" at ")?;
    Some(Refusal { number: number.parse().unwrap(), place: place.parse().unwrap() })
}

fn frame_row(text: &str) -> FrameRow {
    let numbers: Vec<u32> = text.split(',').map(|number| number.parse().unwrap()).collect();
    let [task, release, deadline, start] = numbers[..] else { panic!("{text}") };
    FrameRow { task, release, deadline, start }
}

/// The lent rows on return: the frames, then zero rows; all as they were after 19.
fn rows_after(lent: usize, frames: &str, refused: Option<Refusal>) -> Vec<FrameRow> {
    if refused.is_some_and(|refusal| refusal.number == 19) {
        return vec![OLD_ROW; lent];
    }
    let mut rows: Vec<FrameRow> = frames.split_whitespace().map(frame_row).collect();
    rows.resize(lent, FrameRow::default());
    rows
}

/// Behind these bytes the lent ones are as they were.
fn stands_in_front(lent: &[u8], bytes: &[u8]) -> bool {
    let rest = lent.strip_prefix(bytes);
    rest.is_some_and(|rest| rest.iter().all(|&byte| byte == OLD_BYTE))
}

/// A line says its edition and that no frames are joined, or neither.
pub fn edition_of(given: &str) -> (Edition, &str) {
    let [basic, consumers] =
        ["basic none ", "consumers none "].map(|said| given.strip_prefix(said));
    match (basic, consumers) {
        (Some(rest), _) => (Edition::Basic, rest),
        (_, Some(rest)) => (Edition::Consumers, rest),
        _ => (Edition::Basic, given),
    }
}

/// Panics where the program answers otherwise than `PLAN ROWS ROOM -> ..` says. The same holds below.
fn make(program: &mut dyn Program, text: &str) {
    let (given, answer) = text.split_once(" -> ").unwrap();
    let (edition, given) = edition_of(given);
    let [plan, lent, room] = given.split(' ').collect::<Vec<_>>()[..] else { panic!("{text}") };
    let lent: usize = lent.parse().unwrap();
    let mut buffer = vec![OLD_BYTE; room.parse().unwrap_or(PLENTY)];
    let mut rows = vec![OLD_ROW; lent];
    let made = program.make(&bytes(plan), edition as u8, &mut rows, &mut buffer);
    let refused = refusal(answer);
    let (table, frames) = match answer.strip_prefix("table ") {
        Some(table) => table.split_once(" rows").unwrap(),
        None => ("-", ""),
    };
    let table = bytes(table);
    assert_eq!(made, refused.map_or(Ok(table.len()), Err), "{text}");
    assert!(stands_in_front(&buffer, &table), "{text}");
    assert_eq!(rows, rows_after(lent, frames, refused), "{text}");
}

fn check(program: &mut dyn Program, text: &str) {
    let (given, answer) = text.split_once(" -> ").unwrap();
    let [plan, table, lent] = given.split(' ').collect::<Vec<_>>()[..] else { panic!("{text}") };
    let lent: usize = lent.parse().unwrap();
    let mut rows = vec![OLD_ROW; lent];
    let checked = program.check(&bytes(plan), &bytes(table), &mut rows);
    let refused = refusal(answer);
    assert_eq!(checked, refused.map_or(Ok(()), Err), "{text}");
    let frames = answer.strip_prefix("passed rows").unwrap_or("");
    assert_eq!(rows, rows_after(lent, frames, refused), "{text}");
}

/// A refusal stands in the first line of the text.
fn sheet(program: &mut dyn Program, text: &str) {
    let (given, answer) = text.split_once(" -> ").unwrap();
    let (plan, table) = given.split_once(' ').unwrap();
    let answer = bytes(answer);
    let first_line = std::str::from_utf8(&answer).unwrap().lines().next().unwrap();
    let mut lent = vec![OLD_BYTE; LONGEST_SHEET];
    let printed = program.sheet(&bytes(plan), &bytes(table), &mut lent);
    let checked = refusal(first_line).map_or(Ok(()), Err);
    assert_eq!(printed, Sheet { checked, length: answer.len() }, "{text}");
    assert!(stands_in_front(&lent, &answer), "{text}");
}

fn back(program: &mut dyn Program, text: &str) {
    let (given, answer) = text.split_once(" -> ").unwrap();
    let answer = bytes(answer);
    let mut lent = vec![OLD_BYTE; PLENTY];
    let read = program.sheet_table(&bytes(given), &mut lent);
    let refused = unreadable_line(&answer).map(|line| Refusal { number: 60, place: line });
    let table = if refused.is_some() { &[] } else { answer.as_slice() };
    assert_eq!(read, refused.map_or(Ok(table.len()), Err), "{text}");
    assert!(stands_in_front(&lent, table), "{text}");
}

/// No table begins as this line does.
fn unreadable_line(answer: &[u8]) -> Option<usize> {
    unreadable(answer)?.parse().ok()
}

/// What stands behind the words that no file begins with.
fn unreadable(answer: &[u8]) -> Option<&str> {
    let line = answer.strip_prefix(b"unreadable line ")?;
    Some(std::str::from_utf8(line).unwrap().trim_end())
}

/// A refusal is the only line of the text.
fn plantext(program: &mut dyn Program, text: &str) {
    let (given, answer) = text.split_once(" -> ").unwrap();
    let answer = bytes(answer);
    let refused = refusal(std::str::from_utf8(&answer).unwrap().trim_end());
    let printed = if refused.is_some() { &[] } else { answer.as_slice() };
    let mut lent = vec![OLD_BYTE; LONGEST_TEXT];
    let answer = program.plan_text(&bytes(given), &mut lent);
    assert_eq!(answer, refused.map_or(Ok(printed.len()), Err), "{text}");
    assert!(stands_in_front(&lent, printed), "{text}");
}

fn textplan(program: &mut dyn Program, text: &str) {
    let (given, answer) = text.split_once(" -> ").unwrap();
    let answer = bytes(answer);
    let mut lent = vec![OLD_BYTE; PLENTY];
    let read = program.text_plan(&bytes(given), &mut lent);
    match unreadable(&answer) {
        Some(said) => {
            let TextRefusal { refusal, reason } = read.unwrap_err();
            assert_eq!(refusal.number, 60, "{text}");
            assert_eq!(format!("{}: {}", refusal.place, reason.unwrap()), said, "{text}");
            assert!(stands_in_front(&lent, &[]), "{text}");
        }
        None => {
            assert_eq!(read, Ok(answer.len()), "{text}");
            assert!(stands_in_front(&lent, &answer), "{text}");
        }
    }
}

pub fn make_tables(program: &mut dyn Program) {
    MAKE.lines().for_each(|text| make(program, text));
}

pub fn check_tables(program: &mut dyn Program) {
    CHECK.lines().for_each(|text| check(program, text));
}

pub fn play_histories(program: &mut dyn Program) {
    run_lines(program, include_str!("../vectors/play.txt"));
}

pub fn requests(program: &mut dyn Program) {
    REQUESTS.iter().for_each(|text| run_lines(program, text));
}

/// The lines of a request's vectors: the comment in front of each, its first word, and the rest.
pub fn named(text: &str) -> Vec<[&str; 3]> {
    let mut comment = "";
    let mut lines = Vec::new();
    for line in text.lines() {
        match line.split_once(' ').unwrap_or((line, "")) {
            ("#", words) => comment = words,
            (word, rest) => lines.push([comment, word, rest]),
        }
    }
    lines
}

/// Lines that say in their first word what is done.
fn run_lines(program: &mut dyn Program, text: &str) {
    let mut player = Player { program, shown: [[0; MOST_TASKS]; MOST_NODES] };
    for [_, word, rest] in named(text) {
        match word {
            "make" => make(player.program, rest),
            "check" => check(player.program, rest),
            "begin" => player.begin(rest),
            "tick" => player.tick(rest),
            "quiet" => player.quiet(rest),
            "sheet" => sheet(player.program, rest),
            "back" => back(player.program, rest),
            "plantext" => plantext(player.program, rest),
            "textplan" => textplan(player.program, rest),
            _ => panic!("{word} {rest}"),
        }
    }
}

/// Reads `place=value` pairs into places.
fn places<T: Copy, const PLACES: usize>(text: &str, value: fn(&str) -> T) -> [Option<T>; PLACES] {
    let mut places = [None; PLACES];
    for pair in text.split_whitespace().filter(|&pair| pair != "-") {
        let (place, given) = pair.split_once('=').unwrap();
        places[place.parse::<usize>().unwrap()] = Some(value(given));
    }
    places
}

fn modes(text: &str) -> Modes {
    places(text, |mode| mode.parse().unwrap())
}

fn results(text: &str) -> Results {
    places(text, |result| result.parse().unwrap())
}

fn shown_places(text: &str) -> Shown {
    let mut shown = [[0; MOST_TASKS]; MOST_NODES];
    for pair in text.split_whitespace().filter(|&pair| pair != "-") {
        let (place, value) = pair.split_once('=').unwrap();
        let (node, task) = place.split_once('/').unwrap();
        shown[node.parse::<usize>().unwrap()][task.parse::<usize>().unwrap()] =
            value.parse().unwrap();
    }
    shown
}

struct Player<'a> {
    program: &'a mut dyn Program,
    shown: Shown,
}

impl Player<'_> {
    fn begin(&mut self, text: &str) {
        let (given, answer) = text.split_once(" -> ").unwrap();
        let [plan, table, starting] = given.splitn(3, ' ').collect::<Vec<_>>()[..] else {
            panic!("{text}")
        };
        self.program.forget();
        let begun = self.program.begin(&bytes(plan), &bytes(table), &modes(starting));
        assert_eq!(begun.err(), refusal(answer), "{text}");
        self.shown = [[0; MOST_TASKS]; MOST_NODES];
    }

    fn tick(&mut self, text: &str) {
        let (given, answer) = text.split_once(" -> ").unwrap();
        let given = given.strip_prefix("results ").unwrap();
        let (given_results, given_modes) = given.split_once(" modes ").unwrap();
        let ticked = self.program.tick(&results(given_results), &modes(given_modes));
        assert_eq!(ticked.answer.err(), refusal(answer), "{text}");
        match answer.strip_prefix("shown ") {
            None | Some("same") => {}
            Some(shown) => self.shown = shown_places(shown),
        }
        assert_eq!(ticked.shown, self.shown, "{text}");
    }

    fn quiet(&mut self, ticks: &str) {
        for _ in 0..ticks.parse().unwrap() {
            let ticked = self.program.tick(&[None; MOST_TASKS], &[None; MOST_MODULES]);
            assert!(ticked.answer.is_ok());
            assert_eq!(ticked.shown, self.shown);
        }
    }
}
