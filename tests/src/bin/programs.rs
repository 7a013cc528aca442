//! The programs on lines of the vectors that are theirs, and on both sides of the limits of their files:
//! standard output, byte for byte, and the status that they end with. The words of the command line are
//! the folder of the programs, and what they are to run under, if anything.

use reference::generate::{Made, job_a, text_of};
use reference::plan_text::LONGEST_PLAN_READ;
use reference::text::LONGEST_TEXT;
use reference::vectors::{ASK_01, ASK_04, CHECK, MAKE, bytes, named};
use reference::{Edition, LONGEST_SHEET, MOST_FRAMES, sheet, text_plan};
use std::collections::BTreeMap;
use std::fs::{self, File};
use std::io::{Error, Result};
use std::path::Path;
use std::process::Command;

/// No longer plan or table is read by a program.
const LONGEST_FILE: usize = 65_536;

struct Case {
    name: String,
    program: &'static str,
    options: &'static [&'static str],
    /// Named on the command line.
    files: Vec<Vec<u8>>,
    input: Vec<u8>,
    written: Vec<u8>,
}

impl Case {
    fn new(name: &str, program: &'static str, written: impl Into<Vec<u8>>) -> Case {
        let (name, written) = (name.to_string(), written.into());
        Case { name, program, options: &[], files: Vec::new(), input: Vec::new(), written }
    }

    fn options(self, options: &'static [&'static str]) -> Case {
        Case { options, ..self }
    }

    fn files(self, plan: impl Into<Vec<u8>>, table: impl Into<Vec<u8>>) -> Case {
        Case { files: vec![plan.into(), table.into()], ..self }
    }

    fn input(self, input: impl Into<Vec<u8>>) -> Case {
        Case { input: input.into(), ..self }
    }

    /// A line in the place of a result, or a refused sheet's first.
    fn status(&self) -> i32 {
        let refusals: [&[u8]; 3] = [b"refused ", b"too long\n", b"unreadable line "];
        i32::from(refusals.iter().any(|line| self.written.starts_with(line)))
    }
}

/// Sheets and plans as text.
fn texts() -> Vec<Case> {
    let mut cases = Vec::new();
    for (number, [comment, word, rest]) in named(ASK_01).into_iter().enumerate() {
        let name = format!("case {number}, {comment}");
        let (given, answer) = rest.split_once(" -> ").expect("an arrow");
        let case = |program| Case::new(&name, program, bytes(answer));
        cases.push(match (word, given.split_once(' ')) {
            ("sheet", Some((plan, table))) => case("tablesheet").files(bytes(plan), bytes(table)),
            ("back", None) => case("sheettable").input(bytes(given)),
            ("plantext", None) => case("plantext").input(bytes(given)),
            ("textplan", None) => case("textplan").input(bytes(given)),
            _ => panic!("{word}"),
        });
    }
    cases
}

/// Some of the tables made and checked; the library is run on all of them.
const ONE_IN: usize = 10;

fn tables() -> Vec<Case> {
    let words = |line: &'static str| {
        let (given, answer) = line.split_once(" -> ").expect("an arrow");
        let [one, two, three] = given.split(' ').collect::<Vec<_>>()[..] else { panic!("{line}") };
        ([one, two, three], answer)
    };
    let frames = MOST_FRAMES.to_string();
    let made =
        MAKE.lines().map(words).filter(|([_, rows, room], _)| *rows == frames && *room == "-");
    let checked = CHECK.lines().map(words).filter(|([_, _, rows], _)| *rows == frames);
    let mut cases = Vec::new();
    for (number, ([plan, ..], answer)) in made.enumerate().step_by(ONE_IN) {
        cases.push(made_case(&format!("made {number}"), plan, answer));
    }
    for (number, ([plan, table, _], answer)) in checked.enumerate().step_by(ONE_IN) {
        cases.push(checked_case(&format!("checked {number}"), plan, table, answer));
    }
    cases
}

fn made_case(name: &str, plan: &str, answer: &str) -> Case {
    let written = match answer.strip_prefix("table ") {
        Some(table) => bytes(table.split_once(' ').expect("rows").0),
        None => format!("{answer}\n").into_bytes(),
    };
    Case::new(name, "bustable", written).input(bytes(plan))
}

fn checked_case(name: &str, plan: &str, table: &str, answer: &str) -> Case {
    let line = answer.split(" rows").next().expect("a line");
    let case = Case::new(name, "checktable", format!("{line}\n"));
    case.files(bytes(plan), bytes(table))
}

/// Both editions: all that is made and played, and some of what is checked. What passes is printed as a sheet and read
/// back, with the Rust program's text.
fn editions() -> Vec<Case> {
    let frames = MOST_FRAMES.to_string();
    let mut cases: Vec<Case> = Vec::new();
    for (number, [_, word, rest]) in named(ASK_04).into_iter().enumerate() {
        let name = format!("edition {number}");
        let (given, answer) = rest.split_once(" -> ").unwrap_or((rest, ""));
        match (word, &given.split(' ').collect::<Vec<_>>()[..]) {
            ("make", ["basic", "none", plan, rows, "-"]) if *rows == frames => {
                cases.push(made_case(&name, plan, answer));
            }
            ("make", ["consumers", "none", plan, rows, "-"]) if *rows == frames => {
                cases.push(made_case(&name, plan, answer).options(&["--consumers"]));
            }
            ("check", [plan, table, rows]) if *rows == frames && number % ONE_IN == 0 => {
                cases.push(checked_case(&name, plan, table, answer));
                if answer.starts_with("passed") {
                    cases.extend(sheet_cases(&name, bytes(plan), bytes(table)));
                }
            }
            ("begin", [plan, table, modes @ ..]) => cases.push(
                Case::new(&name, "playstation", format!("{answer}\n"))
                    .files(bytes(plan), bytes(table))
                    .input(format!("begin {}\n", modes.join(" "))),
            ),
            ("tick" | "quiet", _) => {
                let history = cases.last_mut().expect("a history has begun");
                history.input.extend(format!("{word} {given}\n").bytes());
                history.written.extend(said_then(&history.written, answer));
            }
            _ => {}
        }
    }
    cases
}

/// The line of a tick: of the same places as before, that line again. Quiet ticks, at which nothing changes, have none.
fn said_then(before: &[u8], answer: &str) -> Vec<u8> {
    let lines = std::str::from_utf8(before).expect("lines").lines();
    let line = match answer {
        "" => return Vec::new(),
        "shown same" => {
            lines.rev().find(|line| line.starts_with("shown ")).unwrap_or("shown -").to_string()
        }
        _ => answer.to_string(),
    };
    format!("{line}\n").into_bytes()
}

fn sheet_cases(name: &str, plan: Vec<u8>, table: Vec<u8>) -> [Case; 2] {
    let mut text = vec![0; LONGEST_SHEET];
    let printed = sheet(&plan, &table, &mut text);
    text.truncate(printed.length);
    [
        Case::new(name, "tablesheet", text.clone()).files(plan, table.clone()),
        Case::new(name, "sheettable", table).input(text),
    ]
}

/// Beginnings and ends of histories: docs/HISTORY.md has what stands between them.
fn histories() -> Vec<Case> {
    let case = |name: &str, written: &str| Case::new(name, "playstation", written);
    let (plan, table) = made_a();
    let play = |name: &str, history: &str, written: &str| {
        case(name, written).files(plan.as_slice(), table.as_slice()).input(history)
    };
    vec![
        play("a tick", "begin 0=0 1=2\ntick results - modes -\n", "begun\nshown -\n"),
        play(
            "a refused tick",
            "begin 0=0 1=2\ntick results 0=1 modes -\ntick results - modes -\n",
            "begun\nrefused 41 at 0\nshown -\n",
        ),
        play("no history", "tick\n", "unreadable line 1\n"),
    ]
}

/// Job A's plan and table.
fn made_a() -> (Vec<u8>, Vec<u8>) {
    let made = Made::of(&job_a().bytes(), Edition::Basic).expect("job A is made");
    (made.plan, made.table.bytes())
}

fn limits() -> Vec<Case> {
    let too_long = |name: &str, program| Case::new(name, program, "too long\n");
    let no_plan = |name: &str, program| Case::new(name, program, "refused 1 at 0\n");
    let (longest, longer) = (vec![0; LONGEST_FILE], vec![0; LONGEST_FILE + 1]);
    let (plan, table) = made_a();
    let mut cases = vec![
        no_plan("the longest plan", "bustable").input(longest.clone()),
        too_long("a plan too long", "bustable").input(longer.clone()),
        Case::new("the longest history", "playstation", "begun\n")
            .files(plan, table)
            .input(padded("begin 0=0 1=2\n", LONGEST_TEXT)),
    ];
    for program in ["checktable", "tablesheet"] {
        cases.push(no_plan("the longest plan", program).files(longest.clone(), []));
        cases.push(too_long("a plan too long", program).files(longer.clone(), []));
        cases.push(no_plan("the longest table", program).files([], longest.clone()));
        cases.push(too_long("a table too long", program).files([], longer.clone()));
    }
    cases.extend(text_limits());
    cases
}

fn text_limits() -> Vec<Case> {
    let sheet = |length: usize| padded("cycle 0", length);
    let no_rows = [16, 0, 0, 0, 0, 0, 0, 0, 0];
    let plan = many_modules();
    let mut plan_and_more = plan.clone();
    plan_and_more.push(0);
    let text = many_modes();
    let mut read = vec![0; LONGEST_PLAN_READ];
    text_plan(&text, &mut read).expect("modes are read");
    let case = |name: &str, program, written: &[u8]| Case::new(name, program, written);
    vec![
        case("the longest sheet", "sheettable", &no_rows).input(sheet(LONGEST_TEXT)),
        case("a sheet too long", "sheettable", b"too long\n").input(sheet(LONGEST_TEXT + 1)),
        case("the longest plan", "plantext", &text_of(&plan).expect("modules")).input(plan),
        case("a plan too long", "plantext", b"too long\n").input(plan_and_more),
        case("the longest text", "textplan", &read).input(text.clone()),
        case("a text too long", "textplan", b"too long\n").input([text, vec![b'\n']].concat()),
        case("what is read is too long", "bustable", b"too long\n").input(read),
    ]
}

fn padded(text: &str, length: usize) -> Vec<u8> {
    let mut text = text.as_bytes().to_vec();
    text.resize(length, b' ');
    text
}

/// A plan of the greatest length that keeps the record rules and prints the longest text.
fn many_modules() -> Vec<u8> {
    let front = &job_a().bytes()[..19];
    [front, &[3, 255].repeat((LONGEST_FILE - front.len()) / 2), &[0]].concat()
}

/// The longest text, which gives the longest plan.
fn many_modes() -> Vec<u8> {
    let front = "bus kbit/s 0 overhead-bytes 0 least-payload 0 largest-payload 0 gap-bits 0 resolution 0\nnodes 0\n";
    let mode = "mode of module 0 period 0 switch 0\n";
    let modes = mode.repeat((LONGEST_TEXT - front.len()) / mode.len());
    padded(&format!("{front}{modes}"), LONGEST_TEXT)
}

/// Standard output, and the status.
fn run_one(
    programs: &Path,
    under: &[String],
    folder: &Path,
    case: &Case,
) -> Result<(Vec<u8>, i32)> {
    let file = |name: &str, bytes: &[u8]| {
        let path = folder.join(name);
        fs::write(&path, bytes).map(|()| path)
    };
    // `env` runs the words behind it, be there something to run under or not.
    let mut command = Command::new("env");
    command.args(under).arg(programs.join(case.program)).args(case.options);
    for (name, bytes) in ["plan", "table"].into_iter().zip(&case.files) {
        command.arg(file(name, bytes)?);
    }
    command.stdin(File::open(file("input", &case.input)?)?);
    let ended = command.stderr(std::process::Stdio::inherit()).output()?;
    let status = ended.status.code().ok_or_else(|| Error::other("ended by a signal"))?;
    Ok((ended.stdout, status))
}

/// The beginning of what was written, and how long it is.
fn shown(bytes: &[u8]) -> String {
    let first = &bytes[..bytes.len().min(400)];
    format!("\"{}\" ({} bytes)", first.escape_ascii(), bytes.len())
}

/// How many cases of each program passed, if all have.
fn run(words: &[String], folder: &Path) -> Result<BTreeMap<&'static str, usize>> {
    let (programs, under) = words.split_first().expect("the folder of the programs");
    let mut passed = BTreeMap::new();
    for case in [texts(), tables(), editions(), histories(), limits()].iter().flatten() {
        let Case { name, program, written, .. } = case;
        let (output, status) = run_one(Path::new(programs), under, folder, case)?;
        if (&output, status) != (written, case.status()) {
            let (is, shall) = (shown(&output), shown(written));
            let shall = format!("{shall} with status {}", case.status());
            let message = format!("{program}, {name}: {is} with status {status} is not {shall}");
            return Err(Error::other(message));
        }
        *passed.entry(*program).or_default() += 1;
    }
    Ok(passed)
}

fn main() -> Result<()> {
    let words: Vec<String> = std::env::args().skip(1).collect();
    let folder = std::env::temp_dir().join(format!("olbiothar-{}", std::process::id()));
    fs::create_dir_all(&folder)?;
    let passed = run(&words, &folder);
    fs::remove_dir_all(&folder)?;
    for (program, cases) in passed? {
        println!("{program}: {cases} cases passed");
    }
    Ok(())
}
