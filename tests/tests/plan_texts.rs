//! Plans as text: printed as the rules have them, and read.

mod counts;

use counts::{Counts, assert_reached, count};
use reference::generate::{
    self, Made, PlanCase, Rng, TextCase, any_plan, any_records, job_a, rewritten, text_of,
};
use reference::plan::Plan;
use reference::plan_text::{LONGEST_PLAN, LONGEST_PLAN_READ};
use reference::records::{PLAN_FILE, outline};
use reference::text::LONGEST_TEXT;
use reference::{Edition, Reason, Refusal, TextRefusal, plan_text, text_plan};
use std::collections::BTreeMap;

const TEXT_A: &str = "\
bus kbit/s 1000 overhead-bytes 8 least-payload 0 largest-payload 254 gap-bits 10 resolution 1  # record 0
nodes 2                                          # record 1
module on node 0                                 # module 0, record 2
module on node 1                                 # module 1, record 3
mode of module  0 period   60000 switch   60000  # mode 0, record 4
mode of module  0 period   60000 switch   60000  # mode 1, record 5
mode of module  1 period   60000 switch   60000  # mode 2, record 6
task of module  0 bytes 4 worst    1000          # task 0, record 7
task of module  1 bytes 4 worst    1000          # task 1, record 8
run in mode  0 task  0 rate     2                # run 0, record 9
run in mode  1 task  0 rate     3                # run 1, record 10
run in mode  2 task  1 rate     1                # run 2, record 11
connect task  0 to task  1                       # connection 0, record 12
";

const BUS: &str =
    "bus kbit/s 1 overhead-bytes 2 least-payload 3 largest-payload 4 gap-bits 5 resolution 6";
const BUS_RECORD: [u8; 17] = [1, 1, 0, 0, 0, 2, 0, 3, 0, 4, 0, 5, 0, 6, 0, 0, 0];

const OLD_BYTE: u8 = 0xa5;

/// The text; behind it the lent bytes are as they were, all after a refusal.
fn printed(plan: &[u8]) -> Result<String, Refusal> {
    let mut text = vec![OLD_BYTE; LONGEST_TEXT];
    let answer = plan_text(plan, &mut text);
    let length = answer.unwrap_or(0);
    assert!(text[length..].iter().all(|&byte| byte == OLD_BYTE));
    text.truncate(length);
    answer.map(|_| String::from_utf8(text).unwrap())
}

/// The plan that a text reads as; the lent bytes likewise.
fn read(text: impl AsRef<[u8]>) -> Result<Vec<u8>, TextRefusal> {
    let mut plan = vec![OLD_BYTE; LONGEST_PLAN_READ];
    let answer = text_plan(text.as_ref(), &mut plan);
    let length = answer.unwrap_or(0);
    assert!(plan[length..].iter().all(|&byte| byte == OLD_BYTE));
    plan.truncate(length);
    answer.map(|_| plan)
}

/// What `textplan` writes where it writes no plan.
fn said(text: impl AsRef<[u8]>) -> String {
    match read(text) {
        Ok(plan) => format!("a plan of {} bytes", plan.len()),
        Err(TextRefusal { refusal: Refusal { number: 60, place }, reason: Some(reason) }) => {
            format!("line {place}: {reason}")
        }
        Err(refused) => format!("{refused:?}"),
    }
}

#[test]
fn job_a_printed_and_read() {
    assert_eq!(printed(&job_a().bytes()).unwrap(), TEXT_A);
    assert_eq!(read(TEXT_A), Ok(job_a().bytes()));
}

macro_rules! station {
    ($number:literal) => {
        [
            include_bytes!(concat!("../vectors/stations/station-", $number, ".plan")).as_slice(),
            include_bytes!(concat!("../vectors/stations/station-", $number, ".plan.txt")),
        ]
    };
}

#[test]
fn stations() {
    for [plan, text] in [station!("1"), station!("2"), station!("3")] {
        assert_eq!(printed(plan).unwrap().as_bytes(), text);
        assert_eq!(read(text), Ok(plan.to_vec()));
    }
}

/// A text with a person's own comments, spaces and blank lines.
#[test]
fn a_wiping_station() {
    let text = include_str!("../../docs/examples/wiping-station.plan.txt");
    let plan = read(text).unwrap();
    let made = Made::of(&plan, Edition::Basic).expect("a table");
    let Plan { nodes, modules, tasks, modes, .. } = made.read_plan;
    assert_eq!((nodes, modules.len(), tasks.len(), modes.len()), (4, 4, 10, 6));
    // What is printed has other comments, and a line for each that has words.
    let printed = printed(&plan).unwrap();
    let told = |text: &str| -> Vec<String> {
        let words = |line: &str| {
            line.split('#').next().unwrap_or("").split_whitespace().collect::<Vec<_>>().join(" ")
        };
        text.lines().map(words).filter(|line| !line.is_empty()).collect()
    };
    assert_eq!(told(&printed), told(text));
}

/// Kind 9 keeps its bits, also where they are those that kind 1 means.
#[test]
fn two_kinds_of_bus() {
    for byte_bits in [None, Some(0), Some(8), Some(10), Some(255)] {
        let plan = job_a().with_byte_bits(byte_bits).bytes();
        let text = printed(&plan).unwrap();
        let behind = byte_bits.map_or(String::new(), |bits| format!(" bits-per-byte {bits}"));
        let first = TEXT_A.lines().next().unwrap().replace("  #", &format!("{behind}  #"));
        assert_eq!(text.lines().next(), Some(first.as_str()));
        assert_eq!(read(text), Ok(plan));
    }
}

/// Numbers longer than their width and lines longer than their columns are not cut.
#[test]
fn the_largest_numbers() {
    let plan: [&[u8]; 8] = [
        &[9],
        &[255; 17],
        &[2, 255, 3, 255, 4],
        &[255; 9],
        &[5, 255, 255, 255, 255, 255, 255, 6, 255, 255, 255, 255],
        &[7, 255, 255],
        &[7, 0, 10],
        &[0],
    ];
    let plan = plan.concat();
    let text = "\
bus kbit/s 4294967295 overhead-bytes 65535 least-payload 65535 largest-payload 65535 gap-bits 65535 resolution 4294967295 bits-per-byte 255  # record 0
nodes 255                                        # record 1
module on node 255                               # module 0, record 2
mode of module 255 period 4294967295 switch 4294967295  # mode 0, record 3
task of module 255 bytes 255 worst 4294967295    # task 0, record 4
run in mode 255 task 255 rate 65535              # run 0, record 5
connect task 255 to task 255                     # connection 0, record 6
connect task  0 to task 10                       # connection 1, record 7
";
    assert_eq!(printed(&plan).unwrap(), text);
    assert_eq!(read(text), Ok(plan));
}

/// Rules 2 to 12 are not asked.
#[test]
fn as_short_as_can_be() {
    let plan = [BUS_RECORD.as_slice(), &[2, 0, 0]].concat();
    assert_eq!(read(format!("{BUS}\nnodes 0")), Ok(plan.clone()));
    assert_eq!(read(printed(&plan).unwrap()), Ok(plan));
}

#[test]
fn broken_records() {
    let plan = job_a().bytes();
    for length in 0..plan.len() {
        assert_eq!(printed(&plan[..length]), Err(Refusal { number: 1, place: length }));
    }
    let changed = |edit: fn(&mut Vec<u8>)| {
        let mut plan = job_a().bytes();
        edit(&mut plan);
        printed(&plan).unwrap_err()
    };
    assert_eq!(changed(|plan| plan.push(0)), Refusal { number: 1, place: plan.len() });
    assert_eq!(changed(|plan| plan[0] = 16), Refusal { number: 1, place: 0 });
    assert_eq!(changed(|plan| plan[17] = 1), Refusal { number: 1, place: 17 });
    assert_eq!(changed(|plan| plan[19] = 2), Refusal { number: 1, place: 19 });
    assert_eq!(changed(|plan| plan[19] = 4), Refusal { number: 1, place: 29 });
}

/// What is said of a line at its place in a text, and the number that it has there.
fn said_of(words: &[&str]) -> (String, usize) {
    let line = words.join(" ");
    match words[0] {
        "bus" => (said(format!("{line}\nnodes 2")), 1),
        "nodes" => (said(format!("{BUS}\n{line}")), 2),
        _ => (said(format!("{BUS}\nnodes 2\n\n{line}")), 4),
    }
}

/// Each place of each line: another word, none, and one more at the end.
#[test]
fn places_of_lines() {
    for line in [
        BUS,
        &format!("{BUS} bits-per-byte 7"),
        "nodes 1",
        "module on node 1",
        "mode of module 1 period 2 switch 3",
        "task of module 1 bytes 2 worst 3",
        "run in mode 1 task 2 rate 3",
        "connect task 1 to task 2",
    ] {
        let words: Vec<&str> = line.split(' ').collect();
        let (read, number) = said_of(&words);
        assert!(read.starts_with("a plan"), "{line}");
        for place in 1..words.len() {
            let is_number = words[place].parse::<u64>().is_ok();
            let expected = if is_number { "number" } else { words[place] };
            let expected = format!("line {number}: {expected} expected");
            let mut other = words.clone();
            other[place] = "other";
            assert_eq!(said_of(&other).0, expected, "{other:?}");
            // A bus line that ends before its last two words is one of kind 1.
            if place != 13 {
                assert_eq!(said_of(&words[..place]).0, expected, "{:?}", &words[..place]);
            }
        }
        let left_over = if words.len() == 13 { "bits-per-byte" } else { "end of line" };
        let more = [&words[..], &["more"]].concat();
        assert_eq!(said_of(&more).0, format!("line {number}: {left_over} expected"), "{more:?}");
    }
}

/// The largest number of each place, and one more; with zeros in front they are the same.
#[test]
fn numbers_of_places() {
    let line = |numbers: &[u64], above: &str, form: &str| {
        let mut text = format!("{above}{form}");
        for number in numbers {
            text = text.replacen('?', &format!("000{number}"), 1);
        }
        said(text)
    };
    let top = format!("{BUS}\nnodes 2\n");
    let bus = "bus kbit/s ? overhead-bytes ? least-payload ? largest-payload ? gap-bits ? resolution ? bits-per-byte ?\nnodes 2";
    for (above, form, bytes) in [
        ("", bus, &[4, 2, 2, 2, 2, 4, 1][..]),
        (&format!("{BUS}\n"), "nodes ?", &[1]),
        (&top, "module on node ?", &[1]),
        (&top, "mode of module ? period ? switch ?", &[1, 4, 4]),
        (&top, "task of module ? bytes ? worst ?", &[1, 1, 4]),
        (&top, "run in mode ? task ? rate ?", &[1, 1, 2]),
        (&top, "connect task ? to task ?", &[1, 1]),
    ] {
        let largest: Vec<u64> = bytes.iter().map(|bytes| (1 << (8 * bytes)) - 1).collect();
        assert!(line(&largest, above, form).starts_with("a plan"), "{form}");
        let number = 1 + above.lines().count();
        for place in 0..bytes.len() {
            let mut numbers = largest.clone();
            numbers[place] += 1;
            assert_eq!(line(&numbers, above, form), format!("line {number}: number too large"));
            numbers[place] = u64::MAX;
            assert_eq!(line(&numbers, above, form), format!("line {number}: number too large"));
        }
    }
}

#[test]
fn what_is_a_number() {
    let nodes = |word: &str| said(format!("{BUS}\nnodes {word}"));
    for word in ["7", "07", "010", "255", "000000000000000000000000000000255", "8#", "9#9"] {
        assert!(nodes(word).starts_with("a plan"), "{word}");
    }
    assert_eq!(read(format!("{BUS}\nnodes 010#1")).unwrap()[17..], [2, 10, 0]);
    for word in ["256", "65536", "18446744073709551615", "0256"] {
        assert_eq!(nodes(word), "line 2: number too large", "{word}");
    }
    for word in [
        "18446744073709551616",
        "99999999999999999999999999",
        "-1",
        "+1",
        "1,000",
        "1_000",
        "1.0",
        "0x1",
        "1\u{b}0",
        "\u{661}",
        "#1",
        "",
    ] {
        assert_eq!(nodes(word), "line 2: number expected", "{word}");
    }
}

/// A line of each kind, in their order.
const LINES: [&str; 7] = [
    BUS,
    "nodes 2",
    "module on node 0",
    "mode of module 0 period 1 switch 1",
    "task of module 0 bytes 1 worst 1",
    "run in mode 0 task 0 rate 1",
    "connect task 0 to task 0",
];

#[test]
fn order_of_lines() {
    for (earlier, first) in LINES.iter().enumerate().skip(2) {
        for (later, second) in LINES.iter().enumerate() {
            let text = format!("{BUS}\nnodes 2\n{first}\n\n{second}");
            if later >= earlier {
                assert!(read(&text).is_ok(), "{text}");
            } else {
                assert_eq!(said(&text), "line 5: out of order", "{text}");
            }
        }
        assert_eq!(said(first), "line 1: bus expected");
        assert_eq!(said(format!("{BUS}\n{first}")), "line 2: nodes expected");
        assert!(read(format!("{BUS}\nnodes 2\n{first}")).is_ok());
    }
}

/// Each once, the one behind the other, whichever kind the bus is of.
#[test]
fn bus_and_nodes() {
    let nine = format!("{BUS} bits-per-byte 8");
    for bus in [BUS, &nine] {
        for second in [BUS, &nine, "node 2", "# nodes 2\nNodes 2"] {
            let line = 1 + second.lines().count();
            assert_eq!(said(format!("{bus}\n{second}")), format!("line {line}: nodes expected"));
        }
        for (third, reason) in [
            (BUS, "out of order"),
            (&nine, "out of order"),
            ("bus", "out of order"),
            ("nodes 2", "out of order"),
            ("nodes", "out of order"),
            ("record", "unknown word"),
        ] {
            assert_eq!(said(format!("{bus}\nnodes 2\n{third}")), format!("line 3: {reason}"));
        }
    }
}

#[test]
fn lines_counted() {
    assert_eq!(said(""), "line 1: bus expected");
    assert_eq!(said("\n"), "line 2: bus expected");
    assert_eq!(said("# nothing"), "line 2: bus expected");
    assert_eq!(said("\n\r\n \t\n"), "line 4: bus expected");
    assert_eq!(said(BUS), "line 2: nodes expected");
    assert_eq!(said(format!("{BUS}#\n\n")), "line 3: nodes expected");
    assert_eq!(said(format!("\n{BUS}\n#\nnodes 2\r\n\t\nmodule")), "line 6: on expected");
    assert_eq!(said(format!("{BUS}\u{a0}\nnodes 2")), "line 1: number expected");
    assert_eq!(read(TEXT_A.trim_end()), read(TEXT_A));
}

/// Too long goes before unreadable, unreadable before a buffer too short; the longest text is read.
#[test]
fn order_of_refusals() {
    let refusal = |number: u32, place: usize| Refusal { number, place };
    let mut text = vec![b' '; LONGEST_TEXT];
    let unread = text_plan(&text, &mut []).unwrap_err();
    assert_eq!(unread, TextRefusal { refusal: refusal(60, 2), reason: Some(Reason::Bus) });
    let plan = job_a().bytes();
    text[..TEXT_A.len()].copy_from_slice(TEXT_A.as_bytes());
    let mut lent = vec![OLD_BYTE; plan.len()];
    let short = text_plan(&text, &mut lent[1..]);
    assert_eq!(short, Err(refusal(13, plan.len()).into()));
    assert!(lent.iter().all(|&byte| byte == OLD_BYTE));
    assert_eq!(text_plan(&text, &mut lent), Ok(plan.len()));
    assert_eq!(lent, plan);
    text.push(b'\n');
    assert_eq!(text_plan(&text, &mut lent), Err(refusal(61, LONGEST_TEXT).into()));
    assert_eq!(plan_text(&plan[1..], &mut []), Err(refusal(1, 0)));
    let mut lent = vec![OLD_BYTE; TEXT_A.len()];
    assert_eq!(plan_text(&plan, &mut lent[1..]), Err(refusal(13, TEXT_A.len())));
    assert!(lent.iter().all(|&byte| byte == OLD_BYTE));
    assert_eq!(plan_text(&plan, &mut lent), Ok(TEXT_A.len()));
}

/// Of the lines those of modes give the most bytes each; a plan may print more than is read.
#[test]
fn the_longest() {
    let top = "bus kbit/s 0 overhead-bytes 0 least-payload 0 largest-payload 0 gap-bits 0 resolution 0\nnodes 0\n";
    let line = "mode of module 0 period 0 switch 0\n";
    let mut text = top.to_string() + &line.repeat((LONGEST_TEXT - top.len()) / line.len());
    text.pop();
    assert!(text.len() + line.len() > LONGEST_TEXT);
    assert_eq!(read(text).map(|plan| plan.len()), Ok(LONGEST_PLAN_READ));
    let plan = [&job_a().bytes()[..19], &[3].repeat(2 * 32_000), &[0]].concat();
    assert!(plan.len() <= 65_536);
    let text = text_of(&plan).unwrap();
    assert!(text.len() > LONGEST_TEXT);
    assert_eq!(read(text), Err(Refusal { number: 61, place: LONGEST_TEXT }.into()));
}

/// What a plan's bytes say, put together line by line.
fn text_word_by_word(plan: &[u8]) -> String {
    let mut text = String::new();
    let mut rest = plan;
    let mut last = 0;
    let mut thing = 0;
    for record in 0.. {
        let (told, name, length) = line_word_by_word(rest);
        if length == 1 {
            break;
        }
        thing = if rest[0] == last { thing + 1 } else { 0 };
        last = rest[0];
        let name = name.map_or(String::new(), |name| format!("{name} {thing}, "));
        text += &format!("{told:<47}  # {name}record {record}\n");
        rest = &rest[length..];
    }
    text
}

fn line_word_by_word(record: &[u8]) -> (String, Option<&'static str>, usize) {
    let two = |at: usize| u16::from_le_bytes([record[at], record[at + 1]]);
    let four = |at: usize| u32::from(two(at)) + (u32::from(two(at + 2)) << 16);
    let bus = || {
        format!(
            "bus kbit/s {} overhead-bytes {} least-payload {} largest-payload {} gap-bits {} resolution {}",
            four(1),
            two(5),
            two(7),
            two(9),
            two(11),
            four(13)
        )
    };
    let one = |at: usize| record[at];
    match record[0] {
        1 => (bus(), None, 17),
        9 => (format!("{} bits-per-byte {}", bus(), one(17)), None, 18),
        2 => (format!("nodes {}", one(1)), None, 2),
        3 => (format!("module on node {}", one(1)), Some("module"), 2),
        4 => {
            let periods = format!("period {:>7} switch {:>7}", four(2), four(6));
            (format!("mode of module {:>2} {periods}", one(1)), Some("mode"), 10)
        }
        5 => {
            let told = format!("bytes {} worst {:>7}", one(2), four(3));
            (format!("task of module {:>2} {told}", one(1)), Some("task"), 7)
        }
        6 => {
            let told = format!("task {:>2} rate {:>5}", one(2), two(3));
            (format!("run in mode {:>2} {told}", one(1)), Some("run"), 5)
        }
        7 => {
            let told = format!("connect task {:>2} to task {:>2}", one(1), one(2));
            (told, Some("connection"), 3)
        }
        _ => (String::new(), None, 1),
    }
}

/// What is printed is as the lines above have it, and reads back byte for byte.
#[test]
fn plans_seeded() {
    let mut counts = Counts::new();
    for seed in 0..10_000 {
        let PlanCase { plan, room } = generate::plan_case(&mut Rng::new(seed));
        let mut lent = vec![OLD_BYTE; room];
        let answer = plan_text(&plan, &mut lent);
        count(&mut counts, &answer);
        assert!(lent[answer.unwrap_or(0)..].iter().all(|&byte| byte == OLD_BYTE), "seed {seed}");
        if plan.len() > LONGEST_PLAN {
            assert_eq!(answer, Err(Refusal { number: 61, place: LONGEST_PLAN }), "seed {seed}");
            continue;
        }
        let Some(text) = text_of(&plan) else {
            let place = outline(&plan, &PLAN_FILE).expect_err("broken records");
            assert_eq!(answer, Err(Refusal { number: 1, place }), "seed {seed}");
            continue;
        };
        assert!(text == text_word_by_word(&plan).as_bytes(), "seed {seed}");
        assert_eq!(answer.is_ok(), room >= text.len(), "seed {seed}");
        match text_plan(&text, &mut vec![0; plan.len()]) {
            Err(unread) => {
                assert_eq!(unread.refusal.number, 61, "seed {seed}");
                assert!(text.len() > LONGEST_TEXT, "seed {seed}");
            }
            Ok(_) => assert!(read(&text) == Ok(plan), "seed {seed}"),
        }
    }
    assert_reached(&counts, [0, 1, 13, 61]);
}

/// Any other plan prints otherwise, also one in which a single bit is another.
#[test]
fn changed_plans() {
    for seed in 0..10_000 {
        let rng = &mut Rng::new(seed);
        let mut plan = any_records(rng);
        let Some(before) = text_of(&plan) else { continue };
        let at = rng.below(plan.len());
        plan[at] ^= 1 << rng.below(8);
        assert_ne!(text_of(&plan), Some(before), "seed {seed}");
    }
}

/// Spaces, line ends, blank lines, comments and zeros in front are the reader's own.
#[test]
fn other_layouts() {
    for seed in 0..4_000 {
        let rng = &mut Rng::new(seed);
        let plan = any_plan(rng);
        let Some(text) = text_of(&plan) else { continue };
        let other = rewritten(rng, &text);
        if other.len() <= LONGEST_TEXT {
            assert!(read(other) == Ok(plan), "seed {seed}");
        }
    }
}

/// Any text is read or refused with a reason, and what is read keeps the record rules.
#[test]
fn texts_seeded() {
    let mut counts = Counts::new();
    let mut reasons = BTreeMap::new();
    for seed in 0..20_000 {
        let TextCase { text, room } = generate::plan_text_case(&mut Rng::new(seed));
        let mut lent = vec![OLD_BYTE; room];
        let answer = text_plan(&text, &mut lent);
        count(&mut counts, &answer.map_err(|unread| unread.refusal));
        assert!(lent[answer.unwrap_or(0)..].iter().all(|&byte| byte == OLD_BYTE), "seed {seed}");
        match answer {
            Ok(length) => assert!(outline(&lent[..length], &PLAN_FILE).is_ok(), "seed {seed}"),
            Err(TextRefusal { refusal, reason }) => {
                assert_eq!(reason.is_some(), refusal.number == 60, "seed {seed}");
                if let Some(reason) = reason {
                    *reasons.entry(reason.to_string()).or_insert(0) += 1;
                }
            }
        }
    }
    assert_reached(&counts, [0, 13, 60, 61]);
    println!("{reasons:?}");
    // These two words only begin lines.
    let first = ["run expected", "connect expected"];
    let all = (0..100).filter_map(Reason::numbered).map(|reason| reason.to_string());
    let missed: Vec<String> = all
        .filter(|reason| !reasons.contains_key(reason) && !first.contains(&reason.as_str()))
        .collect();
    assert!(missed.is_empty(), "not reached: {missed:?}");
}
