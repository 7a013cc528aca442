//! Sheets: printed as docs/RULES.md has them, and read back.

mod counts;

use counts::{Counts, assert_reached, count};
use reference::bus::{Sending, derive};
use reference::checker::{DataRow, frame_of};
use reference::generate::{
    self, Draft, Made, PLENTY, Rng, SheetCase, Size, TableDraft, TextCase, job_a, longest_table,
    made_plan, move_rows, seeds,
};
use reference::maker::LONGEST_TABLE;
use reference::{
    Edition, FrameRow, LONGEST_SHEET, MOST_FRAMES, Refusal, Sheet, check, plan, sheet, sheet_table,
};

const SHEET_A: &str = "\
cycle 60000  # ticks of one microsecond
# kind   node  task  release  deadline       start        stop  bits    ticks  from-release  to-deadline  # record
control     0     -        -         -           0          72    72       72             -            -  # 1
data        0     0     1000     20000       19904       20000    96       96         18904            0  # 2
data        0     0     1000     30000       29904       30000    96       96         28904            0  # 3
data        0     0    21000     40000       39904       40000    96       96         18904            0  # 4
data        0     0    41000     60000       59894       59990    96       96         18894           10  # 5
";

const EARLY_ROW: &str = "data        0     0     1000     20000         999        1095    96       96            -1        18905  # 2";

const OLD_BYTE: u8 = 0xa5;

/// What a check says, and the text; behind it the lent bytes are as they were.
fn printed(plan: &[u8], table: &[u8]) -> (Result<(), Refusal>, String) {
    let mut text = vec![OLD_BYTE; LONGEST_SHEET];
    let Sheet { checked, length } = sheet(plan, table, &mut text);
    assert!(text[length..].iter().all(|&byte| byte == OLD_BYTE));
    text.truncate(length);
    (checked, String::from_utf8(text).unwrap())
}

/// The table that a text reads as; behind it the lent bytes are as they were, all after a refusal.
fn read(text: impl AsRef<[u8]>) -> Result<Vec<u8>, Refusal> {
    let mut table = vec![OLD_BYTE; PLENTY];
    let answer = sheet_table(text.as_ref(), &mut table);
    let length = answer.unwrap_or(0);
    assert!(table[length..].iter().all(|&byte| byte == OLD_BYTE));
    table.truncate(length);
    answer.map(|_| table)
}

fn unreadable(line: usize) -> Result<Vec<u8>, Refusal> {
    Err(Refusal { number: 60, place: line })
}

fn made_a() -> Made {
    Made::of(&job_a().bytes(), Edition::Basic).unwrap()
}

/// Job A with one data row moved, printed.
fn moved(row: usize, start: u32, stop: u32) -> (Result<(), Refusal>, String) {
    let Made { plan, mut table, .. } = made_a();
    (table.data[row].start, table.data[row].stop) = (start, stop);
    printed(&plan, &table.bytes())
}

/// SHEET_A with this line in front, and another in the place of a record's.
fn sheet_a_with(top: &str, record: usize, line: &str) -> String {
    let mut lines: Vec<&str> = SHEET_A.lines().collect();
    lines[1 + record] = line;
    format!("{top}\n{}\n", lines.join("\n"))
}

#[test]
fn job_a_printed_and_read() {
    let Made { plan, table, .. } = made_a();
    assert_eq!(printed(&plan, &table.bytes()), (Ok(()), SHEET_A.to_string()));
    assert_eq!(read(SHEET_A), Ok(table.bytes()));
}

#[test]
fn an_early_row() {
    let (checked, text) = moved(0, 999, 1_095);
    assert_eq!(checked, Err(Refusal { number: 25, place: 2 }));
    assert_eq!(text, sheet_a_with("refused 25 at 2", 2, EARLY_ROW));
    let bytes: [&[u8]; 7] = [
        &[0x10, 0x60, 0xea, 0, 0, 1, 4, 0],
        &[0x11, 0, 0, 0, 0, 0, 0x48, 0, 0, 0],
        &[0x12, 0, 0x20, 0x4e, 0, 0, 0xe7, 0x03, 0, 0, 0x47, 0x04, 0, 0],
        &[0x12, 0, 0x30, 0x75, 0, 0, 0xd0, 0x74, 0, 0, 0x30, 0x75, 0, 0],
        &[0x12, 0, 0x40, 0x9c, 0, 0, 0xe0, 0x9b, 0, 0, 0x40, 0x9c, 0, 0],
        &[0x12, 0, 0x60, 0xea, 0, 0, 0xf6, 0xe9, 0, 0, 0x56, 0xea, 0, 0],
        &[0],
    ];
    assert_eq!(read(text), Ok(bytes.concat()));
}

#[test]
fn as_short_as_can_be() {
    let text = "cycle 9\ncontrol 1 - - - 2 3 0 0 - -\ndata 0 2 0 4 5 6 0 0 0 -0\n";
    let bytes: [&[u8]; 4] = [
        &[0x10, 9, 0, 0, 0, 1, 1, 0],
        &[0x11, 1, 2, 0, 0, 0, 3, 0, 0, 0],
        &[0x12, 2, 4, 0, 0, 0, 5, 0, 0, 0, 6, 0, 0, 0],
        &[0],
    ];
    assert_eq!(read(text), Ok(bytes.concat()));
}

macro_rules! station {
    ($number:literal) => {
        [
            include_bytes!(concat!("../vectors/stations/station-", $number, ".plan")).as_slice(),
            include_bytes!(concat!("../vectors/stations/station-", $number, ".table")),
            include_bytes!(concat!("../vectors/stations/station-", $number, ".sheet")),
        ]
    };
}

#[test]
fn stations() {
    for [plan, table, text] in [station!("1"), station!("2"), station!("3")] {
        let (checked, printed) = printed(plan, table);
        assert_eq!((checked, printed.as_bytes()), (Ok(()), text));
        assert_eq!(read(text), Ok(table.to_vec()));
    }
}

/// A row laid too late, too near to the one before it, or too near to the end.
#[test]
fn other_misplaced_rows() {
    let row = |times: &str, record: usize| {
        let old = SHEET_A.lines().nth(1 + record).unwrap();
        format!("{}{times}  # {record}", &old[..old.find("  #").unwrap() - times.len()])
    };
    let late = row("39905       40001    96       96         18905           -1", 4);
    let crowded = row("20005       20101    96       96         19005         9899", 3);
    let last = row("59904       60000    96       96         18904            0", 5);
    assert_eq!(moved(2, 39_905, 40_001).1, sheet_a_with("refused 26 at 4", 4, &late));
    assert_eq!(moved(1, 20_005, 20_101).1, sheet_a_with("refused 27 at 3", 3, &crowded));
    assert_eq!(moved(3, 59_904, 60_000).1, sheet_a_with("refused 28 at 5", 5, &last));
}

#[test]
fn refusals_alone() {
    let Made { plan, table, .. } = made_a();
    let line = |edit: fn(&mut TableDraft)| {
        let mut table = table.clone();
        edit(&mut table);
        printed(&plan, &table.bytes()).1
    };
    assert_eq!(line(|table| table.data_count = 3), "refused 21 at 0\n");
    assert_eq!(line(|table| table.control[0].stop = 73), "refused 22 at 1\n");
    assert_eq!(line(|table| table.data[3].deadline = 50_000), "refused 23 at 5\n");
    assert_eq!(line(|table| table.data[1].stop += 1), "refused 24 at 3\n");
    assert_eq!(printed(&plan, &[]).1, "refused 20 at 0\n");
    assert_eq!(printed(&[], &[]).1, "refused 1 at 0\n");
    let twice =
        Draft { connections: [job_a().connections, job_a().connections].concat(), ..job_a() };
    assert_eq!(printed(&twice.bytes(), &table.bytes()).1, "refused 5 at 13\n");
}

/// Rows in the order of the file; sorted by start they would read back as another table.
#[test]
fn rows_in_their_order() {
    let Made { plan, mut table, .. } = made_a();
    table.data.swap(0, 2);
    let (checked, text) = printed(&plan, &table.bytes());
    assert_eq!(checked, Err(Refusal { number: 27, place: 3 }));
    let starts: Vec<&str> =
        text.lines().skip(4).filter_map(|line| line.split_whitespace().nth(5)).collect();
    assert_eq!(starts, ["39904", "29904", "19904", "59894"]);
    assert_eq!(read(text), Ok(table.bytes()));
}

/// Differences are those of whole numbers, also where they do not fit into 32 bits.
#[test]
fn the_largest_numbers() {
    let (_, text) = moved(0, 4_294_967_199, 4_294_967_295);
    let line = "data        0     0     1000     20000  4294967199  4294967295    96       96    4294966199  -4294947295  # 2";
    assert_eq!(text, sheet_a_with("refused 26 at 2", 2, line));
}

/// Bits are exact; ticks are rounded to a tick and then to the resolution.
#[test]
fn bits_and_ticks() {
    let mut plan = job_a().with_byte_bits(Some(9));
    (plan.bits.kbits, plan.bits.resolution) = (700, 20);
    let made = Made::of(&plan.bytes(), Edition::Basic).unwrap();
    let (_, text) = printed(&made.plan, &made.table.bytes());
    let cells = |record: usize| -> Vec<&str> {
        text.lines().nth(1 + record).unwrap().split_whitespace().skip(7).take(2).collect()
    };
    assert_eq!(cells(1), ["81", "120"]);
    assert_eq!(cells(2), ["108", "160"]);
}

/// One byte for each sending module of that node, not of all.
#[test]
fn bits_of_control_rows() {
    let made = Made::of(&longest_table().bytes(), Edition::Basic).unwrap();
    let (_, text) = printed(&made.plan, &made.table.bytes());
    assert!(text.lines().skip(2).take(8).all(|line| line.split_whitespace().nth(7) == Some("8")));
}

#[test]
fn numbers_out_of_their_ranges() {
    let control = |node: &str, start: &str, stop: &str| {
        read(format!("cycle 9\ncontrol {node} - - - {start} {stop} 0 0 - -\n"))
    };
    let data = |task: &str, deadline: &str, told: &str| {
        read(format!(
            "cycle 9\ndata {told} {task} {told} {deadline} 5 6 {told} {told} {told} -{told}\n"
        ))
    };
    assert!(control("255", "4294967295", "4294967295").is_ok());
    assert_eq!(control("256", "0", "0"), unreadable(2));
    assert_eq!(control("0", "4294967296", "0"), unreadable(2));
    assert_eq!(control("0", "0", "4294967296"), unreadable(2));
    assert!(data("255", "4294967295", "18446744073709551615").is_ok());
    assert_eq!(data("256", "0", "0"), unreadable(2));
    assert_eq!(data("0", "4294967296", "0"), unreadable(2));
    assert_eq!(data("0", "0", "18446744073709551616"), unreadable(2));
    assert_eq!(read("cycle 4294967296"), unreadable(1));
    assert!(read("cycle 00000000000000000000000000000004294967295").is_ok());
}

#[test]
fn lines_counted() {
    assert_eq!(read(""), unreadable(1));
    assert_eq!(read("\n"), unreadable(2));
    assert_eq!(read("# nothing"), unreadable(2));
    assert_eq!(read("# nothing\n"), unreadable(2));
    assert_eq!(read("\n\r\n \t\n"), unreadable(4));
    assert_eq!(read("refused 12 at 3\n"), unreadable(2));
    assert_eq!(read("cycle 5\n\n# x\ncycle 5"), unreadable(4));
    assert_eq!(read("cycle 0"), Ok(vec![16, 0, 0, 0, 0, 0, 0, 0, 0]));
    assert_eq!(read(SHEET_A.trim_end()), read(SHEET_A));
}

#[test]
fn words_of_a_line() {
    let top = |line: &str| read(format!("{line}\ncycle 5\n"));
    assert!(top("refused 18446744073709551615 at 0#2").is_ok());
    for line in [
        "refused 25 at",
        "refused 25 at 2 3",
        "refused 25 to 2",
        "refused -1 at 2",
        "Refused 25 at 2",
    ] {
        assert_eq!(top(line), unreadable(1), "{line}");
    }
    assert_eq!(top("refused 25 at 2\nrefused 25 at 2"), unreadable(2));
    let row = |line: &str| read(format!("cycle 5\n{line}\n"));
    assert!(row("data 1 2 3 4 5 6 7 8 -9 10").is_ok());
    for line in [
        "data 1 2 3 4 5 6 7 8 -9",
        "data 1 2 3 4 5 6 7 8 -9 10 11",
        "data 1 2 3 4 5 6 7 8 - 10",
        "data 1 2 3 4 5 6 7 8 --9 10",
        "data 1 2 3 4 5 6 7 8 +9 10",
        "data 1 2 3 4 -5 6 7 8 9 10",
        "data 1 2 - 4 5 6 7 8 9 10",
        "data 1 2 3 4 5 6 7 8 9 1\u{b}0",
        "control 1 2 - - 5 6 7 8 - -",
        "control 1 - - - 5 6 7 8 - 0",
        "refused 25 at 2",
        "cycle 5",
        "message 1 2 3 4 - - - - 9 10",
    ] {
        assert_eq!(row(line), unreadable(2), "{line}");
    }
    assert_eq!(read("data 1 2 3 4 5 6 7 8 9 10\ncycle 5"), unreadable(1));
    assert_eq!(read("cycle 5 consumers"), Ok(vec![20, 5, 0, 0, 0, 0, 0, 0, 0]));
    for line in [
        "cycle",
        "cycle consumers",
        "cycle 5 5",
        "cycle 5 basic",
        "cycle 5 Consumers",
        "cycle 5 consumer",
        "cycle 5 consumers 5",
        "cycle 5 consumers consumers",
        "cycle consumers 5",
        "cycle 4294967296 consumers",
    ] {
        assert_eq!(read(line), unreadable(1), "{line}");
    }
    assert_eq!(read("cycle 5 consumers\ncycle 5 consumers"), unreadable(2));
}

#[test]
fn numbers_of_rows() {
    let control = "control 1 - - - 2 3 4 5 - -\n";
    let data = "data 1 2 3 4 5 6 7 8 9 10\n";
    let rows = |controls: usize, datas: usize| {
        let text = format!("cycle 9\n{}{}", control.repeat(controls), data.repeat(datas));
        read(text).map(|table| table.len())
    };
    assert_eq!(rows(8, 1_024), Ok(LONGEST_TABLE));
    assert_eq!(rows(9, 1), Err(Refusal { number: 60, place: 10 }));
    assert_eq!(rows(8, 1_025), Err(Refusal { number: 60, place: 1_034 }));
    assert_eq!(read(format!("cycle 9\n{data}{control}")), unreadable(3));
}

/// Too long goes before unreadable, unreadable before a buffer too short; the longest text is read.
#[test]
fn order_of_refusals() {
    let refusal = |number: u32, place: usize| Refusal { number, place };
    let mut text = vec![b' '; LONGEST_SHEET];
    assert_eq!(sheet_table(&text, &mut []), Err(refusal(60, 2)));
    text[..7].copy_from_slice(b"cycle 9");
    assert_eq!(sheet_table(&text, &mut [0; 8]), Err(refusal(13, 9)));
    assert_eq!(sheet_table(&text, &mut [0; 9]), Ok(9));
    text.push(b'x');
    assert_eq!(sheet_table(&text, &mut []), Err(refusal(61, LONGEST_SHEET)));
    let mut short = vec![OLD_BYTE; LONGEST_SHEET - 1];
    let nothing = Sheet { checked: Err(refusal(13, LONGEST_SHEET)), length: 0 };
    assert_eq!(sheet(&[], &[], &mut short), nothing);
    assert!(short.iter().all(|&byte| byte == OLD_BYTE));
}

/// What is checked stands on top, what has rows shows them cell by cell, and reads back to its bytes.
#[test]
fn sheets_seeded() {
    let mut counts = Counts::new();
    for (edition, seed) in seeds(8_000) {
        let SheetCase { plan, table, .. } = generate::sheet_case(&mut Rng::new(seed), edition);
        let (checked, text) = printed(&plan, &table);
        count(&mut counts, &checked);
        assert_eq!(check(&plan, &table, &mut [FrameRow::default(); MOST_FRAMES]), checked);
        let top = match checked {
            Ok(()) => String::new(),
            Err(Refusal { number, place }) => format!("refused {number} at {place}\n"),
        };
        let rows = match checked {
            Ok(()) | Err(Refusal { number: 25..=28, .. }) => rows_word_by_word(&plan, &table),
            Err(_) => String::new(),
        };
        assert_eq!(text, format!("{top}{rows}"), "seed {seed}");
        if !rows.is_empty() {
            assert_eq!(read(text), Ok(table), "seed {seed}");
        }
    }
    assert_reached(&counts, (0..=11).chain(20..=28));
}

fn rows_word_by_word(plan: &[u8], table: &[u8]) -> String {
    let plan = plan::read(plan).unwrap();
    let mut frames = [FrameRow::default(); MOST_FRAMES];
    let (edition, said) = match table[0] {
        20 => (Edition::Consumers, " consumers"),
        _ => (Edition::Basic, ""),
    };
    let bus = derive(&plan, edition, &mut frames).unwrap();
    let table = TableDraft::read(table).unwrap();
    let mut text = format!("cycle {}{said}  # ticks of one microsecond\n", table.period);
    text += &line_word_by_word("# kind", &COLUMNS.join(" "), "record");
    for (record, row) in (1..).zip(&table.control) {
        let sends = |module: &usize| bus.modules >> module & 1 == 1;
        let on_node = |&module: &usize| plan.modules[module].node == row.node;
        let modules = (0..plan.modules.len()).filter(sends).filter(on_node).count();
        let Sending { bits, ticks } = plan.bits.sending(modules as u32);
        let cells = format!("{} - - - {} {} {bits} {ticks} - -", row.node, row.start, row.stop);
        text += &line_word_by_word("control", &cells, &record.to_string());
    }
    for (record, row) in (1 + table.control.len()..).zip(&table.data) {
        let &DataRow { task, deadline, start, stop } = row;
        let release = frames[frame_of(&frames[..bus.frames], row).unwrap()].release;
        let Sending { bits, ticks } = plan.bits.sending(plan.tasks[usize::from(task)].size.into());
        let node = plan.node_of_task(task);
        let (early, late) =
            (i128::from(start) - i128::from(release), i128::from(deadline) - i128::from(stop));
        let cells = format!(
            "{node} {task} {release} {deadline} {start} {stop} {bits} {ticks} {early} {late}"
        );
        text += &line_word_by_word("data", &cells, &record.to_string());
    }
    text
}

const COLUMNS: [&str; 10] = [
    "node",
    "task",
    "release",
    "deadline",
    "start",
    "stop",
    "bits",
    "ticks",
    "from-release",
    "to-deadline",
];

fn line_word_by_word(kind: &str, cells: &str, record: &str) -> String {
    let [a, b, c, d, e, f, g, h, i, j] = cells.split(' ').collect::<Vec<_>>()[..] else {
        panic!("{cells}")
    };
    let windows = format!("{a:>4}  {b:>4}  {c:>7}  {d:>8}  {e:>10}  {f:>10}");
    format!("{kind:<7}  {windows}  {g:>4}  {h:>7}  {i:>12}  {j:>11}  # {record}\n")
}

/// Any other table of the same plan prints otherwise, also one in which a row is only moved.
#[test]
fn changed_tables() {
    let mut counts = Counts::new();
    for (edition, seed) in seeds(8_000) {
        let rng = &mut Rng::new(seed);
        let size = Size::any(rng);
        let mut made = made_plan(rng, edition, &size);
        move_rows(rng, &mut made);
        let (_, before) = printed(&made.plan, &made.table.bytes());
        let old = made.table.clone();
        change_a_number(rng, &mut made.table);
        assert_ne!(old, made.table);
        let (checked, after) = printed(&made.plan, &made.table.bytes());
        count(&mut counts, &checked);
        assert_ne!(before, after, "seed {seed}");
    }
    assert_reached(&counts, [0].into_iter().chain(21..=28));
}

/// One number of the header or of a row; or of a data row start and stop, by the same.
fn change_a_number(rng: &mut Rng, table: &mut TableDraft) {
    let by = rng.pick(&[1, 1, 2, 100, 1 << 8, 1 << 31, u32::MAX]);
    let (control, data) = (rng.below(table.control.len()), rng.below(table.data.len()));
    let (control, data) = (&mut table.control[control], &mut table.data[data]);
    let small = (by % 255) as u8 + 1;
    let more = |number: &mut u32| *number = number.wrapping_add(by);
    match rng.below(15) {
        0 => more(&mut table.period),
        10 => {
            table.edition = match table.edition {
                Edition::Basic => Edition::Consumers,
                Edition::Consumers => Edition::Basic,
            }
        }
        1 => table.control_count ^= small,
        2 => table.data_count ^= u16::from(small),
        3 => control.node ^= small,
        4 => more(&mut control.start),
        5 => more(&mut control.stop),
        6 => data.task ^= small,
        7 => more(&mut data.deadline),
        8 => more(&mut data.start),
        9 => more(&mut data.stop),
        _ => {
            more(&mut data.start);
            more(&mut data.stop);
        }
    }
}

/// Spaces, line ends, blank lines and comments are the reader's own.
#[test]
fn other_layouts() {
    for (edition, seed) in seeds(1_500) {
        let rng = &mut Rng::new(seed);
        let text = String::from_utf8(generate::printed(rng, edition)).unwrap();
        let table = read(&text);
        assert!(table.is_ok(), "seed {seed}");
        let told = |line: &str| line.split('#').next().unwrap_or("").trim_end().to_string();
        let bare: Vec<String> = text.lines().map(told).collect();
        let others = [
            text.replace(' ', "\t"),
            text.replace('\n', "\r\n"),
            text.replace('\n', "#\n \n# a row: data 1\n"),
            bare.join("\n"),
            bare.join(" \t# 1 2 3\r\r\n\n"),
            bare.join("\n")
                .split(' ')
                .filter(|part| !part.is_empty())
                .collect::<Vec<_>>()
                .join(" "),
        ];
        for other in others {
            assert_eq!(read(other), table, "seed {seed}");
        }
    }
}

/// Any text is read or refused, and what is read is a table with a right header.
#[test]
fn texts_seeded() {
    let mut counts = Counts::new();
    for (edition, seed) in seeds(15_000) {
        let TextCase { text, room } = generate::sheet_text_case(&mut Rng::new(seed), edition);
        let mut lent = vec![OLD_BYTE; room];
        let answer = sheet_table(&text, &mut lent);
        count(&mut counts, &answer);
        assert!(lent[answer.unwrap_or(0)..].iter().all(|&byte| byte == OLD_BYTE), "seed {seed}");
        if let Ok(length) = answer {
            let table = TableDraft::read(&lent[..length]).unwrap();
            assert_eq!(table.control.len(), table.control_count.into(), "seed {seed}");
            assert_eq!(table.data.len(), table.data_count.into(), "seed {seed}");
        }
    }
    assert_reached(&counts, [0, 13, 60, 61]);
}
