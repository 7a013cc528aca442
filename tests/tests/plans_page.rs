//! docs/PLANS.md: its examples get the answers that stand beside them.

use reference::maker::LONGEST_TABLE;
use reference::text::LONGEST_TEXT;
use reference::{Edition, FrameRow, MOST_FRAMES, Refusal, TextRefusal, make, plan_text, text_plan};

const PAGE: &str = include_str!("../../docs/PLANS.md");
const TEXT_A: &str = include_str!("../../docs/examples/job-a.plan.txt");
const PLAN_A: &[u8] = include_bytes!("../../docs/examples/job-a.plan");

const MADE: &str = "a table";

/// What `textplan` and then `bustable` answer to a text.
fn answer(text: &str) -> String {
    let mut plan = vec![0; text.len()];
    let length = match text_plan(text.as_bytes(), &mut plan) {
        Ok(length) => length,
        Err(TextRefusal { refusal, reason: Some(reason) }) => {
            return format!("unreadable line {}: {reason}", refusal.place);
        }
        Err(refused) => panic!("{refused:?}"),
    };
    let mut rows = [FrameRow::default(); MOST_FRAMES];
    match make(&plan[..length], Edition::Basic, &mut rows, &mut [0; LONGEST_TABLE]) {
        Ok(_) => MADE.to_owned(),
        Err(Refusal { number, place }) => format!("refused {number} at {place}"),
    }
}

/// The cells of the rows below each head like this one.
fn tables(head: &str) -> impl Iterator<Item = Vec<&str>> {
    let behind_head =
        |part: &'static str| part.lines().skip(2).take_while(|row| row.starts_with('|'));
    let cells = |row: &'static str| row.trim_matches('|').split('|').map(str::trim).collect();
    PAGE.split(head).skip(1).flat_map(behind_head).map(cells)
}

/// What stands in backquotes.
fn quoted(cell: &str) -> Vec<&str> {
    cell.split('`').skip(1).step_by(2).collect()
}

/// The lines, with those of a cell such as 12: `line` in their places; `13: no line` takes one out.
fn changed(lines: &[String], cell: &str) -> Vec<String> {
    let mut lines = lines.to_vec();
    let mut numbers = cell.split('`').step_by(2).filter_map(|part| part.trim().split_once(':'));
    if cell.ends_with("no line") {
        lines.remove(numbers.next().unwrap().0.parse().unwrap());
        return lines;
    }
    for (line, (record, _)) in quoted(cell).into_iter().zip(numbers) {
        let record: usize = record.parse().unwrap();
        lines.splice(record..lines.len().min(record + 1), [line.to_owned()]);
    }
    lines
}

#[test]
fn texts_of_job_a() {
    let texts = PAGE.split("\n```\n").skip(1).step_by(2);
    for text in texts.clone().chain([TEXT_A]) {
        let mut plan = vec![0; text.len()];
        let length = text_plan(text.as_bytes(), &mut plan).unwrap();
        assert_eq!(&plan[..length], PLAN_A);
    }
    assert_eq!(texts.count(), 2);
    let mut text = vec![0; LONGEST_TEXT];
    let length = plan_text(PLAN_A, &mut text).unwrap();
    assert_eq!(&text[..length], TEXT_A.as_bytes());
}

#[test]
fn unreadable_lines() {
    let front: String = TEXT_A.split_inclusive('\n').take(2).collect();
    let mut examples = 0;
    for row in tables("| Line 3 | Answer | It should be |") {
        let [line, said] = [row[0], row[1]].map(|cell| quoted(cell)[0]);
        assert_eq!(answer(&format!("{front}{line}\n")), said, "{line}");
        if row[2].starts_with('`') {
            let mended = answer(&format!("{front}{}\n", quoted(row[2])[0]));
            assert!(!mended.starts_with("unreadable"), "{line}: {mended}");
        }
        examples += 1;
    }
    assert_eq!(examples, 17);
}

#[test]
fn refused_plans() {
    let job_a: Vec<String> = TEXT_A.lines().map(str::to_owned).collect();
    let mut examples = 0;
    for row in tables("| Before | Answer | After |") {
        let before = changed(&job_a, row[0]);
        assert_eq!(answer(&before.join("\n")), quoted(row[1])[0], "{}", row[0]);
        let after = changed(&before, row[2]);
        assert_eq!(answer(&after.join("\n")), MADE, "{}", row[2]);
        examples += 1;
    }
    assert_eq!(examples, 20);
}
