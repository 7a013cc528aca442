//! Plans and sheets as text, and what the library says in words.

use olbiothar::{
    LONGEST_SHEET, LONGEST_WORDS, Reason, Refusal, TextRefusal, Word, plan_text, sheet,
    sheet_table, text_plan,
};
use std::collections::BTreeSet;

const PLAN: &[u8] = include_bytes!("../../docs/examples/job-a.plan");
const TEN_BITS: &[u8] = include_bytes!("../../docs/examples/job-a-ten-bits.plan");
const SHEET: &[u8] = include_bytes!("../../docs/examples/job-a.sheet");
const OLD: u8 = 0x5a;

fn printed(plan: &[u8]) -> Vec<u8> {
    let Err(Refusal::BufferTooShort { needed }) = plan_text(plan, &mut []) else {
        panic!("a plan has a text")
    };
    let mut text = vec![0; needed as usize];
    assert_eq!(plan_text(plan, &mut text), Ok(text.len()));
    text
}

#[test]
fn a_printed_plan_reads_back() {
    for plan in [PLAN, TEN_BITS] {
        let text = printed(plan);
        assert!(text.starts_with(b"bus kbit/s "));
        let mut back = vec![OLD; text.len()];
        assert_eq!(text_plan(&text, &mut back), Ok(plan.len()));
        let (front, behind) = back.split_at(plan.len());
        assert_eq!(front, plan);
        assert!(behind.iter().all(|&byte| byte == OLD));
    }
}

#[test]
fn a_refused_plan_leaves_the_text() {
    let text = &mut [OLD; 100];
    assert_eq!(plan_text(&[], text), Err(Refusal::BadRecords { offset: 0 }));
    assert_eq!(plan_text(&PLAN[..19], text), Err(Refusal::BadRecords { offset: 19 }));
    let needed = printed(PLAN).len() as u64;
    assert_eq!(plan_text(PLAN, text), Err(Refusal::BufferTooShort { needed }));
    assert_eq!(*text, [OLD; 100]);
}

#[test]
fn a_refused_text_leaves_the_plan() {
    let (text, plan) = (printed(PLAN), &mut [OLD; 100]);
    let few = &mut plan[..PLAN.len() - 1];
    let needed = PLAN.len() as u64;
    assert_eq!(text_plan(&text, few), Err(TextRefusal::BufferTooShort { needed }));
    assert_eq!(text_plan(&[b' '; LONGEST_SHEET + 1], plan), Err(TextRefusal::TooLong));
    let missing = TextRefusal::Unreadable { line: 2, reason: Reason::BusExpected };
    assert_eq!(text_plan(&[b' '; LONGEST_SHEET], plan), Err(missing));
    assert_eq!(*plan, [OLD; 100]);
}

/// A text whose last line is at fault.
fn reason_for(lines: &str) -> Reason {
    let Err(TextRefusal::Unreadable { line, reason }) = text_plan(lines.as_bytes(), &mut []) else {
        panic!("{lines}")
    };
    assert_eq!(line as usize, lines.lines().count(), "{lines}");
    reason
}

#[test]
fn every_reason() {
    let bus =
        "bus kbit/s 1 overhead-bytes 1 least-payload 1 largest-payload 1 gap-bits 1 resolution 1\n";
    let begun = format!("{bus}nodes 2\n");
    assert_eq!(reason_for("nodes 2"), Reason::BusExpected);
    assert_eq!(reason_for(&format!("{bus}module on node 1")), Reason::NodesExpected);
    for (line, reason) in [
        ("rate 3", Reason::UnknownWord),
        ("nodes 2", Reason::OutOfOrder),
        ("module of node 0", Reason::Expected(Word::On)),
        ("module on", Reason::Expected(Word::Node)),
        ("module on node", Reason::NumberExpected),
        ("module on node 0x1", Reason::NumberExpected),
        ("module on node 256", Reason::NumberTooLarge),
        ("module on node 1 2", Reason::EndOfLineExpected),
        ("run in mode 0 task 0 rates 2", Reason::Expected(Word::Rate)),
        ("connect task 0 from task 1", Reason::Expected(Word::To)),
    ] {
        assert_eq!(reason_for(&format!("{begun}{line}")), reason, "{line}");
    }
}

#[test]
fn each_number_has_its_reason_and_each_reason_its_words() {
    let reasons: Vec<Reason> = (0..=100).filter_map(Reason::from_number).collect();
    assert_eq!(reasons.len(), 7 + Word::ALL.len());
    for reason in &reasons {
        assert_eq!(Reason::from_number(reason.number()), Some(*reason));
        assert_eq!(reason.to_string(), reason.words().as_str());
    }
    for number in [0, 8, 31, 56, u32::MAX] {
        assert_eq!(Reason::from_number(number), None);
    }
    assert_eq!(Reason::Expected(Word::Rate).to_string(), "rate expected");
    assert_eq!(Reason::Expected(Word::KilobitsPerSecond).to_string(), "kbit/s expected");
    assert_eq!(Reason::EndOfLineExpected.to_string(), "end of line expected");
    // A bus and nodes may be missing as a line, or as a word of one.
    let words: BTreeSet<String> = reasons.iter().map(ToString::to_string).collect();
    assert_eq!(words.len(), reasons.len() - 2);
}

#[test]
fn each_number_has_its_refusal_and_each_refusal_its_words() {
    let refusals: Vec<Refusal> =
        (0..=100).filter_map(|number| Refusal::from_number(number, 5)).collect();
    let mut words = BTreeSet::new();
    for refusal in &refusals {
        let again = Refusal::from_number(refusal.number(), refusal.place());
        assert_eq!(again, Some(*refusal));
        let said = refusal.words();
        assert!(!said.is_empty() && said.len() < LONGEST_WORDS && said.is_ascii(), "{said}");
        assert!(words.insert(said.to_string()), "{said}");
        let line = format!("refused {} at {}: {said}", refusal.number(), refusal.place());
        assert_eq!(refusal.to_string(), line);
        assert_eq!(format!("{said:?}"), format!("{:?}", said.as_str()));
    }
    assert_eq!(refusals.len(), 31);
    assert_eq!(Refusal::from_number(0, 5), None);
    assert!(Refusal::NoRoom { frame: 3 }.words().starts_with("no place for a frame"));
}

#[test]
fn a_text_refusal_in_words() {
    let unreadable = TextRefusal::Unreadable { line: 7, reason: Reason::UnknownWord };
    assert_eq!(unreadable.to_string(), "unreadable line 7: unknown word");
    assert_eq!(Refusal::from(unreadable), Refusal::Unreadable { line: 7 });
    assert_eq!(TextRefusal::TooLong.to_string(), "too long");
    let too_long = Refusal::TextTooLong { most: LONGEST_SHEET as u64 };
    assert_eq!(Refusal::from(TextRefusal::TooLong), too_long);
    let short = TextRefusal::BufferTooShort { needed: 9 };
    assert_eq!(Refusal::from(short), Refusal::BufferTooShort { needed: 9 });
    assert_eq!(short.to_string(), Refusal::from(short).to_string());
}

#[test]
fn a_sheet_reads_back_and_a_refused_one_leaves_the_table() {
    let mut table = [OLD; 80];
    assert_eq!(sheet_table(SHEET, &mut table), Ok(75));
    let mut text = vec![OLD; LONGEST_SHEET];
    let sheet_again = sheet(PLAN, &table[..75], &mut text);
    assert_eq!((sheet_again.checked, &text[..sheet_again.length]), (Ok(()), SHEET));
    let too_short = sheet(PLAN, &table[..75], &mut text[1..]);
    assert_eq!(too_short.length, 0);
    let needed = LONGEST_SHEET as u64;
    assert_eq!(too_short.checked, Err(Refusal::BufferTooShort { needed }));

    let table = &mut [OLD; 74];
    assert_eq!(sheet_table(SHEET, table), Err(Refusal::BufferTooShort { needed: 75 }));
    assert_eq!(sheet_table(b"\nrow", table), Err(Refusal::Unreadable { line: 2 }));
    assert_eq!(
        sheet_table(&[b' '; LONGEST_SHEET + 1], table),
        Err(Refusal::TextTooLong { most: LONGEST_SHEET as u64 })
    );
    assert_eq!(*table, [OLD; 74]);
}
