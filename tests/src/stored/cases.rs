//! A case of the program `vectors`: what it is given, and the line that it must write.

use crate::generate::PLENTY;
use crate::plan;
use crate::vectors::{bytes, edition_of};
use crate::{Edition, FrameRow, MOST_FRAMES, Refusal, check, make};

/// What stands in a lent buffer.
const OLD: u8 = 165;

#[derive(Clone, Copy)]
pub enum What {
    Read = 0,
    Make = 1,
    Check = 2,
    MakeForConsumers = 3,
}

pub struct Case {
    pub what: What,
    pub rows: usize,
    pub room: usize,
    /// Stands in front of the line.
    pub text: String,
    pub plan: Vec<u8>,
    pub table: Vec<u8>,
    pub line: String,
}

impl Case {
    fn new(what: What, plan: &[u8]) -> Case {
        let (text, line) = (String::new(), String::new());
        Case {
            what,
            rows: MOST_FRAMES,
            room: 0,
            text,
            plan: plan.to_vec(),
            table: Vec::new(),
            line,
        }
    }

    /// A plan that is read, answered by this implementation. The same holds of the next two.
    pub fn read(file: &[u8]) -> Case {
        let line = match plan::read(file) {
            Ok(_) => "sound".to_string(),
            Err(refusal) => refused(refusal),
        };
        Case { line, ..Case::new(What::Read, file) }
    }

    pub fn make(plan: &[u8], rows: usize, room: usize) -> Case {
        let mut lent = vec![FrameRow::default(); rows];
        let mut buffer = vec![OLD; room];
        let line = match make(plan, Edition::Basic, &mut lent, &mut buffer) {
            Ok(length) => format!("table {} rows{}", hex(&buffer[..length]), frames(&lent)),
            Err(refusal) => refused(refusal),
        };
        Case::made(plan, Edition::Basic, rows, room, &line)
    }

    pub fn check(plan: &[u8], table: &[u8], rows: usize) -> Case {
        let mut lent = vec![FrameRow::default(); rows];
        let line = match check(plan, table, &mut lent) {
            Ok(()) => format!("passed rows{}", frames(&lent)),
            Err(refusal) => refused(refusal),
        };
        Case::checked(plan, table, rows, &line)
    }

    /// A plan whose table is made, with its answer: behind it stand how many bytes of the buffer are
    /// kept, and how many of the rows by value are zero.
    pub fn made(plan: &[u8], edition: Edition, rows: usize, room: usize, answer: &str) -> Case {
        let mut words = answer.split(' ');
        let (length, frames) = match words.next() {
            Some("table") => (words.next().expect("a table").len() / 2, words.skip(1).count()),
            _ => (0, 0),
        };
        let line = format!("{answer} kept {} zero {}", room - length, MOST_FRAMES - frames);
        let what = match edition {
            Edition::Basic => What::Make,
            Edition::Consumers => What::MakeForConsumers,
        };
        Case { rows, room, line, ..Case::new(what, plan) }
    }

    /// A table that is checked, with its answer.
    pub fn checked(plan: &[u8], table: &[u8], rows: usize, answer: &str) -> Case {
        let (table, line) = (table.to_vec(), answer.to_string());
        Case { rows, table, line, ..Case::new(What::Check, plan) }
    }

    pub fn called(self, name: &str) -> Case {
        Case { text: format!("{name}: "), ..self }
    }

    /// The case as the program reads it.
    pub fn bytes(&self) -> Vec<u8> {
        let lengths = [self.text.len(), self.plan.len(), self.table.len()];
        let head = [[self.what as usize, self.rows, self.room], lengths].concat();
        let head: Vec<u8> = head.into_iter().flat_map(number).collect();
        [&head, self.text.as_bytes(), &self.plan, &self.table].concat()
    }
}

fn number(x: usize) -> [u8; 4] {
    u32::try_from(x).expect("four bytes").to_le_bytes()
}

fn refused(refusal: Refusal) -> String {
    format!("refused {} at {}", refusal.number, refusal.place)
}

/// A row of a frame has a deadline, and a zero row has none.
fn frames(rows: &[FrameRow]) -> String {
    let frames = rows.iter().filter(|row| row.deadline > 0);
    let text =
        |row: &FrameRow| format!(" {},{},{},{}", row.task, row.release, row.deadline, row.start);
    frames.map(text).collect()
}

fn hex(bytes: &[u8]) -> String {
    bytes.iter().map(|byte| format!("{byte:02x}")).collect()
}

/// The three words in front of a vector's arrow, and the answer behind it.
fn vector(line: &str) -> ([&str; 3], &str) {
    let (given, answer) = line.split_once(" -> ").expect("an arrow");
    let words: Vec<&str> = given.split(' ').collect();
    (words.try_into().expect("three words"), answer)
}

/// A vector `PLAN ROWS ROOM -> ..`, with its edition in front if it says one; plenty of room where it is left open.
pub fn made(line: &str) -> Case {
    let (edition, line) = edition_of(line);
    let ([plan, rows, room], answer) = vector(line);
    let room = room.parse().unwrap_or(PLENTY);
    Case::made(&bytes(plan), edition, rows.parse().expect("a number of rows"), room, answer)
}

/// A vector `PLAN TABLE ROWS -> ..`.
pub fn checked(line: &str) -> Case {
    let ([plan, table, rows], answer) = vector(line);
    Case::checked(&bytes(plan), &bytes(table), rows.parse().expect("a number of rows"), answer)
}
