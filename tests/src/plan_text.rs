//! Plans as text: a line for each record, printed and read: refusals 1, 13, 60 and 61.

use crate::Refusal;
use crate::records::{
    BUS, BUS_WITH_BYTE_BITS, CONNECTION, END, INVOCATION, MODE, MODULE, NODES, Outline, PLAN_FILE,
    TASK, outline, record_length,
};
use crate::text::{LONGEST_NUMBER, LONGEST_TEXT, lines, number, put_digits, words};
use std::fmt::{self, Display, Formatter};

/// The longest plan that is printed.
pub const LONGEST_PLAN: usize = 65_536;

/// What stands at a place of a line.
#[derive(Clone, Copy)]
enum Place {
    Word(&'static str),
    /// A number of so many bytes in its record, at the right end of so many columns.
    Number(usize, usize),
}

use Place::{Number, Word};

/// Kind 1's places are the first ones of kind 9's.
const BUS_PLACES: [Place; 15] = [
    Word("bus"),
    Word("kbit/s"),
    Number(4, 1),
    Word("overhead-bytes"),
    Number(2, 1),
    Word("least-payload"),
    Number(2, 1),
    Word("largest-payload"),
    Number(2, 1),
    Word("gap-bits"),
    Number(2, 1),
    Word("resolution"),
    Number(4, 1),
    Word("bits-per-byte"),
    Number(1, 1),
];
const BUS_WORDS: usize = BUS_PLACES.len() - 2;

const NODES_PLACES: [Place; 2] = [Word("nodes"), Number(1, 1)];

const MODULE_PLACES: [Place; 4] = [Word("module"), Word("on"), Word("node"), Number(1, 1)];

const MODE_PLACES: [Place; 8] = [
    Word("mode"),
    Word("of"),
    Word("module"),
    Number(1, 2),
    Word("period"),
    Number(4, 7),
    Word("switch"),
    Number(4, 7),
];

const TASK_PLACES: [Place; 8] = [
    Word("task"),
    Word("of"),
    Word("module"),
    Number(1, 2),
    Word("bytes"),
    Number(1, 1),
    Word("worst"),
    Number(4, 7),
];

const RUN_PLACES: [Place; 8] = [
    Word("run"),
    Word("in"),
    Word("mode"),
    Number(1, 2),
    Word("task"),
    Number(1, 2),
    Word("rate"),
    Number(2, 5),
];

const CONNECTION_PLACES: [Place; 6] =
    [Word("connect"), Word("task"), Number(1, 2), Word("to"), Word("task"), Number(1, 2)];

fn places(kind: u8) -> &'static [Place] {
    match kind {
        BUS => &BUS_PLACES[..BUS_WORDS],
        BUS_WITH_BYTE_BITS => &BUS_PLACES,
        NODES => &NODES_PLACES,
        MODULE => &MODULE_PLACES,
        MODE => &MODE_PLACES,
        TASK => &TASK_PLACES,
        INVOCATION => &RUN_PLACES,
        CONNECTION => &CONNECTION_PLACES,
        _ => &[],
    }
}

/// Prints a plan that keeps the record rules, whatever its numbers, at the front of the lent text.
pub fn plan_text(plan: &[u8], text: &mut [u8]) -> Result<usize, Refusal> {
    if plan.len() > LONGEST_PLAN {
        return Err(Refusal::new(61, LONGEST_PLAN));
    }
    let cut = outline(plan, &PLAN_FILE).map_err(|place| Refusal::new(1, place))?;
    put_in_front(&printed(&cut), text)
}

fn put_in_front(bytes: &[u8], lent: &mut [u8]) -> Result<usize, Refusal> {
    let needed = bytes.len();
    lent.get_mut(..needed).ok_or(Refusal::new(13, needed))?.copy_from_slice(bytes);
    Ok(needed)
}

/// What the comments call the records that repeat, in the order of their kinds.
const THINGS: [&str; 5] = ["module", "mode", "task", "run", "connection"];

fn printed(cut: &Outline<2, 5>) -> Vec<u8> {
    let mut page = Page(Vec::with_capacity(1 << 14));
    let mut record = 0;
    for once in cut.once {
        page.put_places(once);
        page.put_comment(None, record);
        record += 1;
    }
    for (thing, run) in THINGS.into_iter().zip(cut.repeated) {
        let length = run.first().map_or(1, |&kind| record_length(kind));
        for (number, repeated) in (0..).zip(run.chunks_exact(length)) {
            page.put_places(repeated);
            page.put_comment(Some((thing, number)), record);
            record += 1;
        }
    }
    page.0
}

/// Comments stand below each other, but for those behind longer lines.
const COMMENT_COLUMN: usize = 47;

struct Page(Vec<u8>);

impl Page {
    fn put_places(&mut self, record: &[u8]) {
        let line = self.0.len();
        let [kind, body @ ..] = record else { return };
        let mut rest = body;
        for (column, place) in places(*kind).iter().enumerate() {
            if column > 0 {
                self.0.push(b' ');
            }
            match *place {
                Word(word) => self.0.extend(word.as_bytes()),
                Number(bytes, width) => {
                    let (number, behind) = rest.split_at(bytes);
                    self.put_number(little_endian(number), width);
                    rest = behind;
                }
            }
        }
        self.0.resize(self.0.len().max(line + COMMENT_COLUMN), b' ');
    }

    fn put_comment(&mut self, thing: Option<(&str, u64)>, record: u64) {
        self.0.extend(b"  # ");
        if let Some((name, number)) = thing {
            self.0.extend(name.as_bytes());
            self.0.push(b' ');
            self.put_number(number, 1);
            self.0.extend(b", ");
        }
        self.0.extend(b"record ");
        self.put_number(record, 1);
        self.0.push(b'\n');
    }

    fn put_number(&mut self, number: u64, width: usize) {
        let mut digits = [b' '; LONGEST_NUMBER];
        let first = put_digits(&mut digits, number);
        self.0.extend(&digits[first.min(LONGEST_NUMBER - width)..]);
    }
}

fn little_endian(bytes: &[u8]) -> u64 {
    bytes.iter().rev().fold(0, |number, &byte| number << 8 | u64::from(byte))
}

/// Why a line is unreadable.
#[derive(Clone, Copy, Debug, PartialEq, Eq)]
pub enum Reason {
    Bus,
    Nodes,
    UnknownWord,
    OutOfOrder,
    Number,
    TooLarge,
    EndOfLine,
    /// This word is expected.
    Word(&'static str),
}

/// By their numbers, from 1 on.
const REASONS: [Reason; 7] = [
    Reason::Bus,
    Reason::Nodes,
    Reason::UnknownWord,
    Reason::OutOfOrder,
    Reason::Number,
    Reason::TooLarge,
    Reason::EndOfLine,
];

/// The number of a reason that expects the first of these words.
const FIRST_WORD: u32 = 32;

const WORDS: [&str; 24] = [
    "bus",
    "kbit/s",
    "overhead-bytes",
    "least-payload",
    "largest-payload",
    "gap-bits",
    "resolution",
    "bits-per-byte",
    "nodes",
    "module",
    "on",
    "node",
    "mode",
    "of",
    "period",
    "switch",
    "task",
    "bytes",
    "worst",
    "run",
    "in",
    "rate",
    "connect",
    "to",
];

impl Reason {
    /// Reasons by number: 0 is none.
    pub fn numbered(number: u32) -> Option<Reason> {
        match number.checked_sub(FIRST_WORD) {
            None => REASONS.get(number.checked_sub(1)? as usize).copied(),
            Some(word) => WORDS.get(word as usize).copied().map(Reason::Word),
        }
    }
}

impl Display for Reason {
    fn fmt(&self, f: &mut Formatter) -> fmt::Result {
        match self {
            Reason::Bus => f.write_str("bus expected"),
            Reason::Nodes => f.write_str("nodes expected"),
            Reason::UnknownWord => f.write_str("unknown word"),
            Reason::OutOfOrder => f.write_str("out of order"),
            Reason::Number => f.write_str("number expected"),
            Reason::TooLarge => f.write_str("number too large"),
            Reason::EndOfLine => f.write_str("end of line expected"),
            Reason::Word(word) => write!(f, "{word} expected"),
        }
    }
}

/// A refusal by 60 has a reason, no other.
#[derive(Clone, Copy, Debug, PartialEq, Eq)]
pub struct TextRefusal {
    pub refusal: Refusal,
    pub reason: Option<Reason>,
}

impl From<Refusal> for TextRefusal {
    fn from(refusal: Refusal) -> TextRefusal {
        TextRefusal { refusal, reason: None }
    }
}

/// No text is so long that its plan is longer: most bytes to a line have modes, and 7,487 have a place.
pub const LONGEST_PLAN_READ: usize =
    record_length(BUS) + record_length(NODES) + 7_487 * record_length(MODE) + record_length(END);

/// Reads a plan's text: the plan at the front of the lent bytes, and its length.
pub fn text_plan(text: &[u8], plan: &mut [u8]) -> Result<usize, TextRefusal> {
    if text.len() > LONGEST_TEXT {
        return Err(Refusal::new(61, LONGEST_TEXT).into());
    }
    let file = read(text).map_err(|(line, reason)| TextRefusal {
        refusal: Refusal::new(60, line),
        reason: Some(reason),
    })?;
    Ok(put_in_front(&file, plan)?)
}

/// Where bus or nodes are missing, the line behind the last is at fault.
fn read(text: &[u8]) -> Result<Vec<u8>, (usize, Reason)> {
    let mut reader = Reader { file: Vec::with_capacity(1 << 10), may_come: 0 };
    let mut number = 0;
    for line in lines(text) {
        number += 1;
        reader.take(&words::<MOST_WORDS>(line)).map_err(|reason| (number, reason))?;
    }
    match MUST_COME.get(reader.may_come) {
        Some(&reason) => Err((number + 1, reason)),
        None => {
            reader.file.push(END);
            Ok(reader.file)
        }
    }
}

/// The longest line, and one word that is left over.
const MOST_WORDS: usize = BUS_PLACES.len() + 1;

/// What begins a line, in the order of a file, with the kind of its record.
const BEGINNINGS: [(&[u8], u8); 7] = [
    (b"bus", BUS),
    (b"nodes", NODES),
    (b"module", MODULE),
    (b"mode", MODE),
    (b"task", TASK),
    (b"run", INVOCATION),
    (b"connect", CONNECTION),
];

/// Of the first beginnings, which stand once each: what is said where they do not.
const MUST_COME: [Reason; 2] = [Reason::Bus, Reason::Nodes];

struct Reader {
    file: Vec<u8>,
    /// The first of the beginnings that may still come.
    may_come: usize,
}

impl Reader {
    fn take(&mut self, words: &[&[u8]]) -> Result<(), Reason> {
        let Some(first) = words.first() else { return Ok(()) };
        let beginning = self.beginning(first)?;
        self.may_come = if beginning < MUST_COME.len() { beginning + 1 } else { beginning };
        let kind = match BEGINNINGS[beginning].1 {
            BUS if words.len() > BUS_WORDS => BUS_WITH_BYTE_BITS,
            kind => kind,
        };
        self.file.push(kind);
        let mut words = words.iter().copied();
        for &place in places(kind) {
            self.take_word(place, words.next())?;
        }
        words.next().map_or(Ok(()), |_| Err(Reason::EndOfLine))
    }

    fn beginning(&self, first: &[u8]) -> Result<usize, Reason> {
        let known = BEGINNINGS.iter().position(|(word, _)| *word == first);
        match (MUST_COME.get(self.may_come), known) {
            (Some(&reason), _) if known != Some(self.may_come) => Err(reason),
            (_, None) => Err(Reason::UnknownWord),
            (_, Some(beginning)) if beginning < self.may_come => Err(Reason::OutOfOrder),
            (_, Some(beginning)) => Ok(beginning),
        }
    }

    fn take_word(&mut self, place: Place, given: Option<&[u8]>) -> Result<(), Reason> {
        match place {
            Word(word) if given == Some(word.as_bytes()) => Ok(()),
            Word(word) => Err(Reason::Word(word)),
            Number(bytes, _) => {
                let value = given.and_then(number).ok_or(Reason::Number)?.to_le_bytes();
                let (kept, beyond) = value.split_at(bytes);
                if beyond.iter().any(|&byte| byte > 0) {
                    return Err(Reason::TooLarge);
                }
                self.file.extend(kept);
                Ok(())
            }
        }
    }
}
