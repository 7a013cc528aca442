//! Plans as text: printed, and read back.

use crate::Refusal;
use crate::raw;
use crate::words::Words;
use core::fmt;

/// Prints a plan as text at the front of `text`, a line for each record, and gives the text's length. Any bytes that keep
/// the record rules print, whatever the other rules say of them. What is printed reads back to the plan's own bytes, by
/// [`text_plan`].
///
/// # Errors
/// [`Refusal::TextTooLong`] for a plan of more than 65,536 bytes; [`Refusal::BadRecords`]; [`Refusal::BufferTooShort`], also
/// for an empty `text`, with the bytes needed. `text` is then as it was.
///
/// # Examples
/// ```
/// use olbiothar::{Refusal, plan_text};
///
/// let plan = include_bytes!("../../docs/examples/job-a.plan");
/// let Err(Refusal::BufferTooShort { needed }) = plan_text(plan, &mut []) else { panic!() };
/// let mut text = vec![0; needed as usize];
/// assert_eq!(plan_text(plan, &mut text), Ok(text.len()));
/// assert!(text.starts_with(b"bus kbit/s 1000 overhead-bytes 8 "));
/// ```
pub fn plan_text(plan: &[u8], text: &mut [u8]) -> Result<usize, Refusal> {
    // SAFETY: each pointer leads to as many bytes as the number behind it says.
    let answer = unsafe {
        raw::olbiothar_plan_text(plan.as_ptr(), plan.len(), text.as_mut_ptr(), text.len())
    };
    Refusal::of(answer).map(|length| length as usize)
}

/// Reads a plan written as text: its bytes at the front of `plan`, and their length. They keep the record rules; what else a
/// plan must keep is [`make`](crate::make)'s matter. Spaces, comments from `#` on and blank lines are free. As many bytes as
/// the text has are always enough for its plan.
///
/// # Errors
/// [`TextRefusal`] says which. `plan` is then as it was.
///
/// # Examples
/// ```
/// use olbiothar::{Reason, TextRefusal, text_plan};
///
/// let refusal = text_plan(b"# no bus\n\nnodes 2\n", &mut []).unwrap_err();
/// assert_eq!(refusal, TextRefusal::Unreadable { line: 3, reason: Reason::BusExpected });
/// assert_eq!(refusal.to_string(), "unreadable line 3: bus expected");
/// ```
pub fn text_plan(text: &[u8], plan: &mut [u8]) -> Result<usize, TextRefusal> {
    // SAFETY: each pointer leads to as many bytes as the number behind it says.
    let read = unsafe {
        raw::olbiothar_text_plan(text.as_ptr(), text.len(), plan.as_mut_ptr(), plan.len())
    };
    match Refusal::of(read.answer) {
        Ok(length) => Ok(length as usize),
        Err(refusal) => Err(TextRefusal::of(refusal, read.reason)),
    }
}

/// Why a text gives no plan.
#[derive(Clone, Copy, Debug, PartialEq, Eq, Hash)]
pub enum TextRefusal {
    /// 60: the first line at fault.
    Unreadable {
        /// Counted from 1. Where the text ends too early it is the line behind the last.
        line: u64,
        /// What is wrong with it.
        reason: Reason,
    },
    /// 61: the text is longer than [`LONGEST_SHEET`](crate::LONGEST_SHEET).
    TooLong,
    /// 13: the lent bytes are too few.
    BufferTooShort {
        /// So many bytes would be enough.
        needed: u64,
    },
}

impl TextRefusal {
    fn of(refusal: Refusal, reason: u32) -> TextRefusal {
        match (refusal, Reason::from_number(reason)) {
            (Refusal::Unreadable { line }, Some(reason)) => {
                TextRefusal::Unreadable { line, reason }
            }
            (Refusal::TextTooLong { .. }, None) => TextRefusal::TooLong,
            (Refusal::BufferTooShort { needed }, None) => TextRefusal::BufferTooShort { needed },
            _ => unreachable!("no text gives {refusal:?} with the reason {reason}"),
        }
    }
}

/// Without the reason.
impl From<TextRefusal> for Refusal {
    fn from(refusal: TextRefusal) -> Refusal {
        match refusal {
            TextRefusal::Unreadable { line, .. } => Refusal::Unreadable { line },
            TextRefusal::TooLong => Refusal::TextTooLong { most: crate::LONGEST_SHEET as u64 },
            TextRefusal::BufferTooShort { needed } => Refusal::BufferTooShort { needed },
        }
    }
}

/// As the program `textplan` says it; the last, which it cannot meet, as any [`Refusal`].
impl fmt::Display for TextRefusal {
    fn fmt(&self, f: &mut fmt::Formatter<'_>) -> fmt::Result {
        match self {
            TextRefusal::Unreadable { line, reason } => {
                write!(f, "unreadable line {line}: {reason}")
            }
            TextRefusal::TooLong => write!(f, "too long"),
            TextRefusal::BufferTooShort { .. } => Refusal::from(*self).fmt(f),
        }
    }
}

impl core::error::Error for TextRefusal {}

/// What is wrong with a line of a plan's text. A line is looked at in this order.
#[derive(Clone, Copy, Debug, PartialEq, Eq, Hash)]
pub enum Reason {
    /// The bus has to come first; or the text ends before it.
    BusExpected,
    /// The nodes have to come behind the bus; or the text ends before them.
    NodesExpected,
    /// No line begins with this word.
    UnknownWord,
    /// Such a line belongs above, or may stand only once.
    OutOfOrder,
    /// Something else stands where this word should, or the line ends.
    Expected(Word),
    /// Something else stands where a number should, or the line ends.
    NumberExpected,
    /// The number does not fit into the bytes that a plan has for it.
    NumberTooLarge,
    /// Words are left over.
    EndOfLineExpected,
}

/// The number of the first word that is expected.
const FIRST_WORD: u32 = 32;

impl Reason {
    /// The reason with this number of the C header; `None` where there is none.
    #[must_use]
    pub fn from_number(number: u32) -> Option<Reason> {
        Some(match number {
            1 => Reason::BusExpected,
            2 => Reason::NodesExpected,
            3 => Reason::UnknownWord,
            4 => Reason::OutOfOrder,
            5 => Reason::NumberExpected,
            6 => Reason::NumberTooLarge,
            7 => Reason::EndOfLineExpected,
            _ => {
                let word = usize::try_from(number.checked_sub(FIRST_WORD)?).ok()?;
                Reason::Expected(*Word::ALL.get(word)?)
            }
        })
    }

    /// Its number, as the C header has it.
    #[must_use]
    pub fn number(&self) -> u32 {
        match self {
            Reason::BusExpected => 1,
            Reason::NodesExpected => 2,
            Reason::UnknownWord => 3,
            Reason::OutOfOrder => 4,
            Reason::NumberExpected => 5,
            Reason::NumberTooLarge => 6,
            Reason::EndOfLineExpected => 7,
            Reason::Expected(word) => FIRST_WORD + *word as u32,
        }
    }

    /// What it is in words, as the library has them: `rate expected`.
    #[must_use]
    pub fn words(&self) -> Words {
        // SAFETY: the pointer leads to as many bytes as the number behind it says.
        Words::written(|text| unsafe {
            raw::olbiothar_reason_words(self.number(), text.as_mut_ptr(), text.len())
        })
    }
}

impl fmt::Display for Reason {
    fn fmt(&self, f: &mut fmt::Formatter<'_>) -> fmt::Result {
        fmt::Display::fmt(&self.words(), f)
    }
}

/// From one list the enum, and all of it in order.
macro_rules! words {
    ($($(#[$text:meta])* $word:ident),+ $(,)?) => {
        /// A word that the line of a plan's text has at a fixed place.
        #[derive(Clone, Copy, Debug, PartialEq, Eq, Hash)]
        pub enum Word {
            $($(#[$text])* $word),+
        }

        impl Word {
            /// Every word, by its number.
            pub const ALL: [Word; [$(Word::$word),+].len()] = [$(Word::$word),+];
        }
    };
}

words! {
    /// `bus`
    Bus,
    /// `kbit/s`
    KilobitsPerSecond,
    /// `overhead-bytes`
    OverheadBytes,
    /// `least-payload`
    LeastPayload,
    /// `largest-payload`
    LargestPayload,
    /// `gap-bits`
    GapBits,
    /// `resolution`
    Resolution,
    /// `bits-per-byte`
    BitsPerByte,
    /// `nodes`
    Nodes,
    /// `module`
    Module,
    /// `on`
    On,
    /// `node`
    Node,
    /// `mode`
    Mode,
    /// `of`
    Of,
    /// `period`
    Period,
    /// `switch`
    Switch,
    /// `task`
    Task,
    /// `bytes`
    Bytes,
    /// `worst`
    Worst,
    /// `run`
    Run,
    /// `in`
    In,
    /// `rate`
    Rate,
    /// `connect`
    Connect,
    /// `to`
    To,
}
