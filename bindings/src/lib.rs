//! Bus tables made, checked, played, printed and read back by the proved library, `libolbiothar.a`.
//!
//! The functions below are thin: they lend slices to the library and put its answers into enums. Nothing here allocates, and
//! no thread need wait for another. What is proved, and what not, stands in the repository's README; that the library's
//! functions stay within the memory that they are lent is proved, and is what makes the calls here safe.
//!
//! The library is linked from where `.ci/library` writes it, or from the folder that the variable
//! `OLBIOTHAR_FOLDER` names. It is for x86-64 Linux.
//!
//! # From a plan to its table
//! ```
//! use olbiothar::{Edition, FRAMES, Frame, LONGEST_TABLE, check, make, text_plan};
//!
//! let text = b"
//!     bus kbit/s 1000 overhead-bytes 8 least-payload 0 largest-payload 254 gap-bits 10 resolution 1
//!     nodes 2
//!     module on node 0                              # module 0
//!     module on node 1                              # module 1
//!     mode of module 0 period 60000 switch 60000    # mode 0
//!     mode of module 1 period 60000 switch 60000    # mode 1
//!     task of module 0 bytes 4 worst 1000           # task 0
//!     task of module 1 bytes 4 worst 1000           # task 1
//!     run in mode 0 task 0 rate 2
//!     run in mode 1 task 1 rate 1
//!     connect task 0 to task 1
//! ";
//! let mut plan = vec![0; text.len()];
//! let length = text_plan(text, &mut plan)?;
//! let plan = &plan[..length];
//!
//! let mut rows = [Frame::default(); FRAMES];
//! let mut table = [0; LONGEST_TABLE];
//! let length = make(plan, Edition::Basic, &mut rows, &mut table)?;
//! assert_eq!((rows[0].release, rows[0].deadline), (1_000, 30_000));
//! check(plan, &table[..length], &mut rows)?;
//! # Ok::<(), Box<dyn std::error::Error>>(())
//! ```

#![no_std]
#![deny(missing_docs)]

#[cfg(test)]
extern crate std;

mod edition;
mod plan_text;
mod raw;
mod refusal;
mod station;
mod words;

pub use edition::Edition;
pub use plan_text::{Reason, TextRefusal, Word, plan_text, text_plan};
pub use refusal::Refusal;
pub use station::{Modes, ModuleNow, Results, Row, Station, TaskNow, TimeNow};
pub use words::{LONGEST_WORDS, Words};

/// A station's nodes: the boards on the bus.
pub const NODES: usize = 8;
/// The most modules of a plan.
pub const MODULES: usize = 16;
/// The most modes of a plan.
pub const MODES: usize = 32;
/// The most tasks of a plan.
pub const TASKS: usize = 32;
/// The most data frames of a cycle; so many frame rows have to be lent.
pub const FRAMES: usize = 1_024;
/// No table is longer, 14,425 bytes: a header, 8 control rows, 1,024 data rows and an end.
pub const LONGEST_TABLE: usize = 8 + NODES * 10 + FRAMES * 14 + 1;
/// No sheet is longer, and no longer text is read, as a sheet or as a plan.
pub const LONGEST_SHEET: usize = 262_144;

/// A frame, by its number: by deadline, then by task. Times are in ticks of one microsecond, from the beginning of a cycle.
#[repr(C)]
#[derive(Clone, Copy, Debug, Default, PartialEq, Eq, Hash)]
pub struct Frame {
    /// Whose result it carries.
    pub task: u32,
    /// When the result is there at the latest: it may not start before.
    pub release: u32,
    /// When it has to have stopped. No frame has 0 here; a row that holds no frame has.
    pub deadline: u32,
    /// When it starts in the table that was made or checked.
    pub start: u32,
}

/// Makes the table of a plan in one of the editions, by the latest-release rule, at the front of `table`, and gives its length.
/// [`LONGEST_TABLE`] bytes are always enough. The rows are then the frames by number, and zero rows behind them.
///
/// # Errors
/// [`Refusal::TooFewRows`], which changes nothing; else 1 to 13, from [`Refusal::BadRecords`] to [`Refusal::BufferTooShort`]:
/// `table` is then as it was, and all rows are zero.
///
/// # Examples
/// ```
/// use olbiothar::{Edition, FRAMES, Frame, LONGEST_TABLE, Refusal, make};
///
/// let (mut rows, mut table) = ([Frame::default(); FRAMES], [0; LONGEST_TABLE]);
/// let plan = include_bytes!("../../docs/examples/job-a.plan");
/// assert_eq!(make(plan, Edition::Basic, &mut rows, &mut table), Ok(75));
/// assert_eq!(make(plan, Edition::Consumers, &mut rows, &mut table), Ok(33));
/// let short = make(plan, Edition::Basic, &mut rows, &mut []);
/// assert_eq!(short, Err(Refusal::BufferTooShort { needed: 75 }));
/// let empty = make(&[], Edition::Basic, &mut rows, &mut table);
/// assert_eq!(empty, Err(Refusal::BadRecords { offset: 0 }));
/// ```
pub fn make(
    plan: &[u8],
    edition: Edition,
    rows: &mut [Frame],
    table: &mut [u8],
) -> Result<usize, Refusal> {
    // SAFETY: each pointer leads to as many bytes or rows as the number behind it says.
    let answer = unsafe {
        raw::olbiothar_make(
            plan.as_ptr(),
            plan.len(),
            edition as u8,
            rows.as_mut_ptr(),
            rows.len(),
            table.as_mut_ptr(),
            table.len(),
        )
    };
    Refusal::of(answer).map(|length| length as usize)
}

/// Judges a table of a plan, whoever made it, in its own [`Edition::of_table`]. The rows are then the frames by number, with their starts in this table, and
/// zero rows behind them. What a table that passes is good for is said at [`Station`].
///
/// # Errors
/// [`Refusal::TooFewRows`], which changes nothing; else what is wrong with the plan, 1 to 11, or with the table, 20 to 28: all
/// rows are then zero.
///
/// # Examples
/// ```
/// use olbiothar::{FRAMES, Frame, Refusal, check};
///
/// let plan = include_bytes!("../../docs/examples/job-a.plan");
/// let early = include_bytes!("../../docs/examples/job-a-early.table");
/// let refusal = check(plan, early, &mut [Frame::default(); FRAMES]);
/// assert_eq!(refusal, Err(Refusal::BeforeRelease { record: 2 }));
/// ```
pub fn check(plan: &[u8], table: &[u8], rows: &mut [Frame]) -> Result<(), Refusal> {
    // SAFETY: each pointer leads to as many bytes or rows as the number behind it says.
    let answer = unsafe {
        raw::olbiothar_check(
            plan.as_ptr(),
            plan.len(),
            table.as_ptr(),
            table.len(),
            rows.as_mut_ptr(),
            rows.len(),
        )
    };
    Refusal::of(answer).map(|_| ())
}

/// What a sheet comes to: a text, also where the table is refused.
#[must_use]
#[derive(Clone, Copy, Debug, PartialEq, Eq, Hash)]
pub struct Sheet {
    /// What [`check`] says of plan and table, or [`Refusal::BufferTooShort`].
    pub checked: Result<(), Refusal>,
    /// Bytes of text at the front of what was lent.
    pub length: usize,
}

/// Prints a table of a plan as a sheet at the front of `text`, which has [`LONGEST_SHEET`] bytes or more: with fewer there is
/// no text, and [`Refusal::BufferTooShort`] is said. A table that passes gives its sheet; one with a row at a wrong time (25
/// to 28) a line that says so, and its sheet; any other refusal that line alone.
///
/// # Examples
/// ```
/// use olbiothar::{LONGEST_SHEET, Refusal, sheet};
///
/// let plan = include_bytes!("../../docs/examples/job-a.plan");
/// let early = include_bytes!("../../docs/examples/job-a-early.table");
/// let mut text = vec![0; LONGEST_SHEET];
/// let printed = sheet(plan, early, &mut text);
/// assert_eq!(printed.checked, Err(Refusal::BeforeRelease { record: 2 }));
/// assert_eq!(text[..printed.length], *include_bytes!("../../docs/examples/job-a-early.sheet"));
/// ```
pub fn sheet(plan: &[u8], table: &[u8], text: &mut [u8]) -> Sheet {
    // SAFETY: each pointer leads to as many bytes as the number behind it says.
    let answer = unsafe {
        raw::olbiothar_sheet(
            plan.as_ptr(),
            plan.len(),
            table.as_ptr(),
            table.len(),
            text.as_mut_ptr(),
            text.len(),
        )
    };
    Sheet { checked: Refusal::of(answer.checked).map(|_| ()), length: answer.length as usize }
}

/// Reads a sheet back, also one changed by hand: the table at the front of `table`, and its length. [`LONGEST_TABLE`] bytes
/// are always enough. What [`sheet`] has printed reads back to the bytes of its table; whether the rows are right is
/// [`check`]'s matter.
///
/// # Errors
/// [`Refusal::TextTooLong`], [`Refusal::Unreadable`], [`Refusal::BufferTooShort`]. `table` is then as it was.
///
/// # Examples
/// ```
/// use olbiothar::{LONGEST_TABLE, Refusal, sheet_table};
///
/// let mut table = [0; LONGEST_TABLE];
/// let text = include_bytes!("../../docs/examples/job-a.sheet");
/// assert_eq!(sheet_table(text, &mut table), Ok(75));
/// assert_eq!(sheet_table(b"a table", &mut table), Err(Refusal::Unreadable { line: 1 }));
/// ```
pub fn sheet_table(text: &[u8], table: &mut [u8]) -> Result<usize, Refusal> {
    // SAFETY: each pointer leads to as many bytes as the number behind it says.
    let answer = unsafe {
        raw::olbiothar_sheet_table(text.as_ptr(), text.len(), table.as_mut_ptr(), table.len())
    };
    Refusal::of(answer).map(|length| length as usize)
}
