//! The refusals, each with its place in the kind of number that the place is.

use crate::FRAMES;
use crate::raw::{self, Answer};
use crate::words::Words;
use core::fmt;

/// From one list the enum, and what each refusal's number and place are. A refusal has a place of its own, or a fixed one.
macro_rules! refusals {
    ($(
        $(#[$meaning:meta])*
        $number:literal $name:ident $({ $(#[$counts:meta])* $place:ident })? $(at $fixed:expr)?
    ),+ $(,)?) => {
        /// The first rule that something breaks, at its lowest place. Sections 6 to 8 and 18 of docs/RULES.md have the rules.
        #[derive(Clone, Copy, Debug, PartialEq, Eq, Hash)]
        pub enum Refusal {
            $($(#[$meaning])* $name $({ $(#[$counts])* $place: u64 })?,)+
        }

        impl Refusal {
            /// The refusal with this number at this place; `None` where no refusal has the number. A refusal that always has
            /// the same place takes no other.
            #[must_use]
            pub fn from_number(number: u32, place: u64) -> Option<Refusal> {
                match number {
                    $($number => Some(Refusal::$name $({ $place: place })?),)+
                    _ => None,
                }
            }

            /// Its number, as in docs/RULES.md.
            #[must_use]
            pub fn number(&self) -> u32 {
                match self {
                    $(Refusal::$name { .. } => $number,)+
                }
            }

            /// Its place, as in docs/RULES.md.
            #[must_use]
            pub fn place(&self) -> u64 {
                match *self {
                    $(Refusal::$name $({ $place })? => $($place)? $($fixed)?,)+
                }
            }
        }
    };
}

refusals! {
    /// 1: the plan's bytes break the record rules.
    1 BadRecords {
        /// Of the byte in the plan.
        offset
    },
    /// 2: there are too few or too many things of one kind.
    2 BadCount {
        /// Of the records that are counted.
        kind
    },
    /// 3: a record names a thing that is not there.
    3 NotThere {
        /// Of the plan, from 0.
        record
    },
    /// 4: a number is outside its range.
    4 OutOfRange {
        /// Of the plan, from 0.
        record
    },
    /// 5: things of the plan do not fit together, or a connection is repeated or within one task.
    5 Unfit {
        /// Of the plan, from 0.
        record
    },
    /// 6: nothing goes over the bus.
    6 NoBusTask at 0,
    /// 7: the bus period does not divide what the modes have in common.
    7 PeriodDoesNotDivide at 0,
    /// 8: the bus period is no multiple of the resolution.
    8 PeriodOffResolution at 0,
    /// 9: there are more than 1,024 data frames.
    9 TooManyFrames at 0,
    /// 10: a message or a control frame is larger than the bus allows.
    10 PayloadTooLarge at 0,
    /// 11: the control frames are longer than the bus period.
    11 ControlTooLong at 0,
    /// 12: the maker's rule found no place for a frame. A table may still exist.
    12 NoRoom {
        /// By deadline, then by task, from 0.
        frame
    },
    /// 13: the lent bytes are too few.
    13 BufferTooShort {
        /// So many bytes would be enough.
        needed
    },
    /// 19: fewer than [`FRAMES`] frame rows are lent.
    19 TooFewRows at FRAMES as u64,
    /// 20: the table's bytes break the record rules.
    20 BadTableRecords {
        /// Of the byte in the table.
        offset
    },
    /// 21: the table's header or its numbers of rows are not what the plan gives.
    21 WrongHeader at 0,
    /// 22: a control row is not the fixed one.
    22 WrongControlRow {
        /// Of the table, from 0.
        record
    },
    /// 23: a data row names no frame, or one already named.
    23 NoNewFrame {
        /// Of the table, from 0.
        record
    },
    /// 24: a data row's times are wrong.
    24 WrongTime {
        /// Of the table, from 0.
        record
    },
    /// 25: a data row starts before its frame's release.
    25 BeforeRelease {
        /// Of the table, from 0.
        record
    },
    /// 26: a data row stops after its frame's deadline.
    26 AfterDeadline {
        /// Of the table, from 0.
        record
    },
    /// 27: a data row starts too soon behind the row before it.
    27 GapBroken {
        /// Of the table, from 0.
        record
    },
    /// 28: the last data row stops too late for the gap before the next cycle.
    28 NoGapAtEnd {
        /// Of the table, from 0.
        record
    },
    /// 40: a starting mode is not one of its module's; or, at a tick, the station has not begun.
    40 NotBegun {
        /// 0 at a tick.
        module
    },
    /// 41: a result where none is awaited.
    41 NotAwaited {
        /// That the result was given for.
        task
    },
    /// 42: a result that does not fit into its message.
    42 ResultTooLarge {
        /// That the result was given for.
        task
    },
    /// 43: the worst time has gone by without a result.
    43 ResultOverdue {
        /// Whose result is missing.
        task
    },
    /// 44: a change to a mode of another module, or at the wrong instant.
    44 ChangeNotAllowed {
        /// That the mode was given for.
        module
    },
    /// 60: a line is none that such a text may have, or stands where it may not.
    60 Unreadable {
        /// Counted from 1.
        line
    },
    /// 61: there is more than is read: of a text, or of a plan that is to be printed.
    61 TextTooLong {
        /// The most bytes that are read.
        most
    },
    /// 62: no edition has this number. An [`Edition`] always has one that is.
    ///
    /// [`Edition`]: crate::Edition
    62 NoEdition {
        /// The number that was given.
        number
    },
}

impl Refusal {
    /// What a call of the library comes to: its place, or a refusal.
    pub(crate) fn of(answer: Answer) -> Result<u64, Refusal> {
        match answer.number {
            0 => Ok(answer.place),
            number => Err(Refusal::from_number(number, answer.place)
                .unwrap_or_else(|| unreachable!("no refusal has the number {number}"))),
        }
    }

    /// What it means in words, as the library has them.
    #[must_use]
    pub fn words(&self) -> Words {
        // SAFETY: the pointer leads to as many bytes as the number behind it says.
        Words::written(|text| unsafe {
            raw::olbiothar_words(self.number(), text.as_mut_ptr(), text.len())
        })
    }
}

/// The line that the programs write, and the words: `refused 12 at 0: no place for a frame`.
impl fmt::Display for Refusal {
    fn fmt(&self, f: &mut fmt::Formatter<'_>) -> fmt::Result {
        write!(f, "refused {} at {}: {}", self.number(), self.place(), self.words())
    }
}

impl core::error::Error for Refusal {}
