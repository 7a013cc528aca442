//! The editions: which messages a table carries.

use crate::records::{CONSUMERS_TABLE, TABLE};

#[derive(Clone, Copy, Debug, Default, PartialEq, Eq, PartialOrd, Ord)]
pub enum Edition {
    /// Every message of a task that another node may read.
    #[default]
    Basic = 0,
    /// Only messages that a run on another node reads.
    Consumers = 1,
}

impl Edition {
    pub const ALL: [Edition; 2] = [Edition::Basic, Edition::Consumers];

    pub fn numbered(number: u8) -> Option<Edition> {
        Edition::ALL.into_iter().find(|&edition| edition as u8 == number)
    }

    /// A table says its edition by its first byte, whatever stands behind it.
    pub fn of_table(table: &[u8]) -> Edition {
        match table.first() {
            Some(&CONSUMERS_TABLE) => Edition::Consumers,
            _ => Edition::Basic,
        }
    }

    /// The kind of the header.
    pub fn kind(self) -> u8 {
        match self {
            Edition::Basic => TABLE,
            Edition::Consumers => CONSUMERS_TABLE,
        }
    }
}
