//! The editions.

/// Which messages a table carries.
#[derive(Clone, Copy, Debug, Default, PartialEq, Eq, Hash)]
pub enum Edition {
    /// 0: every message of a task that is consumed on another node.
    #[default]
    Basic = 0,
    /// 1: those of them that a run on another node reads. What is said of a node that consumes a task then holds at each tick at
    /// which a run of the consumer is released.
    Consumers = 1,
}

impl Edition {
    /// The edition with this number; `None` where none has it.
    #[must_use]
    pub fn from_number(number: u8) -> Option<Edition> {
        match number {
            0 => Some(Edition::Basic),
            1 => Some(Edition::Consumers),
            _ => None,
        }
    }

    /// The edition that a table is in: its first byte says it, whatever stands behind.
    ///
    /// # Examples
    /// ```
    /// use olbiothar::Edition;
    ///
    /// assert_eq!(Edition::of_table(&[20]), Edition::Consumers);
    /// assert_eq!(Edition::of_table(&[]), Edition::Basic);
    /// ```
    #[must_use]
    pub fn of_table(table: &[u8]) -> Edition {
        match table.first() {
            Some(20) => Edition::Consumers,
            _ => Edition::Basic,
        }
    }
}
