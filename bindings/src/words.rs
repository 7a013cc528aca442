//! What the library says in words.

use core::fmt;
use core::ops::Deref;

/// No words are longer, with the zero byte behind them.
pub const LONGEST_WORDS: usize = 128;

/// The words of a refusal or of a reason, as the library has them: plain text, without a capital or a full stop.
#[derive(Clone, Copy, PartialEq, Eq)]
pub struct Words {
    text: [u8; LONGEST_WORDS],
    length: usize,
}

impl Words {
    /// What the library writes into lent bytes, of which it gives the length.
    pub(crate) fn written(write: impl FnOnce(&mut [u8]) -> u64) -> Words {
        let mut text = [0; LONGEST_WORDS];
        let length = write(&mut text) as usize;
        Words { text, length }
    }

    /// The words.
    #[must_use]
    pub fn as_str(&self) -> &str {
        core::str::from_utf8(&self.text[..self.length]).expect("the library's words are ASCII")
    }
}

impl Deref for Words {
    type Target = str;

    fn deref(&self) -> &str {
        self.as_str()
    }
}

impl AsRef<str> for Words {
    fn as_ref(&self) -> &str {
        self.as_str()
    }
}

impl fmt::Debug for Words {
    fn fmt(&self, f: &mut fmt::Formatter<'_>) -> fmt::Result {
        fmt::Debug::fmt(self.as_str(), f)
    }
}

impl fmt::Display for Words {
    fn fmt(&self, f: &mut fmt::Formatter<'_>) -> fmt::Result {
        fmt::Display::fmt(self.as_str(), f)
    }
}
