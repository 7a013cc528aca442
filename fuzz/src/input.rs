//! An input taken apart; behind its end there are zeros.

use reference::Edition;

#[derive(Debug)]
pub struct Input<'a>(&'a [u8]);

#[derive(Debug)]
pub struct Tick {
    pub results: [Option<u64>; 32],
    pub modes: [Option<u8>; 16],
}

impl<'a> Input<'a> {
    pub fn new(bytes: &'a [u8]) -> Input<'a> {
        Input(bytes)
    }

    pub fn byte(&mut self) -> u8 {
        let Some((&first, rest)) = self.0.split_first() else { return 0 };
        self.0 = rest;
        first
    }

    pub fn edition(&mut self) -> Edition {
        if self.byte().is_multiple_of(2) { Edition::Basic } else { Edition::Consumers }
    }

    pub fn rest(&self) -> &'a [u8] {
        self.0
    }

    /// A file behind its length.
    pub fn file(&mut self) -> &'a [u8] {
        let length = usize::from(u16::from_le_bytes([self.byte(), self.byte()]));
        let (file, rest) = self.0.split_at(length.min(self.0.len()));
        self.0 = rest;
        file
    }

    /// Sixteen places, 255 for nothing.
    pub fn modes(&mut self) -> [Option<u8>; 16] {
        std::array::from_fn(|_| Some(self.byte()).filter(|&mode| mode < 255))
    }

    /// Which tasks are given a result (a count, then each with its value), and one module's mode.
    pub fn tick(&mut self) -> Option<Tick> {
        if self.0.is_empty() {
            return None;
        }
        let mut tick = Tick { results: [None; 32], modes: [None; 16] };
        for _ in 0..self.byte() & 3 {
            let (task, shift) = (self.byte(), self.byte());
            tick.results[usize::from(task % 32)] = Some(u64::from(self.byte()) << (shift % 64));
        }
        let (module, mode) = (self.byte(), self.byte());
        if mode < 64 {
            tick.modes[usize::from(module % 16)] = Some(mode);
        }
        Some(tick)
    }
}
