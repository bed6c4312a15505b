//! The inputs of a run, and the chosen range from which the Rust's changed copies take what were its constants.

use std::cell::Cell;

/// From `first` to `last`, both included; no input where `first` is above.
#[derive(Clone, Copy, Debug, PartialEq, Eq)]
pub struct InputRange {
    pub first: u8,
    pub last: u8,
}

impl InputRange {
    /// The Rust's own.
    pub const INVALID_CHANNELS: Self = Self { first: 6, last: u8::MAX };

    pub fn is_empty(self) -> bool {
        self.first > self.last
    }

    pub fn inputs(self) -> impl Iterator<Item = u32> {
        (self.first..=self.last).map(u32::from)
    }

    pub fn lanes(self) -> usize {
        self.inputs().count()
    }
}

thread_local! {
    static CHOSEN: Cell<InputRange> = const { Cell::new(InputRange::INVALID_CHANNELS) };
}

/// Sets the range for the changed copies' next runs on this thread.
pub fn choose(range: InputRange) {
    CHOSEN.set(range);
}

pub fn first() -> u8 {
    CHOSEN.get().first
}

pub fn lanes() -> usize {
    CHOSEN.get().lanes()
}

pub fn last() -> u8 {
    CHOSEN.get().last
}
