//! Buffers to be lent, with guards on both sides.

use std::ops::{Deref, DerefMut};

/// Guard numbers on each side.
const MARGIN: usize = 8;

/// A number that a buffer holds.
pub trait Number: Copy + PartialEq + Into<u64> {
    /// What stands in the guards.
    const GUARD: Self;
}

impl Number for u8 {
    const GUARD: u8 = 0xa5;
}

impl Number for u16 {
    const GUARD: u16 = 0xa5c3;
}

impl Number for u32 {
    const GUARD: u32 = 0xa5c3_96e1;
}

/// A buffer between two guards, which show a write past its ends.
#[derive(Clone, Debug)]
pub struct Lent<T>(Vec<T>);

impl<T: Number> Lent<T> {
    /// A buffer of this length, each number the fill, or nothing if there is no memory for it.
    pub fn new(length: usize, fill: T) -> Option<Self> {
        let mut numbers = Vec::new();
        numbers.try_reserve_exact(length + 2 * MARGIN).ok()?;
        numbers.resize(MARGIN, T::GUARD);
        numbers.resize(MARGIN + length, fill);
        numbers.resize(2 * MARGIN + length, T::GUARD);
        Some(Lent(numbers))
    }

    /// Cuts the buffer, or lengthens it with the fill; nothing if there is no memory for it.
    pub fn resize(&mut self, length: usize, fill: T) -> Option<()> {
        self.0.try_reserve((length + 2 * MARGIN).saturating_sub(self.0.len())).ok()?;
        self.0.truncate(self.0.len() - MARGIN);
        self.0.resize(MARGIN + length, fill);
        self.0.resize(2 * MARGIN + length, T::GUARD);
        Some(())
    }

    /// Adds numbers at the end; nothing if there is no memory for them.
    pub fn append(&mut self, numbers: &[T]) -> Option<()> {
        let length = self.len();
        self.resize(length + numbers.len(), T::GUARD)?;
        self[length..].copy_from_slice(numbers);
        Some(())
    }

    /// Whether the guards are as they were.
    pub fn intact(&self) -> bool {
        let end = self.0.len() - MARGIN;
        self.0[..MARGIN].iter().chain(&self.0[end..]).all(|&number| number == T::GUARD)
    }
}

impl<T: Number> Default for Lent<T> {
    fn default() -> Self {
        Lent(vec![T::GUARD; 2 * MARGIN])
    }
}

impl<T: Number> Deref for Lent<T> {
    type Target = [T];

    fn deref(&self) -> &[T] {
        &self.0[MARGIN..self.0.len() - MARGIN]
    }
}

impl<T: Number> DerefMut for Lent<T> {
    fn deref_mut(&mut self) -> &mut [T] {
        let end = self.0.len() - MARGIN;
        &mut self.0[MARGIN..end]
    }
}

impl<T: Number> PartialEq for Lent<T> {
    fn eq(&self, other: &Self) -> bool {
        **self == **other
    }
}
