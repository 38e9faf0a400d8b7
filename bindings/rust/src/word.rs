//! Words: a resolution and stamped events.

use crate::raw::{self, Stamp};
use crate::Refusal;
use std::fmt;

/// The most events of a word that is run or shown.
pub const EVENTS: usize = 4_096;

/// A word: D, and events of a symbol and a stamp each. Whether it keeps the word rules is tested when it is
/// run; [`Word::check`] tests it alone.
#[derive(Clone, Debug, PartialEq, Eq)]
pub struct Word {
    grain: u32,
    symbols: Vec<u16>,
    stamps: Vec<u32>,
}

impl Word {
    /// The empty word with this D, the count of stamps to a second.
    pub fn new(grain: u32) -> Self {
        Word { grain, symbols: Vec::new(), stamps: Vec::new() }
    }

    /// The word of so many events at the front of two rooms.
    pub(crate) fn at_front(grain: u32, count: usize, mut symbols: Vec<u16>, mut stamps: Vec<u32>) -> Self {
        symbols.truncate(count);
        symbols.shrink_to_fit();
        stamps.truncate(count);
        stamps.shrink_to_fit();
        Word { grain, symbols, stamps }
    }

    /// Adds an event.
    pub fn push(&mut self, symbol: u16, stamp: Stamp) {
        self.symbols.push(symbol);
        self.stamps.push(stamp.0);
    }

    /// The word with one event more.
    pub fn with(mut self, symbol: u16, stamp: Stamp) -> Self {
        self.push(symbol, stamp);
        self
    }

    /// D.
    pub fn grain(&self) -> u32 {
        self.grain
    }

    /// The count of events.
    pub fn len(&self) -> usize {
        self.symbols.len()
    }

    /// Whether there is no event.
    pub fn is_empty(&self) -> bool {
        self.symbols.is_empty()
    }

    /// The events' symbols.
    pub fn symbols(&self) -> &[u16] {
        &self.symbols
    }

    /// The events' stamps.
    pub fn stamps(&self) -> &[u32] {
        &self.stamps
    }

    /// Checks the word over so many symbols, with at most so many events: 30 to 33.
    pub fn check(&self, symbol_count: u32, most: u32) -> Result<(), Refusal> {
        let answer = raw::check_word(symbol_count, self.grain, most, &self.symbols, &self.stamps);
        Refusal::unless_none(answer.number, answer.place, ())
    }
}

/// The events with their times, `0 at 1 s, 2 at 1.5 s`; a time that is not of whole or half seconds as a
/// fraction, `0 at 7/3 s`.
impl fmt::Display for Word {
    fn fmt(&self, f: &mut fmt::Formatter) -> fmt::Result {
        if self.is_empty() {
            return f.write_str("no event");
        }
        for (place, (symbol, &stamp)) in self.symbols.iter().zip(&self.stamps).enumerate() {
            let comma = if place == 0 { "" } else { ", " };
            write!(f, "{comma}{symbol} at ")?;
            write_seconds(f, stamp, self.grain)?;
        }
        Ok(())
    }
}

/// A stamp in seconds.
fn write_seconds(f: &mut fmt::Formatter, stamp: u32, grain: u32) -> fmt::Result {
    match (stamp.checked_div(grain), stamp.checked_rem(grain)) {
        (Some(whole), Some(0)) => write!(f, "{whole} s"),
        (Some(whole), Some(rest)) if grain - rest == rest => write!(f, "{whole}.5 s"),
        _ => write!(f, "{stamp}/{grain} s"),
    }
}
