//! The rules a word keeps.

use crate::Refusal;

/// The most events of a word.
pub const MOST_EVENTS: u32 = 4096;

/// Whether D is in its range.
pub(crate) fn grain_in_range(grain: u32) -> bool {
    (1..=1000).contains(&grain)
}

/// Checks a word of at most `most` events over `symbol_count` symbols: 30 to 33.
pub fn check_word(
    symbol_count: u32,
    grain: u32,
    most: u32,
    symbols: &[u16],
    stamps: &[u32],
) -> Result<(), Refusal> {
    Refusal::unless(grain_in_range(grain), 30)?;
    Refusal::unless(symbols.len() == stamps.len() && symbols.len() as u64 <= u64::from(most), 31)?;
    let mut last = 0;
    for (index, (&symbol, &stamp)) in symbols.iter().zip(stamps).enumerate() {
        check_event(symbol_count, last, symbol, stamp, index + 1)?;
        last = stamp;
    }
    Ok(())
}

/// Checks one event, given its number from 1: 32, then 33.
pub(crate) fn check_event(
    symbol_count: u32,
    last: u32,
    symbol: u16,
    stamp: u32,
    number: usize,
) -> Result<(), Refusal> {
    Refusal::unless_at(u32::from(symbol) < symbol_count, 32, number)?;
    Refusal::unless_at(stamp >= last, 33, number)
}
