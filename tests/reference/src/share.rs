//! How much of the list of all words up to a size a table allows, for a batch of tables.
//!
//! Counted word by word: every word of the list is walked on its own, whole, from the start row.

use crate::lists::{check_reach, GRAIN};
use crate::table::Table;
use crate::{all_words, count_words, Built, Refusal, Size};

/// The most tables of a batch.
pub const MOST_TABLES: usize = 16;
/// The most words of a table's list.
pub const MOST_SHARED_WORDS: u64 = 1_000_000;

/// How many words are accepted, out of how many.
#[derive(Clone, Copy, Debug, Default, PartialEq, Eq)]
pub struct Share {
    /// The words accepted.
    pub accepted: u64,
    /// All words, at least one.
    pub words: u64,
}

impl Share {
    /// Numerator and denominator in lowest terms; 0 is 0/1.
    pub fn lowest_terms(self) -> (u64, u64) {
        let divisor = common_divisor(self.accepted, self.words);
        (self.accepted / divisor, self.words / divisor)
    }

    fn exceeds(self, other: Share) -> bool {
        let cross = |share: Share, other: Share| u128::from(share.accepted) * u128::from(other.words);
        cross(self, other) > cross(other, self)
    }

    fn count(&mut self, accepted: bool) {
        self.accepted += u64::from(accepted);
        self.words += 1;
    }
}

/// The greatest common divisor of two numbers that are not both 0.
fn common_divisor(first: u64, second: u64) -> u64 {
    if second == 0 {
        first
    } else {
        common_divisor(second, first % second)
    }
}

/// The shares of one table.
#[derive(Clone, Debug, PartialEq, Eq)]
pub struct ShareLine {
    /// Of the words of each length, from 0 on.
    pub lengths: Vec<Share>,
    /// Of all words of the list.
    pub all: Share,
}

/// The shares of a batch.
#[derive(Clone, Debug, PartialEq, Eq)]
pub struct Shares {
    /// The table, from 1, with the greatest share in all; the earliest of several.
    pub best: usize,
    /// The tables' lines, in batch order.
    pub lines: Vec<ShareLine>,
}

/// Gives the shares of a batch of tables in the words with at most so many events (m) and stamps up to so many
/// seconds (H): 40, 38, then table by table 25 and 43.
///
/// The tables' cells, rows and pools stand one after another without gaps in the three lent ones.
pub fn share_words(
    batch: &[Built],
    cells: &[u32],
    rows: &[u32],
    pool: &[u32],
    events: u32,
    seconds: u32,
) -> Result<Shares, Refusal> {
    Refusal::unless((1..=MOST_TABLES).contains(&batch.len()), 40)?;
    check_reach(events, seconds)?;
    let size = |table: Table| Size { symbols: table.built.symbols, events, seconds };
    let mut tables = Vec::new();
    let (mut cells, mut rows, mut pool) = (cells, rows, pool);
    for (built, number) in batch.iter().zip(1..) {
        let table = Table { built, cells, rows, pool };
        table.check().map_err(|refusal| Refusal::at(refusal.number, number))?;
        Refusal::unless_at(count_words(size(table))? <= MOST_SHARED_WORDS, 43, number)?;
        tables.push(table);
        (cells, rows, pool) = table.past();
    }
    let lines =
        tables.into_iter().map(|table| share_line(table, size(table))).collect::<Result<Vec<_>, _>>()?;
    Ok(Shares { best: best(&lines), lines })
}

/// Walks a table over every word of the list.
fn share_line(table: Table, size: Size) -> Result<ShareLine, Refusal> {
    let mut lengths = vec![Share::default(); size.events as usize + 1];
    let mut all = Share::default();
    all_words(size, |word| {
        let length = word.count as usize;
        let accepted = table.accepts_word(GRAIN, &word.symbols[..length], &word.stamps[..length]);
        lengths[length].count(accepted);
        all.count(accepted);
    })?;
    Ok(ShareLine { lengths, all })
}

/// The number, from 1, of the earliest line whose share in all no other exceeds.
fn best(lines: &[ShareLine]) -> usize {
    let mut best = 0;
    for (place, line) in lines.iter().enumerate() {
        if line.all.exceeds(lines[best].all) {
            best = place;
        }
    }
    best + 1
}
