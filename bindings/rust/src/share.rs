//! How much of a list of words each rule allows.

use crate::raw::{self, Batch, LINE_IN_ALL, LINE_NUMBERS, SHARE_NUMBERS, TABLES};
use crate::{Refusal, Table};
use std::fmt;

/// The most words of a list of which a share is counted.
pub const LISTED_WORDS: u32 = 1_000_000;

/// How many words a table accepts, out of how many; and that fraction in lowest terms, where 0 is 0/1.
#[derive(Clone, Copy, Debug, PartialEq, Eq, Hash)]
pub struct Share {
    /// The words that are accepted.
    pub accepted: u32,
    /// All words, at least 1.
    pub words: u32,
    /// Of the fraction in lowest terms.
    pub numerator: u32,
    /// Of the fraction in lowest terms.
    pub denominator: u32,
}

/// The shares of a table in a list.
#[derive(Clone, Debug, PartialEq, Eq)]
pub struct Line {
    /// Of the words of each length, from no event to m.
    pub by_length: Vec<Share>,
    /// Of all words of the list.
    pub in_all: Share,
}

/// The shares of a batch of tables.
#[derive(Clone, Debug, PartialEq, Eq)]
pub struct Shares {
    /// A line for each table, in their order.
    pub lines: Vec<Line>,
    /// Which table has the greatest share in all, as an index into `lines`, so from 0; the earliest on a tie.
    pub greatest: usize,
}

/// How much each table allows of the words of at most `events` (m, 0 to 6) with stamps up to `seconds` (H, 0 to 30),
/// each over its own symbols, and which one has the greatest share, compared exactly: 40, 38, then 43 with the table,
/// from 1, as its place.
///
/// For tables as built each share is that of the rule itself. The batch has 1 to 16 tables, which are copied one
/// after another; to lay them out oneself there is [`raw::count_shares`].
///
/// ```
/// use alderskein::{shares, Room, Rule, Share};
///
/// // On its one symbol, the first rule shows 0 at any time, the second at 1 s alone.
/// let sizes = [6, 0, 1, 0, 1, 0, 1, 0, 1, 0, 2, 0, 2, 0, 0, 0, 2, 0, 3, 0, 0, 0];
/// let any = [&sizes[..], &[8, 0, 5, 0, 0, 0, 0, 0, 0, 0, 0, 0]].concat();
/// let at_1 = [&sizes[..], &[14, 0, 5, 0, 0, 0, 0, 0, 0, 0, 0, 0, 0, 0, 2, 0, 1, 0]].concat();
/// let any = Rule::read(&any)?.build(Room::LISTING)?;
/// let at_1 = Rule::read(&at_1)?.build(Room::LISTING)?;
///
/// let shares = shares(&[&at_1, &any], 1, 3)?;
/// assert_eq!(shares.lines[0].by_length[1], Share { accepted: 1, words: 7, numerator: 1, denominator: 7 });
/// assert_eq!(shares.lines[0].in_all, Share { accepted: 2, words: 8, numerator: 1, denominator: 4 });
/// assert_eq!(shares.lines[1].in_all, Share { accepted: 8, words: 8, numerator: 1, denominator: 1 });
/// assert_eq!(shares.greatest, 1);
/// # Ok::<(), alderskein::Refusal>(())
/// ```
pub fn shares(tables: &[&Table], events: u32, seconds: u32) -> Result<Shares, Refusal> {
    let [mut cells, mut rows, mut pool] = [const { Vec::new() }; 3];
    for table in tables.iter().take(TABLES) {
        for (all, part) in [&mut cells, &mut rows, &mut pool].into_iter().zip(table.used_parts()) {
            all.extend_from_slice(part);
        }
    }
    count(tables, [&cells, &rows, &pool], events, seconds)
}

impl Table {
    /// How much the table allows of the words of at most `events` (m, 0 to 6) with stamps up to `seconds` (H, 0 to
    /// 30): 38, 43. For a table as built each share is that of the rule itself. Nothing is copied.
    pub fn share(&self, events: u32, seconds: u32) -> Result<Line, Refusal> {
        let Shares { mut lines, .. } = count(&[self], self.parts(), events, seconds)?;
        Ok(lines.remove(0))
    }
}

/// The shares of tables that stand one after another.
fn count(tables: &[&Table], parts: [&[u32]; 3], events: u32, seconds: u32) -> Result<Shares, Refusal> {
    let mut batch = Batch { count: u32::try_from(tables.len()).unwrap_or(u32::MAX), ..Batch::default() };
    for (built, table) in batch.tables.iter_mut().zip(tables) {
        *built = table.built();
    }
    let [cells, rows, pool] = parts;
    let counted = raw::count_shares(batch, cells, rows, pool, events, seconds);
    Refusal::unless_none(counted.number, counted.place, ())?;
    let lines = counted.lines.chunks_exact(LINE_NUMBERS).take(tables.len());
    Ok(Shares {
        lines: lines.map(|numbers| Line::of(numbers, events as usize)).collect(),
        greatest: counted.greatest as usize - 1,
    })
}

impl Line {
    /// A line of a list of words of at most so many events.
    fn of(numbers: &[u32], events: usize) -> Self {
        let lengths = numbers.chunks_exact(SHARE_NUMBERS).take(events + 1);
        Line { by_length: lengths.map(Share::of).collect(), in_all: Share::of(&numbers[LINE_IN_ALL..]) }
    }
}

impl Share {
    fn of(numbers: &[u32]) -> Self {
        Share { accepted: numbers[0], words: numbers[1], numerator: numbers[2], denominator: numbers[3] }
    }
}

/// `5 of 180`: the words accepted, out of how many.
impl fmt::Display for Share {
    fn fmt(&self, f: &mut fmt::Formatter) -> fmt::Result {
        write!(f, "{} of {}", self.accepted, self.words)
    }
}
