//! The same table, built as fast as plain safe Rust can when nothing binds it: rows are hashed, sets are bits,
//! the memory is its own.
//!
//! What makes it fast:
//!
//! - A set is a list of words of bits, and a row is found by a hash of its words (`rows`).
//! - Edges are sorted by symbol and source. A guard is a lowest and a highest region per clock, so that a pair
//!   takes an edge in one stretch of intervals, found by subtractions (`plan`). One with a not-equal or with groups
//!   is as many such edges as it takes, worked out once a build (`guards`).
//! - Work is done once for a row and a symbol: cells differ only where such a stretch begins or ends, and at
//!   resets. All cells between are written at once.
//! - A row of few pairs is taken apart, once, and goes pair by pair (`pairs`). A row of many goes location by
//!   location, all pairs of a word in one step (`bits`).
//!
//! The vectors are kept from build to build, as the other two keep the room they are lent, but nothing that was
//! worked out is: every build begins with cleared ones. It takes a rule that was checked, and does not check it
//! again, which the other two do.

mod bits;
mod guards;
mod pairs;
mod plan;
mod rows;

use alderskein::raw::Built;
use bits::Bits;
use pairs::Pairs;
use plan::Plan;
use protocol::{Rule, Table};
use rows::Rows;

/// The most rows of a table.
const MOST_ROWS: usize = 4_096;

/// A builder with its memory, and the table it built last.
#[derive(Default)]
pub struct Fastest {
    plan: Plan,
    rows: Rows,
    cells: Vec<u32>,
    pairs: Pairs,
    bits: Bits,
    built: Built,
}

impl Fastest {
    /// Builds the table of a rule that was checked; nothing if it has too many rows.
    pub fn build(&mut self, rule: Rule) -> Option<usize> {
        let Fastest { plan, rows, cells, pairs, bits, built } = self;
        plan.lay(rule);
        rows.clear();
        cells.clear();
        bits.clear();
        pairs.number_start(plan, rows, rule.head.starts);
        let mut row = 0;
        while row < rows.count() {
            if rows.count() > MOST_ROWS {
                return None;
            }
            if plan.is_dense(rows.pair_count(row)) {
                bits.fill(plan, rows, cells, row);
            } else {
                pairs.fill(plan, rows, cells, row);
            }
            row += 1;
        }
        *built = plan.built(rule.head, rows);
        Some(rows.count())
    }

    /// The table that was built last.
    pub fn table(&self) -> Table<'_> {
        Table { built: self.built, cells: &self.cells, rows: self.rows.numbers(), pool: self.rows.pool() }
    }
}

/// The intervals at which cells begin to differ, one after another, each with the next one's or the end.
fn stretches(mut begins: u64, end: usize) -> impl Iterator<Item = (usize, usize)> {
    std::iter::from_fn(move || {
        if begins == 0 {
            return None;
        }
        let begin = begins.trailing_zeros() as usize;
        begins &= begins - 1;
        Some((begin, end.min(begins.trailing_zeros() as usize)))
    })
}
