//! The built table: its record, its shape and the runner that walks its cells.

use crate::guard::MOST_CONSTANT;
use crate::rule::{code_count, sizes_in_range, MOST_CODES};
use crate::time::{Interval, Stamp};
use crate::word::{check_word, MOST_EVENTS};
use crate::Refusal;
use std::slice::ChunksExact;

/// The most rows of a table.
pub const MOST_ROWS: u32 = 4096;
/// Numbers per row: its start and length in the pool, and its verdict, 1 yes and 0 no.
pub const ROW_NUMBERS: usize = 3;

/// The record of a built table.
#[derive(Clone, Copy, Debug, Default, PartialEq, Eq)]
pub struct Built {
    /// L, the number of locations.
    pub locations: u32,
    /// S, the number of symbols.
    pub symbols: u32,
    /// K, the number of clocks.
    pub clocks: u32,
    /// cm, the largest constant in any atom.
    pub largest: u32,
    /// The final locations, a bit each.
    pub finals: u32,
    /// R, the number of rows.
    pub rows: u32,
    /// P, the number of codes in the pool.
    pub pool: u32,
}

impl Built {
    /// The fields in order.
    pub fn to_numbers(&self) -> [u32; 7] {
        [self.locations, self.symbols, self.clocks, self.largest, self.finals, self.rows, self.pool]
    }

    /// The record with these fields.
    pub fn from_numbers(numbers: [u32; 7]) -> Self {
        let [locations, symbols, clocks, largest, finals, rows, pool] = numbers;
        Built { locations, symbols, clocks, largest, finals, rows, pool }
    }

    /// W, the number of intervals.
    pub(crate) fn intervals(&self) -> usize {
        Interval::count(self.largest) as usize
    }

    /// Cells per row.
    pub(crate) fn row_cells(&self) -> usize {
        self.symbols as usize * self.intervals()
    }
}

/// A built record with its three tables.
#[derive(Clone, Copy)]
pub(crate) struct Table<'a> {
    pub built: &'a Built,
    pub cells: &'a [u32],
    pub rows: &'a [u32],
    pub pool: &'a [u32],
}

/// Where a walk over the cells stands.
#[derive(Clone, Copy)]
pub(crate) struct Position {
    pub row: u32,
    /// The stamp of the last timer reset.
    pub reset: Stamp,
}

impl Position {
    pub const START: Position = Position { row: 0, reset: Stamp::START };
}

impl<'a> Table<'a> {
    /// Checks the shape: 25.
    pub fn check(self) -> Result<(), Refusal> {
        let in_shape = self.sizes_in_range()
            && self.tables_long_enough()
            && self.rows_in_a_line()
            && self.codes_in_range()
            && self.verdicts_as_codes_say()
            && self.cells_in_range();
        Refusal::unless(in_shape, 25)
    }

    fn sizes_in_range(self) -> bool {
        let built = self.built;
        sizes_in_range(built.locations, built.symbols, built.clocks)
            && built.largest <= MOST_CONSTANT
            && self.code_count() <= MOST_CODES
            && (1..=MOST_ROWS).contains(&built.rows)
    }

    /// N, for sizes and cm in their ranges.
    fn code_count(self) -> u32 {
        code_count(self.built.locations, self.built.clocks, self.built.largest)
    }

    fn cells_used(self) -> usize {
        self.built.rows as usize * self.built.row_cells()
    }

    fn tables_long_enough(self) -> bool {
        self.rows.len() >= ROW_NUMBERS * self.built.rows as usize
            && self.pool.len() as u64 >= u64::from(self.built.pool)
            && self.cells.len() >= self.cells_used()
    }

    fn rows_used(self) -> ChunksExact<'a, u32> {
        self.rows[..ROW_NUMBERS * self.built.rows as usize].chunks_exact(ROW_NUMBERS)
    }

    /// Whether the rows follow one another from 0 to P without gaps.
    fn rows_in_a_line(self) -> bool {
        let mut end = 0u64;
        for row in self.rows_used() {
            if u64::from(row[0]) != end {
                return false;
            }
            end += u64::from(row[1]);
        }
        end == u64::from(self.built.pool)
    }

    fn codes_in_range(self) -> bool {
        let limit = self.code_count();
        self.pool[..self.built.pool as usize].iter().all(|&code| code < limit)
    }

    /// Whether every row's stored verdict is what its codes say, the rows in a line and the codes in range.
    fn verdicts_as_codes_say(self) -> bool {
        let finals = Finals::new(self.built.finals, code_count(1, self.built.clocks, self.built.largest));
        self.rows_used().all(|row| row[2] == finals.verdict(row_codes(row, self.pool)))
    }

    /// Whether cells name rows below R and reset the timer at even intervals only.
    ///
    /// W is even, so a cell's place is odd exactly when its interval number is.
    fn cells_in_range(self) -> bool {
        let limit = 2 * self.built.rows;
        let in_range = |pair: &[u32]| pair[0] < limit && pair[1] < limit && pair[1] % 2 == 0;
        self.cells[..self.cells_used()].chunks_exact(2).all(in_range)
    }

    /// Takes one event.
    pub fn step(self, from: Position, grain: u32, symbol: u16, stamp: Stamp) -> Position {
        let interval = Interval::of_age(stamp.since(from.reset), grain, self.built.largest);
        let line = from.row as usize * self.built.symbols as usize + usize::from(symbol);
        let cell = self.cells[line * self.built.intervals() + interval.0 as usize];
        let reset = if cell % 2 == 1 { stamp } else { from.reset };
        Position { row: cell / 2, reset }
    }

    /// Walks the cells over a whole word and tells whether it is accepted.
    pub fn accepts_word(self, grain: u32, symbols: &[u16], stamps: &[u32]) -> bool {
        let mut position = Position::START;
        for (&symbol, &stamp) in symbols.iter().zip(stamps) {
            position = self.step(position, grain, symbol, Stamp(stamp));
        }
        self.accepts(position.row)
    }

    /// What the three tables hold past this one, which is in shape.
    pub fn past(self) -> (&'a [u32], &'a [u32], &'a [u32]) {
        (
            &self.cells[self.cells_used()..],
            &self.rows[ROW_NUMBERS * self.built.rows as usize..],
            &self.pool[self.built.pool as usize..],
        )
    }

    /// The codes of a row.
    pub fn codes(self, row: u32) -> &'a [u32] {
        row_codes(row_numbers(self.rows, row as usize), self.pool)
    }

    /// The stored verdict of a row.
    pub fn verdict(self, row: u32) -> u32 {
        row_numbers(self.rows, row as usize)[2]
    }

    /// Whether a row's stored verdict is yes.
    pub fn accepts(self, row: u32) -> bool {
        self.verdict(row) == 1
    }
}

/// The numbers of a row.
pub(crate) fn row_numbers(rows: &[u32], row: usize) -> &[u32] {
    &rows[ROW_NUMBERS * row..][..ROW_NUMBERS]
}

/// The codes of a row, given its numbers.
pub(crate) fn row_codes<'a>(row: &[u32], pool: &'a [u32]) -> &'a [u32] {
    &pool[row[0] as usize..][..row[1] as usize]
}

/// The final locations, to be found among codes.
#[derive(Clone, Copy)]
pub(crate) struct Finals {
    set: u32,
    /// 2^32 over the codes per location, rounded down, plus 1: multiplying by it divides.
    factor: u64,
}

impl Finals {
    pub fn new(set: u32, per_location: u32) -> Self {
        Finals { set, factor: (1 << 32) / u64::from(per_location) + 1 }
    }

    /// What a row's codes say: 1 if one of them has a final location, else 0.
    pub fn verdict(self, codes: &[u32]) -> u32 {
        u32::from(codes.iter().any(|&code| self.set >> self.location(code) & 1 == 1))
    }

    /// The location of a code below N.
    ///
    /// The factor is too large by at most 1, so the quotient is by less than 1 / 65,536, which is too little
    /// to reach the next whole number.
    fn location(self, code: u32) -> u32 {
        ((u64::from(code) * self.factor) >> 32) as u32
    }
}

/// Checks that a built record and its tables are in shape: 25.
pub fn check_table(built: &Built, cells: &[u32], rows: &[u32], pool: &[u32]) -> Result<(), Refusal> {
    Table { built, cells, rows, pool }.check()
}

/// Walks the cells over a word and returns its verdict: 25, 30 to 33.
pub fn run_table(
    built: &Built,
    cells: &[u32],
    rows: &[u32],
    pool: &[u32],
    grain: u32,
    symbols: &[u16],
    stamps: &[u32],
) -> Result<bool, Refusal> {
    let table = Table { built, cells, rows, pool };
    table.check()?;
    check_word(built.symbols, grain, MOST_EVENTS, symbols, stamps)?;
    Ok(table.accepts_word(grain, symbols, stamps))
}
