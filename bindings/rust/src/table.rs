//! Tables: built, checked, looked into and run.

use crate::raw::{self, Built, Head};
use crate::{Follower, Refusal, Word, EDGE_TABLE, EVENTS};

/// How many numbers a row takes in the row table: start and length in the pool, verdict.
pub const ROW_NUMBERS: usize = 3;
/// The row numbers of the most rows, 4,096.
pub const ROW_TABLE: usize = 12_288;
/// The numbers of build scratch that are enough for every rule: one bit for each of at most 65,536 codes.
pub const BUILD_SCRATCH: usize = 2_048;
/// The most joint states of two tables that are searched: R · W of the one times R · W of the other.
pub const JOINT_STATES: usize = 1_000_000;

/// D of a word that is shown: its stamps are in half seconds.
const SHOWN_GRAIN: u32 = 2;

/// How many numbers a builder is lent. They are allocated as asked; without memory for them the program
/// ends, as with every `Vec`.
#[derive(Clone, Copy, Debug, PartialEq, Eq)]
pub struct Room {
    /// For the scratch: N / 32 rounded up, at most 2,048.
    pub scratch: usize,
    /// For the cells: R · S · W.
    pub cells: usize,
    /// For the rows: 3 · R.
    pub rows: usize,
    /// For the pool: P.
    pub pool: usize,
}

impl Room {
    /// What the listing program lends: enough for 682 rows, and for every scratch.
    pub const LISTING: Room = Room { scratch: 16_384, cells: 16_384, rows: 2_048, pool: 8_192 };
}

impl Default for Room {
    /// Room for every scratch, for 4,096 rows, and for a million each of cells and codes.
    fn default() -> Self {
        Room { scratch: BUILD_SCRATCH, cells: 1 << 20, rows: ROW_TABLE, pool: 1 << 20 }
    }
}

/// A table in shape: a built record and the numbers of its cells, rows and pool.
#[derive(Clone, Debug, PartialEq, Eq)]
pub struct Table {
    built: Built,
    cells: Vec<u32>,
    rows: Vec<u32>,
    pool: Vec<u32>,
}

/// Where a row leads on a symbol and an interval.
#[derive(Clone, Copy, Debug, PartialEq, Eq)]
pub struct Cell {
    /// The next row.
    pub next: u32,
    /// Whether the timer is reset.
    pub resets: bool,
}

/// Whether a table allows only what another one allows.
#[derive(Clone, Debug, PartialEq, Eq)]
pub enum Allows {
    /// Only that: every word that the first accepts the second accepts, of any number of events and any D.
    Only,
    /// More: a word that the first accepts and the second does not, with D = 2 and of the fewest events
    /// possible. Which one of several is not fixed.
    More(Word),
}

impl Table {
    pub(crate) fn build(head: Head, edges: &[u16], room: Room) -> Result<Table, Refusal> {
        let mut scratch = vec![0; room.scratch];
        let [mut cells, mut rows, mut pool] =
            [room.cells, room.rows, room.pool].map(|length| vec![0; length]);
        let building = raw::build_table(head, edges, &mut scratch, &mut cells, &mut rows, &mut pool);
        let built = building.built;
        Refusal::unless_none(building.number, building.place, ())?;
        Ok(Table { built, cells, rows, pool }.cut())
    }

    /// A table from its parts, wherever they come from: 25.
    pub fn from_parts(
        built: Built,
        cells: Vec<u32>,
        rows: Vec<u32>,
        pool: Vec<u32>,
    ) -> Result<Table, Refusal> {
        let answer = raw::check_table(built, &cells, &rows, &pool);
        Refusal::unless_none(answer.number, answer.place, Table { built, cells, rows, pool })
    }

    /// The table without its unused places.
    fn cut(mut self) -> Self {
        self.cells.truncate(self.row_count() * self.row_cells());
        self.rows.truncate(ROW_NUMBERS * self.row_count());
        self.pool.truncate(self.built.total as usize);
        for table in [&mut self.cells, &mut self.rows, &mut self.pool] {
            table.shrink_to_fit();
        }
        self
    }

    /// The built record.
    pub fn built(&self) -> Built {
        self.built
    }

    /// The cells, rows and pool.
    pub fn parts(&self) -> [&[u32]; 3] {
        [&self.cells, &self.rows, &self.pool]
    }

    /// The cells, rows and pool without unused places.
    pub(crate) fn used_parts(&self) -> [&[u32]; 3] {
        let cells = &self.cells[..self.row_count() * self.row_cells()];
        let rows = &self.rows[..ROW_NUMBERS * self.row_count()];
        [cells, rows, &self.pool[..self.built.total as usize]]
    }

    /// R.
    pub fn row_count(&self) -> usize {
        self.built.rows as usize
    }

    /// W, the count of intervals.
    pub fn interval_count(&self) -> usize {
        2 * self.built.top as usize + 2
    }

    fn row_cells(&self) -> usize {
        self.built.symbols as usize * self.interval_count()
    }

    /// The numbers of a row: start, length, verdict.
    fn row(&self, row: usize) -> Option<&[u32]> {
        self.rows[..ROW_NUMBERS * self.row_count()].chunks_exact(ROW_NUMBERS).nth(row)
    }

    /// The codes of a row, nothing past the last one.
    pub fn codes(&self, row: usize) -> Option<&[u32]> {
        let numbers = self.row(row)?;
        let (start, length) = (numbers[0] as usize, numbers[1] as usize);
        self.pool.get(start..start + length)
    }

    /// A row's stored verdict: whether it holds a final location.
    pub fn verdict(&self, row: usize) -> Option<bool> {
        Some(self.row(row)?[2] == 1)
    }

    /// The cell of a row, symbol and interval.
    pub fn cell(&self, row: usize, symbol: u16, interval: usize) -> Option<Cell> {
        let symbol = usize::from(symbol);
        if symbol >= self.built.symbols as usize || interval >= self.interval_count() {
            return None;
        }
        let line =
            self.cells[..self.row_count() * self.row_cells()].chunks_exact(self.row_cells()).nth(row)?;
        let cell = line[symbol * self.interval_count() + interval];
        Some(Cell { next: cell / 2, resets: cell % 2 == 1 })
    }

    /// Whether the table accepts the word: 30 to 33.
    pub fn run(&self, word: &Word) -> Result<bool, Refusal> {
        let (grain, symbols, stamps) = (word.grain(), word.symbols(), word.stamps());
        let answer = raw::run_table(self.built, &self.cells, &self.rows, &self.pool, grain, symbols, stamps);
        Refusal::unless_none(answer.number, answer.place, answer.value == 1)
    }

    /// Whether this table allows only what the other one allows, or a word that only this one accepts: 35,
    /// 36, 37.
    ///
    /// For tables as built this holds of the rules themselves: [`Allows::Only`] says that the field never
    /// shows 0 by this rule where it is blank by the other. 35 and 36 leave that open. 37 does not: this table
    /// allows more, but by words of more than [`EVENTS`] events alone.
    ///
    /// The scratch, one number for each joint state, is allocated for the call: at most [`JOINT_STATES`]
    /// numbers. To lend it oneself, and a shorter room for the word, there is [`raw::check_inclusion`].
    pub fn allows_only(&self, other: &Table) -> Result<Allows, Refusal> {
        let states = self.state_count().saturating_mul(other.state_count());
        let mut scratch = vec![0; states.min(JOINT_STATES)];
        let (mut symbols, mut stamps) = (vec![0; EVENTS], vec![0; EVENTS]);
        let ([cells, rows, pool], [cells2, rows2, pool2]) = (self.parts(), other.parts());
        let inclusion = raw::check_inclusion(
            self.built,
            cells,
            rows,
            pool,
            other.built,
            cells2,
            rows2,
            pool2,
            &mut scratch,
            &mut symbols,
            &mut stamps,
        );
        Refusal::unless_none(inclusion.number, inclusion.place, ())?;
        Ok(if inclusion.included {
            Allows::Only
        } else {
            Allows::More(Word::at_front(SHOWN_GRAIN, inclusion.events, symbols, stamps))
        })
    }

    /// R · W: a row and an interval of the timer.
    fn state_count(&self) -> usize {
        self.row_count() * self.interval_count()
    }

    /// A follower over this table with this D, before the first event: 30.
    pub fn follower(&self, grain: u32) -> Result<Follower<'_>, Refusal> {
        let started = raw::start_follower(grain);
        Refusal::unless_none(started.number, started.place, Follower::resume(self, started.follower))
    }

    /// A follower kept from earlier; its record is tested with each event.
    pub fn resume(&self, record: raw::Follower) -> Follower<'_> {
        Follower::resume(self, record)
    }
}

/// Reads a rule file, builds its table and runs the word over it: 1 to 8, 22 to 24, 30 to 33.
///
/// The answer is yes exactly if the rule that the file spells accepts the word.
pub fn decide(file: &[u8], room: Room, word: &Word) -> Result<bool, Refusal> {
    let mut edges = vec![0; EDGE_TABLE];
    let mut scratch = vec![0; room.scratch];
    let [mut cells, mut rows, mut pool] = [room.cells, room.rows, room.pool].map(|length| vec![0; length]);
    let (grain, symbols, stamps) = (word.grain(), word.symbols(), word.stamps());
    let answer =
        raw::decide(file, &mut edges, &mut scratch, &mut cells, &mut rows, &mut pool, grain, symbols, stamps);
    Refusal::unless_none(answer.number, answer.place, answer.value == 1)
}
