//! The construction of the one-timer table.

use crate::edge::Edge;
use crate::rule::{initial_locations, largest_constant, take_edges, Head};
use crate::table::{row_codes, row_numbers, Built, Finals, MOST_ROWS, ROW_NUMBERS};
use crate::time::Interval;
use crate::Refusal;
use std::iter::empty;

/// Codes to a number of the scratch, a bit each.
const CODES_PER_NUMBER: u32 = 32;

/// Builds the table of a rule into the lent tables: 20, 21, 22, then 23 and 24.
///
/// The scratch has a bit per code, 32 to a number: N / 32 numbers, rounded up, or more. What it holds at
/// first does not matter.
///
/// After 20 to 22 all lent memory is untouched; after 23 and 24 the tables and the scratch are zero. On
/// success the whole scratch is zero, and so are the tables' places not in use. The built record that goes
/// with a refusal is all zero (`Built::default()`).
pub fn build_table(
    head: &Head,
    edges: &[u16],
    scratch: &mut [u32],
    cells: &mut [u32],
    rows: &mut [u32],
    pool: &mut [u32],
) -> Result<Built, Refusal> {
    let edges = take_edges(head, edges)?;
    let largest = largest_constant(&edges);
    let codes = Codes::new(head.clocks, largest);
    let code_count = head.locations * codes.per_location();
    let mark_numbers = code_count.div_ceil(CODES_PER_NUMBER) as usize;
    Refusal::unless(scratch.len() >= mark_numbers, 22)?;
    clear([scratch, cells, rows, pool]);
    let mut builder = Builder {
        head,
        edges: &edges,
        codes,
        finals: Finals::new(head.finals, codes.per_location()),
        marks: Marks::over(&mut scratch[..mark_numbers]),
        cells,
        rows,
        pool,
        row_count: 0,
        code_total: 0,
    };
    let outcome = builder.number_rows();
    if outcome.is_err() {
        clear([scratch, cells, rows, pool]);
    }
    outcome
}

fn clear(tables: [&mut [u32]; 4]) {
    for table in tables {
        table.fill(0);
    }
}

/// How a pair, which is a location and the clocks' bases, makes a code. A build works this out once.
#[derive(Clone, Copy)]
pub struct Codes {
    clocks: usize,
    largest: u32,
    powers: [u32; 5],
}

impl Codes {
    /// Works out the powers of cm + 2, for K and cm in their ranges.
    pub fn new(clocks: u32, largest: u32) -> Self {
        let power = |exponent| if exponent <= clocks { (largest + 2).pow(exponent) } else { 0 };
        Codes { clocks: clocks as usize, largest, powers: [0, 1, 2, 3, 4].map(power) }
    }

    /// (cm + 2)^k for k from 0 to K; the places past K are zero.
    pub fn powers(&self) -> [u32; 5] {
        self.powers
    }

    /// Makes a code of a location and clocks with their bases; a clock left out has base 0.
    pub fn code(&self, location: u32, bases: impl Iterator<Item = (usize, u32)>) -> u32 {
        let mut code = location * self.per_location();
        for (clock, base) in bases {
            code += base * self.powers[clock];
        }
        code
    }

    /// Takes a code apart into its location and all clocks, ascending, with their bases.
    pub fn pair(&self, code: u32) -> (u32, impl Iterator<Item = (usize, u32)> + '_) {
        let bases = (0..self.clocks).map(move |clock| (clock, self.base(code, clock)));
        (code / self.per_location(), bases)
    }

    /// The codes per location.
    fn per_location(&self) -> u32 {
        self.powers[self.clocks]
    }

    fn base(&self, code: u32, clock: usize) -> u32 {
        code / self.powers[clock] % (self.largest + 2)
    }

    /// Whether the edge's guard holds for a pair when the timer is in this interval.
    fn allow(&self, code: u32, edge: &Edge, interval: Interval) -> bool {
        let region = |clock| interval.plus_base(self.base(code, clock), self.largest);
        edge.guard.first_failing(region, Interval::of_constant).is_none()
    }

    /// The edge's target with all bases as they are.
    fn kept(&self, code: u32, edge: &Edge) -> u32 {
        edge.target * self.per_location() + code % self.per_location()
    }

    /// The edge's target with the bases moved on by a whole number and the edge's clocks zeroed.
    fn moved(&self, code: u32, edge: &Edge, by: u32) -> u32 {
        let running = (0..self.clocks).filter(|&clock| !edge.resets_clock(clock));
        let base = |clock| (self.base(code, clock) + by).min(self.largest + 1);
        self.code(edge.target, running.map(|clock| (clock, base(clock))))
    }
}

/// A set of codes: code x is in it if bit x % 32 of number x / 32 is set.
struct Marks<'a> {
    numbers: &'a mut [u32],
    /// How many codes are in the set.
    count: usize,
}

impl<'a> Marks<'a> {
    /// The empty set, over numbers that are zero.
    fn over(numbers: &'a mut [u32]) -> Self {
        Marks { numbers, count: 0 }
    }

    fn set(&mut self, code: u32) {
        self.count += usize::from(!self.has(code));
        self.numbers[Self::place(code)] |= Self::bit(code);
    }

    fn has(&self, code: u32) -> bool {
        self.numbers[Self::place(code)] & Self::bit(code) != 0
    }

    fn has_all(&self, codes: &[u32]) -> bool {
        codes.iter().all(|&code| self.has(code))
    }

    /// The codes of the set, ascending. Numbers without a bit are passed over.
    fn codes(&self) -> impl Iterator<Item = u32> + '_ {
        let held = self.numbers.iter().zip(0u32..).filter(|(&number, _)| number != 0);
        held.flat_map(|(_, place)| place * CODES_PER_NUMBER..(place + 1) * CODES_PER_NUMBER)
            .filter(|&code| self.has(code))
    }

    /// Empties the set, given its codes: no number has a bit of another.
    fn clear(&mut self, codes: &[u32]) {
        for &code in codes {
            self.numbers[Self::place(code)] = 0;
        }
        self.count = 0;
    }

    fn place(code: u32) -> usize {
        (code / CODES_PER_NUMBER) as usize
    }

    fn bit(code: u32) -> u32 {
        1 << (code % CODES_PER_NUMBER)
    }
}

/// The work under way.
struct Builder<'a> {
    head: &'a Head,
    edges: &'a [Edge<'a>],
    codes: Codes,
    finals: Finals,
    marks: Marks<'a>,
    cells: &'a mut [u32],
    rows: &'a mut [u32],
    pool: &'a mut [u32],
    row_count: usize,
    code_total: usize,
}

impl Builder<'_> {
    /// Numbers all rows by discovery and fills their cells.
    fn number_rows(&mut self) -> Result<Built, Refusal> {
        self.mark_start();
        self.number_marked()?;
        let mut cell = 0;
        let mut row = 0;
        while row < self.row_count {
            for symbol in 0..self.head.symbols as u16 {
                for interval in 0..Interval::count(self.codes.largest) {
                    self.cells[cell] = self.cell(row, symbol, Interval(interval))?;
                    cell += 1;
                }
            }
            row += 1;
        }
        Ok(self.built())
    }

    fn built(&self) -> Built {
        Built {
            locations: self.head.locations,
            symbols: self.head.symbols,
            clocks: self.head.clocks,
            largest: self.codes.largest,
            finals: self.head.finals,
            rows: self.row_count as u32,
            pool: self.code_total as u32,
        }
    }

    /// Marks every initial location with bases 0.
    fn mark_start(&mut self) {
        for location in initial_locations(self.head) {
            self.marks.set(self.codes.code(location, empty()));
        }
    }

    /// The cell of a row, symbol and interval: next row, and whether the timer is reset.
    fn cell(&mut self, row: usize, symbol: u16, interval: Interval) -> Result<u32, Refusal> {
        let reset_at = interval.constant().filter(|_| self.some_edge_resets(row, symbol, interval));
        self.mark_targets(row, symbol, interval, reset_at);
        let next = self.number_marked()?;
        Ok(2 * next as u32 + u32::from(reset_at.is_some()))
    }

    /// Whether some edge that a pair of the row allows resets a clock.
    fn some_edge_resets(&self, row: usize, symbol: u16, interval: Interval) -> bool {
        let pairs = row_codes(row_numbers(self.rows, row), self.pool);
        edges_on(self.edges, symbol).filter(|edge| edge.resets != 0).any(|edge| {
            let mut sources = codes_at(pairs, edge.source, self.codes.per_location()).iter();
            sources.any(|&code| self.codes.allow(code, edge, interval))
        })
    }

    /// Marks the target of every edge that a pair of the row allows; a timer reset at [c] moves the bases.
    fn mark_targets(&mut self, row: usize, symbol: u16, interval: Interval, reset_at: Option<u32>) {
        let Builder { edges, codes, marks, rows, pool, .. } = self;
        let pairs = row_codes(row_numbers(rows, row), pool);
        for edge in edges_on(edges, symbol) {
            for &code in codes_at(pairs, edge.source, codes.per_location()) {
                if codes.allow(code, edge, interval) {
                    marks.set(match reset_at {
                        Some(constant) => codes.moved(code, edge, constant),
                        None => codes.kept(code, edge),
                    });
                }
            }
        }
    }

    /// The number of the marked set, which is a new row's if no row has it yet. Clears the marks.
    fn number_marked(&mut self) -> Result<usize, Refusal> {
        let row = match self.find() {
            Some(row) => row,
            None => self.append()?,
        };
        self.marks.clear(row_codes(row_numbers(self.rows, row), self.pool));
        Ok(row)
    }

    /// Looks the marked set up among the rows: the lengths first, and then all of the row's codes are marked.
    fn find(&self) -> Option<usize> {
        let mut rows = self.rows[..ROW_NUMBERS * self.row_count].chunks_exact(ROW_NUMBERS);
        rows.position(|row| {
            row[1] as usize == self.marks.count && self.marks.has_all(row_codes(row, self.pool))
        })
    }

    /// Appends the marked set as the next row: 23, 24.
    fn append(&mut self) -> Result<usize, Refusal> {
        let (row, start, length) = (self.row_count, self.code_total, self.marks.count);
        Refusal::unless(row < self.row_limit(), 23)?;
        Refusal::unless(length <= self.pool.len() - start, 24)?;
        let codes = &mut self.pool[start..][..length];
        for (place, code) in codes.iter_mut().zip(self.marks.codes()) {
            *place = code;
        }
        let numbers = [start as u32, length as u32, self.finals.verdict(codes)];
        self.rows[ROW_NUMBERS * row..][..ROW_NUMBERS].copy_from_slice(&numbers);
        self.row_count += 1;
        self.code_total += length;
        Ok(row)
    }

    /// How many rows there is room for.
    fn row_limit(&self) -> usize {
        let row_cells = self.head.symbols * Interval::count(self.codes.largest);
        (MOST_ROWS as usize).min(self.rows.len() / ROW_NUMBERS).min(self.cells.len() / row_cells as usize)
    }
}

/// The edges with this symbol.
fn edges_on<'a>(edges: &'a [Edge<'a>], symbol: u16) -> impl Iterator<Item = &'a Edge<'a>> {
    edges.iter().filter(move |edge| edge.symbol == symbol)
}

/// The codes of a row that stand for pairs with this location.
fn codes_at(pairs: &[u32], location: u32, per_location: u32) -> &[u32] {
    let first = pairs.partition_point(|&code| code < location * per_location);
    let rest = &pairs[first..];
    &rest[..rest.partition_point(|&code| code < (location + 1) * per_location)]
}
