//! Tables: a rule's, or with any cells.

use alderskein::raw::Built;
use alderskein::{EDGE_TABLE, ROW_NUMBERS, ROW_TABLE};
use protocol::{Engine, Reference, Rule, Table, Tables};

/// A built record and its tables.
pub struct Filled {
    pub built: Built,
    pub cells: Vec<u32>,
    pub rows: Vec<u32>,
    pub pool: Vec<u32>,
}

impl Filled {
    /// A table with these cells: two locations, of which the first is final; an accepting row has its code.
    fn new(symbols: u32, top: u32, verdicts: &[bool], cells: Vec<u32>) -> Self {
        let (mut rows, mut pool) = (Vec::new(), Vec::new());
        for &accepts in verdicts {
            rows.extend([pool.len() as u32, accepts.into(), accepts.into()]);
            pool.extend(accepts.then_some(0));
        }
        let (row_count, total) = (verdicts.len() as u32, pool.len() as u32);
        let built = Built { locations: 2, symbols, clocks: 1, top, ends: 1, rows: row_count, total };
        Filled { built, cells, rows, pool }
    }

    /// Any cells; at an even interval one in four resets the timer.
    pub fn random(seed: u64, symbols: u32, top: u32, verdicts: &[bool]) -> Self {
        let mut numbers = numbers(seed);
        let mut cell = |place: u32| {
            let reset = place.is_multiple_of(2) && numbers().is_multiple_of(4);
            2 * (numbers() % verdicts.len() as u64) as u32 + u32::from(reset)
        };
        let count = verdicts.len() as u32 * symbols * (2 * top + 2);
        let cells = (0..count).map(&mut cell).collect();
        Filled::new(symbols, top, verdicts, cells)
    }

    /// Each row leads to the next one, the last to the first: one symbol, cm 0.
    pub fn ring(verdicts: &[bool]) -> Self {
        let count = verdicts.len();
        let cells = (0..count).flat_map(|row| [2 * ((row + 1) % count) as u32; 2]).collect();
        Filled::new(1, 0, verdicts, cells)
    }

    /// A rule's table, without unused places.
    pub fn built(file: &[u8]) -> Self {
        let mut edges = vec![0; EDGE_TABLE];
        let head = Reference::read_rule(file, &mut edges).head;
        let [mut scratch, mut cells, mut rows, mut pool] =
            [2_048, 1 << 20, ROW_TABLE, 1 << 18].map(|length| vec![0; length]);
        let lent = Tables { scratch: &mut scratch, cells: &mut cells, rows: &mut rows, pool: &mut pool };
        let building = Reference::build_table(Rule { head, edges: &edges }, lent);
        assert_eq!(building.number, 0, "the rule's table does not fit");
        let mut filled = Filled { built: building.built, cells, rows, pool };
        filled.cells.truncate(filled.states() * building.built.symbols as usize);
        filled.rows.truncate(ROW_NUMBERS * building.built.rows as usize);
        filled.pool.truncate(building.built.total as usize);
        filled
    }

    pub fn table(&self) -> Table<'_> {
        Table { built: self.built, cells: &self.cells, rows: &self.rows, pool: &self.pool }
    }

    /// R · W.
    pub fn states(&self) -> usize {
        (self.built.rows * (2 * self.built.top + 2)) as usize
    }
}

/// Random numbers (splitmix64).
fn numbers(seed: u64) -> impl FnMut() -> u64 {
    let mut state = seed;
    move || {
        state = state.wrapping_add(0x9e37_79b9_7f4a_7c15);
        let mixed = (state ^ (state >> 30)).wrapping_mul(0xbf58_476d_1ce4_e5b9);
        let mixed = (mixed ^ (mixed >> 27)).wrapping_mul(0x94d0_49bb_1331_11eb);
        mixed ^ (mixed >> 31)
    }
}
