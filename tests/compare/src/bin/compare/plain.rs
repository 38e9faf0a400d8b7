//! Tables as plain numbers, and what the codes of a row say.

use alderskein::raw::Built;
use alderskein::ROW_NUMBERS;
use protocol::{Call, Engine, Reference, State, Table, What};

/// The place of the verdict among the numbers of a row.
const VERDICT: usize = 2;

/// The place of a row's verdict in the row table.
pub fn verdict_at(row: usize) -> usize {
    ROW_NUMBERS * row + VERDICT
}

/// A table as plain numbers.
#[derive(Clone)]
pub struct Plain {
    /// L, S, K, cm, the final set, R, P.
    pub built: [u32; 7],
    pub cells: Vec<u32>,
    pub rows: Vec<u32>,
    pub pool: Vec<u32>,
}

impl Plain {
    pub fn symbols(&self) -> u32 {
        self.built[1]
    }

    /// As it is lent.
    pub fn lent(&self) -> Table<'_> {
        let [locations, symbols, clocks, top, ends, rows, total] = self.built;
        let built = Built { locations, symbols, clocks, top, ends, rows, total };
        Table { built, cells: &self.cells, rows: &self.rows, pool: &self.pool }
    }

    /// N, or the largest number.
    pub fn code_count(&self) -> u32 {
        let codes = weight(&self.built).saturating_mul(self.built[0].into());
        u32::try_from(codes).unwrap_or(u32::MAX)
    }

    /// R, or the rows that the row table has if these are fewer.
    pub fn row_count(&self) -> usize {
        (self.built[5] as usize).min(self.rows.len() / ROW_NUMBERS)
    }

    /// What the codes of a row say.
    pub fn said(&self, row: usize) -> u32 {
        said(&self.built, &self.rows, &self.pool, row)
    }

    /// Does what a command does to the state's table.
    pub fn take(&mut self, call: &Call) {
        match *call {
            Call::Poke { what: What::Built, index, value } => self.built[index] = value,
            Call::Poke { what, index, value } => {
                if let Some(place) = self.table(what).and_then(|table| table.get_mut(index)) {
                    *place = value;
                }
            }
            Call::Resize { what, length, fill } => {
                if let Some(table) = self.table(what) {
                    table.resize(length, fill);
                }
            }
            _ => {}
        }
    }

    fn table(&mut self, what: What) -> Option<&mut Vec<u32>> {
        match what {
            What::Cells => Some(&mut self.cells),
            What::Rows => Some(&mut self.rows),
            What::Pool => Some(&mut self.pool),
            _ => None,
        }
    }
}

/// The codes of a location, (cm + 2)^K.
pub fn weight(built: &[u32; 7]) -> u64 {
    (u64::from(built[3]) + 2).saturating_pow(built[2])
}

/// What the codes of a row say, 1 yes and 0 no. A row that passes the pool's end has none.
fn said(built: &[u32; 7], rows: &[u32], pool: &[u32], row: usize) -> u32 {
    let numbers = &rows[ROW_NUMBERS * row..];
    let (start, length) = (numbers[0] as usize, numbers[1] as usize);
    let codes = pool.get(start..start + length).unwrap_or_default();
    let locations = codes.iter().map(|&code| u64::from(code) / weight(built));
    locations.filter(|&location| location < 32).any(|location| built[4] >> location & 1 == 1).into()
}

/// A stored verdict that its row's codes do not say.
pub struct Wrong {
    pub row: usize,
    pub stored: u32,
    pub said: u32,
}

/// The verdict by which alone the state's table is out of shape, if there is one.
pub fn only_wrong(state: &State) -> Option<Wrong> {
    let Built { locations, symbols, clocks, top, ends, rows: row_count, total } = state.built;
    let built = [locations, symbols, clocks, top, ends, row_count, total];
    let row_count = (row_count as usize).min(state.rows.len() / ROW_NUMBERS);
    let all = (0..row_count).map(|row| Wrong {
        row,
        stored: state.rows[verdict_at(row)],
        said: said(&built, &state.rows, &state.pool, row),
    });
    let mut differ = all.filter(|wrong| wrong.stored != wrong.said);
    let only = differ.next().filter(|_| differ.next().is_none())?;
    let mut rows = state.rows.to_vec();
    rows[verdict_at(only.row)] = only.said;
    let righted = Table { built: state.built, cells: &state.cells, rows: &rows, pool: &state.pool };
    (Reference::check_table(righted).number == 0).then_some(only)
}
