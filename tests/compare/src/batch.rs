//! A batch of tables that stand one after another.

use crate::engine::Table;
use crate::lists::{numbers_text, MOST_NUMBERS};
use crate::{Length, Lent, What};
use alderskein::raw::{self, Built, Shares, LINE_IN_ALL, LINE_NUMBERS, SHARE_NUMBERS, TABLES};
use alderskein::ROW_NUMBERS;

/// What stands in the places of a batch's record past its tables: nothing that may be read.
const UNUSED: u32 = 0xa5c3_96e1;

/// Built records, any number of them, and their tables one after another.
#[allow(missing_docs)]
#[derive(Clone, Debug, Default, PartialEq)]
pub struct Batch {
    pub built: Vec<Built>,
    pub cells: Lent<u32>,
    pub rows: Lent<u32>,
    pub pool: Lent<u32>,
}

impl Batch {
    /// How many cells, row numbers and codes a built record speaks of.
    pub fn needs(built: &Built) -> [u128; 3] {
        let [symbols, top, rows, total] = [built.symbols, built.top, built.rows, built.total].map(u128::from);
        [rows * symbols * (2 * top + 2), ROW_NUMBERS as u128 * rows, total]
    }

    /// Adds a built record, and so many numbers of its tables as it needs, or as there are; gives how many records
    /// there are then. Nothing if a table becomes too long.
    pub(crate) fn add(&mut self, table: Table) -> Option<usize> {
        let needs = Batch::needs(&table.built);
        let parts = [table.cells, table.rows, table.pool];
        let used = [0, 1, 2].map(|at| &parts[at][..needs[at].min(parts[at].len() as u128) as usize]);
        let all = [&mut self.cells, &mut self.rows, &mut self.pool];
        if all.iter().zip(used).any(|(all, part)| all.len() + part.len() > MOST_NUMBERS) {
            return None;
        }
        all.into_iter().zip(used).try_for_each(|(all, part)| all.append(part))?;
        self.built.push(table.built);
        Some(self.built.len())
    }

    /// Cuts or lengthens a table, and shows it; nothing if it has not so many numbers.
    pub(crate) fn resize(&mut self, what: What, length: Length, fill: u32) -> Option<&[u32]> {
        let table = match what {
            What::Cells => &mut self.cells,
            What::Rows => &mut self.rows,
            What::Pool => &mut self.pool,
            _ => return None,
        };
        let length = match length {
            Length::To(length) => length,
            Length::Less(fewer) => table.len().checked_sub(fewer)?,
        };
        table.resize(length, fill)?;
        Some(table)
    }

    /// The record of the first 16 tables, with the count of all.
    pub(crate) fn record(&self) -> raw::Batch {
        let [locations, symbols, clocks, top, ends, rows, total] = [UNUSED; 7];
        let unused = Built { locations, symbols, clocks, top, ends, rows, total };
        let mut record = raw::Batch { count: self.built.len() as u32, tables: [unused; TABLES] };
        for (place, &built) in record.tables.iter_mut().zip(&self.built) {
            *place = built;
        }
        record
    }

    pub(crate) fn intact(&self) -> bool {
        self.cells.intact() && self.rows.intact() && self.pool.intact()
    }

    /// The greatest, and the tables' lines; nothing on a refusal.
    pub(crate) fn shares_text(&self, shares: &Shares) -> String {
        if shares.number != 0 {
            return String::new();
        }
        let lines = shares.lines.chunks_exact(LINE_NUMBERS).take(self.built.len()).map(line_text);
        let parts: Vec<String> = [shares.greatest.to_string()].into_iter().chain(lines).collect();
        parts.join(" ")
    }
}

/// The shares of each length that has words, and in all.
fn line_text(numbers: &[u32]) -> String {
    let (lengths, in_all) = numbers.split_at(LINE_IN_ALL);
    let lengths = lengths.chunks_exact(SHARE_NUMBERS).filter(|share| share[1] != 0);
    lengths.chain([in_all]).map(numbers_text).collect::<Vec<_>>().join(";")
}

#[cfg(test)]
mod tests {
    use crate::{Library, Machine, Reference};
    use alderskein::EDGE_TABLE;

    const WORKED: &str = "060001000200020001000200020000000200030000000E00050000000100000001000000020001000E\
                          0005000100000001000000000003000100";

    /// The answers of both to lines after the worked case, in room for one number more than it needs.
    fn check(lines: &[(&str, &str)]) {
        let (mut library, mut reference) = (Machine::<Library>::new(), Machine::<Reference>::new());
        for line in [&format!("read {WORKED} {EDGE_TABLE} 0"), "build 1 25 10 3 7"] {
            assert_eq!(library.answer(line), reference.answer(line), "{line}");
        }
        for (line, expected) in lines {
            assert_eq!([library.answer(line), reference.answer(line)], [*expected, *expected], "{line}");
        }
        assert!(library.intact() && library.batch() == reference.batch());
    }

    #[test]
    fn shares_are_answered() {
        let worked = "1,1,1,1;0,18,0,1;5,180,1,36;6,199,6,199";
        check(&[
            ("share 2 4", "share no 40 0"),
            ("batch add", "batch 1"),
            ("share 2 4", &format!("share ok 1 {worked}")),
            ("share 0 30", "share ok 1 1,1,1,1;1,1,1,1"),
            ("batch add", "batch 2"),
            ("share 2 4", &format!("share ok 1 {worked} {worked}")),
            ("share 7 4", "share no 38 0"),
            ("share 2 31", "share no 38 0"),
            ("share 6 6", "share no 43 1"),
            ("poke cells 0 6", "poke 2"),
            ("batch add", "batch 3"),
            ("share 2 4", "share no 25 3"),
            ("share 6 6", "share no 43 1"),
            ("batch new", "batch"),
            ("share 7 31", "share no 40 0"),
        ]);
    }

    #[test]
    fn tables_of_a_batch_are_cut_and_lengthened() {
        check(&[
            ("batch add", "batch 1"),
            ("batch resize pool -1 0", "batch 1:a8c7f832281a39c5"),
            ("share 1 1", "share no 25 1"),
            ("batch resize pool 2 3", "batch 2:a71ae6c26beeae86"),
            ("share 1 1", "share ok 1 1,1,1,1;0,6,0,1;1,7,1,7"),
            ("batch resize pool -3 0", "bad"),
            ("batch resize pool -0 0", "batch 2:a71ae6c26beeae86"),
            ("batch resize pool -2 0", "batch 0:cbf29ce484222325"),
            ("batch resize rows 67108865 0", "bad"),
            ("batch resize edges 1 0", "bad"),
            ("batch resize cells - 0", "bad"),
            ("batch resize cells --1 0", "bad"),
            ("batch resize cells 1", "bad"),
            ("batch", "bad"),
            ("batch add 1", "bad"),
            ("batch sub", "bad"),
            ("share 1", "bad"),
            ("share 1 1 1", "bad"),
        ]);
    }

    #[test]
    fn as_much_is_added_as_there_is() {
        check(&[
            ("poke built 5 4294967295", "poke 3"),
            ("poke built 6 4294967295", "poke 2"),
            ("batch add", "batch 1"),
            ("batch resize cells -25 0", "batch 0:cbf29ce484222325"),
            ("batch resize rows -10 0", "batch 0:cbf29ce484222325"),
            ("batch resize pool -3 0", "batch 0:cbf29ce484222325"),
            ("batch resize pool -1 0", "bad"),
        ]);
    }
}
