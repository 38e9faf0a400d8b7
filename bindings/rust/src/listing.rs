//! The listing of a table, as the listing program prints it.

use crate::Table;
use std::fmt;

/// R, P, S, W; then per row its number, verdict, code count and codes, and a line of cells per symbol.
impl fmt::Display for Table {
    fn fmt(&self, f: &mut fmt::Formatter) -> fmt::Result {
        let built = self.built();
        let width = self.interval_count();
        writeln!(f, "{} {} {} {width}", built.rows, built.total, built.symbols)?;
        for row in 0..self.row_count() {
            let codes = self.codes(row).unwrap_or_default();
            let verdict = u8::from(self.verdict(row).unwrap_or_default());
            write!(f, "{row} {verdict} {}", codes.len())?;
            codes.iter().try_for_each(|code| write!(f, " {code}"))?;
            writeln!(f)?;
            for symbol in 0..built.symbols as usize {
                write_cells(f, &self.parts()[0][(row * built.symbols as usize + symbol) * width..][..width])?;
            }
        }
        Ok(())
    }
}

/// One line of numbers with a blank between two.
fn write_cells(f: &mut fmt::Formatter, cells: &[u32]) -> fmt::Result {
    for (index, cell) in cells.iter().enumerate() {
        let blank = if index == 0 { "" } else { " " };
        write!(f, "{blank}{cell}")?;
    }
    writeln!(f)
}
