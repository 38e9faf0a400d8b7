//! The listing of a rule file's table.

use crate::table::{Built, Table};
use crate::{build_table, read_rule, Refusal, EDGE_TABLE_NUMBERS};

/// The most bytes of a file that the listing program reads.
pub const LISTING_BYTES: usize = 49_152;

const SCRATCH_ROOM: usize = 16_384;
const CELL_ROOM: usize = 16_384;
const ROW_ROOM: usize = 2_048;
const POOL_ROOM: usize = 8_192;

/// The listing program: what it prints for a rule file, of which it reads at most 49,152 bytes.
pub fn list_table(file: &[u8]) -> Vec<u8> {
    let file = &file[..file.len().min(LISTING_BYTES)];
    let text = listing(file).unwrap_or_else(|refusal| format!("no {} {}\n", refusal.number, refusal.place));
    text.into_bytes()
}

fn listing(file: &[u8]) -> Result<String, Refusal> {
    let mut edges = vec![0; EDGE_TABLE_NUMBERS];
    let mut scratch = vec![0; SCRATCH_ROOM];
    let mut cells = vec![0; CELL_ROOM];
    let mut rows = vec![0; ROW_ROOM];
    let mut pool = vec![0; POOL_ROOM];
    let head = read_rule(file, &mut edges)?;
    let built = build_table(&head, &edges, &mut scratch, &mut cells, &mut rows, &mut pool)?;
    Ok(table_text(Table { built: &built, cells: &cells, rows: &rows, pool: &pool }))
}

fn table_text(table: Table) -> String {
    let Built { rows, pool, symbols, .. } = *table.built;
    let intervals = table.built.intervals();
    let mut text = String::new();
    put_line(&mut text, [rows, pool, symbols, intervals as u32]);
    for (row, cells) in (0..rows).zip(table.cells.chunks_exact(table.built.row_cells())) {
        let codes = table.codes(row);
        let front = [row, table.verdict(row), codes.len() as u32];
        put_line(&mut text, front.iter().chain(codes).copied());
        for line in cells.chunks_exact(intervals) {
            put_line(&mut text, line.iter().copied());
        }
    }
    text
}

/// Puts a line of numbers with a blank between two.
fn put_line(text: &mut String, numbers: impl IntoIterator<Item = u32>) {
    let words: Vec<String> = numbers.into_iter().map(|number| number.to_string()).collect();
    text.push_str(&words.join(" "));
    text.push('\n');
}
