//! Reader, builder and table runner in a row.

use crate::{build_table, read_rule, run_table, Refusal};

/// Reads a rule file, builds its table and runs a word over it; the first refusal met ends it.
///
/// The lent room ends as the calls made leave it.
pub fn decide(
    file: &[u8],
    edges: &mut [u16],
    scratch: &mut [u32],
    cells: &mut [u32],
    rows: &mut [u32],
    pool: &mut [u32],
    grain: u32,
    symbols: &[u16],
    stamps: &[u32],
) -> Result<bool, Refusal> {
    let head = read_rule(file, edges)?;
    let built = build_table(&head, edges, scratch, cells, rows, pool)?;
    run_table(&built, cells, rows, pool, grain, symbols, stamps)
}
