//! What came up of the build scratch: its length about N / 32 numbers, and the bits that rows take in it.

use crate::cover::those;
use crate::rules::{code_count, scratch_for, top_in, NUMBER_BITS};
use crate::size_counts::size_in;
use alderskein::ROW_NUMBERS;
use protocol::{Call, Reply, State};
use std::collections::BTreeSet;

/// The counts, each of which must be above 0.
pub const COUNTS: [&[&str]; 6] = [&ENOUGH, &TOO_SHORT, &ENOUGH_NEAR, &TOO_SHORT_NEAR, &BUILT, &IN_ROWS];

/// Some N, and a scratch for each that is just enough, and one number less.
const SOME: [usize; 6] = [31, 32, 33, 64, 65, 65_536];
const ENOUGH: [&str; 6] = [
    "scratch: N = 31 in 1 number",
    "scratch: N = 32 in 1 number",
    "scratch: N = 33 in 2 numbers",
    "scratch: N = 64 in 2 numbers",
    "scratch: N = 65 in 3 numbers",
    "scratch: N = 65,536 in 2,048 numbers",
];
const TOO_SHORT: [&str; 6] = [
    "scratch: N = 31 in none, 22",
    "scratch: N = 32 in none, 22",
    "scratch: N = 33 in 1 number, 22",
    "scratch: N = 64 in 1 number, 22",
    "scratch: N = 65 in 2 numbers, 22",
    "scratch: N = 65,536 in 2,047 numbers, 22",
];

/// The same for all N near a multiple of 32.
const ENOUGH_NEAR: [&str; 3] = [
    "scratch: just enough, N one below a multiple of 32",
    "scratch: just enough, N a multiple of 32",
    "scratch: just enough, N one above a multiple of 32",
];
const TOO_SHORT_NEAR: [&str; 3] = [
    "scratch: one number less, 22, N one below a multiple of 32",
    "scratch: one number less, 22, N a multiple of 32",
    "scratch: one number less, 22, N one above a multiple of 32",
];

/// What it held at entry, and the refusals.
const BUILT: [&str; 11] = [
    "scratch: just enough, every bit 1 at entry",
    "scratch: longer, every bit 1 at entry",
    "scratch: one number less, 22, every bit 1 at entry",
    "scratch: just enough, 23",
    "scratch: just enough, 23, every bit 1 at entry",
    "scratch: just enough, 24",
    "scratch: just enough, 24, every bit 1 at entry",
    "scratch: decide, just enough",
    "scratch: decide, one number less, 22",
    "scratch: decide, just enough, 23",
    "scratch: decide, just enough, 24",
];

/// The bits of a built table's rows.
const IN_ROWS: [&str; 7] = [
    "scratch: code N - 1 in bit 31 of the last number",
    "scratch: code N - 1 in bit 0 of the last number",
    "scratch: a row with bit 31 of a number and bit 0 of the next",
    "scratch: a row with every bit of a number",
    "scratch: a row in the first number and in the last of several",
    "scratch: two rows with the same bits of different numbers",
    "scratch: a row found again while the pool is full",
];

/// The counts that a command with its reply and the state after it adds to.
pub fn seen(call: &Call, reply: &Reply, state: &State) -> Vec<&'static str> {
    match (call, reply) {
        (Call::Build { room, fill }, Reply::Built(building, _)) if matches!(building.number, 0 | 22..=24) => {
            let code_count = codes_in(state);
            let mut seen = seen_built(room.scratch, code_count, building.number, *fill == u32::MAX);
            if building.number == 0 {
                seen.extend(seen_in_rows(state, code_count));
            }
            seen
        }
        (Call::Decide { file, room, .. }, Reply::Decided(answer, ..)) => size_in(file)
            .map_or(Vec::new(), |size| seen_decided(room.scratch, size.code_count(), answer.number)),
        _ => Vec::new(),
    }
}

/// N of the state's rule, which is in order.
fn codes_in(state: &State) -> usize {
    code_count(state.head.locations as u16, state.head.clocks as u16, top_in(state))
}

/// A build with a scratch of this length, with every bit 1 or not, that ended in this number.
fn seen_built(length: usize, code_count: usize, number: u8, ones: bool) -> Vec<&'static str> {
    let need = scratch_for(code_count);
    let (just, one_less) = (length == need, length + 1 == need && number == 22);
    let some = SOME.iter().position(|&count| count == code_count);
    let near = Some((code_count + 1) % NUMBER_BITS).filter(|&above| above < ENOUGH_NEAR.len());
    let mut seen = those([
        ("scratch: just enough, every bit 1 at entry", just && ones && number == 0),
        ("scratch: longer, every bit 1 at entry", length > need && ones && number == 0),
        ("scratch: one number less, 22, every bit 1 at entry", one_less && ones && length > 0),
        ("scratch: just enough, 23", just && number == 23),
        ("scratch: just enough, 23, every bit 1 at entry", just && number == 23 && ones),
        ("scratch: just enough, 24", just && number == 24),
        ("scratch: just enough, 24, every bit 1 at entry", just && number == 24 && ones),
    ]);
    if just && number == 0 {
        seen.extend(some.map(|place| ENOUGH[place]));
        seen.extend(near.map(|place| ENOUGH_NEAR[place]));
    } else if one_less {
        seen.extend(some.map(|place| TOO_SHORT[place]));
        seen.extend(near.map(|place| TOO_SHORT_NEAR[place]));
    }
    seen
}

fn seen_decided(length: usize, code_count: usize, number: u8) -> Vec<&'static str> {
    let need = scratch_for(code_count);
    those([
        ("scratch: decide, just enough", length == need && number == 0),
        ("scratch: decide, one number less, 22", length + 1 == need && number == 22),
        ("scratch: decide, just enough, 23", length == need && number == 23),
        ("scratch: decide, just enough, 24", length == need && number == 24),
    ])
}

/// The bits of the state's table, which is built from its rule.
fn seen_in_rows(state: &State, code_count: usize) -> Vec<&'static str> {
    let rows: Vec<&[u32]> = rows_in(state);
    let (last, last_bit) = ((code_count - 1) as u32, (code_count - 1) % NUMBER_BITS);
    let highest = rows.iter().any(|row| row.contains(&last));
    let across = |row: &&[u32]| row.windows(2).any(|pair| pair[1] == pair[0] + 1 && bit(pair[1]) == 0);
    let whole =
        |row: &&[u32]| row.windows(NUMBER_BITS).any(|codes| bit(codes[0]) == 0 && spans_a_number(codes));
    let ends = |row: &&[u32]| {
        let numbers = [row.first(), row.last()].map(|code| code.map(|&code| number_of(code)));
        numbers == [Some(0), Some(scratch_for(code_count) - 1)]
    };
    those([
        ("scratch: code N - 1 in bit 31 of the last number", highest && last_bit == NUMBER_BITS - 1),
        ("scratch: code N - 1 in bit 0 of the last number", highest && last_bit == 0),
        ("scratch: a row with bit 31 of a number and bit 0 of the next", rows.iter().any(across)),
        ("scratch: a row with every bit of a number", rows.iter().any(whole)),
        (
            "scratch: a row in the first number and in the last of several",
            code_count > NUMBER_BITS && rows.iter().any(ends),
        ),
        ("scratch: two rows with the same bits of different numbers", same_bits(&rows)),
        ("scratch: a row found again while the pool is full", found_when_full(state)),
    ])
}

fn bit(code: u32) -> usize {
    code as usize % NUMBER_BITS
}

fn number_of(code: u32) -> usize {
    code as usize / NUMBER_BITS
}

/// Whether these, as many as a number has bits, follow each other.
fn spans_a_number(codes: &[u32]) -> bool {
    codes[NUMBER_BITS - 1] - codes[0] == NUMBER_BITS as u32 - 1
}

/// The codes of each row.
fn rows_in(state: &State) -> Vec<&[u32]> {
    let rows = state.rows.chunks_exact(ROW_NUMBERS).take(state.built.rows as usize);
    rows.map(|row| &state.pool[row[0] as usize..][..row[1] as usize]).collect()
}

/// Whether two rows, which are never the same, have the same bits.
fn same_bits(rows: &[&[u32]]) -> bool {
    let mut bits: BTreeSet<Vec<usize>> = BTreeSet::new();
    rows.iter().any(|row| !bits.insert(row.iter().map(|&code| bit(code)).collect()))
}

/// Whether a cell leads to a row with codes that was there before, when no code more would have found a place.
fn found_when_full(state: &State) -> bool {
    let rows = rows_in(state);
    let full = state.pool.len() == state.built.total as usize;
    let Some(last) = rows.iter().rposition(|row| !row.is_empty()).filter(|_| full) else { return false };
    let row_cells = state.built.symbols * (2 * state.built.top + 2);
    let cells = &state.cells[..rows.len() * row_cells as usize];
    let next_rows: Vec<usize> = cells.iter().map(|&cell| cell as usize / 2).collect();
    let first =
        if last == 0 { Some(0) } else { next_rows.iter().position(|&row| row == last).map(|at| at + 1) };
    first.is_some_and(|first| next_rows[first..].iter().any(|&row| !rows[row].is_empty()))
}
