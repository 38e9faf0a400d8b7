//! How much of the list each table of a batch allows: the library's walk in plain Rust. The words of a table's list are
//! a tree, whose nodes have those one event longer below them; it is walked once, and a word costs one cell and one
//! stored verdict.

use alderskein::raw::{
    check_table, Batch, Built, Shares, LINE_IN_ALL, LINE_NUMBERS, LISTED_EVENTS, SHARE_NUMBERS, TABLES,
};
use alderskein::{LISTED_WORDS, LIST_GRAIN, ROW_NUMBERS};

const MOST_EVENTS: u32 = LISTED_EVENTS as u32;
const MOST_SECONDS: u32 = 30;
/// A number for each length of a word.
type Lengths<T> = [T; LISTED_EVENTS + 1];

/// A line for each table, and the greatest share: 40, 38, then table by table 25, by the library's check, and 43. Not
/// inlined, as the library is not, and called as C calls it: a slice goes as a pointer and a length. Words that have
/// none below them are counted in a loop apart, as the library does, or in the one function that walks.
#[allow(improper_ctypes_definitions)]
#[inline(never)]
pub extern "C" fn count_shares<const APART: bool>(
    batch: Batch,
    cells: &[u32],
    rows: &[u32],
    pool: &[u32],
    events: u32,
    seconds: u32,
) -> Shares {
    let count = batch.count as usize;
    if !(1..=TABLES).contains(&count) {
        return refused(40, 0);
    }
    if events > MOST_EVENTS || seconds > MOST_SECONDS {
        return refused(38, 0);
    }
    let (tables, used) = (&batch.tables[..count], events as usize + 1);
    let mut part = Part { cells, rows, pool };
    for (&built, number) in tables.iter().zip(1..) {
        if check_table(built, part.cells, part.rows, part.pool).number != 0 {
            return refused(25, number);
        }
        if lengths(built.symbols, seconds)[..used].iter().sum::<u64>() > LISTED_WORDS.into() {
            return refused(43, number);
        }
        part = part.behind(built);
    }
    let mut shares = Shares::default();
    let mut part = Part { cells, rows, pool };
    for (&built, line) in tables.iter().zip(shares.lines.chunks_exact_mut(LINE_NUMBERS)) {
        let words = &lengths(built.symbols, seconds)[..used];
        let accepted = &Tree::new(built, part, seconds).accepted::<APART>(used);
        for ((&accepted, &words), place) in
            accepted.iter().zip(words).zip(line.chunks_exact_mut(SHARE_NUMBERS))
        {
            lay_share(accepted, words as u32, place);
        }
        let in_all = words.iter().sum::<u64>() as u32;
        lay_share(accepted.iter().sum(), in_all, &mut line[LINE_IN_ALL..]);
        part = part.behind(built);
    }
    shares.greatest = greatest(&shares.lines[..LINE_NUMBERS * count]);
    shares
}

fn refused(number: u8, place: usize) -> Shares {
    Shares { number, place, ..Shares::default() }
}

/// What is lent, from a table on.
#[derive(Clone, Copy)]
struct Part<'a> {
    cells: &'a [u32],
    rows: &'a [u32],
    pool: &'a [u32],
}

impl Part<'_> {
    fn behind(self, built: Built) -> Self {
        let row_cells = built.symbols as usize * width(built);
        Part {
            cells: &self.cells[built.rows as usize * row_cells..],
            rows: &self.rows[ROW_NUMBERS * built.rows as usize..],
            pool: &self.pool[built.total as usize..],
        }
    }
}

/// W.
fn width(built: Built) -> usize {
    2 * built.top as usize + 2
}

/// The words of each length. With one stamp more those of n events are those of before, and behind each symbol at the
/// new stamp those that are one event shorter.
fn lengths(symbols: u32, seconds: u32) -> Lengths<u64> {
    let mut lengths = [0; LISTED_EVENTS + 1];
    lengths[0] = 1;
    for _ in 0..=LIST_GRAIN * seconds {
        for n in 1..lengths.len() {
            lengths[n] += u64::from(symbols) * lengths[n - 1];
        }
    }
    lengths
}

/// A table's list as a tree. A node is a word: the row that it leads to, the stamp of its last reset and of its last
/// event.
struct Tree<'a> {
    cells: &'a [u32],
    rows: &'a [u32],
    symbols: usize,
    /// W.
    width: usize,
    stamps: usize,
}

impl<'a> Tree<'a> {
    fn new(built: Built, part: Part<'a>, seconds: u32) -> Self {
        let (symbols, stamps) = (built.symbols as usize, (LIST_GRAIN * seconds) as usize + 1);
        Tree { cells: part.cells, rows: part.rows, symbols, width: width(built), stamps }
    }

    /// The accepted words of each length, of so many lengths.
    fn accepted<const APART: bool>(&self, used: usize) -> Lengths<u32> {
        let mut counts = [0; LISTED_EVENTS + 1];
        counts[0] = self.verdict(0);
        if used > 1 {
            self.tally::<APART>(0, 0, 0, &mut counts[1..used]);
        }
        counts
    }

    /// Adds the accepted words below a node: those of one event, then of two, and so on.
    fn tally<const APART: bool>(&self, row: usize, reset: usize, from: usize, counts: &mut [u32]) {
        let mut here = 0;
        for stamp in from..self.stamps {
            let interval = (stamp - reset).min(self.width - 1);
            for symbol in 0..self.symbols {
                let cell = self.cells[(row * self.symbols + symbol) * self.width + interval];
                let next = cell as usize / 2;
                here += self.verdict(next);
                if counts.len() > 1 {
                    let reset = if cell % 2 == 1 { stamp } else { reset };
                    if APART && counts.len() == 2 {
                        counts[1] += self.leaves(next, reset, stamp);
                    } else {
                        self.tally::<APART>(next, reset, stamp, &mut counts[1..]);
                    }
                }
            }
        }
        counts[0] += here;
    }

    /// The accepted words one event below a node.
    fn leaves(&self, row: usize, reset: usize, from: usize) -> u32 {
        let mut here = 0;
        for stamp in from..self.stamps {
            let interval = (stamp - reset).min(self.width - 1);
            for symbol in 0..self.symbols {
                let cell = self.cells[(row * self.symbols + symbol) * self.width + interval];
                here += self.verdict(cell as usize / 2);
            }
        }
        here
    }

    fn verdict(&self, row: usize) -> u32 {
        self.rows[ROW_NUMBERS * row + 2]
    }
}

/// Accepted, out of, and the same in lowest terms.
fn lay_share(accepted: u32, words: u32, place: &mut [u32]) {
    let divisor = common_divisor(accepted, words);
    place.copy_from_slice(&[accepted, words, accepted / divisor, words / divisor]);
}

fn common_divisor(mut first: u32, mut second: u32) -> u32 {
    while second != 0 {
        (first, second) = (second, first % second);
    }
    first
}

/// The line, from 1, with the greatest share in all, the earliest on a tie.
fn greatest(lines: &[u32]) -> u32 {
    let (mut best, mut number) = ([0, 1], 0);
    for (line, place) in lines.chunks_exact(LINE_NUMBERS).zip(1..) {
        let share = [line[LINE_IN_ALL], line[LINE_IN_ALL + 1]].map(u64::from);
        if number == 0 || best[0] * share[1] < share[0] * best[1] {
            (best, number) = (share, place);
        }
    }
    number
}
