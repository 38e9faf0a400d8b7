//! Shares of a list: the tables, and the lines.

use crate::filled::Filled;
use crate::{rounds, rules, sample, tree, Done, Spread, SAMPLES};
use alderskein::raw::{count_shares, Batch, Shares, LINE_IN_ALL, LINE_NUMBERS};
use std::hint::black_box;

/// A batch with its tables one after another, and a list: m, H.
struct Asked {
    batch: Batch,
    cells: Vec<u32>,
    rows: Vec<u32>,
    pool: Vec<u32>,
    events: u32,
    seconds: u32,
}

/// A call, or the same in Rust.
type Ask = fn(Batch, &[u32], &[u32], &[u32], u32, u32) -> Shares;

impl Asked {
    fn new(tables: &[Filled], [events, seconds]: [u32; 2]) -> Self {
        let batch = Batch { count: tables.len() as u32, ..Batch::default() };
        let mut asked = Asked { batch, cells: vec![], rows: vec![], pool: vec![], events, seconds };
        for (table, built) in tables.iter().zip(&mut asked.batch.tables) {
            *built = table.built;
            asked.cells.extend(&table.cells);
            asked.rows.extend(&table.rows);
            asked.pool.extend(&table.pool);
        }
        asked
    }

    fn run(&self, ask: Ask) -> Shares {
        ask(self.batch, &self.cells, &self.rows, &self.pool, self.events, self.seconds)
    }
}

/// The library beside the same walk in Rust, with words that have none below them in a loop apart, as the library has
/// them, or in one function.
pub fn shares() -> Done {
    println!(
        "\nshares of a list\n{:>45}{:>9}  {:<30}{:<30}{:<7}{:<30}ratio",
        "rows", "words", "library", "the same in Rust", "ratio", "in one function"
    );
    let (site, ring) =
        (include_bytes!("../../examples/site.rule"), include_bytes!("../../examples/ring.rule"));
    line("the worked rule, S 2, m 4, H 16", built(&rules::worked(), [4, 16]), 0)?;
    line("the site rule, S 3, m 6, H 3", built(site, [6, 3]), 0)?;
    line("a ring of 11, S 1, m 6, H 12", built(ring, [6, 12]), 0)?;
    line("middle, S 4, m 5, H 3", built(&rules::ring(4, 3, 6), [5, 3]), 0)?;
    line("largest, S 4, m 5, H 3", built(&rules::ring(16, 3, 14), [5, 3]), 0)?;
    line("256 edges, S 16, m 2, H 30", built(&rules::longest(), [2, 30]), 0)?;
    line("any cells, S 2, m 4, H 16", random(2, [4, 16]), 0)?;
    line("any cells, S 1, m 6, H 12", random(1, [6, 12]), 0)?;
    line("any cells, S 4, m 5, H 3", random(4, [5, 3]), 0)?;
    line("any cells, S 16, m 2, H 30", random(16, [2, 30]), 0)?;
    let worked: Vec<Filled> = (0..16).map(|_| Filled::built(&rules::worked())).collect();
    line("16 tables, S 2, m 2, H 4", Asked::new(&worked, [2, 4]), 0)?;
    line("no table: 40", Asked::new(&[], [2, 4]), 40)
}

/// The table of a rule's file.
fn built(file: &[u8], size: [u32; 2]) -> Asked {
    Asked::new(&[Filled::built(file)], size)
}

/// A table of 40 rows by hand, cm 10; every other row accepts.
fn random(symbols: u32, size: [u32; 2]) -> Asked {
    let verdicts: Vec<bool> = (0..40).map(|row| row % 2 == 1).collect();
    Asked::new(&[Filled::random(1, symbols, 10, &verdicts)], size)
}

/// Measures a call that answers with this number.
fn line(name: &str, mut asked: Asked, number: u8) -> Done {
    let ours = asked.run(count_shares);
    let same = RUST.map(|ask| asked.run(ask) == ours);
    if same != [true; 2] || ours.number != number {
        return Err(format!(
            "{name}: the library answers {}, or otherwise than the same in Rust",
            ours.number
        ));
    }
    let calls = rounds(&mut asked, run(RUST[0]));
    let mut samples = [const { Vec::new() }; 3];
    for _ in 0..SAMPLES {
        for (ask, samples) in [count_shares as Ask, RUST[0], RUST[1]].into_iter().zip(&mut samples) {
            samples.push(sample(&mut asked, run(ask), calls));
        }
    }
    let [library, rust, one] = samples.map(Spread::of);
    let [to_rust, to_one] = [&rust, &one].map(|other| format!("{:.2}", library.median / other.median));
    let words: u32 = ours.lines.chunks_exact(LINE_NUMBERS).map(|line| line[LINE_IN_ALL + 1]).sum();
    let row_count: u32 = asked.batch.tables.iter().map(|built| built.rows).sum();
    let [library, rust, one] = [library, rust, one].map(|spread| spread.text());
    println!("{name:<33}{row_count:>12}{words:>9}  {library:<30}{rust:<30}{to_rust:<7}{one:<30}{to_one}");
    Ok(())
}

/// The same in Rust, by a call as C makes it: words that have none below them in a loop apart, then in one function.
const RUST: [Ask; 2] = [in_rust::<true>, in_rust::<false>];

fn in_rust<const APART: bool>(
    batch: Batch,
    cells: &[u32],
    rows: &[u32],
    pool: &[u32],
    events: u32,
    seconds: u32,
) -> Shares {
    tree::count_shares::<APART>(batch, cells, rows, pool, events, seconds)
}

fn run(ask: Ask) -> impl Fn(&mut Asked) + Copy {
    move |asked| {
        black_box(black_box(asked).run(ask));
    }
}
