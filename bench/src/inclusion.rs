//! Inclusions: the tables, and the lines.

use crate::filled::Filled;
use crate::{joint, rounds, rules, sample, Done, Spread, SAMPLES};
use alderskein::raw::Inclusion;
use protocol::{Engine, Library, Reference, Rooms, Table};
use std::hint::black_box;

/// The reference tries every pause from every state; where a call takes longer than so many seconds it has one sample.
const LONG: f64 = 0.5;
/// Room for the longest word that is shown.
const ROOM: usize = 4_096;

/// Two tables, and what a call over them is lent.
struct Asked {
    first: Filled,
    second: Filled,
    scratch: Vec<u32>,
    symbols: Vec<u16>,
    stamps: Vec<u32>,
}

impl Asked {
    fn new(first: Filled, second: Filled) -> Self {
        let scratch = vec![0; first.states() * second.states()];
        Asked { first, second, scratch, symbols: vec![0; ROOM], stamps: vec![0; ROOM] }
    }

    /// Two tables of so many rows. The first accepts in every other row, the second in all: nothing refutes.
    fn random(symbols: u32, top: u32, row_count: usize) -> Self {
        let every_other: Vec<bool> = (0..row_count).map(|row| row % 2 == 1).collect();
        let first = Filled::random(1, symbols, top, &every_other);
        Asked::new(first, Filled::random(2, symbols, top, &vec![true; row_count]))
    }

    /// Two rings of 64 and 65 rows: they tell each other apart after 4,096 events.
    fn rings() -> Self {
        let [first, second] = [(0..64).map(|row| row == 0).collect(), (0..65).map(|row| row != 1).collect()]
            .map(|verdicts: Vec<bool>| Filled::ring(&verdicts));
        Asked::new(first, second)
    }

    /// The worked table against itself.
    fn worked() -> Self {
        Asked::new(Filled::built(&rules::worked()), Filled::built(&rules::worked()))
    }

    fn run(&mut self, ask: impl Fn(Table, Table, Rooms) -> Inclusion) -> Inclusion {
        let Asked { first, second, scratch, symbols, stamps } = self;
        ask(first.table(), second.table(), Rooms { scratch, symbols, stamps })
    }
}

/// The library beside the same search in Rust, and beside the reference.
pub fn inclusions() -> Done {
    let sizes = format!("{:>36}{:>9}", "N", "found");
    println!(
        "\ninclusion\n{sizes}  {:<30}{:<30}{:<7}{:<30}ratio",
        "library", "the same in Rust", "ratio", "reference"
    );
    line("16 by 16 rows, cm 30, S 16", Asked::random(16, 30, 16))?;
    line("16 by 16 rows, cm 30, S 1", Asked::random(1, 30, 16))?;
    line("500 by 500 rows, cm 0, S 16", Asked::random(16, 0, 500))?;
    line("500 by 500 rows, cm 0, S 2", Asked::random(2, 0, 500))?;
    line("10 by 10 rows, cm 6, S 3", Asked::random(3, 6, 10))?;
    line("4,096 events, 64 by 65 rows", Asked::rings())?;
    line("the worked table in itself", Asked::worked())
}

fn line(name: &str, mut asked: Asked) -> Done {
    let found = joint::found(asked.first.table(), asked.second.table());
    let answers = [Library::check_inclusion, joint::check_inclusion, Reference::check_inclusion]
        .map(|ask| asked.run(ask));
    if answers[0] != answers[1] || answers[0] != answers[2] || answers[0].number != 0 {
        return Err(format!("{name}: library, the same in Rust and reference answer {answers:?}"));
    }
    let calls = rounds(&mut asked, run(joint::check_inclusion));
    let (mut library, mut rust, mut reference) = (Vec::new(), Vec::new(), Vec::new());
    // Both find the scratch in the cache, as the other left it. The reference would put it out, so it comes after them.
    for _ in 0..SAMPLES {
        library.push(sample(&mut asked, run(Library::check_inclusion), calls));
        rust.push(sample(&mut asked, run(joint::check_inclusion), calls));
    }
    for _ in 0..SAMPLES {
        if reference.first().is_none_or(|&seconds| seconds < LONG) {
            reference.push(sample(&mut asked, run(Reference::check_inclusion), 1));
        }
    }
    let [library, rust, reference] = [library, rust, reference].map(Spread::of);
    let [to_rust, to_reference] =
        [&rust, &reference].map(|other| format!("{:.2}", library.median / other.median));
    let sizes = format!("{:>8}{found:>9}", asked.scratch.len());
    let [library, rust, reference] = [library, rust, reference].map(|spread| spread.text());
    println!("{name:<28}{sizes}  {library:<30}{rust:<30}{to_rust:<7}{reference:<30}{to_reference}");
    Ok(())
}

fn run(ask: impl Fn(Table, Table, Rooms) -> Inclusion + Copy) -> impl Fn(&mut Asked) + Copy {
    move |asked| {
        black_box(black_box(asked).run(ask));
    }
}
