//! Measures the verified library beside the reference: same machine, same run, same input, same room. Builds are also
//! measured beside the fastest Rust, which makes the same table by hashed rows and bits in its own memory, the next
//! word of a list beside the same odometer in plain Rust, an inclusion beside the same search in plain Rust, and shares
//! of a list beside the same walk in plain Rust. Rules with groups are also measured beside the same rules with plain
//! edges.
//!
//! Every line is the median of some samples with the lowest and the highest; they take turns, sample by
//! sample. Lent tables are not cleared before a call: they hold what the call before left in them.
//!
//! `bench PART..` measures some parts alone.

mod desk;
mod fastest;
mod filled;
mod grouped_rules;
mod groups;
mod inclusion;
mod joint;
mod odometer;
mod rules;
mod shares;
mod tree;

use alderskein::raw::{self, Listed, Next, Size};
use desk::{Call, Desk};
use protocol::{Engine, Library, Reference};
use std::hint::black_box;
use std::process::ExitCode;
use std::time::{Duration, Instant};

/// Samples of each.
const SAMPLES: usize = 11;
/// How long a sample should take at least.
const SAMPLE: Duration = Duration::from_millis(2);

/// The parts, by name.
const PARTS: [(&str, Part); 6] = [
    ("calls", calls),
    ("groups", groups::groups),
    ("growth", growth),
    ("lists", lists),
    ("inclusion", inclusion::inclusions),
    ("shares", shares::shares),
];

fn main() -> ExitCode {
    let names: Vec<String> = std::env::args().skip(1).collect();
    if names.iter().any(|name| !PARTS.iter().any(|(part, _)| part == name)) {
        eprintln!("usage: bench [calls] [groups] [growth] [lists] [inclusion] [shares]");
        return ExitCode::from(2);
    }
    let wanted = |part: &str| names.is_empty() || names.iter().any(|name| name == part);
    match PARTS.iter().filter(|(part, _)| wanted(part)).try_for_each(|(_, measure)| measure()) {
        Ok(()) => ExitCode::SUCCESS,
        Err(fault) => {
            eprintln!("bench: {fault}");
            ExitCode::FAILURE
        }
    }
}

/// Or why it ends early.
type Done = Result<(), String>;

/// Measures and prints its lines.
type Part = fn() -> Done;

/// Every call, on small and large rules.
fn calls() -> Done {
    heading("calls");
    let (worked, longest) = (|| Desk::new(rules::worked()), || Desk::new(rules::longest()));
    let (middle, largest) = (|| Desk::new(rules::ring(4, 3, 6)), || Desk::new(rules::ring(16, 3, 14)));
    let live = || Desk::new(rules::back_in_the_word(10));
    line("read, 58 bytes", &mut worked(), Call::Read)?;
    line("read, 15,760 bytes", &mut longest(), Call::Read)?;
    line("write, 58 bytes", &mut worked(), Call::Write)?;
    line("write, 15,754 bytes", &mut longest(), Call::Write)?;
    line("check rule, 2 edges", &mut worked(), Call::CheckRule)?;
    line("check rule, 256 edges", &mut longest(), Call::CheckRule)?;
    line("check, 256 equalities", &mut Desk::new(rules::equalities()), Call::CheckRule)?;
    line("check, 256 both sides", &mut Desk::new(rules::both_sides()), Call::CheckRule)?;
    line("check table, small", &mut worked(), Call::CheckTable)?;
    line("check table, largest", &mut largest(), Call::CheckTable)?;
    line("check word, 4,096 events", &mut middle().with_word(4_096, 3), Call::CheckWord)?;
    line("build, small", &mut worked(), Call::Build)?;
    line("build, middle", &mut middle(), Call::Build)?;
    line("build, largest", &mut largest(), Call::Build)?;
    line("build, 256 edges", &mut longest(), Call::Build)?;
    line("exact, 2 events", &mut worked().with_word(2, 2), Call::Exact)?;
    line("exact, 256 edges", &mut longest().with_word(2, 2), Call::Exact)?;
    line("exact, 4,096 events", &mut live().with_word(4_096, 1), Call::Exact)?;
    let forking = || Desk::new(rules::forking()).with_word(12, 2);
    line("branch, 2 events", &mut worked().with_word(2, 2), Call::Branch)?;
    line("branch, 256 edges", &mut longest().with_word(2, 2), Call::Branch)?;
    line("branch, 8,190 steps", &mut forking(), Call::Branch)?;
    line("table, 4,096 events", &mut live().with_word(4_096, 1), Call::Table)?;
    line("follow, small", &mut worked(), Call::Follow)?;
    line("follow, middle", &mut middle(), Call::Follow)?;
    line("follow in place, small", &mut worked(), Call::FollowInPlace)?;
    line("follow in place, middle", &mut middle(), Call::FollowInPlace)?;
    line("decide, 8 events", &mut worked().with_word(8, 2), Call::Decide)
}

/// How the time of a build grows.
fn growth() -> Done {
    heading("build, by rows (1 clock, cm 0)");
    for back in [4, 6, 8, 10, 12] {
        let mut desk = Desk::new(rules::back_in_the_word(back));
        line(&format!("R = {}", desk.row_count()), &mut desk, Call::Build)?;
    }
    heading("build, by clocks (4 locations, cm 6)");
    for clocks in 1..=4 {
        line(&format!("K = {clocks}"), &mut Desk::new(rules::ring(4, clocks, 6)), Call::Build)?;
    }
    heading("build, by cm (4 locations, 2 clocks)");
    for top in [2, 6, 14, 30] {
        line(&format!("cm = {top}"), &mut Desk::new(rules::ring(4, 2, top)), Call::Build)?;
    }
    heading("build, dense rows (32 locations, 3 clocks, cm 2)");
    let mut dense = Desk::new(rules::dense());
    line(&format!("{:.0} codes a row", dense.mean_length()), &mut dense, Call::Build)
}

/// The next word, over whole lists from the empty word to the last: S, m, H.
fn lists() -> Done {
    println!(
        "\nnext word, a call of a whole list{:>13}  {:<30}{:<30}ratio",
        "words", "library", "the same in Rust"
    );
    for [symbols, events, seconds] in [[1, 6, 13], [2, 6, 2], [3, 4, 3], [16, 2, 30]] {
        let size = Size { symbols, events, seconds };
        let name = format!("S = {symbols}, m = {events}, H = {seconds}");
        let (words, end) = walk(raw::next_word, size);
        if (words, end) != walk(in_rust, size) || !end.last {
            return Err(format!("{name}: the library's list ends otherwise than the same in Rust"));
        }
        let (mut library, mut rust) = (Vec::new(), Vec::new());
        for _ in 0..SAMPLES {
            library.push(sample_list(raw::next_word, size));
            rust.push(sample_list(in_rust, size));
        }
        let (library, rust) = (Spread::of(library), Spread::of(rust));
        let ratio = library.median / rust.median;
        println!("{name:<33}{words:>13}  {:<30}{:<30}{ratio:.2}", library.text(), rust.text());
    }
    Ok(())
}

/// The same in Rust, by a call as C makes it.
fn in_rust(size: Size, word: Listed) -> Next {
    odometer::next_word(size, word)
}

/// The words of a list, counted, and the answer that ended it: the last word, or a refusal.
fn walk(next_word: impl Fn(Size, Listed) -> Next, size: Size) -> (u32, Next) {
    let (mut words, mut word) = (1, Listed::default());
    loop {
        let next = next_word(black_box(size), word);
        if next.last || next.number != 0 {
            return (words, next);
        }
        (words, word) = (words + 1, next.word);
    }
}

/// Seconds a call takes, over a whole list, or over as many as make a sample long enough.
fn sample_list(next_word: impl Fn(Size, Listed) -> Next + Copy, size: Size) -> f64 {
    let (begun, mut calls) = (Instant::now(), 0);
    while begun.elapsed() < SAMPLE {
        calls += black_box(walk(next_word, size)).0;
    }
    begun.elapsed().as_secs_f64() / f64::from(calls)
}

fn heading(text: &str) {
    println!("\n{text}");
    let sizes = format!("{:>30}{:>7}{:>9}", "rows", "N", "cells");
    println!("{sizes}  {:<30}{:<30}{:<7}{:<30}ratio", "library", "reference", "ratio", "fastest");
}

/// Measures a call and prints its line; for a build also with the fastest Rust.
fn line(name: &str, desk: &mut Desk, call: Call) -> Done {
    let (ours, theirs) = (desk.run::<Library>(call), desk.run::<Reference>(call));
    if ours != theirs || ours[0] != 0 {
        return Err(format!("{name}: the library answers {ours:?}, the reference {theirs:?}"));
    }
    let build = call == Call::Build;
    if build && !desk.fastest_agrees() {
        return Err(format!("{name}: the fastest Rust builds another table than the reference"));
    }
    let calls = rounds(desk, run::<Reference>(call));
    let builds = if build { rounds(desk, run_fastest) } else { 0 };
    let (mut library, mut reference, mut fastest) = (Vec::new(), Vec::new(), Vec::new());
    for _ in 0..SAMPLES {
        library.push(sample(desk, run::<Library>(call), calls));
        reference.push(sample(desk, run::<Reference>(call), calls));
        if build {
            fastest.push(sample(desk, run_fastest, builds));
        }
    }
    let (library, reference) = (Spread::of(library), Spread::of(reference));
    let sizes = format!("{:>5}{:>7}{:>9}", desk.row_count(), desk.codes(), desk.cell_count());
    let ratio = format!("{:.2}", library.median / reference.median);
    print!("{name:<25}{sizes}  {:<30}{:<30}", library.text(), reference.text());
    if build {
        let fastest = Spread::of(fastest);
        let ratio_to_fastest = format!("{:.1}", library.median / fastest.median);
        let a_cell = library.median * 1e9 / desk.cell_count() as f64;
        println!("{ratio:<7}{:<30}{ratio_to_fastest:<7}{a_cell:.0} ns a cell", fastest.text());
    } else {
        println!("{ratio}");
    }
    Ok(())
}

/// A call of the library or the reference.
fn run<E: Engine>(call: Call) -> impl Fn(&mut Desk) + Copy {
    move |desk| {
        black_box(desk.run::<E>(black_box(call)));
    }
}

/// A build by the fastest Rust.
fn run_fastest(desk: &mut Desk) {
    black_box(black_box(desk).build_fastest());
}

/// How many calls make a sample long enough.
fn rounds<T>(desk: &mut T, run: impl Fn(&mut T) + Copy) -> u32 {
    let mut rounds = 1;
    while rounds < 1 << 20 && sample(desk, run, rounds) * f64::from(rounds) < SAMPLE.as_secs_f64() {
        rounds *= 2;
    }
    rounds
}

/// Seconds a call takes, over so many.
fn sample<T>(desk: &mut T, run: impl Fn(&mut T), rounds: u32) -> f64 {
    let begun = Instant::now();
    for _ in 0..rounds {
        run(desk);
    }
    begun.elapsed().as_secs_f64() / f64::from(rounds)
}

/// Samples in order.
struct Spread {
    low: f64,
    median: f64,
    high: f64,
}

impl Spread {
    fn of(mut samples: Vec<f64>) -> Self {
        samples.sort_by(f64::total_cmp);
        Spread { low: samples[0], median: samples[samples.len() / 2], high: samples[samples.len() - 1] }
    }

    /// The median, and in brackets the lowest and the highest.
    fn text(&self) -> String {
        let (unit, name) = match self.median {
            median if median < 1e-6 => (1e-9, "ns"),
            median if median < 1e-3 => (1e-6, "us"),
            _ => (1e-3, "ms"),
        };
        let [low, median, high] = [self.low, self.median, self.high].map(|seconds| seconds / unit);
        format!("{median:.2} {name} ({low:.2}..{high:.2})")
    }
}
