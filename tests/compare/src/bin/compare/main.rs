//! `compare --seed N --calls N`: random calls of the library and of the reference side by side.
//! `compare --seed N --written-out N`: so many random rules with groups, each beside the same rule written out.
//!
//! Scene after scene is made from the seed until that many calls have been compared. At a difference it
//! prints the seed, the scene and a script that shows it (for `reference script` and `replay script`), and
//! ends with 1. From 100,000 calls on it also ends with 1 where some refusal, verdict or limit did not come
//! up. `--trace` prints every command before it is run.

mod batch_counts;
mod batches;
mod bit_counts;
mod bits;
mod ceiling;
mod climb;
mod cover;
mod damage;
mod edges;
mod group_counts;
mod group_damage;
mod group_refusals;
mod grouped;
mod groups;
mod held;
mod inclusion;
mod inclusion_counts;
mod inclusion_tables;
mod limits;
mod listed;
mod listed_counts;
mod listed_faults;
mod partners;
mod pins;
mod plain;
mod random;
mod rules;
mod scene;
mod scenes;
mod side;
mod size_counts;
mod sizes;
mod tables;
mod texts;
mod verdicts;
mod words;
mod write_out;
mod written_out;

use cover::Cover;
use side::Difference;
use std::collections::BTreeMap;
use std::process::ExitCode;
use std::time::Instant;

/// From so many calls on everything must have come up.
const ENOUGH: u64 = 100_000;

/// From so many rules written out on all that is counted there must have come up.
const ENOUGH_RULES: u64 = 500;

struct Options {
    seed: u64,
    calls: u64,
    trace: bool,
    /// How many rules are to be compared with what they are written out as, in place of calls.
    written_out: Option<u64>,
}

fn main() -> ExitCode {
    let Some(options) = options() else {
        eprintln!("usage: compare [--seed N] [--calls N] [--trace] [--written-out N]");
        return ExitCode::from(2);
    };
    match options.written_out {
        Some(rules) => compare_written_out(options.seed, rules),
        None => compare_calls(&options),
    }
}

/// Scene after scene on library and reference.
fn compare_calls(options: &Options) -> ExitCode {
    let begun = Instant::now();
    let mut cover = Cover::new();
    let mut kinds: BTreeMap<&str, u64> = BTreeMap::new();
    let mut number = 0;
    while cover.calls < options.calls {
        let (kind, calls) = scenes::scene(options.seed, number);
        cover.begin(kind);
        if let Err(difference) = side::run(&calls, &mut cover, options.trace) {
            report(options, number, kind, &side::shortened(difference));
            return ExitCode::FAILURE;
        }
        *kinds.entry(kind).or_default() += 1;
        number += 1;
    }
    print!("{cover}");
    let scenes: Vec<String> = kinds.iter().map(|(kind, count)| format!("{count} {kind}")).collect();
    println!("scenes: {}", scenes.join(", "));
    let seconds = begun.elapsed().as_secs_f64();
    println!("seed {}: {} calls, no difference, {seconds:.1} s", options.seed, cover.calls);
    missing(&cover)
}

/// The options of the command line.
fn options() -> Option<Options> {
    let mut options = Options { seed: 1, calls: 200_000, trace: false, written_out: None };
    let mut arguments = std::env::args().skip(1);
    while let Some(name) = arguments.next() {
        match name.as_str() {
            "--seed" => options.seed = arguments.next()?.parse().ok()?,
            "--calls" => options.calls = arguments.next()?.parse().ok()?,
            "--trace" => options.trace = true,
            "--written-out" => options.written_out = Some(arguments.next()?.parse().ok()?),
            _ => return None,
        }
    }
    Some(options)
}

/// Rules with groups beside the same rules written out.
fn compare_written_out(seed: u64, rules: u64) -> ExitCode {
    let begun = Instant::now();
    let counts = match written_out::compare(seed, rules) {
        Ok(counts) => counts,
        Err(fault) => {
            println!("# DIFFERENCE with seed {seed}: {}. The rule, and as it is written out:", fault.what);
            fault.script.iter().for_each(|call| println!("{call}"));
            return ExitCode::FAILURE;
        }
    };
    print!("{counts}");
    let (rules, seconds) = (counts.rules, begun.elapsed().as_secs_f64());
    println!("{:>16}  drawn again, too large", counts.drawn_again);
    println!("seed {seed}: {rules} rules written out, no difference, {seconds:.1} s");
    let missing = counts.missing();
    if rules < ENOUGH_RULES || missing.is_empty() {
        return ExitCode::SUCCESS;
    }
    println!("FAILED: not come up: {}", missing.join(", "));
    ExitCode::FAILURE
}

fn report(options: &Options, number: u64, kind: &str, difference: &Difference) {
    println!("# DIFFERENCE with seed {}, scene {number} ({kind}). This script shows it:", options.seed);
    for call in &difference.script {
        println!("{call}");
    }
    println!("state");
    if let Some(fault) = difference.fault {
        println!("# {fault}");
    }
    println!("# library:   {}", difference.library);
    println!("# reference: {}", difference.reference);
}

/// Says what has not come up; that is a failure if there were calls enough.
fn missing(cover: &Cover) -> ExitCode {
    let missing = cover.missing();
    if missing.is_empty() {
        return ExitCode::SUCCESS;
    }
    println!("not come up: {}", missing.join(", "));
    if cover.calls < ENOUGH {
        return ExitCode::SUCCESS;
    }
    println!("FAILED: with {ENOUGH} calls or more, everything must come up");
    ExitCode::FAILURE
}
