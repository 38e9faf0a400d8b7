//! Rules with groups: the library beside the reference, and beside itself on the same rule with plain edges.

use crate::desk::{Call, Desk};
use crate::{grouped_rules, rounds, rules, run, sample, Done, Spread, SAMPLES};
use protocol::{Library, Reference};

/// A rule with groups, and the same rule with plain edges, if there is one.
struct Beside {
    grouped: Desk,
    plain: Option<Desk>,
}

impl Beside {
    /// The rule of a file with plain edges, and each of these spelled in groups.
    fn spelled(file: Vec<u8>) -> Self {
        Beside { grouped: Desk::new(grouped_rules::grouped(&file)), plain: Some(Desk::new(file)) }
    }

    /// A ring with either-or guards, and the same written out.
    fn either_or(locations: u16, clocks: u16, top: u16) -> Self {
        let plain = Desk::new(grouped_rules::written_out(locations, clocks, top));
        Beside { grouped: Desk::new(grouped_rules::either_or(locations, clocks, top)), plain: Some(plain) }
    }

    /// A rule that no plain edges spell.
    fn alone(file: Vec<u8>) -> Self {
        Beside { grouped: Desk::new(file), plain: None }
    }

    fn with_word(self, events: usize, delay: u32) -> Self {
        let plain = self.plain.map(|plain| plain.with_word(events, delay));
        Beside { grouped: self.grouped.with_word(events, delay), plain }
    }

    fn with_symbol(self, symbol: u16, events: usize, delay: u32) -> Self {
        let plain = self.plain.map(|plain| plain.with_symbol(symbol, events, delay));
        Beside { grouped: self.grouped.with_symbol(symbol, events, delay), plain }
    }
}

/// Every call that looks at edges, on small and large rules.
pub fn groups() -> Done {
    let sizes = format!("{:>30}{:>7}{:>9}", "rows", "N", "cells");
    println!(
        "\ngroups\n{sizes}  {:<30}{:<30}{:<7}{:<30}ratio",
        "library", "reference", "ratio", "plain edges"
    );
    let worked = || Beside::spelled(rules::worked());
    let longest = || Beside::alone(grouped_rules::longest_grouped());
    line("read, 2 edges", worked(), Call::Read)?;
    line("read, 44,432 bytes", longest(), Call::Read)?;
    line("write, 2 edges", worked(), Call::Write)?;
    line("write, 44,426 bytes", longest(), Call::Write)?;
    line("check rule, 2 edges", worked(), Call::CheckRule)?;
    line("check rule, 256 edges", longest(), Call::CheckRule)?;
    line("check, 256 deep", Beside::alone(grouped_rules::deep()), Call::CheckRule)?;
    line("build, small", worked(), Call::Build)?;
    line("build, middle", Beside::spelled(rules::ring(4, 3, 6)), Call::Build)?;
    line("build, largest", Beside::spelled(rules::ring(16, 3, 14)), Call::Build)?;
    line("build, dense", Beside::spelled(rules::dense()), Call::Build)?;
    line("build, 256 edges", longest(), Call::Build)?;
    line("build, either-or", Beside::either_or(4, 3, 6), Call::Build)?;
    line("exact, 2 events", worked().with_word(2, 2), Call::Exact)?;
    line("exact, 256 edges", longest().with_word(2, 2), Call::Exact)?;
    line(
        "exact, 4,096 events",
        Beside::spelled(rules::back_in_the_word(10)).with_word(4_096, 1),
        Call::Exact,
    )?;
    line("exact, either-or", Beside::either_or(4, 3, 6).with_symbol(0, 256, 4), Call::Exact)?;
    line("branch, 2 events", worked().with_word(2, 2), Call::Branch)?;
    line("branch, 256 edges", longest().with_word(2, 2), Call::Branch)?;
    line("branch, 8,190 steps", Beside::spelled(rules::forking()).with_word(12, 2), Call::Branch)?;
    line("decide, 8 events", worked().with_word(8, 2), Call::Decide)
}

/// Measures a call on a rule with groups, and the library's on the same rule with plain edges.
fn line(name: &str, beside: Beside, call: Call) -> Done {
    let Beside { mut grouped, mut plain } = beside;
    let (ours, theirs) = (grouped.run::<Library>(call), grouped.run::<Reference>(call));
    if ours != theirs || ours[0] != 0 {
        return Err(format!("{name}: the library answers {ours:?}, the reference {theirs:?}"));
    }
    if call == Call::Build && !grouped.fastest_agrees() {
        return Err(format!("{name}: the fastest Rust builds another table than the reference"));
    }
    if plain.as_ref().is_some_and(|plain| !plain.same_table(&grouped)) {
        return Err(format!("{name}: with plain edges it is another table"));
    }
    let calls = rounds(&mut grouped, run::<Reference>(call));
    let (mut library, mut reference, mut on_plain) = (Vec::new(), Vec::new(), Vec::new());
    for _ in 0..SAMPLES {
        library.push(sample(&mut grouped, run::<Library>(call), calls));
        reference.push(sample(&mut grouped, run::<Reference>(call), calls));
        on_plain.extend(plain.iter_mut().map(|plain| sample(plain, run::<Library>(call), calls)));
    }
    let (library, reference) = (Spread::of(library), Spread::of(reference));
    let sizes = format!("{:>5}{:>7}{:>9}", grouped.row_count(), grouped.codes(), grouped.cell_count());
    let ratio = format!("{:.2}", library.median / reference.median);
    print!("{name:<25}{sizes}  {:<30}{:<30}{ratio:<7}", library.text(), reference.text());
    if !on_plain.is_empty() {
        let on_plain = Spread::of(on_plain);
        print!("{:<30}{:.2}", on_plain.text(), library.median / on_plain.median);
    }
    println!();
    Ok(())
}
