//! The exact runner: all distinct configurations, event by event.

use crate::edge::Edge;
use crate::rule::{initial_locations, take_edges, Head, Rule, MOST_CLOCKS};
use crate::time::{Age, Stamp};
use crate::word::{check_word, MOST_EVENTS};
use crate::Refusal;
use std::slice::ChunksExact;

/// Numbers of the largest configuration: a location and four ages.
const MOST_NUMBERS: usize = 1 + MOST_CLOCKS as usize;

/// Runs a word with all distinct configurations kept in the scratch: 20, 21, 30 to 33, then 26.
///
/// After 20 to 33 the scratch is untouched, else it ends as zero.
pub fn run_exact(
    head: &Head,
    edges: &[u16],
    grain: u32,
    symbols: &[u16],
    stamps: &[u32],
    scratch: &mut [u32],
) -> Result<bool, Refusal> {
    let edges = take_edges(head, edges)?;
    check_word(head.symbols, grain, MOST_EVENTS, symbols, stamps)?;
    let outcome = run_word(Rule { head, edges: &edges, grain }, symbols, stamps, scratch);
    scratch.fill(0);
    outcome
}

fn run_word(rule: Rule, symbols: &[u16], stamps: &[u32], scratch: &mut [u32]) -> Result<bool, Refusal> {
    let size = 1 + rule.head.clocks as usize;
    let room = scratch.len() / (2 * size);
    let (first, second) = scratch.split_at_mut(room * size);
    let mut now = Bank::over(&mut first[..room * size], size);
    let mut next = Bank::over(&mut second[..room * size], size);
    Refusal::unless(enter_start(rule.head, &mut now), 26)?;
    let mut last = Stamp::START;
    for (index, (&symbol, &stamp)) in symbols.iter().zip(stamps).enumerate() {
        let stamp = Stamp(stamp);
        let fits = enter_event(rule, symbol, stamp.since(last), &now, &mut next);
        Refusal::unless_at(fits, 26, index + 1)?;
        std::mem::swap(&mut now, &mut next);
        last = stamp;
    }
    Ok(now.kept().any(|configuration| rule.is_final(configuration[0])))
}

/// Configurations of one moment: a location and an age per clock each.
struct Bank<'a> {
    numbers: &'a mut [u32],
    /// Numbers per configuration.
    size: usize,
    /// Numbers in use.
    used: usize,
}

impl<'a> Bank<'a> {
    fn over(numbers: &'a mut [u32], size: usize) -> Self {
        Bank { numbers, size, used: 0 }
    }

    fn kept(&self) -> ChunksExact<'_, u32> {
        self.numbers[..self.used].chunks_exact(self.size)
    }

    /// Enters a configuration if it is new; false if there is no room for it.
    fn enter(&mut self, configuration: &[u32]) -> bool {
        if self.kept().any(|kept| kept == configuration) {
            return true;
        }
        let Some(free) = self.numbers[self.used..].get_mut(..self.size) else {
            return false;
        };
        free.copy_from_slice(configuration);
        self.used += self.size;
        true
    }
}

/// Enters the initial locations with all ages 0; false if there is no room.
fn enter_start(head: &Head, bank: &mut Bank) -> bool {
    let size = bank.size;
    initial_locations(head).all(|location| bank.enter(&[location, 0, 0, 0, 0][..size]))
}

/// Enters what the configurations become by one event; false if there is no room.
fn enter_event(rule: Rule, symbol: u16, delay: Age, now: &Bank, next: &mut Bank) -> bool {
    next.used = 0;
    for configuration in now.kept() {
        let mut aged = [0; MOST_NUMBERS];
        age_by(delay, configuration, &mut aged);
        let aged = &aged[..now.size];
        for edge in rule.edges {
            if takes(edge, symbol, aged, rule.grain) && !next.enter(&moved(edge, aged)[..now.size]) {
                return false;
            }
        }
    }
    true
}

/// Writes the configuration as it is after a delay.
fn age_by(delay: Age, configuration: &[u32], aged: &mut [u32; MOST_NUMBERS]) {
    aged[0] = configuration[0];
    for (new, &old) in aged[1..].iter_mut().zip(&configuration[1..]) {
        *new = Age(old).after(delay).0;
    }
}

/// Whether the edge can be taken on the symbol in the configuration.
fn takes(edge: &Edge, symbol: u16, configuration: &[u32], grain: u32) -> bool {
    let age = |clock| Age(configuration[1 + clock]);
    edge.source == configuration[0]
        && edge.symbol == symbol
        && edge.guard.first_failing(age, |constant| Age::of_constant(constant, grain)).is_none()
}

/// The configuration after the edge: its target, its clocks zeroed.
fn moved(edge: &Edge, configuration: &[u32]) -> [u32; MOST_NUMBERS] {
    let mut moved = [0; MOST_NUMBERS];
    moved[0] = edge.target;
    for (clock, &age) in configuration[1..].iter().enumerate() {
        if !edge.resets_clock(clock) {
            moved[1 + clock] = age;
        }
    }
    moved
}
