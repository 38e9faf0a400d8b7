//! The runner by branch: the least accepting run of a short word, or what held the rule back.

use crate::edge::Edge;
use crate::rule::{initial_locations, take_edges, Head, Rule, MOST_CLOCKS};
use crate::time::{Age, Stamp};
use crate::word::check_word;
use crate::Refusal;

/// The most events of a word run by branch.
pub const MOST_BRANCH_EVENTS: usize = 12;

/// The accepting run that is least by start, then edge by edge; all zero if there is none, and then the member
/// of a guard that held the rule back.
#[derive(Clone, Copy, Debug, Default, PartialEq, Eq)]
pub struct Branch {
    /// Whether there is an accepting run.
    pub found: bool,
    /// Its start location.
    pub start: u32,
    /// Its edges' numbers from 0; places past the word's events are zero.
    pub edges: [u32; MOST_BRANCH_EVENTS],
    /// With at least one event and no accepting run: of the lowest edge that leaves an initial location on the
    /// first symbol, the position from 0 of the first member of its guard's outermost level that fails by the
    /// first event's ages. None if there is no such edge or its guard holds, and in every other case.
    pub held: Option<usize>,
}

/// Follows the branches of a word of at most 12 events: 20, 21, 30 to 33.
pub fn run_branches(
    head: &Head,
    edges: &[u16],
    grain: u32,
    symbols: &[u16],
    stamps: &[u32],
) -> Result<Branch, Refusal> {
    let edges = take_edges(head, edges)?;
    check_word(head.symbols, grain, MOST_BRANCH_EVENTS as u32, symbols, stamps)?;
    let rule = Rule { head, edges: &edges, grain };
    let rest = Rest { symbols, stamps, last: Stamp::START };
    let mut branch = Branch::default();
    for start in initial_locations(head) {
        if follow(rule, rest, Configuration::start(start), &mut branch.edges) {
            branch.found = true;
            branch.start = start;
            return Ok(branch);
        }
    }
    branch.held = held_back(rule, rest);
    Ok(branch)
}

/// What held the rule back in a word without an accepting run: the first failing member of the lowest edge that
/// leaves any initial location on the first symbol.
fn held_back(rule: Rule, word: Rest) -> Option<usize> {
    let (&symbol, &stamp) = (word.symbols.first()?, word.stamps.first()?);
    let edge = rule.edges.iter().find(|edge| edge.symbol == symbol && rule.is_initial(edge.source))?;
    let aged = Configuration::start(edge.source).after(Stamp(stamp).since(word.last));
    aged.first_failing(edge, rule.grain)
}

/// A location and an age per clock.
#[derive(Clone, Copy)]
struct Configuration {
    location: u32,
    ages: [Age; MOST_CLOCKS as usize],
}

/// The events left, and the stamp before them.
#[derive(Clone, Copy)]
struct Rest<'a> {
    symbols: &'a [u16],
    stamps: &'a [u32],
    last: Stamp,
}

/// Whether some run over the events left is accepting; writes the edges of the least one.
fn follow(rule: Rule, rest: Rest, from: Configuration, run: &mut [u32]) -> bool {
    let (Some((&symbol, symbols)), Some((&stamp, stamps))) =
        (rest.symbols.split_first(), rest.stamps.split_first())
    else {
        return rule.is_final(from.location);
    };
    let stamp = Stamp(stamp);
    let aged = from.after(stamp.since(rest.last));
    let rest = Rest { symbols, stamps, last: stamp };
    for (number, edge) in rule.edges.iter().enumerate() {
        let taken = edge.symbol == symbol && aged.allows(edge, rule.grain);
        if taken && follow(rule, rest, aged.moved(edge), &mut run[1..]) {
            run[0] = number as u32;
            return true;
        }
    }
    false
}

impl Configuration {
    /// The location with all ages 0.
    fn start(location: u32) -> Self {
        Configuration { location, ages: [Age::ZERO; MOST_CLOCKS as usize] }
    }

    fn after(self, delay: Age) -> Self {
        Configuration { ages: self.ages.map(|age| age.after(delay)), ..self }
    }

    /// The edge's first member that fails by these ages.
    fn first_failing(&self, edge: &Edge, grain: u32) -> Option<usize> {
        edge.guard.first_failing(|clock| self.ages[clock], |constant| Age::of_constant(constant, grain))
    }

    fn allows(&self, edge: &Edge, grain: u32) -> bool {
        edge.source == self.location && self.first_failing(edge, grain).is_none()
    }

    fn moved(&self, edge: &Edge) -> Self {
        let mut ages = self.ages;
        for (clock, age) in ages.iter_mut().enumerate() {
            if edge.resets_clock(clock) {
                *age = Age::ZERO;
            }
        }
        Configuration { location: edge.target, ages }
    }
}
