//! Rows of few pairs: pair by pair.

use super::plan::{Edge, Plan};
use super::rows::Rows;
use super::stretches;

/// A pair, taken apart.
#[derive(Clone, Copy)]
struct Pair {
    location: u32,
    /// Its place above its location's first.
    rest: u32,
    bases: [i32; 4],
}

/// An edge that a pair takes in a stretch of intervals.
struct Taken {
    from: u32,
    to: u32,
    /// The target's place if all bases stay.
    kept: u32,
    edge: Edge,
    bases: [i32; 4],
}

impl Taken {
    fn at(&self, interval: usize) -> bool {
        (self.from..=self.to).contains(&(interval as u32))
    }
}

/// The lists it works with.
#[derive(Default)]
pub struct Pairs {
    pairs: Vec<Pair>,
    taken: Vec<Taken>,
    places: Vec<u32>,
}

impl Pairs {
    /// Numbers the start row: every initial location with bases 0.
    pub fn number_start(&mut self, plan: &Plan, rows: &mut Rows, initial: u32) {
        let locations = (0..plan.locations as u32).filter(|location| initial >> location & 1 == 1);
        self.places.clear();
        self.places.extend(locations.map(|location| location * plan.pitch));
        rows.number_places(plan, &self.places);
    }

    /// Fills the cells of a row.
    pub fn fill(&mut self, plan: &Plan, rows: &mut Rows, cells: &mut Vec<u32>, row: usize) {
        self.take_apart(plan, rows, row);
        for symbol in 0..plan.symbols {
            let (changes, resets) = self.take_edges(plan, symbol);
            let begins = (changes | resets | resets << 1 | 1) & plan.all_intervals();
            let first = cells.len();
            for (begin, end) in stretches(begins, plan.intervals()) {
                let reset = (resets >> begin & 1) as u32;
                self.list_targets(plan, begin, reset == 1);
                let next = rows.number_places(plan, &self.places);
                cells.resize(first + end, 2 * next + reset);
            }
        }
    }

    fn take_apart(&mut self, plan: &Plan, rows: &Rows, row: usize) {
        self.pairs.clear();
        for word in rows.words(row) {
            let mut bits = word.bits;
            while bits != 0 {
                let (location, rest) = plan.split(64 * word.at as u32 + bits.trailing_zeros());
                self.pairs.push(Pair { location, rest, bases: plan.bases(rest) });
                bits &= bits - 1;
            }
        }
    }

    /// Lists the edges that the pairs take on a symbol. Returns the intervals before which an edge begins or ends to
    /// be taken, and those in which one that resets is, a bit each.
    fn take_edges(&mut self, plan: &Plan, symbol: usize) -> (u64, u64) {
        self.taken.clear();
        let (mut changes, mut resets) = (0, 0);
        for pair in &self.pairs {
            for edge in plan.edges_from(pair.location, symbol) {
                let (from, to) = edge.intervals(pair.bases, plan.intervals() as i32 - 1);
                if from <= to {
                    let (from, to) = (from as u32, to as u32);
                    let (begin, end) = (1 << from, 2 << to);
                    changes |= begin | end;
                    resets |= if edge.resets != 0 { end - begin } else { 0 };
                    let kept = edge.target * plan.pitch + pair.rest;
                    self.taken.push(Taken { from, to, kept, edge: *edge, bases: pair.bases });
                }
            }
        }
        (changes, resets)
    }

    /// Lists the targets' places in an interval, ascending.
    fn list_targets(&mut self, plan: &Plan, interval: usize, reset: bool) {
        let taken = self.taken.iter().filter(|taken| taken.at(interval));
        self.places.clear();
        if reset {
            let by = interval as u32 / 2;
            self.places.extend(taken.map(|taken| plan.moved(&taken.edge, taken.bases, by)));
        } else {
            self.places.extend(taken.map(|taken| taken.kept));
        }
        self.places.sort_unstable();
    }
}
