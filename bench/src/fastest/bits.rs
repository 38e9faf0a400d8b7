//! Rows of many pairs: location by location, all pairs of a word in one step.
//!
//! A timer reset at [c] moves all bases on by c. They are moved a row at a time, and the guard of a pair in [c] is
//! that of the moved pair in [0].

use super::plan::{Edge, Plan};
use super::rows::{Rows, Word};
use super::stretches;

/// Where an edge's source and target lie among the words of a row.
struct Route {
    source: usize,
    source_shift: u32,
    target: usize,
    target_shift: u32,
    /// The clocks to reset, a bit each.
    resets: u32,
}

impl Route {
    fn new(plan: &Plan, edge: &Edge) -> Self {
        let [source, target] = [edge.source, edge.target].map(|location| location * plan.pitch);
        Route {
            source: source as usize / 64,
            source_shift: source % 64,
            target: target as usize / 64,
            target_shift: target % 64,
            resets: edge.resets,
        }
    }
}

/// Masks, made for the first row that needs them, and the words it works with.
#[derive(Default)]
pub struct Bits {
    ready: bool,
    /// Per edge.
    routes: Vec<Route>,
    /// Per clock and base from 0 to cm + 2, the places of a location whose base is below.
    below: Vec<u64>,
    /// Per interval and edge, the places of a location that its guard allows.
    allowed: Vec<u64>,
    /// Per symbol, the intervals in which some guard allows others than in the one before, a bit each.
    changes: Vec<u64>,
    /// Per symbol, the intervals in which some guard of an edge that resets allows any, a bit each.
    may_reset: Vec<u64>,
    /// Per clock, the places of a row whose base is above cm.
    above: Vec<u64>,
    /// The row's words.
    row: Vec<u64>,
    /// The row moved on by 0 to cm, if a cell of it asked.
    moved: Vec<u64>,
    /// What a location's pairs come to, and the next row's words.
    part: Vec<u64>,
    next: Vec<u64>,
}

impl Bits {
    /// Forgets the rule.
    pub fn clear(&mut self) {
        self.ready = false;
    }

    /// Fills the cells of a row.
    pub fn fill(&mut self, plan: &Plan, rows: &mut Rows, cells: &mut Vec<u32>, row: usize) {
        if !self.ready {
            self.prepare(plan);
        }
        self.spread(rows.words(row));
        for symbol in 0..plan.symbols {
            let resets = self.resets(plan, symbol);
            let begins = (self.changes[symbol] | resets | resets << 1 | 1) & plan.all_intervals();
            let first = cells.len();
            for (begin, end) in stretches(begins, plan.intervals()) {
                let reset = (resets >> begin & 1) as u32;
                if reset == 1 {
                    self.mark_moved(plan, symbol, begin / 2);
                } else {
                    self.mark_kept(plan, symbol, begin);
                }
                let next = rows.number_words(plan, &mut self.next);
                cells.resize(first + end, 2 * next + reset);
            }
        }
    }

    /// Takes the words of a row.
    fn spread(&mut self, words: &[Word]) {
        self.row.fill(0);
        for word in words {
            self.row[word.at as usize] = word.bits;
        }
        self.moved.clear();
    }

    /// The intervals in which some pair of the row takes an edge that resets, a bit each.
    fn resets(&self, plan: &Plan, symbol: usize) -> u64 {
        let mut resets = 0;
        for (interval, _) in stretches(self.may_reset[symbol], 0) {
            let mut edges = self.edges_in(plan, plan.location_words(), symbol, interval);
            let some = edges.any(|(route, allowed)| {
                route.resets != 0 && taken(&self.row, route, allowed).any(|places| places != 0)
            });
            resets |= u64::from(some) << interval;
        }
        resets
    }

    /// The edges with a symbol, each with what its guard allows in an interval, which has so many words.
    fn edges_in(
        &self,
        plan: &Plan,
        words: usize,
        symbol: usize,
        interval: usize,
    ) -> impl Iterator<Item = (&Route, &[u64])> {
        let edges = plan.edges_on(symbol);
        let first = interval * self.routes.len();
        let allowed = &self.allowed[(first + edges.start) * words..(first + edges.end) * words];
        self.routes[edges].iter().zip(allowed.chunks_exact(words))
    }

    /// Marks the targets with all bases as they are.
    fn mark_kept(&mut self, plan: &Plan, symbol: usize, interval: usize) {
        match plan.location_words() {
            // The same, but compiled for one word.
            1 => self.mark_kept_words(plan, 1, symbol, interval),
            words => self.mark_kept_words(plan, words, symbol, interval),
        }
    }

    #[inline(always)]
    fn mark_kept_words(&mut self, plan: &Plan, words: usize, symbol: usize, interval: usize) {
        let mut next = std::mem::take(&mut self.next);
        for (route, allowed) in self.edges_in(plan, words, symbol, interval) {
            mark(&mut next, route, taken(&self.row, route, allowed));
        }
        self.next = next;
    }

    /// Marks the targets with the bases moved on by a whole number and the edges' clocks zeroed.
    fn mark_moved(&mut self, plan: &Plan, symbol: usize, by: usize) {
        if self.moved.is_empty() {
            self.move_row(plan);
        }
        match plan.location_words() {
            1 => self.mark_moved_words(plan, 1, symbol, by),
            words => self.mark_moved_words(plan, words, symbol, by),
        }
    }

    #[inline(always)]
    fn mark_moved_words(&mut self, plan: &Plan, words: usize, symbol: usize, by: usize) {
        let (mut part, mut next) = (std::mem::take(&mut self.part), std::mem::take(&mut self.next));
        let moved = &self.moved[by * self.row.len()..][..self.row.len()];
        for (route, allowed) in self.edges_in(plan, words, symbol, 0) {
            let taken = taken(moved, route, allowed);
            if route.resets == 0 {
                mark(&mut next, route, taken);
                continue;
            }
            let part = &mut part[..words];
            part.iter_mut().zip(taken).for_each(|(part, places)| *part = places);
            if part.iter().any(|&places| places != 0) {
                self.zero_clocks(plan, part, route.resets);
                mark(&mut next, route, part.iter().copied());
            }
        }
        (self.part, self.next) = (part, next);
    }

    /// Zeroes the base of some clocks, all pairs of a location at once.
    #[inline(always)]
    fn zero_clocks(&self, plan: &Plan, part: &mut [u64], clocks: u32) {
        for clock in (0..plan.clocks).filter(|clock| clocks >> clock & 1 == 1) {
            let (power, bases) = (plan.powers[clock] as usize, plan.top as usize + 2);
            // Joined with themselves moved down by 1, 2, 4 bases and so on, until each has come down to base 0.
            let mut reach = 1;
            while 2 * reach <= bases {
                join_down(part, reach * power);
                reach *= 2;
            }
            join_down(part, (bases - reach) * power);
            for (word, places) in part.iter_mut().enumerate() {
                *places &= self.between(plan, clock, 0, 1, word);
            }
        }
    }

    /// Works the row out moved on by 0 to cm, each from the one before.
    fn move_row(&mut self, plan: &Plan) {
        let words = self.row.len();
        self.moved.extend_from_slice(&self.row);
        for by in 1..=plan.top as usize {
            self.moved.extend_from_within((by - 1) * words..);
            for clock in 0..plan.clocks {
                let above = &self.above[clock * words..][..words];
                move_clock(&mut self.moved[by * words..], above, plan.powers[clock] as usize);
            }
        }
    }
}

/// The places of an edge's source in a row that its guard allows, word by word.
fn taken<'a>(row: &'a [u64], route: &'a Route, allowed: &'a [u64]) -> impl Iterator<Item = u64> + 'a {
    let source = &row[route.source..][..allowed.len()];
    source.iter().zip(allowed).map(|(places, allowed)| places >> route.source_shift & allowed)
}

/// Marks places at an edge's target.
fn mark(next: &mut [u64], route: &Route, taken: impl Iterator<Item = u64>) {
    for (next, places) in next[route.target..].iter_mut().zip(taken) {
        *next |= places << route.target_shift;
    }
}

/// Adds to a location's places those that are so much higher, moved down.
#[inline(always)]
fn join_down(part: &mut [u64], by: usize) {
    let (words, shift) = (by / 64, by % 64);
    for at in 0..part.len() {
        let above = |on: usize| part.get(at + on).copied().unwrap_or(0);
        // Shifted in two steps, as no word can be shifted by 64.
        part[at] |= above(words) >> shift | above(words + 1) << 1 << (63 - shift);
    }
}

/// Moves the base of one clock on by 1, all pairs of a row at once: up by the clock's power, but those above cm
/// stay. None leaves its location.
fn move_clock(row: &mut [u64], above: &[u64], power: usize) {
    let (words, shift) = (power / 64, power % 64);
    for at in (0..row.len()).rev() {
        let below = |back: usize| at.checked_sub(back).map_or(0, |from| row[from] & !above[from]);
        row[at] = row[at] & above[at] | below(words) << shift | below(words + 1) >> 1 >> (63 - shift);
    }
}

/// The masks.
impl Bits {
    fn prepare(&mut self, plan: &Plan) {
        self.ready = true;
        self.routes.clear();
        self.routes.extend(plan.edges().iter().map(|edge| Route::new(plan, edge)));
        for words in [&mut self.row, &mut self.part, &mut self.next] {
            words.clear();
            words.resize(plan.words(), 0);
        }
        self.make_below(plan);
        self.make_allowed(plan);
        self.make_changes(plan);
        self.make_above(plan);
    }

    fn make_below(&mut self, plan: &Plan) {
        let (words, bounds) = (plan.location_words(), plan.top as usize + 3);
        self.below.clear();
        self.below.resize(plan.clocks * bounds * words, 0);
        for rest in 0..plan.per_location {
            let bases = plan.bases(rest);
            for (clock, &base) in bases[..plan.clocks].iter().enumerate() {
                for bound in base as usize + 1..bounds {
                    self.below[(clock * bounds + bound) * words + rest as usize / 64] |= 1 << (rest % 64);
                }
            }
        }
    }

    /// A word of the places whose base of a clock is from one to below another.
    fn between(&self, plan: &Plan, clock: usize, from: i32, until: i32, word: usize) -> u64 {
        let bounds = plan.top as i32 + 3;
        let below = |bound: i32| {
            let bound = bound.clamp(0, bounds - 1) as usize;
            self.below[(clock * bounds as usize + bound) * plan.location_words() + word]
        };
        below(until) & !below(from)
    }

    fn make_allowed(&mut self, plan: &Plan) {
        self.allowed.clear();
        for interval in 0..plan.intervals() as i32 {
            for edge in plan.edges() {
                for word in 0..plan.location_words() {
                    let mut allowed = !0;
                    for clock in 0..plan.clocks {
                        // Twice the base plus the interval is at least the lowest and at most the highest.
                        let from = (edge.ranges.lowest[clock] - interval + 1) >> 1;
                        let to = (edge.ranges.highest[clock] - interval) >> 1;
                        allowed &= self.between(plan, clock, from, to + 1, word);
                    }
                    self.allowed.push(allowed);
                }
            }
        }
    }

    fn make_changes(&mut self, plan: &Plan) {
        self.changes.clear();
        self.may_reset.clear();
        for symbol in 0..plan.symbols {
            let (mut changes, mut may_reset) = (0, 0);
            for interval in 0..plan.intervals() {
                let edges = |interval| self.edges_in(plan, plan.location_words(), symbol, interval);
                let allowed = |interval| edges(interval).map(|(_, allowed)| allowed);
                let differs = interval > 0 && allowed(interval).ne(allowed(interval - 1));
                let resets = edges(interval)
                    .any(|(route, allowed)| route.resets != 0 && allowed.iter().any(|&places| places != 0));
                changes |= u64::from(differs) << interval;
                may_reset |= u64::from(resets) << interval;
            }
            self.changes.push(changes);
            self.may_reset.push(may_reset);
        }
    }

    fn make_above(&mut self, plan: &Plan) {
        self.above.clear();
        self.above.resize(plan.clocks * plan.words(), 0);
        for clock in 0..plan.clocks {
            for location in 0..plan.locations {
                let first = location * plan.pitch as usize;
                for word in 0..plan.location_words() {
                    let places = self.between(plan, clock, plan.top as i32 + 1, plan.top as i32 + 2, word);
                    self.above[clock * plan.words() + first / 64 + word] |= places << (first % 64);
                }
            }
        }
    }
}
