//! What a build works out before its first row: where codes stand among bits, and the edges in order.

use super::guards::{one_range, plain_ranges, plain_top, text_ranges, text_top, Ranges};
use super::rows::Rows;
use alderskein::raw::{Built, Head};
use protocol::Rule;

/// Numbers per edge in the edge table: kind, four of the edge, count, text.
const EDGE_NUMBERS: usize = 86;
const KIND: usize = 0;
const COUNT: usize = 5;
const TEXT: usize = 6;
/// The kind of an edge whose text has groups.
const GROUPED: u16 = 6;

/// An edge, its guard as the regions a clock may be in; one of several, where the guard is no single range.
#[derive(Clone, Copy)]
pub struct Edge {
    pub source: u32,
    pub target: u32,
    pub symbol: u32,
    /// The clocks to reset, a bit each.
    pub resets: u32,
    pub ranges: Ranges,
}

impl Edge {
    /// An edge that takes all regions.
    fn new(numbers: &[u16]) -> Self {
        let [source, target, symbol, resets] = [1, 2, 3, 4].map(|place| u32::from(numbers[place]));
        Edge { source, target, symbol, resets, ranges: Ranges::ALL }
    }

    /// The first and the last interval in which a pair with these bases takes the edge; the last is below the
    /// first if there is none.
    pub fn intervals(&self, bases: [i32; 4], last: i32) -> (i32, i32) {
        let (mut from, mut to) = (0, last);
        let Ranges { lowest, highest } = &self.ranges;
        for (base, (lowest, highest)) in bases.iter().zip(lowest.iter().zip(highest)) {
            from = from.max(lowest - 2 * base);
            to = to.min(highest - 2 * base);
        }
        (from, to)
    }
}

/// What a build works out first.
///
/// A pair's place among the bits of a set is its location times the pitch, plus what its code has above the
/// location's first. The pitch is a power of two or whole words, so that a location of at most 64 codes lies in one
/// word.
#[derive(Default)]
pub struct Plan {
    pub locations: usize,
    pub symbols: usize,
    pub clocks: usize,
    /// cm.
    pub top: u32,
    /// The final locations, a bit each.
    finals: u32,
    /// (cm + 2)^k for each clock k, and then 0.
    pub powers: [u32; 4],
    /// Codes per location.
    pub per_location: u32,
    pub pitch: u32,
    /// 2^32 over the pitch, rounded down, plus 1: multiplying by it divides a place.
    factor: u64,
    /// By symbol, then by source.
    edges: Vec<Edge>,
    /// Where the edges of a symbol and a source begin, and at last their end.
    begins: Vec<u32>,
}

impl Plan {
    /// Works out what a build of this rule needs.
    pub fn lay(&mut self, rule: Rule) {
        let head = rule.head;
        self.locations = head.locations as usize;
        self.symbols = head.symbols as usize;
        self.clocks = head.clocks as usize;
        self.finals = head.ends;
        self.take_edges(&rule.edges[..EDGE_NUMBERS * head.count as usize]);
        self.lay_places();
    }

    /// Takes the edges and sorts them; and cm.
    fn take_edges(&mut self, table: &[u16]) {
        self.edges.clear();
        self.top = 0;
        for numbers in table.chunks_exact(EDGE_NUMBERS) {
            self.take_edge(numbers);
        }
        let group = |edge: &Edge| edge.symbol as usize * self.locations + edge.source as usize;
        self.edges.sort_unstable_by_key(group);
        self.begins.clear();
        for (place, edge) in self.edges.iter().enumerate() {
            self.begins.resize(self.begins.len().max(group(edge) + 1), place as u32);
        }
        self.begins.resize(self.symbols * self.locations + 1, self.edges.len() as u32);
    }

    /// Takes an edge, one for each range of its guard; and its largest constant.
    fn take_edge(&mut self, numbers: &[u16]) {
        let (edge, count) = (Edge::new(numbers), usize::from(numbers[COUNT]));
        let with = |ranges| Edge { ranges, ..edge };
        if numbers[KIND] == GROUPED {
            let text = &numbers[TEXT..TEXT + count];
            self.top = self.top.max(text_top(text));
            self.edges.extend(text_ranges(text).into_iter().map(with));
            return;
        }
        let atoms = &numbers[TEXT..TEXT + 3 * count];
        self.top = self.top.max(plain_top(atoms));
        match one_range(atoms) {
            Some(ranges) => self.edges.push(with(ranges)),
            None => self.edges.extend(plain_ranges(atoms).into_iter().map(with)),
        }
    }

    fn lay_places(&mut self) {
        let power = |clock| if clock < self.clocks as u32 { (self.top + 2).pow(clock) } else { 0 };
        self.powers = [0, 1, 2, 3].map(power);
        self.per_location = (self.top + 2).pow(self.clocks as u32);
        self.pitch = match self.per_location {
            codes @ ..=64 => codes.next_power_of_two(),
            codes => codes.next_multiple_of(64),
        };
        self.factor = (1 << 32) / u64::from(self.pitch) + 1;
    }

    /// W.
    pub fn intervals(&self) -> usize {
        2 * self.top as usize + 2
    }

    /// A bit for each interval.
    pub fn all_intervals(&self) -> u64 {
        !0 >> (64 - self.intervals())
    }

    /// How many words of bits a set has.
    pub fn words(&self) -> usize {
        (self.locations * self.pitch as usize).div_ceil(64)
    }

    /// How many words a location has a part in.
    pub fn location_words(&self) -> usize {
        self.pitch.div_ceil(64) as usize
    }

    /// Whether a row of so many pairs has enough in a location's word for going by words.
    pub fn is_dense(&self, pairs: usize) -> bool {
        pairs > 2 && 3 * pairs > self.locations * self.location_words()
    }

    /// The edges, by symbol, then by source.
    pub fn edges(&self) -> &[Edge] {
        &self.edges
    }

    /// Where the edges with a symbol are.
    pub fn edges_on(&self, symbol: usize) -> std::ops::Range<usize> {
        let begin = |group: usize| self.begins[group] as usize;
        begin(symbol * self.locations)..begin((symbol + 1) * self.locations)
    }

    /// The edges with a symbol that leave a location.
    pub fn edges_from(&self, location: u32, symbol: usize) -> &[Edge] {
        let group = symbol * self.locations + location as usize;
        &self.edges[self.begins[group] as usize..self.begins[group + 1] as usize]
    }

    /// The location of a place. The factor is too large by less than a place can show.
    fn location(&self, place: u32) -> u32 {
        ((u64::from(place) * self.factor) >> 32) as u32
    }

    /// A place's location, and what it has above the location's first.
    pub fn split(&self, place: u32) -> (u32, u32) {
        let location = self.location(place);
        (location, place - location * self.pitch)
    }

    /// The code of a place, and whether its location is final.
    pub fn code(&self, place: u32) -> (u32, u32) {
        let location = self.location(place);
        (place - location * (self.pitch - self.per_location), self.finals >> location & 1)
    }

    /// The clocks' bases of what a place has above its location's first; 0 past the last clock.
    pub fn bases(&self, mut rest: u32) -> [i32; 4] {
        let mut bases = [0; 4];
        for base in &mut bases[..self.clocks] {
            *base = (rest % (self.top + 2)) as i32;
            rest /= self.top + 2;
        }
        bases
    }

    /// The place of an edge's target with the bases moved on by a whole number, its clocks zeroed.
    pub fn moved(&self, edge: &Edge, bases: [i32; 4], by: u32) -> u32 {
        let mut place = edge.target * self.pitch;
        for (clock, base) in bases.into_iter().enumerate() {
            let moved = (base as u32 + by).min(self.top + 1);
            place += if edge.resets >> clock & 1 == 0 { moved * self.powers[clock] } else { 0 };
        }
        place
    }

    /// The built record.
    pub fn built(&self, head: Head, rows: &Rows) -> Built {
        Built {
            locations: head.locations,
            symbols: head.symbols,
            clocks: head.clocks,
            top: self.top,
            ends: head.ends,
            rows: rows.count() as u32,
            total: rows.pool().len() as u32,
        }
    }
}
