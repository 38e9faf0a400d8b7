//! Random rules and their files.

use crate::edges::{
    Atom, Edge, Member, AT_LEAST, AT_MOST, EDGE_NUMBERS, EQUAL, GREATER, LESS, MOST_ATOMS, MOST_CONSTANT,
    NOT_EQUAL, PLAIN,
};
use crate::groups::grouped_edge;
use crate::pins::{is_pinned, pin};
use crate::random::Random;
use protocol::State;

/// The bytes of a record before its body.
pub const RECORD_HEAD: usize = 4;
/// The kind of a ceiling record.
pub const CEILING: u16 = 4;
/// How many codes a number of the build scratch has bits for.
pub const NUMBER_BITS: usize = 32;

/// A rule as its file spells it.
#[derive(Clone, Debug)]
pub struct Rule {
    pub locations: u16,
    pub symbols: u16,
    pub clocks: u16,
    pub initial: Vec<u16>,
    pub finals: Vec<u16>,
    pub ceiling: Option<u16>,
    pub edges: Vec<Edge>,
}

/// How large a random rule may be.
pub struct Bounds {
    pub locations: usize,
    pub symbols: usize,
    pub clocks: usize,
    pub edges: usize,
    pub constant: usize,
}

pub const SMALL: Bounds = Bounds { locations: 4, symbols: 3, clocks: 2, edges: 10, constant: 2 };
pub const MIDDLE: Bounds = Bounds { locations: 8, symbols: 4, clocks: 4, edges: 24, constant: 4 };
pub const WIDE: Bounds = Bounds { locations: 32, symbols: 16, clocks: 4, edges: 90, constant: 30 };

/// A record of a rule file.
pub fn record(kind: u16, numbers: &[u16]) -> Vec<u8> {
    record_of(kind, &numbers.iter().flat_map(|number| number.to_le_bytes()).collect::<Vec<u8>>())
}

/// A record with this body.
pub fn record_of(kind: u16, body: &[u8]) -> Vec<u8> {
    let front = [body.len() as u16, kind].map(u16::to_le_bytes);
    [front.as_flattened(), body].concat()
}

/// The whole records of a file, each with its place, its kind and its body.
pub fn records_in(file: &[u8]) -> Vec<(usize, u16, &[u8])> {
    let (mut records, mut place) = (Vec::new(), 0);
    while let Some((kind, body)) = record_at(file, place) {
        records.push((place, kind, body));
        place += RECORD_HEAD + body.len();
    }
    records
}

/// The kind and the body of the record at this place of a file, if it is whole.
pub fn record_at(file: &[u8], place: usize) -> Option<(u16, &[u8])> {
    let (front, rest) = file.get(place..)?.split_first_chunk::<RECORD_HEAD>()?;
    let [length, kind] = [[front[0], front[1]], [front[2], front[3]]].map(u16::from_le_bytes);
    Some((kind, rest.get(..length.into())?))
}

/// The numbers of a record's body.
pub fn numbers_in(body: &[u8]) -> Vec<u16> {
    body.chunks_exact(2).map(|pair| u16::from_le_bytes([pair[0], pair[1]])).collect()
}

/// The edges of the state's rule.
pub fn edges_in(state: &State) -> impl Iterator<Item = Edge> + '_ {
    state.edges.chunks_exact(EDGE_NUMBERS).take(state.head.count as usize).filter_map(Edge::of_places)
}

/// cm of the state's rule.
pub fn top_in(state: &State) -> u16 {
    edges_in(state).map(|edge| edge.top()).max().unwrap_or(0)
}

/// The edge that the record at this place of a file spells.
pub fn edge_at(file: &[u8], place: usize) -> Option<Edge> {
    let (kind, body) = record_at(file, place)?;
    Edge::of_numbers(kind, &numbers_in(body))
}

impl Rule {
    /// The file's records.
    pub fn records(&self) -> Vec<Vec<u8>> {
        let mut records = vec![record(1, &[self.locations, self.symbols, self.clocks])];
        records.extend(self.initial.iter().map(|&location| record(2, &[location])));
        records.extend(self.finals.iter().map(|&location| record(3, &[location])));
        records.extend(self.ceiling.iter().map(|&ceiling| record(CEILING, &[ceiling])));
        records.extend(self.edges.iter().map(Edge::record));
        records
    }

    pub fn file(&self) -> Vec<u8> {
        self.records().concat()
    }

    /// cm.
    pub fn top(&self) -> u16 {
        self.edges.iter().map(Edge::top).max().unwrap_or(0)
    }

    /// N.
    pub fn code_count(&self) -> usize {
        code_count(self.locations, self.clocks, self.top())
    }

    /// The numbers of build scratch that it needs.
    pub fn scratch(&self) -> usize {
        scratch_for(self.code_count())
    }

    /// W.
    pub fn intervals(&self) -> usize {
        2 * usize::from(self.top()) + 2
    }

    /// Puts an edge anywhere among those of its kind, and returns its number.
    pub fn put(&mut self, random: &mut Random, edge: Edge) -> usize {
        let plain = self.edges.iter().filter(|edge| edge.kind == PLAIN).count();
        let (low, high) = if edge.kind == PLAIN { (0, plain) } else { (plain, self.edges.len()) };
        let number = random.between(low, high);
        self.edges.insert(number, edge);
        number
    }

    /// Puts the plain edges before the grouped ones, each kind in the order that it has.
    pub fn sort_kinds(&mut self) {
        self.edges.sort_by_key(|edge| edge.kind);
    }
}

/// N for so many locations and clocks and this cm.
pub fn code_count(locations: u16, clocks: u16, top: u16) -> usize {
    usize::from(locations) * (usize::from(top) + 2).pow(u32::from(clocks))
}

/// The numbers of build scratch for so many codes: a bit each, N / 32 rounded up.
pub fn scratch_for(code_count: usize) -> usize {
    code_count.div_ceil(NUMBER_BITS)
}

/// The largest cm for so many locations and clocks.
pub fn largest_top(locations: u16, clocks: u16) -> u16 {
    (0..=MOST_CONSTANT).rev().find(|&top| code_count(locations, clocks, top) <= 65_536).unwrap_or(0)
}

/// A rule that the reader accepts.
pub fn any_rule(random: &mut Random, bounds: &Bounds) -> Rule {
    let locations = random.between(1, bounds.locations) as u16;
    let symbols = random.between(1, bounds.symbols) as u16;
    let clocks = random.between(1, bounds.clocks) as u16;
    let most = usize::from(largest_top(locations, clocks)).min(bounds.constant);
    let constant = random.between(0, most) as u16;
    let edge_count = if random.chance(3) { 0 } else { random.between(bounds.edges / 3, bounds.edges) };
    let mut rule =
        Rule { locations, symbols, clocks, initial: vec![], finals: vec![], ceiling: None, edges: vec![] };
    rule.initial = some_locations(random, locations);
    rule.finals = some_locations(random, locations);
    rule.ceiling = random.chance(20).then(|| random.between(0, MOST_CONSTANT.into()) as u16);
    rule.edges = any_edges(random, &rule, constant, edge_count);
    rule
}

/// A set of locations, now and then empty or all.
pub fn some_locations(random: &mut Random, locations: u16) -> Vec<u16> {
    let percent = random.pick(&[0, 30, 30, 50, 50, 50, 100]);
    (0..locations).filter(|_| random.chance(percent)).collect()
}

/// So many edges that the reader accepts: plain ones, grouped ones, or some of both.
pub fn any_edges(random: &mut Random, rule: &Rule, constant: u16, count: usize) -> Vec<Edge> {
    let some = random.below(count + 1);
    let plain = random.pick(&[count, count, some, some, 0]);
    let mut edges: Vec<Edge> = (0..plain).map(|_| plain_edge(random, rule, constant)).collect();
    edges.extend((plain..count).map(|_| grouped_edge(random, rule, constant)));
    edges
}

/// An edge of either kind that the reader accepts.
pub fn any_edge(random: &mut Random, rule: &Rule, constant: u16) -> Edge {
    let draw = random.pick(&[plain_edge, grouped_edge]);
    draw(random, rule, constant)
}

/// A plain edge that the reader accepts.
pub fn plain_edge(random: &mut Random, rule: &Rule, constant: u16) -> Edge {
    let mask = some_resets(random, rule);
    let atom_count = if random.chance(2) { MOST_ATOMS } else { random.pick(&[0, 0, 1, 1, 1, 2, 3]) };
    let guard = (0..atom_count).map(|_| Member::Atom(any_atom(random, rule, constant))).collect();
    let mut edge = Edge { mask, ..some_ends(random, rule, guard) };
    pin_resets(random, rule, constant, &mut edge);
    edge
}

/// The clocks that an edge resets, often none.
pub fn some_resets(random: &mut Random, rule: &Rule) -> u16 {
    if random.chance(45) {
        random.below(1 << rule.clocks) as u16
    } else {
        0
    }
}

/// Pins the resets of an edge at some age, if they are not. One for which the pin has no room loses its resets.
pub fn pin_resets(random: &mut Random, rule: &Rule, constant: u16, edge: &mut Edge) {
    if edge.mask != 0 && !is_pinned(&edge.guard) {
        let [clock, _, constant] = any_atom(random, rule, constant);
        pin(random, &mut edge.guard, clock, constant);
        if edge.kind == PLAIN {
            edge.guard.truncate(MOST_ATOMS);
        }
    }
    edge.mask = if is_pinned(&edge.guard) { edge.mask } else { 0 };
}

/// A plain edge with this guard and no resets.
pub fn some_ends(random: &mut Random, rule: &Rule, guard: Vec<Member>) -> Edge {
    let [source, target] = [0, 1].map(|_| random.below(rule.locations.into()) as u16);
    Edge { kind: PLAIN, source, target, symbol: random.below(rule.symbols.into()) as u16, mask: 0, guard }
}

/// An atom that the reader accepts.
pub fn any_atom(random: &mut Random, rule: &Rule, constant: u16) -> Atom {
    let often = [LESS, AT_MOST, EQUAL, EQUAL, AT_LEAST, AT_LEAST, GREATER, NOT_EQUAL];
    let relation = random.pick(&often);
    [random.below(rule.clocks.into()) as u16, relation, random.between(0, constant.into()) as u16]
}
