//! The rule as it is kept: a head record and an edge table.

use crate::edge::{Edge, Places, EDGE_NUMBERS};
use crate::Refusal;

/// The most edges of a rule.
pub const MOST_EDGES: usize = 256;
/// Numbers an edge table has at least.
pub const EDGE_TABLE_NUMBERS: usize = MOST_EDGES * EDGE_NUMBERS;

pub(crate) const MOST_LOCATIONS: u32 = 32;
pub(crate) const MOST_SYMBOLS: u32 = 16;
pub(crate) const MOST_CLOCKS: u32 = 4;
pub(crate) const MOST_CODES: u32 = 65_536;

/// The head record of a rule.
#[derive(Clone, Copy, Debug, Default, PartialEq, Eq)]
pub struct Head {
    /// L, the number of locations.
    pub locations: u32,
    /// S, the number of symbols.
    pub symbols: u32,
    /// K, the number of clocks.
    pub clocks: u32,
    /// The initial locations, a bit each.
    pub initial: u32,
    /// The final locations, a bit each.
    pub finals: u32,
    /// The number of edges.
    pub edge_count: u32,
}

impl Head {
    /// The fields in order.
    pub fn to_numbers(&self) -> [u32; 6] {
        [self.locations, self.symbols, self.clocks, self.initial, self.finals, self.edge_count]
    }

    /// The record with these fields.
    pub fn from_numbers(numbers: [u32; 6]) -> Self {
        let [locations, symbols, clocks, initial, finals, edge_count] = numbers;
        Head { locations, symbols, clocks, initial, finals, edge_count }
    }
}

/// A rule and the resolution it is run at.
#[derive(Clone, Copy)]
pub(crate) struct Rule<'a> {
    pub head: &'a Head,
    pub edges: &'a [Edge<'a>],
    pub grain: u32,
}

impl Rule<'_> {
    pub fn is_initial(self, location: u32) -> bool {
        self.head.initial >> location & 1 == 1
    }

    pub fn is_final(self, location: u32) -> bool {
        self.head.finals >> location & 1 == 1
    }
}

/// The initial locations, ascending.
pub(crate) fn initial_locations(head: &Head) -> impl Iterator<Item = u32> {
    let set = head.initial;
    (0..head.locations).filter(move |location| set >> location & 1 == 1)
}

/// Whether L, S and K are in their ranges.
pub(crate) fn sizes_in_range(locations: u32, symbols: u32, clocks: u32) -> bool {
    (1..=MOST_LOCATIONS).contains(&locations)
        && (1..=MOST_SYMBOLS).contains(&symbols)
        && (1..=MOST_CLOCKS).contains(&clocks)
}

/// cm: the largest constant in any atom, 0 if there is none.
pub(crate) fn largest_constant(edges: &[Edge]) -> u32 {
    edges.iter().map(|edge| edge.guard.largest_constant()).fold(0, u32::max)
}

/// N = L (cm + 2)^K, for sizes and cm in their ranges.
pub(crate) fn code_count(locations: u32, clocks: u32, largest: u32) -> u32 {
    locations * (largest + 2).pow(clocks)
}

/// Whether N is at most 65,536.
pub(crate) fn codes_fit(head: &Head, largest: u32) -> bool {
    code_count(head.locations, head.clocks, largest) <= MOST_CODES
}

/// Checks that a head record and an edge table are what reading some accepted file leaves: 20, 21.
pub fn check_rule(head: &Head, edges: &[u16]) -> Result<(), Refusal> {
    take_edges(head, edges).map(|_| ())
}

/// Takes the edges from a table that, with the head record, is what reading some accepted file leaves: 20, 21.
pub(crate) fn take_edges<'a>(head: &Head, edges: &'a [u16]) -> Result<Vec<Edge<'a>>, Refusal> {
    Refusal::unless(edges.len() >= EDGE_TABLE_NUMBERS, 20)?;
    Refusal::unless(head_in_range(head) && places_well_kept(head, edges), 21)?;
    let mut taken = Vec::with_capacity(head.edge_count as usize);
    for places in places_in_use(head, edges) {
        taken.push(Edge::take(head, places).map_err(|_| Refusal::at(21, 0))?);
    }
    Refusal::unless(codes_fit(head, largest_constant(&taken)), 21)?;
    Ok(taken)
}

/// The places of the edges in use.
pub(crate) fn places_in_use<'a>(head: &Head, edges: &'a [u16]) -> impl Iterator<Item = Places<'a>> {
    edges.chunks_exact(EDGE_NUMBERS).take(head.edge_count as usize).map(Places)
}

fn head_in_range(head: &Head) -> bool {
    sizes_in_range(head.locations, head.symbols, head.clocks)
        && below_power(head.initial, head.locations)
        && below_power(head.finals, head.locations)
        && head.edge_count as usize <= MOST_EDGES
}

/// Whether a location set has no bit at or past L.
fn below_power(set: u32, locations: u32) -> bool {
    u64::from(set) >> locations == 0
}

/// Whether kinds and counts are those of edges, the kinds never fall, and every place not in use is zero.
fn places_well_kept(head: &Head, edges: &[u16]) -> bool {
    let unused = &edges[head.edge_count as usize * EDGE_NUMBERS..];
    places_in_use(head, edges).all(|places| places.count_fits() && places.ends_in_zeros())
        && places_in_use(head, edges).is_sorted_by_key(Places::kind)
        && all_zero(unused)
}

/// Whether numbers are all zero. No early end: the compiler then looks at many at once.
pub(crate) fn all_zero(numbers: &[u16]) -> bool {
    numbers.iter().fold(0, |bits, number| bits | number) == 0
}
