//! Edges: their places in the edge table, and the edges taken from them.

use crate::guard::{Guard, ATOM_NUMBERS, MOST_ATOMS, MOST_TEXT};
use crate::rule::{all_zero, Head};

/// Numbers per edge: kind, source, target, symbol, mask, the count of atoms or of text numbers, and 80 of
/// atoms or text.
pub const EDGE_NUMBERS: usize = SPELLING + MOST_TEXT;

/// The kind of an edge whose guard is spelled by atoms alone.
pub(crate) const PLAIN_EDGE: u16 = 5;
/// The kind of an edge whose guard is spelled by a text of marks.
pub(crate) const GROUPED_EDGE: u16 = 6;
/// Numbers that an edge's record has before the guard: source, target, symbol, mask.
pub(crate) const RECORD_NUMBERS: usize = 4;

/// Where an edge has its kind, its record's numbers, its count and the numbers that spell its guard.
const KIND: usize = 0;
const RECORD: usize = 1;
const COUNT: usize = RECORD + RECORD_NUMBERS;
const SPELLING: usize = COUNT + 1;

/// Whether a kind is one of edges, and a guard of it can be spelled by so many numbers.
pub(crate) fn spelling_fits(kind: u16, numbers: usize) -> bool {
    match kind {
        PLAIN_EDGE => numbers % ATOM_NUMBERS == 0 && numbers <= ATOM_NUMBERS * MOST_ATOMS,
        GROUPED_EDGE => numbers <= MOST_TEXT,
        _ => false,
    }
}

/// How many numbers of a spelling the edge counts as one: an atom's, or each of a text.
fn numbers_each(kind: u16) -> usize {
    if kind == PLAIN_EDGE {
        ATOM_NUMBERS
    } else {
        1
    }
}

/// Writes what an edge's record spells to the edge's places, which are zero.
pub(crate) fn spell_edge(kind: u16, mut record: impl ExactSizeIterator<Item = u16>, places: &mut [u16]) {
    places[KIND] = kind;
    places[COUNT] = ((record.len() - RECORD_NUMBERS) / numbers_each(kind)) as u16;
    fill(&mut places[RECORD..COUNT], &mut record);
    fill(&mut places[SPELLING..], &mut record);
}

/// Fills places with numbers as far as there are any.
fn fill(places: &mut [u16], numbers: &mut impl Iterator<Item = u16>) {
    for (place, number) in places.iter_mut().zip(numbers) {
        *place = number;
    }
}

/// The places of one edge in the edge table.
#[derive(Clone, Copy)]
pub(crate) struct Places<'a>(pub &'a [u16]);

impl<'a> Places<'a> {
    pub fn kind(self) -> u16 {
        self.0[KIND]
    }

    /// Source, target, symbol and mask.
    pub fn record(self) -> &'a [u16] {
        &self.0[RECORD..COUNT]
    }

    /// The numbers that spell the guard; the count is known to fit the kind.
    pub fn spelling(self) -> &'a [u16] {
        &self.0[SPELLING..][..self.spelling_numbers()]
    }

    /// Whether the places past the guard are zero; the count is known to fit the kind.
    pub fn ends_in_zeros(self) -> bool {
        all_zero(&self.0[SPELLING + self.spelling_numbers()..])
    }

    /// Whether the kind is one of edges, and the count one that it has.
    pub fn count_fits(self) -> bool {
        spelling_fits(self.kind(), self.spelling_numbers())
    }

    fn spelling_numbers(self) -> usize {
        numbers_each(self.kind()) * usize::from(self.0[COUNT])
    }

    /// The guard, or nothing if its text breaks the group rules.
    fn guard(self) -> Option<Guard<'a>> {
        if self.kind() == PLAIN_EDGE {
            Some(Guard::Atoms(self.spelling()))
        } else {
            Guard::of_text(self.spelling())
        }
    }
}

/// One edge.
pub(crate) struct Edge<'a> {
    pub source: u32,
    pub target: u32,
    pub symbol: u16,
    /// The mask of clocks to reset.
    pub resets: u16,
    pub guard: Guard<'a>,
}

impl<'a> Edge<'a> {
    /// Takes an edge from its places, the count of which fits the kind: 6, then 7.
    pub fn take(head: &Head, places: Places<'a>) -> Result<Self, u8> {
        let record = places.record();
        let edge = Edge {
            source: record[0].into(),
            target: record[1].into(),
            symbol: record[2],
            resets: record[3],
            guard: places.guard().ok_or(6)?,
        };
        if !edge.in_range(head) {
            return Err(6);
        }
        if edge.resets != 0 && !edge.guard.pinned() {
            return Err(7);
        }
        Ok(edge)
    }

    fn in_range(&self, head: &Head) -> bool {
        self.source < head.locations
            && self.target < head.locations
            && u32::from(self.symbol) < head.symbols
            && self.resets >> head.clocks == 0
            && self.guard.in_range(head.clocks)
    }

    pub fn resets_clock(&self, clock: usize) -> bool {
        self.resets >> clock & 1 == 1
    }
}
