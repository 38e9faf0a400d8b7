//! Sides of a pin whose partner is wrong.

use crate::edges::{outer_atoms, Atom, Edge, Member, AT_LEAST, AT_MOST, GREATER, LESS};
use crate::edges::{EDGE_NUMBERS, MASK, MOST_CONSTANT};
use crate::pins::{is_pinned, sides};
use crate::random::Random;
use crate::rules::edges_in;
use protocol::{Engine, Reference, Rule, State};

/// In what alone a partner is wrong.
#[derive(Clone, Copy, PartialEq)]
pub enum WrongIn {
    /// The clock.
    Clock,
    /// The constant, by one.
    Constant,
    /// The relation, which is strict.
    Relation,
}

/// In what alone these two fail to be an at-least and its partner.
fn wrong_in(lower: &Atom, upper: &Atom) -> Option<WrongIn> {
    let (clocks_differ, off) = (lower[0] != upper[0], lower[2].abs_diff(upper[2]));
    match (lower[1], upper[1], clocks_differ, off) {
        (AT_LEAST, AT_MOST, true, 0) => Some(WrongIn::Clock),
        (AT_LEAST, AT_MOST, false, 1) => Some(WrongIn::Constant),
        (AT_LEAST, LESS, false, 0) | (GREATER, AT_MOST, false, 0) => Some(WrongIn::Relation),
        _ => None,
    }
}

/// Whether the edge has resets that are not pinned, and would be but for a partner that is wrong in this.
pub fn lacks_partner(edge: &Edge, wrong: WrongIn) -> bool {
    let atoms = outer_atoms(&edge.guard);
    let mut pairs = atoms.iter().flat_map(|lower| atoms.iter().map(move |upper| (lower, upper)));
    is_unpinned(edge) && pairs.any(|(lower, upper)| wrong_in(lower, upper) == Some(wrong))
}

fn is_unpinned(edge: &Edge) -> bool {
    edge.mask != 0 && !is_pinned(&edge.guard)
}

/// The edge for whose resets alone the state's rule is refused.
pub fn only_unpinned(state: &State) -> Option<Edge> {
    let mut unpinned = edges_in(state).enumerate().filter(|(_, edge)| is_unpinned(edge));
    let (number, only) = unpinned.next().filter(|_| unpinned.next().is_none())?;
    let mut edges = state.edges.to_vec();
    edges[EDGE_NUMBERS * number + MASK] = 0;
    (Reference::check_rule(Rule { head: state.head, edges: &edges }).number == 0).then_some(only)
}

/// A side of these members' pin made wrong: its position, the atom, and the place in it of the number that is wrong.
pub fn wrong_side(random: &mut Random, clocks: u16, members: &[Member]) -> (usize, Atom, usize) {
    let (at_least, at_most) = random.pick(&sides(members));
    let position = random.pick(&[at_least, at_most]);
    let mut atom = members[position].atom().unwrap_or_default();
    let [clock, relation, constant] = atom;
    let (place, value) = match random.below(7) {
        0 | 1 if clocks > 1 => (0, (clock + random.between(1, usize::from(clocks) - 1) as u16) % clocks),
        2 | 3 => (1, if relation == AT_LEAST { GREATER } else { LESS }),
        4 => (1, if relation == AT_LEAST { AT_MOST } else { AT_LEAST }),
        _ => (2, one_off(random, constant)),
    };
    atom[place] = value;
    (position, atom, place)
}

fn one_off(random: &mut Random, constant: u16) -> u16 {
    if constant == 0 || (constant < MOST_CONSTANT && random.chance(50)) {
        constant + 1
    } else {
        constant - 1
    }
}
