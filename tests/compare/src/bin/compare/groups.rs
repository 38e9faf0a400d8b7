//! Random guards with groups.

use crate::edges::{
    Atom, Edge, Member, AT_LEAST, AT_MOST, EQUAL, GREATER, GROUPED, LESS, MOST_GROUPED_ATOMS, MOST_GROUPS,
    MOST_LEVELS, NOT_EQUAL,
};
use crate::held::held_atom;
use crate::pins::is_pinned;
use crate::random::Random;
use crate::rules::{any_atom, pin_resets, some_ends, some_resets, Rule};
use crate::texts::group_count;

/// How many atoms a pin takes at most.
const PIN_ATOMS: usize = 2;

/// The most atoms and groups of a group that holds.
pub const HELD_GROUP_ATOMS: usize = 4;
pub const HELD_GROUPS: usize = 2;

/// How many groups and atoms a guard has.
#[derive(Clone, Copy)]
pub struct Amount {
    pub groups: usize,
    pub atoms: usize,
}

/// As much as the group rules allow: 80 numbers of text.
pub const MOST: Amount = Amount { groups: MOST_GROUPS, atoms: MOST_GROUPED_ATOMS };

/// A grouped edge that the reader accepts.
pub fn grouped_edge(random: &mut Random, rule: &Rule, constant: u16) -> Edge {
    let mask = some_resets(random, rule);
    let mut amount = some_amount(random);
    if mask != 0 {
        amount.atoms = amount.atoms.min(MOST_GROUPED_ATOMS - PIN_ATOMS);
    }
    let guard = any_guard(random, amount, |random| any_atom(random, rule, constant));
    let mut edge = Edge { kind: GROUPED, mask, ..some_ends(random, rule, guard) };
    pin_resets(random, rule, constant, &mut edge);
    edge
}

/// Mostly a few groups and some atoms for each; now and then none, or as many as can be.
fn some_amount(random: &mut Random) -> Amount {
    let groups = random.pick(&[0, 1, 1, 1, 2, 2, 3, 4, MOST_GROUPS]);
    let atoms = random.between(groups, 3 * groups + 2).min(MOST_GROUPED_ATOMS);
    Amount { groups, atoms: random.pick(&[atoms, atoms, atoms, atoms, atoms, 0, MOST_GROUPED_ATOMS]) }
}

/// Members with just so many groups and atoms, each on any level.
pub fn any_guard(random: &mut Random, amount: Amount, draw: impl FnMut(&mut Random) -> Atom) -> Vec<Member> {
    let mut members = Vec::new();
    grow(random, &mut members, amount, draw);
    members
}

/// Puts so many groups and atoms more into this outermost level and those below it.
pub fn grow(
    random: &mut Random,
    members: &mut Vec<Member>,
    amount: Amount,
    mut draw: impl FnMut(&mut Random) -> Atom,
) {
    for _ in 0..amount.groups {
        put(random, members, Member::Group(vec![]), MOST_LEVELS - 2);
    }
    for _ in 0..amount.atoms {
        let atom = draw(random);
        put(random, members, Member::Atom(atom), MOST_LEVELS - 1);
    }
}

/// Puts a member anywhere on a level or at most so many levels below it.
fn put(random: &mut Random, members: &mut Vec<Member>, member: Member, below: usize) {
    let mut groups: Vec<&mut Vec<Member>> = members.iter_mut().filter_map(Member::group_mut).collect();
    if below > 0 && !groups.is_empty() && random.chance(60) {
        let place = random.below(groups.len());
        return put(random, groups.swap_remove(place), member, below - 1);
    }
    let place = random.below(members.len() + 1);
    members.insert(place, member);
}

/// Groups one in another and nothing else, so many levels with the outermost.
pub fn nested(levels: usize) -> Vec<Member> {
    (1..levels).fold(Vec::new(), |inside, _| vec![Member::Group(inside)])
}

/// A group of the outermost level that holds when all clocks have this age: one of its members does, an atom or a group
/// of atoms. The others are any.
pub fn held_group(random: &mut Random, rule: &Rule, grain: u32, age: u32) -> Member {
    let mut group: Vec<Member> =
        (0..random.below(3)).map(|_| Member::Atom(any_atom(random, rule, rule.top()))).collect();
    let held = |random: &mut Random| Member::Atom(held_atom(random, rule, grain, age));
    let held = if random.chance(60) { held(random) } else { Member::Group(vec![held(random), held(random)]) };
    let place = random.below(group.len() + 1);
    group.insert(place, held);
    Member::Group(group)
}

/// The edge with some of its atoms spelled by groups that hold when they do. Resets stay pinned.
pub fn regrouped(random: &mut Random, edge: &Edge) -> Edge {
    let mut other = Edge { kind: GROUPED, ..edge.clone() };
    for position in 0..other.guard.len() {
        let Some(atom) = other.guard[position].atom() else { continue };
        other.guard[position] = alike(random, atom);
        let fits = group_count(&other.guard) <= MOST_GROUPS && other.atoms().len() <= MOST_GROUPED_ATOMS;
        let pinned = other.mask == 0 || is_pinned(&other.guard);
        if !fits || !pinned || random.chance(30) {
            other.guard[position] = Member::Atom(atom);
        }
    }
    other
}

/// A group of the outermost level that holds when the atom does.
fn alike(random: &mut Random, [clock, relation, constant]: Atom) -> Member {
    let atom = |relation, constant| Member::Atom([clock, relation, constant]);
    let (same, never, always) = (atom(relation, constant), atom(LESS, 0), atom(AT_LEAST, 0));
    Member::Group(match (random.below(6), relation) {
        (0 | 1, AT_MOST) => vec![atom(LESS, constant), atom(EQUAL, constant)],
        (0 | 1, AT_LEAST) => vec![atom(EQUAL, constant), atom(GREATER, constant)],
        (0 | 1, NOT_EQUAL) => vec![atom(LESS, constant), atom(GREATER, constant)],
        (2, _) => vec![never, same],
        (3, _) => vec![Member::Group(vec![always, same])],
        (4, _) => vec![Member::Group(vec![same]), never],
        _ => vec![same],
    })
}
