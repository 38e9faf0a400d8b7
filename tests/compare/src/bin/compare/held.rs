//! Words that are held back at the first event, or nearly.

use crate::edges::{holds, Atom, Edge, Member, AT_LEAST, GROUPED, MOST_GROUPS};
use crate::groups::{held_group, HELD_GROUPS, HELD_GROUP_ATOMS};
use crate::random::Random;
use crate::rules::{any_atom, Rule};
use crate::scene::{room_for, Scene};
use crate::scenes::some_rule;
use crate::texts::group_count;
use crate::words::{any_delay, any_grain, prolonged};
use protocol::Word;

/// A rule whose guards have many members, and words whose first event comes when most of them hold.
pub fn held_back(scene: &mut Scene) {
    let mut rule = some_rule(scene.random);
    let grain = any_grain(scene.random);
    let stamp = any_delay(scene.random, &rule, grain, 0);
    add_members(scene.random, &mut rule, grain, stamp);
    scene.read_surely(&rule);
    scene.build(room_for(&rule));
    for _ in 0..6 {
        let symbols = vec![first_symbol(scene.random, &rule)];
        let word = prolonged(scene.random, &rule, Word { grain, symbols, stamps: vec![stamp] }, 3);
        scene.run_everywhere(&rule, &word);
    }
}

/// Brings edges to more members, by some that hold when all clocks have this age. The largest constant stays.
fn add_members(random: &mut Random, rule: &mut Rule, grain: u32, age: u32) {
    let before = rule.clone();
    for edge in &mut rule.edges {
        let (atoms, most) = (edge.atoms().len(), edge.most_atoms());
        let some = random.between(atoms, most);
        let wanted = random.pick(&[some, most]);
        while edge.atoms().len() < wanted {
            let member = held_member(random, &before, edge, grain, age);
            let any = random.below(edge.guard.len() + 1);
            edge.guard.insert(random.pick(&[0, any]), member);
        }
    }
}

/// An atom, or a group if the edge has room for one, that holds when all clocks have this age.
fn held_member(random: &mut Random, rule: &Rule, edge: &Edge, grain: u32, age: u32) -> Member {
    let room = edge.kind == GROUPED
        && edge.atoms().len() + HELD_GROUP_ATOMS <= edge.most_atoms()
        && group_count(&edge.guard) + HELD_GROUPS <= MOST_GROUPS;
    if room && random.chance(40) {
        return held_group(random, rule, grain, age);
    }
    Member::Atom(held_atom(random, rule, grain, age))
}

/// An atom that holds when all clocks have this age.
pub fn held_atom(random: &mut Random, rule: &Rule, grain: u32, age: u32) -> Atom {
    let mut tries = (0..6).map(|_| any_atom(random, rule, rule.top()));
    tries.find(|atom| holds(atom, &[age; 4], grain)).unwrap_or([0, AT_LEAST, 0])
}

/// Mostly the symbol of an edge that leaves an initial location.
fn first_symbol(random: &mut Random, rule: &Rule) -> u16 {
    let leaving = rule.edges.iter().filter(|edge| rule.initial.contains(&edge.source));
    let symbols: Vec<u16> = leaving.map(|edge| edge.symbol).collect();
    if symbols.is_empty() || random.chance(10) {
        return random.below(rule.symbols.into()) as u16;
    }
    random.pick(&symbols)
}
