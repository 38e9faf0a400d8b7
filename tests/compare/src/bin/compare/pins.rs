//! Resets that are pinned by an equality or from both sides.

use crate::edges::{Atom, Edge, Member, AT_LEAST, AT_MOST, EDGE_NUMBERS, EQUAL, GROUPED};
use crate::groups::held_group;
use crate::held::held_atom;
use crate::partners::wrong_side;
use crate::random::Random;
use crate::rules::{some_ends, Rule};
use crate::scene::{room_for, Scene};
use crate::scenes::some_rule;
use crate::words::{any_grain, prolonged};
use protocol::{Call, Room, What, Word};

/// Whether these members of an outermost level pin a reset: by an equality, or from both sides.
pub fn is_pinned(members: &[Member]) -> bool {
    has_equality(members) || !sides(members).is_empty()
}

fn has_equality(members: &[Member]) -> bool {
    members.iter().filter_map(Member::atom).any(|[_, relation, _]| relation == EQUAL)
}

/// The positions of each at-least and of its partner, an at-most on the same clock with the same constant.
pub fn sides(members: &[Member]) -> Vec<(usize, usize)> {
    let mut found = Vec::new();
    for (at_least, member) in members.iter().enumerate() {
        let Some([clock, AT_LEAST, constant]) = member.atom() else { continue };
        let partner = Member::Atom([clock, AT_MOST, constant]);
        let partners = members.iter().enumerate().filter(|(_, member)| **member == partner);
        found.extend(partners.map(|(at_most, _)| (at_least, at_most)));
    }
    found
}

/// How resets are pinned from both sides.
pub struct Sides {
    /// Whether the at-most comes before the at-least.
    pub at_most_first: bool,
    /// Whether other members stand between the two.
    pub apart: bool,
}

/// How the edge's resets are pinned from both sides; nothing if they are not, or if an equality pins them too.
pub fn from_both_sides(edge: &Edge) -> Option<Sides> {
    let sides = sides(&edge.guard);
    let only_so = edge.mask != 0 && !sides.is_empty() && !has_equality(&edge.guard);
    only_so.then(|| Sides {
        at_most_first: sides.iter().all(|(at_least, at_most)| at_most < at_least),
        apart: sides.iter().all(|&(at_least, at_most)| at_least.abs_diff(at_most) > 1),
    })
}

/// Pins a reset at this age of the clock, by an equality or from both sides, anywhere among the members.
pub fn pin(random: &mut Random, members: &mut Vec<Member>, clock: u16, constant: u16) {
    if random.chance(50) {
        put_anywhere(random, members, Member::Atom([clock, EQUAL, constant]));
    } else {
        pin_from_both_sides(random, members, clock, constant);
    }
}

fn pin_from_both_sides(random: &mut Random, members: &mut Vec<Member>, clock: u16, constant: u16) {
    put_anywhere(random, members, Member::Atom([clock, AT_LEAST, constant]));
    put_anywhere(random, members, Member::Atom([clock, AT_MOST, constant]));
}

pub fn put_anywhere(random: &mut Random, members: &mut Vec<Member>, member: Member) {
    let position = random.below(members.len() + 1);
    members.insert(position, member);
}

/// A rule with a reset that is pinned from both sides, read, built and run; then with a wrong partner, in the file and
/// in the edge table, and with the right one again.
pub fn both_sides(scene: &mut Scene) {
    let mut rule = some_rule(scene.random);
    let edge = pinned_edge(scene.random, &rule);
    let number = rule.put(scene.random, edge);
    let room = room_for(&rule);
    scene.read_surely(&rule);
    scene.add(Call::CheckRule);
    scene.write(&rule.file());
    scene.build(room);
    for _ in 0..3 {
        let word = word_at_pin(scene.random, &rule, &rule.edges[number]);
        scene.run_everywhere(&rule, &word);
        scene.decide(rule.file(), room, word);
    }
    scene.add(Call::Save);
    for _ in 0..4 {
        with_wrong_partner(scene, &rule, number, room);
    }
}

/// An edge of either kind with resets that are pinned from both sides, often from an initial location and to a final
/// one. Its other members hold when all clocks have the age of the pin.
fn pinned_edge(random: &mut Random, rule: &Rule) -> Edge {
    let clock = random.below(rule.clocks.into()) as u16;
    let constant = random.between(0, rule.top().max(2).into()) as u16;
    let (others, grouped) = (random.pick(&[0, 1, 2, 3, 6]), random.chance(50));
    let mut guard: Vec<Member> =
        (0..others).map(|_| Member::Atom(other_atom(random, rule, constant))).collect();
    for _ in 0..if grouped { random.below(3) } else { 0 } {
        let group = held_group(random, rule, 1, constant.into());
        put_anywhere(random, &mut guard, group);
    }
    pin_from_both_sides(random, &mut guard, clock, constant);
    let mut edge = some_ends(random, rule, guard);
    edge.kind = if grouped { GROUPED } else { edge.kind };
    edge.mask = random.between(1, (1 << rule.clocks) - 1) as u16;
    for (end, likely) in [(&mut edge.source, &rule.initial), (&mut edge.target, &rule.finals)] {
        if !likely.is_empty() && random.chance(60) {
            *end = random.pick(likely);
        }
    }
    edge
}

/// An atom that is no equality and holds when all clocks have this age, in seconds.
fn other_atom(random: &mut Random, rule: &Rule, age: u16) -> Atom {
    let [clock, relation, constant] = held_atom(random, rule, 1, age.into());
    let side = random.pick(&[AT_LEAST, AT_MOST]);
    [clock, if relation == EQUAL { side } else { relation }, constant]
}

/// A word whose first event has the edge's symbol and comes at the pin, or beside it.
fn word_at_pin(random: &mut Random, rule: &Rule, edge: &Edge) -> Word {
    let (at_least, _) = random.pick(&sides(&edge.guard));
    let [_, _, constant] = edge.guard[at_least].atom().unwrap_or_default();
    let grain = any_grain(random);
    let stamp = u32::from(constant) * grain;
    let stamps = vec![random.pick(&[stamp, stamp, stamp + 1, stamp.saturating_sub(1)])];
    prolonged(random, rule, Word { grain, symbols: vec![edge.symbol], stamps }, 5)
}

/// Makes one side of the pinned edge wrong: the file is read and decided over; then the edge table is changed, run over
/// and put right again.
fn with_wrong_partner(scene: &mut Scene, rule: &Rule, number: usize, room: Room) {
    let mut wrong = rule.clone();
    let edge = &rule.edges[number];
    let (position, atom, place) = wrong_side(scene.random, rule.clocks, &edge.guard);
    wrong.edges[number].guard[position] = Member::Atom(atom);
    let word = scene.any_word(&wrong, 3);
    scene.read(wrong.file());
    scene.decide(wrong.file(), room, word.clone());
    scene.add(Call::Restore);
    let index = EDGE_NUMBERS * number + edge.outer_place(position) + place;
    let right = edge.places()[edge.outer_place(position) + place];
    scene.add(Call::Poke { what: What::Edges, index, value: atom[place].into() });
    scene.add(Call::CheckRule);
    scene.write(&wrong.file());
    scene.build(room);
    scene.exact(&wrong, word.clone());
    scene.branch(&wrong, &word);
    scene.add(Call::Poke { what: What::Edges, index, value: right.into() });
    scene.add(Call::CheckRule);
    scene.exact(rule, word);
}
