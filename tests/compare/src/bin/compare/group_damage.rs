//! Rule files with faults in their groups.

use crate::edges::{
    Edge, Member, ATOM_NUMBERS, EDGE_FRONT, EQUAL, GROUPED, MOST_CONSTANT, MOST_GROUPED_ATOMS, MOST_GROUPS,
    MOST_LEVELS, RELATIONS, TEXT_NUMBERS,
};
use crate::groups::{any_guard, grow, nested, Amount, MOST};
use crate::pins::{put_anywhere, sides};
use crate::random::Random;
use crate::rules::{any_atom, plain_edge, record, record_of, Rule};
use crate::texts::{group_count, marks_in, ALL_OF, ANY_OF, ATOM, CLOSE};

/// The least and the most bytes of a grouped edge's body.
pub const LEAST_BODY: usize = 2 * EDGE_FRONT;
pub const MOST_BODY: usize = LEAST_BODY + 2 * TEXT_NUMBERS;

/// The file of a rule, which has a grouped edge, with a fault in one of these.
pub fn damaged_groups(random: &mut Random, rule: &Rule) -> Vec<u8> {
    let grouped: Vec<usize> =
        (0..rule.edges.len()).filter(|&number| rule.edges[number].kind == GROUPED).collect();
    let number = random.pick(&grouped);
    let edge = &rule.edges[number];
    if random.chance(10) {
        return out_of_order(random, rule, edge);
    }
    let damaged = match random.below(14) {
        0 | 1 => resized(random, rule, edge),
        2 | 3 => pinned_inside(random, rule, edge).record(),
        4..=6 => out_of_range(random, rule, edge),
        7..=9 => about_limits(random, rule, edge).record(),
        _ => {
            let front = &edge.numbers()[..EDGE_FRONT];
            record(GROUPED, &[front, &damaged_text(random, edge.text())].concat())
        }
    };
    let mut records = rule.records();
    let first = records.len() - rule.edges.len();
    records[first + number] = damaged;
    records.concat()
}

/// The file with a grouped edge before a plain one.
fn out_of_order(random: &mut Random, rule: &Rule, edge: &Edge) -> Vec<u8> {
    let mut other = rule.clone();
    let plain = plain_edge(random, rule, rule.top());
    let number = other.put(random, plain);
    other.edges.insert(number, edge.clone());
    other.file()
}

/// A text with a fault, which it may have had before.
fn damaged_text(random: &mut Random, mut text: Vec<u16>) -> Vec<u16> {
    let marks = [marks_in(&text), vec![text.len()]].concat();
    let place = random.pick(&marks);
    match random.below(8) {
        0 | 1 => {
            let mark = random.pick(&[0, ALL_OF, ANY_OF, ATOM, CLOSE, CLOSE + 1, 255, 256, 65_535]);
            text.splice(place..text.len().min(place + 1), [mark]);
        }
        2 => text.truncate(random.below(text.len() + 1)),
        3 => text.insert(place, random.pick(&[CLOSE, CLOSE, ALL_OF, ANY_OF, ATOM])),
        4 => drop(text.splice(place..text.len().min(place + 1), [])),
        5 | 6 => turn_mark(random, &mut text),
        _ if text.is_empty() => text.push(CLOSE),
        _ => drop(text.remove(random.below(text.len()))),
    }
    text
}

/// Makes an all-of group of an any-of group or the other way round, or takes a closing mark away.
fn turn_mark(random: &mut Random, text: &mut Vec<u16>) {
    let turned: Vec<usize> = marks_in(text).into_iter().filter(|&place| text[place] != ATOM).collect();
    if turned.is_empty() {
        return text.insert(0, ALL_OF);
    }
    let place = random.pick(&turned);
    match text[place] {
        ALL_OF => text[place] = ANY_OF,
        ANY_OF => text[place] = ALL_OF,
        _ => drop(text.remove(place)),
    }
}

/// The edge's record with its body cut or lengthened, about the lengths that it may have; or with as long a text as can
/// be, which is legal, and some bytes more or less.
fn resized(random: &mut Random, rule: &Rule, edge: &Edge) -> Vec<u8> {
    let longest = Edge { mask: 0, guard: about_most(random, rule, MOST), ..edge.clone() };
    let (edge, length) = match random.below(2) {
        0 => (edge.clone(), random.pick(&[0, 2, 6, 6, 7, 7, 8, 9, 10, 12])),
        _ => (longest, MOST_BODY + random.pick(&[0, 0, 1, 2, 3, 300]) - random.pick(&[0, 0, 1, 2])),
    };
    let mut body: Vec<u8> = edge.numbers().iter().flat_map(|number| number.to_le_bytes()).collect();
    body.resize(length, random.pick(&[0, ATOM as u8]));
    record_of(GROUPED, &body)
}

fn about_most(random: &mut Random, rule: &Rule, amount: Amount) -> Vec<Member> {
    any_guard(random, amount, |random| any_atom(random, rule, rule.top()))
}

/// The edge with as many groups, atoms or levels as can be, one less or one more.
pub fn about_limits(random: &mut Random, rule: &Rule, edge: &Edge) -> Edge {
    let about = |random: &mut Random, limit| random.pick(&[limit - 1, limit, limit, limit, limit + 1]);
    let levels = about(random, MOST_LEVELS);
    let any = Amount {
        groups: random.between(levels - 1, MOST_GROUPS),
        atoms: random.between(0, MOST_GROUPED_ATOMS),
    };
    let [groups, atoms] = [about(random, MOST_GROUPS), about(random, MOST_GROUPED_ATOMS)];
    let amount = match random.below(4) {
        0 => Amount { groups, ..any },
        1 => Amount { atoms, ..any },
        2 => any,
        _ => Amount { groups, atoms },
    };
    let mut guard = nested(levels);
    let more = Amount { groups: amount.groups + 1 - levels, ..amount };
    grow(random, &mut guard, more, |random| any_atom(random, rule, rule.top()));
    Edge { mask: 0, guard, ..edge.clone() }
}

/// The edge with an atom out of range by its clock, its relation or its constant, in some group or in none.
fn out_of_range(random: &mut Random, rule: &Rule, edge: &Edge) -> Vec<u8> {
    let mut edge = edge.clone();
    let (number, count) = (random.below(ATOM_NUMBERS), edge.atoms().len());
    let limit = [rule.clocks, RELATIONS as u16, MOST_CONSTANT + 1][number];
    let value = random.pick(&[limit, limit, limit + 1, 65_535]);
    let (at, mut place) = (random.below(count.max(1)), 0);
    edge.for_each_atom(|atom| {
        atom[number] = if place == at { value } else { atom[number] };
        place += 1;
    });
    edge.record()
}

/// The edge with resets whose pin, or one side of it, stands inside a group; now and then an atom is out of range too.
fn pinned_inside(random: &mut Random, rule: &Rule, edge: &Edge) -> Edge {
    let mut edge = edge.clone();
    edge.mask = random.between(1, (1 << rule.clocks) - 1) as u16;
    for (at_least, at_most) in sides(&edge.guard) {
        wrap(&mut edge.guard, random.pick(&[at_least, at_most]));
    }
    for position in 0..edge.guard.len() {
        if matches!(edge.guard[position], Member::Atom([_, EQUAL, _])) {
            wrap(&mut edge.guard, position);
        }
    }
    if group_count(&edge.guard) == 0 {
        let [clock, _, constant] = any_atom(random, rule, rule.top());
        put_anywhere(random, &mut edge.guard, Member::Group(vec![Member::Atom([clock, EQUAL, constant])]));
    }
    if random.chance(20) {
        put_anywhere(random, &mut edge.guard, Member::Atom([0, RELATIONS as u16, 0]));
    }
    edge
}

/// Puts an atom into a group of its own.
fn wrap(members: &mut [Member], position: usize) {
    if members[position].atom().is_some() {
        members[position] = Member::Group(vec![members[position].clone()]);
    }
}
