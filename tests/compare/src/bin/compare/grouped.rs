//! Rules with groups: whole, damaged in the file, changed in the edge table.

use crate::edges::{
    Edge, Member, AT_MOST, COUNT, EDGE_NUMBERS, EDGE_TABLE, GROUPED, KIND, MOST_ATOMS, MOST_GROUPED_ATOMS,
    PLAIN, TEXT, TEXT_NUMBERS,
};
use crate::group_damage::damaged_groups;
use crate::groups::grouped_edge;
use crate::pins::put_anywhere;
use crate::random::Random;
use crate::rules::{plain_edge, Rule};
use crate::scene::{room_for, Scene, LISTING};
use crate::scenes::some_rule;
use crate::texts::{marks_in, CLOSE};
use crate::words::pointed_word;
use alderskein::BUILD_SCRATCH;
use protocol::{Call, Room, What, Word};

/// The most groups of a level that hold without an atom, each an empty all-of in an any-of, beside one that fails.
const HOLDING_GROUPS: usize = 3;

/// A rule, some of whose edges are grouped, read or put in by hand, written and built, and run at its constants.
pub fn whole_rule(scene: &mut Scene) {
    if scene.random.chance(25) {
        return full_level(scene);
    }
    let rule = grouped_rule(scene.random);
    let room = room_for(&rule);
    take(scene, &rule);
    scene.add(Call::CheckRule);
    scene.write(&rule.file());
    scene.build(room);
    for _ in 0..8 {
        let word = pointed_word(scene.random, &rule, 8);
        scene.run_everywhere(&rule, &word);
    }
    let word = pointed_word(scene.random, &rule, 8);
    scene.decide(rule.file(), room, word);
    scene.add(Call::List { file: rule.file() });
}

/// A rule with a grouped edge at least.
fn grouped_rule(random: &mut Random) -> Rule {
    let mut rule = some_rule(random);
    let constant = rule.top().max(random.between(0, 3) as u16);
    rule.edges.retain(|_| random.chance(50));
    for _ in 0..random.between(1, 8) {
        let edge = grouped_edge(random, &rule, constant);
        rule.put(random, edge);
    }
    rule
}

/// Reads the rule, or puts its head record and its edges in by hand.
fn take(scene: &mut Scene, rule: &Rule) {
    if scene.random.chance(70) {
        scene.read_surely(rule);
    } else {
        put(scene, rule);
    }
}

/// Puts the head record and the edges in by hand.
fn put(scene: &mut Scene, rule: &Rule) {
    let set = |locations: &[u16]| locations.iter().fold(0, |set, location| set | 1 << location);
    let sizes = [rule.locations, rule.symbols, rule.clocks].map(u32::from);
    let head = [sizes.as_slice(), &[set(&rule.initial), set(&rule.finals), rule.edges.len() as u32]].concat();
    for (index, value) in head.into_iter().enumerate() {
        scene.add(Call::Poke { what: What::Head, index, value });
    }
    for length in [0, EDGE_TABLE] {
        scene.add(Call::Resize { what: What::Edges, length, fill: 0 });
    }
    let numbers = rule.edges.iter().flat_map(Edge::places).enumerate();
    for (index, value) in numbers.filter(|(_, value)| *value != 0) {
        scene.add(Call::Poke { what: What::Edges, index, value: value.into() });
    }
}

/// One edge whose outermost level has as many members as can hold, and then one that fails: a group without members, or
/// an atom. The word is held back there, or nearly.
fn full_level(scene: &mut Scene) {
    let random = &mut *scene.random;
    let constant = random.between(0, 3) as u16;
    let atoms = MOST_GROUPED_ATOMS - random.pick(&[0, 0, 0, 1]);
    let mut guard = vec![Member::Atom([0, AT_MOST, constant]); atoms];
    for _ in 0..random.pick(&[0, 0, HOLDING_GROUPS - 1, HOLDING_GROUPS, HOLDING_GROUPS, HOLDING_GROUPS]) {
        put_anywhere(random, &mut guard, Member::Group(vec![Member::Group(vec![])]));
    }
    let place = random.pick(&[0, guard.len(), guard.len(), guard.len()]);
    guard.insert(place, Member::Group(vec![]));
    let edge = Edge { kind: GROUPED, guard, ..Edge::plain(0, 1, 0, &[]) };
    let (initial, finals) = (vec![0], vec![1]);
    let rule =
        Rule { locations: 2, symbols: 1, clocks: 1, initial, finals, ceiling: None, edges: vec![edge] };
    take(scene, &rule);
    scene.build(room_for(&rule));
    for stamp in [constant.into(), u32::from(constant) + 1] {
        scene.run_everywhere(&rule, &Word { grain: 1, symbols: vec![0], stamps: vec![stamp] });
    }
}

/// Files with faults in their groups.
pub fn damaged(scene: &mut Scene) {
    for _ in 0..8 {
        let rule = grouped_rule(scene.random);
        let file = damaged_groups(scene.random, &rule);
        scene.read(file.clone());
        scene.add(Call::CheckRule);
        scene.write(&file);
        if scene.random.chance(25) {
            let word = scene.any_word(&rule, 4);
            scene.decide(file.clone(), LISTING, word);
            scene.add(Call::List { file });
        }
    }
}

/// Rules whose edges are changed by hand, one number at a time or some; and with their kinds in the wrong order.
pub fn changed(scene: &mut Scene) {
    let mut rule = grouped_rule(scene.random);
    if scene.random.chance(60) {
        let edge = plain_edge(scene.random, &rule, rule.top());
        rule.put(scene.random, edge);
    }
    take(scene, &rule);
    scene.add(Call::Save);
    for _ in 0..6 {
        scene.add(Call::Restore);
        for _ in 0..scene.random.pick(&[1, 1, 1, 1, 2]) {
            change_edge(scene, &rule);
        }
        run_changed(scene, &rule);
    }
    let fallen = with_falling_kinds(scene.random, &rule);
    put(scene, &fallen);
    run_changed(scene, &fallen);
}

/// The state's rule, checked, written, built and run over a word that is short, so that no search is long.
fn run_changed(scene: &mut Scene, rule: &Rule) {
    scene.add(Call::CheckRule);
    scene.write(&rule.file());
    scene.build(Room { scratch: BUILD_SCRATCH, cells: 2_000, rows: 150, pool: 500 });
    let word = pointed_word(scene.random, rule, 3);
    scene.exact(rule, word.clone());
    scene.add(Call::Branch { word });
}

/// Puts another number into an edge: its kind, its count, a mark or another number of its text, one that is not in use,
/// or one before the text.
fn change_edge(scene: &mut Scene, rule: &Rule) {
    let random = &mut *scene.random;
    let number = random.below(rule.edges.len());
    let (places, text) = (rule.edges[number].places(), rule.edges[number].text());
    let (count, used) = (places[COUNT], TEXT + text.len());
    let marks = marks_in(&text);
    let other = if places[KIND] == PLAIN { GROUPED } else { PLAIN };
    let (place, value) = match random.below(10) {
        0 | 1 => (KIND, random.pick(&[0, PLAIN - 1, other, other, other, other, GROUPED + 1, 65_535])),
        2 | 3 => {
            let limits = [0, MOST_ATOMS as u16 + 1, TEXT_NUMBERS as u16, TEXT_NUMBERS as u16 + 1, 65_535];
            (COUNT, random.pick(&[limits.as_slice(), &[count.saturating_sub(1), count + 1]].concat()))
        }
        4 | 5 if !marks.is_empty() => {
            (TEXT + random.pick(&marks), random.below(usize::from(CLOSE) + 3) as u16)
        }
        6 if !text.is_empty() => (random.between(TEXT, used - 1), random.short_about(6)),
        7 if used < EDGE_NUMBERS => {
            (random.between(used, EDGE_NUMBERS - 1), random.pick(&[1, CLOSE, 65_535]))
        }
        8 if used < EDGE_NUMBERS => (random.pick(&[used, EDGE_NUMBERS - 1]), 1),
        _ => (random.between(KIND + 1, COUNT - 1), random.short_about(rule.locations)),
    };
    let index = EDGE_NUMBERS * number + place;
    scene.add(Call::Poke { what: What::Edges, index, value: value.into() });
}

/// The rule with a plain edge behind a grouped one.
fn with_falling_kinds(random: &mut Random, rule: &Rule) -> Rule {
    let mut fallen = rule.clone();
    let edge = plain_edge(random, rule, rule.top());
    let first = rule.edges.iter().position(|edge| edge.kind == GROUPED).unwrap_or(0);
    fallen.edges.insert(random.between(first + 1, rule.edges.len()), edge);
    fallen
}
