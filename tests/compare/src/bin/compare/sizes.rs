//! A rule of every size: of all L, K and cm with N at most 65,536.

use crate::climb::climb;
use crate::edges::{Edge, MOST_CONSTANT};
use crate::groups::regrouped;
use crate::random::Random;
use crate::rules::{any_edge, code_count, some_locations, Rule};
use crate::scene::{needs_in, Scene};
use alderskein::ROW_NUMBERS;
use protocol::{Call, Room};
use std::collections::BTreeSet;

/// The scene's name.
pub const EVERY_SIZE: &str = "every size";
/// The most locations, clocks and codes of a rule.
const MOST_LOCATIONS: u16 = 32;
const MOST_CLOCKS: u16 = 4;
pub const MOST_CODES: usize = 65_536;
/// How many sizes a scene takes, and how far apart they lie in their order: each scene has some of all K. The distance
/// has no divisor in common with the count of sizes, so that each gets its turn.
const IN_A_SCENE: usize = 57;
const APART: usize = 1_009;
/// The most rows and codes of a table, so that it is built soon.
const FEW_ROWS: usize = 40;
const FEW_CODES: usize = 300;
/// The most rules that are drawn until one is built soon; mostly it is the first.
const MOST_TRIES: usize = 100;

/// L, K and cm.
#[derive(Clone, Copy, PartialEq, Eq, PartialOrd, Ord)]
pub struct Size {
    pub locations: u16,
    pub clocks: u16,
    pub top: u16,
}

impl Size {
    /// N.
    pub fn code_count(self) -> usize {
        code_count(self.locations, self.clocks, self.top)
    }

    /// The sizes with one location more and with cm one more, where that is in range.
    pub fn next(self) -> [Option<Size>; 2] {
        let [more_locations, higher_top] = [self.locations + 1, self.top + 1];
        let wider = (more_locations <= MOST_LOCATIONS).then_some(Size { locations: more_locations, ..self });
        [wider, (higher_top <= MOST_CONSTANT).then_some(Size { top: higher_top, ..self })]
    }
}

/// Every size with N at most 65,536, by K, L and cm.
pub fn all_sizes() -> impl Iterator<Item = Size> {
    let shapes = (1..=MOST_CLOCKS).flat_map(|clocks| (1..=MOST_LOCATIONS).map(move |count| (count, clocks)));
    let sizes = shapes
        .flat_map(|(locations, clocks)| (0..=MOST_CONSTANT).map(move |top| Size { locations, clocks, top }));
    sizes.filter(|size| size.code_count() <= MOST_CODES)
}

/// The sizes whose turn it is; after all of them the first again.
pub fn every_size(scene: &mut Scene) {
    let sizes: Vec<Size> = all_sizes().collect();
    let first = scene.turn as usize * IN_A_SCENE;
    for place in first..first + IN_A_SCENE {
        one_size(scene, sizes[APART * place % sizes.len()]);
    }
}

/// A rule of this size, read and built, now and then in too little room too; and its file with one location more and
/// with cm one more, where N is over 65,536 then.
fn one_size(scene: &mut Scene, size: Size) {
    let (rule, exact) = built_soon(scene.random, size);
    scene.read_surely(&rule);
    if scene.random.chance(25) {
        let room = scene.less(exact);
        scene.build(room);
    }
    let room = scene.more(exact);
    scene.build(room);
    scene.add(Call::CheckTable);
    if scene.random.chance(5) {
        let word = scene.word(&rule, 6);
        scene.run_everywhere(&rule, &word);
        scene.decide(rule.file(), exact, word);
    }
    for larger in size.next().into_iter().flatten().filter(|larger| larger.code_count() > MOST_CODES) {
        scene.read_surely(&enlarged(&rule, larger));
    }
}

/// The rule with so many locations, and with this cm in place of its own.
fn enlarged(rule: &Rule, size: Size) -> Rule {
    let (mut larger, top) = (Rule { locations: size.locations, ..rule.clone() }, rule.top());
    for edge in &mut larger.edges {
        edge.for_each_atom(|[_, _, constant]| {
            *constant = if *constant == top { size.top } else { *constant }
        });
    }
    larger
}

/// A rule of this size that is built soon, and the room that its table needs. If the reference builds none, which the
/// comparison then shows, any rule and room for few rows.
pub fn built_soon(random: &mut Random, size: Size) -> (Rule, Room) {
    let mut rule = sized_rule(random, size);
    for _ in 0..MOST_TRIES {
        if let Some(needs) = needs_in(&rule, few_rows(&rule)) {
            return (rule, needs.room);
        }
        rule = sized_rule(random, size);
    }
    let room = few_rows(&rule);
    (rule, room)
}

fn few_rows(rule: &Rule) -> Room {
    let cells = FEW_ROWS * usize::from(rule.symbols) * rule.intervals();
    Room { scratch: rule.scratch(), cells, rows: FEW_ROWS * ROW_NUMBERS, pool: FEW_CODES }
}

/// A rule of this size: edges up to the highest code, and some others.
fn sized_rule(random: &mut Random, size: Size) -> Rule {
    let Size { locations, clocks, top } = size;
    let symbols = random.between(1, 2) as u16;
    let mut rule =
        Rule { locations, symbols, clocks, initial: vec![], finals: vec![], ceiling: None, edges: vec![] };
    rule.finals = some_locations(random, locations);
    rule.edges = climb(random, &rule, top);
    rule.initial = initial_with(random, locations, rule.edges[0].source);
    for _ in 0..random.between(0, 3) {
        let place = random.below(rule.edges.len());
        let source = rule.edges[place].source;
        rule.edges.insert(place, Edge { source, ..any_edge(random, &rule, top) });
    }
    for edge in &mut rule.edges {
        *edge = if random.chance(30) { regrouped(random, edge) } else { edge.clone() };
    }
    rule.sort_kinds();
    rule
}

/// This location alone, or now and then another one too.
fn initial_with(random: &mut Random, locations: u16, location: u16) -> Vec<u16> {
    let any = random.below(locations.into()) as u16;
    let other = random.pick(&[location, location, location, any, locations - 1]);
    BTreeSet::from([location, other]).into_iter().collect()
}
