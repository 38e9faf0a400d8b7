//! Rules at their limits, and one past them.

use crate::edges::{
    Edge, Member, EQUAL, GREATER, GROUPED, MOST_ATOMS, MOST_CONSTANT, MOST_EDGES, PLAIN, RELATIONS,
};
use crate::group_damage::about_limits;
use crate::groups::{any_guard, grouped_edge, regrouped, Amount, MOST};
use crate::random::Random;
use crate::rules::{any_atom, any_edge, any_edges, largest_top, record, record_of, some_ends, Rule, CEILING};
use crate::scene::Scene;
use alderskein::{BUILD_SCRATCH, ROW_TABLE};
use protocol::{Call, Room, Word};

/// Room for some rows of any rule, so that a build ends soon.
const FEW_ROWS: Room = Room { scratch: BUILD_SCRATCH, cells: 3_000, rows: 36, pool: 300 };

/// The bytes of a file that the listing program reads, and of a record that passes them behind the longest file.
const LISTED_BYTES: usize = 49_152;
const PASSING: usize = 6_000;

/// Files at a limit, read, written and decided over.
pub fn at_limit(scene: &mut Scene) {
    for _ in 0..4 {
        let file = limit_file(scene.random);
        scene.read(file.clone());
        scene.add(Call::CheckRule);
        scene.write(&file);
        if file.len() > LISTED_BYTES || scene.random.chance(5) {
            scene.add(Call::List { file: file.clone() });
        }
        let word = Word { grain: 2, symbols: vec![0, 0], stamps: vec![2, 4] };
        scene.exact(&empty_rule(1, 1, 1), word.clone());
        scene.decide(file, FEW_ROWS, word);
    }
}

fn limit_file(random: &mut Random) -> Vec<u8> {
    match random.below(15) {
        0 => sizes(random),
        1..=3 => codes(random),
        4..=6 => edge_count(random),
        7 => longest(random),
        8 => location_sets(random),
        9 | 10 => ceilings(random),
        11 | 12 => groups(random),
        _ => one_edge(random),
    }
}

fn empty_rule(locations: u16, symbols: u16, clocks: u16) -> Rule {
    Rule { locations, symbols, clocks, initial: vec![0], finals: vec![0], ceiling: None, edges: vec![] }
}

/// L, S and K about their limits.
fn sizes(random: &mut Random) -> Vec<u8> {
    let about = |random: &mut Random, limit| random.pick(&[0, 1, limit - 1, limit, limit, limit, limit + 1]);
    let (locations, symbols, clocks) = (about(random, 32), about(random, 16), about(random, 4));
    let front = record(1, &[locations, symbols, clocks]);
    [front, record(2, &[0]), record(3, &[locations.saturating_sub(1)])].concat()
}

/// N at 65,536, below and above, by an atom; a ceiling does not count.
fn codes(random: &mut Random) -> Vec<u8> {
    let clocks = random.between(1, 4) as u16;
    let locations = random.pick(&[1, 2, 3, 15, 16, 17, 31, 32]);
    let top = (largest_top(locations, clocks) + random.below(2) as u16).min(31);
    let mut rule = empty_rule(locations, 1, clocks);
    rule.ceiling = random.chance(50).then(|| random.pick(&[0, 15, MOST_CONSTANT]));
    let edge = Edge::plain(0, 0, 0, &[[clocks - 1, EQUAL, top]]);
    rule.edges = vec![if random.chance(70) { regrouped(random, &edge) } else { edge }];
    rule.file()
}

/// One ceiling or two, in their place or not, about their limit; if they counted, N would mostly be over 65,536.
fn ceilings(random: &mut Random) -> Vec<u8> {
    let (locations, clocks) = random.pick(&[(17, 3), (3, 3), (32, 3), (1, 4), (32, 4), (32, 2)]);
    let mut rule = empty_rule(locations, 1, clocks);
    rule.edges = vec![any_edge(random, &rule, 1)];
    let mut records = rule.records();
    let in_order = records.len() - rule.edges.len();
    for _ in 0..random.pick(&[1, 1, 2]) {
        let any = random.below(records.len() + 1);
        let ceiling = random.pick(&[0, 15, MOST_CONSTANT, MOST_CONSTANT, MOST_CONSTANT + 1]);
        records.insert(random.pick(&[in_order, in_order, in_order, any]), record(CEILING, &[ceiling]));
    }
    records.concat()
}

/// 255 to 257 edges of either kind or both, the last one sometimes with a fault of its own.
fn edge_count(random: &mut Random) -> Vec<u8> {
    let mut rule = empty_rule(3, 2, 2);
    let count = random.pick(&[MOST_EDGES - 1, MOST_EDGES, MOST_EDGES, MOST_EDGES + 1, MOST_EDGES + 1]);
    rule.edges = any_edges(random, &rule, 2, count - 1);
    let last = if random.chance(60) { grouped_edge(random, &rule, 2) } else { any_edge(random, &rule, 2) };
    rule.edges.push(last);
    let mut records = rule.records();
    if random.chance(25) {
        let (last, kind) = (records.len() - 1, random.pick(&[CEILING, PLAIN, GROUPED, GROUPED + 1]));
        records[last] = record(kind, &[9; 4][..random.pick(&[1, 3, 4, 4])]);
    }
    records.concat()
}

/// As long as a legal file can be, with grouped edges or with plain ones alone, or longer.
fn longest(random: &mut Random) -> Vec<u8> {
    let all: Vec<u16> = (0..32).collect();
    let mut rule = empty_rule(32, 16, 2);
    (rule.initial, rule.finals, rule.ceiling) = (all.clone(), all, Some(MOST_CONSTANT));
    let edge = if random.chance(70) { longest_grouped(random, &rule) } else { longest_plain(random) };
    rule.edges = vec![edge; MOST_EDGES];
    let mut file = rule.file();
    file.extend(vec![0; random.pick(&[0, 0, 0, 700])]);
    if random.chance(20) {
        file.extend(record_of(GROUPED, &[0; PASSING]));
    }
    file
}

fn longest_plain(random: &mut Random) -> Edge {
    let atoms = [[1, GREATER, MOST_CONSTANT]].repeat(random.pick(&[MOST_ATOMS, MOST_ATOMS, MOST_ATOMS + 1]));
    Edge::plain(31, 31, 15, &atoms)
}

fn longest_grouped(random: &mut Random, rule: &Rule) -> Edge {
    let amount = random.pick(&[MOST, MOST, MOST, Amount { groups: MOST.groups + 1, ..MOST }]);
    let guard = any_guard(random, amount, |random| any_atom(random, rule, MOST_CONSTANT));
    Edge { kind: GROUPED, guard, ..Edge::plain(31, 31, 15, &[]) }
}

/// Some edges with as many groups, atoms or levels as can be, one less or one more.
fn groups(random: &mut Random) -> Vec<u8> {
    let mut rule = empty_rule(random.between(1, 3) as u16, 1, random.between(1, 2) as u16);
    for _ in 0..random.pick(&[1, 1, 2, 3]) {
        let edge = grouped_edge(random, &rule, 2);
        rule.edges.push(about_limits(random, &rule, &edge));
    }
    rule.file()
}

/// Sets of locations that rise, stay or fall, up to the last location or past it.
fn location_sets(random: &mut Random) -> Vec<u8> {
    let locations = random.pick(&[1, 2, 31, 32]);
    let mut rule = empty_rule(locations, 1, 1);
    for set in [&mut rule.initial, &mut rule.finals] {
        *set = (0..random.below(4)).map(|_| random.pick(&[0, 1, locations - 1, locations])).collect();
        if random.chance(60) {
            set.sort_unstable();
            set.dedup();
        }
    }
    rule.file()
}

/// One edge of either kind with every number at its limit, and at most two of them past it.
fn one_edge(random: &mut Random) -> Vec<u8> {
    let (locations, symbols, clocks) = (random.between(1, 4) as u16, 3, random.between(1, 3) as u16);
    let mut edge = Edge::plain(locations - 1, locations - 1, symbols - 1, &[]);
    edge.mask = (1 << clocks) - 1;
    for _ in 0..random.pick(&[1, 2, MOST_ATOMS - 1, MOST_ATOMS, MOST_ATOMS + 1]) {
        let relation = if random.chance(5) { RELATIONS } else { random.below(RELATIONS) } as u16;
        edge.guard.push(Member::Atom([clocks - 1, relation, random.pick(&[0, 14, MOST_CONSTANT])]));
    }
    edge = if random.chance(50) { regrouped(random, &edge) } else { edge };
    let mut numbers = edge.numbers();
    for _ in 0..random.below(3) {
        let place = random.below(numbers.len());
        numbers[place] += 1;
    }
    let ceiling = random.pick(&[0, 14, MOST_CONSTANT, MOST_CONSTANT + 1]);
    let front = [record(1, &[locations, symbols, clocks]), record(CEILING, &[ceiling])].concat();
    [front, record(edge.kind, &numbers)].concat()
}

/// Rules with N = 65,536, built.
pub fn largest(scene: &mut Scene) {
    let (locations, clocks) = scene.random.pick(&[(16, 3), (16, 3), (2, 3), (1, 4), (16, 4)]);
    let mut rule = empty_rule(locations, 2, clocks);
    rule.finals = vec![locations - 1];
    let constant = scene.random.between(1, 5) as u16;
    let count = scene.random.between(3, 10 + usize::from(locations));
    rule.edges = any_edges(scene.random, &rule, constant, count);
    rule.edges.push(edge_for_top(scene.random, &rule));
    rule.sort_kinds();
    scene.read_surely(&rule);
    let scratch = BUILD_SCRATCH - scene.random.pick(&[0, 0, 0, 0, 0, 1]);
    let cells = 150 * 2 * rule.intervals() + scene.random.below(40);
    let rows = scene.random.pick(&[450, 240]);
    scene.build(Room { scratch, cells, rows, pool: 6_000 });
    scene.add(Call::CheckTable);
    for _ in 0..2 {
        let word = scene.word(&rule, 10);
        scene.run_everywhere(&rule, &word);
    }
}

/// An edge with one atom, by whose constant cm is as large as it can be.
fn edge_for_top(random: &mut Random, rule: &Rule) -> Edge {
    let [clock, relation, _] = any_atom(random, rule, 0);
    let atom = Member::Atom([clock, relation, largest_top(rule.locations, rule.clocks)]);
    let edge = some_ends(random, rule, vec![atom]);
    if random.chance(50) {
        regrouped(random, &edge)
    } else {
        edge
    }
}

/// Rules with a row for each set of the last symbols: 4,096 of them, and twice as many.
pub fn many_rows(scene: &mut Scene) {
    let rule = back_in_the_word(12);
    scene.read_surely(&rule);
    let exact = Room { scratch: rule.scratch(), cells: 16_384, rows: ROW_TABLE, pool: 28_672 };
    scene.build(exact);
    scene.add(Call::CheckTable);
    let word = scene.word(&rule, 30);
    scene.run_everywhere(&rule, &word);
    scene.build(Room { rows: ROW_TABLE - 1, ..exact });
    let rule = back_in_the_word(13);
    scene.read_surely(&rule);
    scene.build(Room { scratch: rule.scratch(), cells: 40_000, rows: 30_000, pool: 200_000 });
}

/// Accepts the words whose symbol so far back from the end is 1.
fn back_in_the_word(back: u16) -> Rule {
    let mut rule = empty_rule(back + 1, 2, 1);
    rule.finals = vec![back];
    let edge = |source, target, symbol| Edge::plain(source, target, symbol, &[]);
    rule.edges = vec![edge(0, 0, 0), edge(0, 0, 1), edge(0, 1, 1)];
    for location in 1..back {
        rule.edges.extend([0, 1].map(|symbol| edge(location, location + 1, symbol)));
    }
    rule
}
