//! Resets pinned by an equality, and from both sides; 7 and 21 where they are not.

mod common;

use alderskein::{decide, LeastRun, Refusal, Room, Rule, Table, Word};
use common::{followed, record, refused, word, Events};

/// Clock, relation, constant.
type Atom = [u16; 3];

/// The clocks.
const X: u16 = 0;
const Y: u16 = 1;
/// The relations.
const LESS: u16 = 0;
const AT_MOST: u16 = 1;
const EQUAL: u16 = 2;
const AT_LEAST: u16 = 3;
const GREATER: u16 = 4;

/// Where the edge begins in a file with one edge, and its mask in the edge table.
const EDGE_AT: usize = 22;
const MASK: usize = 4;

const PINNED: [&[Atom]; 9] = [
    &[[X, EQUAL, 3]],
    &[[X, AT_LEAST, 3], [X, AT_MOST, 3]],
    &[[X, AT_MOST, 3], [X, AT_LEAST, 3]],
    &[[Y, AT_MOST, 0], [Y, AT_LEAST, 0]],
    &[[X, AT_LEAST, 30], [X, AT_MOST, 30]],
    &[[X, AT_MOST, 3], [Y, AT_MOST, 4], [X, AT_LEAST, 3]],
    &[[X, AT_LEAST, 3], [X, AT_MOST, 4], [Y, AT_MOST, 3], [X, LESS, 3], [X, AT_MOST, 3]],
    &[[X, AT_LEAST, 3], [X, AT_MOST, 4], [Y, AT_LEAST, 4], [Y, AT_MOST, 4]],
    &[[X, AT_LEAST, 3], [X, AT_MOST, 4], [Y, EQUAL, 1]],
];

const NOT_PINNED: [&[Atom]; 13] = [
    &[],
    &[[X, AT_LEAST, 3], [X, AT_MOST, 4]],
    &[[X, AT_MOST, 4], [X, AT_LEAST, 3]],
    &[[X, AT_LEAST, 4], [X, AT_MOST, 3]],
    &[[X, AT_LEAST, 3], [Y, AT_MOST, 3]],
    &[[X, AT_LEAST, 3], [Y, AT_MOST, 3], [X, AT_MOST, 4], [Y, AT_LEAST, 4]],
    &[[X, AT_LEAST, 3], [X, LESS, 3]],
    &[[X, GREATER, 3], [X, AT_MOST, 3]],
    &[[X, GREATER, 2], [X, LESS, 4]],
    &[[X, AT_MOST, 0]],
    &[[X, AT_MOST, 3], [X, AT_MOST, 3]],
    &[[X, AT_LEAST, 3]],
    &[[X, AT_LEAST, 3], [X, AT_LEAST, 3]],
];

/// A file with one location, initial and final, two clocks, and one edge with this mask and these atoms.
fn file(mask: u16, atoms: &[Atom]) -> Vec<u8> {
    let front = [record(1, &[1, 1, 2]), record(2, &[0]), record(3, &[0])].concat();
    let edge = [&[0, 0, 0, mask], atoms.as_flattened()].concat();
    [front, record(5, &edge)].concat()
}

/// The rule of a file with one edge and no resets, with this mask put into its edge table.
fn with_mask(mask: u16, atoms: &[Atom]) -> Result<Rule, Refusal> {
    let rule = Rule::read(&file(0, atoms)).unwrap();
    let mut edges = rule.edges().to_vec();
    edges[MASK] = mask;
    Rule::from_parts(rule.head(), edges)
}

#[test]
fn resets_that_are_pinned_are_accepted() {
    for atoms in PINNED {
        for mask in 0..4 {
            let rule = Rule::read(&file(mask, atoms)).unwrap();
            assert_eq!(rule.write(), Ok(file(mask, atoms)), "{atoms:?}");
            assert_eq!(with_mask(mask, atoms), Ok(rule), "{atoms:?}");
        }
    }
}

#[test]
fn resets_that_are_not_pinned_are_7_in_a_file_and_21_in_a_table() {
    for atoms in NOT_PINNED {
        for mask in 1..4 {
            assert_eq!(Rule::read(&file(mask, atoms)), refused(7, EDGE_AT), "{atoms:?}");
            assert_eq!(with_mask(mask, atoms), refused(21, 0), "{atoms:?}");
        }
        assert!(with_mask(0, atoms).is_ok(), "no reset, no pin: {atoms:?}");
    }
    let refusal = Rule::read(&file(1, &[])).unwrap_err();
    assert_eq!(refusal.to_string(), "no 7 22: resets that are not pinned");
}

#[test]
fn the_sides_stand_in_one_edge() {
    let at_most = record(5, &[0, 0, 0, 0, X, AT_MOST, 3]);
    let at_least = record(5, &[0, 0, 0, 1, X, AT_LEAST, 3]);
    let file = [record(1, &[1, 1, 1]), at_most, at_least].concat();
    assert_eq!(Rule::read(&file), refused(7, 28));
}

/// Two locations, two clocks: 0 to 1 at x = 1 and y at most 2 with x reset, or 0 to 0 at x = 1; 1 to 1 while x < 1; and
/// on symbol 1 back to 0 at y = 2 and x at least 1 with both reset. The first and the last edge have these atoms.
fn there_and_back(there: &[Atom], back: &[Atom]) -> Vec<u8> {
    let edge = |front: [u16; 4], atoms: &[Atom]| record(5, &[&front, atoms.as_flattened()].concat());
    let edges = [
        edge([0, 1, 0, 0b01], there),
        edge([0, 0, 0, 0], &[[X, EQUAL, 1]]),
        edge([1, 1, 0, 0], &[[X, LESS, 1]]),
        edge([1, 0, 1, 0b11], back),
    ];
    [record(1, &[2, 2, 2]), record(2, &[0]), record(3, &[1]), edges.concat()].concat()
}

/// Pinned by equalities, and from both sides.
fn both_forms() -> [Vec<u8>; 2] {
    let (y_at_most, x_at_least) = ([Y, AT_MOST, 2], [X, AT_LEAST, 1]);
    [
        there_and_back(&[[X, EQUAL, 1], y_at_most], &[[Y, EQUAL, 2], x_at_least]),
        there_and_back(
            &[[X, AT_MOST, 1], y_at_most, [X, AT_LEAST, 1]],
            &[[Y, AT_MOST, 2], x_at_least, [Y, AT_LEAST, 2]],
        ),
    ]
}

fn table(file: &[u8]) -> Table {
    Rule::read(file).unwrap().build(Room::LISTING).unwrap()
}

#[test]
fn the_table_is_that_of_the_rule_with_equalities() {
    let [equal, sides] = both_forms();
    assert_eq!(table(&sides), table(&equal));
    assert_eq!(table(&sides).to_string(), table(&equal).to_string());
    assert_eq!(table(&sides).row_count(), 4);
}

/// D, events and verdict: at whole seconds and beside them.
const WORDS: [(u32, Events, bool); 14] = [
    (2, &[], false),
    (2, &[(0, 1)], false),
    (2, &[(0, 2)], true),
    (2, &[(0, 3)], false),
    (2, &[(0, 2), (0, 3)], true),
    (2, &[(0, 2), (0, 4)], false),
    (2, &[(0, 2), (1, 3), (0, 5)], false),
    (2, &[(0, 2), (1, 4), (0, 6)], true),
    (2, &[(0, 2), (1, 4), (0, 5)], false),
    (2, &[(0, 2), (1, 5), (0, 7)], false),
    (1, &[(0, 1), (1, 2), (0, 3)], true),
    (1_000, &[(0, 999)], false),
    (1_000, &[(0, 1_000), (1, 2_000), (0, 3_000)], true),
    (1_000, &[(0, 1_000), (1, 2_001), (0, 3_001)], false),
];

/// What the exact runner, the search by branch, the table runner, the follower and `decide` say of a word.
fn verdicts(file: &[u8], word: &Word) -> [bool; 5] {
    let (rule, table) = (Rule::read(file).unwrap(), table(file));
    [
        rule.accepts(word, 4).unwrap(),
        matches!(rule.least_run(word).unwrap(), LeastRun::Found(_)),
        table.run(word).unwrap(),
        followed(&table, word),
        decide(file, Room::LISTING, word).unwrap(),
    ]
}

#[test]
fn every_runner_says_the_same_of_both_forms() {
    for (grain, events, verdict) in WORDS {
        for file in both_forms() {
            assert_eq!(verdicts(&file, &word(grain, events)), [verdict; 5], "{events:?}");
        }
    }
}

#[test]
fn either_side_can_hold_a_word_back() {
    let [_, sides] = both_forms();
    let held = |stamp| Rule::read(&sides).unwrap().least_run(&word(2, &[(0, stamp)])).unwrap();
    assert_eq!(held(1), LeastRun::NoRun { held: Some(2) }, "x is below 1: the at-least");
    assert_eq!(held(3), LeastRun::NoRun { held: Some(0) }, "x is above 1: the at-most");
}
