//! What held a rule back: the first failing member that the branch runner names.

mod common;

use common::{record, refusal, whole_case, PlainWord, Room};
use reference::{Branch, Head};

fn read(file: &[u8]) -> (Room, Head) {
    let mut room = Room::listing(3);
    let head = room.read(file).unwrap();
    (room, head)
}

/// Says that no run of the word accepts, and what held the rule back.
fn expect_held((room, head): &(Room, Head), grain: u32, events: &[(u16, u32)], held: Option<usize>) {
    let branch = room.branch(head, &PlainWord::new(grain, events));
    assert_eq!(branch, Ok(Branch { held, ..Branch::default() }), "{events:?}");
}

/// Says that some run of the word accepts, which names nothing.
fn expect_accepted((room, head): &(Room, Head), grain: u32, events: &[(u16, u32)]) {
    let branch = room.branch(head, &PlainWord::new(grain, events)).unwrap();
    assert_eq!((branch.found, branch.held), (true, None), "{events:?}");
}

#[test]
fn the_whole_case() {
    let rule = read(&whole_case());
    expect_held(&rule, 2, &[(0, 1)], Some(0));
    expect_held(&rule, 2, &[(1, 1)], None);
    expect_held(&rule, 2, &[(0, 2)], None);
    expect_held(&rule, 2, &[(0, 2), (1, 3)], None);
    expect_accepted(&rule, 2, &[]);
    expect_accepted(&rule, 2, &[(0, 2), (1, 4)]);
}

/// The whole case with these initial locations and none final.
fn whole_case_from(initial: &[u16]) -> (Room, Head) {
    let starts: Vec<u8> = initial.iter().flat_map(|&location| record(2, &[location])).collect();
    read(&[&whole_case()[..10], &starts, &whole_case()[22..]].concat())
}

#[test]
fn the_empty_word_is_held_by_nothing() {
    expect_held(&whole_case_from(&[0]), 2, &[], None);
    expect_held(&whole_case_from(&[]), 2, &[], None);
}

#[test]
fn without_an_initial_location_nothing_is_named() {
    expect_held(&whole_case_from(&[]), 2, &[(0, 1)], None);
}

#[test]
fn refused_words_name_nothing() {
    let (room, head) = read(&whole_case());
    let branch = |grain, events: &[(u16, u32)]| room.branch(&head, &PlainWord::new(grain, events));
    assert_eq!(branch(0, &[(0, 1)]), refusal(30, 0));
    assert_eq!(branch(2, &[(0, 1); 13]), refusal(31, 0));
    assert_eq!(branch(2, &[(0, 1), (2, 1)]), refusal(32, 2));
    assert_eq!(branch(2, &[(0, 1), (0, 0)]), refusal(33, 2));
}

/// Two locations, the first initial and the second final, one symbol, two clocks and these edges.
fn rule_of(edges: &[&[u16]]) -> (Room, Head) {
    let edges: Vec<u8> = edges.iter().flat_map(|edge| record(5, edge)).collect();
    read(&[record(1, &[2, 1, 2]), record(2, &[0]), record(3, &[1]), edges].concat())
}

#[test]
fn the_first_of_several_failing_atoms_is_named() {
    // At least 1, below 5, at most 3, above 2 and at least 1, of one clock or the other.
    let rule = rule_of(&[&[0, 1, 0, 0, 0, 3, 1, 1, 0, 5, 0, 1, 3, 1, 4, 2, 1, 3, 1]]);
    expect_held(&rule, 10, &[(0, 9)], Some(0));
    expect_held(&rule, 10, &[(0, 10)], Some(3));
    expect_held(&rule, 10, &[(0, 20)], Some(3));
    expect_accepted(&rule, 10, &[(0, 21)]);
    expect_accepted(&rule, 10, &[(0, 30)]);
    expect_held(&rule, 10, &[(0, 31)], Some(2));
    expect_held(&rule, 10, &[(0, 50)], Some(1));
    expect_held(&rule, 10, &[(0, u32::MAX)], Some(1));
}

#[test]
fn the_last_of_eight_atoms_is_named() {
    let edge = [[0, 1, 0, 0].to_vec(), [0, 3, 0].repeat(7), [1, 0, 30].to_vec()].concat();
    let rule = rule_of(&[&edge]);
    expect_accepted(&rule, 1000, &[(0, 29_999)]);
    expect_held(&rule, 1000, &[(0, 30_000)], Some(7));
}

#[test]
fn every_relation_can_fail() {
    // Relation, a stamp at which it fails for 2 seconds, and one at which it holds.
    let relations = [(0, 4, 3), (1, 5, 4), (2, 3, 4), (2, 5, 4), (3, 3, 4), (4, 4, 5), (5, 4, 3), (5, 4, 5)];
    for (relation, fails, holds) in relations {
        let rule = rule_of(&[&[0, 1, 0, 0, 0, 3, 0, 1, relation, 2]]);
        expect_held(&rule, 2, &[(0, fails)], Some(1));
        expect_accepted(&rule, 2, &[(0, holds)]);
    }
}

#[test]
fn a_guard_without_atoms_names_nothing() {
    let rule = rule_of(&[&[0, 0, 0, 0], &[0, 1, 0, 0, 0, 4, 9]]);
    expect_held(&rule, 1, &[(0, 1)], None);
}

#[test]
fn only_the_lowest_edge_is_asked() {
    let early = [0, 0, 0, 0, 0, 3, 0, 1, 1, 4];
    let late = [0, 0, 0, 0, 0, 3, 6];
    let rule = rule_of(&[&early, &late]);
    expect_held(&rule, 1, &[(0, 4)], None);
    expect_held(&rule, 1, &[(0, 5)], Some(1));
    expect_held(&rule, 1, &[(0, 6)], Some(1));
    let rule = rule_of(&[&late, &early]);
    expect_held(&rule, 1, &[(0, 4)], Some(0));
    expect_held(&rule, 1, &[(0, 5)], Some(0));
    expect_held(&rule, 1, &[(0, 6)], None);
}

#[test]
fn a_higher_edge_that_accepts_names_nothing() {
    let rule = rule_of(&[&[0, 0, 0, 0, 0, 3, 9], &[0, 1, 0, 0]]);
    expect_accepted(&rule, 1, &[(0, 1)]);
}

/// Four locations, of which 1 and 2 are initial and none is final, two symbols, one clock and these edges.
fn rule_from_two(edges: &[&[u16]]) -> (Room, Head) {
    let edges: Vec<u8> = edges.iter().flat_map(|edge| record(5, edge)).collect();
    read(&[record(1, &[4, 2, 1]), record(2, &[1]), record(2, &[2]), edges].concat())
}

#[test]
fn the_lowest_edge_of_all_initial_locations_is_asked() {
    let (holding, second) = ([0, 3, 0], [0, 3, 0, 0, 3, 7]);
    let edge = |source: u16, symbol: u16, atoms: &[u16]| [&[source, 3, symbol, 0], atoms].concat();
    // Location 2's edge stands before location 1's.
    let rule = rule_from_two(&[&edge(2, 0, &second), &edge(1, 0, &[0, 3, 9])]);
    expect_held(&rule, 1, &[(0, 5)], Some(1));
    expect_held(&rule, 1, &[(0, 8)], None);
    let rule = rule_from_two(&[&edge(1, 0, &[0, 3, 9]), &edge(2, 0, &second)]);
    expect_held(&rule, 1, &[(0, 5)], Some(0));
    // Lower edges that leave a location which is not initial, or on another symbol, are passed over.
    let rule = rule_from_two(&[
        &edge(0, 0, &[0, 3, 9]),
        &edge(3, 0, &holding),
        &edge(1, 1, &[0, 3, 0, 0, 3, 0, 0, 3, 9]),
        &edge(2, 0, &second),
        &edge(1, 0, &[0, 3, 9]),
    ]);
    expect_held(&rule, 1, &[(0, 5)], Some(1));
    expect_held(&rule, 1, &[(1, 5)], Some(2));
    let rule = rule_from_two(&[&edge(0, 0, &[0, 3, 9]), &edge(3, 0, &[0, 3, 9])]);
    expect_held(&rule, 1, &[(0, 5)], None);
}

#[test]
fn only_the_first_event_s_ages_and_symbol_count() {
    // The first edge is open from 1 to 2 seconds; the second leaves a location that is not initial.
    let rule = read(
        &[
            record(1, &[2, 2, 1]),
            record(2, &[0]),
            record(5, &[0, 1, 0, 0, 0, 3, 1, 0, 1, 2]),
            record(5, &[1, 1, 1, 0, 0, 3, 9]),
        ]
        .concat(),
    );
    expect_held(&rule, 2, &[(0, 1), (0, 3)], Some(0));
    expect_held(&rule, 2, &[(0, 1), (1, 18)], Some(0));
    expect_held(&rule, 2, &[(0, 2), (0, 9)], None);
    expect_held(&rule, 2, &[(0, 4), (1, 6)], None);
    expect_held(&rule, 2, &[(0, 5), (1, 20), (0, 20)], Some(1));
    expect_held(&rule, 2, &[(1, 3), (0, 3)], None);
}

#[test]
fn constants_count_in_seconds() {
    let rule = rule_of(&[&[0, 1, 0, 1, 0, 2, 3]]);
    for grain in [1, 2, 1000] {
        expect_accepted(&rule, grain, &[(0, 3 * grain)]);
        expect_held(&rule, grain, &[(0, 3 * grain - 1)], Some(0));
        expect_held(&rule, grain, &[(0, 3 * grain + 1)], Some(0));
    }
}
