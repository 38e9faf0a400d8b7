//! The worked case: its records, its listing, P1 to P8 by every runner, and what held the rule back.

mod common;

use alderskein::{decide, raw, Cell, LeastRun, Room, Rule, Run, Stamp};
use common::{followed, record, word, worked, worked_rule, worked_table, WORDS};

#[test]
fn p1_to_p8_by_the_exact_runner() {
    for (grain, events, verdict) in WORDS {
        assert_eq!(worked_rule().accepts(&word(grain, events), 2), Ok(verdict), "{events:?}");
    }
}

#[test]
fn p1_to_p8_by_branch() {
    for (grain, events, verdict) in WORDS {
        let outcome = worked_rule().least_run(&word(grain, events)).unwrap();
        assert_eq!(matches!(outcome, LeastRun::Found(_)), verdict, "{events:?}");
        if let LeastRun::Found(run) = outcome {
            let edges: Vec<u16> = events.iter().map(|event| event.0).collect();
            assert_eq!(run, Run { start: 0, edges }, "edge 0 has symbol 0, edge 1 has symbol 1");
        }
    }
}

/// Checks what both calls by branch say with D = 2: whether a run accepts, and what held the rule back.
fn branches(rule: &Rule, events: &[(u16, u32)], found: bool, held: Option<usize>) {
    let word = word(2, events);
    let said = match rule.least_run(&word).unwrap() {
        LeastRun::Found(_) => (true, None),
        LeastRun::NoRun { held } => (false, held),
    };
    assert_eq!(said, (found, held), "{events:?}");
    let answer = raw::run_branches(rule.head(), rule.edges(), 2, word.symbols(), word.stamps(), &mut [9; 12]);
    let expected = (0, found, held.is_some(), held.unwrap_or(0));
    assert_eq!((answer.number, answer.found, answer.held, answer.position), expected, "{events:?}");
}

#[test]
fn what_held_the_rule_back() {
    let rule = worked_rule();
    branches(&rule, &[(0, 1)], false, Some(0)); // edge 0 asks for age 1
    branches(&rule, &[(1, 1)], false, None); // no edge leaves location 0 on symbol 1
    branches(&rule, &[(0, 2)], false, None); // the guard of edge 0 holds
    branches(&rule, &[(0, 1), (1, 3)], false, Some(0));
    branches(&rule, &[(0, 2), (1, 3)], false, None);
    branches(&rule, &[], true, None);
    branches(&rule, &[(0, 2), (1, 4)], true, None);
}

#[test]
fn the_lowest_edge_of_all_initial_locations_is_named() {
    // Edge 0 leaves location 1 at x >= 0, y = 1, x < 1; edge 1 leaves location 0 always. Nothing is final.
    let edges = [record(5, &[1, 0, 0, 0, 0, 3, 0, 1, 2, 1, 0, 0, 1]), record(5, &[0, 0, 0, 0])].concat();
    let file = [record(1, &[2, 2, 2]), record(2, &[0]), record(2, &[1]), edges].concat();
    let rule = Rule::read(&file).unwrap();
    branches(&rule, &[(0, 1)], false, Some(1));
    branches(&rule, &[(0, 2)], false, Some(2));
    branches(&rule, &[(1, 2)], false, None);
    branches(&rule, &[], false, None);
}

#[test]
fn p1_to_p8_by_the_table() {
    for (grain, events, verdict) in WORDS {
        assert_eq!(worked_table().run(&word(grain, events)), Ok(verdict), "{events:?}");
    }
}

#[test]
fn p1_to_p8_by_the_follower() {
    for (grain, events, verdict) in WORDS {
        assert_eq!(followed(&worked_table(), &word(grain, events)), verdict, "{events:?}");
    }
}

#[test]
fn p1_to_p8_from_the_file_to_the_answer() {
    for (grain, events, verdict) in WORDS {
        assert_eq!(decide(&worked(), Room::LISTING, &word(grain, events)), Ok(verdict), "{events:?}");
    }
}

#[test]
fn the_file_is_read_and_written_back() {
    let rule = worked_rule();
    let head = rule.head();
    assert_eq!((head.locations, head.symbols, head.clocks, head.count), (2, 2, 1, 2));
    assert_eq!((head.starts, head.ends), (1, 1));
    assert_eq!(rule.edges()[..10], [5, 0, 1, 0, 1, 1, 0, 2, 1, 0]);
    assert_eq!(rule.write().unwrap(), worked());
    let mut out = [9; 60];
    assert_eq!(rule.write_into(&mut out), Ok(58));
    assert_eq!(out[58..], [9, 9], "the bytes past the file are not touched");
}

#[test]
fn the_listing() {
    let listing = "3 2 2 4\n0 1 1 0\n2 2 5 2\n2 2 2 2\n1 0 0\n2 2 2 2\n2 2 2 2\n2 0 1 3\n2 2 2 2\n2 2 0 0\n";
    assert_eq!(worked_table().to_string(), listing);
}

#[test]
fn the_table_by_its_places() {
    let table = worked_table();
    assert_eq!(table.row_count(), 3);
    assert_eq!(table.interval_count(), 4);
    assert_eq!(table.codes(2), Some([3].as_slice()));
    assert_eq!(table.codes(3), None);
    assert_eq!(table.parts()[1], [0, 1, 1, 1, 0, 0, 1, 1, 0], "start, length and verdict of each row");
    assert_eq!([0, 1, 2, 3].map(|row| table.verdict(row)), [Some(true), Some(false), Some(false), None]);
    assert_eq!(table.cell(0, 0, 2), Some(Cell { next: 2, resets: true }));
    assert_eq!(table.cell(0, 0, 4), None);
    assert_eq!(table.cell(0, 2, 0), None);
    assert_eq!(table.cell(3, 0, 0), None);
}

#[test]
fn p9_moves_the_bases_of_branches_without_a_reset_too() {
    let edges = [record(5, &[0, 0, 0, 0, 0, 2, 1]), record(5, &[0, 1, 0, 1, 0, 2, 1])].concat();
    let file = [record(1, &[2, 1, 1]), record(2, &[0]), edges].concat();
    let table = Rule::read(&file).unwrap().build(Room::LISTING).unwrap();
    let cell = table.cell(0, 0, 2).unwrap();
    assert!(cell.resets);
    assert_eq!(table.codes(cell.next as usize), Some([1, 3].as_slice()));
}

#[test]
fn the_largest_rule_is_built() {
    // The edge is there for its constant: no run comes to location 1.
    let edge = record(5, &[1, 0, 0, 0, 0, 1, 14]);
    let file = [record(1, &[16, 1, 3]), record(2, &[0]), edge].concat();
    let table = Rule::read(&file).unwrap().build(Room::default()).unwrap();
    assert_eq!((table.row_count(), table.built().top), (2, 14));
    assert_eq!(table.parts().map(<[u32]>::len), [60, 6, 1], "unused places are cut off");
}

#[test]
fn a_follower_is_kept_and_resumed() {
    let table = worked_table();
    let mut first = table.follower(2).unwrap();
    assert_eq!(first.event(0, Stamp(2)), Ok(false));
    let mut second = table.resume(first.record());
    assert_eq!(second.event(1, Stamp(4)), Ok(true));
}
