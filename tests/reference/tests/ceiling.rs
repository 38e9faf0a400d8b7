//! A ceiling in a file: the reader checks it and drops it, so that no later call can tell it was there.

mod common;

use common::{
    enumerate, random_word, record, refusal, whole_case, PlainEdge, PlainRule, PlainWord, Random, Room,
    EDGE_TABLE,
};
use reference::{
    check_rule, decide, follow_event, list_table, start_follower, write_rule, Branch, Built, Head,
};

/// Ceilings below, at and above the constants of the rules here.
const CEILINGS: [u16; 7] = [0, 1, 2, 3, 14, 29, 30];

/// What the whole case has before its edges, and its edges.
fn whole_case_parts() -> (Vec<u8>, Vec<u8>) {
    let file = whole_case();
    (file[..22].to_vec(), file[22..].to_vec())
}

/// The whole case with a ceiling, 64 bytes.
fn whole_case_under(ceiling: u16) -> Vec<u8> {
    let (front, edges) = whole_case_parts();
    [front, record(4, &[ceiling]), edges].concat()
}

fn edge(source: u16, target: u16, symbol: u16, resets: &[u16], atoms: &[(u16, u16, u16)]) -> PlainEdge {
    PlainEdge::plain(source, target, symbol, resets, atoms)
}

/// A rule that starts in location 0 and ends in its last, without a ceiling.
fn rule(locations: u16, symbols: u16, clocks: u16, edges: Vec<PlainEdge>) -> PlainRule {
    PlainRule {
        locations,
        symbols,
        clocks,
        initial: vec![0],
        finals: vec![locations - 1],
        ceiling: None,
        edges,
    }
}

/// Rules with cm 0 to 3: no edges, no atoms, constant 0 alone, one clock, and two clocks on branches.
fn rules() -> [PlainRule; 5] {
    [
        rule(1, 1, 1, vec![]),
        rule(2, 2, 3, vec![edge(0, 1, 0, &[], &[]), edge(1, 0, 1, &[], &[])]),
        rule(2, 2, 1, vec![edge(0, 1, 0, &[0], &[(0, 2, 0)]), edge(1, 1, 1, &[], &[(0, 4, 0)])]),
        rule(2, 2, 1, vec![edge(0, 1, 0, &[0], &[(0, 2, 1)]), edge(1, 0, 1, &[], &[(0, 3, 1)])]),
        rule(
            3,
            2,
            2,
            vec![
                edge(0, 1, 0, &[0], &[(0, 2, 1)]),
                edge(0, 0, 0, &[], &[(1, 1, 3)]),
                edge(1, 2, 1, &[1], &[(0, 0, 2), (1, 2, 2)]),
                edge(1, 2, 0, &[], &[(1, 4, 3)]),
                edge(1, 2, 1, &[], &[(0, 1, 1), (1, 3, 1)]),
                edge(2, 2, 0, &[], &[(0, 3, 1)]),
                edge(2, 0, 1, &[0, 1], &[(1, 2, 3)]),
            ],
        ),
    ]
}

/// A rule as some file left it: read, and built where the listing program would.
struct Loaded {
    room: Room,
    head: Head,
    built: Built,
}

fn load(file: &[u8]) -> Loaded {
    let mut room = Room::listing(3);
    let head = room.read(file).unwrap();
    let built = room.build(&head).unwrap();
    Loaded { room, head, built }
}

impl Loaded {
    /// The file that is written into room of just its length.
    fn written(&self, length: usize) -> Vec<u8> {
        let mut out = vec![7; length];
        assert_eq!(write_rule(&self.head, &self.room.edges, &mut out), Ok(length));
        out
    }

    /// The answers over a word of the exact, branch and table runners, and of the follower after each event.
    fn answers(&self, word: &PlainWord) -> (bool, Branch, bool, Vec<bool>) {
        let exact = self.room.exact(&self.head, word, &mut vec![9; 4000]).unwrap();
        let branch = self.room.branch(&self.head, word).unwrap();
        (exact, branch, self.room.table(&self.built, word).unwrap(), self.follow(word))
    }

    fn follow(&self, word: &PlainWord) -> Vec<bool> {
        let Room { cells, rows, pool, .. } = &self.room;
        let mut follower = start_follower(word.grain).unwrap();
        let mut verdicts = Vec::new();
        for (&symbol, &stamp) in word.symbols.iter().zip(&word.stamps) {
            let outcome = follow_event(follower, &self.built, cells, rows, pool, symbol, stamp);
            let (verdict, after) = outcome.unwrap();
            verdicts.push(verdict);
            follower = after;
        }
        verdicts
    }
}

#[test]
fn the_rules_here_are_spelled_as_meant() {
    assert_eq!(rules().map(|rule| rule.largest()), [0, 0, 0, 1, 3]);
    let files = rules().map(|rule| PlainRule { finals: vec![0], ..rule }.file());
    assert_eq!(files[3], whole_case());
}

#[test]
fn head_record_edge_table_and_built_table_do_not_know_it() {
    for rule in rules() {
        let plain = load(&rule.file());
        assert_eq!(u64::from(plain.built.largest), rule.largest());
        for ceiling in CEILINGS {
            let loaded = load(&rule.file_with(Some(ceiling)));
            assert_eq!(check_rule(&loaded.head, &loaded.room.edges), Ok(()));
            assert_eq!(loaded.head, plain.head, "{rule:?} under {ceiling}");
            assert_eq!(loaded.built, plain.built, "{rule:?} under {ceiling}");
            assert_eq!(loaded.room, plain.room, "{rule:?} under {ceiling}");
        }
    }
}

#[test]
fn a_file_with_it_is_written_less_that_record() {
    let (front, edges) = whole_case_parts();
    for ceiling in CEILINGS {
        let file = whole_case_under(ceiling);
        let mut room = Room::listing(3);
        let head = room.read(&file).unwrap();
        for more in 0..=6 {
            let mut out = vec![0xa5; file.len() - 6 + more];
            assert_eq!(write_rule(&head, &room.edges, &mut out), Ok(58), "{more} bytes more");
            assert_eq!(out, [&front[..], &edges, &vec![0xa5; more]].concat(), "{more} bytes more");
        }
        let mut out = [0xa5; 57];
        assert_eq!(write_rule(&head, &room.edges, &mut out), refusal(27, 0));
        assert_eq!(out, [0xa5; 57]);
    }
}

#[test]
fn a_file_that_ends_with_it_is_written_up_to_it() {
    let front = [record(1, &[3, 1, 2]), record(2, &[0]), record(2, &[2]), record(3, &[1])].concat();
    let loaded = load(&[&front[..], &record(4, &[30])].concat());
    assert_eq!(loaded.written(front.len()), front);
    let mut short = vec![7; front.len() - 1];
    assert_eq!(write_rule(&loaded.head, &loaded.room.edges, &mut short), refusal(27, 0));
    let sizes = record(1, &[3, 1, 2]);
    assert_eq!(load(&[&sizes[..], &record(4, &[0])].concat()).written(10), sizes);
}

#[test]
fn what_was_written_is_read_as_before_and_written_the_same() {
    for rule in rules() {
        let without = rule.file();
        for ceiling in CEILINGS {
            let file = rule.file_with(Some(ceiling));
            let loaded = load(&file);
            let written = loaded.written(file.len() - 6);
            assert_eq!(written, without, "{rule:?} under {ceiling}");
            let again = load(&written);
            assert_eq!((again.head, again.built), (loaded.head, loaded.built));
            assert_eq!(again.room, loaded.room);
            assert_eq!(again.written(written.len()), written);
            assert_eq!(list_table(&file), list_table(&written));
        }
    }
}

#[test]
fn the_same_words_are_accepted() {
    let mut random = Random(22);
    for rule in &rules() {
        let plain = load(&rule.file());
        let with = CEILINGS.map(|ceiling| load(&rule.file_with(Some(ceiling))));
        let again = with.each_ref().map(|loaded| load(&loaded.written(rule.file().len())));
        let mut counts = [0, 0];
        for _ in 0..120 {
            let word = &random_word(&mut random, rule, 6);
            let accepted = !enumerate(rule, word).accepting.is_empty();
            counts[usize::from(accepted)] += 1;
            let answers = plain.answers(word);
            assert_eq!((answers.0, answers.1.found, answers.2), (accepted, accepted, accepted));
            assert_eq!(answers.3.last().copied().unwrap_or(accepted), accepted);
            for loaded in with.iter().chain(&again) {
                assert_eq!(loaded.answers(word), answers, "{rule:?} {word:?}");
            }
        }
        assert!(counts.iter().all(|&count| count > 10), "too few of some kind: {counts:?}");
    }
}

#[test]
fn a_file_that_it_alone_made_too_large_is_accepted() {
    let sizes = record(1, &[17, 1, 3]);
    let file = [&sizes[..], &record(4, &[30])].concat();
    let mut room = Room::listing(3);
    let head = room.read(&file).unwrap();
    assert_eq!(head.to_numbers(), [17, 1, 3, 0, 0, 0]);
    assert_eq!(check_rule(&head, &room.edges), Ok(()));
    let built = room.build(&head).unwrap();
    assert_eq!(built.to_numbers(), [17, 1, 3, 0, 0, 1, 0]);
    assert_eq!(room.exact(&head, &PlainWord::new(1, &[]), &mut []), Ok(false));
    assert_eq!(list_table(&file), b"1 0 1 2\n0 0 0\n0 0\n");
}

#[test]
fn a_file_that_an_atom_makes_too_large_is_8_with_it_too() {
    let file = |locations: u16, ceiling: u16, constant: u16| {
        let edge = record(5, &[0, 0, 0, 0, 2, 0, constant]);
        [record(1, &[locations, 1, 3]), record(4, &[ceiling]), edge].concat()
    };
    let mut room = Room::listing(3);
    for ceiling in CEILINGS {
        assert_eq!(file(17, ceiling, 14).len(), 34);
        assert_eq!(room.read(&file(17, ceiling, 14)), refusal(8, 34), "under {ceiling}");
        assert_eq!(room.edges, [0; EDGE_TABLE]);
        assert!(room.read(&file(17, ceiling, 13)).is_ok(), "under {ceiling}");
        assert!(room.read(&file(16, ceiling, 14)).is_ok(), "under {ceiling}");
    }
}

#[test]
fn the_room_asked_for_is_that_of_the_atoms() {
    let build = |scratch, cells, rows, pool| {
        let mut room = Room::new(scratch, cells, rows, pool, 9);
        let head = room.read(&whole_case_under(30)).unwrap();
        room.build(&head)
    };
    assert_eq!(build(1, 24, 9, 2).unwrap().to_numbers(), [2, 2, 1, 1, 1, 3, 2]);
    assert_eq!(build(0, 24, 9, 2), refusal(22, 0));
    assert_eq!(build(1, 23, 9, 2), refusal(23, 0));
    assert_eq!(build(1, 24, 8, 2), refusal(23, 0));
    assert_eq!(build(1, 24, 9, 1), refusal(24, 0));
}

#[test]
fn decide_ends_the_same_with_it() {
    let outcome = |file: &[u8], scratch: usize, stamps: &[u32]| {
        let mut room = Room::new(scratch, 25, 10, 3, 9);
        let Room { edges, scratch, cells, rows, pool } = &mut room;
        let outcome = decide(file, edges, scratch, cells, rows, pool, 2, &[0, 1], stamps);
        (outcome, room)
    };
    for ceiling in CEILINGS {
        for (scratch, stamps) in [(1, [2, 4]), (1, [2, 3]), (0, [2, 4]), (1, [4, 2])] {
            let with = outcome(&whole_case_under(ceiling), scratch, &stamps);
            assert_eq!(with, outcome(&whole_case(), scratch, &stamps), "under {ceiling}, {stamps:?}");
        }
    }
}
