//! The whole case of the specification, P1 to P9 and the cases to be run.

mod common;

use common::{record, refusal, whole_case, PlainWord, Room, EDGE, EDGE_TABLE};
use reference::{follow_event, list_table, start_follower, write_rule, Built, Head};

const LISTING: &str = "\
3 2 2 4
0 1 1 0
2 2 5 2
2 2 2 2
1 0 0
2 2 2 2
2 2 2 2
2 0 1 3
2 2 2 2
2 2 0 0
";

fn built_whole_case() -> (Room, Head, Built) {
    let mut room = Room::listing(7);
    let head = room.read(&whole_case()).unwrap();
    let built = room.build(&head).unwrap();
    (room, head, built)
}

#[test]
fn the_file_is_read_as_it_says() {
    let (room, head, built) = built_whole_case();
    assert_eq!(whole_case().len(), 58);
    assert_eq!(head.to_numbers(), [2, 2, 1, 1, 1, 2]);
    assert_eq!(room.edges[..10], [5, 0, 1, 0, 1, 1, 0, 2, 1, 0]);
    assert_eq!(room.edges[EDGE..EDGE + 10], [5, 1, 0, 1, 0, 1, 0, 3, 1, 0]);
    assert_eq!(room.edges.iter().map(|&number| usize::from(number)).sum::<usize>(), 23);
    assert_eq!(built.to_numbers(), [2, 2, 1, 1, 1, 3, 2]);
    assert_eq!(room.rows[..9], [0, 1, 1, 1, 0, 0, 1, 1, 0]);
    assert_eq!(room.rows[9..], [0; 2039]);
}

#[test]
fn the_file_is_written_back() {
    let (room, head, _) = built_whole_case();
    let mut out = [9; 60];
    assert_eq!(write_rule(&head, &room.edges, &mut out), Ok(58));
    assert_eq!(out[..58], whole_case());
    assert_eq!(out[58..], [9, 9]);
}

#[test]
fn the_listing_is_as_printed() {
    assert_eq!(String::from_utf8(list_table(&whole_case())).unwrap(), LISTING);
}

#[test]
fn the_listing_of_a_refused_file_names_the_refusal() {
    assert_eq!(list_table(&[]), b"no 3 0\n");
    assert_eq!(list_table(&whole_case()[..57]), b"no 1 40\n");
    let mut chain = [record(1, &[17, 16, 1]), record(2, &[0])].concat();
    chain.extend((0..16).flat_map(|location| record(5, &[location, location + 1, 0, 0, 0, 1, 30])));
    assert_eq!(list_table(&chain), b"no 23 0\n", "16 rows of 16 times 62 cells are too few");
}

#[test]
fn the_listing_takes_the_first_bytes_as_the_file() {
    let file = |body: usize| [record(1, &[1, 1, 1]), record(5, &vec![0; body / 2])].concat();
    assert_eq!(list_table(&file(49_152 - 14)), b"no 2 10\n");
    assert_eq!(list_table(&file(49_152 - 12)), b"no 1 10\n");
}

/// Symbols and stamps.
type Events = &'static [(u16, u32)];

/// D, events and verdict of P1 to P8.
const WORDS: [(u32, Events, bool); 8] = [
    (2, &[], true),
    (2, &[(0, 2)], false),
    (2, &[(0, 2), (1, 4)], true),
    (2, &[(0, 2), (1, 3)], false),
    (2, &[(0, 1)], false),
    (2, &[(0, 2), (1, 4), (0, 4)], false),
    (2, &[(0, 2), (1, 4), (0, 4), (1, 6)], true),
    (3, &[(0, 3), (1, 7)], true),
];

#[test]
fn p1_to_p8_by_every_runner() {
    let (room, head, built) = built_whole_case();
    for (grain, events, verdict) in WORDS {
        let word = PlainWord::new(grain, events);
        let mut scratch = [5; 12];
        assert_eq!(room.table(&built, &word), Ok(verdict), "table, {events:?}");
        assert_eq!(room.exact(&head, &word, &mut scratch), Ok(verdict), "exact, {events:?}");
        assert_eq!(scratch, [0; 12]);
        assert_eq!(room.branch(&head, &word).unwrap().found, verdict, "branch, {events:?}");
        let mut follower = start_follower(grain).unwrap();
        let mut last = true;
        for &(symbol, stamp) in events {
            (last, follower) =
                follow_event(follower, &built, &room.cells, &room.rows, &room.pool, symbol, stamp).unwrap();
        }
        assert_eq!(last, verdict, "follower, {events:?}");
    }
}

#[test]
fn the_branch_of_p7() {
    let (room, head, _) = built_whole_case();
    let branch = room.branch(&head, &PlainWord::new(2, WORDS[6].1)).unwrap();
    assert_eq!((branch.found, branch.start), (true, 0));
    assert_eq!(branch.edges, [0, 1, 0, 1, 0, 0, 0, 0, 0, 0, 0, 0]);
}

#[test]
fn p9_moves_the_bases_of_branches_without_a_reset_too() {
    let file = [
        record(1, &[2, 1, 1]),
        record(2, &[0]),
        record(5, &[0, 0, 0, 0, 0, 2, 1]),
        record(5, &[0, 1, 0, 1, 0, 2, 1]),
    ]
    .concat();
    let mut room = Room::listing(1);
    let head = room.read(&file).unwrap();
    let built = room.build(&head).unwrap();
    let cell = room.cells[2] as usize;
    assert_eq!(room.pool[0], 0);
    assert_eq!(cell % 2, 1, "the timer is reset");
    let row = cell / 2 * 3;
    let (start, length) = (room.rows[row] as usize, room.rows[row + 1] as usize);
    assert_eq!(room.pool[start..start + length], [1, 3]);
    assert_eq!(built.largest, 1);
}

#[test]
fn the_largest_rule_is_read_and_one_location_more_is_8() {
    let file = |locations| [record(1, &[locations, 1, 3]), record(5, &[0, 0, 0, 0, 2, 0, 14])].concat();
    let mut room = Room::listing(3);
    assert_eq!(room.read(&file(16)).unwrap().to_numbers(), [16, 1, 3, 0, 0, 1]);
    assert_eq!(room.read(&file(17)), refusal(8, 28));
}

#[test]
fn the_other_cases_to_be_run() {
    let sizes = record(1, &[1, 1, 1]);
    let mut room = Room::listing(3);
    let nine = [vec![0; 4], [0, 3, 0].repeat(9)].concat();
    assert_eq!(room.read(&[sizes.clone(), record(5, &nine)].concat()), refusal(2, 10));
    let eight = &nine[..28];
    assert!(room.read(&[sizes.clone(), record(5, eight)].concat()).is_ok());
    assert_eq!(room.read(&[sizes.clone(), record(5, &[0, 0, 0, 0, 0, 0, 31])].concat()), refusal(6, 10));
    // 2.4 corrects 01: at-least 3 with at-most 3 and a reset, 7 there, is accepted; with at-most 4 it is 7.
    let squeezed = [0, 0, 0, 1, 0, 3, 3, 0, 1, 3];
    assert!(room.read(&[sizes.clone(), record(5, &squeezed)].concat()).is_ok());
    let loose = [0, 0, 0, 1, 0, 3, 3, 0, 1, 4];
    assert_eq!(room.read(&[sizes, record(5, &loose)].concat()), refusal(7, 10));
    assert_eq!(room.edges, [0; EDGE_TABLE]);
}

#[test]
fn the_longest_legal_file_has_44_432_bytes() {
    let all: Vec<u16> = (0..32).collect();
    let mut file = record(1, &[32, 16, 2]);
    for kind in [2, 3] {
        file.extend(all.iter().flat_map(|&location| record(kind, &[location])));
    }
    file.extend(record(4, &[30]));
    for _ in 0..256 {
        let text = [[2, 4].repeat(8), [3, 1, 4, 30].repeat(16)].concat();
        file.extend(record(6, &[[31, 31, 15, 0].to_vec(), text].concat()));
    }
    assert_eq!(file.len(), 44_432);
    let mut room = Room::listing(3);
    let head = room.read(&file).unwrap();
    let (front, rest) = file.split_at(10 + 64 * 6);
    let mut out = vec![0; 44_426];
    assert_eq!(write_rule(&head, &room.edges, &mut out), Ok(44_426));
    assert_eq!(out, [front, &rest[6..]].concat(), "less the ceiling");
    assert_eq!(write_rule(&head, &room.edges, &mut out[1..]), refusal(27, 0));
}
