//! Pinned from both sides: an at-least and an at-most of one clock and constant let an edge reset as an
//! equality does, and build the same table.

mod common;

use common::{
    enumerate, held_back, pinned, random_rule, random_word, record, refusal, whole_case, Bounds, Mark,
    PlainAtom, PlainEdge, PlainRule, PlainWord, Random, Room, EDGE, EDGE_TABLE,
};
use reference::{
    check_rule, decide, follow_event, follow_event_in_place, list_table, read_rule, start_follower,
    write_rule, Branch, Built, Head, Refusal,
};

const LESS: u16 = 0;
const AT_MOST: u16 = 1;
const EQUAL: u16 = 2;
const AT_LEAST: u16 = 3;
const GREATER: u16 = 4;
const NOT_EQUAL: u16 = 5;

/// Where the edge that is asked about starts in its file.
const PLACE: usize = 22;

/// The numbers of an edge from location 0 to itself.
fn edge_numbers(mask: u16, atoms: &[PlainAtom]) -> Vec<u16> {
    let atoms: Vec<u16> = atoms.iter().flat_map(|atom| [atom.0, atom.1, atom.2]).collect();
    [&[0, 0, 0, mask], &atoms[..]].concat()
}

/// A file with one location and three edges, of which the second has these numbers.
fn file_around(clocks: u16, numbers: &[u16]) -> Vec<u8> {
    let open = record(5, &[0; 4]);
    [record(1, &[1, 1, clocks]), open.clone(), record(5, numbers), open].concat()
}

/// The head record and the edge table of that file, put together by hand.
fn by_hand(clocks: u16, numbers: &[u16]) -> (Head, Vec<u16>) {
    let head = Head { locations: 1, symbols: 1, clocks: clocks.into(), edge_count: 3, ..Head::default() };
    let (front, atoms) = numbers.split_at(4);
    let mut edges = vec![0; EDGE_TABLE];
    let places = [0, 1, 2].map(|edge| edge * EDGE);
    places.into_iter().for_each(|place| edges[place] = 5);
    edges[EDGE + 1..EDGE + 5].copy_from_slice(front);
    edges[EDGE + 5] = (atoms.len() / 3) as u16;
    edges[EDGE + 6..][..atoms.len()].copy_from_slice(atoms);
    (head, edges)
}

/// The outcome of reading that file; by hand it must be 21 exactly where the file is refused.
fn read_numbers(clocks: u16, numbers: &[u16]) -> Result<(), Refusal> {
    let mut edges = vec![5; EDGE_TABLE];
    let outcome = read_rule(&file_around(clocks, numbers), &mut edges);
    let (head, spelled) = by_hand(clocks, numbers);
    if outcome.is_ok() {
        assert_eq!(outcome, Ok(head));
        assert_eq!(edges, spelled);
        assert_eq!(check_rule(&head, &spelled), Ok(()));
    } else {
        assert_eq!(edges, [0; EDGE_TABLE]);
        assert_eq!(check_rule(&head, &spelled), refusal(21, 0), "{numbers:?} by hand");
    }
    outcome.map(|_| ())
}

/// Says that an edge with these resets and atoms is accepted.
fn expect_accepted(clocks: u16, mask: u16, atoms: &[PlainAtom]) {
    let outcome = read_numbers(clocks, &edge_numbers(mask, atoms));
    assert_eq!(outcome, Ok(()), "{clocks} clocks, mask {mask}, {atoms:?}");
}

/// Says that an edge with these atoms is 7 with any resets, and accepted without.
fn expect_7(clocks: u16, atoms: &[PlainAtom]) {
    for mask in 1..1 << clocks {
        let outcome = read_numbers(clocks, &edge_numbers(mask, atoms));
        assert_eq!(outcome, refusal(7, PLACE), "{clocks} clocks, mask {mask}, {atoms:?}");
    }
    expect_accepted(clocks, 0, atoms);
}

/// Says that two atoms are 7 in both orders.
fn expect_7_in_both_orders(clocks: u16, first: PlainAtom, second: PlainAtom) {
    expect_7(clocks, &[first, second]);
    expect_7(clocks, &[second, first]);
}

/// Every clock of every K with the constants at the ends of what N allows one location.
fn clocks_and_constants() -> impl Iterator<Item = (u16, u16, u16)> {
    let ends = [(1, 30), (2, 30), (3, 30), (4, 14)];
    ends.into_iter().flat_map(|(clocks, most)| {
        (0..clocks).flat_map(move |clock| [0, 1, most - 1, most].map(|constant| (clocks, clock, constant)))
    })
}

#[test]
fn both_orders_are_accepted() {
    for (clocks, clock, constant) in clocks_and_constants() {
        let (least, most) = ((clock, AT_LEAST, constant), (clock, AT_MOST, constant));
        for mask in 0..1 << clocks {
            expect_accepted(clocks, mask, &[least, most]);
            expect_accepted(clocks, mask, &[most, least]);
        }
        expect_7(clocks, &[least]);
        expect_7(clocks, &[most]);
    }
}

/// Six atoms that pin nothing, alone or with one side of clock 0 at 7.
const OTHERS: [PlainAtom; 6] =
    [(1, AT_LEAST, 7), (1, AT_MOST, 8), (0, AT_LEAST, 6), (0, AT_MOST, 8), (0, GREATER, 7), (0, LESS, 7)];

#[test]
fn other_atoms_may_stand_anywhere() {
    expect_7(2, &OTHERS);
    for (first, second) in [(AT_LEAST, AT_MOST), (AT_MOST, AT_LEAST)] {
        for early in 0..7 {
            let mut atoms = OTHERS.to_vec();
            atoms.insert(early, (0, first, 7));
            expect_7(2, &atoms);
            for late in early + 1..8 {
                let mut atoms = atoms.clone();
                atoms.insert(late, (0, second, 7));
                assert_eq!((atoms[early].1, atoms[late].1, atoms.len()), (first, second, 8));
                expect_accepted(2, 1, &atoms);
                expect_accepted(2, 2, &atoms);
            }
        }
    }
}

#[test]
fn the_first_and_the_last_of_eight_with_constants_0_and_30() {
    for constant in [0, 30] {
        for clock in [0, 2] {
            for (first, last) in [(AT_LEAST, AT_MOST), (AT_MOST, AT_LEAST)] {
                let between = [(1, AT_LEAST, constant); 6];
                let atoms = [&[(clock, first, constant)], &between[..], &[(clock, last, constant)]].concat();
                expect_accepted(3, 5, &atoms);
                expect_7(3, &atoms[..7]);
                expect_7(3, &atoms[1..]);
            }
        }
    }
}

#[test]
fn constants_that_differ_are_7() {
    expect_7(1, &[(0, AT_LEAST, 3), (0, AT_MOST, 4)]);
    for constant in 0..30 {
        for (clocks, clock) in [(1, 0), (3, 2)] {
            let at = |relation, constant| (clock, relation, constant);
            expect_7_in_both_orders(clocks, at(AT_LEAST, constant), at(AT_MOST, constant + 1));
            expect_7_in_both_orders(clocks, at(AT_LEAST, constant + 1), at(AT_MOST, constant));
        }
    }
    expect_7_in_both_orders(1, (0, AT_LEAST, 0), (0, AT_MOST, 30));
    expect_7_in_both_orders(1, (0, AT_LEAST, 30), (0, AT_MOST, 0));
}

#[test]
fn two_clocks_are_7() {
    for (clocks, clock, constant) in clocks_and_constants() {
        for other in (0..clocks).filter(|&other| other != clock) {
            expect_7_in_both_orders(clocks, (clock, AT_LEAST, constant), (other, AT_MOST, constant));
        }
    }
}

#[test]
fn sides_that_cross_are_7() {
    let crossed = [(0, AT_LEAST, 2), (1, AT_MOST, 2), (0, AT_MOST, 3), (1, AT_LEAST, 3)];
    expect_7(2, &crossed);
    for side in [(0, AT_MOST, 2), (1, AT_LEAST, 2), (0, AT_LEAST, 3), (1, AT_MOST, 3)] {
        for place in 0..=4 {
            let mut atoms = crossed.to_vec();
            atoms.insert(place, side);
            expect_accepted(2, 1, &atoms);
        }
    }
}

#[test]
fn strict_relations_and_not_equal_are_no_sides() {
    for (clocks, clock, constant) in clocks_and_constants() {
        for strict in [LESS, GREATER, NOT_EQUAL] {
            for side in [LESS, AT_MOST, AT_LEAST, GREATER, NOT_EQUAL] {
                expect_7_in_both_orders(clocks, (clock, strict, constant), (clock, side, constant));
            }
        }
    }
    // Each of these holds at one whole second alone, but beside it too.
    for constant in 1..30 {
        let (below, above) = ((0, GREATER, constant - 1), (0, LESS, constant + 1));
        expect_7_in_both_orders(1, below, above);
        expect_7_in_both_orders(1, below, (0, AT_MOST, constant));
        expect_7_in_both_orders(1, (0, AT_LEAST, constant), above);
    }
}

#[test]
fn one_side_twice_is_7() {
    for (clocks, clock, constant) in clocks_and_constants() {
        for relation in [AT_LEAST, AT_MOST] {
            expect_7(clocks, &[(clock, relation, constant); 2]);
            expect_7(clocks, &[(clock, relation, constant); 8]);
        }
    }
}

#[test]
fn at_most_0_alone_is_7() {
    for clocks in 1..=4 {
        for clock in 0..clocks {
            expect_7(clocks, &[(clock, AT_MOST, 0)]);
            expect_7(clocks, &[(clock, LESS, 1)]);
            expect_7(clocks, &[(clock, AT_MOST, 0), (clock, LESS, 1)]);
        }
    }
    expect_7(1, &[]);
}

#[test]
fn an_equality_needs_no_sides() {
    for (clocks, clock, constant) in clocks_and_constants() {
        for other in [LESS, AT_MOST, EQUAL, AT_LEAST, GREATER, NOT_EQUAL] {
            let (equal, other) = ((clock, EQUAL, constant), (0, other, constant));
            expect_accepted(clocks, 1, &[equal, other]);
            expect_accepted(clocks, 1, &[other, equal]);
        }
        expect_accepted(clocks, 1, &[(clock, EQUAL, constant)]);
    }
}

/// All lists of up to three atoms over two clocks and the constants 0 and 1.
#[test]
fn every_short_list() {
    let atom = |number: u16| (number % 2, number / 2 % 6, number / 12);
    let mut lists = vec![vec![]];
    let mut counts = [0, 0];
    for length in 0..=3 {
        for list in &lists {
            let outcome = read_numbers(2, &edge_numbers(2, list));
            let expected = if pinned(list) { Ok(()) } else { refusal(7, PLACE) };
            assert_eq!(outcome, expected, "{list:?}");
            counts[usize::from(outcome.is_ok())] += 1;
        }
        if length < 3 {
            let longer = |list: &Vec<_>| (0..24).map(|last| [&list[..], &[atom(last)]].concat()).collect();
            lists = lists.iter().flat_map(|list| -> Vec<_> { longer(list) }).collect();
        }
    }
    assert_eq!(counts, [1 + 20 + 392 + 7544, 4 + 184 + 6280]);
}

#[test]
fn the_sides_stand_on_one_edge() {
    let edge = |atoms: &[PlainAtom]| record(5, &edge_numbers(1, atoms));
    let (least, most) = ((0, AT_LEAST, 3), (0, AT_MOST, 3));
    let sizes = record(1, &[1, 1, 1]);
    let mut edges = vec![5; EDGE_TABLE];
    let file = [sizes.clone(), edge(&[least]), edge(&[most])].concat();
    assert_eq!(read_rule(&file, &mut edges), refusal(7, 10));
    let file = [sizes.clone(), edge(&[least, most]), edge(&[most])].concat();
    assert_eq!(read_rule(&file, &mut edges), refusal(7, 34));
    let file = [sizes, edge(&[least, most]), edge(&[most, least])].concat();
    assert!(read_rule(&file, &mut edges).is_ok());
}

#[test]
fn the_first_edge_without_a_pin_is_named() {
    let front = [record(1, &[2, 1, 1]), record(2, &[1]), record(3, &[0]), record(4, &[30])].concat();
    let pair = |most| record(5, &edge_numbers(1, &[(0, AT_LEAST, 3), (0, AT_MOST, most)]));
    let file = |loose: &[usize]| {
        let edges: Vec<u8> = (0..256).flat_map(|edge| pair(3 + u16::from(loose.contains(&edge)))).collect();
        [&front[..], &edges].concat()
    };
    let mut edges = vec![5; EDGE_TABLE];
    assert_eq!(read_rule(&file(&[]), &mut edges).unwrap().edge_count, 256);
    assert_eq!(front.len(), 28);
    for (loose, first) in [(vec![0], 0), (vec![1], 1), (vec![100, 255], 100), (vec![255], 255)] {
        assert_eq!(read_rule(&file(&loose), &mut edges), refusal(7, 28 + 24 * first));
        assert_eq!(edges, [0; EDGE_TABLE]);
    }
}

#[test]
fn number_6_comes_before_7() {
    for most in [3, 4] {
        let numbers = edge_numbers(3, &[(0, AT_LEAST, 3), (0, AT_MOST, most)]);
        assert_eq!(read_numbers(2, &numbers), if most == 3 { Ok(()) } else { refusal(7, PLACE) });
        let bad_numbers =
            [(0, 1), (1, 1), (2, 1), (3, 4), (3, 7), (4, 2), (5, 6), (6, 31), (7, 2), (8, 6), (9, 31)];
        for (place, number) in bad_numbers {
            let mut numbers = numbers.clone();
            numbers[place] = number;
            assert_eq!(read_numbers(2, &numbers), refusal(6, PLACE), "{number} at {place}");
        }
    }
    // Pairs of numbers out of range are no pins but 6.
    for (clock, constant) in [(0, 31), (2, 3), (0, 65_535), (65_535, 3)] {
        let numbers = edge_numbers(1, &[(clock, AT_LEAST, constant), (clock, AT_MOST, constant)]);
        assert_eq!(read_numbers(2, &numbers), refusal(6, PLACE));
    }
}

#[test]
fn numbers_2_and_4_come_before_7_and_8_after() {
    let (pair, loose) = ([(0, AT_LEAST, 14), (0, AT_MOST, 14)], [(0, AT_LEAST, 14), (0, AT_MOST, 13)]);
    let edge = |atoms: &[PlainAtom]| record(5, &edge_numbers(1, atoms));
    let mut edges = vec![5; EDGE_TABLE];
    let mut read = |locations, records: &[Vec<u8>]| {
        let outcome = read_rule(&[record(1, &[locations, 1, 3]), records.concat()].concat(), &mut edges);
        outcome.map(|_| ())
    };
    let nine = [(0, AT_LEAST, 14); 9];
    assert_eq!(read(1, &[edge(&nine)]), refusal(2, 10));
    let full = vec![record(5, &[0; 4]); 256].concat();
    assert_eq!(read(1, &[full.clone(), edge(&loose)]), refusal(4, 10 + 256 * 12));
    assert_eq!(read(1, &[full, edge(&pair)]), refusal(4, 10 + 256 * 12));
    assert_eq!(read(16, &[edge(&pair)]), Ok(()));
    assert_eq!(read(17, &[edge(&pair)]), refusal(8, 34));
    assert_eq!(read(17, &[edge(&loose)]), refusal(7, 10));
    assert_eq!(read(17, &[edge(&pair), edge(&loose)]), refusal(7, 34));
}

#[test]
fn a_pair_that_is_loosened_by_hand_is_21() {
    let (head, edges) = by_hand(2, &edge_numbers(3, &[(1, AT_LEAST, 3), (1, AT_MOST, 3)]));
    let check = |changes: &[(usize, u16)]| {
        let mut edges = edges.clone();
        for &(place, number) in changes {
            edges[EDGE + place] = number;
        }
        check_rule(&head, &edges)
    };
    assert_eq!(check(&[]), Ok(()));
    // Each number of the two atoms, and what it may be.
    let places: [(usize, &[u16]); 6] =
        [(6, &[1]), (7, &[AT_LEAST, EQUAL]), (8, &[3]), (9, &[1]), (10, &[AT_MOST, EQUAL]), (11, &[3])];
    for (place, allowed) in places {
        for number in 0..40 {
            let expected = if allowed.contains(&number) { Ok(()) } else { refusal(21, 0) };
            assert_eq!(check(&[(place, number)]), expected, "{number} at {place}");
        }
    }
    assert_eq!(check(&[(8, 9), (11, 9)]), Ok(()), "another constant");
    assert_eq!(check(&[(6, 0), (9, 0)]), Ok(()), "the other clock");
    assert_eq!(check(&[(7, AT_MOST), (10, AT_LEAST)]), Ok(()), "the other order");
    assert_eq!(check(&[(5, 1)]), refusal(21, 0), "a side past the atoms");
    assert_eq!(check(&[(5, 1), (9, 0), (10, 0), (11, 0)]), refusal(21, 0), "one side");
    assert_eq!(check(&[(11, 4)]), refusal(21, 0), "a constant more");
    assert_eq!(check(&[(11, 4), (4, 0)]), Ok(()), "a constant more without resets");
    let fewer_clocks = Head { clocks: 1, ..head };
    assert_eq!(check_rule(&fewer_clocks, &edges), refusal(21, 0));
}

#[test]
fn every_call_asks_for_the_pin_by_hand() {
    let word = PlainWord::new(1, &[]);
    for (most, pinned) in [(3, true), (4, false), (2, false)] {
        let mut room = Room::listing(5);
        let numbers = edge_numbers(1, &[(0, AT_MOST, most), (0, AT_LEAST, 3)]);
        let head;
        (head, room.edges) = by_hand(1, &numbers);
        let before = room.clone();
        let (mut out, mut scratch) = ([4; 60], [4; 9]);
        let written = write_rule(&head, &room.edges, &mut out);
        let exact = room.exact(&head, &word, &mut scratch);
        let branch = room.branch(&head, &word);
        let built = room.build(&head);
        if pinned {
            let file = file_around(1, &numbers);
            assert_eq!(written, Ok(file.len()));
            assert_eq!(out[..file.len()], file);
            assert_eq!((exact, branch, built.is_ok()), (Ok(false), Ok(Branch::default()), true));
        } else {
            assert_eq!((written, exact), (refusal(21, 0), refusal(21, 0)));
            assert_eq!((branch, built), (refusal(21, 0), refusal(21, 0)));
            assert_eq!((out, scratch), ([4; 60], [4; 9]));
            assert_eq!(room, before);
        }
    }
}

/// Atoms that pin a clock to a constant.
type Pin = fn(u16, u16) -> Vec<PlainAtom>;

const EQUALITY: Pin = |clock, constant| vec![(clock, EQUAL, constant)];

/// The sides in both orders, and apart from each other by atoms that always hold.
const BOTH_SIDES: [Pin; 3] = [
    |clock, constant| vec![(clock, AT_LEAST, constant), (clock, AT_MOST, constant)],
    |clock, constant| vec![(clock, AT_MOST, constant), (clock, AT_LEAST, constant)],
    |clock, constant| {
        let always = (0, AT_LEAST, 0);
        vec![always, (clock, AT_MOST, constant), always, always, (clock, AT_LEAST, constant)]
    },
];

fn edge(source: u16, target: u16, symbol: u16, resets: &[u16], atoms: Vec<PlainAtom>) -> PlainEdge {
    PlainEdge::plain(source, target, symbol, resets, &atoms)
}

/// A rule of two symbols that starts and ends in location 0.
fn rule(locations: u16, clocks: u16, edges: Vec<PlainEdge>) -> PlainRule {
    PlainRule { locations, symbols: 2, clocks, initial: vec![0], finals: vec![0], ceiling: None, edges }
}

/// Rules whose resets are all pinned one way.
fn rules(pin: Pin) -> [PlainRule; 6] {
    let with = |clock, constant, more: &[PlainAtom]| [&pin(clock, constant)[..], more].concat();
    let whole_case = vec![edge(0, 1, 0, &[0], pin(0, 1)), edge(1, 0, 1, &[], vec![(0, AT_LEAST, 1)])];
    let constant_0 = vec![
        edge(0, 1, 0, &[0], pin(0, 0)),
        edge(1, 0, 1, &[], vec![(0, GREATER, 0)]),
        edge(1, 0, 0, &[0], pin(0, 2)),
    ];
    let p9_and_back =
        vec![edge(0, 0, 0, &[], pin(0, 1)), edge(0, 1, 0, &[0], pin(0, 1)), edge(1, 0, 1, &[0], pin(0, 1))];
    let constant_30 = vec![edge(0, 1, 0, &[0], pin(0, 30)), edge(1, 0, 1, &[0], pin(0, 1))];
    let branches = vec![
        edge(0, 1, 0, &[0], pin(0, 1)),
        edge(0, 0, 0, &[], vec![(1, AT_MOST, 3)]),
        edge(1, 0, 1, &[1], with(1, 2, &[(0, LESS, 2)])),
        edge(1, 2, 1, &[], vec![(0, AT_MOST, 1), (1, AT_LEAST, 1)]),
        edge(2, 0, 0, &[0, 1], with(1, 3, &[(0, AT_LEAST, 1), (0, AT_MOST, 2)])),
        edge(2, 0, 1, &[], vec![(1, GREATER, 3)]),
    ];
    let highest_clock = vec![
        edge(0, 1, 0, &[3], pin(3, 1)),
        edge(1, 0, 1, &[0, 3], with(3, 1, &[(0, AT_LEAST, 2)])),
        edge(1, 0, 0, &[1, 2], with(3, 0, &[(1, AT_LEAST, 1)])),
        edge(0, 0, 1, &[], vec![(3, AT_LEAST, 1), (0, AT_MOST, 2)]),
    ];
    [
        rule(2, 1, whole_case),
        rule(2, 1, constant_0),
        rule(2, 1, p9_and_back),
        rule(2, 1, constant_30),
        rule(3, 2, branches),
        rule(2, 4, highest_clock),
    ]
}

/// The seconds at and beside which a rule's words have their events.
const SECONDS: [[u32; 3]; 6] = [[0, 1, 2], [0, 1, 2], [0, 1, 2], [1, 30, 31], [1, 2, 3], [0, 1, 2]];

/// A rule read and built in the listing program's room.
struct Loaded {
    room: Room,
    head: Head,
    built: Built,
}

fn load(file: &[u8]) -> Loaded {
    let mut room = Room::listing(3);
    let head = room.read(file).unwrap();
    let built = room.build(&head).unwrap();
    Loaded { room, head, built }
}

impl Loaded {
    /// The answers over a word of the exact, branch and table runners, and of the follower after each event.
    fn answers(&self, word: &PlainWord) -> (bool, Branch, bool, Vec<bool>) {
        let exact = self.room.exact(&self.head, word, &mut [9; 4000]).unwrap();
        let branch = self.room.branch(&self.head, word).unwrap();
        (exact, branch, self.room.table(&self.built, word).unwrap(), self.follow(word))
    }

    /// The follower's verdicts, by value and in place alike.
    fn follow(&self, word: &PlainWord) -> Vec<bool> {
        let (Room { cells, rows, pool, .. }, built) = (&self.room, &self.built);
        let mut follower = start_follower(word.grain).unwrap();
        let mut verdicts = Vec::new();
        for (&symbol, &stamp) in word.symbols.iter().zip(&word.stamps) {
            let outcome = follow_event(follower, built, cells, rows, pool, symbol, stamp);
            let verdict = follow_event_in_place(&mut follower, built, cells, rows, pool, symbol, stamp);
            assert_eq!(verdict.map(|verdict| (verdict, follower)), outcome);
            verdicts.push(verdict.unwrap());
        }
        verdicts
    }
}

/// Says that a rule's table is the same, number by number, as that of another.
fn compare_tables(sides: &PlainRule, equal: &PlainRule) {
    let (loaded, plain) = (load(&sides.file()), load(&equal.file()));
    assert_eq!(loaded.head, plain.head);
    assert_eq!(loaded.built, plain.built, "{sides:?}");
    let edges = plain.room.edges.clone();
    assert_eq!(Room { edges, ..loaded.room }, plain.room, "{sides:?}");
    assert_eq!(list_table(&sides.file()), list_table(&equal.file()));
}

#[test]
fn the_rules_here_are_spelled_as_meant() {
    assert_eq!(rules(EQUALITY)[0].file(), whole_case());
    assert_eq!(rules(EQUALITY).map(|rule| rule.largest()), [1, 2, 1, 30, 3, 2]);
    for rule in BOTH_SIDES.map(rules).iter().flatten() {
        let mut resetting = rule.edges.iter().filter(|edge| !edge.resets.is_empty());
        assert!(resetting.all(|edge| edge.resets_between_sides() && pinned(&edge.own_atoms())));
    }
}

#[test]
fn the_table_is_that_of_the_equality() {
    for sides in BOTH_SIDES.map(rules) {
        for (sides, equal) in sides.iter().zip(&rules(EQUALITY)) {
            assert_ne!(sides.file(), equal.file());
            compare_tables(sides, equal);
        }
    }
}

#[test]
fn the_file_is_written_with_both_sides() {
    for rule in BOTH_SIDES.map(rules).iter().flatten() {
        let (loaded, file) = (load(&rule.file()), rule.file());
        let mut out = vec![7; file.len() + 2];
        assert_eq!(write_rule(&loaded.head, &loaded.room.edges, &mut out), Ok(file.len()));
        assert_eq!(out, [&file[..], &[7, 7]].concat());
    }
}

/// Where the edge has an atom that stands in no group.
fn own_place(edge: &PlainEdge, atom: PlainAtom) -> usize {
    edge.outermost().into_iter().find(|&place| edge.marks.get(place) == Some(&Mark::Atom(atom))).unwrap()
}

/// The rule with an equality in place of the sides of each edge that needs them.
fn with_equalities(rule: &PlainRule) -> PlainRule {
    let mut rule = rule.clone();
    for edge in rule.edges.iter_mut().filter(|edge| edge.resets_between_sides()) {
        let atoms = edge.own_atoms();
        let least = atoms.iter().find(|&&(clock, relation, constant)| {
            relation == AT_LEAST && atoms.contains(&(clock, AT_MOST, constant))
        });
        let &(clock, _, constant) = least.unwrap();
        edge.marks.remove(own_place(edge, (clock, AT_LEAST, constant)));
        let most = own_place(edge, (clock, AT_MOST, constant));
        edge.marks[most] = Mark::Atom((clock, EQUAL, constant));
    }
    rule
}

#[test]
fn random_tables_are_those_of_the_equalities() {
    let bounds = Bounds { locations: 3, symbols: 2, clocks: 3, edges: 6, constant: 3 };
    let mut random = Random(24);
    let (mut changed, mut resets) = (0, 0);
    for _ in 0..300 {
        let sides = random_rule(&mut random, &bounds);
        let equal = with_equalities(&sides);
        if list_table(&sides.file()).starts_with(b"no") || sides.file() == equal.file() {
            assert_eq!(list_table(&sides.file()), list_table(&equal.file()));
            continue;
        }
        compare_tables(&sides, &equal);
        changed += 1;
        resets += load(&sides.file()).room.cells.iter().filter(|&&cell| cell % 2 == 1).count();
    }
    assert!(changed > 150 && resets > 500, "too few of some kind: {changed}, {resets}");
}

/// All words of up to two events at and beside these seconds.
fn words_beside(grain: u32, seconds: &[u32]) -> Vec<PlainWord> {
    let beside = |second: &u32| [(second * grain).saturating_sub(1), second * grain, second * grain + 1];
    let mut stamps: Vec<u32> = seconds.iter().flat_map(beside).collect();
    stamps.dedup();
    let events: Vec<(u16, u32)> = stamps.iter().flat_map(|&stamp| [(0, stamp), (1, stamp)]).collect();
    let mut words = vec![PlainWord::new(grain, &[])];
    for &first in &events {
        words.push(PlainWord::new(grain, &[first]));
        let later = events.iter().filter(|second| second.1 >= first.1);
        words.extend(later.map(|&second| PlainWord::new(grain, &[first, second])));
    }
    words
}

#[test]
fn all_runners_answer_as_with_the_equality() {
    let mut random = Random(25);
    let sides = BOTH_SIDES.map(rules);
    for (number, equal) in rules(EQUALITY).iter().enumerate() {
        let plain = load(&equal.file());
        let sides = sides.each_ref().map(|rules| (&rules[number], load(&rules[number].file())));
        let beside = [2, 3, 1000].into_iter().flat_map(|grain| words_beside(grain, &SECONDS[number]));
        let longer: Vec<PlainWord> = (0..80).map(|_| random_word(&mut random, equal, 6)).collect();
        let mut counts = [0, 0];
        for word in beside.chain(longer) {
            let accepted = !enumerate(equal, &word).accepting.is_empty();
            counts[usize::from(accepted)] += 1;
            let (exact, branch, table, verdicts) = plain.answers(&word);
            assert_eq!((exact, branch.found, table), (accepted, accepted, accepted), "{equal:?} {word:?}");
            assert_eq!(verdicts.last().copied().unwrap_or(accepted), accepted);
            for (rule, loaded) in &sides {
                assert_eq!(enumerate(rule, &word).accepting, enumerate(equal, &word).accepting);
                let none = accepted || word.symbols.is_empty();
                let branch = Branch { held: if none { None } else { held_back(rule, &word) }, ..branch };
                let expected = (exact, branch, table, verdicts.clone());
                assert_eq!(loaded.answers(&word), expected, "{rule:?} {word:?}");
            }
        }
        assert!(counts.iter().all(|&count| count > 10), "rule {number}, too few of some kind: {counts:?}");
    }
}

/// The whole case, its reset pinned from both sides: yes at the whole second, no a D-th beside it.
#[test]
fn a_d_th_beside_the_second_is_no() {
    for [rule, ..] in BOTH_SIDES.map(rules) {
        let loaded = load(&rule.file());
        for grain in [2, 3, 1000] {
            for (stamp, second, expected) in [
                (grain, 2 * grain, true),
                (grain - 1, 2 * grain, false),
                (grain + 1, 2 * grain + 1, false),
                (grain, 2 * grain - 1, false),
                (grain, 2 * grain + 1, true),
            ] {
                let word = PlainWord::new(grain, &[(0, stamp), (1, second)]);
                let (exact, branch, table, verdicts) = loaded.answers(&word);
                assert_eq!((exact, branch.found, table), (expected, expected, expected), "{word:?}");
                assert_eq!(verdicts, [false, expected], "{word:?}");
            }
        }
    }
}

#[test]
fn each_side_can_hold_the_rule_back() {
    let [least_first, most_first, apart] = BOTH_SIDES.map(|pin| load(&rules(pin)[0].file()));
    let held = |loaded: &Loaded, stamp| loaded.answers(&PlainWord::new(2, &[(0, stamp)])).1.held;
    for (loaded, below, above) in [(least_first, 0, 1), (most_first, 1, 0), (apart, 4, 1)] {
        assert_eq!(held(&loaded, 1), Some(below));
        assert_eq!(held(&loaded, 2), None);
        assert_eq!(held(&loaded, 3), Some(above));
    }
}

#[test]
fn decide_ends_as_with_the_equality() {
    let outcome = |rule: &PlainRule, pool: usize, stamps: &[u32]| {
        let mut room = Room::new(6, 24, 9, pool, 9);
        let Room { edges, scratch, cells, rows, pool } = &mut room;
        let outcome = decide(&rule.file(), edges, scratch, cells, rows, pool, 2, &[0, 1], stamps);
        (outcome, room.scratch, room.cells, room.rows, room.pool)
    };
    let [equal, ..] = rules(EQUALITY);
    for [sides, ..] in BOTH_SIDES.map(rules) {
        for (pool, stamps) in [(2, [2, 4]), (2, [2, 3]), (2, [1, 4]), (2, [4, 2]), (1, [2, 4])] {
            assert_eq!(outcome(&sides, pool, &stamps), outcome(&equal, pool, &stamps), "{stamps:?}");
        }
    }
    assert_eq!(outcome(&equal, 2, &[2, 4]).0, Ok(true));
    assert_eq!(outcome(&equal, 2, &[1, 4]).0, Ok(false));
}
