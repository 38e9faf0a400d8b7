//! Either-or guards and not-equal: the texts that spell groups, what is refused of them, and rules with groups
//! against the same rules without.

mod common;

use common::{
    construct, enumerate, held_back, plain_marks, random_marks, random_rule, random_word, record, refusal,
    text, whole_case, Bounds, Mark, PlainAtom, PlainEdge, PlainRule, PlainWord, Random, Room, EDGE,
    EDGE_TABLE,
};
use reference::{
    check_rule, decide, list_table, read_rule, write_rule, Branch, Built, Head, Refusal, EDGE_NUMBERS,
    EDGE_TABLE_NUMBERS,
};
use Mark::{AllOf, AnyOf, Atom, Close};

const LESS: u16 = 0;
const AT_MOST: u16 = 1;
const EQUAL: u16 = 2;
const AT_LEAST: u16 = 3;
const GREATER: u16 = 4;
const NOT_EQUAL: u16 = 5;

/// An atom that always holds.
const ALWAYS: Mark = Atom((0, AT_LEAST, 0));
/// An atom that never holds.
const NEVER: Mark = Atom((0, LESS, 0));

/// A sizes record of 2 locations, 2 symbols and 2 clocks, and then these records.
fn file(records: &[Vec<u8>]) -> Vec<u8> {
    [record(1, &[2, 2, 2]), records.concat()].concat()
}

/// The record of an edge from location 0 to itself on symbol 0 with this mask and text.
fn grouped(mask: u16, text: &[u16]) -> Vec<u8> {
    record(6, &[&[0, 0, 0, mask], text].concat())
}

/// The outcome of reading a file, all zero where it is refused.
fn read(file: &[u8]) -> Result<Head, Refusal> {
    let mut edges = vec![5; EDGE_TABLE];
    let outcome = read_rule(file, &mut edges);
    assert!(outcome.is_ok() || edges == [0; EDGE_TABLE]);
    outcome
}

/// The outcome of reading one edge with this mask and text, the table by hand, and the file written again.
fn read_text(mask: u16, text: &[u16]) -> Result<(), Refusal> {
    let file = file(&[grouped(mask, text)]);
    let mut edges = vec![5; EDGE_TABLE];
    let outcome = read_rule(&file, &mut edges);
    let head = Head { locations: 2, symbols: 2, clocks: 2, edge_count: 1, ..Head::default() };
    let mut by_hand = vec![0; EDGE_TABLE];
    by_hand[..6].copy_from_slice(&[6, 0, 0, 0, mask, text.len() as u16]);
    by_hand[6..6 + text.len()].copy_from_slice(text);
    if outcome.is_err() {
        assert_eq!(edges, [0; EDGE_TABLE]);
        assert_eq!(check_rule(&head, &by_hand), refusal(21, 0), "{text:?}");
        return outcome.map(|_| ());
    }
    assert_eq!(outcome, Ok(head), "{text:?}");
    assert_eq!(edges, by_hand, "{text:?}");
    assert_eq!(check_rule(&head, &edges), Ok(()), "{text:?}");
    let mut out = vec![7; file.len() + 2];
    assert_eq!(write_rule(&head, &edges, &mut out), Ok(file.len()));
    assert_eq!(out, [&file[..], &[7, 7]].concat());
    assert_eq!(write_rule(&head, &edges, &mut out[3..]), refusal(27, 0));
    Ok(())
}

fn accepts(marks: &[Mark]) -> bool {
    read_text(0, &text(marks)).is_ok()
}

/// Says that the text is 6.
fn expect_6(text: &[u16]) {
    assert_eq!(read_text(0, text), refusal(6, 10), "{text:?}");
}

#[test]
fn the_numbers_of_an_edge() {
    assert_eq!((EDGE_NUMBERS, EDGE_TABLE_NUMBERS), (EDGE, EDGE_TABLE));
}

#[test]
fn number_2_is_by_length_alone() {
    for length in 0..200u16 {
        for filling in [0, 4, 255] {
            let body = vec![filling; length.into()];
            let record = [&length.to_le_bytes()[..], &[6, 0], &body].concat();
            let fits = (8..=168).contains(&length) && length % 2 == 0;
            let number = if fits { 6 } else { 2 };
            let open = length == 8 && filling == 0;
            let expected = if open { Ok(1) } else { refusal(number, 10) };
            assert_eq!(read(&file(&[record])).map(|head| head.edge_count), expected, "{length} bytes");
        }
    }
    assert_eq!(read(&record(6, &[0; 3])), refusal(2, 0), "2 before 3");
    assert_eq!(read(&record(6, &[0; 4])), refusal(3, 0), "3 without sizes");
}

#[test]
fn texts_that_keep_the_group_rules() {
    let texts: [&[Mark]; 12] = [
        &[],
        &[ALWAYS],
        &[AnyOf, Close],
        &[AnyOf, ALWAYS, NEVER, Close],
        &[AnyOf, AllOf, Close, Close],
        &[AnyOf, AllOf, AnyOf, Close, Close, Close],
        &[AnyOf, AllOf, AnyOf, ALWAYS, Close, ALWAYS, AnyOf, NEVER, Close, Close, ALWAYS, Close, ALWAYS],
        &[AnyOf, AllOf, Close, AllOf, NEVER, Close, NEVER, AllOf, Close, Close],
        &[ALWAYS, AnyOf, Close, ALWAYS, AnyOf, Close, ALWAYS],
        &[AnyOf, Close, AnyOf, Close, AnyOf, Close, AnyOf, Close],
        &[AnyOf, AllOf, ALWAYS, ALWAYS, Close, AllOf, AnyOf, Close, AnyOf, Close, Close, Close],
        &[Atom((1, NOT_EQUAL, 30)), AnyOf, Atom((0, NOT_EQUAL, 0)), Close],
    ];
    for marks in texts {
        assert!(accepts(marks), "{marks:?}");
    }
}

#[test]
fn number_6_is_a_text_that_breaks_the_group_rules() {
    let texts: [&[Mark]; 11] = [
        &[AllOf, Close],
        &[AllOf, ALWAYS, Close],
        &[AnyOf, AnyOf, Close, Close],
        &[AnyOf, AllOf, AllOf, Close, Close, Close],
        &[AnyOf, AllOf, AnyOf, AnyOf, Close, Close, Close, Close],
        &[Close],
        &[ALWAYS, Close],
        &[AnyOf, Close, Close],
        &[AnyOf],
        &[AnyOf, AllOf, Close],
        &[ALWAYS, AnyOf, ALWAYS],
    ];
    for marks in texts {
        expect_6(&text(marks));
    }
    for mark in [0, 5, 6, 256, 259, 65_535] {
        expect_6(&[mark]);
        expect_6(&[3, 0, 3, 0, mark]);
        expect_6(&[2, mark, 4]);
        expect_6(&[2, 4, mark, 0, 0, 0]);
    }
    for cut in 1..4 {
        expect_6(&[3, 0, 3, 0][..cut]);
        expect_6(&[[2, 4].to_vec(), [3, 0, 3, 0][..cut].to_vec()].concat());
        expect_6(&[[2].to_vec(), [3, 0, 3, 0][..cut].to_vec(), [4].to_vec()].concat());
    }
}

#[test]
fn number_6_is_an_atom_out_of_range_in_any_group() {
    let around: [(&[u16], &[u16]); 4] =
        [(&[], &[]), (&[2], &[4]), (&[2, 1], &[4, 4]), (&[2, 1, 2], &[4, 4, 4])];
    for (before, after) in around {
        let with = |atom: [u16; 3]| [before, &[3], &atom, after].concat();
        for atom in [[0, 0, 0], [1, 5, 30], [1, 2, 14]] {
            assert_eq!(read_text(0, &with(atom)), Ok(()), "{atom:?}");
        }
        for atom in [[2, 0, 0], [65_535, 0, 0], [0, 6, 0], [0, 256, 0], [0, 0, 31], [0, 0, 65_535]] {
            expect_6(&with(atom));
        }
    }
}

#[test]
fn number_6_is_a_number_out_of_range_before_the_text() {
    for (place, number) in [(0, 2), (1, 2), (2, 2), (3, 4), (0, 65_535)] {
        let mut numbers = [0, 0, 0, 0, 3, 0, 2, 0];
        numbers[place] = number;
        assert_eq!(read(&file(&[record(6, &numbers)])), refusal(6, 10), "{number} at {place}");
    }
}

/// A fifth level, a ninth group and a seventeenth atom are 6, and one less is accepted.
#[test]
fn the_limits_of_levels_groups_and_atoms() {
    assert!(accepts(&[AnyOf, AllOf, AnyOf, Close, Close, Close]), "four levels");
    expect_6(&text(&[AnyOf, AllOf, AnyOf, AllOf, Close, Close, Close, Close]));
    expect_6(&text(&[AnyOf, AllOf, AnyOf, AllOf, AnyOf, Close, Close, Close, Close, Close]));

    let groups = |count: usize| [AnyOf, Close].repeat(count);
    let nested = |count: usize| [vec![AnyOf], [AllOf, Close].repeat(count), vec![Close]].concat();
    assert!(accepts(&groups(8)) && accepts(&nested(7)));
    expect_6(&text(&groups(9)));
    expect_6(&text(&nested(8)));

    for atoms in [15, 16, 17] {
        let spread = |outside: usize| {
            let inside = vec![ALWAYS; atoms - outside];
            [vec![ALWAYS; outside], vec![AnyOf], inside, vec![Close]].concat()
        };
        for outside in 0..=atoms {
            assert_eq!(accepts(&spread(outside)), atoms <= 16, "{atoms} atoms, {outside} in no group");
        }
    }
    let full = [groups(7), vec![AnyOf], vec![NEVER; 16], vec![Close]].concat();
    assert_eq!(text(&full).len(), 80);
    assert!(accepts(&full));
}

/// Whether a text keeps the group rules, by the open groups alone.
fn keeps_the_rules(marks: &[Mark]) -> bool {
    let (mut open, mut groups, mut atoms) = (Vec::new(), 0, 0);
    for &mark in marks {
        match mark {
            AllOf | AnyOf => {
                if *open.last().unwrap_or(&AllOf) == mark {
                    return false;
                }
                open.push(mark);
                groups += 1;
            }
            Atom(_) => atoms += 1,
            Close => {
                if open.pop().is_none() {
                    return false;
                }
            }
        }
        if open.len() > 3 || groups > 8 || atoms > 16 {
            return false;
        }
    }
    open.is_empty()
}

/// All texts of up to eight marks.
#[test]
fn every_short_text() {
    let mut counts = [0, 0];
    for length in 0..=8 {
        for number in 0..4usize.pow(length) {
            let marks: Vec<Mark> = (0..length)
                .map(|place| [AllOf, AnyOf, ALWAYS, Close][number / 4usize.pow(place) % 4])
                .collect();
            let kept = keeps_the_rules(&marks);
            let outcome = read(&file(&[grouped(0, &text(&marks))])).map(|_| ());
            assert_eq!(outcome, if kept { Ok(()) } else { refusal(6, 10) }, "{marks:?}");
            counts[usize::from(kept)] += 1;
        }
    }
    // 1, 1, 2, 4, 9, 21, 51, 127, 323 words of brackets and points, less the one with four open.
    assert_eq!(counts, [87_381 - 538, 538]);
}

/// Legal texts with one number changed, put in or left out.
#[test]
fn random_texts_with_a_flaw() {
    let mut random = Random(29);
    let mut counts = [0, 0];
    for _ in 0..20_000 {
        let mut numbers = text(&random_marks(&mut random, 2, 3));
        let place = random.below(numbers.len() as u64 + 1) as usize;
        match random.below(3) {
            0 if place < numbers.len() => numbers[place] = random.below(6) as u16,
            1 if place < numbers.len() => drop(numbers.remove(place)),
            _ => numbers.insert(place, random.below(6) as u16),
        }
        let marks = marks_of(&numbers);
        let kept = marks.is_some_and(|marks| keeps_the_rules(&marks));
        assert_eq!(read_text(0, &numbers), if kept { Ok(()) } else { refusal(6, 10) }, "{numbers:?}");
        counts[usize::from(kept)] += 1;
    }
    assert!(counts[0] > 2000 && counts[1] > 2000, "{counts:?}");
}

/// The marks of a text with two clocks, or none if it has another mark or an atom that is cut or out of range.
fn marks_of(numbers: &[u16]) -> Option<Vec<Mark>> {
    let (mut marks, mut place) = (Vec::new(), 0);
    while place < numbers.len() {
        marks.push(match numbers[place..] {
            [1, ..] => AllOf,
            [2, ..] => AnyOf,
            [3, clock @ 0..2, relation @ 0..6, constant @ 0..31, ..] => Atom((clock, relation, constant)),
            [4, ..] => Close,
            _ => return None,
        });
        place += if numbers[place] == 3 { 4 } else { 1 };
    }
    Some(marks)
}

#[test]
fn number_3_is_a_kind_5_edge_after_a_kind_6_one() {
    let (plain, grouped) = (record(5, &[0; 4]), grouped(0, &[]));
    let read = |records: &[&Vec<u8>]| {
        let records: Vec<Vec<u8>> = records.iter().map(|&record| record.clone()).collect();
        read(&file(&records)).map(|head| head.edge_count)
    };
    assert_eq!(read(&[&plain, &plain, &grouped, &grouped]), Ok(4));
    assert_eq!(read(&[&grouped, &plain]), refusal(3, 22));
    assert_eq!(read(&[&plain, &grouped, &plain]), refusal(3, 34));
    for late in [record(2, &[0]), record(3, &[0]), record(4, &[0]), record(1, &[2, 2, 2])] {
        assert_eq!(read(&[&grouped, &late]), refusal(3, 22));
    }
    assert_eq!(read(&[&grouped, &record(5, &[9; 4])]), refusal(3, 22), "3 before 6");
    assert_eq!(read(&[&grouped, &record(5, &[0; 5])]), refusal(2, 22), "2 before 3");
}

#[test]
fn number_4_is_edge_257_of_either_kind() {
    for plain in [0, 1, 128, 255, 256] {
        let edges = [vec![record(5, &[0; 4]); plain], vec![grouped(0, &[]); 256 - plain]].concat();
        assert_eq!(read(&file(&edges)).map(|head| head.edge_count), Ok(256));
        let more = |last: Vec<u8>| read(&file(&[edges.clone(), vec![last]].concat())).map(|_| ());
        let place = 10 + 256 * 12;
        assert_eq!(more(grouped(0, &[])), refusal(4, place));
        assert_eq!(more(grouped(1, &[9])), refusal(4, place), "4 before 6 and 7");
        assert_eq!(more(record(6, &[0; 3])), refusal(2, place), "2 before 4");
        let falls = if plain == 256 { 4 } else { 3 };
        assert_eq!(more(record(5, &[0; 4])), refusal(falls, place), "3 before 4");
    }
}

/// Says whether an edge with resets and this guard is pinned; without resets it is accepted.
fn expect_pinned(marks: &[Mark], pinned: bool) {
    let numbers = text(marks);
    assert_eq!(read_text(0, &numbers), Ok(()), "{marks:?}");
    for mask in 1..4 {
        let expected = if pinned { Ok(()) } else { refusal(7, 10) };
        assert_eq!(read_text(mask, &numbers), expected, "{marks:?}");
    }
}

#[test]
fn number_7_asks_for_a_pin_on_the_outermost_level() {
    let (equal, least, most) = (Atom((1, EQUAL, 3)), Atom((1, AT_LEAST, 3)), Atom((1, AT_MOST, 3)));
    expect_pinned(&[], false);
    expect_pinned(&[equal], true);
    expect_pinned(&[AnyOf, Close, equal], true);
    expect_pinned(&[equal, AnyOf, ALWAYS, Close], true);
    expect_pinned(&[AnyOf, equal, Close], false);
    expect_pinned(&[AnyOf, AllOf, equal, Close, Close], false);
    expect_pinned(&[AnyOf, AllOf, AnyOf, equal, Close, Close, Close], false);
    expect_pinned(&[AnyOf, equal, equal, Close], false);
    for (first, second) in [(least, most), (most, least)] {
        expect_pinned(&[first, second], true);
        expect_pinned(&[first, AnyOf, NEVER, Close, second], true);
        expect_pinned(&[AnyOf, first, Close, second], false);
        expect_pinned(&[first, AnyOf, second, Close], false);
        expect_pinned(&[first, AnyOf, AllOf, second, Close, Close], false);
        expect_pinned(&[AnyOf, AllOf, first, second, Close, Close], false);
        expect_pinned(&[first, AnyOf, first, second, Close], false);
    }
    expect_pinned(&[least, Atom((1, AT_MOST, 4))], false);
    expect_pinned(&[least, Atom((0, AT_MOST, 3))], false);
    expect_pinned(&[Atom((1, NOT_EQUAL, 3))], false);
    expect_pinned(&[least, Atom((1, NOT_EQUAL, 3)), most], true);
}

#[test]
fn number_6_comes_before_7() {
    for bad in [vec![9], vec![2], vec![4], vec![3, 0, 3], vec![3, 2, 0, 0], vec![1, 4]] {
        assert_eq!(read_text(1, &bad), refusal(6, 10), "{bad:?}");
        let late = [vec![3, 0, 3, 0], bad].concat();
        assert_eq!(read_text(1, &late), refusal(6, 10), "{late:?}");
    }
}

/// cm is the largest constant of any group, of one that never matters too.
#[test]
fn number_8_counts_the_constants_of_all_groups() {
    let around: [(&[Mark], &[Mark]); 5] = [
        (&[], &[]),
        (&[AnyOf], &[Close]),
        (&[AnyOf, ALWAYS, AllOf], &[Close, Close]),
        (&[AnyOf, AllOf, NEVER, AnyOf, ALWAYS], &[Close, Close, Close]),
        (&[AnyOf, Close, Atom((0, GREATER, 4))], &[]),
    ];
    for (before, after) in around {
        let file = |locations: u16, constant: u16| {
            let marks = [before, &[Atom((2, NOT_EQUAL, constant))], after].concat();
            [record(1, &[locations, 1, 3]), grouped(0, &text(&marks))].concat()
        };
        assert!(read(&file(16, 14)).is_ok());
        assert_eq!(read(&file(17, 14)), refusal(8, file(17, 14).len()));
        assert_eq!(read(&file(16, 15)), refusal(8, file(16, 15).len()));
        assert!(read(&file(17, 13)).is_ok());
        let mut room = Room::listing(3);
        let head = room.read(&file(1, 7)).unwrap();
        assert_eq!(room.build(&head).unwrap().largest, 7);
    }
}

#[test]
fn number_20_is_below_22_016_numbers() {
    let file = file(&[grouped(0, &[2, 4])]);
    for length in [0, 7424, EDGE_TABLE - 1] {
        let mut edges = vec![5; length];
        assert_eq!(read_rule(&file, &mut edges), refusal(20, 0));
        assert_eq!(edges, vec![5; length]);
        assert_eq!(check_rule(&Head::default(), &edges), refusal(20, 0));
    }
    let mut edges = vec![5; EDGE_TABLE + 1];
    assert!(read_rule(&file, &mut edges).is_ok());
    assert_eq!(edges[8..], [0; EDGE_TABLE - 7]);
}

/// A head record and an edge table with an edge of kind 5 and two of kind 6, of 14 and 4 text numbers.
fn three_edges() -> (Head, Vec<u16>) {
    let marks = [Atom((1, EQUAL, 3)), AnyOf, Atom((0, NOT_EQUAL, 4)), AllOf, Close, Close, AnyOf, Close];
    let records = [
        record(5, &[0, 1, 0, 1, 0, 2, 4]),
        record(6, &[&[1, 0, 1, 3], &text(&marks)[..]].concat()),
        grouped(0, &text(&[NEVER])),
    ];
    let mut edges = vec![5; EDGE_TABLE + 3];
    let head = read_rule(&file(&records), &mut edges).unwrap();
    (head, edges)
}

#[test]
fn the_edge_table_as_it_is_kept() {
    let (head, edges) = three_edges();
    assert_eq!(head.to_numbers(), [2, 2, 2, 0, 0, 3]);
    assert_eq!(edges[..9], [5, 0, 1, 0, 1, 1, 0, 2, 4]);
    assert_eq!(edges[9..EDGE], [0; EDGE - 9]);
    let second = [6, 1, 0, 1, 3, 14, 3, 1, 2, 3, 2, 3, 0, 5, 4, 1, 4, 4, 2, 4];
    assert_eq!(edges[EDGE..EDGE + 20], second);
    assert_eq!(edges[EDGE + 20..2 * EDGE], [0; EDGE - 20]);
    assert_eq!(edges[2 * EDGE..2 * EDGE + 10], [6, 0, 0, 0, 0, 4, 3, 0, 0, 0]);
    assert_eq!(edges[2 * EDGE + 10..], vec![0; EDGE_TABLE + 3 - 2 * EDGE - 10]);
    assert_eq!(check_rule(&head, &edges), Ok(()));
}

/// Says what a change of three_edges by hand is.
fn expect_by_hand(changes: &[(usize, u16)], passes: bool) {
    let (head, mut edges) = three_edges();
    for &(place, number) in changes {
        edges[place] = number;
    }
    let expected = if passes { Ok(()) } else { refusal(21, 0) };
    assert_eq!(check_rule(&head, &edges), expected, "{changes:?}");
}

/// Where the second and the third edge begin.
const SECOND: usize = EDGE;
const THIRD: usize = 2 * EDGE;

#[test]
fn number_21_is_a_kind_of_no_edge_or_one_that_falls() {
    for kind in [0, 1, 4, 7, 16, 261, 65_535] {
        for edge in [0, SECOND, THIRD] {
            expect_by_hand(&[(edge, kind)], false);
        }
    }
    expect_by_hand(&[(0, 6)], false);
    // The first edge as a text, the others as atoms, none of them with a reset.
    let first = [(0, 6), (4, 0), (5, 4), (6, 3), (7, 0), (8, 2), (9, 4)];
    let unused = (SECOND + 6..SECOND + 20).map(|place| (place, 0));
    let second: Vec<_> = [(SECOND, 5), (SECOND + 4, 0), (SECOND + 5, 0)].into_iter().chain(unused).collect();
    let third = [(THIRD, 5), (THIRD + 5, 0), (THIRD + 6, 0)];
    expect_by_hand(&first, true);
    expect_by_hand(&second, true);
    expect_by_hand(&third, false);
    expect_by_hand(&[&second[..], &third].concat(), true);
    expect_by_hand(&[&first[..], &second].concat(), false);
    expect_by_hand(&[&first[..], &third].concat(), false);
    expect_by_hand(&[&first[..], &second, &third].concat(), false);
}

#[test]
fn number_21_is_a_count_that_does_not_fit() {
    for count in [0, 1, 4, 12, 13, 15, 18, 80, 81, 82, 255, 256, 270, 65_535] {
        expect_by_hand(&[(SECOND + 5, count)], false);
    }
    for count in [0, 1, 3, 5, 80, 81, 260, 65_535] {
        expect_by_hand(&[(THIRD + 5, count)], false);
    }
    // Atoms of zeros are atoms.
    for count in 0..100 {
        expect_by_hand(&[(5, count)], (1..=8).contains(&count));
    }
    for count in [256, 257, 264, 65_535] {
        expect_by_hand(&[(5, count)], false);
    }
    let unused =
        [9, 30, 85, SECOND + 20, SECOND + 85, THIRD + 10, THIRD + 85, 3 * EDGE, EDGE_TABLE, EDGE_TABLE + 2];
    for place in unused {
        for number in [1, 4, 256, 65_535] {
            expect_by_hand(&[(place, number)], false);
        }
    }
}

#[test]
fn number_21_is_a_text_that_no_record_has() {
    expect_by_hand(&[(SECOND + 6, 0)], false);
    expect_by_hand(&[(SECOND + 10, 1)], false);
    expect_by_hand(&[(SECOND + 15, 2)], false);
    expect_by_hand(&[(SECOND + 19, 3)], false);
    expect_by_hand(&[(SECOND + 7, 2)], false);
    expect_by_hand(&[(SECOND + 8, NOT_EQUAL)], false);
    expect_by_hand(&[(SECOND + 8, NOT_EQUAL), (SECOND + 4, 0)], true);
    expect_by_hand(&[(SECOND + 13, 6)], false);
    expect_by_hand(&[(SECOND + 14, 31)], false);
    expect_by_hand(&[(SECOND + 14, 30)], true);
    expect_by_hand(&[(7, NOT_EQUAL)], false);
    expect_by_hand(&[(7, NOT_EQUAL), (4, 0)], true);
    expect_by_hand(&[(7, 6), (4, 0)], false);
}

/// Two locations, the first initial and the second final, one symbol, two clocks and one edge with this guard.
fn one_edge(kind: u16, marks: &[Mark]) -> PlainRule {
    let edge = PlainEdge { kind, marks: marks.to_vec(), ..PlainEdge::plain(0, 1, 0, &[], &[]) };
    PlainRule {
        locations: 2,
        symbols: 1,
        clocks: 2,
        initial: vec![0],
        finals: vec![1],
        ceiling: None,
        edges: vec![edge],
    }
}

/// A rule read and built in the listing program's room.
struct Loaded {
    room: Room,
    head: Head,
    built: Built,
}

fn load(rule: &PlainRule) -> Loaded {
    let mut room = Room::listing(3);
    let head = room.read(&rule.file()).unwrap();
    let built = room.build(&head).unwrap();
    Loaded { room, head, built }
}

impl Loaded {
    /// The verdicts of the exact, branch and table runners, which must agree, and what held the rule back.
    fn answer(&self, word: &PlainWord) -> (bool, Option<usize>) {
        let exact = self.room.exact(&self.head, word, &mut [9; 4000]).unwrap();
        let branch = self.room.branch(&self.head, word).unwrap();
        assert_eq!((branch.found, self.room.table(&self.built, word)), (exact, Ok(exact)), "{word:?}");
        (exact, branch.held)
    }
}

/// What holds the guard back, or nothing, for each of these stamps with D = 2.
fn held_at(marks: &[Mark], stamps: &[u32]) -> Vec<Option<usize>> {
    let loaded = load(&one_edge(6, marks));
    let held = |stamp: &u32| {
        let (accepted, held) = loaded.answer(&PlainWord::new(2, &[(0, *stamp)]));
        assert_eq!(accepted, held.is_none(), "{marks:?} at {stamp}");
        held
    };
    stamps.iter().map(held).collect()
}

#[test]
fn an_empty_all_of_holds_and_an_empty_any_of_does_not() {
    assert_eq!(held_at(&[], &[0, 5]), [None, None]);
    assert_eq!(held_at(&[AnyOf, Close], &[0, 5]), [Some(0), Some(0)]);
    assert_eq!(held_at(&[AnyOf, AllOf, Close, Close], &[0, 5]), [None, None]);
    assert_eq!(held_at(&[AnyOf, AllOf, AnyOf, Close, Close, Close], &[0, 5]), [Some(0), Some(0)]);
    assert_eq!(held_at(&[AnyOf, AllOf, AnyOf, Close, Close, ALWAYS, Close], &[0, 5]), [None, None]);
    assert_eq!(held_at(&[ALWAYS, AnyOf, NEVER, Close, AnyOf, Close], &[0]), [Some(1)]);
}

#[test]
fn a_group_is_one_member() {
    let (early, late) = (Atom((0, LESS, 1)), Atom((1, AT_LEAST, 3)));
    let either = [AnyOf, early, late, Close];
    assert_eq!(held_at(&either, &[0, 1, 2, 5, 6, 7]), [None, None, Some(0), Some(0), None, None]);
    // Atoms before a group count one each, the group's own do not.
    let guard = [&[ALWAYS, Atom((0, NOT_EQUAL, 4))], &either[..], &[ALWAYS, Atom((1, AT_MOST, 5))]].concat();
    let held = [None, Some(2), Some(2), Some(1), None, None, Some(4), Some(4)];
    assert_eq!(held_at(&guard, &[1, 2, 5, 8, 7, 10, 11, 90]), held);
    // The middle of two groups that nest.
    let both =
        [AnyOf, AllOf, AnyOf, early, late, Close, Atom((0, NOT_EQUAL, 4)), Close, Atom((0, EQUAL, 2)), Close];
    let held = [None, Some(1), None, Some(1), None, Some(1), None];
    assert_eq!(held_at(&[&[ALWAYS], &both[..]].concat(), &[1, 2, 4, 5, 6, 8, 9]), held);
}

#[test]
fn the_last_of_sixteen_members_is_named() {
    let never_at_2 = [vec![ALWAYS; 15], vec![Atom((1, NOT_EQUAL, 2))]].concat();
    assert_eq!(held_at(&never_at_2, &[3, 4, 5]), [None, Some(15), None]);
    let groups = [AnyOf, ALWAYS, Close].repeat(7);
    let guard = [&groups[..], &[ALWAYS; 8], &[AnyOf, Atom((1, NOT_EQUAL, 2)), Close]].concat();
    assert_eq!(held_at(&guard, &[3, 4, 5]), [None, Some(15), None]);
    let most = [&[AnyOf, AllOf, Close, Close].repeat(3)[..], &[ALWAYS; 16], &[AnyOf, Close]].concat();
    assert_eq!(held_at(&most, &[3]), [Some(19)]);
}

/// Not equal is less or greater, in both kinds of edges: the same table, and the same verdicts beside the second.
#[test]
fn not_equal_is_less_or_greater() {
    for constant in [0, 1, 2, 30] {
        let apart = [(1, NOT_EQUAL, constant)];
        let mut two = one_edge(5, &plain_marks(&[(1, LESS, constant)]));
        two.edges.push(PlainEdge::plain(0, 1, 0, &[], &[(1, GREATER, constant)]));
        let either = [AnyOf, Atom((1, LESS, constant)), Atom((1, GREATER, constant)), Close];
        for rule in
            [one_edge(5, &plain_marks(&apart)), one_edge(6, &plain_marks(&apart)), one_edge(6, &either)]
        {
            compare_tables(&rule, &two);
            let loaded = load(&rule);
            for grain in [1, 2, 1000] {
                let at = u32::from(constant) * grain;
                for stamp in [at.saturating_sub(1), at, at + 1] {
                    let answer = loaded.answer(&PlainWord::new(grain, &[(0, stamp)]));
                    let expected = if stamp == at { (false, Some(0)) } else { (true, None) };
                    assert_eq!(answer, expected, "{constant}, {stamp} of {grain}");
                }
            }
        }
    }
}

/// Says that a rule's table is the same, number by number, as that of another.
fn compare_tables(rule: &PlainRule, other: &PlainRule) {
    let (loaded, plain) = (load(rule), load(other));
    assert_eq!(loaded.built, plain.built, "{rule:?}");
    let edges = plain.room.edges.clone();
    assert_eq!(Room { edges, ..loaded.room }, plain.room, "{rule:?}");
    assert_eq!(list_table(&rule.file()), list_table(&other.file()));
}

/// Atoms alone are the same guard in both kinds.
#[test]
fn atoms_alone_are_the_same_in_both_kinds() {
    let mut random = Random(30);
    let bounds = Bounds { locations: 3, symbols: 2, clocks: 2, edges: 6, constant: 2 };
    for _ in 0..100 {
        let mut rule = random_rule(&mut random, &bounds);
        rule.edges.retain(|edge| edge.kind == 5);
        let mut grouped = rule.clone();
        let from = random.below(rule.edges.len() as u64 + 1) as usize;
        grouped.edges[from..].iter_mut().for_each(|edge| edge.kind = 6);
        if list_table(&rule.file()).starts_with(b"no") {
            assert_eq!(list_table(&grouped.file()), list_table(&rule.file()));
            continue;
        }
        compare_tables(&grouped, &rule);
        let [plain, grouped] = [load(&rule), load(&grouped)];
        for _ in 0..20 {
            let word = random_word(&mut random, &rule, 5);
            assert_eq!(grouped.room.branch(&grouped.head, &word), plain.room.branch(&plain.head, &word));
            assert_eq!(grouped.answer(&word), plain.answer(&word));
        }
    }
}

/// The ways in which a guard can hold: lists of atoms, all of which hold in one of them exactly where it does.
/// Not equal is taken apart too.
fn ways(marks: &[Mark]) -> Vec<Vec<PlainAtom>> {
    let mut open = vec![(AllOf, vec![vec![]])];
    for &mark in marks {
        let member = match mark {
            AllOf => {
                open.push((AllOf, vec![vec![]]));
                continue;
            }
            AnyOf => {
                open.push((AnyOf, vec![]));
                continue;
            }
            Atom((clock, NOT_EQUAL, constant)) => {
                vec![vec![(clock, LESS, constant)], vec![(clock, GREATER, constant)]]
            }
            Atom(atom) => vec![vec![atom]],
            Close => open.pop().unwrap().1,
        };
        let (group, so_far) = open.last_mut().unwrap();
        if *group == AnyOf {
            so_far.extend(member);
        } else {
            *so_far =
                so_far.iter().flat_map(|way| member.iter().map(|more| [&way[..], more].concat())).collect();
        }
    }
    open.pop().unwrap().1
}

/// The rule with an edge of kind 5 for each way of each edge, or none if that is no rule: too many edges or atoms.
fn without_groups(rule: &PlainRule) -> Option<PlainRule> {
    let mut plain = PlainRule { edges: Vec::new(), ..rule.clone() };
    for edge in &rule.edges {
        for mut way in ways(&edge.marks) {
            way.sort();
            way.dedup();
            if way.len() > 8 || plain.edges.len() == 255 {
                return None;
            }
            plain.edges.push(PlainEdge { kind: 5, marks: plain_marks(&way), ..edge.clone() });
        }
    }
    // Keeps cm, where a constant stands in no way.
    let largest = rule.largest() as u16;
    plain.edges.push(PlainEdge::plain(0, 0, 0, &[], &[(0, LESS, 0), (0, LESS, largest)]));
    Some(plain)
}

/// A rule with groups has the table of the rule with an edge for each way, and accepts the same words.
#[test]
fn random_rules_against_an_edge_for_each_way() {
    let mut random = Random(31);
    let bounds = Bounds { locations: 3, symbols: 2, clocks: 3, edges: 6, constant: 3 };
    let (mut compared, mut grouped, mut accepted) = (0, 0, 0);
    for _ in 0..600 {
        let rule = random_rule(&mut random, &bounds);
        let Some(plain) = without_groups(&rule) else { continue };
        if list_table(&rule.file()).starts_with(b"no") {
            assert_eq!(list_table(&plain.file()), list_table(&rule.file()));
            continue;
        }
        compare_tables(&rule, &plain);
        compared += 1;
        grouped += rule.edges.iter().filter(|edge| edge.has_groups()).count();
        let [loaded, plain] = [load(&rule), load(&plain)];
        for _ in 0..10 {
            let word = random_word(&mut random, &rule, 5);
            let (verdict, held) = loaded.answer(&word);
            assert_eq!(verdict, plain.answer(&word).0);
            let none = verdict || word.symbols.is_empty();
            assert_eq!(held, if none { None } else { held_back(&rule, &word) });
            accepted += usize::from(verdict);
        }
    }
    println!("{compared} rules with {grouped} edges that have groups, {accepted} words accepted");
    assert!(compared > 200 && grouped > 300 && accepted > 500, "too few of some kind");
}

/// Guards of all sizes: the table, and what holds them back by the definition, at the seconds and beside them.
#[test]
fn random_guards() {
    let mut random = Random(32);
    let (mut held_at, mut open) = ([0; 24], 0);
    for _ in 0..2000 {
        let rule = one_edge(6, &random_marks(&mut random, 2, 4));
        let Loaded { room, head, built } = load(&rule);
        let cells = construct(&rule, 400).unwrap().cell_numbers();
        assert_eq!(room.cells[..cells.len()], cells);
        for stamp in 0..10 {
            let word = PlainWord::new(2, &[(0, stamp)]);
            let found = !enumerate(&rule, &word).accepting.is_empty();
            let held = if found { None } else { held_back(&rule, &word) };
            assert_eq!(room.branch(&head, &word), Ok(Branch { found, held, ..Branch::default() }));
            assert_eq!(room.table(&built, &word), Ok(found));
            match held {
                Some(position) => held_at[position] += 1,
                None => open += 1,
            }
        }
    }
    println!("held at {held_at:?}, open {open}");
    assert!(open > 3000 && held_at[..5].iter().all(|&count| count > 50), "too few of some kind");
}

/// The whole case with its guards as texts of groups.
#[test]
fn the_whole_case_with_groups() {
    let [at_1, late] = [Atom((0, EQUAL, 1)), Atom((0, AT_LEAST, 1))];
    let edges = vec![
        PlainEdge {
            kind: 6,
            marks: vec![AnyOf, NEVER, AllOf, Close, Close, at_1],
            ..PlainEdge::plain(0, 1, 0, &[0], &[])
        },
        PlainEdge { kind: 6, marks: vec![AnyOf, late, NEVER, Close], ..PlainEdge::plain(1, 0, 1, &[], &[]) },
    ];
    let rule = PlainRule {
        locations: 2,
        symbols: 2,
        clocks: 1,
        initial: vec![0],
        finals: vec![0],
        ceiling: None,
        edges,
    };
    assert_eq!(list_table(&rule.file()), list_table(&whole_case()));
    for (stamps, verdict) in
        [([2, 4], Ok(true)), ([2, 3], Ok(false)), ([1, 4], Ok(false)), ([4, 2], refusal(33, 2))]
    {
        let mut room = Room::new(1, 24, 9, 2, 9);
        let Room { edges, scratch, cells, rows, pool } = &mut room;
        let outcome = decide(&rule.file(), edges, scratch, cells, rows, pool, 2, &[0, 1], &stamps);
        assert_eq!(outcome, verdict, "{stamps:?}");
        assert_eq!((room.scratch, room.rows), (vec![0], vec![0, 1, 1, 1, 0, 0, 1, 1, 0]));
        assert_eq!(room.edges[..6], [6, 0, 1, 0, 1, 12]);
    }
}
