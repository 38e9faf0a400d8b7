//! Edges of kind 6, whose guards have groups, and not-equal: the edge table, the same bytes written back, guards by
//! every runner, what holds a word back, and 2, 3, 4, 6, 7 and 21 at their bounds.

mod common;

use alderskein::{
    decide, LeastRun, Refusal, Room, Rule, Size, Table, Word, Words, EDGE_NUMBERS, EDGE_TABLE, LONGEST_FILE,
};
use common::{followed, record, refused, word};

/// The kinds of an edge.
const PLAIN: u16 = 5;
const GROUPED: u16 = 6;

/// The marks of a text: two open a group, one is an atom with its three numbers, one closes.
const ALL: u16 = 1;
const ANY: u16 = 2;
const ATOM: u16 = 3;
const CLOSE: u16 = 4;

/// The relations.
const LESS: u16 = 0;
const AT_MOST: u16 = 1;
const EQUAL: u16 = 2;
const AT_LEAST: u16 = 3;
const GREATER: u16 = 4;
const NOT_EQUAL: u16 = 5;

/// Places of an edge in the edge table.
const MASK: usize = 4;
const COUNT: usize = 5;
const TEXT: usize = 6;

/// The most numbers of text, and where the first edge begins in `file`.
const MOST_TEXT: usize = EDGE_NUMBERS - TEXT;
const EDGE_AT: usize = 22;

/// An atom of the one clock.
fn atom(relation: u16, constant: u16) -> Vec<u16> {
    vec![ATOM, 0, relation, constant]
}

/// A group of these members.
fn group(mark: u16, members: &[Vec<u16>]) -> Vec<u16> {
    [vec![mark], members.concat(), vec![CLOSE]].concat()
}

fn any(members: &[Vec<u16>]) -> Vec<u16> {
    group(ANY, members)
}

fn all(members: &[Vec<u16>]) -> Vec<u16> {
    group(ALL, members)
}

/// An edge from location 0 to location 1 with this mask and this text.
fn edge(mask: u16, text: &[u16]) -> Vec<u8> {
    record(GROUPED, &[&[0, 1, 0, mask], text].concat())
}

/// Two locations, the first initial and the second final, one symbol and one clock; then these edges.
fn file(edges: &[Vec<u8>]) -> Vec<u8> {
    let front = [record(1, &[2, 1, 1]), record(2, &[0]), record(3, &[1])].concat();
    [front, edges.concat()].concat()
}

fn rule(text: &[u16]) -> Rule {
    Rule::read(&file(&[edge(0, text)])).unwrap()
}

/// The rule of an edge with no text, with this mask and text put into its edge table.
fn in_table(mask: u16, text: &[u16]) -> Result<Rule, Refusal> {
    let rule = rule(&[]);
    let mut edges = rule.edges().to_vec();
    (edges[MASK], edges[COUNT]) = (mask, text.len() as u16);
    edges[TEXT..TEXT + text.len()].copy_from_slice(text);
    Rule::from_parts(rule.head(), edges)
}

/// 4 levels, 8 groups and 16 atoms.
fn most() -> Vec<u16> {
    let two = || [atom(NOT_EQUAL, 1), atom(LESS, 4)].concat();
    let deep = any(&[all(&[any(&[two()]), two()]), two()]);
    [deep.clone(), deep, any(&[two()]), any(&[two()])].concat()
}

#[test]
fn sizes() {
    assert_eq!((EDGE_NUMBERS, EDGE_TABLE, MOST_TEXT), (86, 22_016, 80));
    let edges = edge(0, &[0; MOST_TEXT]).len() * (EDGE_TABLE / EDGE_NUMBERS);
    let locations = record(2, &[0]).len() * 64;
    assert_eq!(LONGEST_FILE, record(1, &[0; 3]).len() + locations + record(4, &[0]).len() + edges);
}

#[test]
fn the_edge_table_and_the_bytes_written_back() {
    let plain = record(PLAIN, &[0, 0, 0, 1, 0, EQUAL, 2, 0, NOT_EQUAL, 30]);
    let text = [atom(EQUAL, 1), any(&[atom(LESS, 3), all(&[])])].concat();
    let file = file(&[plain, edge(1, &text), edge(0, &[])]);
    let rule = Rule::read(&file).unwrap();
    let mut expected = vec![0; EDGE_TABLE];
    expected[..12].copy_from_slice(&[5, 0, 0, 0, 1, 2, 0, 2, 2, 0, 5, 30]);
    let front = [6, 0, 1, 0, 1, 12, 3, 0, 2, 1, 2, 3, 0, 0, 3, 1, 4, 4];
    expected[EDGE_NUMBERS..][..front.len()].copy_from_slice(&front);
    expected[2 * EDGE_NUMBERS..][..3].copy_from_slice(&[6, 0, 1]);
    assert_eq!(rule.edges(), expected);
    assert_eq!(rule.head().count, 3);
    assert_eq!(rule.write(), Ok(file));
    assert_eq!(Rule::from_parts(rule.head(), expected), Ok(rule));
}

#[test]
fn texts_that_keep_the_group_rules_are_accepted() {
    assert_eq!(most().len(), MOST_TEXT);
    let texts = [
        vec![],
        most(),
        atom(NOT_EQUAL, 30).repeat(16),
        any(&[]).repeat(8),
        any(&[all(&[any(&[])])]),
        any(&[all(&[]), atom(LESS, 1), all(&[atom(LESS, 1), any(&[]), any(&[])])]),
    ];
    for text in texts {
        let file = file(&[edge(0, &text)]);
        let rule = Rule::read(&file).unwrap();
        assert_eq!(rule.write(), Ok(file), "{text:?}");
        assert_eq!(in_table(0, &text), Ok(rule), "{text:?}");
    }
}

#[test]
fn texts_that_break_the_group_rules_are_6_in_a_file_and_21_in_a_table() {
    let x = || atom(AT_LEAST, 0);
    let texts = [
        vec![0],
        vec![5],
        [x(), vec![6], x()].concat(),
        vec![u16::MAX],
        x()[..1].to_vec(),
        [x(), x()[..3].to_vec()].concat(),
        vec![CLOSE],
        [x(), vec![CLOSE]].concat(),
        vec![ANY],
        [any(&[x()]), vec![ANY], x()].concat(),
        all(&[x()]),
        any(&[any(&[x()])]),
        any(&[all(&[all(&[x()])])]),
        any(&[all(&[any(&[all(&[])])])]),
        any(&[]).repeat(9),
        x().repeat(17),
        [x().repeat(8), any(&[x().repeat(9)])].concat(),
        [ATOM, 1, AT_LEAST, 0].to_vec(),
        atom(6, 0),
        atom(LESS, 31),
        any(&[x(), all(&[atom(LESS, 31)])]),
    ];
    for text in texts {
        assert_eq!(Rule::read(&file(&[edge(0, &text)])), refused(6, EDGE_AT), "{text:?}");
        assert_eq!(Rule::read(&file(&[edge(1, &text)])), refused(6, EDGE_AT), "before 7: {text:?}");
        assert_eq!(in_table(0, &text), refused(21, 0), "{text:?}");
    }
    let relation_6 = record(PLAIN, &[0, 0, 0, 0, 0, 6, 0]);
    assert_eq!(Rule::read(&file(&[relation_6])), refused(6, EDGE_AT));
}

#[test]
fn a_body_of_8_to_168_bytes() {
    let read = |body: usize| {
        let edge = [vec![body as u8, 0, 6, 0], vec![0; body]].concat();
        Rule::read(&file(&[edge])).map(|rule| rule.head().count)
    };
    for body in [0, 2, 6, 7, 9, 11, 167, 169, 170, 172] {
        assert_eq!(read(body), refused(2, EDGE_AT), "{body} bytes");
    }
    assert_eq!(read(8), Ok(1));
    for body in [10, 166, 168] {
        assert_eq!(read(body), refused(6, EDGE_AT), "{body} bytes: mark 0");
    }
}

#[test]
fn plain_edges_come_before_grouped_ones() {
    let plain = record(PLAIN, &[0, 0, 0, 0]);
    let grouped = edge(0, &[]);
    let rule = Rule::read(&file(&[plain.clone(), grouped.clone()])).unwrap();
    let behind = EDGE_AT + grouped.len();
    assert_eq!(Rule::read(&file(&[grouped.clone(), plain.clone()])), refused(3, behind));
    let mut edges = rule.edges().to_vec();
    let (first, second) = edges[..2 * EDGE_NUMBERS].split_at_mut(EDGE_NUMBERS);
    first.swap_with_slice(second);
    assert_eq!(Rule::from_parts(rule.head(), edges), refused(21, 0));
    let many = |grouped_count| {
        let edges = [plain.repeat(256 - grouped_count), grouped.repeat(grouped_count)];
        Rule::read(&file(&[edges.concat(), grouped.clone()]))
    };
    for grouped_count in [0, 1, 256] {
        assert_eq!(many(grouped_count), refused(4, EDGE_AT + 256 * grouped.len()), "{grouped_count}");
    }
}

#[test]
fn a_count_or_an_unused_place_that_does_not_fit_is_21() {
    let rule = rule(&any(&[atom(LESS, 3)]));
    let with = |place: usize, number| {
        let mut edges = rule.edges().to_vec();
        edges[place] = number;
        Rule::from_parts(rule.head(), edges)
    };
    assert_eq!(with(COUNT, 6), Ok(rule.clone()));
    for (place, number) in
        [(0, 5), (0, 7), (0, 0), (COUNT, 5), (COUNT, 7), (COUNT, 81), (TEXT + 6, 4), (EDGE_NUMBERS - 1, 1)]
    {
        assert_eq!(with(place, number), refused(21, 0), "{number} at {place}");
    }
}

#[test]
fn a_pin_stands_on_the_outermost_level() {
    let sides = || [atom(AT_LEAST, 3), atom(AT_MOST, 3)];
    let pinned = [
        [any(&[atom(LESS, 1)]), atom(EQUAL, 3)].concat(),
        [atom(AT_MOST, 3), any(&[]), atom(AT_LEAST, 3)].concat(),
    ];
    for text in pinned {
        let rule = Rule::read(&file(&[edge(1, &text)])).unwrap();
        assert_eq!(in_table(1, &text), Ok(rule), "{text:?}");
    }
    let not_pinned = [
        vec![],
        any(&[atom(EQUAL, 3)]),
        any(&[atom(EQUAL, 3), atom(EQUAL, 4)]),
        any(&[all(&[atom(EQUAL, 3)])]),
        any(&[all(&sides())]),
        [atom(AT_LEAST, 3), any(&[atom(AT_MOST, 3)])].concat(),
        [any(&[atom(AT_LEAST, 3)]), atom(AT_MOST, 3)].concat(),
        atom(NOT_EQUAL, 3),
    ];
    for text in not_pinned {
        assert_eq!(Rule::read(&file(&[edge(1, &text)])), refused(7, EDGE_AT), "{text:?}");
        assert_eq!(in_table(1, &text), refused(21, 0), "{text:?}");
        assert!(in_table(0, &text).is_ok(), "no reset, no pin: {text:?}");
    }
}

fn table(rule: &Rule) -> Table {
    rule.build(Room::LISTING).unwrap()
}

/// What every runner says of a word.
fn verdict(rule: &Rule, word: &Word) -> bool {
    let table = table(rule);
    let yes = table.run(word).unwrap();
    assert_eq!(followed(&table, word), yes, "{word}");
    assert_eq!(rule.accepts(word, 64), Ok(yes), "{word}");
    assert_eq!(matches!(rule.least_run(word).unwrap(), LeastRun::Found(_)), yes, "{word}");
    assert_eq!(decide(&rule.write().unwrap(), Room::LISTING, word), Ok(yes), "{word}");
    yes
}

/// The half seconds up to 4 s at which the guard of this text holds.
fn holds_at(text: &[u16]) -> Vec<u32> {
    let rule = rule(text);
    (0..=8).filter(|&stamp| verdict(&rule, &word(2, &[(0, stamp)]))).collect()
}

#[test]
fn guards_by_every_runner() {
    let between = || all(&[atom(GREATER, 1), atom(LESS, 2)]);
    assert_eq!(holds_at(&[]), [0, 1, 2, 3, 4, 5, 6, 7, 8]);
    assert_eq!(holds_at(&atom(NOT_EQUAL, 2)), [0, 1, 2, 3, 5, 6, 7, 8]);
    assert_eq!(holds_at(&any(&[])), []);
    assert_eq!(holds_at(&any(&[all(&[])])), [0, 1, 2, 3, 4, 5, 6, 7, 8]);
    assert_eq!(holds_at(&any(&[all(&[any(&[])])])), []);
    assert_eq!(holds_at(&any(&[atom(LESS, 1), between(), atom(EQUAL, 3)])), [0, 1, 3, 6]);
    assert_eq!(
        holds_at(&[any(&[atom(LESS, 1), atom(GREATER, 2)]), atom(NOT_EQUAL, 3)].concat()),
        [0, 1, 5, 7, 8]
    );
    let either = any(&[all(&[any(&[atom(EQUAL, 1), atom(EQUAL, 2)]), atom(NOT_EQUAL, 1)]), atom(EQUAL, 4)]);
    assert_eq!(holds_at(&either), [4, 8]);
    assert_eq!(holds_at(&[either, atom(LESS, 4)].concat()), [4]);
}

#[test]
fn cm_counts_atoms_of_every_group() {
    let rule = rule(&any(&[atom(LESS, 1), all(&[any(&[atom(EQUAL, 5)])])]));
    assert_eq!(table(&rule).built().top, 5);
}

#[test]
fn not_equal_in_a_plain_edge() {
    let edge = record(PLAIN, &[0, 1, 0, 0, 0, NOT_EQUAL, 1, 0, NOT_EQUAL, 3]);
    let rule = Rule::read(&file(&[edge])).unwrap();
    let yes: Vec<u32> = (0..=8).filter(|&stamp| verdict(&rule, &word(2, &[(0, stamp)]))).collect();
    assert_eq!(yes, [0, 1, 3, 4, 5, 7, 8]);
}

#[test]
fn a_member_of_the_outermost_level_is_named() {
    let inner = all(&[atom(NOT_EQUAL, 2), atom(LESS, 4)]);
    let rule = rule(&[atom(AT_LEAST, 1), any(&[atom(EQUAL, 5), inner]), atom(NOT_EQUAL, 3)].concat());
    let held = |stamp| match rule.least_run(&word(2, &[(0, stamp)])).unwrap() {
        LeastRun::Found(_) => panic!("accepted at {stamp}"),
        LeastRun::NoRun { held } => held,
    };
    assert_eq!(held(1), Some(0), "the atom before the group");
    assert_eq!(held(4), Some(1), "the group, whatever it holds");
    assert_eq!(held(6), Some(2), "the atom behind the group");
    assert_eq!(held(8), Some(1));
    assert!(matches!(rule.least_run(&word(2, &[(0, 10)])), Ok(LeastRun::Found(_))));
}

#[test]
fn four_edges_become_one() {
    let either = Rule::read(include_bytes!("../../../examples/either.rule")).unwrap();
    let four = Rule::read(include_bytes!("../../../examples/four.rule")).unwrap();
    assert_eq!((either.head().count, four.head().count), (7, 11));
    assert_eq!(table(&either), table(&four));
    for listed in Words::up_to(Size { symbols: 3, events: 2, seconds: 5 }).unwrap() {
        let word = Word::from(listed);
        assert_eq!(verdict(&either, &word), verdict(&four, &word), "{word}");
    }
}
