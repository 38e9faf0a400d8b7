//! One bit per code in the build scratch: how long it must be, what it holds at first and in the end, and
//! sets that differ in a single bit.

mod common;

use common::{construct, plain_marks, refusal, PlainEdge, PlainRule, PlainTable, Room, EDGE_TABLE};
use reference::{list_table, Built, Refusal};

/// L, K and cm, and with them N and how many numbers its bits take.
#[derive(Clone, Copy, Debug)]
struct Size {
    locations: u16,
    clocks: u16,
    largest: u16,
    codes: u32,
    numbers: usize,
}

const fn size(locations: u16, clocks: u16, largest: u16, codes: u32, numbers: usize) -> Size {
    Size { locations, clocks, largest, codes, numbers }
}

/// About one full number and about two.
const SMALL: [Size; 5] = [
    size(1, 1, 29, 31, 1),
    size(1, 1, 30, 32, 1),
    size(11, 1, 1, 33, 2),
    size(2, 1, 30, 64, 2),
    size(13, 1, 3, 65, 3),
];

/// All sizes with the largest N.
const LARGEST: [Size; 4] = [
    size(1, 4, 14, 65_536, 2_048),
    size(2, 3, 30, 65_536, 2_048),
    size(16, 3, 14, 65_536, 2_048),
    size(16, 4, 6, 65_536, 2_048),
];

fn sizes() -> impl Iterator<Item = Size> {
    SMALL.into_iter().chain(LARGEST)
}

/// An edge on symbol 0 that is always open.
fn edge(source: u16, target: u16) -> PlainEdge {
    PlainEdge::plain(source, target, 0, &[], &[])
}

/// A rule with one symbol, one clock and these edges, location 0 final.
fn rule(locations: u16, initial: &[u16], edges: Vec<PlainEdge>) -> PlainRule {
    let initial = initial.to_vec();
    PlainRule { locations, symbols: 1, clocks: 1, initial, finals: vec![0], ceiling: None, edges }
}

/// A rule of this size: location 0 leads to every location, and once more, with a reset of clock 0, when
/// that is at the constant.
fn spread(size: Size, constant: u16) -> PlainRule {
    let open = (0..size.locations).map(|target| edge(0, target));
    let reset = |edge| PlainEdge { resets: vec![0], marks: plain_marks(&[(0, 2, constant)]), ..edge };
    let mut edges: Vec<PlainEdge> = open.clone().chain(open.map(reset)).collect();
    edges.push(PlainEdge { marks: plain_marks(&[(0, 4, size.largest)]), ..edge(0, 0) });
    let rule = PlainRule { clocks: size.clocks, ..rule(size.locations, &[0], edges) };
    assert_eq!(rule.code_count(), size.codes.into());
    rule
}

/// A rule and the table that sets of pairs give for it.
struct Case {
    rule: PlainRule,
    table: PlainTable,
}

impl Case {
    fn new(rule: PlainRule) -> Self {
        let table = construct(&rule, 400).unwrap();
        Case { rule, table }
    }

    fn spread(size: Size) -> Self {
        Case::new(spread(size, size.largest))
    }

    /// Just enough room for the tables, and this much scratch, all of it ones.
    fn room(&self, scratch: usize) -> Room {
        let ones = |length| vec![u32::MAX; length];
        Room {
            edges: vec![u16::MAX; EDGE_TABLE],
            scratch: ones(scratch),
            cells: ones(self.table.cells.len()),
            rows: ones(3 * self.table.rows.len()),
            pool: ones(self.table.rows.iter().map(|row| row.len()).sum()),
        }
    }

    /// Reads the rule and builds its table.
    fn build(&self, room: &mut Room) -> Result<Built, Refusal> {
        let head = room.read(&self.rule.file()).unwrap();
        room.build(&head)
    }

    /// Builds in room that is just enough, compares all that is lent, and returns the codes of each row.
    fn build_and_compare(&self, mut room: Room) -> Vec<Vec<u32>> {
        let built = self.build(&mut room).unwrap();
        assert_eq!((built.rows as usize, built.pool as usize), (self.table.rows.len(), room.pool.len()));
        assert_eq!(room.cells, self.table.cell_numbers());
        assert_eq!(room.rows, self.table.row_numbers(&self.rule));
        assert_eq!(room.pool, self.table.row_codes(&self.rule).concat());
        assert_zero(&room.scratch);
        let codes = |row: &[u32]| room.pool[row[0] as usize..][..row[1] as usize].to_vec();
        room.rows.chunks(3).map(codes).collect()
    }

    /// Builds in room that is too little for the tables; the refusal's number.
    fn build_in_vain(&self, mut room: Room) -> u8 {
        let Refusal { number, place } = self.build(&mut room).unwrap_err();
        assert_eq!(place, 0);
        for lent in [&room.scratch, &room.cells, &room.rows, &room.pool] {
            assert_zero(lent);
        }
        number
    }
}

fn assert_zero(numbers: &[u32]) {
    assert!(numbers.iter().all(|&number| number == 0));
}

#[test]
fn just_enough_scratch_is_n_over_32_rounded_up() {
    for size in sizes() {
        let case = Case::spread(size);
        case.build_and_compare(case.room(size.numbers));
    }
}

#[test]
fn one_number_less_is_22_and_leaves_all_untouched() {
    for size in sizes() {
        let case = Case::spread(size);
        let short = case.room(size.numbers - 1);
        let no_tables = Room { cells: vec![], rows: vec![], pool: vec![], ..short.clone() };
        for mut room in [short, no_tables] {
            let head = room.read(&case.rule.file()).unwrap();
            let before = room.clone();
            assert_eq!(room.build(&head), refusal(22, 0), "{size:?}");
            assert_eq!(room, before, "{size:?}");
        }
    }
}

#[test]
fn the_fewest_codes_take_one_number() {
    let case = Case::new(rule(1, &[0], vec![edge(0, 0)]));
    assert_eq!(case.rule.code_count(), 2);
    assert_eq!(case.build(&mut case.room(0)), refusal(22, 0));
    case.build_and_compare(case.room(1));
}

#[test]
fn scratch_past_the_bits_ends_as_zero_too() {
    for size in sizes() {
        let case = Case::spread(size);
        for more in [1, 2, 70_000] {
            case.build_and_compare(case.room(size.numbers + more));
        }
    }
}

#[test]
fn what_the_scratch_holds_at_first_does_not_matter() {
    for size in sizes() {
        let case = Case::spread(size);
        for fill in [0, 1, 1 << 31, 0x5555_5555, 0xaaaa_aaaa] {
            let mut room = case.room(size.numbers + 1);
            room.scratch.fill(fill);
            case.build_and_compare(room);
        }
    }
}

#[test]
fn any_lack_of_rows_is_23_and_of_codes_24() {
    for size in SMALL {
        let case = Case::spread(size);
        let full = case.room(size.numbers + 1);
        for cells in 0..full.cells.len() {
            let room = Room { cells: vec![u32::MAX; cells], ..full.clone() };
            assert_eq!(case.build_in_vain(room), 23, "{size:?}, {cells} cells");
        }
        for rows in 0..full.rows.len() {
            let room = Room { rows: vec![u32::MAX; rows], ..full.clone() };
            assert_eq!(case.build_in_vain(room), 23, "{size:?}, {rows} row numbers");
        }
        for pool in 0..full.pool.len() {
            let room = Room { pool: vec![u32::MAX; pool], ..full.clone() };
            assert_eq!(case.build_in_vain(room), 24, "{size:?}, {pool} codes");
        }
    }
}

#[test]
fn the_largest_scratch_is_zero_after_23_and_24() {
    for size in LARGEST {
        let case = Case::spread(size);
        let mut room = case.room(size.numbers);
        room.pool.pop();
        assert_eq!(case.build_in_vain(room.clone()), 24, "{size:?}");
        room.rows.pop();
        assert_eq!(case.build_in_vain(room), 23, "{size:?}, the last row fits neither");
    }
}

/// A row holds the bases 0, cm and "above cm" of every location.
#[test]
fn the_first_and_the_last_bits_are_codes_of_a_row() {
    let expected = [
        vec![0, 29, 30],
        vec![0, 30, 31],
        (0..33).collect(),
        vec![0, 30, 31, 32, 62, 63],
        (0..65).filter(|code| code % 5 != 1 && code % 5 != 2).collect(),
    ];
    for (size, row) in SMALL.into_iter().zip(expected) {
        let case = Case::spread(size);
        let rows = case.build_and_compare(case.room(size.numbers));
        assert!(rows.contains(&row), "{size:?}, {rows:?}");
    }
    for size in LARGEST {
        let case = Case::spread(size);
        let rows = case.build_and_compare(case.room(size.numbers));
        assert_eq!((rows[0].first(), rows.concat().iter().max()), (Some(&0), Some(&65_535)), "{size:?}");
    }
}

/// With a reset at 1 the bases go up one by one, so that a row is part of a later one, up to all codes.
#[test]
fn all_bits_are_codes_of_a_row() {
    for size in SMALL {
        let case = Case::new(spread(size, 1));
        let rows = case.build_and_compare(case.room(size.numbers));
        assert!(rows.contains(&(0..size.codes).collect()), "{size:?}, {rows:?}");
    }
}

/// The edges of location l to l + 1, from the first to the last.
fn chain(first: u16, last: u16) -> Vec<PlainEdge> {
    (first..last).map(|location| edge(location, location + 1)).collect()
}

/// With cm = 30 and one clock, each location has a number of its own.
#[test]
fn the_same_bit_of_another_number_is_another_code() {
    let mut edges = chain(0, 31);
    edges.push(PlainEdge { marks: plain_marks(&[(0, 4, 30)]), ..edge(0, 1) });
    let case = Case::new(rule(32, &[0], edges));
    let rows = case.build_and_compare(case.room(32));
    let expected: Vec<Vec<u32>> = (0..32).map(|location| vec![32 * location]).chain([vec![]]).collect();
    assert_eq!(rows, expected);
}

/// Without atoms location l has code 2l. A token stays in one location, and another walks.
#[test]
fn sets_of_a_length_that_differ_in_one_code_are_rows_of_their_own() {
    let walk_above = Case::new(rule(32, &[0, 1], [chain(1, 31), vec![edge(0, 0)]].concat()));
    let rows = walk_above.build_and_compare(walk_above.room(2));
    let expected: Vec<Vec<u32>> = (1..32).map(|location| vec![0, 2 * location]).chain([vec![0]]).collect();
    assert_eq!(rows, expected);

    let walk_below = Case::new(rule(32, &[0, 31], [chain(0, 30), vec![edge(31, 31)]].concat()));
    let rows = walk_below.build_and_compare(walk_below.room(2));
    let expected: Vec<Vec<u32>> = (0..31).map(|location| vec![2 * location, 62]).chain([vec![62]]).collect();
    assert_eq!(rows, expected);
}

/// Two sets lead to one another: when they have their rows, row table and pool are full.
#[test]
fn a_set_that_has_a_row_takes_no_room() {
    let case = Case::new(rule(4, &[0, 1, 2], vec![edge(0, 3), edge(3, 0), edge(3, 1), edge(3, 2)]));
    let room = case.room(1);
    assert_eq!((room.cells.len(), room.rows.len(), room.pool.len()), (4, 6, 4));
    assert_eq!(case.build_and_compare(room), [vec![0, 2, 4], vec![6]]);
    let empty = Case::new(rule(1, &[], vec![edge(0, 0)]));
    let room = empty.room(1);
    assert_eq!((room.cells.len(), room.rows.len(), room.pool.len()), (2, 3, 0));
    assert_eq!(empty.build_and_compare(room), [vec![]]);
}

#[test]
fn the_listing_has_scratch_for_the_largest_rules() {
    for size in LARGEST {
        let case = Case::spread(size);
        let room = case.room(0);
        let sizes = [case.table.rows.len(), room.pool.len(), 1, 2 * usize::from(size.largest) + 2];
        let first_line = sizes.map(|size| size.to_string()).join(" ") + "\n";
        assert!(list_table(&case.rule.file()).starts_with(first_line.as_bytes()), "{size:?}");
    }
}
