//! Every refusal number, with its place and what the buffers hold after it.

mod common;

use common::{random_rule, record, refusal, whole_case, Bounds, PlainWord, Random, Room, EDGE, EDGE_TABLE};
use reference::{
    check_rule, check_table, check_word, decide, follow_event, follow_event_in_place, read_rule,
    start_follower, write_rule, Built, Follower, Head, Refusal,
};

/// A sizes record of 2 locations, 2 symbols and 2 clocks, and then these records.
fn file(records: &[Vec<u8>]) -> Vec<u8> {
    [record(1, &[2, 2, 2]), records.concat()].concat()
}

/// The refusal of reading a file, the edge table being all zero after it.
fn refused(file: &[u8]) -> (u8, usize) {
    let mut edges = vec![5; EDGE_TABLE + 6];
    let refusal = read_rule(file, &mut edges).unwrap_err();
    assert_eq!(edges, [0; EDGE_TABLE + 6]);
    (refusal.number, refusal.place)
}

fn accepted(file: &[u8]) -> bool {
    read_rule(file, &mut [5; EDGE_TABLE]).is_ok()
}

#[test]
fn number_1_is_a_record_cut_short() {
    assert_eq!(refused(&[6]), (1, 0));
    assert_eq!(refused(&[6, 0, 1]), (1, 0));
    assert_eq!(refused(&record(1, &[1, 1, 1])[..9]), (1, 0));
    assert_eq!(refused(&file(&[vec![2, 0, 2]])), (1, 10));
    assert_eq!(refused(&file(&[record(2, &[0]), vec![2, 0, 9, 0, 0]])), (1, 16));
    assert_eq!(refused(&[0xff, 0xff, 9, 9]), (1, 0));
}

#[test]
fn number_2_is_an_unknown_kind_or_length() {
    assert_eq!(refused(&record(0, &[])), (2, 0));
    assert_eq!(refused(&record(7, &[1, 1, 1, 1])), (2, 0));
    assert_eq!(refused(&record(257, &[1, 1, 1])), (2, 0));
    assert_eq!(refused(&record(1, &[1, 1])), (2, 0));
    assert_eq!(refused(&file(&[record(2, &[])])), (2, 10));
    assert_eq!(refused(&file(&[record(3, &[0, 0])])), (2, 10));
    assert_eq!(refused(&file(&[record(4, &[0, 0])])), (2, 10));
    assert_eq!(refused(&file(&[vec![1, 0, 2, 0, 0]])), (2, 10));
    for numbers in 0..40 {
        let right = [4, 7, 10, 13, 16, 19, 22, 25, 28].contains(&numbers);
        let file = file(&[record(5, &vec![0; numbers])]);
        assert_eq!(accepted(&file), right, "{numbers} numbers");
        assert!(right || refused(&file) == (2, 10));
    }
}

#[test]
fn number_3_is_a_record_out_of_order() {
    assert_eq!(refused(&[]), (3, 0));
    assert_eq!(refused(&record(2, &[0])), (3, 0));
    assert_eq!(refused(&record(5, &[0, 0, 0, 0])), (3, 0));
    assert_eq!(refused(&file(&[record(1, &[2, 2, 2])])), (3, 10));
    assert_eq!(refused(&file(&[record(3, &[0]), record(2, &[0])])), (3, 16));
    assert_eq!(refused(&file(&[record(3, &[0]), record(1, &[0, 0, 0])])), (3, 16));
    assert_eq!(refused(&file(&[record(4, &[0]), record(3, &[9])])), (3, 16));
    assert_eq!(refused(&file(&[record(4, &[0]), record(4, &[99])])), (3, 16));
    assert_eq!(refused(&file(&[record(5, &[0; 4]), record(4, &[0])])), (3, 22));
    assert_eq!(refused(&file(&[record(2, &[1]), record(2, &[1])])), (3, 16));
    assert_eq!(refused(&file(&[record(2, &[1]), record(2, &[0])])), (3, 16));
    assert_eq!(refused(&file(&[record(3, &[1]), record(3, &[0])])), (3, 16));
    assert!(accepted(&file(&[record(2, &[1]), record(3, &[0]), record(3, &[1]), record(5, &[0; 4])])));
    assert!(accepted(&file(&[])));
}

#[test]
fn a_ceiling_that_is_dropped_is_checked_before() {
    let ceiling = |number| record(4, &[number]);
    for number in [0, 1, 29, 30] {
        assert!(accepted(&file(&[ceiling(number)])));
        assert!(accepted(&file(&[record(2, &[0]), record(3, &[1]), ceiling(number), record(5, &[0; 4])])));
    }
    for number in [31, 32, 256, 286, 65_535] {
        assert_eq!(refused(&file(&[ceiling(number)])), (6, 10));
        assert_eq!(refused(&file(&[record(3, &[1]), ceiling(number), record(5, &[9; 4])])), (6, 16));
    }
    for cut in 1..6 {
        assert_eq!(refused(&file(&[ceiling(30)[..cut].to_vec()])), (1, 10));
    }
    for body in [0, 1, 3, 4, 6] {
        assert_eq!(refused(&file(&[[&[body, 0, 4, 0], &vec![0; body.into()][..]].concat()])), (2, 10));
    }
}

#[test]
fn a_ceiling_that_is_dropped_keeps_its_turn() {
    let ceiling = |number| record(4, &[number]);
    let edge = || record(5, &[0; 4]);
    for number in [0, 30, 31] {
        assert_eq!(refused(&ceiling(number)), (3, 0), "no sizes");
        assert_eq!(refused(&[ceiling(number), file(&[])].concat()), (3, 0), "before the sizes");
        assert_eq!(refused(&file(&[ceiling(0), ceiling(number)])), (3, 16), "twice");
        assert_eq!(refused(&file(&[ceiling(30), ceiling(number)])), (3, 16), "twice");
        assert_eq!(refused(&file(&[edge(), ceiling(number)])), (3, 22), "after an edge");
        assert_eq!(refused(&file(&[ceiling(5), edge(), ceiling(number)])), (3, 28), "around an edge");
    }
    for number in [0, 1, 30] {
        assert_eq!(refused(&file(&[ceiling(number), record(1, &[2, 2, 2])])), (3, 16), "sizes after it");
        assert_eq!(refused(&file(&[ceiling(number), record(2, &[1])])), (3, 16), "initial location after it");
        assert_eq!(refused(&file(&[ceiling(number), record(3, &[1])])), (3, 16), "final location after it");
        let between = [record(3, &[0]), ceiling(number), record(3, &[1])];
        assert_eq!(refused(&file(&between)), (3, 22), "between final locations");
    }
    assert_eq!(refused(&record(4, &[0, 0])), (2, 0), "2 before 3");
    assert_eq!(refused(&file(&[ceiling(0), record(4, &[0, 0])])), (2, 16), "2 before 3");
    assert_eq!(refused(&file(&[edge(), record(4, &[])])), (2, 22), "2 before 3");
}

#[test]
fn a_ceiling_that_is_dropped_counts_in_the_places_after_it() {
    let ceiling = record(4, &[30]);
    assert_eq!(refused(&file(&[ceiling.clone(), vec![8, 0, 5]])), (1, 16));
    assert_eq!(refused(&file(&[ceiling.clone(), record(7, &[0; 4])])), (2, 16));
    assert_eq!(refused(&file(&[ceiling.clone(), record(5, &[2, 0, 0, 0])])), (6, 16));
    assert_eq!(refused(&file(&[ceiling.clone(), record(5, &[0, 0, 0, 1])])), (7, 16));
    let edges = vec![record(5, &[0; 4]); 257].concat();
    assert_eq!(refused(&file(&[ceiling, edges])), (4, 16 + 256 * 12));
}

#[test]
fn number_4_is_the_edge_after_256() {
    let edges = |count| file(&vec![record(5, &[0; 4]); count]);
    assert!(accepted(&edges(256)));
    assert_eq!(refused(&edges(257)), (4, 10 + 256 * 12));
    assert_eq!(refused(&[edges(256), record(5, &[9; 4])].concat()), (4, 10 + 256 * 12));
    assert_eq!(refused(&[edges(256), record(5, &[9; 5])].concat()), (2, 10 + 256 * 12));
}

#[test]
fn number_5_is_a_size_out_of_range() {
    for sizes in [[0, 1, 1], [33, 1, 1], [1, 0, 1], [1, 17, 1], [1, 1, 0], [1, 1, 5], [257, 1, 1]] {
        assert_eq!(refused(&record(1, &sizes)), (5, 0));
    }
    assert!(accepted(&record(1, &[32, 16, 4])));
    assert!(accepted(&record(1, &[1, 1, 1])));
}

#[test]
fn number_6_is_a_number_out_of_range() {
    assert_eq!(refused(&file(&[record(2, &[2])])), (6, 10));
    assert_eq!(refused(&file(&[record(2, &[0]), record(3, &[256])])), (6, 16));
    assert_eq!(refused(&file(&[record(4, &[31])])), (6, 10));
    assert!(accepted(&file(&[record(4, &[30])])));
    let edges: [&[u16]; 8] = [
        &[2, 0, 0, 0],
        &[0, 2, 0, 0],
        &[0, 0, 2, 0],
        &[0, 0, 0, 4],
        &[0, 0, 0, 0, 2, 0, 0],
        &[0, 0, 0, 0, 0, 6, 0],
        &[0, 0, 0, 0, 0, 0, 31],
        &[0, 0, 0, 4, 0, 3, 0],
    ];
    for edge in edges {
        assert_eq!(refused(&file(&[record(5, &[0; 4]), record(5, edge)])), (6, 22), "{edge:?}");
    }
    assert!(accepted(&file(&[record(5, &[1, 1, 1, 3, 1, 5, 30, 0, 2, 30])])));
}

#[test]
fn number_7_is_a_reset_without_a_pin() {
    assert_eq!(refused(&file(&[record(5, &[0, 0, 0, 1])])), (7, 10));
    assert_eq!(refused(&file(&[record(5, &[0, 0, 0, 2, 0, 3, 3, 0, 1, 4])])), (7, 10));
    assert!(accepted(&file(&[record(5, &[0, 0, 0, 2, 0, 2, 3])])));
    // 2.4 corrects 01, where this was 7.
    assert!(accepted(&file(&[record(5, &[0, 0, 0, 2, 0, 3, 3, 0, 1, 3])])));
}

#[test]
fn number_8_is_too_many_codes_and_comes_last() {
    let wide = [record(1, &[32, 1, 4]), record(5, &[0, 0, 0, 0, 0, 0, 30])].concat();
    assert_eq!(refused(&wide), (8, 28));
    assert_eq!(refused(&[wide.clone(), vec![0]].concat()), (1, 28));
    assert_eq!(refused(&[wide.clone(), record(5, &[0, 0, 0, 1])].concat()), (7, 28));
    let (sizes, edge) = wide.split_at(10);
    assert_eq!(refused(&[sizes, &record(4, &[0]), edge].concat()), (8, 34));
    assert_eq!(refused(&[sizes, &record(4, &[31]), edge].concat()), (6, 10));
    assert!(accepted(&[sizes, &record(4, &[30])].concat()), "only a ceiling");
}

#[test]
fn number_20_is_a_short_edge_table() {
    let mut room = Room::listing(5);
    room.edges.truncate(EDGE_TABLE - 1);
    let before = room.clone();
    assert_eq!(room.read(&[]), refusal(20, 0));
    assert_eq!(check_rule(&Head::default(), &room.edges), refusal(20, 0));
    assert_eq!(room.build(&Head::default()), refusal(20, 0));
    let mut out = [4; 9];
    assert_eq!(write_rule(&Head::default(), &room.edges, &mut out), refusal(20, 0));
    assert_eq!(out, [4; 9]);
    let bad_word = PlainWord::new(0, &[]);
    assert_eq!(room.exact(&Head::default(), &bad_word, &mut [4; 9]), refusal(20, 0));
    assert_eq!(room.branch(&Head::default(), &bad_word), refusal(20, 0));
    assert_eq!(room, before);
}

#[test]
fn number_21_leaves_all_untouched() {
    let mut room = Room::listing(5);
    let mut head = room.read(&whole_case()).unwrap();
    head.locations = 1;
    let before = room.clone();
    assert_eq!(check_rule(&head, &room.edges), refusal(21, 0));
    assert_eq!(room.build(&head), refusal(21, 0));
    let (mut out, mut scratch) = ([4; 9], [4; 9]);
    assert_eq!(write_rule(&head, &room.edges, &mut out), refusal(21, 0));
    let bad_word = PlainWord::new(0, &[]);
    assert_eq!(room.exact(&head, &bad_word, &mut scratch), refusal(21, 0));
    assert_eq!(room.branch(&head, &bad_word), refusal(21, 0));
    assert_eq!((out, scratch), ([4; 9], [4; 9]));
    assert_eq!(room, before);
}

/// Whether reading the one file without a ceiling that could leave these leaves them.
fn left_by_some_file(head: &Head, edges: &[u16]) -> bool {
    let number = |number: u32| number.min(0xffff) as u16;
    let mut file = record(1, &[number(head.locations), number(head.symbols), number(head.clocks)]);
    for (kind, set) in [(2, head.initial), (3, head.finals)] {
        let members = (0..32).filter(|location| set >> location & 1 == 1);
        file.extend(members.flat_map(|location| record(kind, &[location])));
    }
    for edge in edges.chunks_exact(EDGE).take(head.edge_count as usize) {
        let count = usize::from(edge[5]) * if edge[0] == 5 { 3 } else { 1 };
        let guard = edge.get(6..6 + count).unwrap_or(&[0; 81]);
        file.extend(record(edge[0], &[&edge[1..5], guard].concat()));
    }
    let mut read = vec![0; edges.len()];
    read_rule(&file, &mut read) == Ok(*head) && read == edges
}

#[test]
fn number_21_is_what_no_file_leaves() {
    let mut random = Random(21);
    let bounds = Bounds { locations: 32, symbols: 16, clocks: 4, edges: 20, constant: 12 };
    let mut counts = [0, 0];
    for turn in 0..400 {
        let rule = random_rule(&mut random, &bounds);
        let mut room = Room::listing(5);
        room.edges.resize(EDGE_TABLE + turn % 3, 0);
        let Ok(head) = room.read(&rule.file()) else { continue };
        assert_eq!(check_rule(&head, &room.edges), Ok(()));
        for _ in 0..20 {
            let (mut head, mut edges) = (head, room.edges.clone());
            if random.chance(30) {
                let mut numbers = head.to_numbers();
                numbers[random.below(6) as usize] = random_number(&mut random);
                head = Head::from_numbers(numbers);
            } else {
                let used = head.edge_count as usize * EDGE;
                let places = if random.chance(90) && used > 0 { used } else { edges.len() };
                edges[random.below(places as u64) as usize] = random_number(&mut random) as u16;
            }
            let passes = left_by_some_file(&head, &edges);
            let expected = if passes { Ok(()) } else { refusal(21, 0) };
            assert_eq!(check_rule(&head, &edges), expected, "{head:?}");
            counts[usize::from(passes)] += 1;
        }
    }
    assert!(counts[0] > 300 && counts[1] > 300, "{counts:?}");
}

fn random_number(random: &mut Random) -> u32 {
    match random.below(8) {
        0 => random.next() as u32,
        1 => 0,
        2 => random.pick(&[31, 32, 33, 256, 257, 65_536, u32::MAX]),
        _ => random.below(20) as u32,
    }
}

#[test]
fn number_22_is_a_short_scratch() {
    let mut room = Room::new(0, 64, 64, 64, 9);
    let head = room.read(&whole_case()).unwrap();
    let before = room.clone();
    assert_eq!(room.build(&head), refusal(22, 0));
    assert_eq!(room, before);
    room.scratch.push(9);
    assert!(room.build(&head).is_ok());
}

/// Builds the whole case in this much room, which is known to be too little.
fn short_of_room(cells: usize, rows: usize, pool: usize) -> u8 {
    let mut room = Room::new(6, cells, rows, pool, 9);
    let head = room.read(&whole_case()).unwrap();
    let edges = room.edges.clone();
    let refusal = room.build(&head).unwrap_err();
    assert_eq!(refusal.place, 0);
    assert_eq!(room.edges, edges);
    for table in [room.scratch, room.cells, room.rows, room.pool] {
        assert!(table.iter().all(|&number| number == 0));
    }
    refusal.number
}

#[test]
fn numbers_23_and_24_are_the_first_row_that_does_not_fit() {
    assert_eq!(short_of_room(0, 0, 0), 23);
    assert_eq!(short_of_room(7, 9, 2), 23);
    assert_eq!(short_of_room(23, 9, 2), 23);
    for rows in 0..9 {
        assert_eq!(short_of_room(24, rows, 2), 23, "{rows} row numbers");
    }
    assert_eq!(short_of_room(24, 9, 1), 24);
    assert_eq!(short_of_room(24, 9, 0), 24);
    assert_eq!(short_of_room(8, 9, 0), 24, "row 0 has no pool");
    assert_eq!(short_of_room(24, 3, 0), 24, "row 0 has no pool");
    assert_eq!(short_of_room(24, 2, 0), 23, "row 0 has no row numbers either");
    assert_eq!(short_of_room(16, 9, 1), 23, "row 2 has no cells either");
    assert_eq!(short_of_room(24, 8, 1), 23, "row 2 has no row numbers either");
    let mut room = Room::new(6, 24, 9, 2, 9);
    let head = room.read(&whole_case()).unwrap();
    assert!(room.build(&head).is_ok());
}

/// Builds the rule "symbol 1 came so many events ago", whose rows are all subsets with location 0.
fn build_subsets(events: u16) -> Result<Built, Refusal> {
    let mut file = [record(1, &[events + 1, 2, 1]), record(2, &[0])].concat();
    for symbol in 0..2 {
        file.extend(record(5, &[0, 0, symbol, 0]));
        file.extend((1..events).flat_map(|location| record(5, &[location, location + 1, symbol, 0])));
    }
    file.extend(record(5, &[0, 1, 1, 0]));
    let mut room = Room::new(100, 5000 * 4, 5000 * 3, 100_000, 9);
    let head = room.read(&file).unwrap();
    room.build(&head)
}

#[test]
fn number_23_is_row_4096() {
    let built = build_subsets(12).unwrap();
    assert_eq!((built.rows, built.pool), (4096, 4096 * 7));
    assert_eq!(build_subsets(13), refusal(23, 0));
}

fn built_whole_case() -> (Room, Built) {
    let mut room = Room::new(6, 25, 10, 3, 9);
    let head = room.read(&whole_case()).unwrap();
    let built = room.build(&head).unwrap();
    (room, built)
}

/// Whether the shape passes after a change, in every call that tests it.
fn in_shape(change: impl Fn(&mut Room, &mut [u32; 7])) -> bool {
    let (mut room, built) = built_whole_case();
    let mut numbers = built.to_numbers();
    change(&mut room, &mut numbers);
    let built = Built::from_numbers(numbers);
    let outcome = check_table(&built, &room.cells, &room.rows, &room.pool);
    if outcome.is_err() {
        assert_eq!(outcome, refusal(25, 0));
        assert_eq!(room.table(&built, &PlainWord::new(0, &[])), refusal(25, 0));
        let Room { cells, rows, pool, .. } = &room;
        let mut follower = Follower::from_numbers([0, 9, 8, 7, 6]);
        assert_eq!(follow_event(follower, &built, cells, rows, pool, 0, 0), refusal(25, 0));
        let outcome = follow_event_in_place(&mut follower, &built, cells, rows, pool, 0, 0);
        assert_eq!(outcome, refusal(25, 0));
        assert_eq!(follower.to_numbers(), [0, 9, 8, 7, 6]);
    } else {
        assert_eq!(room.table(&built, &PlainWord::new(0, &[])), refusal(30, 0));
    }
    outcome.is_ok()
}

#[test]
fn number_25_is_a_table_out_of_shape() {
    assert!(in_shape(|_, _| ()));
    let bad_fields = [
        (0, 0),
        (0, 1),
        (0, 33),
        (0, u32::MAX),
        (1, 0),
        (1, 3),
        (1, 17),
        (1, u32::MAX),
        (2, 0),
        (2, 5),
        (2, u32::MAX),
        (3, 31),
        (3, 2),
        (3, u32::MAX),
        (5, 0),
        (5, 2),
        (5, 4),
        (5, 4097),
        (5, u32::MAX),
        (6, 1),
        (6, 3),
        (6, u32::MAX),
    ];
    for (field, value) in bad_fields {
        assert!(!in_shape(|_, built| built[field] = value), "field {field} as {value}");
    }
    assert!(in_shape(|_, built| built[0] = 32), "more locations");
    assert!(in_shape(|room, built| (built[2], room.rows[8]) = (4, 1)), "more clocks, code 3 in location 0");
    assert!(!in_shape(|_, built| (built[0], built[2], built[3]) = (32, 4, 6)), "too many codes");
}

#[test]
fn number_25_is_about_the_places_in_use() {
    assert!(in_shape(|room, _| room.cells.truncate(24)));
    assert!(!in_shape(|room, _| room.cells.truncate(23)));
    assert!(in_shape(|room, _| room.rows.truncate(9)));
    assert!(!in_shape(|room, _| room.rows.truncate(8)));
    assert!(in_shape(|room, _| room.pool.truncate(2)));
    assert!(!in_shape(|room, _| room.pool.truncate(1)));
    assert!(!in_shape(|room, _| room.rows[0] = 1));
    assert!(!in_shape(|room, _| room.rows[3] = 0));
    assert!(!in_shape(|room, _| room.rows[6] = 2));
    assert!(!in_shape(|room, _| room.rows[7] = 0));
    assert!(!in_shape(|room, _| room.rows[7] = u32::MAX));
    let round = [0, u32::MAX, 1, u32::MAX, 3, 1, 2, 0, 0];
    assert!(!in_shape(|room, _| room.rows[..9].copy_from_slice(&round)), "lengths that go round");
    assert!(in_shape(|room, _| room.rows[..9].copy_from_slice(&[0, 0, 0, 0, 2, 1, 2, 0, 0])));
    assert!(in_shape(|room, _| room.pool[1] = 5));
    assert!(!in_shape(|room, _| room.pool[1] = 6));
    assert!(!in_shape(|room, _| room.pool[0] = u32::MAX));
    let falling = |room: &mut Room, _: &mut [u32; 7]| {
        room.rows[..9].copy_from_slice(&[0, 2, 1, 2, 0, 0, 2, 0, 0]);
        room.pool[..2].copy_from_slice(&[4, 2]);
    };
    assert!(in_shape(falling), "codes that do not rise");
    assert!(!in_shape(|room, _| room.cells[23] = 6));
    assert!(!in_shape(|room, _| room.cells[0] = u32::MAX));
    for place in 0..24 {
        assert!(in_shape(|room, _| room.cells[place] = 4));
        assert_eq!(in_shape(|room, _| room.cells[place] = 5), place % 2 == 0);
    }
    let rubbish = |room: &mut Room, _: &mut [u32; 7]| {
        room.cells[24] = u32::MAX;
        room.rows[9] = u32::MAX;
        room.pool[2] = u32::MAX;
    };
    assert!(in_shape(rubbish));
}

#[test]
fn number_25_is_a_stored_verdict_that_the_codes_do_not_say() {
    for (row, right) in [1, 0, 0].into_iter().enumerate() {
        for stored in [0, 1, 2, 3, 256, 65_537, 1 << 31, u32::MAX] {
            let passes = in_shape(|room, _| room.rows[3 * row + 2] = stored);
            assert_eq!(passes, stored == right, "row {row} with {stored}");
        }
    }
    assert!(!in_shape(|room, _| room.rows[..9].copy_from_slice(&[0, 0, 0, 0, 2, 0, 2, 0, 0])), "moved codes");
    assert!(!in_shape(|room, _| room.rows[..9].copy_from_slice(&[0, 0, 1, 0, 2, 1, 2, 0, 0])), "moved codes");
    assert!(!in_shape(|room, _| room.pool[1] = 2), "another code");
    assert!(in_shape(|room, _| (room.pool[1], room.rows[8]) = (2, 1)), "another code");
    assert!(!in_shape(|_, built| built[2] = 4), "other locations of the codes");
}

#[test]
fn number_25_takes_the_final_set_as_it_is() {
    for (finals, right) in [(0, [0, 0]), (1, [1, 0]), (2, [0, 1]), (3, [1, 1]), (!1, [0, 1]), (!2, [1, 0])] {
        for stored in [[0, 0], [0, 1], [1, 0], [1, 1]] {
            let passes = in_shape(|room, built| {
                (room.rows[2], room.rows[8]) = (stored[0], stored[1]);
                built[4] = finals;
            });
            assert_eq!(passes, stored == right, "finals {finals}, stored {stored:?}");
        }
    }
}

#[test]
fn number_26_is_one_configuration_too_many() {
    let file = [
        record(1, &[2, 1, 1]),
        record(2, &[0]),
        record(5, &[0, 0, 0, 0]),
        record(5, &[0, 1, 0, 0]),
        record(5, &[0, 1, 0, 1, 0, 2, 1]),
    ]
    .concat();
    let mut room = Room::listing(5);
    let head = room.read(&file).unwrap();
    let run = |events: &[(u16, u32)], room_for: usize| {
        let mut scratch = vec![8; 4 * room_for + 3];
        let outcome = room.exact(&head, &PlainWord::new(1, events), &mut scratch);
        assert!(scratch.iter().all(|&number| number == 0));
        outcome
    };
    assert_eq!(run(&[], 0), refusal(26, 0));
    assert_eq!(run(&[], 1), Ok(false));
    assert_eq!(run(&[(0, 0)], 1), refusal(26, 1));
    assert_eq!(run(&[(0, 0), (0, 1)], 2), refusal(26, 2));
    assert_eq!(run(&[(0, 0), (0, 1)], 3), Ok(false));
}

#[test]
fn number_26_does_not_come_without_a_configuration() {
    let mut room = Room::listing(5);
    let head = room.read(&record(1, &[1, 1, 1])).unwrap();
    assert_eq!(room.exact(&head, &PlainWord::new(1, &[(0, 3)]), &mut []), Ok(false));
}

#[test]
fn number_27_is_a_short_output() {
    let mut room = Room::listing(5);
    let head = room.read(&whole_case()).unwrap();
    let mut out = [4; 57];
    assert_eq!(write_rule(&head, &room.edges, &mut out), refusal(27, 0));
    assert_eq!(out, [4; 57]);
}

/// The refusal of a word, which every runner must give alike, the scratch untouched.
fn word_refused(grain: u32, symbols: &[u16], stamps: &[u32]) -> (u8, usize) {
    let mut room = Room::listing(5);
    let head = room.read(&whole_case()).unwrap();
    let built = room.build(&head).unwrap();
    let word = PlainWord { grain, symbols: symbols.to_vec(), stamps: stamps.to_vec() };
    let refusal = check_word(2, grain, 4096, symbols, stamps).unwrap_err();
    let mut scratch = [4; 9];
    assert_eq!(room.table(&built, &word), Err(refusal));
    assert_eq!(room.exact(&head, &word, &mut scratch), Err(refusal));
    assert_eq!(room.exact(&head, &word, &mut []), Err(refusal), "before 26");
    assert_eq!(room.branch(&head, &word), Err(refusal));
    assert_eq!(scratch, [4; 9]);
    (refusal.number, refusal.place)
}

#[test]
fn numbers_30_to_33_are_the_word_s() {
    for grain in [0, 1001, u32::MAX] {
        assert_eq!(word_refused(grain, &[9], &[]), (30, 0));
    }
    assert_eq!(word_refused(1, &[9], &[]), (31, 0));
    assert_eq!(word_refused(1000, &[], &[1]), (31, 0));
    assert_eq!(word_refused(1, &[0; 4097], &[0; 4097]), (31, 0));
    assert_eq!(word_refused(1, &[2], &[0]), (32, 1));
    assert_eq!(word_refused(1, &[0, 0, 65_535], &[3, 4, 2]), (32, 3));
    assert_eq!(word_refused(1, &[0, 0, 2], &[3, 2, 2]), (33, 2));
    assert_eq!(word_refused(1, &[0, 0], &[u32::MAX, 0]), (33, 2));
}

#[test]
fn number_31_has_a_most_per_runner() {
    let mut room = Room::listing(5);
    let head = room.read(&whole_case()).unwrap();
    let built = room.build(&head).unwrap();
    let word = |count| PlainWord { grain: 1, symbols: vec![1; count], stamps: vec![0; count] };
    assert_eq!(room.branch(&head, &word(13)), refusal(31, 0));
    assert!(room.branch(&head, &word(12)).is_ok());
    assert_eq!(room.exact(&head, &word(4096), &mut [1; 9]), Ok(false));
    assert_eq!(room.table(&built, &word(4096)), Ok(false));
    assert_eq!(check_word(1, 1, 3, &[0; 4], &[0; 4]), refusal(31, 0));
    assert_eq!(check_word(1, 1, 4, &[0; 4], &[0; 4]), Ok(()));
    assert_eq!(check_word(0, 1, 4, &[], &[]), Ok(()));
}

#[test]
fn number_30_of_a_new_follower() {
    for grain in [0, 1001] {
        assert_eq!(start_follower(grain), refusal(30, 0));
    }
    assert_eq!(start_follower(1000).unwrap().to_numbers(), [1000, 0, 0, 0, 0]);
}

/// One event of a follower, by value and in place alike; a refused one leaves it as it was.
fn follow(follower: [u32; 5], symbol: u16, stamp: u32) -> Result<(bool, [u32; 5]), Refusal> {
    let (room, built) = built_whole_case();
    let before = Follower::from_numbers(follower);
    let outcome = follow_event(before, &built, &room.cells, &room.rows, &room.pool, symbol, stamp);
    let mut kept = before;
    let in_place =
        follow_event_in_place(&mut kept, &built, &room.cells, &room.rows, &room.pool, symbol, stamp);
    assert_eq!(in_place, outcome.map(|outcome| outcome.0));
    assert_eq!(kept, outcome.map_or(before, |outcome| outcome.1));
    outcome.map(|(verdict, follower)| (verdict, follower.to_numbers()))
}

#[test]
fn number_34_and_the_follower_s_order() {
    assert_eq!(follow([2, 0, 0, 0, 0], 0, 2), Ok((false, [2, 2, 2, 2, 1])));
    assert_eq!(follow([2, 2, 2, 2, 4095], 1, 4), Ok((true, [2, 0, 2, 4, 4096])));
    assert_eq!(follow([0, 3, 5, 4, 5000], 9, 0), refusal(30, 0));
    assert_eq!(follow([1001, 3, 5, 4, 5000], 9, 0), refusal(30, 0));
    assert_eq!(follow([2, 3, 0, 0, 4096], 9, 0), refusal(34, 0));
    assert_eq!(follow([2, 0, 4, 3, 4096], 9, 0), refusal(34, 0));
    assert_eq!(follow([2, 0, 3, 4, 4096], 9, 0), refusal(34, 0));
    assert_eq!(follow([2, 0, 0, 0, 4097], 9, 0), refusal(34, 0));
    assert_eq!(follow([2, 0, 0, 0, u32::MAX], 9, 0), refusal(34, 0));
    assert_eq!(follow([2, 0, 0, 4, 4096], 9, 0), refusal(31, 0));
    assert_eq!(follow([2, 0, 0, 4, 4095], 2, 0), refusal(32, 4096));
    assert_eq!(follow([2, 0, 0, 4, 7], 1, 3), refusal(33, 8));
    assert_eq!(follow([1, 2, 0, 0, 0], 1, u32::MAX), Ok((true, [1, 0, 0, u32::MAX, 1])));
}

/// Decides in new room of 9s; the outcome and the room.
fn decide_in(
    mut room: Room,
    file: &[u8],
    grain: u32,
    symbols: &[u16],
    stamps: &[u32],
) -> (Result<bool, Refusal>, Room) {
    let Room { edges, scratch, cells, rows, pool } = &mut room;
    let outcome = decide(file, edges, scratch, cells, rows, pool, grain, symbols, stamps);
    (outcome, room)
}

#[test]
fn decide_ends_at_the_first_refusal() {
    let new = || Room::new(7, 25, 10, 3, 9);
    let mut ready = new();
    let head = ready.read(&whole_case()).unwrap();
    let read = ready.clone();
    ready.build(&head).unwrap();

    let mut short = new();
    short.edges.pop();
    assert_eq!(decide_in(short.clone(), &[], 0, &[], &[]), (refusal(20, 0), short));

    let mut zero_edges = new();
    zero_edges.edges.fill(0);
    assert_eq!(decide_in(new(), &[], 0, &[], &[]), (refusal(3, 0), zero_edges));

    let mut short = read.clone();
    short.scratch.clear();
    assert_eq!(decide_in(short.clone(), &whole_case(), 0, &[], &[]), (refusal(22, 0), short));

    let mut zero = Room::new(7, 25, 10, 1, 0);
    zero.edges.copy_from_slice(&read.edges);
    let few = Room::new(7, 25, 10, 1, 9);
    assert_eq!(decide_in(few, &whole_case(), 0, &[], &[]), (refusal(24, 0), zero));

    assert_eq!(decide_in(new(), &whole_case(), 0, &[], &[]), (refusal(30, 0), ready.clone()));
    assert_eq!(decide_in(new(), &whole_case(), 2, &[0, 1], &[2, 1]), (refusal(33, 2), ready.clone()));
    assert_eq!(decide_in(new(), &whole_case(), 2, &[0, 1], &[2, 4]), (Ok(true), ready.clone()));
    assert_eq!(decide_in(new(), &whole_case(), 2, &[0, 1], &[2, 3]), (Ok(false), ready));
}
