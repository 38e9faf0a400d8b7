//! The verdict in the row: stored by the builder, checked by 25, read by the runners and the listing.

mod common;

use common::{record, refusal, whole_case, PlainWord, Room};
use reference::{
    check_table, follow_event, follow_event_in_place, list_table, start_follower, Built, Follower, Refusal,
};

/// The rows of the whole case: {0}, which accepts, the empty row and {3}.
const WORKED: [u32; 9] = [0, 1, 1, 1, 0, 0, 1, 1, 0];

/// D and events of P1 to P8.
const WORDS: [(u32, &[(u16, u32)]); 8] = [
    (2, &[]),
    (2, &[(0, 2)]),
    (2, &[(0, 2), (1, 4)]),
    (2, &[(0, 2), (1, 3)]),
    (2, &[(0, 1)]),
    (2, &[(0, 2), (1, 4), (0, 4)]),
    (2, &[(0, 2), (1, 4), (0, 4), (1, 6)]),
    (3, &[(0, 3), (1, 7)]),
];

/// Builds the table of a file in this much room for rows, and in plenty of the rest.
fn build(file: &[u8], rows: usize) -> (Room, Result<Built, Refusal>) {
    let mut room = Room::new(100, 20_000, rows, 100_000, 9);
    let head = room.read(file).unwrap();
    let outcome = room.build(&head);
    (room, outcome)
}

fn check(room: &Room, built: &Built) -> Result<(), Refusal> {
    check_table(built, &room.cells, &room.rows, &room.pool)
}

/// The verdict of the table runner, and the follower's after each event; both followers must agree.
fn run(room: &Room, built: &Built, word: &PlainWord) -> (Result<bool, Refusal>, Vec<Result<bool, Refusal>>) {
    let Room { cells, rows, pool, .. } = room;
    let mut follower = start_follower(word.grain).unwrap();
    let mut answers = Vec::new();
    for (&symbol, &stamp) in word.symbols.iter().zip(&word.stamps) {
        let outcome = follow_event(follower, built, cells, rows, pool, symbol, stamp);
        let before = follower;
        let answer = follow_event_in_place(&mut follower, built, cells, rows, pool, symbol, stamp);
        assert_eq!(answer, outcome.map(|(verdict, _)| verdict));
        assert_eq!(follower, outcome.map_or(before, |(_, after)| after));
        answers.push(answer);
    }
    (room.table(built, word), answers)
}

#[test]
fn the_whole_case_stores_its_verdicts() {
    for spare in 0..4 {
        let (room, built) = build(&whole_case(), 9 + spare);
        assert_eq!(room.rows[..9], WORKED);
        assert!(room.rows[9..].iter().all(|&number| number == 0));
        assert_eq!(check(&room, &built.unwrap()), Ok(()));
    }
}

#[test]
fn each_wrong_verdict_is_refused_by_every_call() {
    let (mut room, built) = build(&whole_case(), 9);
    let built = built.unwrap();
    for place in [2, 5, 8] {
        for wrong in [0, 1, 2, u32::MAX].into_iter().filter(|&stored| stored != WORKED[place]) {
            room.rows[place] = wrong;
            assert_eq!(check(&room, &built), refusal(25, 0), "{wrong} at {place}");
            for (grain, events) in WORDS {
                let (table, follower) = run(&room, &built, &PlainWord::new(grain, events));
                assert_eq!(table, refusal(25, 0), "{wrong} at {place}");
                assert_eq!(follower, vec![refusal(25, 0); events.len()], "{wrong} at {place}");
            }
            refused_before_all_else(&room, &built);
        }
        room.rows[place] = WORKED[place];
        assert_eq!(check(&room, &built), Ok(()));
    }
}

/// A table out of shape is named before a bad word, follower or event, and the follower stays.
fn refused_before_all_else(room: &Room, built: &Built) {
    let Room { cells, rows, pool, .. } = room;
    for word in [PlainWord::new(0, &[]), PlainWord::new(1, &[(9, 0)]), PlainWord::new(1, &[(0, 1), (0, 0)])] {
        assert_eq!(room.table(built, &word), refusal(25, 0));
    }
    for numbers in [[2, 0, 0, 0, 0], [0, 0, 0, 0, 0], [2, 3, 0, 0, 0], [2, 0, 0, 9, 4096]] {
        let before = Follower::from_numbers(numbers);
        let mut kept = before;
        assert_eq!(follow_event(before, built, cells, rows, pool, 9, 0), refusal(25, 0));
        assert_eq!(follow_event_in_place(&mut kept, built, cells, rows, pool, 9, 0), refusal(25, 0));
        assert_eq!(kept, before);
    }
}

#[test]
fn runners_answer_as_stored() {
    let (mut room, built) = build(&whole_case(), 9);
    let built = built.unwrap();
    let p3 = PlainWord::new(2, &[(0, 2), (1, 4)]);
    let answers = |room: &Room, finals| run(room, &Built { finals, ..built }, &p3);
    assert_eq!(answers(&room, 1), (Ok(true), vec![Ok(false), Ok(true)]));
    room.rows[2] = 0;
    assert_eq!(answers(&room, 0), (Ok(false), vec![Ok(false), Ok(false)]));
    room.rows[8] = 1;
    assert_eq!(answers(&room, 2), (Ok(false), vec![Ok(true), Ok(false)]));
    room.rows[2] = 1;
    assert_eq!(answers(&room, 3), (Ok(true), vec![Ok(true), Ok(true)]));
}

/// Rows of whole locations under every cm and K: no code is taken for one of a neighbouring location.
#[test]
fn the_codes_location_under_all_sizes() {
    for clocks in 1..=4 {
        for largest in (0..=30u32).take_while(|largest| (largest + 2).pow(clocks) <= 65_536) {
            let per_location = (largest + 2).pow(clocks);
            let locations = (65_536 / per_location).min(32);
            for finals in [0x5555_5555, 0xaaaa_aaaa, 0, u32::MAX, 1, 1 << (locations - 1)] {
                compare_locations(locations, clocks, largest, per_location, finals);
            }
        }
    }
}

/// A table whose rows each hold all codes of one location, right and with a verdict turned round.
fn compare_locations(locations: u32, clocks: u32, largest: u32, per_location: u32, finals: u32) {
    let pool = per_location * locations;
    let built = Built { locations, symbols: 1, clocks, largest, finals, rows: locations, pool };
    let mut room = Room::new(0, (locations * (2 * largest + 2)) as usize, 0, 0, 0);
    room.rows =
        (0..locations).flat_map(|row| [row * per_location, per_location, finals >> row & 1]).collect();
    room.pool = (0..pool).collect();
    assert_eq!(check(&room, &built), Ok(()), "{built:?}");
    for row in [0, locations / 2, locations - 1] {
        let place = 3 * row as usize + 2;
        room.rows[place] ^= 1;
        assert_eq!(check(&room, &built), refusal(25, 0), "{built:?}, row {row}");
        room.rows[place] ^= 1;
    }
}

/// A rule of 682 rows, and of one more, the empty row, with a second symbol: three cycles of 5, 8 and 17
/// locations, the first of them entered over two more. Locations 2 and 31 are final.
fn cycles(symbols: u16) -> Vec<u8> {
    let mut file = record(1, &[32, symbols, 1]);
    file.extend([0, 7, 15].iter().flat_map(|&location| record(2, &[location])));
    file.extend([2, 31].iter().flat_map(|&location| record(3, &[location])));
    for location in 0..32 {
        let next = match location {
            6 => 2,
            14 => 7,
            31 => 15,
            _ => location + 1,
        };
        file.extend(record(5, &[location, next, 0, 0]));
    }
    file
}

/// The verdict of a row of the cycles.
fn cycles_accept(row: u32) -> bool {
    (row >= 2 && (row - 2) % 5 == 0) || row % 17 == 16
}

#[test]
fn the_row_table_is_full_at_a_third() {
    for (symbols, count) in [(1, 682), (2, 683)] {
        for rows in [3 * count, 3 * count + 1, 3 * count + 2] {
            let (room, built) = build(&cycles(symbols), rows);
            let built = built.unwrap();
            assert_eq!(built.rows as usize, count);
            assert_eq!(check(&room, &built), Ok(()));
            assert!(room.rows[3 * count..].iter().all(|&number| number == 0));
        }
        for rows in [3 * count - 1, 3 * count - 2, 3 * count - 3, 2 * count] {
            let (room, built) = build(&cycles(symbols), rows);
            assert_eq!(built, refusal(23, 0), "{rows} numbers");
            for table in [room.scratch, room.cells, room.rows, room.pool] {
                assert!(table.iter().all(|&number| number == 0));
            }
        }
    }
}

#[test]
fn every_row_of_a_long_table_is_checked() {
    let (mut room, built) = build(&cycles(1), 2048);
    let built = built.unwrap();
    for row in 0..682 {
        let place = 3 * row as usize + 2;
        let right = u32::from(cycles_accept(row));
        assert_eq!(room.rows[place], right, "row {row}");
        for wrong in [1 - right, 2, u32::MAX] {
            room.rows[place] = wrong;
            assert_eq!(check(&room, &built), refusal(25, 0), "row {row}");
        }
        room.rows[place] = right;
    }
    assert_eq!(check(&room, &built), Ok(()));
}

#[test]
fn the_listing_has_room_for_682_rows() {
    let text = String::from_utf8(list_table(&cycles(1))).unwrap();
    let mut lines = text.lines();
    assert_eq!(lines.next(), Some("682 2046 1 2"));
    for row in 0..682 {
        let front = format!("{row} {} 3 ", u8::from(cycles_accept(row)));
        assert!(lines.next().unwrap().starts_with(&front), "row {row}");
        let next = if row == 681 { 4 } else { 2 * row + 2 };
        assert_eq!(lines.next(), Some(&*format!("{next} {next}")));
    }
    assert_eq!(lines.next(), None);
    assert_eq!(list_table(&cycles(2)), b"no 23 0\n");
}
