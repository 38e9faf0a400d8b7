//! The verdict stored in a row: what the builder stores, what the runners read, and 25 where it differs.

mod common;

use alderskein::{raw, Room, Rule, Stamp, Table, ROW_NUMBERS, ROW_TABLE};
use common::{record, refused, word, worked_rule, worked_table};

/// The place of the verdict among the numbers of a row.
const VERDICT: usize = 2;

/// Accepts the words whose symbol so far back from the end is 1: two to that power rows.
fn back_in_the_word(back: u16) -> Rule {
    let mut records = vec![record(1, &[back + 1, 2, 1]), record(2, &[0]), record(3, &[back])];
    records.extend([[0, 0, 0], [0, 0, 1], [0, 1, 1]].map(|[from, to, on]| record(5, &[from, to, on, 0])));
    for location in 1..back {
        records.extend([0, 1].map(|symbol| record(5, &[location, location + 1, symbol, 0])));
    }
    Rule::read(&records.concat()).unwrap()
}

/// 32 locations in a line, every third one final; the clock is reset on the way.
fn in_a_line() -> Rule {
    let mut records = vec![record(1, &[32, 1, 1]), record(2, &[0])];
    records.extend((0..32).step_by(3).map(|location| record(3, &[location])));
    records.extend((0..31).map(|location| record(5, &[location, location + 1, 0, 1, 0, 2, location])));
    Rule::read(&records.concat()).unwrap()
}

/// What the codes of a row say.
fn said(table: &Table, row: usize) -> bool {
    let built = table.built();
    let per_location = (built.top + 2).pow(built.clocks);
    table.codes(row).unwrap().iter().any(|code| built.ends >> (code / per_location) & 1 == 1)
}

#[test]
fn the_builder_stores_what_the_codes_say() {
    for rule in [worked_rule(), back_in_the_word(6), in_a_line()] {
        let table = rule.build(Room::LISTING).unwrap();
        let yes = (0..table.row_count()).filter(|&row| said(&table, row)).count();
        assert!(0 < yes && yes < table.row_count(), "both verdicts come up");
        for (row, numbers) in table.parts()[1].chunks_exact(ROW_NUMBERS).enumerate() {
            assert_eq!(numbers[VERDICT], u32::from(said(&table, row)), "row {row}");
            assert_eq!(table.verdict(row), Some(said(&table, row)), "row {row}");
        }
        assert_eq!(table.verdict(table.row_count()), None);
    }
}

/// Numbers that are not this verdict: the other one, and more than 1, with its low bits and without.
fn others(verdict: u32) -> [u32; 7] {
    [1 - verdict, 2, 3, verdict | 1 << 8, verdict | 1 << 16, verdict | 1 << 31, u32::MAX]
}

/// Checks that every call over the worked table with these row numbers gives 25, and leaves a follower as it was.
fn refused_everywhere(rows: &[u32]) {
    let table = worked_table();
    let (built, [cells, _, pool]) = (table.built(), table.parts());
    assert_eq!(Table::from_parts(built, cells.to_vec(), rows.to_vec(), pool.to_vec()), refused(25, 0));
    for grain in [2, 0] {
        let run = raw::run_table(built, cells, rows, pool, grain, &[0, 1], &[2, 4]);
        assert_eq!((run.number, run.place, run.value), (25, 0, 0), "{rows:?}");
        let before = raw::Follower { grain, row: 2, reset: Stamp(2), last: Stamp(2), count: 1 };
        let followed = raw::follow_event(before, built, cells, rows, pool, 1, Stamp(4));
        assert_eq!((followed.number, followed.place, followed.yes), (25, 0, false), "{rows:?}");
        assert_eq!(followed.follower, before);
        let mut kept = before;
        let moved = raw::follow_in_place(&mut kept, built, cells, rows, pool, 1, Stamp(4));
        assert_eq!((moved.number, moved.place, moved.yes), (25, 0, false), "{rows:?}");
        assert_eq!(kept, before);
    }
}

#[test]
fn any_other_number_is_25() {
    let table = worked_table();
    let rows = table.parts()[1];
    for row in 0..table.row_count() {
        let place = ROW_NUMBERS * row + VERDICT;
        for number in others(rows[place]) {
            let mut changed = rows.to_vec();
            changed[place] = number;
            refused_everywhere(&changed);
        }
    }
}

#[test]
fn other_final_locations_ask_for_other_verdicts() {
    let table = worked_table();
    let [cells, rows, pool] = table.parts().map(<[u32]>::to_vec);
    let built = raw::Built { ends: 0b10, ..table.built() };
    assert_eq!(Table::from_parts(built, cells.clone(), rows, pool.clone()), refused(25, 0));
    let table = Table::from_parts(built, cells, vec![0, 1, 0, 1, 0, 0, 1, 1, 1], pool).unwrap();
    assert_eq!([0, 1, 2].map(|row| table.verdict(row)), [Some(false), Some(false), Some(true)]);
    assert_eq!(table.run(&word(2, &[])), Ok(false));
    assert_eq!(table.run(&word(2, &[(0, 2)])), Ok(true));
    assert_eq!(table.follower(2).unwrap().event(0, Stamp(2)), Ok(true));
}

#[test]
fn numbers_past_the_rows_are_not_looked_at() {
    let table = worked_table();
    let [cells, rows, pool] = table.parts().map(<[u32]>::to_vec);
    let longer = [rows, vec![7; 4]].concat();
    let longer = Table::from_parts(table.built(), cells, longer, pool).unwrap();
    assert_eq!(longer.to_string(), table.to_string());
    assert_eq!(longer.verdict(3), None);
}

#[test]
fn there_is_room_for_a_third_of_the_row_table() {
    let build =
        |rule: Rule, rows| rule.build(Room { rows, ..Room::default() }).map(|table| table.row_count());
    for rows in 0..12 {
        let expected = if rows < 9 { refused(23, 0) } else { Ok(3) };
        assert_eq!(build(worked_rule(), rows), expected, "{rows} row numbers");
    }
    assert_eq!(build(back_in_the_word(12), ROW_TABLE), Ok(4_096));
    assert_eq!(build(back_in_the_word(12), ROW_TABLE - 1), refused(23, 0));
    assert_eq!(build(back_in_the_word(13), 2 * ROW_TABLE), refused(23, 0), "more than 4,096 rows");
}
