//! Every refusal by its number and place, through the safe calls.

mod common;

use alderskein::{decide, raw, Cause, LeastRun, Refusal, Room, Rule, Stamp, Table, Word, EDGE_TABLE};
use common::{record, refused, repeated, word, worked, worked_rule, worked_table};

fn read(records: &[Vec<u8>]) -> Result<Rule, Refusal> {
    Rule::read(&records.concat())
}

/// The sizes of one location, symbol and clock: 10 bytes.
fn sizes() -> Vec<u8> {
    record(1, &[1, 1, 1])
}

#[test]
fn the_author_1_to_8() {
    assert_eq!(Rule::read(&[]), refused(3, 0));
    assert_eq!(Rule::read(&worked()[..57]), refused(1, 40));
    assert_eq!(read(&[sizes(), record(7, &[0])]), refused(2, 10));
    assert_eq!(read(&[sizes(), record(5, &[0; 31])]), refused(2, 10), "nine atoms");
    assert_eq!(read(&[sizes(), record(3, &[0]), record(2, &[0])]), refused(3, 16));
    let many: Vec<Vec<u8>> = (0..257).map(|_| record(5, &[0; 4])).collect();
    assert_eq!(read(&[sizes(), many[1..].concat()]).map(|rule| rule.head().count), Ok(256));
    assert_eq!(read(&[sizes(), many.concat()]), refused(4, 10 + 256 * 12));
    assert_eq!(read(&[record(1, &[33, 1, 1])]), refused(5, 0));
    assert_eq!(read(&[sizes(), record(5, &[0, 0, 0, 0, 0, 0, 31])]), refused(6, 10), "constant 31");
    let not_pinned = record(5, &[0, 0, 0, 1, 0, 3, 3, 0, 1, 4]);
    assert_eq!(read(&[sizes(), not_pinned]), refused(7, 10), "at least 3 with at most 4 and a reset");
    let at_most_14 = record(5, &[0, 0, 0, 0, 0, 1, 14]);
    assert!(read(&[record(1, &[16, 1, 3]), at_most_14.clone()]).is_ok());
    assert_eq!(read(&[record(1, &[17, 1, 3]), at_most_14]), refused(8, 28));
}

#[test]
fn the_caller_20_21_27() {
    let rule = worked_rule();
    assert_eq!(Rule::from_parts(rule.head(), rule.edges()[..EDGE_TABLE - 1].to_vec()), refused(20, 0));
    let head = raw::Head { count: 3, starts: 4, ..rule.head() };
    assert_eq!(Rule::from_parts(head, rule.edges().to_vec()), refused(21, 0));
    assert_eq!(Rule::from_parts(rule.head(), rule.edges().to_vec()), Ok(rule.clone()));
    assert_eq!(rule.write_into(&mut [0; 57]), refused(27, 0));
}

#[test]
fn the_caller_22_to_24() {
    let build = |scratch, cells, rows, pool| {
        let room = Room { scratch, cells, rows, pool };
        worked_rule().build(room).map(|table| table.row_count())
    };
    assert_eq!(build(1, 24, 9, 2), Ok(3));
    assert_eq!(build(0, 24, 9, 2), refused(22, 0));
    assert_eq!(build(1, 23, 9, 2), refused(23, 0));
    assert_eq!(build(1, 24, 8, 2), refused(23, 0));
    assert_eq!(build(1, 24, 9, 1), refused(24, 0));
}

#[test]
fn the_caller_25() {
    let table = worked_table();
    let [cells, rows, pool] = table.parts().map(<[u32]>::to_vec);
    let parts = |built, cells: &[u32]| Table::from_parts(built, cells.to_vec(), rows.clone(), pool.clone());
    assert_eq!(parts(table.built(), &cells), Ok(table.clone()));
    assert_eq!(parts(raw::Built { rows: 0, ..table.built() }, &cells), refused(25, 0));
    assert_eq!(parts(raw::Built { top: 31, ..table.built() }, &cells), refused(25, 0));
    assert_eq!(parts(table.built(), &cells[1..]), refused(25, 0));
    let with = |place: usize, value| {
        let mut cells = cells.clone();
        cells[place] = value;
        parts(table.built(), &cells)
    };
    assert_eq!(with(1, 3), refused(25, 0), "a timer reset at an odd interval");
    assert_eq!(with(0, u32::MAX), refused(25, 0), "a cell's row not below R");
}

#[test]
fn the_caller_26_and_34() {
    let rule = worked_rule();
    assert_eq!(rule.accepts(&Word::new(1), 0), refused(26, 0));
    assert_eq!(rule.accepts(&Word::new(1), 1), Ok(true));
    let table = worked_table();
    let record = table.follower(2).unwrap().record();
    let event = |record| table.resume(record).event(0, Stamp(9));
    assert_eq!(event(record), Ok(false));
    assert_eq!(event(raw::Follower { row: 3, ..record }), refused(34, 0));
    assert_eq!(event(raw::Follower { reset: Stamp(1), last: Stamp(1), ..record }), refused(34, 0));
    assert_eq!(event(raw::Follower { reset: Stamp(2), ..record }), refused(34, 0));
    assert_eq!(event(raw::Follower { count: 4097, ..record }), refused(34, 0));
    assert_eq!(event(raw::Follower { count: 4096, ..record }), refused(31, 0));
    assert_eq!(event(raw::Follower { grain: 1001, ..record }), refused(30, 0));
}

/// 32 locations, all initial and final; an event stays, and at age 1 may also reset the clock. Two events
/// on whole seconds leave ages 0, 1 and 2 in each location: 96 configurations.
fn spreading() -> Rule {
    let locations = |kind| (0..32).flat_map(move |l| record(kind, &[l])).collect();
    let edges = (0..32).flat_map(|l| [record(5, &[l, l, 0, 0]), record(5, &[l, l, 0, 1, 0, 2, 1])].concat());
    read(&[record(1, &[32, 1, 1]), locations(2), locations(3), edges.collect()]).unwrap()
}

#[test]
fn any_room_may_be_asked_for() {
    let (rule, word) = (spreading(), word(1, &[(0, 1), (0, 2)]));
    assert_eq!(rule.accepts(&word, 31), refused(26, 0));
    assert_eq!(rule.accepts(&word, 63), refused(26, 1));
    assert_eq!(rule.accepts(&word, 95), refused(26, 2));
    for room in [96, 97, 1000, usize::MAX / 8, usize::MAX / 4, usize::MAX / 4 + 1, usize::MAX] {
        assert_eq!(rule.accepts(&word, room), Ok(true), "{room}");
    }
    assert_eq!(worked_rule().accepts(&Word::new(1), usize::MAX), Ok(true));
}

#[test]
fn the_sender_30_to_33() {
    let (rule, table) = (worked_rule(), worked_table());
    let everywhere = |word: &Word, number, place| {
        assert_eq!(rule.accepts(word, 9), refused(number, place));
        assert_eq!(table.run(word), refused(number, place));
        assert_eq!(decide(&worked(), Room::LISTING, word), refused(number, place));
        assert_eq!(word.check(2, 4096), refused(number, place));
        rule.least_run(word)
    };
    assert_eq!(everywhere(&word(0, &[]), 30, 0), refused(30, 0));
    assert_eq!(everywhere(&word(1001, &[(7, 0)]), 30, 0), refused(30, 0));
    assert_eq!(everywhere(&repeated(4097), 31, 0), refused(31, 0));
    assert_eq!(everywhere(&word(1, &[(0, 3), (2, 2)]), 32, 2), refused(32, 2));
    assert_eq!(everywhere(&word(1, &[(0, 3), (0, 2), (9, 1)]), 33, 2), refused(33, 2));
    assert_eq!(table.run(&repeated(4096)), Ok(false));
    assert_eq!(rule.least_run(&repeated(12)), Ok(LeastRun::NoRun { held: Some(0) }));
    assert_eq!(rule.least_run(&repeated(13)), refused(31, 0));
    assert_eq!(table.follower(0).err(), Some(Refusal { number: 30, place: 0 }));
}

#[test]
fn a_refused_event_leaves_the_follower_unchanged() {
    let table = worked_table();
    let mut follower = table.follower(2).unwrap();
    follower.event(0, Stamp(2)).unwrap();
    let before = follower.record();
    assert_eq!(follower.event(2, Stamp(1)), refused(32, 2));
    assert_eq!(follower.event(1, Stamp(1)), refused(33, 2));
    assert_eq!(follower.record(), before);
}

#[test]
fn what_a_refused_call_leaves_in_lent_tables() {
    let mut edges = [9; EDGE_TABLE];
    assert_eq!(raw::read_rule(&worked(), &mut edges[1..]).number, 20);
    assert_eq!(edges, [9; EDGE_TABLE], "20 touches nothing");
    assert_eq!(raw::read_rule(&[1], &mut edges).number, 1);
    assert_eq!(edges, [0; EDGE_TABLE], "1 to 8 leave zeros");
    let rule = worked_rule();
    let [mut scratch, mut cells, mut rows, mut pool] = [[7; 24]; 4];
    let mut build = |n: usize| {
        let (scratch, pool) = (&mut scratch[..n], &mut pool[..1]);
        raw::build_table(rule.head(), rule.edges(), scratch, &mut cells, &mut rows, pool)
    };
    assert_eq!(build(0).number, 22);
    assert_eq!(build(6).number, 24);
    assert_eq!((scratch[5], scratch[6], cells, rows, pool[0], pool[1]), (0, 7, [0; 24], [0; 24], 0, 7));
}

#[test]
fn a_refused_run_by_branch_names_nothing() {
    let rule = worked_rule();
    let mut taken = [9; 12];
    let mut run = |grain, stamps: &[u32]| {
        raw::run_branches(rule.head(), rule.edges(), grain, &[0, 0], stamps, &mut taken)
    };
    let refused = |number, place| raw::BranchAnswer { number, place, ..raw::BranchAnswer::default() };
    assert_eq!(run(0, &[1, 1]), refused(30, 0));
    assert_eq!(run(2, &[1]), refused(31, 0));
    assert_eq!(run(2, &[1, 0]), refused(33, 2), "age 1/2 would hold edge 0 back");
    assert_eq!(taken, [0; 12]);
}

#[test]
fn refusals_say_what_they_are() {
    let refusal = Rule::read(&[]).unwrap_err();
    assert_eq!(refusal.cause(), Cause::Author);
    for number in 34..=39 {
        assert_eq!(Refusal { number, place: 0 }.cause(), Cause::Caller);
    }
    assert_eq!(Refusal { number: 30, place: 0 }.cause(), Cause::Sender);
    assert!(refusal.to_string().starts_with("no 3 0: sizes missing"));
    let numbers = (1..=8).chain(20..=27).chain(30..=39);
    assert!(numbers.map(|number| Refusal { number, place: 0 }).all(|r| r.meaning() != "unknown number"));
}

#[test]
fn refusals_of_batches_say_what_they_are() {
    for number in [40, 43] {
        let refusal = Refusal { number, place: 0 };
        assert_eq!(refusal.cause(), Cause::Caller);
        assert!(refusal.meaning() != "unknown number");
    }
}
