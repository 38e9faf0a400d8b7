//! A ceiling record: read, checked and dropped.

mod common;

use alderskein::{decide, LeastRun, Room, Rule, Word, LONGEST_FILE};
use common::{followed, record, refused, word, worked, worked_rule, worked_table, Events, WORDS};

/// The bytes of a ceiling record.
const CEILING_BYTES: usize = 6;
/// Where the final location and the two edges of the worked case begin.
const FINAL_AT: usize = 16;
const EDGES_AT: usize = 22;
const SECOND_EDGE_AT: usize = 40;
/// What the table of the worked case needs, number for number.
const WORKED_ROOM: Room = Room { scratch: 1, cells: 24, rows: 9, pool: 2 };

/// Words over the worked case with seconds about 30: D, events and verdict.
const LATE_WORDS: [(u32, Events, bool); 4] = [
    (2, &[(0, 2), (1, 59)], true),
    (2, &[(0, 2), (1, 62)], true),
    (2, &[(0, 2), (1, 64), (0, 66)], false),
    (2, &[(0, 60)], false),
];

/// The worked case with these bytes put in at a place.
fn worked_with(place: usize, bytes: &[u8]) -> Vec<u8> {
    let file = worked();
    [&file[..place], bytes, &file[place..]].concat()
}

fn with_ceiling(ceiling: u16) -> Vec<u8> {
    worked_with(EDGES_AT, &record(4, &[ceiling]))
}

#[test]
fn a_ceiling_is_read_and_not_written() {
    for ceiling in [0, 1, 2, 30] {
        let file = with_ceiling(ceiling);
        let rule = Rule::read(&file).unwrap();
        assert_eq!(rule, worked_rule(), "the head record and the edge table with ceiling {ceiling}");
        let written = rule.write().unwrap();
        assert_eq!(written.len() + CEILING_BYTES, file.len());
        assert_eq!(written, [&file[..EDGES_AT], &file[EDGES_AT + CEILING_BYTES..]].concat());
        assert_eq!(Rule::read(&written), Ok(rule));
    }
}

#[test]
fn the_table_is_the_same_cell_by_cell() {
    for ceiling in [0, 1, 2, 30] {
        let table = Rule::read(&with_ceiling(ceiling)).unwrap().build(WORKED_ROOM).unwrap();
        assert_eq!(table, worked_table(), "ceiling {ceiling}");
        assert_eq!(table.to_string(), worked_table().to_string());
    }
}

/// What the exact runner, the search by branch, the table runner, the follower and `decide` say of a word.
fn verdicts(file: &[u8], word: &Word) -> [bool; 5] {
    let rule = Rule::read(file).unwrap();
    let table = rule.build(WORKED_ROOM).unwrap();
    [
        rule.accepts(word, 2).unwrap(),
        matches!(rule.least_run(word).unwrap(), LeastRun::Found(_)),
        table.run(word).unwrap(),
        followed(&table, word),
        decide(file, WORKED_ROOM, word).unwrap(),
    ]
}

#[test]
fn every_runner_says_the_same_before_and_after() {
    let file = with_ceiling(30);
    let written = Rule::read(&file).unwrap().write().unwrap();
    for (grain, events, verdict) in WORDS.into_iter().chain(LATE_WORDS) {
        let word = word(grain, events);
        assert_eq!(verdicts(&file, &word), [verdict; 5], "{events:?}");
        assert_eq!(verdicts(&written, &word), [verdict; 5], "{events:?}, as written");
    }
}

#[test]
fn the_record_is_checked() {
    let read = |bytes: &[u8]| Rule::read(&worked_with(EDGES_AT, bytes));
    assert_eq!(Rule::read(&with_ceiling(30)[..EDGES_AT + 5]), refused(1, EDGES_AT), "cut short");
    assert_eq!(read(&record(4, &[])), refused(2, EDGES_AT), "no number");
    assert_eq!(read(&record(4, &[0, 0])), refused(2, EDGES_AT), "two numbers");
    assert_eq!(read(&record(4, &[31])), refused(6, EDGES_AT));
    let second = EDGES_AT + CEILING_BYTES;
    assert_eq!(read(&record(4, &[0]).repeat(2)), refused(3, second), "twice");
    let over = [record(4, &[30]), record(4, &[31])].concat();
    assert_eq!(read(&over), refused(3, second), "twice, and the second over 30");
}

#[test]
fn the_place_is_checked() {
    let read = |place| Rule::read(&worked_with(place, &record(4, &[30])));
    let location = FINAL_AT + CEILING_BYTES;
    assert_eq!(read(0), refused(3, 0), "before the sizes");
    assert_eq!(read(FINAL_AT), refused(3, location), "before a final location, which then falls");
    assert_eq!(read(EDGES_AT), Ok(worked_rule()));
    for after in [SECOND_EDGE_AT, worked().len()] {
        assert_eq!(read(after), refused(3, after), "after an edge");
    }
}

#[test]
fn a_ceiling_does_not_count_for_n() {
    for (locations, clocks) in [(17, 3), (32, 3), (1, 4), (32, 4)] {
        let file = [record(1, &[locations, 1, clocks]), record(2, &[0]), record(4, &[30])].concat();
        let table = Rule::read(&file).unwrap().build(Room::LISTING).unwrap();
        assert_eq!((table.built().top, table.interval_count()), (0, 2), "L = {locations}, K = {clocks}");
    }
    let at_most_14 = record(5, &[0, 0, 0, 0, 0, 1, 14]);
    let file = [record(1, &[17, 1, 3]), record(4, &[0]), at_most_14].concat();
    assert_eq!(Rule::read(&file), refused(8, file.len()), "too large by an atom");
}

#[test]
fn writing_asks_for_the_room_of_what_it_writes() {
    let rule = Rule::read(&with_ceiling(30)).unwrap();
    let (length, ample) = (worked().len(), with_ceiling(30).len());
    let mut out = vec![9; ample];
    assert_eq!(rule.write_into(&mut out[..length - 1]), refused(27, 0));
    assert_eq!(out, vec![9; ample], "27 touches nothing");
    let untouched_past = [worked(), vec![9; CEILING_BYTES]].concat();
    for room in [length, ample] {
        out.fill(9);
        assert_eq!(rule.write_into(&mut out[..room]), Ok(length));
        assert_eq!(out, untouched_past, "room for {room} bytes");
    }
}

#[test]
fn the_longest_file_is_written_without_its_ceiling() {
    let locations = |kind| (0..32).flat_map(move |location| record(kind, &[location])).collect();
    let front = [record(1, &[32, 16, 1]), locations(2), locations(3)].concat();
    let text = [[3, 0, 4, 30].repeat(16), [2, 4].repeat(8)].concat();
    let edges = record(6, &[vec![31, 31, 15, 0], text].concat()).repeat(256);
    let file = [&front[..], &record(4, &[30]), &edges].concat();
    assert_eq!(file.len(), LONGEST_FILE);
    assert_eq!(Rule::read(&file).unwrap().write(), Ok([front, edges].concat()));
}
