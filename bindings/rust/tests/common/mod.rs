//! Rule files and words for the tests.

#![allow(dead_code)]

use alderskein::{Refusal, Room, Rule, Stamp, Table, Word};

/// A record of a rule file.
pub fn record(kind: u16, numbers: &[u16]) -> Vec<u8> {
    let front = [2 * numbers.len() as u16, kind];
    front.iter().chain(numbers).flat_map(|number| number.to_le_bytes()).collect()
}

/// The file of the worked case, 58 bytes.
pub fn worked() -> Vec<u8> {
    let sizes = record(1, &[2, 2, 1]);
    let sets = [record(2, &[0]), record(3, &[0])].concat();
    let edges = [record(5, &[0, 1, 0, 1, 0, 2, 1]), record(5, &[1, 0, 1, 0, 0, 3, 1])].concat();
    [sizes, sets, edges].concat()
}

pub fn worked_rule() -> Rule {
    Rule::read(&worked()).unwrap()
}

pub fn worked_table() -> Table {
    worked_rule().build(Room::LISTING).unwrap()
}

/// Symbols and stamps.
pub type Events = &'static [(u16, u32)];

/// D, events and verdict of P1 to P8.
pub const WORDS: [(u32, Events, bool); 8] = [
    (2, &[], true),
    (2, &[(0, 2)], false),
    (2, &[(0, 2), (1, 4)], true),
    (2, &[(0, 2), (1, 3)], false),
    (2, &[(0, 1)], false),
    (2, &[(0, 2), (1, 4), (0, 4)], false),
    (2, &[(0, 2), (1, 4), (0, 4), (1, 6)], true),
    (3, &[(0, 3), (1, 7)], true),
];

pub fn word(grain: u32, events: &[(u16, u32)]) -> Word {
    events.iter().fold(Word::new(grain), |word, &(symbol, stamp)| word.with(symbol, Stamp(stamp)))
}

/// The same event so many times.
pub fn repeated(count: usize) -> Word {
    (0..count).fold(Word::new(1), |word, _| word.with(0, Stamp(5)))
}

pub fn refused<T>(number: u8, place: usize) -> Result<T, Refusal> {
    Err(Refusal { number, place })
}

/// The last verdict of a follower over the whole word, the start row's without events.
pub fn followed(table: &Table, word: &Word) -> bool {
    let mut follower = table.follower(word.grain()).unwrap();
    let mut last = table.verdict(0).unwrap();
    for (&symbol, &stamp) in word.symbols().iter().zip(word.stamps()) {
        last = follower.event(symbol, Stamp(stamp)).unwrap();
    }
    assert_eq!(follower.record().count as usize, word.len());
    last
}
