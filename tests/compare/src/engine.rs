//! The calls of the library, behind which either implementation stands.

use crate::all_words::MOST_WORDS;
use crate::{Batch, Word};
use alderskein::raw::{
    Answer, BranchAnswer, Building, Built, Followed, Follower, Head, Inclusion, Listed, Moved, Next, Reading,
    Shares, Size, Started,
};

/// A head record and an edge table.
#[allow(missing_docs)]
#[derive(Clone, Copy)]
pub struct Rule<'a> {
    pub head: Head,
    pub edges: &'a [u16],
}

/// A built record and its tables.
#[allow(missing_docs)]
#[derive(Clone, Copy)]
pub struct Table<'a> {
    pub built: Built,
    pub cells: &'a [u32],
    pub rows: &'a [u32],
    pub pool: &'a [u32],
}

/// What a builder is lent.
#[allow(missing_docs)]
pub struct Tables<'a> {
    pub scratch: &'a mut [u32],
    pub cells: &'a mut [u32],
    pub rows: &'a mut [u32],
    pub pool: &'a mut [u32],
}

/// What an inclusion is lent: a scratch, and the room of the word that it shows.
#[allow(missing_docs)]
pub struct Rooms<'a> {
    pub scratch: &'a mut [u32],
    pub symbols: &'a mut [u16],
    pub stamps: &'a mut [u32],
}

/// An event.
#[allow(missing_docs)]
#[derive(Clone, Copy)]
pub struct Event {
    pub symbol: u16,
    pub stamp: u32,
}

/// The calls, with every part of their answers.
#[allow(missing_docs)]
pub trait Engine {
    fn check_rule(rule: Rule) -> Answer;
    fn read_rule(file: &[u8], edges: &mut [u16]) -> Reading;
    fn write_rule(rule: Rule, out: &mut [u8]) -> Answer;
    fn check_word(symbol_count: u32, most: u32, word: &Word) -> Answer;
    fn build_table(rule: Rule, lent: Tables) -> Building;
    fn check_table(table: Table) -> Answer;
    fn run_table(table: Table, word: &Word) -> Answer;
    fn run_exact(rule: Rule, word: &Word, scratch: &mut [u32]) -> Answer;
    fn run_branches(rule: Rule, word: &Word, taken: &mut [u16; 12]) -> BranchAnswer;
    fn start_follower(grain: u32) -> Started;
    fn follow_event(follower: Follower, table: Table, event: Event) -> Followed;
    fn follow_in_place(follower: &mut Follower, table: Table, event: Event) -> Moved;
    fn decide(file: &[u8], edges: &mut [u16], lent: Tables, word: &Word) -> Answer;
    fn check_inclusion(first: Table, second: Table, lent: Rooms) -> Inclusion;
    fn count_shares(batch: &Batch, events: u32, seconds: u32) -> Shares;
    fn next_word(size: Size, word: Listed) -> Next;
    /// Visits a list's words by the next of each from the empty one on, and gives how many there were. A list that
    /// does not end is left.
    fn all_words(size: Size, visit: &mut dyn FnMut(&Listed)) -> Answer {
        let mut word = Listed::default();
        for value in 1..=MOST_WORDS {
            let next = Self::next_word(size, word);
            if next.number != 0 {
                return Answer { number: next.number, place: next.place, value: 0 };
            }
            visit(&word);
            if next.last {
                return Answer { value, ..Answer::default() };
            }
            word = next.word;
        }
        Answer { value: MOST_WORDS, ..Answer::default() }
    }
    /// What the listing program prints for a file.
    fn list(file: &[u8]) -> Vec<u8>;
}
