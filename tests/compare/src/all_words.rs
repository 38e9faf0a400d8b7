//! Whole lists of words.

use crate::lists::{Hashed, MOST_NUMBERS};
use crate::{Engine, Reply};
use alderskein::raw::{Size, LISTED_EVENTS};

/// The numbers of a listed word: the count, the symbols, the stamps.
const LISTED_NUMBERS: usize = 1 + 2 * LISTED_EVENTS;
/// The most words of a list that a script may ask for; more is malformed.
pub const MOST_WORDS: usize = MOST_NUMBERS / LISTED_NUMBERS;

/// How many words a list has: of n events, S^n times the binomial of 2H + n over n. Nothing for a size out of range.
pub fn word_count(size: Size) -> Option<u64> {
    let Size { symbols, events, seconds } = size;
    let in_range = (1..=16).contains(&symbols) && events <= LISTED_EVENTS as u32 && seconds <= 30;
    let of_length = |count| u64::from(symbols).pow(count) * binomial(2 * seconds + count, count);
    in_range.then(|| (0..=events).map(of_length).sum())
}

/// In how many ways so many can be chosen from these.
fn binomial(from: u32, count: u32) -> u64 {
    (1..=u64::from(count)).fold(1, |ways, chosen| ways * (u64::from(from - count) + chosen) / chosen)
}

/// The whole list of a size, hashed word by word; nothing if it is too long.
pub fn whole_list<E: Engine>(size: Size) -> Option<Reply> {
    if word_count(size).is_some_and(|count| count > MOST_WORDS as u64) {
        return None;
    }
    let mut hashed = Hashed::default();
    let answer = E::all_words(size, &mut |word| hashed.add_listed(word));
    Some(Reply::Words(answer, hashed))
}

#[cfg(test)]
mod tests {
    use super::*;
    use crate::{Library, Machine, Reference};

    fn size(symbols: u32, events: u32, seconds: u32) -> Size {
        Size { symbols, events, seconds }
    }

    #[test]
    fn words_are_counted() {
        let small = [(size(16, 0, 30), 1), (size(1, 6, 0), 7), (size(1, 2, 1), 10), (size(2, 3, 2), 351)];
        let big = [(size(16, 2, 30), 485_073), (size(1, 6, 13), 1_107_568), (size(10, 4, 4), 5_119_591)];
        for (size, count) in small.into_iter().chain(big) {
            assert_eq!(word_count(size), Some(count));
        }
        assert_eq!(word_count(size(16, 6, 30)), Some(1_533_060_099_692_241));
        for size in [size(0, 6, 30), size(17, 6, 30), size(16, 7, 30), size(16, 6, 31), size(1, 0, 1 << 31)] {
            assert_eq!(word_count(size), None);
        }
    }

    #[test]
    fn next_and_words_are_answered() {
        let lines = [
            ("next 1 2 1 0 0,0,0,0,0,0 0,0,0,0,0,0", "next ok 1 1 0,0,0,0,0,0 0,0,0,0,0,0"),
            ("next 2 2 1 2 0,1,0*4 0,2,0*4", "next ok 1 2 1,0,0,0,0,0 0,0,0,0,0,0"),
            ("next 16 6 30 6 15*6 60*6", "next ok 0 6 15,15,15,15,15,15 60,60,60,60,60,60"),
            ("next 1 2 1 1 0*6 3,0*5", "next no 39 0 1 0,0,0,0,0,0 3,0,0,0,0,0"),
            ("next 0 2 1 7 0+1*6 5*6", "next no 38 0 7 0,1,2,3,4,5 5,5,5,5,5,5"),
            ("next 1 2 1 0 0*5 0*6", "bad"),
            ("next 1 2 1 0 0*6 0*7", "bad"),
            ("next 0 2 1 0 0*6 -", "bad"),
            ("words 2 3 2", "words ok 351 4563:64753ddc402dc684"),
            ("words 16 6 31", "words no 38 0"),
            ("words 13 6 0", "bad"),
            ("words 1 2", "bad"),
        ];
        for (line, expected) in lines {
            assert_eq!(Machine::<Library>::new().answer(line), expected, "{line}");
            assert_eq!(Machine::<Reference>::new().answer(line), expected, "{line}");
        }
    }
}
