//! All words up to a size: lists in full, their order and lengths, the next word of any, 38 and 39.

mod common;

use alderskein::raw::{self, LISTED_EVENTS};
use alderskein::{Listed, Refusal, Size, Word, Words, LIST_GRAIN};
use common::{followed, refused, word, worked_rule, worked_table, WORDS};

/// Sizes whose lists are gone through.
const SIZES: [Size; 10] = [
    size(1, 0, 30),
    size(16, 1, 30),
    size(1, 2, 30),
    size(16, 2, 1),
    size(1, 3, 10),
    size(3, 3, 2),
    size(2, 4, 3),
    size(4, 6, 0),
    size(3, 5, 1),
    size(1, 6, 6),
];
/// The most words of these lists: those of the last one.
const MOST_WORDS: usize = 27_132;
const LARGEST: Size = size(16, 6, 30);

const fn size(symbols: u32, events: u32, seconds: u32) -> Size {
    Size { symbols, events, seconds }
}

/// A word of a list with these events, each a symbol and a stamp.
fn listed(events: &[(u16, u32)]) -> Listed {
    let mut word = Listed { count: events.len() as u32, ..Listed::default() };
    for (place, &(symbol, stamp)) in events.iter().enumerate() {
        (word.symbols[place], word.stamps[place]) = (symbol, stamp);
    }
    word
}

/// The whole list; one word too many if it does not end.
fn whole(size: Size) -> Vec<Listed> {
    Words::up_to(size).unwrap().take(MOST_WORDS + 1).collect()
}

/// The last word of a list.
fn last(size: Size) -> Listed {
    listed(&vec![(size.symbols as u16 - 1, 2 * size.seconds); size.events as usize])
}

/// What words stand in order by: length, then event by event stamp before symbol.
fn key(word: &Listed) -> (u32, Vec<(u32, u16)>) {
    let events = word.stamps.into_iter().zip(word.symbols);
    (word.count, events.take(word.count as usize).collect())
}

/// S^n times the binomial of 2H + n over n.
fn count_of_length(size: Size, length: u32) -> usize {
    let binomial = (1..=length).fold(1, |ways, event| ways * (2 * size.seconds + event) / event);
    (size.symbols.pow(length) * binomial) as usize
}

#[test]
fn small_lists_in_full() {
    let stamps: [&[u32]; 10] = [&[], &[0], &[1], &[2], &[0, 0], &[0, 1], &[0, 2], &[1, 1], &[1, 2], &[2, 2]];
    let of_one_symbol =
        stamps.map(|stamps| listed(&stamps.iter().map(|&stamp| (0, stamp)).collect::<Vec<_>>()));
    assert_eq!(whole(size(1, 2, 1)), of_one_symbol);
    let of_one_event = [(0, 0), (1, 0), (0, 1), (1, 1), (0, 2), (1, 2)].map(|event| listed(&[event]));
    assert_eq!(whole(size(2, 1, 1)), [&[listed(&[])], &of_one_event[..]].concat());
    let at_0 = [[(0, 0), (0, 0)], [(0, 0), (1, 0)], [(1, 0), (0, 0)], [(1, 0), (1, 0)]];
    let pairs = at_0.map(|pair| listed(&pair));
    assert_eq!(whole(size(2, 2, 0))[3..], pairs);
}

#[test]
fn without_events_there_is_the_empty_word_alone() {
    for size in [size(1, 0, 0), size(16, 0, 0), size(1, 0, 30), size(16, 0, 30)] {
        assert_eq!(whole(size), [Listed::default()]);
        let next = raw::next_word(size, Listed::default());
        assert_eq!(next, raw::Next { last: true, ..raw::Next::default() });
    }
}

#[test]
fn each_word_comes_once_in_order_and_as_many_as_there_are() {
    for size in SIZES {
        let words = whole(size);
        assert_eq!(words[0], Listed::default());
        assert!(words.windows(2).all(|pair| key(&pair[0]) < key(&pair[1])), "{size:?}");
        for length in 0..=size.events {
            let count = words.iter().filter(|word| word.count == length).count();
            assert_eq!(count, count_of_length(size, length), "{size:?}, {length} events");
        }
        assert_eq!(words.last(), Some(&last(size)));
    }
}

#[test]
fn after_the_last_word_there_is_none() {
    for size in SIZES.into_iter().chain([LARGEST]) {
        let word = last(size);
        assert_eq!(raw::next_word(size, word), raw::Next { number: 0, place: 0, last: true, word });
        assert_eq!(Words::after(size, word).unwrap().next(), None);
    }
    let mut words = Words::up_to(size(1, 1, 1)).unwrap();
    assert_eq!(words.by_ref().take(4).last(), Some(last(size(1, 1, 1))));
    assert_eq!([words.next(), words.next()], [None, None]);
}

#[test]
fn a_list_is_taken_up_after_any_of_its_words() {
    let size = size(2, 2, 2);
    let words = whole(size);
    assert_eq!(words.len(), 71);
    for (place, &word) in words.iter().enumerate() {
        assert!(Words::after(size, word).unwrap().eq(words[place + 1..].iter().copied()), "{word:?}");
    }
}

/// The list of the largest size cannot be gone through, but its turns can.
#[test]
fn turns_of_the_largest_list() {
    let next = |events: &[(u16, u32)]| Words::after(LARGEST, listed(events)).unwrap().next().unwrap();
    assert_eq!(next(&[]), listed(&[(0, 0)]));
    assert_eq!(next(&[(15, 60); 5]), listed(&[(0, 0); 6]));
    let mut events = [(0, 0), (3, 7), (15, 60), (15, 60), (15, 60), (15, 60)];
    assert_eq!(next(&events), listed(&[(0, 0), (4, 7), (0, 7), (0, 7), (0, 7), (0, 7)]));
    events[1] = (15, 7);
    assert_eq!(next(&events), listed(&[(0, 0), (0, 8), (0, 8), (0, 8), (0, 8), (0, 8)]));
    events[1] = (15, 60);
    assert_eq!(next(&events), listed(&[(1, 0), (0, 0), (0, 0), (0, 0), (0, 0), (0, 0)]));
    events[0] = (15, 59);
    assert_eq!(next(&events), listed(&[(0, 60); 6]));
}

/// Checks that every call refuses the size and word with this number, and hands the word back as it was.
fn refuses(size: Size, word: Listed, number: u8) {
    let next = raw::next_word(size, word);
    assert_eq!(next, raw::Next { number, place: 0, last: false, word }, "{size:?}");
    let after = Words::after(size, word).map(|mut words| words.next());
    assert_eq!(after, refused(number, 0), "{size:?}, {word:?}");
}

#[test]
fn a_size_out_of_range_is_38() {
    let not_listed = Listed { count: u32::MAX, symbols: [u16::MAX; 6], stamps: [6, 5, 4, 3, 2, u32::MAX] };
    let sizes = [0, 17, u32::MAX].map(|symbols| Size { symbols, ..LARGEST });
    let lengths = [7, u32::MAX].map(|events| Size { events, ..LARGEST });
    let times = [31, u32::MAX].map(|seconds| Size { seconds, ..LARGEST });
    for size in [&sizes[..], &lengths, &times].concat() {
        assert_eq!(Words::up_to(size).err(), Some(Refusal { number: 38, place: 0 }), "{size:?}");
        for word in [Listed::default(), last(LARGEST), not_listed] {
            refuses(size, word, 38);
        }
    }
    for size in [size(1, 6, 30), size(16, 6, 0), size(1, 0, 0), LARGEST] {
        assert_eq!(Words::up_to(size).unwrap().next(), Some(Listed::default()), "{size:?}");
        refuses(size, not_listed, 39);
    }
}

#[test]
fn a_word_that_is_not_in_the_list_is_39() {
    let size = size(3, 4, 2);
    for events in [[(2, 1), (0, 1)], [(0, 1), (2, 1)], [(0, 1), (0, 4)], [(2, 4), (2, 4)]] {
        assert!(Words::after(size, listed(&events)).is_ok(), "{events:?}");
    }
    for events in [[(3, 1), (0, 1)], [(0, 1), (3, 1)], [(0, 1), (0, 5)], [(0, 5), (0, 5)], [(0, 2), (0, 1)]] {
        refuses(size, listed(&events), 39);
    }
    assert!(Words::after(size, listed(&[(0, 0); 4])).is_ok());
    refuses(size, listed(&[(0, 0); 5]), 39);
    for count in [7, 8, 1 << 16, u32::MAX] {
        refuses(LARGEST, Listed { count, ..Listed::default() }, 39);
    }
}

#[test]
fn an_unused_place_that_is_not_zero_is_39() {
    for count in 0..LISTED_EVENTS {
        for place in count..LISTED_EVENTS {
            let mut word = listed(&vec![(1, 1); count]);
            assert!(Words::after(LARGEST, word).is_ok());
            word.symbols[place] = 1;
            refuses(LARGEST, word, 39);
            (word.symbols[place], word.stamps[place]) = (0, 1);
            refuses(LARGEST, word, 39);
        }
    }
}

#[test]
fn a_listed_word_is_a_word_in_half_seconds() {
    let events = [(7, 0), (0, 1), (15, 1), (3, 59), (2, 60), (1, 60)];
    for count in 0..=LISTED_EVENTS {
        assert_eq!(Word::from(listed(&events[..count])), word(LIST_GRAIN, &events[..count]));
    }
    let too_many = Listed { count: u32::MAX, ..listed(&events) };
    assert_eq!(Word::from(too_many), word(2, &events), "there are six places");
}

#[test]
fn every_listed_word_can_be_run() {
    let (rule, table) = (worked_rule(), worked_table());
    let size = size(2, 4, 3);
    let words: Vec<Word> = whole(size).into_iter().map(Word::from).collect();
    for word in &words {
        assert_eq!(word.check(size.symbols, size.events), Ok(()), "{word:?}");
        let verdict = table.run(word).unwrap();
        assert_eq!(rule.accepts(word, 2), Ok(verdict), "{word:?}");
        assert_eq!(followed(&table, word), verdict, "{word:?}");
    }
    for (grain, events, verdict) in WORDS.into_iter().filter(|&(grain, ..)| grain == LIST_GRAIN) {
        let found: Vec<_> = words.iter().filter(|&listed| *listed == word(grain, events)).collect();
        assert_eq!(found.len(), 1, "{events:?}");
        assert_eq!(table.run(found[0]), Ok(verdict));
    }
}
