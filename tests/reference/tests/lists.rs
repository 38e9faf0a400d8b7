//! All words up to a size, in order: the list in full, its order and its length, words of every D in it, the
//! next word, and refusals 38 and 39.

mod common;

use common::{refusal, Random};
use reference::script::run_script;
use reference::{all_words, check_word, count_words, next_word, Listed, Size, MOST_LISTED_EVENTS};

/// The sizes whose lists have at most so many words.
const SMALL_LIST: u64 = 3_000;

const BIG_LISTS: [(Size, u64); 2] = [(size(16, 2, 30), 485_073), (size(1, 6, 13), 1_107_568)];

const fn size(symbols: u32, events: u32, seconds: u32) -> Size {
    Size { symbols, events, seconds }
}

/// A word of these events, each a symbol and a stamp.
fn word(events: &[(u16, u32)]) -> Listed {
    let mut word = Listed { count: events.len() as u32, ..Listed::default() };
    for (place, &(symbol, stamp)) in events.iter().enumerate() {
        (word.symbols[place], word.stamps[place]) = (symbol, stamp);
    }
    word
}

/// A listed word's events, stamp before symbol.
fn events(word: &Listed) -> Vec<(u32, u16)> {
    let both = word.stamps.into_iter().zip(word.symbols);
    both.take(word.count as usize).collect()
}

/// What words are ordered by.
fn key(word: &Listed) -> (u32, Vec<(u32, u16)>) {
    (word.count, events(word))
}

fn whole_list(size: Size) -> Vec<Listed> {
    let mut words = Vec::new();
    all_words(size, |word| words.push(*word)).unwrap();
    words
}

/// The words from the empty one on, each the next of the one before.
fn by_next(size: Size) -> impl Iterator<Item = Listed> {
    std::iter::successors(Some(Listed::default()), move |word| next_word(size, word).unwrap())
}

fn all_sizes() -> impl Iterator<Item = Size> {
    let sizes = (1..=16).flat_map(|symbols| (0..=6).map(move |events| (symbols, events)));
    sizes.flat_map(|(symbols, events)| (0..=30).map(move |seconds| size(symbols, events, seconds)))
}

fn small_sizes() -> impl Iterator<Item = Size> {
    all_sizes().filter(|&size| counts(size).iter().sum::<u64>() <= SMALL_LIST)
}

/// How many words there are of each length: S^n times the binomial, by Pascal's triangle.
fn counts(size: Size) -> Vec<u64> {
    let mut row = vec![1];
    let mut counts = Vec::new();
    for top in 0..=2 * size.seconds + size.events {
        if let Some(length) = top.checked_sub(2 * size.seconds) {
            counts.push(u64::from(size.symbols).pow(length) * row[length as usize]);
        }
        let inner = row.windows(2).map(|pair| pair[0] + pair[1]);
        row = [1].into_iter().chain(inner).chain([1]).collect();
    }
    counts
}

/// FNV-1a over count, symbols and stamps of each word in turn, eight bytes a number, and how many words.
fn hash(words: impl Iterator<Item = Listed>) -> (u64, u64) {
    let mut total = 0;
    let mut hash = 0xcbf2_9ce4_8422_2325_u64;
    for word in words {
        total += 1;
        let places = word.symbols.map(u64::from).into_iter().chain(word.stamps.map(u64::from));
        for byte in [u64::from(word.count)].into_iter().chain(places).flat_map(u64::to_le_bytes) {
            hash = (hash ^ u64::from(byte)).wrapping_mul(0x100_0000_01b3);
        }
    }
    (total, hash)
}

fn answers(script: &str) -> Vec<String> {
    let mut output = Vec::new();
    run_script(script.as_bytes(), &mut output).unwrap();
    String::from_utf8(output).unwrap().lines().map(String::from).collect()
}

#[test]
fn small_lists_in_full() {
    let stamps: [&[u32]; 10] = [&[], &[0], &[1], &[2], &[0, 0], &[0, 1], &[0, 2], &[1, 1], &[1, 2], &[2, 2]];
    let one_symbol = stamps.map(|stamps| {
        let events: Vec<_> = stamps.iter().map(|&stamp| (0, stamp)).collect();
        word(&events)
    });
    assert_eq!(whole_list(size(1, 2, 1)), one_symbol);

    let one_event = [(0, 0), (1, 0), (0, 1), (1, 1), (0, 2), (1, 2)].map(|event| word(&[event]));
    assert_eq!(whole_list(size(2, 1, 1)), [&[word(&[])], &one_event[..]].concat());

    let at_start = [[(0, 0), (0, 0)], [(0, 0), (1, 0)], [(1, 0), (0, 0)], [(1, 0), (1, 0)]];
    let singles = [word(&[]), word(&[(0, 0)]), word(&[(1, 0)])];
    assert_eq!(whole_list(size(2, 2, 0)), [&singles[..], &at_start.map(|both| word(&both))].concat());
    assert_eq!(whole_list(size(16, 0, 30)), [word(&[])]);
}

/// The first event's stamp, its symbol, the second event's stamp, its symbol.
#[test]
fn two_events_of_two_symbols_in_order() {
    let text = |&(stamp, symbol): &(u32, u16)| format!("{stamp}{}", ["a", "b"][usize::from(symbol)]);
    let pairs = &whole_list(size(2, 2, 1))[7..];
    let texts: Vec<String> = pairs.iter().map(|word| events(word).iter().map(text).collect()).collect();
    let expected = "0a0a 0a0b 0a1a 0a1b 0a2a 0a2b 0b0a 0b0b 0b1a 0b1b 0b2a 0b2b \
                    1a1a 1a1b 1a2a 1a2b 1b1a 1b1b 1b2a 1b2b 2a2a 2a2b 2b2a 2b2b";
    assert_eq!(texts.join(" "), expected);
}

#[test]
fn counts_by_the_formula() {
    for size in all_sizes() {
        assert_eq!(count_words(size), Ok(counts(size).iter().sum()), "{size:?}");
    }
    for size in small_sizes() {
        let mut listed = vec![0; size.events as usize + 1];
        all_words(size, |word| listed[word.count as usize] += 1).unwrap();
        assert_eq!(listed, counts(size), "{size:?}");
    }
    assert_eq!(count_words(size(1, 2, 1)), Ok(10));
    assert_eq!(count_words(size(2, 1, 1)), Ok(7));
    assert_eq!(count_words(size(16, 6, 30)), Ok(1_533_060_099_692_241));
}

#[test]
fn each_word_once_in_order_and_by_the_word_rules() {
    for size in small_sizes() {
        let words = whole_list(size);
        assert!(words.windows(2).all(|pair| key(&pair[0]) < key(&pair[1])), "{size:?}");
        for word in words {
            let count = word.count as usize;
            let (symbols, stamps) = (&word.symbols[..count], &word.stamps[..count]);
            assert_eq!(check_word(size.symbols, 2, size.events, symbols, stamps), Ok(()));
            assert!(stamps.iter().all(|&stamp| stamp <= 2 * size.seconds), "{size:?}, {word:?}");
            assert!(word.symbols[count..].iter().all(|&symbol| symbol == 0), "{size:?}, {word:?}");
            assert!(word.stamps[count..].iter().all(|&stamp| stamp == 0), "{size:?}, {word:?}");
        }
    }
}

#[test]
fn next_word_by_next_word_is_the_whole_list() {
    for size in small_sizes() {
        assert_eq!(by_next(size).collect::<Vec<_>>(), whole_list(size), "{size:?}");
    }
}

#[test]
fn big_lists_from_first_to_last() {
    for (size, total) in BIG_LISTS {
        assert_eq!(count_words(size), Ok(total));
        let hashed = hash(by_next(size));
        assert_eq!(hashed, hash(whole_list(size).into_iter()), "{size:?}");
        let Size { symbols, events, seconds } = size;
        let line = format!("words ok {total} {}:{:016x}", 13 * total, hashed.1);
        assert_eq!(answers(&format!("words {symbols} {events} {seconds}")), [line]);
    }
}

/// The list of the largest size cannot be gone through, but its turns can.
#[test]
fn turns_of_the_largest_list() {
    let largest = size(16, 6, 30);
    let next = |events: &[(u16, u32)]| next_word(largest, &word(events)).unwrap();
    assert_eq!(next(&[]), Some(word(&[(0, 0)])));
    assert_eq!(next(&[(15, 60); 5]), Some(word(&[(0, 0); 6])));
    assert_eq!(next(&[(15, 60); 6]), None);
    let mut events = [(0, 0), (3, 7), (15, 60), (15, 60), (15, 60), (15, 60)];
    assert_eq!(next(&events), Some(word(&[(0, 0), (4, 7), (0, 7), (0, 7), (0, 7), (0, 7)])));
    events[1] = (15, 7);
    assert_eq!(next(&events), Some(word(&[(0, 0), (0, 8), (0, 8), (0, 8), (0, 8), (0, 8)])));
    events[1] = (15, 60);
    assert_eq!(next(&events), Some(word(&[(1, 0), (0, 0), (0, 0), (0, 0), (0, 0), (0, 0)])));
    events[0] = (15, 59);
    assert_eq!(next(&events), Some(word(&[(0, 60); 6])));
    events[5] = (14, 60);
    assert_eq!(next(&events), Some(word(&[(15, 59), (15, 60), (15, 60), (15, 60), (15, 60), (15, 60)])));
}

/// A stamp's whole seconds, and whether it has a fraction.
fn second(stamp: u32, grain: u32) -> (u32, bool) {
    (stamp / grain, stamp % grain != 0)
}

/// Whether a word under D has the symbols, whole seconds and zero-or-not fractions of a listed one.
fn alike(grain: u32, symbols: &[u16], stamps: &[u32], listed: &Listed) -> bool {
    let count = listed.count as usize;
    let seconds = stamps.iter().map(|&stamp| second(stamp, grain));
    symbols == &listed.symbols[..count]
        && seconds.eq(listed.stamps[..count].iter().map(|&stamp| second(stamp, 2)))
}

/// Calls with every word of at most m events over S symbols, its stamps at most H seconds under D.
fn every_word(
    size: Size,
    grain: u32,
    symbols: &mut Vec<u16>,
    stamps: &mut Vec<u32>,
    call: &mut dyn FnMut(&[u16], &[u32]),
) {
    call(symbols, stamps);
    if symbols.len() == size.events as usize {
        return;
    }
    for symbol in 0..size.symbols as u16 {
        for stamp in stamps.last().copied().unwrap_or(0)..=size.seconds * grain {
            symbols.push(symbol);
            stamps.push(stamp);
            every_word(size, grain, symbols, stamps, call);
            symbols.pop();
            stamps.pop();
        }
    }
}

/// Holds every word of the size under D against the whole list.
fn assert_alike_to_one(size: Size, grain: u32) {
    let list = whole_list(size);
    every_word(size, grain, &mut vec![], &mut vec![], &mut |symbols, stamps| {
        assert_eq!(check_word(size.symbols, grain, size.events, symbols, stamps), Ok(()));
        let likes = list.iter().filter(|listed| alike(grain, symbols, stamps, listed)).count();
        assert_eq!(likes, 1, "{size:?}, D = {grain}, {symbols:?}, {stamps:?}");
    });
}

#[test]
fn every_word_of_every_resolution_is_alike_to_one_listed() {
    for grain in 1..=7 {
        for events in 0..=2 {
            assert_alike_to_one(size(2, events, 2), grain);
            assert_alike_to_one(size(3, events, 0), grain);
        }
        assert_alike_to_one(size(1, 3, 2), grain);
        assert_alike_to_one(size(1, 6, 0), grain);
    }
    assert_alike_to_one(size(1, 6, 1), 3);
    for grain in 1..=1000 {
        assert_alike_to_one(size(1, 1, 2), grain);
    }
}

#[test]
fn random_words_are_alike_to_one_listed() {
    let mut random = Random(26);
    let size = size(2, 2, 30);
    let list = whole_list(size);
    for _ in 0..1000 {
        let grain = random.between(1, 1000) as u32;
        let count = random.between(0, 2) as usize;
        let symbols: Vec<u16> = (0..count).map(|_| random.below(2) as u16).collect();
        let mut stamps: Vec<u32> =
            (0..count).map(|_| random.between(0, 30 * u64::from(grain)) as u32).collect();
        stamps.sort();
        let likes = list.iter().filter(|listed| alike(grain, &symbols, &stamps, listed)).count();
        assert_eq!(likes, 1, "D = {grain}, {symbols:?}, {stamps:?}");
    }
}

#[test]
fn sizes_out_of_range_are_38() {
    let in_range = [size(1, 0, 0), size(16, 6, 30), size(1, 6, 30), size(16, 0, 30), size(16, 6, 0)];
    let out_of_range = [
        size(0, 6, 30),
        size(17, 0, 0),
        size(u32::MAX, 0, 0),
        size(16, 7, 30),
        size(1, u32::MAX, 0),
        size(16, 6, 31),
        size(1, 0, u32::MAX),
        size(1, 0, 1 << 31),
        size(0, 7, 31),
    ];
    let not_listed = Listed { count: 7, ..Listed::default() };
    for size in in_range {
        assert!(next_word(size, &Listed::default()).is_ok() && count_words(size).is_ok(), "{size:?}");
        assert_eq!(next_word(size, &not_listed), refusal(39, 0), "{size:?}");
    }
    for size in out_of_range {
        assert_eq!(count_words(size), refusal(38, 0), "{size:?}");
        assert_eq!(all_words(size, |word| panic!("{word:?}")), refusal(38, 0), "{size:?}");
        assert_eq!(next_word(size, &Listed::default()), refusal(38, 0), "{size:?}");
        assert_eq!(next_word(size, &not_listed), refusal(38, 0), "{size:?}, before 39");
    }
}

/// Every place of a word of every length, at its edge and past it.
#[test]
fn words_past_an_edge_are_39() {
    let size = size(3, 5, 2);
    let listed = |word: &Listed| match next_word(size, word) {
        Err(refused) => {
            assert_eq!((refused.number, refused.place), (39, 0));
            false
        }
        Ok(_) => true,
    };
    for count in 0..=5_usize {
        let base = word(&vec![(1, 2); count]);
        for place in 0..MOST_LISTED_EVENTS {
            let used = place < count;
            for (symbol, fits) in [(0, true), (1, used), (2, used), (3, false), (u16::MAX, false)] {
                let mut word = base;
                word.symbols[place] = symbol;
                assert_eq!(listed(&word), fits, "{word:?}");
            }
            let (first, last) = (place == 0, place + 1 == count);
            let stamps =
                [(0, first), (1, first), (2, true), (3, last), (4, last), (5, false), (u32::MAX, false)];
            for (stamp, fits) in stamps {
                let mut word = base;
                word.stamps[place] = stamp;
                assert_eq!(listed(&word), if used { fits } else { stamp == 0 }, "{word:?}");
            }
        }
    }
    for (count, fits) in [(4, true), (5, true), (6, false), (7, false), (u32::MAX, false)] {
        assert_eq!(listed(&Listed { count, ..Listed::default() }), fits, "{count}");
    }
}

/// Every record of small numbers: 39 exactly if the list does not have it.
#[test]
fn records_are_taken_if_they_are_listed() {
    for size in [size(1, 2, 1), size(2, 2, 1), size(2, 3, 0), size(1, 0, 0)] {
        let list = whole_list(size);
        let mut taken = 0;
        for code in 0..8 * 27 * 64_u32 {
            let (count, symbols, stamps) = (code % 8, code / 8 % 27, code / 216);
            let mut word = Listed { count, ..Listed::default() };
            for place in 0..3 {
                word.symbols[place as usize] = (symbols / 3_u32.pow(place) % 3) as u16;
                word.stamps[place as usize] = stamps / 4_u32.pow(place) % 4;
            }
            let place = list.iter().position(|listed| *listed == word);
            let expected = place.map_or(refusal(39, 0), |place| Ok(list.get(place + 1).copied()));
            assert_eq!(next_word(size, &word), expected, "{size:?}, {word:?}");
            taken += usize::from(place.is_some());
        }
        assert_eq!(taken, list.len(), "{size:?}");
    }
}

#[test]
fn the_protocol_shows_the_next_word() {
    let lines = [
        ("next 1 2 1 0 0,0,0,0,0,0 0,0,0,0,0,0", "next ok 1 1 0,0,0,0,0,0 0,0,0,0,0,0"),
        ("next 1 2 1 1 0*6 2,0*5", "next ok 1 2 0,0,0,0,0,0 0,0,0,0,0,0"),
        ("next 1 2 1 2 0+0*6 0,2,0*4", "next ok 1 2 0,0,0,0,0,0 1,1,0,0,0,0"),
        ("next 1 2 1 2 0*6 2*2,0*4", "next ok 0 2 0,0,0,0,0,0 2,2,0,0,0,0"),
        ("next 16 6 30 6 0+1*6 5+1*6", "next ok 1 6 0,1,2,3,4,6 5,6,7,8,9,10"),
        ("next 16 6 30 6 15*6 60*6", "next ok 0 6 15,15,15,15,15,15 60,60,60,60,60,60"),
        ("next 16 0 30 0 0*6 0*6", "next ok 0 0 0,0,0,0,0,0 0,0,0,0,0,0"),
    ];
    for (line, expected) in lines {
        assert_eq!(answers(line), [expected], "{line}");
    }
}

#[test]
fn the_protocol_shows_a_refused_word_unchanged() {
    let top = "4294967295 65535,65534,0,1,2,3 4294967295,4,5,6,7,0";
    let lines = [
        ("0 2 1", "38"),
        ("17 2 1", "38"),
        ("16 7 1", "38"),
        ("16 6 31", "38"),
        ("4294967295 4294967295 4294967295", "38"),
        ("16 6 30", "39"),
        ("1 0 0", "39"),
    ];
    for (size, number) in lines {
        assert_eq!(answers(&format!("next {size} {top}")), [format!("next no {number} 0 {top}")]);
    }
    let word = "1 0,0,0,0,0,0 3,0,0,0,0,0";
    assert_eq!(answers(&format!("next 1 2 1 {word}")), [format!("next no 39 0 {word}")]);
}

#[test]
fn the_protocol_hashes_the_whole_list() {
    for (line, size) in
        [("words 1 2 1", size(1, 2, 1)), ("words 2 1 1", size(2, 1, 1)), ("words 16 0 30", size(16, 0, 30))]
    {
        let (total, hash) = hash(whole_list(size).into_iter());
        assert_eq!(answers(line), [format!("words ok {total} {}:{hash:016x}", 13 * total)]);
    }
    let refused = ["0 0 0", "17 0 0", "1 7 0", "1 0 31", "0 4294967295 0", "4294967295 6 30"];
    for size in refused {
        assert_eq!(answers(&format!("words {size}")), ["words no 38 0"], "{size}");
    }
}

/// The longest list with at most 67,108,864 numbers, and the next longer one.
#[test]
fn a_list_of_too_many_numbers_is_bad() {
    assert_eq!(13 * count_words(size(10, 4, 4)).unwrap(), 66_554_683);
    assert!(answers("words 10 4 4")[0].starts_with("words ok 5119591 66554683:"));
    assert_eq!(13 * count_words(size(13, 6, 0)).unwrap(), 67_977_559);
    assert_eq!(answers("words 13 6 0\nwords 16 6 30"), ["bad", "bad"]);
}

#[test]
fn malformed_commands_are_bad() {
    let lines = [
        "next",
        "next 1 2 1",
        "next 1 2 1 0 0*6",
        "next 1 2 1 0 0*5 0*6",
        "next 1 2 1 0 0*7 0*6",
        "next 1 2 1 0 0*6 0*5",
        "next 1 2 1 0 0*6 0*7",
        "next 1 2 1 0 - -",
        "next 1 2 1 0 0*6 0*6 0",
        "next 1 2 1 0 65536,0*5 0*6",
        "next 1 2 1 0 0*6 4294967296,0*5",
        "next 1 2 1 4294967296 0*6 0*6",
        "next 4294967296 2 1 0 0*6 0*6",
        "next 1 4294967296 1 0 0*6 0*6",
        "next 1 2 4294967296 0 0*6 0*6",
        "next 0 2 1 0 0*5 0*6",
        "next -1 2 1 0 0*6 0*6",
        "next 1 2 1 x 0*6 0*6",
        "words",
        "words 1 2",
        "words 1 2 1 0",
        "words 1 2 x",
        "words 4294967296 2 1",
        "words 1 4294967296 1",
        "words 1 2 4294967296",
    ];
    for line in lines {
        assert_eq!(answers(line), ["bad"], "{line}");
    }
}
