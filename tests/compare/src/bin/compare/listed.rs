//! Lists of words: the next of a word, short walks, whole small lists, and sizes out of range.

use crate::listed_faults::any_fault;
use crate::random::Random;
use crate::scene::Scene;
use alderskein::raw::{Listed, Size, LISTED_EVENTS};
use protocol::{word_count, Call};

/// The most symbols, events and whole seconds of a list.
pub const MOST_SYMBOLS: u32 = 16;
pub const MOST_EVENTS: u32 = LISTED_EVENTS as u32;
pub const MOST_SECONDS: u32 = 30;
/// The least size and the largest.
pub const LEAST: Size = Size { symbols: 1, events: 0, seconds: 0 };
pub const LARGEST: Size = Size { symbols: MOST_SYMBOLS, events: MOST_EVENTS, seconds: MOST_SECONDS };
/// The most words of a list that is hashed, and of one that is walked from first to last.
const SMALL_LIST: u64 = 2_000;
const SHORT_LIST: u64 = 40;
/// The most words of a walk from some word on.
const LONGEST_WALK: usize = 36;

/// Words of a list and words at fault; sizes out of range; a walk from some word on; two whole lists, and a shorter one
/// word by word.
pub fn lists_of_words(scene: &mut Scene) {
    for _ in 0..12 {
        let size = any_size(scene.random);
        let word = listed_somehow(scene.random, size);
        scene.add(Call::Next { size, word });
    }
    for _ in 0..16 {
        let (size, word) = any_fault(scene.random);
        scene.add(Call::Next { size, word });
    }
    for _ in 0..6 {
        wrong_size(scene);
    }
    let size = any_size(scene.random);
    let from = listed_somehow(scene.random, size);
    walk(scene, size, from, LONGEST_WALK);
    for _ in 0..2 {
        let size = small_size(scene.random, SMALL_LIST);
        scene.add(Call::Words { size });
    }
    let size = small_size(scene.random, SHORT_LIST);
    walk(scene, size, Listed::default(), SHORT_LIST as usize);
}

/// A size in range, often at its limits.
pub fn any_size(random: &mut Random) -> Size {
    if random.chance(10) {
        return random.pick(&[LEAST, LARGEST]);
    }
    let symbols = random.between(1, MOST_SYMBOLS as usize) as u32;
    let events = random.between(0, LISTED_EVENTS) as u32;
    let seconds = random.between(0, MOST_SECONDS as usize) as u32;
    Size {
        symbols: random.pick(&[1, 2, symbols, symbols, MOST_SYMBOLS]),
        events: random.pick(&[events, events, MOST_EVENTS]),
        seconds: random.pick(&[0, 1, seconds, seconds, MOST_SECONDS]),
    }
}

/// A size of any m whose list has at most so many words.
fn small_size(random: &mut Random, most: u64) -> Size {
    let events = random.between(0, LISTED_EVENTS) as u32;
    let sizes = (1..=MOST_SYMBOLS)
        .flat_map(|symbols| (0..=MOST_SECONDS).map(move |seconds| Size { symbols, events, seconds }));
    let small: Vec<Size> =
        sizes.filter(|&size| word_count(size).is_some_and(|count| count <= most)).collect();
    random.pick(&small)
}

/// The next of some word under a size out of range, or nearly; now and then the whole list.
fn wrong_size(scene: &mut Scene) {
    let (size, word) = if scene.random.chance(40) {
        any_fault(scene.random)
    } else {
        let size = any_size(scene.random);
        (size, listed_somehow(scene.random, size))
    };
    let size = out_of_range(scene.random, size);
    scene.add(Call::Next { size, word });
    if scene.random.chance(25) && word_count(size).is_none() {
        scene.add(Call::Words { size });
    }
}

/// The size with a number out of range, or nearly; now and then all three.
fn out_of_range(random: &mut Random, mut size: Size) -> Size {
    let which = random.below(8);
    if matches!(which, 0..=2 | 7) {
        let any = random.number_about(MOST_SYMBOLS);
        size.symbols = random.pick(&[0, MOST_SYMBOLS + 1, 1 << 16, u32::MAX, any]);
    }
    if matches!(which, 3 | 4 | 7) {
        let any = random.number_about(MOST_EVENTS);
        size.events = random.pick(&[MOST_EVENTS + 1, u32::MAX, any]);
    }
    if matches!(which, 5..=7) {
        let any = random.number_about(MOST_SECONDS);
        size.seconds = random.pick(&[MOST_SECONDS + 1, 1 << 31, u32::MAX, any]);
    }
    size
}

/// The next of a word, of the word after it and so on, so many times or up to the last.
fn walk(scene: &mut Scene, size: Size, from: Listed, steps: usize) {
    let Size { symbols, events, seconds } = size;
    let plain = reference::Size { symbols, events, seconds };
    let Listed { count, symbols, stamps } = from;
    let next = |word: &reference::Listed| reference::next_word(plain, word).ok().flatten();
    let words = std::iter::successors(Some(reference::Listed { count, symbols, stamps }), next);
    for reference::Listed { count, symbols, stamps } in words.take(steps) {
        scene.add(Call::Next { size, word: Listed { count, symbols, stamps } });
    }
}

/// The last stamp of a size in range.
pub fn last_stamp(size: Size) -> u32 {
    2 * size.seconds
}

/// A word of the list: any, the first or the last of a length, the very last, the one before it, or one whose events
/// after some place cannot be raised.
fn listed_somehow(random: &mut Random, size: Size) -> Listed {
    let any = random.between(0, size.events as usize) as u32;
    let count = random.pick(&[any, size.events]);
    match random.below(12) {
        0 => Listed { count, ..Listed::default() },
        1 | 2 => last_of(size, any),
        3 => last_of(size, size.events),
        4 => before_last(size),
        5..=7 => any_listed(random, size, count),
        _ => before_a_turn(random, size, count),
    }
}

/// Any word with so many events.
pub fn any_listed(random: &mut Random, size: Size, count: u32) -> Listed {
    let mut word = Listed { count, ..Listed::default() };
    let end = last_stamp(size);
    for place in 0..count as usize {
        let symbol = random.below(size.symbols as usize) as u16;
        let stamp = random.between(0, end as usize) as u32;
        word.symbols[place] = random.pick(&[symbol, symbol, 0, size.symbols as u16 - 1]);
        word.stamps[place] = random.pick(&[stamp, stamp, stamp, 0, end]);
    }
    word.stamps[..count as usize].sort_unstable();
    word
}

/// The last word with so many events.
fn last_of(size: Size, count: u32) -> Listed {
    last_from(size, Listed { count, ..Listed::default() }, 0)
}

/// The last word with the same events before this place.
fn last_from(size: Size, mut word: Listed, place: usize) -> Listed {
    word.symbols[place..word.count as usize].fill(size.symbols as u16 - 1);
    word.stamps[place..word.count as usize].fill(last_stamp(size));
    word
}

/// The word before the last, or the only one.
fn before_last(size: Size) -> Listed {
    let mut word = last_of(size, size.events);
    if size.events == 0 {
        return word;
    }
    if size.symbols > 1 {
        word.symbols[size.events as usize - 1] -= 1;
    } else if size.seconds > 0 {
        word.stamps[0] -= 1;
    } else {
        word = last_of(size, size.events - 1);
    }
    word
}

/// A word with so many events, the highest after some place; often the event there has the highest symbol.
fn before_a_turn(random: &mut Random, size: Size, count: u32) -> Listed {
    if count == 0 {
        return Listed::default();
    }
    let place = random.below(count as usize);
    let mut word = any_listed(random, size, count);
    if random.chance(50) {
        word.symbols[place] = size.symbols as u16 - 1;
    }
    last_from(size, word, place + 1)
}
