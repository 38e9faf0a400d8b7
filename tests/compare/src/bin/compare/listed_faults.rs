//! Words that are not in a list: with a single fault, with several, and rubbish.

use crate::listed::{any_listed, any_size, last_stamp, MOST_EVENTS};
use crate::random::Random;
use alderskein::raw::{Listed, Size, LISTED_EVENTS};

/// A size in range and a word that is not in its list, or nearly: mostly with a single fault.
pub fn any_fault(random: &mut Random) -> (Size, Listed) {
    let size = any_size(random);
    if random.chance(10) {
        return (size, rubbish(random, size));
    }
    let (size, mut word) = one_fault(random, size);
    if random.chance(15) {
        let (place, other) = (random.below(LISTED_EVENTS), rubbish(random, size));
        match random.below(3) {
            0 => word.count = other.count,
            1 => word.symbols[place] = other.symbols[place],
            _ => word.stamps[place] = other.stamps[place],
        }
    }
    (size, word)
}

/// Numbers about the limits, or any.
fn rubbish(random: &mut Random, size: Size) -> Listed {
    Listed {
        count: random.number_about(MOST_EVENTS),
        symbols: std::array::from_fn(|_| random.short_about(size.symbols as u16)),
        stamps: std::array::from_fn(|_| random.number_about(last_stamp(size))),
    }
}

/// A word with a fault at some place, under a size with room for it.
fn one_fault(random: &mut Random, size: Size) -> (Size, Listed) {
    let place = random.below(LISTED_EVENTS);
    match random.below(6) {
        0 => too_many_events(random, size, place),
        1 => symbol_too_high(random, size, place),
        2 => stamp_too_high(random, size, place),
        3 => falling_stamp(random, size, place.max(1)),
        4 => unused_symbol(random, size, place),
        _ => unused_stamp(random, size, place),
    }
}

/// A word with an event at this place, under a size that has such words.
fn used_at(random: &mut Random, size: Size, place: usize) -> (Size, Listed) {
    let events = random.between(place + 1, LISTED_EVENTS);
    let size = Size { events: events as u32, ..size };
    let count = random.between(place + 1, events) as u32;
    (size, any_listed(random, size, count))
}

/// A word with no event at this place.
fn unused_at(random: &mut Random, size: Size, place: usize) -> Listed {
    let count = random.between(0, place.min(size.events as usize)) as u32;
    any_listed(random, size, count)
}

/// A word with one event more than this m, or with six and the count of more.
fn too_many_events(random: &mut Random, size: Size, below: usize) -> (Size, Listed) {
    if random.chance(50) {
        let size = Size { events: below as u32, ..size };
        return (size, any_listed(random, size, size.events + 1));
    }
    let any = random.number_about(MOST_EVENTS);
    let count = random.pick(&[MOST_EVENTS + 1, u32::MAX, any]);
    (size, Listed { count, ..any_listed(random, size, MOST_EVENTS) })
}

fn symbol_too_high(random: &mut Random, size: Size, place: usize) -> (Size, Listed) {
    let (size, mut word) = used_at(random, size, place);
    let least = size.symbols as u16;
    word.symbols[place] = random.pick(&[least, least, least + 1, u16::MAX]);
    (size, word)
}

/// A stamp above 2H, and mostly all after it.
fn stamp_too_high(random: &mut Random, size: Size, place: usize) -> (Size, Listed) {
    let (size, mut word) = used_at(random, size, place);
    let least = last_stamp(size) + 1;
    let stamp = random.pick(&[least, least, least + 1, u32::MAX]);
    let end = if random.chance(80) { word.count as usize } else { place + 1 };
    word.stamps[place..end].fill(stamp);
    (size, word)
}

/// A stamp below the one before, which is not the first.
fn falling_stamp(random: &mut Random, size: Size, place: usize) -> (Size, Listed) {
    let size = Size { seconds: size.seconds.max(1), ..size };
    let (size, mut word) = used_at(random, size, place);
    for stamp in &mut word.stamps[place - 1..word.count as usize] {
        *stamp = (*stamp).max(1);
    }
    word.stamps[place] = random.pick(&[0, word.stamps[place - 1] - 1]);
    (size, word)
}

fn unused_symbol(random: &mut Random, size: Size, place: usize) -> (Size, Listed) {
    let mut word = unused_at(random, size, place);
    word.symbols[place] = random.pick(&[1, size.symbols as u16, u16::MAX]);
    (size, word)
}

/// One that is not zero, mostly one that would not be too high.
fn unused_stamp(random: &mut Random, size: Size, place: usize) -> (Size, Listed) {
    let mut word = unused_at(random, size, place);
    let last = word.stamps[(word.count as usize).saturating_sub(1)];
    word.stamps[place] = random.pick(&[1, last, last_stamp(size), u32::MAX]).max(1);
    (size, word)
}
