//! The next word of a list by the same odometer in plain Rust, called as C calls it: the last event that can be raised
//! is raised, those after it fall to their least. It checks size and word as the library does.

use alderskein::raw::{Listed, Next, Size, LISTED_EVENTS};
use alderskein::LIST_GRAIN;
use std::cmp::Ordering;

const MOST_SYMBOLS: u32 = 16;
const MOST_EVENTS: u32 = LISTED_EVENTS as u32;
const MOST_SECONDS: u32 = 30;

/// The word after another. Not inlined, as the library is not.
#[inline(never)]
pub extern "C" fn next_word(size: Size, word: Listed) -> Next {
    if !(1..=MOST_SYMBOLS).contains(&size.symbols) || size.events > MOST_EVENTS || size.seconds > MOST_SECONDS
    {
        return Next { number: 38, place: 0, last: false, word };
    }
    let top = LIST_GRAIN * size.seconds;
    if !in_list(size, top, &word) {
        return Next { number: 39, place: 0, last: false, word };
    }
    if let Some(word) = raised(size, top, &word) {
        return Next { number: 0, place: 0, last: false, word };
    }
    if word.count == size.events {
        return Next { number: 0, place: 0, last: true, word };
    }
    let longer = Listed { count: word.count + 1, ..Listed::default() };
    Next { number: 0, place: 0, last: false, word: longer }
}

fn in_list(size: Size, top: u32, word: &Listed) -> bool {
    let count = word.count as usize;
    if count > LISTED_EVENTS || word.count > size.events {
        return false;
    }
    let mut last = 0;
    for (&symbol, &stamp) in word.symbols[..count].iter().zip(&word.stamps[..count]) {
        if u32::from(symbol) >= size.symbols || stamp < last || stamp > top {
            return false;
        }
        last = stamp;
    }
    word.symbols[count..].iter().all(|&symbol| symbol == 0)
        && word.stamps[count..].iter().all(|&stamp| stamp == 0)
}

/// The word with its last event raised that can be, if one can.
fn raised(size: Size, top: u32, word: &Listed) -> Option<Listed> {
    for i in (0..word.count as usize).rev() {
        if u32::from(word.symbols[i]) + 1 < size.symbols {
            return Some(placed(word, i, word.symbols[i] + 1, word.stamps[i]));
        }
        if word.stamps[i] < top {
            return Some(placed(word, i, 0, word.stamps[i] + 1));
        }
    }
    None
}

/// The word with a symbol and a stamp at event i, those after it at symbol 0 and that stamp. Place by place: loops that
/// write into a copy are slower.
fn placed(word: &Listed, i: usize, symbol: u16, stamp: u32) -> Listed {
    let symbols = std::array::from_fn(|j| match j.cmp(&i) {
        Ordering::Less => word.symbols[j],
        Ordering::Equal => symbol,
        Ordering::Greater => 0,
    });
    let used = i..word.count as usize;
    let stamps = std::array::from_fn(|j| if used.contains(&j) { stamp } else { word.stamps[j] });
    Listed { count: word.count, symbols, stamps }
}
