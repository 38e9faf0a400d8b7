//! All words up to a size, in order: every word that matters once, its stamps in half seconds (D = 2).

use crate::{check_word, Refusal};
use std::ops::ControlFlow;

/// The most events of a listed word.
pub const MOST_LISTED_EVENTS: usize = 6;

/// D of the listed words.
pub(crate) const GRAIN: u32 = 2;

/// How far a list of words goes.
#[derive(Clone, Copy, Debug, PartialEq, Eq)]
pub struct Size {
    /// S, how many symbols there are: 1 to 16.
    pub symbols: u32,
    /// m, the most events of a word: 0 to 6.
    pub events: u32,
    /// H, the whole seconds that stamps go up to: 0 to 30.
    pub seconds: u32,
}

/// A word by value: its number of events and six places, unused ones zero.
#[derive(Clone, Copy, Debug, Default, PartialEq, Eq)]
pub struct Listed {
    /// How many events there are.
    pub count: u32,
    /// The events' symbols.
    pub symbols: [u16; MOST_LISTED_EVENTS],
    /// The events' stamps, in half seconds.
    pub stamps: [u32; MOST_LISTED_EVENTS],
}

impl Size {
    /// Checks the size: 38.
    fn check(self) -> Result<(), Refusal> {
        Refusal::unless((1..=16).contains(&self.symbols), 38)?;
        check_reach(self.events, self.seconds)
    }

    /// The last stamp of a size in range.
    fn end(self) -> u32 {
        GRAIN * self.seconds
    }

    /// Whether a list of a size in range has the word.
    fn lists(self, word: &Listed) -> bool {
        if word.count > self.events {
            return false;
        }
        let (symbols, no_symbols) = word.symbols.split_at(word.count as usize);
        let (stamps, no_stamps) = word.stamps.split_at(word.count as usize);
        check_word(self.symbols, GRAIN, self.events, symbols, stamps).is_ok()
            && stamps.iter().all(|&stamp| stamp <= self.end())
            && no_symbols.iter().all(|&symbol| symbol == 0)
            && no_stamps.iter().all(|&stamp| stamp == 0)
    }
}

/// Checks m and H of a size: 38.
pub(crate) fn check_reach(events: u32, seconds: u32) -> Result<(), Refusal> {
    Refusal::unless(events <= MOST_LISTED_EVENTS as u32 && seconds <= 30, 38)
}

/// The word after a listed one, or none if it was the last: 38, 39.
pub fn next_word(size: Size, word: &Listed) -> Result<Option<Listed>, Refusal> {
    size.check()?;
    Refusal::unless(size.lists(word), 39)?;
    let mut next = None;
    let _ = visit_from(size, word, &mut |visited| {
        if visited == word {
            return ControlFlow::Continue(());
        }
        next = Some(*visited);
        ControlFlow::Break(())
    });
    Ok(next)
}

/// Visits the whole list from the empty word on: 38.
pub fn all_words(size: Size, mut visit: impl FnMut(&Listed)) -> Result<(), Refusal> {
    size.check()?;
    let _ = visit_from(size, &Listed::default(), &mut |word| {
        visit(word);
        ControlFlow::Continue(())
    });
    Ok(())
}

/// How many words the whole list has: of length n, S^n times the binomial of 2H + n over n. 38.
pub fn count_words(size: Size) -> Result<u64, Refusal> {
    size.check()?;
    let mut total = 0;
    for count in 0..=size.events {
        total += u64::from(size.symbols).pow(count) * binomial(u64::from(size.end() + count), count.into());
    }
    Ok(total)
}

fn binomial(of: u64, over: u64) -> u64 {
    (1..=over).fold(1, |ways, chosen| ways * (of - over + chosen) / chosen)
}

/// Visits a listed word and those after it, shorter first, until the visitor breaks off.
fn visit_from<V>(size: Size, from: &Listed, visit: &mut V) -> ControlFlow<()>
where
    V: FnMut(&Listed) -> ControlFlow<()>,
{
    for count in from.count..=size.events {
        let from = (count == from.count).then_some(from);
        visit_events(size, from, Listed { count, ..Listed::default() }, 0, visit)?;
    }
    ControlFlow::Continue(())
}

/// Visits the words of a length that have the given word's events before the place: over the stamps from the
/// last one on, then over the symbols, then place by place. As long as all before is `from`'s own, the loops
/// begin at its event.
fn visit_events<V>(
    size: Size,
    from: Option<&Listed>,
    mut word: Listed,
    place: usize,
    visit: &mut V,
) -> ControlFlow<()>
where
    V: FnMut(&Listed) -> ControlFlow<()>,
{
    if place == word.count as usize {
        return visit(&word);
    }
    let last = if place == 0 { 0 } else { word.stamps[place - 1] };
    for stamp in from.map_or(last, |from| from.stamps[place])..=size.end() {
        let from = from.filter(|from| from.stamps[place] == stamp);
        for symbol in from.map_or(0, |from| from.symbols[place])..size.symbols as u16 {
            let from = from.filter(|from| from.symbols[place] == symbol);
            word.stamps[place] = stamp;
            word.symbols[place] = symbol;
            visit_events(size, from, word, place + 1, visit)?;
        }
    }
    ControlFlow::Continue(())
}
