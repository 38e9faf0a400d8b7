//! What came up of lists of words: sizes out of range, words that are not in the list, and what follows the others.

use crate::cover::those;
use crate::listed::{last_stamp, LARGEST, LEAST, MOST_EVENTS, MOST_SECONDS, MOST_SYMBOLS};
use alderskein::raw::{Listed, Next, Size, LISTED_EVENTS};
use protocol::{word_count, Call, Reply};

/// The counts, each of which must be above 0.
pub const COUNTS: [&[&str]; 15] = [
    &OUT_OF_RANGE,
    &AT_LIMITS,
    &NOT_LISTED,
    &HIGH_SYMBOL,
    &HIGH_STAMP,
    &FALLING,
    &UNUSED_SYMBOL,
    &UNUSED_STAMP,
    &ANSWERED,
    &FIRST_OF,
    &SYMBOL_RAISED,
    &STAMP_RAISED,
    &AFTER_RAISED,
    &WALKED,
    &WHOLE,
];

/// The text with each of the numbers after it.
macro_rules! numbered {
    ($text:literal, $($number:literal),*) => { [$(concat!($text, " ", $number)),*] };
}

/// What of a size is out of range.
const OUT_OF_RANGE: [&str; 9] = [
    "next: 38 for S = 0 alone",
    "next: 38 for S = 17 alone",
    "next: 38 for S over 17 alone",
    "next: 38 for m = 7 alone",
    "next: 38 for m over 7 alone",
    "next: 38 for H = 31 alone",
    "next: 38 for H over 31 alone",
    "next: 38 for S, m and H",
    "next: 38 and the word is in no list",
];

/// Sizes whose lists have the word.
const AT_LIMITS: [&str; 8] = [
    "next: S = 1",
    "next: S = 16",
    "next: m = 0",
    "next: m = 6",
    "next: H = 0",
    "next: H = 30",
    "next: S = 1, m = 0, H = 0",
    "next: S = 16, m = 6, H = 30",
];

/// What a word is not in the list for; each, save for the last, alone.
const NOT_LISTED: [&str; 8] = [
    "next: 39 for m + 1 events, m below 6",
    "next: 39 for 7 events",
    "next: 39 for 4,294,967,295 events",
    "next: 39 for symbol S",
    "next: 39 for symbol 65,535",
    "next: 39 for stamp 2H + 1",
    "next: 39 for stamp 4,294,967,295",
    "next: 39 for several faults",
];

/// The same by the place of the fault, from 0; a stamp above 2H is the first one.
const HIGH_SYMBOL: [&str; 6] = numbered!("next: 39 for a symbol not below S at place", 0, 1, 2, 3, 4, 5);
const HIGH_STAMP: [&str; 6] = numbered!("next: 39 for a stamp above 2H at place", 0, 1, 2, 3, 4, 5);
const FALLING: [&str; 5] = numbered!("next: 39 for a falling stamp at place", 1, 2, 3, 4, 5);
const UNUSED_SYMBOL: [&str; 6] = numbered!("next: 39 for an unused symbol at place", 0, 1, 2, 3, 4, 5);
const UNUSED_STAMP: [&str; 6] = numbered!("next: 39 for an unused stamp at place", 0, 1, 2, 3, 4, 5);

/// What follows a word of the list.
const ANSWERED: [&str; 4] =
    ["next: the last word", "next: the last word, m = 0", "next: of the same length", "next: one event more"];
const FIRST_OF: [&str; 6] = numbered!("next: the first word of length", 1, 2, 3, 4, 5, 6);
const SYMBOL_RAISED: [&str; 6] = numbered!("next: symbol raised at place", 0, 1, 2, 3, 4, 5);
const STAMP_RAISED: [&str; 6] = numbered!("next: stamp raised at place", 0, 1, 2, 3, 4, 5);
const AFTER_RAISED: [&str; 6] = numbered!("next: events after the raised one:", 0, 1, 2, 3, 4, 5);

/// Words one after another.
const LONG_WALK: u64 = 24;
const WALKED: [&str; 2] = ["next: a walk of 24 words", "next: a whole list, word by word"];
const WHOLE: [&str; 4] =
    ["words: a whole list", "words: m = 0", "words: m = 6", "words: a list of more than 1,000 words"];

/// A walk from word to word.
#[derive(Default)]
pub struct ListedCounts {
    /// The size and the word with which it goes on.
    ahead: Option<(Size, Listed)>,
    /// How many words there were, and whether the first was the empty one.
    steps: u64,
    from_first: bool,
}

impl ListedCounts {
    /// The counts that a command with its reply adds to.
    pub fn seen(&mut self, call: &Call, reply: &Reply) -> Vec<&'static str> {
        match (call, reply) {
            (Call::Next { size, word }, Reply::Next(next)) => match next.number {
                0 => [seen_answered(*size, word, next), self.seen_walk(*size, *word, next)].concat(),
                38 => seen_out_of_range(*size, word),
                _ => seen_not_listed(*size, word),
            },
            (Call::Words { size }, Reply::Words(answer, _)) if answer.number == 0 => those([
                ("words: a whole list", true),
                ("words: m = 0", size.events == 0),
                ("words: m = 6", size.events == MOST_EVENTS),
                ("words: a list of more than 1,000 words", answer.value > 1_000),
            ]),
            _ => Vec::new(),
        }
    }

    fn seen_walk(&mut self, size: Size, word: Listed, next: &Next) -> Vec<&'static str> {
        if self.ahead != Some((size, word)) {
            (self.steps, self.from_first) = (0, word == Listed::default());
        }
        self.steps += 1;
        self.ahead = (!next.last).then_some((size, next.word));
        let whole = next.last && self.from_first && word_count(size) == Some(self.steps);
        those([
            ("next: a walk of 24 words", self.steps == LONG_WALK),
            ("next: a whole list, word by word", whole && self.steps > 1),
        ])
    }
}

fn seen_out_of_range(size: Size, word: &Listed) -> Vec<&'static str> {
    let Size { symbols, events, seconds } = size;
    let out = [!(1..=MOST_SYMBOLS).contains(&symbols), events > MOST_EVENTS, seconds > MOST_SECONDS];
    let [symbols_alone, events_alone, seconds_alone] =
        [0, 1, 2].map(|at| out[at] && out.iter().filter(|&&out| out).count() == 1);
    those([
        ("next: 38 for S = 0 alone", symbols_alone && symbols == 0),
        ("next: 38 for S = 17 alone", symbols_alone && symbols == MOST_SYMBOLS + 1),
        ("next: 38 for S over 17 alone", symbols_alone && symbols > MOST_SYMBOLS + 1),
        ("next: 38 for m = 7 alone", events_alone && events == MOST_EVENTS + 1),
        ("next: 38 for m over 7 alone", events_alone && events > MOST_EVENTS + 1),
        ("next: 38 for H = 31 alone", seconds_alone && seconds == MOST_SECONDS + 1),
        ("next: 38 for H over 31 alone", seconds_alone && seconds > MOST_SECONDS + 1),
        ("next: 38 for S, m and H", out == [true; 3]),
        ("next: 38 and the word is in no list", !faults(LARGEST, word).is_empty()),
    ])
}

/// What a word is not in a list for; the number is a place.
#[derive(Clone, Copy)]
enum Fault {
    Events,
    Symbol(usize),
    /// The first stamp above 2H.
    Stamp(usize),
    Falling(usize),
    UnusedSymbol(usize),
    UnusedStamp(usize),
}

/// Everything that a word is not in the list for.
fn faults(size: Size, word: &Listed) -> Vec<Fault> {
    let Listed { count, symbols, stamps } = *word;
    let (used, end) = (count.min(MOST_EVENTS) as usize, last_stamp(size));
    let mut faults = Vec::new();
    let mut add = |wrong: bool, fault| faults.extend(wrong.then_some(fault));
    add(count > size.events, Fault::Events);
    for place in 0..used {
        let before = if place == 0 { 0 } else { stamps[place - 1] };
        add(u32::from(symbols[place]) >= size.symbols, Fault::Symbol(place));
        add(stamps[place] > end && before <= end, Fault::Stamp(place));
        add(stamps[place] < before, Fault::Falling(place));
    }
    for place in used..LISTED_EVENTS {
        add(symbols[place] != 0, Fault::UnusedSymbol(place));
        add(stamps[place] != 0, Fault::UnusedStamp(place));
    }
    faults
}

fn seen_not_listed(size: Size, word: &Listed) -> Vec<&'static str> {
    let faults = faults(size, word);
    let &[fault] = &faults[..] else {
        return those([("next: 39 for several faults", faults.len() > 1)]);
    };
    match fault {
        Fault::Events => those([
            (
                "next: 39 for m + 1 events, m below 6",
                word.count <= MOST_EVENTS && word.count == size.events + 1,
            ),
            ("next: 39 for 7 events", word.count == MOST_EVENTS + 1),
            ("next: 39 for 4,294,967,295 events", word.count == u32::MAX),
        ]),
        Fault::Symbol(place) => those([
            (HIGH_SYMBOL[place], true),
            ("next: 39 for symbol S", u32::from(word.symbols[place]) == size.symbols),
            ("next: 39 for symbol 65,535", word.symbols[place] == u16::MAX),
        ]),
        Fault::Stamp(place) => those([
            (HIGH_STAMP[place], true),
            ("next: 39 for stamp 2H + 1", word.stamps[place] == last_stamp(size) + 1),
            ("next: 39 for stamp 4,294,967,295", word.stamps[place] == u32::MAX),
        ]),
        Fault::Falling(place) => vec![FALLING[place - 1]],
        Fault::UnusedSymbol(place) => vec![UNUSED_SYMBOL[place]],
        Fault::UnusedStamp(place) => vec![UNUSED_STAMP[place]],
    }
}

/// A word of the list, and what follows it.
fn seen_answered(size: Size, word: &Listed, next: &Next) -> Vec<&'static str> {
    let longer = next.word.count > word.count;
    let mut seen = those([
        ("next: S = 1", size.symbols == 1),
        ("next: S = 16", size.symbols == MOST_SYMBOLS),
        ("next: m = 0", size.events == 0),
        ("next: m = 6", size.events == MOST_EVENTS),
        ("next: H = 0", size.seconds == 0),
        ("next: H = 30", size.seconds == MOST_SECONDS),
        ("next: S = 1, m = 0, H = 0", size == LEAST),
        ("next: S = 16, m = 6, H = 30", size == LARGEST),
        ("next: the last word", next.last),
        ("next: the last word, m = 0", next.last && size.events == 0),
        ("next: of the same length", !next.last && !longer),
        ("next: one event more", longer),
    ]);
    if longer {
        seen.push(FIRST_OF[word.count as usize]);
    } else if !next.last {
        seen.extend(seen_raised(word, &next.word));
    }
    seen
}

/// The first event in which a word of the same length differs.
fn seen_raised(word: &Listed, next: &Listed) -> Vec<&'static str> {
    let raised = |&place: &usize| {
        (word.stamps[place], word.symbols[place]) != (next.stamps[place], next.symbols[place])
    };
    let Some(place) = (0..word.count as usize).find(raised) else { return Vec::new() };
    let by_stamp = word.stamps[place] != next.stamps[place];
    let names = if by_stamp { STAMP_RAISED } else { SYMBOL_RAISED };
    vec![names[place], AFTER_RAISED[word.count as usize - 1 - place]]
}
