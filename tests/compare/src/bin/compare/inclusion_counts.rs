//! What came up of inclusions: words by their length, scratches and rooms about their bounds, refusals in order.

use crate::cover::those;
use crate::inclusion::{shortest, states, MOST_EVENTS};
use alderskein::raw::Inclusion;
use protocol::{Call, Engine, Included, Kept, Reference, Reply, WordRoom, SLOTS};
use std::collections::BTreeSet;

/// The counts, each of which must be above 0.
pub const COUNTS: [&[&str]; 5] = [&TABLES, &WORDS, &SCRATCHES, &ROOMS, &IN_ORDER];

/// Tables that were searched together.
const TABLES: [&str; 13] = [
    "include: pairs of tables",
    "include: tables as built, yes",
    "include: tables as built, no",
    "include: tables filled by hand, yes",
    "include: tables filled by hand, no",
    "include: a built table and one filled by hand",
    "include: a table in itself",
    "include: S = 1",
    "include: S = 16",
    "include: cm = 30",
    "include: unequal cm, yes",
    "include: unequal cm, no",
    "include: unequal R, yes",
];

/// The words shown.
const WORDS: [&str; 9] = [
    "include: the empty word",
    "include: a word of 1 event",
    "include: a word of 2 to 9 events",
    "include: a word of 10 to 99 events",
    "include: a word of 100 events or more",
    "include: a word of 4,096 events",
    "include: a word with an odd stamp",
    "include: a word with two events at once",
    "include: a word with symbol 15",
];

/// The scratch, beside N, the count of joint states.
const SCRATCHES: [&str; 8] = [
    "include: a scratch of N",
    "include: a scratch of N + 1",
    "include: 36 for a scratch of N - 1",
    "include: 36 for no scratch",
    "include: N = 1,000,000",
    "include: N = 1,000,000, 36 for a scratch of 999,999",
    "include: 36 for N = 1,000,004 in a scratch of as many",
    "include: 36 for N = 4,294,967,296",
];

/// The word room, and what it held at entry.
const ROOMS: [&str; 11] = [
    "include: just room enough",
    "include: just symbols enough, more stamps",
    "include: just stamps enough, more symbols",
    "include: 37 for one symbol",
    "include: 37 for one stamp",
    "include: 37 for no room",
    "include: 37 for more than 4,096 events",
    "include: unequal rooms, yes",
    "include: every bit 1 at entry, yes",
    "include: every bit 1 at entry, no",
    "include: every bit 1 at entry, 37",
];

/// Refusals, also where another one would come after it.
const IN_ORDER: [&str; 7] = [
    "include: 25 for the first alone",
    "include: 25 for the second alone",
    "include: 25 for both",
    "include: 25, and S is unequal",
    "include: 25, and no scratch",
    "include: 35, and no scratch",
    "include: 36, and no room for the word",
];

/// A call with its two tables and its answer.
struct Asked<'a> {
    first: &'a Kept,
    second: &'a Kept,
    room: WordRoom,
    fill: u16,
    included: &'a Included,
}

/// What is known of the slots.
#[derive(Default)]
pub struct InclusionCounts {
    /// Whether the table in a slot was filled or changed by hand.
    by_hand: [bool; SLOTS],
    /// The pairs of slots that were searched together since both were filled.
    pairs: BTreeSet<[usize; 2]>,
}

impl InclusionCounts {
    /// Another table is kept in a slot.
    pub fn keep(&mut self, slot: usize, by_hand: bool) {
        self.by_hand[slot] = by_hand;
        self.pairs.retain(|pair| !pair.contains(&slot));
    }

    pub fn is_by_hand(&self, slot: usize) -> bool {
        self.by_hand[slot]
    }

    /// The counts that a command with its reply adds to.
    pub fn seen(&mut self, call: &Call, reply: &Reply, slots: &[Option<Kept>; SLOTS]) -> Vec<&'static str> {
        let (&Call::Include { first, second, room, fill }, Reply::Included(included)) = (call, reply) else {
            return Vec::new();
        };
        let [Some(one), Some(other)] = [&slots[first], &slots[second]] else { return Vec::new() };
        let asked = Asked { first: one, second: other, room, fill, included };
        let mut seen = asked.seen();
        if matches!(included.answer.number, 0 | 37) {
            let pair = [first.min(second), first.max(second)];
            let new = first != second && self.pairs.insert(pair);
            seen.extend(new.then_some("include: pairs of tables"));
        }
        if included.answer.number == 0 {
            seen.extend(self.seen_tables(first, second, included.answer.included));
        }
        seen
    }

    fn seen_tables(&self, first: usize, second: usize, yes: bool) -> Vec<&'static str> {
        let hands = [self.by_hand[first], self.by_hand[second]];
        let (built, filled) = (hands == [false; 2], hands == [true; 2]);
        those([
            ("include: tables as built, yes", built && yes),
            ("include: tables as built, no", built && !yes),
            ("include: tables filled by hand, yes", filled && yes),
            ("include: tables filled by hand, no", filled && !yes),
            ("include: a built table and one filled by hand", !built && !filled),
            ("include: a table in itself", first == second),
        ])
    }
}

impl Asked<'_> {
    fn seen(&self) -> Vec<&'static str> {
        match self.included.answer.number {
            0 => [self.seen_sizes(), self.seen_word(), self.seen_room()].concat(),
            25 => self.seen_out_of_shape(),
            35 => those([("include: 35, and no scratch", self.room.scratch == 0)]),
            36 => self.seen_too_many(),
            _ => self.seen_too_long(),
        }
    }

    /// N.
    fn states(&self) -> usize {
        states(&self.first.built) * states(&self.second.built)
    }

    fn seen_sizes(&self) -> Vec<&'static str> {
        let (first, second, yes) = (self.first.built, self.second.built, self.included.answer.included);
        let (scratch, states) = (self.room.scratch, self.states());
        those([
            ("include: S = 1", first.symbols == 1),
            ("include: S = 16", first.symbols == 16),
            ("include: cm = 30", first.top == 30 && second.top == 30),
            ("include: unequal cm, yes", first.top != second.top && yes),
            ("include: unequal cm, no", first.top != second.top && !yes),
            ("include: unequal R, yes", first.rows != second.rows && yes),
            ("include: a scratch of N", scratch == states),
            ("include: a scratch of N + 1", scratch == states + 1),
            ("include: N = 1,000,000", states == 1_000_000),
        ])
    }

    fn seen_word(&self) -> Vec<&'static str> {
        let Some(word) = self.included.word() else { return Vec::new() };
        let mut pairs = word.stamps.windows(2);
        let events = word.stamps.len();
        those([
            ("include: the empty word", events == 0),
            ("include: a word of 1 event", events == 1),
            ("include: a word of 2 to 9 events", (2..10).contains(&events)),
            ("include: a word of 10 to 99 events", (10..100).contains(&events)),
            ("include: a word of 100 events or more", events >= 100),
            ("include: a word of 4,096 events", events == MOST_EVENTS),
            ("include: a word with an odd stamp", word.stamps.iter().any(|stamp| stamp % 2 == 1)),
            ("include: a word with two events at once", pairs.any(|pair| pair[0] == pair[1])),
            ("include: a word with symbol 15", word.symbols.contains(&15)),
        ])
    }

    fn seen_room(&self) -> Vec<&'static str> {
        let (WordRoom { symbols, stamps, .. }, Inclusion { included: yes, events, .. }) =
            (self.room, self.included.answer);
        let shown = !yes && events > 0;
        those([
            ("include: just room enough", shown && symbols == events && stamps == events),
            ("include: just symbols enough, more stamps", shown && symbols == events && stamps > events),
            ("include: just stamps enough, more symbols", shown && stamps == events && symbols > events),
            ("include: unequal rooms, yes", yes && symbols != stamps),
            ("include: every bit 1 at entry, yes", yes && self.fill == u16::MAX),
            ("include: every bit 1 at entry, no", shown && self.fill == u16::MAX),
        ])
    }

    fn seen_out_of_shape(&self) -> Vec<&'static str> {
        let out = [self.first, self.second].map(|kept| Reference::check_table(kept.table()).number != 0);
        let unequal = self.first.built.symbols != self.second.built.symbols;
        those([
            ("include: 25 for the first alone", out == [true, false]),
            ("include: 25 for the second alone", out == [false, true]),
            ("include: 25 for both", out == [true, true]),
            ("include: 25, and S is unequal", unequal),
            ("include: 25, and no scratch", self.room.scratch == 0),
        ])
    }

    fn seen_too_many(&self) -> Vec<&'static str> {
        let (scratch, states) = (self.room.scratch, self.states());
        let no_room = self.least_room() == 0 && states <= 1_000_000 && self.events() > 0;
        those([
            ("include: 36 for a scratch of N - 1", scratch + 1 == states),
            ("include: 36 for no scratch", scratch == 0),
            (
                "include: N = 1,000,000, 36 for a scratch of 999,999",
                (scratch, states) == (999_999, 1_000_000),
            ),
            (
                "include: 36 for N = 1,000,004 in a scratch of as many",
                (scratch, states) == (1_000_004, 1_000_004),
            ),
            ("include: 36 for N = 4,294,967,296", states == 1 << 32),
            ("include: 36, and no room for the word", no_room),
        ])
    }

    fn seen_too_long(&self) -> Vec<&'static str> {
        let (WordRoom { symbols, stamps, .. }, least) = (self.room, self.least_room());
        let events = if least < MOST_EVENTS { self.events() } else { 0 };
        those([
            ("include: 37 for one symbol", symbols + 1 == events && stamps >= events),
            ("include: 37 for one stamp", stamps + 1 == events && symbols >= events),
            ("include: 37 for no room", symbols == 0 && stamps == 0),
            ("include: 37 for more than 4,096 events", least > MOST_EVENTS),
            ("include: every bit 1 at entry, 37", self.fill == u16::MAX),
        ])
    }

    fn least_room(&self) -> usize {
        self.room.symbols.min(self.room.stamps)
    }

    /// How many events the shortest word has.
    fn events(&self) -> usize {
        shortest(self.first.table(), self.second.table())
    }
}
