//! Does one table allow only what another allows? The library's search in plain Rust, in the same lent room.
//!
//! The scratch has a number for each joint state, in two parts. The low part of place k has the k-th state found. The
//! high part of place x has how state x was found: 0 if it was not, else 1 + way + 17 · (level mod 3). The way is 0
//! for waiting and 1 + s for symbol s, the level counts events. What waiting leads to is noted at once, on the same
//! level.

use alderskein::raw::{check_table, Inclusion};
use alderskein::ROW_NUMBERS;
use protocol::{Rooms, Table};

const MOST_JOINT_STATES: u64 = 1_000_000;
const MOST_EVENTS: usize = 4_096;
/// What the low part can hold: 20 bits.
const PART: u32 = 1 << 20;
const WAYS: u32 = 17;
const LEVELS: u32 = 3;

/// Yes, or a shortest word at the front of the word room: 25 by the library's check, 35, 36, 37. Not inlined, as the
/// library is not.
#[inline(never)]
pub fn check_inclusion(first: Table, second: Table, lent: Rooms) -> Inclusion {
    let Rooms { scratch, symbols, stamps } = lent;
    if let Some(number) = refusal(first, second, scratch.len()) {
        return Inclusion { number, ..Inclusion::default() };
    }
    scratch.fill(0);
    symbols.fill(0);
    stamps.fill(0);
    let pair = Pair::new(first, second);
    let mut search = Search { pair, scratch: &mut scratch[..pair.states()], found: 0 };
    let answer = match search.run() {
        None => Inclusion { included: true, ..Inclusion::default() },
        Some(events) if events > MOST_EVENTS.min(symbols.len()).min(stamps.len()) => {
            Inclusion { number: 37, ..Inclusion::default() }
        }
        Some(events) => {
            search.retrace(&mut symbols[..events], &mut stamps[..events]);
            Inclusion { events, ..Inclusion::default() }
        }
    };
    scratch.fill(0);
    answer
}

/// How many joint states are found; of two tables that can be asked.
pub fn found(first: Table, second: Table) -> usize {
    let pair = Pair::new(first, second);
    let mut search = Search { pair, scratch: &mut vec![0; pair.states()], found: 0 };
    search.run();
    search.found
}

fn refusal(first: Table, second: Table, scratch: usize) -> Option<u8> {
    let out_of_shape = |t: Table| check_table(t.built, t.cells, t.rows, t.pool).number != 0;
    if out_of_shape(first) || out_of_shape(second) {
        return Some(25);
    }
    if first.built.symbols != second.built.symbols {
        return Some(35);
    }
    let states = Side::new(first).states as u64 * Side::new(second).states as u64;
    (states > MOST_JOINT_STATES.min(scratch as u64)).then_some(36)
}

/// Where a table stands: a row, and the timer's age in half seconds, cut above cm.
#[derive(Clone, Copy)]
struct Standing {
    row: usize,
    age: usize,
}

/// One of the two tables.
#[derive(Clone, Copy)]
struct Side<'a> {
    cells: &'a [u32],
    rows: &'a [u32],
    symbols: usize,
    /// W.
    width: usize,
    /// R · W.
    states: usize,
}

impl<'a> Side<'a> {
    fn new(table: Table<'a>) -> Self {
        let width = 2 * table.built.top as usize + 2;
        Side {
            cells: table.cells,
            rows: table.rows,
            symbols: table.built.symbols as usize,
            width,
            states: table.built.rows as usize * width,
        }
    }

    fn waited(&self, from: Standing) -> Standing {
        Standing { age: (from.age + 1).min(self.width - 1), ..from }
    }

    fn taken(&self, from: Standing, symbol: usize) -> Standing {
        let cell = self.cells[(from.row * self.symbols + symbol) * self.width + from.age];
        Standing { row: cell as usize / 2, age: if cell % 2 == 1 { 0 } else { from.age } }
    }

    fn accepts(&self, at: Standing) -> bool {
        self.rows[ROW_NUMBERS * at.row + 2] == 1
    }

    fn number(&self, at: Standing) -> usize {
        at.row * self.width + at.age
    }

    fn standing(&self, number: usize) -> Standing {
        Standing { row: number / self.width, age: number % self.width }
    }
}

/// Where both stand.
#[derive(Clone, Copy)]
struct Joint {
    first: Standing,
    second: Standing,
}

const START: Joint = Joint { first: Standing { row: 0, age: 0 }, second: Standing { row: 0, age: 0 } };

#[derive(Clone, Copy)]
struct Pair<'a> {
    first: Side<'a>,
    second: Side<'a>,
}

impl<'a> Pair<'a> {
    fn new(first: Table<'a>, second: Table<'a>) -> Self {
        Pair { first: Side::new(first), second: Side::new(second) }
    }

    /// N.
    fn states(&self) -> usize {
        self.first.states * self.second.states
    }

    fn waited(&self, from: Joint) -> Joint {
        Joint { first: self.first.waited(from.first), second: self.second.waited(from.second) }
    }

    fn taken(&self, from: Joint, symbol: usize) -> Joint {
        Joint { first: self.first.taken(from.first, symbol), second: self.second.taken(from.second, symbol) }
    }

    fn only_first(&self, at: Joint) -> bool {
        self.first.accepts(at.first) && !self.second.accepts(at.second)
    }

    fn number(&self, at: Joint) -> usize {
        self.first.number(at.first) * self.second.states + self.second.number(at.second)
    }

    fn joint(&self, number: usize) -> Joint {
        Joint {
            first: self.first.standing(number / self.second.states),
            second: self.second.standing(number % self.second.states),
        }
    }
}

struct Search<'a> {
    pair: Pair<'a>,
    /// Just as many numbers as there are joint states.
    scratch: &'a mut [u32],
    found: usize,
}

impl Search<'_> {
    /// Finds states level by level; the level of the first that only the first table accepts, which is found last.
    fn run(&mut self) -> Option<usize> {
        if self.reach(START, 0, 0) {
            return Some(0);
        }
        let (mut from, mut level) = (0, 0);
        while from < self.found {
            level += 1;
            let level_mark = WAYS * (level as u32 % LEVELS);
            let end = self.found;
            for place in from..end {
                if self.expand(self.state_at(place), level_mark) {
                    return Some(level);
                }
            }
            from = end;
        }
        None
    }

    /// All events of a state; whether one leads to a goal.
    fn expand(&mut self, state: usize, level_mark: u32) -> bool {
        let pair = self.pair;
        let joint = pair.joint(state);
        for symbol in 0..pair.first.symbols {
            let next = pair.taken(joint, symbol);
            if self.is_new(pair.number(next)) && self.reach(next, 1 + symbol as u32, level_mark) {
                return true;
            }
        }
        false
    }

    /// Notes a new state, and what waiting leads to from it; whether it is a goal.
    fn reach(&mut self, joint: Joint, way: u32, level_mark: u32) -> bool {
        let pair = self.pair;
        self.note(pair.number(joint), 1 + way + level_mark);
        if pair.only_first(joint) {
            return true;
        }
        let mut joint = pair.waited(joint);
        while self.is_new(pair.number(joint)) {
            self.note(pair.number(joint), 1 + level_mark);
            joint = pair.waited(joint);
        }
        false
    }

    fn is_new(&self, state: usize) -> bool {
        self.scratch[state] < PART
    }

    /// Notes a new state behind the others.
    fn note(&mut self, state: usize, mark: u32) {
        self.scratch[state] += PART * mark;
        self.scratch[self.found] += state as u32;
        self.found += 1;
    }

    fn state_at(&self, place: usize) -> usize {
        (self.scratch[place] % PART) as usize
    }

    /// How a state was found: its way, and its level mod 3.
    fn way_to(&self, state: usize) -> (u32, u32) {
        let mark = self.scratch[state] / PART - 1;
        (mark % WAYS, mark / WAYS)
    }

    /// Writes the word that leads to the state found last, which has just so many events.
    fn retrace(&self, symbols: &mut [u16], stamps: &mut [u32]) {
        let (mut place, mut left) = (self.found - 1, symbols.len());
        while place > 0 {
            let state = self.state_at(place);
            let (way, level) = self.way_to(state);
            if way == 0 {
                stamps[left] += 1;
                place -= 1;
            } else {
                left -= 1;
                symbols[left] = way as u16 - 1;
                place = self.before(place, state, way as usize - 1, (level + LEVELS - 1) % LEVELS);
            }
        }
        let mut stamp = 0;
        for pause in stamps {
            stamp += *pause;
            *pause = stamp;
        }
    }

    /// The nearest place below with a state of this level from which the symbol leads to a state.
    fn before(&self, place: usize, to: usize, symbol: usize, level: u32) -> usize {
        let leads = |&place: &usize| {
            let state = self.state_at(place);
            self.way_to(state).1 == level
                && self.pair.number(self.pair.taken(self.pair.joint(state), symbol)) == to
        };
        (0..place).rev().find(leads).unwrap_or(0)
    }
}
