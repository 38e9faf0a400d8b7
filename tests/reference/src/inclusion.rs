//! Whether a table accepts only what another accepts, and if not, a word of the fewest events that shows it.
//!
//! Both timers are reset on whole seconds only, so a word of any D has one in half seconds (D = 2) that both
//! tables answer alike. The search goes over what the tables can stand at after each number of events.

use crate::table::{Position, Table};
use crate::time::{Age, Stamp};
use crate::word::MOST_EVENTS;
use crate::{Built, Refusal};

/// The most joint states of two tables, R · W of the one times R · W of the other.
pub const MOST_JOINT_STATES: u64 = 1_000_000;

/// D of the word shown.
const GRAIN: u32 = 2;

/// Whether a table accepts only what another accepts.
#[derive(Clone, Copy, Debug, PartialEq, Eq)]
pub struct Inclusion {
    /// Whether the second accepts every word that the first accepts.
    pub included: bool,
    /// How many events the word shown has; 0 if included.
    pub events: usize,
}

/// Tells whether the second table (`other`) accepts every word, of any number of events, that the first
/// accepts: 25, 35 to 37.
///
/// If not, the front of `symbols` and `stamps` holds a word with D = 2 that only the first accepts, of the
/// fewest events possible. The scratch and the word room past the word end as zero, all of it at 37. The
/// search has memory of its own.
pub fn check_inclusion(
    built: &Built,
    cells: &[u32],
    rows: &[u32],
    pool: &[u32],
    other_built: &Built,
    other_cells: &[u32],
    other_rows: &[u32],
    other_pool: &[u32],
    scratch: &mut [u32],
    symbols: &mut [u16],
    stamps: &mut [u32],
) -> Result<Inclusion, Refusal> {
    let first = Table { built, cells, rows, pool };
    let second = Table { built: other_built, cells: other_cells, rows: other_rows, pool: other_pool };
    first.check()?;
    second.check()?;
    Refusal::unless(built.symbols == other_built.symbols, 35)?;
    let pair = Pair { first, second };
    Refusal::unless(pair.joint_states() <= MOST_JOINT_STATES.min(scratch.len() as u64), 36)?;
    scratch.fill(0);
    symbols.fill(0);
    stamps.fill(0);
    let Some(word) = pair.shortest_word() else {
        return Ok(Inclusion { included: true, events: 0 });
    };
    let room = symbols.len().min(stamps.len()).min(MOST_EVENTS as usize);
    Refusal::unless(word.len() <= room, 37)?;
    for (place, event) in word.iter().enumerate() {
        symbols[place] = event.symbol;
        stamps[place] = event.stamp.0;
    }
    Ok(Inclusion { included: false, events: word.len() })
}

/// An event of the word shown.
#[derive(Clone, Copy)]
struct Event {
    symbol: u16,
    stamp: Stamp,
}

/// Where a table stands after an event.
#[derive(Clone, Copy)]
struct Standing {
    row: u32,
    /// The timer's age in half seconds; the least above cm stands for all above it.
    age: Age,
}

impl Standing {
    const START: Standing = Standing { row: 0, age: Age::ZERO };
}

/// Where both tables stand after an event.
#[derive(Clone, Copy)]
struct Joint {
    first: Standing,
    second: Standing,
}

impl Joint {
    const START: Joint = Joint { first: Standing::START, second: Standing::START };
}

/// A joint state that some word leads to.
struct Found {
    joint: Joint,
    /// The last event of that word; none for the empty one.
    came: Option<Came>,
}

/// How a joint state was come to: from the one at a place of the list, by a pause and a symbol.
#[derive(Clone, Copy)]
struct Came {
    from: usize,
    pause: Age,
    symbol: u16,
}

/// Two tables in shape, of equal S.
#[derive(Clone, Copy)]
struct Pair<'a> {
    first: Table<'a>,
    second: Table<'a>,
}

impl Pair<'_> {
    fn joint_states(self) -> u64 {
        states(self.first) * states(self.second)
    }

    /// The number of a joint state.
    fn number(self, joint: Joint) -> usize {
        let [first, second] = [number(self.first, joint.first), number(self.second, joint.second)];
        first * states(self.second) as usize + second
    }

    /// Whether the word that led here is one that only the first accepts.
    fn tells_apart(self, joint: Joint) -> bool {
        self.first.accepts(joint.first.row) && !self.second.accepts(joint.second.row)
    }

    /// The pause after which both timers are above cm. A longer one comes to the same.
    fn longest_pause(self, joint: Joint) -> u32 {
        let first = least_above(self.first).0 - joint.first.age.0;
        let second = least_above(self.second).0 - joint.second.age.0;
        first.max(second)
    }

    fn after(self, joint: Joint, pause: Age, symbol: u16) -> Joint {
        Joint {
            first: after(self.first, joint.first, pause, symbol),
            second: after(self.second, joint.second, pause, symbol),
        }
    }

    /// A word of the fewest events that only the first accepts.
    ///
    /// Joint states are listed as they are found, so the number of events that leads to them never falls along
    /// the list, and the first that tells the tables apart is told by as few events as any.
    fn shortest_word(self) -> Option<Vec<Event>> {
        let mut seen = vec![false; self.joint_states() as usize];
        let mut list = vec![Found { joint: Joint::START, came: None }];
        seen[self.number(Joint::START)] = true;
        let mut from = 0;
        while from < list.len() {
            let joint = list[from].joint;
            if self.tells_apart(joint) {
                return Some(word_to(&list, from));
            }
            for pause in (0..=self.longest_pause(joint)).map(Age) {
                for symbol in 0..self.first.built.symbols as u16 {
                    let after = self.after(joint, pause, symbol);
                    if !std::mem::replace(&mut seen[self.number(after)], true) {
                        list.push(Found { joint: after, came: Some(Came { from, pause, symbol }) });
                    }
                }
            }
            from += 1;
        }
        None
    }
}

/// The word that led to the joint state at a place of the list.
fn word_to(list: &[Found], mut place: usize) -> Vec<Event> {
    let mut ways = Vec::new();
    while let Some(came) = list[place].came {
        ways.push(came);
        place = came.from;
    }
    let mut word = Vec::new();
    let mut stamp = Stamp::START;
    for came in ways.iter().rev() {
        stamp = Stamp(stamp.0 + came.pause.0);
        word.push(Event { symbol: came.symbol, stamp });
    }
    word
}

/// R · W: a row and an age up to the least above cm.
fn states(table: Table) -> u64 {
    u64::from(table.built.rows) * table.built.intervals() as u64
}

/// The number of a standing, below R · W.
fn number(table: Table, standing: Standing) -> usize {
    standing.row as usize * table.built.intervals() + standing.age.0 as usize
}

/// The least age above cm.
fn least_above(table: Table) -> Age {
    Age::of_constant(table.built.largest, GRAIN).after(Age(1))
}

/// Where a table stands after a pause and a symbol, by its own step: as if the timer had been reset at the
/// start and the event came at its age.
fn after(table: Table, from: Standing, pause: Age, symbol: u16) -> Standing {
    let stamp = Stamp(from.age.after(pause).0);
    let position = table.step(Position { row: from.row, reset: Stamp::START }, GRAIN, symbol, stamp);
    Standing { row: position.row, age: stamp.since(position.reset).min(least_above(table)) }
}
