//! Rules: read, written, built and run.

use crate::raw::{self, Head, BRANCH_EVENTS};
use crate::{Refusal, Room, Table, Word};

/// The most edges of a rule.
const EDGES: usize = 256;
/// The numbers of an edge in the edge table: kind (5 or 6), source, target, symbol, mask of clocks to reset, count,
/// and 80 places. The count is that of the atoms, which then stand there with clock, relation and constant each
/// (kind 5), or of the numbers of the text of marks (kind 6). Unused places are zero.
pub const EDGE_NUMBERS: usize = 86;
/// The least length of an edge table.
pub const EDGE_TABLE: usize = EDGES * EDGE_NUMBERS;
/// The longest legal file, in bytes, 6 of them for a ceiling record; a file that is written has none.
pub const LONGEST_FILE: usize = 44_432;

/// For how many configurations `Rule::accepts` first takes memory.
const FIRST_ROOM: usize = 64;

/// A rule that was read or checked: its head record and its edge table.
#[derive(Clone, Debug, PartialEq, Eq)]
pub struct Rule {
    head: Head,
    edges: Vec<u16>,
}

/// A run: where it starts, and the number of its edge for each event, from 0 in file order.
#[derive(Clone, Debug, PartialEq, Eq)]
pub struct Run {
    /// The start location.
    pub start: u16,
    /// One edge for each event.
    pub edges: Vec<u16>,
}

/// What the search for an accepting run ends with.
#[derive(Clone, Debug, PartialEq, Eq)]
pub enum LeastRun {
    /// The accepting run that is least by start, then edge by edge.
    Found(Run),
    /// No run accepts.
    NoRun {
        /// What held the rule back at the first event: the position, from 0, of the first failing member of
        /// the lowest edge leaving an initial location on the first symbol. Members are those of the outermost
        /// level: an atom, or a whole any-of group. None without events, and if there is no such edge or its
        /// guard holds.
        held: Option<usize>,
    },
}

impl Rule {
    /// Reads a rule file, of which a ceiling is checked and dropped: 1 to 8.
    pub fn read(file: &[u8]) -> Result<Rule, Refusal> {
        let mut edges = vec![0; EDGE_TABLE];
        let reading = raw::read_rule(file, &mut edges);
        Refusal::unless_none(reading.number, reading.place, Rule { head: reading.head, edges })
    }

    /// A rule from its records: 20, 21.
    pub fn from_parts(head: Head, edges: Vec<u16>) -> Result<Rule, Refusal> {
        let answer = raw::check_rule(head, &edges);
        Refusal::unless_none(answer.number, answer.place, Rule { head, edges })
    }

    /// The head record.
    pub fn head(&self) -> Head {
        self.head
    }

    /// The edge table, [`EDGE_NUMBERS`] per edge.
    pub fn edges(&self) -> &[u16] {
        &self.edges
    }

    /// The rule's file, the same bytes that it was read from, less a ceiling record.
    pub fn write(&self) -> Result<Vec<u8>, Refusal> {
        let mut file = vec![0; LONGEST_FILE];
        let length = self.write_into(&mut file)?;
        file.truncate(length);
        Ok(file)
    }

    /// Writes the rule's file to the front of the bytes and returns its length: 27.
    pub fn write_into(&self, out: &mut [u8]) -> Result<usize, Refusal> {
        let answer = raw::write_rule(self.head, &self.edges, out);
        Refusal::unless_none(answer.number, answer.place, answer.value)
    }

    /// Builds the rule's table in room of these lengths: 22, 23, 24.
    pub fn build(&self, room: Room) -> Result<Table, Refusal> {
        Table::build(self.head, &self.edges, room)
    }

    /// Whether the rule accepts the word, with room for so many configurations at a time: 30 to 33, 26.
    ///
    /// Any room may be asked for: memory is taken as it turns out to be needed, twice as much each time.
    /// Where there is no memory for more, the answer is the 26 of the room that there was.
    pub fn accepts(&self, word: &Word, configurations: usize) -> Result<bool, Refusal> {
        let (grain, symbols, stamps) = (word.grain(), word.symbols(), word.stamps());
        let mut scratch = Vec::new();
        let mut room = configurations.min(FIRST_ROOM);
        let mut lent = self.widen(&mut scratch, room);
        loop {
            let answer = raw::run_exact(self.head, &self.edges, grain, symbols, stamps, &mut scratch);
            if answer.number != 26 || room == configurations || !lent {
                return Refusal::unless_none(answer.number, answer.place, answer.value == 1);
            }
            room = room.saturating_mul(2).min(configurations);
            lent = self.widen(&mut scratch, room);
        }
    }

    /// Brings the scratch to the length of so many configurations; if there is no memory for that, leaves it.
    fn widen(&self, scratch: &mut Vec<u32>, configurations: usize) -> bool {
        let Some(length) = configurations.checked_mul(2 * (self.head.clocks as usize + 1)) else {
            return false;
        };
        let more = length.saturating_sub(scratch.len());
        if scratch.try_reserve_exact(more).is_err() {
            return false;
        }
        scratch.resize(length, 0);
        true
    }

    /// The least accepting run, or what held the rule back, for at most 12 events: 30 to 33.
    ///
    /// It can take edges to the power of events. For rules of strangers there is [`Rule::accepts`].
    pub fn least_run(&self, word: &Word) -> Result<LeastRun, Refusal> {
        let mut taken = [0; BRANCH_EVENTS];
        let (grain, symbols, stamps) = (word.grain(), word.symbols(), word.stamps());
        let answer = raw::run_branches(self.head, &self.edges, grain, symbols, stamps, &mut taken);
        Refusal::unless_none(answer.number, answer.place, ())?;
        Ok(if answer.found {
            LeastRun::Found(Run { start: answer.start, edges: taken[..word.len()].to_vec() })
        } else {
            LeastRun::NoRun { held: answer.held.then_some(answer.position) }
        })
    }
}

#[cfg(test)]
mod tests {
    use super::*;

    #[test]
    fn room_without_memory_leaves_the_scratch() {
        let rule = Rule { head: Head { clocks: 4, ..Head::default() }, edges: Vec::new() };
        let mut scratch = vec![7; 10];
        for configurations in [usize::MAX, usize::MAX / 10, usize::MAX / 40, usize::MAX / 80] {
            assert!(!rule.widen(&mut scratch, configurations));
            assert_eq!(scratch, [7; 10]);
        }
        assert!(rule.widen(&mut scratch, 2));
        assert_eq!(scratch.len(), 20);
    }
}
