//! A scene: commands over one rule or table, with random room, fills and words.

use crate::ceiling::less_ceiling;
use crate::edges::EDGE_TABLE;
use crate::plain::Plain;
use crate::random::Random;
use crate::rules::Rule;
use crate::words::{branch_steps, live_word, pointed_word, spoil};
use alderskein::ROW_NUMBERS;
use protocol::{Call, Room, Word};

/// The most steps of a search by branch.
const MOST_STEPS: u64 = 20_000;

/// The commands so far.
pub struct Scene<'a> {
    pub random: &'a mut Random,
    pub calls: Vec<Call>,
    /// How many turns its kind had before, if it is a costly one.
    pub turn: u64,
}

impl Scene<'_> {
    pub fn add(&mut self, call: Call) {
        self.calls.push(call);
    }

    /// What a lent number holds before the call.
    pub fn fill(&mut self) -> u32 {
        let any = self.random.next() as u32;
        self.random.pick(&[0, 1, 9, u32::MAX, any])
    }

    pub fn short_fill(&mut self) -> u16 {
        self.fill() as u16
    }

    /// The length of an edge table, seldom too short.
    fn edge_length(&mut self) -> usize {
        match self.random.below(40) {
            0 => self.random.pick(&[0, 1, EDGE_TABLE - 1]),
            1..=8 => EDGE_TABLE + self.random.between(1, 60),
            _ => EDGE_TABLE,
        }
    }

    pub fn read(&mut self, file: Vec<u8>) {
        let (edges, fill) = (self.edge_length(), self.short_fill());
        self.add(Call::Read { file, edges, fill });
    }

    /// Reads into an edge table that is long enough.
    pub fn read_surely(&mut self, rule: &Rule) {
        let fill = self.short_fill();
        self.add(Call::Read { file: rule.file(), edges: EDGE_TABLE, fill });
    }

    /// Writes into room for this file less its ceiling, or some bytes more or fewer.
    pub fn write(&mut self, file: &[u8]) {
        let length = less_ceiling(file).len();
        let out = (length + self.random.pick(&[0, 0, 1, 9])).saturating_sub(self.random.pick(&[0, 0, 1, 9]));
        let fill = self.fill() as u8;
        self.add(Call::Write { out, fill });
    }

    pub fn build(&mut self, room: Room) {
        let fill = self.fill();
        self.add(Call::Build { room, fill });
    }

    pub fn exact(&mut self, rule: &Rule, word: Word) {
        let size = 2 * (usize::from(rule.clocks) + 1);
        let room = if self.random.chance(25) { self.random.below(6) } else { 64 };
        let scratch = room * size + self.random.below(size);
        let fill = self.fill();
        self.add(Call::Exact { word, scratch, fill });
    }

    /// By branch, unless the search would be long.
    pub fn branch(&mut self, rule: &Rule, word: &Word) {
        if word.symbols.len() > 12 || branch_steps(rule, word) < MOST_STEPS {
            self.add(Call::Branch { word: word.clone() });
        }
    }

    /// Runs the word over the state's rule and table, by every runner.
    pub fn run_everywhere(&mut self, rule: &Rule, word: &Word) {
        self.exact(rule, word.clone());
        self.branch(rule, word);
        self.add(Call::Table { word: word.clone() });
        self.follow(word);
    }

    /// Follows the word by value or in place.
    pub fn follow(&mut self, word: &Word) {
        self.add(Call::Start { grain: word.grain });
        if self.random.chance(60) {
            return self.walk(word, 40);
        }
        for (&symbol, &stamp) in word.symbols.iter().zip(&word.stamps).take(20) {
            self.add(Call::FollowInPlace { symbol, stamp });
        }
    }

    /// Follows at most so many events by value.
    pub fn walk(&mut self, word: &Word, most: usize) {
        let length = word.symbols.len().min(word.stamps.len()).min(most);
        let (symbols, stamps) = (word.symbols[..length].to_vec(), word.stamps[..length].to_vec());
        self.add(Call::Walk { symbols, stamps });
    }

    /// All three calls in a row.
    pub fn decide(&mut self, file: Vec<u8>, room: Room, word: Word) {
        let (edges, fill) = (self.edge_length(), self.short_fill());
        self.add(Call::Decide { file, edges, room, fill, word });
    }

    /// A word that keeps the word rules.
    pub fn word(&mut self, rule: &Rule, most: usize) -> Word {
        let draw = self.random.pick(&[live_word, pointed_word]);
        draw(self.random, rule, most)
    }

    /// A word that keeps the word rules, or now and then does not.
    pub fn any_word(&mut self, rule: &Rule, most: usize) -> Word {
        let mut word = self.word(rule, most);
        if self.random.chance(20) {
            spoil(self.random, &mut word, rule.symbols, 12);
        }
        word
    }

    /// This room, or some numbers more.
    pub fn more(&mut self, room: Room) -> Room {
        let extra = |random: &mut Random| random.pick(&[0, 0, 1, 2, 40]);
        Room {
            scratch: room.scratch + extra(self.random),
            cells: room.cells + extra(self.random),
            rows: room.rows + extra(self.random),
            pool: room.pool + extra(self.random),
        }
    }

    /// This room with one table shorter.
    pub fn less(&mut self, room: Room) -> Room {
        let cut = |random: &mut Random, length: usize| match random.below(4) {
            0 => random.below(length + 1),
            _ => length.saturating_sub(1),
        };
        let mut room = room;
        match self.random.below(7) {
            0 => room.scratch = cut(self.random, room.scratch),
            1 | 2 => room.cells = cut(self.random, room.cells),
            3 | 4 => room.rows = cut(self.random, room.rows),
            _ => room.pool = cut(self.random, room.pool),
        }
        room
    }
}

/// A rule's table, and what it needs, number for number.
pub struct Needs {
    pub room: Room,
    pub table: Plain,
}

impl Needs {
    /// Room in which the row with this number finds neither a place among the rows nor one in the pool.
    pub fn short_of_both(&self, random: &mut Random, row: usize) -> Room {
        let row_cells = self.room.cells / self.row_count();
        let [start, length] = [0, 1].map(|place| self.table.rows[ROW_NUMBERS * row + place] as usize);
        let mut room = self.room;
        room.pool = start + random.below(length.max(1));
        if random.chance(50) {
            room.rows = ROW_NUMBERS * row + random.below(ROW_NUMBERS);
        } else {
            room.cells = row * row_cells + random.below(row_cells);
        }
        room
    }

    pub fn row_count(&self) -> usize {
        self.table.row_count()
    }
}

/// The rule's table and what it needs; nothing if the listing program's room is too small for it.
pub fn needs(rule: &Rule) -> Option<Needs> {
    needs_in(rule, LISTING)
}

/// The rule's table and what it needs; nothing if this room is too small for it.
pub fn needs_in(rule: &Rule, most: Room) -> Option<Needs> {
    let mut edges = vec![0; EDGE_TABLE];
    let [mut scratch, mut cells, mut rows, mut pool] =
        [most.scratch, most.cells, most.rows, most.pool].map(|length| vec![0; length]);
    let head = reference::read_rule(&rule.file(), &mut edges).ok()?;
    let built = reference::build_table(&head, &edges, &mut scratch, &mut cells, &mut rows, &mut pool).ok()?;
    let row_count = built.rows as usize;
    let room = Room {
        scratch: rule.scratch(),
        cells: row_count * usize::from(rule.symbols) * rule.intervals(),
        rows: ROW_NUMBERS * row_count,
        pool: built.pool as usize,
    };
    cells.truncate(room.cells);
    rows.truncate(room.rows);
    pool.truncate(room.pool);
    Some(Needs { room, table: Plain { built: built.to_numbers(), cells, rows, pool } })
}

/// The room that the rule's table needs, or the listing program's.
pub fn room_for(rule: &Rule) -> Room {
    needs(rule).map_or(LISTING, |needs| needs.room)
}

/// What the listing program lends.
pub const LISTING: Room = Room { scratch: 16_384, cells: 16_384, rows: 2_048, pool: 8_192 };
