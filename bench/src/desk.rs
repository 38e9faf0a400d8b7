//! A rule with its table, its room and a word, over which every call can be run.

use crate::fastest::Fastest;
use alderskein::raw::{Answer, Building, Built, Follower, Head, Moved};
use alderskein::{EDGE_TABLE, ROW_NUMBERS, ROW_TABLE};
use protocol::{Engine, Event, Reference, Rule, Table, Tables, Word};

/// The event that is followed.
const FIRST: Event = Event { symbol: 0, stamp: 2 };

/// A call to be measured.
#[derive(Clone, Copy, Debug, PartialEq)]
pub enum Call {
    Read,
    Write,
    CheckRule,
    CheckTable,
    CheckWord,
    Build,
    Exact,
    Branch,
    Table,
    Follow,
    FollowInPlace,
    Decide,
}

/// What the calls are lent.
pub struct Desk {
    file: Vec<u8>,
    out: Vec<u8>,
    head: Head,
    edges: Vec<u16>,
    scratch: Vec<u32>,
    /// For the exact runner.
    configurations: Vec<u32>,
    cells: Vec<u32>,
    rows: Vec<u32>,
    pool: Vec<u32>,
    built: Built,
    follower: Follower,
    word: Word,
    fastest: Fastest,
}

impl Desk {
    /// The rule of a file, read and built by the reference, in room that just fits; an empty word.
    pub fn new(file: Vec<u8>) -> Self {
        let mut edges = vec![0; EDGE_TABLE];
        let head = Reference::read_rule(&file, &mut edges).head;
        let mut desk = Desk {
            // As much as writing asks for, or a ceiling's 6 bytes more.
            out: vec![0; file.len()],
            file,
            head,
            edges,
            scratch: vec![0; 2_048],
            configurations: vec![0; 1_024],
            cells: vec![0; 1 << 20],
            rows: vec![0; ROW_TABLE],
            pool: vec![0; 1 << 18],
            built: Built::default(),
            follower: Follower { grain: 2, ..Follower::default() },
            word: Word { grain: 2, symbols: vec![], stamps: vec![] },
            fastest: Fastest::default(),
        };
        let building = desk.build::<Reference>();
        assert_eq!(building.number, 0, "the rule's table does not fit");
        desk.built = building.built;
        desk.cut();
        desk
    }

    /// Cuts the room to what the table needs.
    fn cut(&mut self) {
        // A bit for each code, 32 to a number.
        self.scratch.truncate(self.codes().div_ceil(32));
        self.cells.truncate(self.row_count() * self.row_cells());
        self.rows.truncate(ROW_NUMBERS * self.row_count());
        self.pool.truncate(self.built.total as usize);
    }

    /// The same with a word: so many events, each as long after the one before, over all symbols in turn.
    pub fn with_word(mut self, events: usize, delay: u32) -> Self {
        let symbols = self.head.symbols as usize;
        self.word.symbols = (0..events).map(|event| (event % symbols) as u16).collect();
        self.word.stamps = (1..=events as u32).map(|event| event * delay).collect();
        self
    }

    /// The same with a word of so many events with one symbol.
    pub fn with_symbol(self, symbol: u16, events: usize, delay: u32) -> Self {
        let mut desk = self.with_word(events, delay);
        desk.word.symbols.fill(symbol);
        desk
    }

    /// R.
    pub fn row_count(&self) -> usize {
        self.built.rows as usize
    }

    /// How many codes a row has on average.
    pub fn mean_length(&self) -> f64 {
        f64::from(self.built.total) / f64::from(self.built.rows)
    }

    /// N.
    pub fn codes(&self) -> usize {
        (self.built.locations * (self.built.top + 2).pow(self.built.clocks)) as usize
    }

    /// S · W.
    fn row_cells(&self) -> usize {
        (self.built.symbols * (2 * self.built.top + 2)) as usize
    }

    /// R · S · W.
    pub fn cell_count(&self) -> usize {
        self.row_count() * self.row_cells()
    }

    fn table(&self) -> Table<'_> {
        Table { built: self.built, cells: &self.cells, rows: &self.rows, pool: &self.pool }
    }

    fn build<E: Engine>(&mut self) -> Building {
        let Desk { head, edges, scratch, cells, rows, pool, .. } = self;
        E::build_table(Rule { head: *head, edges }, Tables { scratch, cells, rows, pool })
    }

    /// Builds with the fastest Rust, in its own memory, and returns the row count.
    pub fn build_fastest(&mut self) -> Option<usize> {
        self.fastest.build(Rule { head: self.head, edges: &self.edges })
    }

    /// Whether the fastest Rust builds the table that the reference builds, in every number.
    pub fn fastest_agrees(&mut self) -> bool {
        let building = self.build::<Reference>();
        let rows = self.build_fastest();
        let (ours, theirs) = (self.fastest.table(), self.table());
        building.number == 0
            && rows == Some(self.row_count())
            && ours.built == building.built
            && ours.cells == theirs.cells
            && ours.rows == theirs.rows
            && ours.pool == theirs.pool
    }

    /// Whether the other rule has the same table, in every number.
    pub fn same_table(&self, other: &Desk) -> bool {
        self.built == other.built
            && self.cells == other.cells
            && self.rows == other.rows
            && self.pool == other.pool
    }

    fn decide<E: Engine>(&mut self) -> Answer {
        let Desk { file, edges, scratch, cells, rows, pool, word, .. } = self;
        E::decide(file, edges, Tables { scratch, cells, rows, pool }, word)
    }

    fn follow_in_place<E: Engine>(&self) -> Moved {
        E::follow_in_place(&mut { self.follower }, self.table(), FIRST)
    }

    /// Runs a call and returns its refusal's number and place, and a value. The tables that it is lent hold
    /// what the call before left in them.
    pub fn run<E: Engine>(&mut self, call: Call) -> [usize; 3] {
        let Desk { head, edges, word, .. } = self;
        let rule = Rule { head: *head, edges };
        match call {
            Call::Read => {
                let reading = E::read_rule(&self.file, edges);
                [reading.number.into(), reading.place, reading.head.count as usize]
            }
            Call::Write => numbers(E::write_rule(rule, &mut self.out)),
            Call::CheckRule => numbers(E::check_rule(rule)),
            Call::CheckTable => numbers(E::check_table(self.table())),
            Call::CheckWord => numbers(E::check_word(head.symbols, 4_096, word)),
            Call::Build => {
                let building = self.build::<E>();
                [building.number.into(), building.place, building.built.rows as usize]
            }
            Call::Exact => numbers(E::run_exact(rule, word, &mut self.configurations)),
            Call::Branch => {
                let branch = E::run_branches(rule, word, &mut [0; 12]);
                [branch.number.into(), branch.place, branch.found.into()]
            }
            Call::Table => numbers(E::run_table(self.table(), &self.word)),
            Call::Follow => {
                let followed = E::follow_event(self.follower, self.table(), FIRST);
                [followed.number.into(), followed.place, followed.yes.into()]
            }
            Call::FollowInPlace => {
                let moved = self.follow_in_place::<E>();
                [moved.number.into(), moved.place, moved.yes.into()]
            }
            Call::Decide => numbers(self.decide::<E>()),
        }
    }
}

fn numbers(answer: Answer) -> [usize; 3] {
    [answer.number.into(), answer.place, answer.value]
}
