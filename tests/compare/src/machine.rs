//! The state between commands, and the commands over it.

use crate::all_words::whole_list;
use crate::engine::{Event, Rule, Table, Tables};
use crate::lists::{buffer_text, listed_text, numbers_text};
use crate::{Batch, Call, Engine, Included, Lent, Reply, Room, What, Word, WordRoom};
use alderskein::raw::{Built, Followed, Follower, Head};
use std::marker::PhantomData;

/// What is kept between commands.
#[allow(missing_docs)]
#[derive(Clone, Debug, Default, PartialEq)]
pub struct State {
    pub head: Head,
    pub edges: Lent<u16>,
    pub built: Built,
    pub cells: Lent<u32>,
    pub rows: Lent<u32>,
    pub pool: Lent<u32>,
    pub follower: Follower,
}

/// How many slots there are.
pub const SLOTS: usize = 10;

/// A built record and its tables, kept in a slot.
#[allow(missing_docs)]
#[derive(Clone, Debug, PartialEq)]
pub struct Kept {
    pub built: Built,
    pub cells: Lent<u32>,
    pub rows: Lent<u32>,
    pub pool: Lent<u32>,
}

/// A state, a saved one, the slots and the batch, with the implementation that runs the commands.
pub struct Machine<E> {
    state: State,
    saved: Option<State>,
    slots: [Option<Kept>; SLOTS],
    batch: Batch,
    engine: PhantomData<E>,
}

/// Nothing where a buffer has no memory or a place is past the end.
type Run = Option<Reply>;

impl<E: Engine> Default for Machine<E> {
    fn default() -> Self {
        Machine::new()
    }
}

impl<E: Engine> Machine<E> {
    /// A machine with everything empty or zero.
    pub fn new() -> Self {
        Machine {
            state: State::default(),
            saved: None,
            slots: [const { None }; SLOTS],
            batch: Batch::default(),
            engine: PhantomData,
        }
    }

    /// The state.
    pub fn state(&self) -> &State {
        &self.state
    }

    /// The slots.
    pub fn slots(&self) -> &[Option<Kept>; SLOTS] {
        &self.slots
    }

    /// What a slot holds; nothing if there is no such slot, or nothing was kept in it.
    pub fn kept(&self, slot: usize) -> Option<&Kept> {
        self.slots.get(slot)?.as_ref()
    }

    /// The batch.
    pub fn batch(&self) -> &Batch {
        &self.batch
    }

    /// Whether the guards of the buffers in the state, in the slots and in the batch are as they were.
    pub fn intact(&self) -> bool {
        self.state.intact() && self.slots.iter().flatten().all(Kept::intact) && self.batch.intact()
    }

    /// The result line of a script's line.
    pub fn answer(&mut self, line: &str) -> String {
        let Ok(call) = line.parse::<Call>() else {
            return "bad".into();
        };
        let reply = self.run(&call);
        self.line(&call, &reply)
    }

    /// Runs a command.
    pub fn run(&mut self, call: &Call) -> Reply {
        self.try_run(call).unwrap_or(Reply::Bad)
    }

    fn try_run(&mut self, call: &Call) -> Run {
        let state = &mut self.state;
        Some(match call {
            Call::Read { file, edges, fill } => state.read::<E>(file, *edges, *fill)?,
            Call::Write { out, fill } => state.write::<E>(*out, *fill)?,
            Call::Build { room, fill } => state.build::<E>(*room, *fill)?,
            Call::Exact { word, scratch, fill } => state.exact::<E>(word, *scratch, *fill)?,
            Call::Branch { word } => state.branch::<E>(word),
            Call::Table { word } => Reply::Table(E::run_table(state.table(), word)),
            Call::Start { grain } => state.start::<E>(*grain),
            Call::Follow { symbol, stamp } => Reply::Followed(state.follow::<E>(*symbol, *stamp)),
            Call::FollowInPlace { symbol, stamp } => state.follow_in_place::<E>(*symbol, *stamp),
            Call::Walk { symbols, stamps } => state.walk::<E>(symbols, stamps)?,
            Call::List { file } => Reply::Text(buffer_text(&E::list(file))),
            Call::CheckRule => Reply::Checked(E::check_rule(state.rule())),
            Call::CheckWord { symbol_count, most, word } => {
                Reply::Checked(E::check_word(*symbol_count, *most, word))
            }
            Call::CheckTable => Reply::Checked(E::check_table(state.table())),
            Call::Decide { file, edges, room, fill, word } => decide::<E>(file, *edges, *room, *fill, word)?,
            Call::Next { size, word } => Reply::Next(E::next_word(*size, *word)),
            Call::Words { size } => whole_list::<E>(*size)?,
            Call::Keep { slot } => self.keep(*slot)?,
            Call::Use { slot } => self.use_slot(*slot)?,
            Call::Include { first, second, room, fill } => self.include(*first, *second, *room, *fill)?,
            Call::BatchNew => self.new_batch(),
            Call::BatchAdd => Reply::Text(self.batch.add(state.table())?.to_string()),
            Call::BatchResize { what, length, fill } => {
                Reply::Text(buffer_text(self.batch.resize(*what, *length, *fill)?))
            }
            Call::Share { events, seconds } => {
                Reply::Shared(Box::new(E::count_shares(&self.batch, *events, *seconds)))
            }
            Call::Poke { what, index, value } => Reply::Text(state.poke(*what, *index, *value)?.to_string()),
            Call::Resize { what, length, fill } => Reply::Text(state.resize(*what, *length, *fill)?),
            Call::Dump { what } => Reply::Text(state.dump(*what)),
            Call::State => Reply::Text(state.text()),
            Call::Save | Call::Restore => self.save_or_restore(*call == Call::Save)?,
        })
    }

    fn save_or_restore(&mut self, save: bool) -> Run {
        if save {
            self.saved = Some(self.state.clone());
        } else {
            self.state = self.saved.clone()?;
        }
        Some(Reply::Text(String::new()))
    }

    fn keep(&mut self, slot: usize) -> Run {
        let State { built, cells, rows, pool, .. } = &self.state;
        let (cells, rows, pool) = (cells.clone(), rows.clone(), pool.clone());
        *self.slots.get_mut(slot)? = Some(Kept { built: *built, cells, rows, pool });
        Some(Reply::Text(String::new()))
    }

    fn use_slot(&mut self, slot: usize) -> Run {
        let Kept { built, cells, rows, pool } = self.kept(slot)?.clone();
        self.state = State { built, cells, rows, pool, ..std::mem::take(&mut self.state) };
        Some(Reply::Text(String::new()))
    }

    fn include(&self, first: usize, second: usize, room: WordRoom, fill: u16) -> Run {
        let (first, second) = (self.kept(first)?.table(), self.kept(second)?.table());
        Some(Reply::Included(Included::ask::<E>(first, second, room, fill)?))
    }

    fn new_batch(&mut self) -> Reply {
        self.batch = Batch::default();
        Reply::Text(String::new())
    }

    /// Whether the word that the reply of a command shows, if it does, is one that only the first table accepts.
    pub fn shows_rightly(&self, call: &Call, reply: &Reply) -> bool {
        let (Call::Include { first, second, .. }, Reply::Included(included)) = (call, reply) else {
            return true;
        };
        let tables = self.kept(*first).zip(self.kept(*second));
        tables.is_some_and(|(first, second)| included.shows_rightly(first.table(), second.table()))
    }

    /// The result line of a command that was just run.
    pub fn line(&self, call: &Call, reply: &Reply) -> String {
        let state = &self.state;
        let rest = match reply {
            Reply::Bad => return "bad".into(),
            Reply::Read(_) => format!("{} edges={}", state.head_text(), buffer_text(&state.edges)),
            Reply::Written(_, out) => format!("out={}", buffer_text(out)),
            Reply::Built(_, scratch) => {
                let tables = tables_text(scratch, &state.cells, &state.rows, &state.pool);
                format!("{} {tables}", state.built_text())
            }
            Reply::Exact(_, scratch) => format!("scratch={}", buffer_text(scratch)),
            Reply::Started(_) | Reply::Followed(_) | Reply::Moved(_) => state.follower_text(),
            Reply::Walked(steps) => {
                format!("verdicts={} {}", Reply::verdicts_text(steps), state.follower_text())
            }
            Reply::Decided(_, edges, [scratch, cells, rows, pool]) => {
                format!("edges={} {}", buffer_text(edges), tables_text(scratch, cells, rows, pool))
            }
            Reply::Next(next) => listed_text(&next.word),
            Reply::Words(answer, hashed) if answer.number == 0 => hashed.to_string(),
            Reply::Included(included) => included.rooms_text(),
            Reply::Shared(shares) => self.batch.shares_text(shares),
            Reply::Text(text) => text.clone(),
            Reply::Words(..) | Reply::Checked(_) | Reply::Table(_) | Reply::Branch(..) => String::new(),
        };
        let parts = [call.name().into(), reply.front(), rest];
        parts.into_iter().filter(|part| !part.is_empty()).collect::<Vec<String>>().join(" ")
    }
}

impl Kept {
    /// As it is lent.
    pub fn table(&self) -> Table<'_> {
        Table { built: self.built, cells: &self.cells, rows: &self.rows, pool: &self.pool }
    }

    fn intact(&self) -> bool {
        self.cells.intact() && self.rows.intact() && self.pool.intact()
    }
}

/// The calls of the library.
impl State {
    fn rule(&self) -> Rule<'_> {
        Rule { head: self.head, edges: &self.edges }
    }

    fn table(&self) -> Table<'_> {
        Table { built: self.built, cells: &self.cells, rows: &self.rows, pool: &self.pool }
    }

    fn read<E: Engine>(&mut self, file: &[u8], length: usize, fill: u16) -> Run {
        self.edges = Lent::new(length, fill)?;
        let reading = E::read_rule(file, &mut self.edges);
        self.head = reading.head;
        Some(Reply::Read(reading))
    }

    fn write<E: Engine>(&mut self, length: usize, fill: u8) -> Run {
        let mut out = Lent::new(length, fill)?;
        let answer = E::write_rule(self.rule(), &mut out);
        Some(Reply::Written(answer, out))
    }

    fn build<E: Engine>(&mut self, room: Room, fill: u32) -> Run {
        let mut lent = lend(room, fill)?;
        let building = E::build_table(self.rule(), tables(&mut lent));
        let [scratch, cells, rows, pool] = lent;
        (self.built, self.cells, self.rows, self.pool) = (building.built, cells, rows, pool);
        Some(Reply::Built(building, scratch))
    }

    fn exact<E: Engine>(&mut self, word: &Word, length: usize, fill: u32) -> Run {
        let mut scratch = Lent::new(length, fill)?;
        let answer = E::run_exact(self.rule(), word, &mut scratch);
        Some(Reply::Exact(answer, scratch))
    }

    fn branch<E: Engine>(&mut self, word: &Word) -> Reply {
        let mut taken = [0x5a5a; 12];
        let answer = E::run_branches(self.rule(), word, &mut taken);
        Reply::Branch(answer, taken)
    }

    fn start<E: Engine>(&mut self, grain: u32) -> Reply {
        let started = E::start_follower(grain);
        self.follower = started.follower;
        Reply::Started(started)
    }

    fn follow<E: Engine>(&mut self, symbol: u16, stamp: u32) -> Followed {
        let followed = E::follow_event(self.follower, self.table(), Event { symbol, stamp });
        self.follower = followed.follower;
        followed
    }

    fn follow_in_place<E: Engine>(&mut self, symbol: u16, stamp: u32) -> Reply {
        let mut follower = self.follower;
        let moved = E::follow_in_place(&mut follower, self.table(), Event { symbol, stamp });
        self.follower = follower;
        Reply::Moved(moved)
    }

    fn walk<E: Engine>(&mut self, symbols: &[u16], stamps: &[u32]) -> Run {
        if symbols.len() != stamps.len() {
            return None;
        }
        let mut steps: Vec<Followed> = Vec::new();
        for (&symbol, &stamp) in symbols.iter().zip(stamps) {
            steps.push(self.follow::<E>(symbol, stamp));
            if steps.last().is_some_and(|step| step.number != 0) {
                break;
            }
        }
        Some(Reply::Walked(steps))
    }
}

fn decide<E: Engine>(file: &[u8], edges: usize, room: Room, fill: u16, word: &Word) -> Run {
    let mut edges = Lent::new(edges, fill)?;
    let mut lent = lend(room, u32::from(fill))?;
    let answer = E::decide(file, &mut edges, tables(&mut lent), word);
    Some(Reply::Decided(answer, edges, lent))
}

/// Scratch, cells, rows and pool.
fn lend(room: Room, fill: u32) -> Option<[Lent<u32>; 4]> {
    let Room { scratch, cells, rows, pool } = room;
    Some([Lent::new(scratch, fill)?, Lent::new(cells, fill)?, Lent::new(rows, fill)?, Lent::new(pool, fill)?])
}

fn tables(lent: &mut [Lent<u32>; 4]) -> Tables<'_> {
    let [scratch, cells, rows, pool] = lent;
    Tables { scratch, cells, rows, pool }
}

/// The commands over the state itself.
impl State {
    /// Whether the buffers' guards are as they were.
    pub fn intact(&self) -> bool {
        self.edges.intact() && self.cells.intact() && self.rows.intact() && self.pool.intact()
    }

    /// Puts a value into a place and returns the old one.
    fn poke(&mut self, what: What, index: usize, value: u32) -> Option<u32> {
        let place = match what {
            What::Edges => {
                let place = self.edges.get_mut(index)?;
                return Some(u32::from(std::mem::replace(place, u16::try_from(value).ok()?)));
            }
            What::Cells => self.cells.get_mut(index)?,
            What::Rows => self.rows.get_mut(index)?,
            What::Pool => self.pool.get_mut(index)?,
            What::Head => head_places(&mut self.head).into_iter().nth(index)?,
            What::Built => built_places(&mut self.built).into_iter().nth(index)?,
            What::Follower => follower_places(&mut self.follower).into_iter().nth(index)?,
        };
        Some(std::mem::replace(place, value))
    }

    fn resize(&mut self, what: What, length: usize, fill: u32) -> Option<String> {
        match what {
            What::Edges => self.edges.resize(length, u16::try_from(fill).ok()?)?,
            What::Cells => self.cells.resize(length, fill)?,
            What::Rows => self.rows.resize(length, fill)?,
            What::Pool => self.pool.resize(length, fill)?,
            What::Head | What::Built | What::Follower => return None,
        }
        Some(match what {
            What::Edges => buffer_text(&self.edges),
            What::Cells => buffer_text(&self.cells),
            What::Rows => buffer_text(&self.rows),
            _ => buffer_text(&self.pool),
        })
    }

    fn dump(&self, what: What) -> String {
        match what {
            What::Head => numbers_text(&head_places(&mut { self.head })),
            What::Built => numbers_text(&built_places(&mut { self.built })),
            What::Follower => numbers_text(&follower_places(&mut { self.follower })),
            What::Edges => numbers_text(&self.edges),
            What::Cells => numbers_text(&self.cells),
            What::Rows => numbers_text(&self.rows),
            What::Pool => numbers_text(&self.pool),
        }
    }

    /// The state as the command `state` shows it.
    pub fn text(&self) -> String {
        let edges = buffer_text(&self.edges);
        let [cells, rows, pool] = [&self.cells, &self.rows, &self.pool].map(|table| buffer_text(table));
        format!(
            "{} edges={edges} {} cells={cells} rows={rows} pool={pool} {}",
            self.head_text(),
            self.built_text(),
            self.follower_text()
        )
    }

    fn head_text(&self) -> String {
        format!("head={}", self.dump(What::Head))
    }

    fn built_text(&self) -> String {
        format!("built={}", self.dump(What::Built))
    }

    fn follower_text(&self) -> String {
        format!("follower={}", self.dump(What::Follower))
    }
}

fn tables_text(scratch: &[u32], cells: &[u32], rows: &[u32], pool: &[u32]) -> String {
    let [scratch, cells, rows, pool] = [scratch, cells, rows, pool].map(buffer_text);
    format!("scratch={scratch} cells={cells} rows={rows} pool={pool}")
}

/// The fields in the protocol's order.
fn head_places(head: &mut Head) -> [&mut u32; 6] {
    let Head { locations, symbols, clocks, starts, ends, count } = head;
    [locations, symbols, clocks, starts, ends, count]
}

/// The fields in the protocol's order.
fn built_places(built: &mut Built) -> [&mut u32; 7] {
    let Built { locations, symbols, clocks, top, ends, rows, total } = built;
    [locations, symbols, clocks, top, ends, rows, total]
}

/// The fields in the protocol's order.
fn follower_places(follower: &mut Follower) -> [&mut u32; 5] {
    let Follower { grain, row, reset, last, count } = follower;
    [grain, row, &mut reset.0, &mut last.0, count]
}
