//! The commands of a script, and the line that spells each.

use crate::lists::{hex_text, list_text, listed_text};
use alderskein::raw::{Listed, Size};
use std::fmt;

/// D and two lists, which need not be equally long.
#[derive(Clone, Debug, PartialEq)]
pub struct Word {
    /// D.
    pub grain: u32,
    /// The events' symbols.
    pub symbols: Vec<u16>,
    /// The events' stamps.
    pub stamps: Vec<u32>,
}

/// How many numbers a builder is lent.
#[derive(Clone, Copy, Debug, PartialEq)]
pub struct Room {
    /// For the scratch.
    pub scratch: usize,
    /// For the cells.
    pub cells: usize,
    /// For the rows.
    pub rows: usize,
    /// For the pool.
    pub pool: usize,
}

/// How many numbers an inclusion is lent.
#[derive(Clone, Copy, Debug, PartialEq)]
pub struct WordRoom {
    /// For the scratch.
    pub scratch: usize,
    /// For the symbols of the word shown.
    pub symbols: usize,
    /// For its stamps.
    pub stamps: usize,
}

/// What a table of a batch is cut or lengthened to.
#[derive(Clone, Copy, Debug, PartialEq)]
pub enum Length {
    /// So many numbers.
    To(usize),
    /// So many numbers fewer.
    Less(usize),
}

/// A part of the state.
#[derive(Clone, Copy, Debug, PartialEq)]
pub enum What {
    /// The head record.
    Head,
    /// The built record.
    Built,
    /// The follower.
    Follower,
    /// The edge table.
    Edges,
    /// The cells.
    Cells,
    /// The rows.
    Rows,
    /// The pool.
    Pool,
}

impl What {
    /// Every part with its name.
    pub const NAMES: [(What, &'static str); 7] = [
        (What::Head, "head"),
        (What::Built, "built"),
        (What::Follower, "follower"),
        (What::Edges, "edges"),
        (What::Cells, "cells"),
        (What::Rows, "rows"),
        (What::Pool, "pool"),
    ];

    /// Its name.
    pub fn name(self) -> &'static str {
        What::NAMES.iter().find(|(what, _)| *what == self).map_or("", |(_, name)| name)
    }
}

/// One command; the fields are those of `tests/PROTOCOL.md`.
#[allow(missing_docs)]
#[derive(Clone, Debug, PartialEq)]
pub enum Call {
    Read { file: Vec<u8>, edges: usize, fill: u16 },
    Write { out: usize, fill: u8 },
    Build { room: Room, fill: u32 },
    Exact { word: Word, scratch: usize, fill: u32 },
    Branch { word: Word },
    Table { word: Word },
    Start { grain: u32 },
    Follow { symbol: u16, stamp: u32 },
    FollowInPlace { symbol: u16, stamp: u32 },
    Walk { symbols: Vec<u16>, stamps: Vec<u32> },
    List { file: Vec<u8> },
    CheckRule,
    CheckWord { symbol_count: u32, most: u32, word: Word },
    CheckTable,
    Decide { file: Vec<u8>, edges: usize, room: Room, fill: u16, word: Word },
    Next { size: Size, word: Listed },
    Words { size: Size },
    Keep { slot: usize },
    Use { slot: usize },
    Include { first: usize, second: usize, room: WordRoom, fill: u16 },
    BatchNew,
    BatchAdd,
    BatchResize { what: What, length: Length, fill: u32 },
    Share { events: u32, seconds: u32 },
    Poke { what: What, index: usize, value: u32 },
    Resize { what: What, length: usize, fill: u32 },
    Save,
    Restore,
    State,
    Dump { what: What },
}

impl Call {
    /// The command's name.
    pub fn name(&self) -> &'static str {
        match self {
            Call::Read { .. } => "read",
            Call::Write { .. } => "write",
            Call::Build { .. } => "build",
            Call::Exact { .. } => "exact",
            Call::Branch { .. } => "branch",
            Call::Table { .. } => "table",
            Call::Start { .. } => "start",
            Call::Follow { .. } => "follow",
            Call::FollowInPlace { .. } => "follow_in_place",
            Call::Walk { .. } => "walk",
            Call::List { .. } => "list",
            Call::CheckRule => "check_rule",
            Call::CheckWord { .. } => "check_word",
            Call::CheckTable => "check_table",
            Call::Decide { .. } => "decide",
            Call::Next { .. } => "next",
            Call::Words { .. } => "words",
            Call::Keep { .. } => "keep",
            Call::Use { .. } => "use",
            Call::Include { .. } => "include",
            Call::BatchNew | Call::BatchAdd | Call::BatchResize { .. } => "batch",
            Call::Share { .. } => "share",
            Call::Poke { .. } => "poke",
            Call::Resize { .. } => "resize",
            Call::Save => "save",
            Call::Restore => "restore",
            Call::State => "state",
            Call::Dump { .. } => "dump",
        }
    }
}

/// The line that spells the command.
impl fmt::Display for Call {
    fn fmt(&self, f: &mut fmt::Formatter) -> fmt::Result {
        write!(f, "{}", self.name())?;
        match self {
            Call::Read { file, edges, fill } => write!(f, " {} {edges} {fill}", hex_text(file)),
            Call::Write { out, fill } => write!(f, " {out} {fill}"),
            Call::Build { room, fill } => write!(f, " {room} {fill}"),
            Call::Exact { word, scratch, fill } => write!(f, " {word} {scratch} {fill}"),
            Call::Branch { word } | Call::Table { word } => write!(f, " {word}"),
            Call::Start { grain } => write!(f, " {grain}"),
            Call::Follow { symbol, stamp } | Call::FollowInPlace { symbol, stamp } => {
                write!(f, " {symbol} {stamp}")
            }
            Call::Walk { symbols, stamps } => write!(f, " {} {}", list_text(symbols), list_text(stamps)),
            Call::List { file } => write!(f, " {}", hex_text(file)),
            Call::CheckWord { symbol_count, most, word } => {
                let (symbols, stamps) = (list_text(&word.symbols), list_text(&word.stamps));
                write!(f, " {symbol_count} {} {most} {symbols} {stamps}", word.grain)
            }
            Call::Decide { file, edges, room, fill, word } => {
                write!(f, " {} {edges} {room} {fill} {word}", hex_text(file))
            }
            Call::Next { size, word } => write!(f, " {} {}", size_text(size), listed_text(word)),
            Call::Words { size } => write!(f, " {}", size_text(size)),
            Call::Keep { slot } | Call::Use { slot } => write!(f, " {slot}"),
            Call::Include { first, second, room, fill } => write!(f, " {first} {second} {room} {fill}"),
            Call::BatchNew => write!(f, " new"),
            Call::BatchAdd => write!(f, " add"),
            Call::BatchResize { what, length, fill } => write!(f, " resize {} {length} {fill}", what.name()),
            Call::Share { events, seconds } => write!(f, " {events} {seconds}"),
            Call::Poke { what, index, value } => write!(f, " {} {index} {value}", what.name()),
            Call::Resize { what, length, fill } => write!(f, " {} {length} {fill}", what.name()),
            Call::Dump { what } => write!(f, " {}", what.name()),
            Call::CheckRule | Call::CheckTable | Call::Save | Call::Restore | Call::State => Ok(()),
        }
    }
}

impl fmt::Display for Word {
    fn fmt(&self, f: &mut fmt::Formatter) -> fmt::Result {
        write!(f, "{} {} {}", self.grain, list_text(&self.symbols), list_text(&self.stamps))
    }
}

impl fmt::Display for Room {
    fn fmt(&self, f: &mut fmt::Formatter) -> fmt::Result {
        write!(f, "{} {} {} {}", self.scratch, self.cells, self.rows, self.pool)
    }
}

impl fmt::Display for WordRoom {
    fn fmt(&self, f: &mut fmt::Formatter) -> fmt::Result {
        write!(f, "{} {} {}", self.scratch, self.symbols, self.stamps)
    }
}

impl fmt::Display for Length {
    fn fmt(&self, f: &mut fmt::Formatter) -> fmt::Result {
        match self {
            Length::To(length) => write!(f, "{length}"),
            Length::Less(fewer) => write!(f, "-{fewer}"),
        }
    }
}

fn size_text(size: &Size) -> String {
    format!("{} {} {}", size.symbols, size.events, size.seconds)
}
