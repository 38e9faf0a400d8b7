//! The line protocol of `tests/PROTOCOL.md`, over the library and over the reference.
//!
//! A [`Call`] is one command. A [`Machine`] keeps the state between commands and runs them on an [`Engine`];
//! its [`Reply`] holds every part of the answer and every buffer that was lent, so that two machines can be
//! compared cell by cell. [`Machine::line`] makes the protocol's result line of it.

#![warn(missing_docs)]

mod all_words;
mod batch;
mod call;
mod engine;
mod included;
mod lent;
mod library;
mod lists;
mod machine;
mod parse;
mod reference;
mod reply;

pub use all_words::word_count;
pub use batch::Batch;
pub use call::{Call, Length, Room, What, Word, WordRoom};
pub use engine::{Engine, Event, Rooms, Rule, Table, Tables};
pub use included::Included;
pub use lent::Lent;
pub use library::Library;
pub use lists::Hashed;
pub use machine::{Kept, Machine, State, SLOTS};
pub use reference::Reference;
pub use reply::Reply;

use std::io::{self, BufRead, Write};

/// Runs a script: reads commands to the end and writes their result lines.
pub fn run_script<E: Engine>(mut input: impl BufRead, mut output: impl Write) -> io::Result<()> {
    let mut machine = Machine::<E>::new();
    let mut line = Vec::new();
    while input.read_until(b'\n', &mut line)? > 0 {
        let text = String::from_utf8_lossy(&line);
        let text = text.trim_ascii();
        if !text.is_empty() && !text.starts_with('#') {
            writeln!(output, "{}", machine.answer(text))?;
            output.flush()?;
        }
        line.clear();
    }
    Ok(())
}
