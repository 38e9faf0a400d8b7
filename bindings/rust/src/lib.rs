//! Rule files and one-timer tables for open path heads.
//!
//! A rule is a timed automaton whose clocks restart only on whole seconds. The office turns it into a table
//! for one timer, and the head follows events over that table: yes shows the figure 0, no shows a blank
//! field. All of it is done by the verified library `libhead_library.a`; this crate hands it Rust's slices
//! and turns its answers into [`Result`]s with a [`Refusal`].
//!
//! ```
//! use alderskein::{shares, Allows, Room, Rule, Size, Stamp, Word, Words};
//!
//! // The worked case: 0 to 1 on symbol 0 at age 1 with reset, 1 to 0 on symbol 1 at age at least 1.
//! let file = [
//!     6, 0, 1, 0, 2, 0, 2, 0, 1, 0, 2, 0, 2, 0, 0, 0, 2, 0, 3, 0, 0, 0, 14, 0, 5, 0, 0, 0, 1, 0, 0, 0, 1,
//!     0, 0, 0, 2, 0, 1, 0, 14, 0, 5, 0, 1, 0, 0, 0, 1, 0, 0, 0, 0, 0, 3, 0, 1, 0,
//! ];
//! let rule = Rule::read(&file)?;
//! let table = rule.build(Room::default())?;
//! assert_eq!(table.row_count(), 3);
//! assert_eq!(table.verdict(0), Some(true));
//!
//! let word = Word::new(2).with(0, Stamp(2)).with(1, Stamp(4));
//! assert!(table.run(&word)?);
//!
//! let mut follower = table.follower(2)?;
//! assert!(!follower.event(0, Stamp(2))?);
//! assert!(follower.event(1, Stamp(4))?);
//!
//! // Of all words up to a size: the empty one, and symbol 0 at 1 s with symbol 1 at 2, 2.5 or 3 s.
//! let size = Size { symbols: 2, events: 2, seconds: 3 };
//! let accepted = Words::up_to(size)?.filter(|&word| table.run(&word.into()) == Ok(true));
//! assert_eq!(accepted.count(), 4);
//!
//! // A stricter rule, back at age above 1, allows only what this one allows; not the other way round.
//! let mut stricter = file;
//! stricter[54] = 4;
//! let stricter = Rule::read(&stricter)?.build(Room::default())?;
//! assert_eq!(stricter.allows_only(&table)?, Allows::Only);
//! assert_eq!(table.allows_only(&stricter)?, Allows::More(word));
//!
//! // Of the words of at most 2 events up to 4 s this one allows 6 of 199, the greater share; the stricter one 5.
//! let shares = shares(&[&stricter, &table], 2, 4)?;
//! assert_eq!(shares.lines[1].in_all.to_string(), "6 of 199");
//! assert_eq!(shares.greatest, 1);
//! # Ok::<(), alderskein::Refusal>(())
//! ```
//!
//! The calls without allocation, with every part of their answers, are in [`raw`].
//!
//! The archive is looked for in the folder that the environment variable `ALDERSKEIN_LIB_DIR` names at build
//! time, else in the repository's `crates/head_library/out`.

mod follower;
mod listing;
mod lists;
pub mod raw;
mod refusal;
mod rule;
mod share;
mod table;
mod word;

pub use follower::Follower;
pub use lists::{Words, LIST_GRAIN};
pub use raw::{Listed, Size, Stamp};
pub use refusal::{Cause, Refusal};
pub use rule::{LeastRun, Rule, Run, EDGE_NUMBERS, EDGE_TABLE, LONGEST_FILE};
pub use share::{shares, Line, Share, Shares, LISTED_WORDS};
pub use table::{decide, Allows, Cell, Room, Table, BUILD_SCRATCH, JOINT_STATES, ROW_NUMBERS, ROW_TABLE};
pub use word::{Word, EVENTS};
