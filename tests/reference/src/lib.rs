//! Rule files and one-timer tables for open path heads.
//!
//! A plain implementation of the specification, written from its text alone and meant for comparison
//! with another one. Every function that can be refused returns a [`Refusal`] with the specification's
//! number and place, and leaves lent memory as the specification says.
//!
//! The resolution D of the specification is called `grain` here.

#![forbid(unsafe_code)]
#![warn(missing_docs)]

mod branch;
mod build;
mod decide;
mod edge;
mod exact;
mod file;
mod follower;
mod guard;
mod inclusion;
mod listing;
mod lists;
mod refusal;
mod rule;
pub mod script;
mod share;
mod table;
mod time;
mod word;

pub use branch::{run_branches, Branch, MOST_BRANCH_EVENTS};
pub use build::{build_table, Codes};
pub use decide::decide;
pub use edge::EDGE_NUMBERS;
pub use exact::run_exact;
pub use file::{read_rule, write_rule};
pub use follower::{follow_event, follow_event_in_place, start_follower, Follower};
pub use inclusion::{check_inclusion, Inclusion, MOST_JOINT_STATES};
pub use listing::{list_table, LISTING_BYTES};
pub use lists::{all_words, count_words, next_word, Listed, Size, MOST_LISTED_EVENTS};
pub use refusal::Refusal;
pub use rule::{check_rule, Head, EDGE_TABLE_NUMBERS, MOST_EDGES};
pub use share::{share_words, Share, ShareLine, Shares, MOST_SHARED_WORDS, MOST_TABLES};
pub use table::{check_table, run_table, Built, MOST_ROWS, ROW_NUMBERS};
pub use word::{check_word, MOST_EVENTS};
