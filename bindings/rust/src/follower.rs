//! The follower: one event at a time.

use crate::raw::{self, Stamp};
use crate::{Refusal, Table};

/// Follows events over a table, holding D, row, stamp of the last timer reset, last stamp and event count.
#[derive(Clone, Debug)]
pub struct Follower<'a> {
    table: &'a Table,
    record: raw::Follower,
}

impl<'a> Follower<'a> {
    pub(crate) fn resume(table: &'a Table, record: raw::Follower) -> Self {
        Follower { table, record }
    }

    /// The record, to be kept and resumed.
    pub fn record(&self) -> raw::Follower {
        self.record
    }

    /// Takes an event and returns the verdict after it: 30, 34, 31, 32, 33. A refused event changes nothing.
    pub fn event(&mut self, symbol: u16, stamp: Stamp) -> Result<bool, Refusal> {
        let [cells, rows, pool] = self.table.parts();
        let built = self.table.built();
        let moved = raw::follow_in_place(&mut self.record, built, cells, rows, pool, symbol, stamp);
        Refusal::unless_none(moved.number, moved.place, moved.yes)
    }
}
