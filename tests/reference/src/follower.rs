//! The follower: one event at a time over a built table.

use crate::table::{Built, Position, Table};
use crate::time::Stamp;
use crate::word::{check_event, grain_in_range, MOST_EVENTS};
use crate::Refusal;

/// The record that is brought forward event by event.
#[derive(Clone, Copy, Debug, Default, PartialEq, Eq)]
pub struct Follower {
    /// D, the resolution of the stamps.
    pub grain: u32,
    /// The present row.
    pub row: u32,
    /// The stamp of the last timer reset.
    pub reset_stamp: u32,
    /// The last event's stamp.
    pub last_stamp: u32,
    /// How many events there were.
    pub count: u32,
}

impl Follower {
    /// The fields in order.
    pub fn to_numbers(&self) -> [u32; 5] {
        [self.grain, self.row, self.reset_stamp, self.last_stamp, self.count]
    }

    /// The record with these fields.
    pub fn from_numbers(numbers: [u32; 5]) -> Self {
        let [grain, row, reset_stamp, last_stamp, count] = numbers;
        Follower { grain, row, reset_stamp, last_stamp, count }
    }
}

/// A follower before the first event: 30. The follower that goes with a refusal is all zero
/// (`Follower::default()`).
pub fn start_follower(grain: u32) -> Result<Follower, Refusal> {
    Refusal::unless(grain_in_range(grain), 30)?;
    Ok(Follower { grain, ..Follower::default() })
}

/// Takes one event and returns the verdict after it and the follower: 25, 30, 34, 31, 32, 33.
pub fn follow_event(
    follower: Follower,
    built: &Built,
    cells: &[u32],
    rows: &[u32],
    pool: &[u32],
    symbol: u16,
    stamp: u32,
) -> Result<(bool, Follower), Refusal> {
    let table = Table { built, cells, rows, pool };
    table.check()?;
    check_follower(&follower, built, symbol, stamp)?;
    let from = Position { row: follower.row, reset: Stamp(follower.reset_stamp) };
    let to = table.step(from, follower.grain, symbol, Stamp(stamp));
    let after = Follower {
        grain: follower.grain,
        row: to.row,
        reset_stamp: to.reset.0,
        last_stamp: stamp,
        count: follower.count + 1,
    };
    Ok((table.accepts(to.row), after))
}

/// Takes one event and brings the follower forward where it is kept; a refused event leaves it unchanged.
pub fn follow_event_in_place(
    follower: &mut Follower,
    built: &Built,
    cells: &[u32],
    rows: &[u32],
    pool: &[u32],
    symbol: u16,
    stamp: u32,
) -> Result<bool, Refusal> {
    let (verdict, after) = follow_event(*follower, built, cells, rows, pool, symbol, stamp)?;
    *follower = after;
    Ok(verdict)
}

/// Checks a follower and its next event against a table in shape: 30, 34, 31, 32, 33.
fn check_follower(follower: &Follower, built: &Built, symbol: u16, stamp: u32) -> Result<(), Refusal> {
    Refusal::unless(grain_in_range(follower.grain), 30)?;
    let in_shape = follower.row < built.rows
        && follower.reset_stamp <= follower.last_stamp
        && follower.reset_stamp % follower.grain == 0
        && follower.count <= MOST_EVENTS;
    Refusal::unless(in_shape, 34)?;
    Refusal::unless(follower.count < MOST_EVENTS, 31)?;
    check_event(built.symbols, follower.last_stamp, symbol, stamp, follower.count as usize + 1)
}
