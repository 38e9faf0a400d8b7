//! The library's calls as C has them: plain records with a refusal's number and place, and lent tables.
//!
//! Nothing is allocated here, and every part of every answer is handed on. The functions are safe: the
//! library takes any numbers, any lengths and any contents, and answers with a result or a refusal. What
//! each lent table holds afterwards is fixed for each refusal; `include/alderskein.h` has it call by call.
//!
//! Nothing checks these declarations against the library's source. They are kept next to each other here,
//! in the order of the C header, and the comparison under `tests/compare` runs every one of them.

/// The most events of a word run by branch.
pub const BRANCH_EVENTS: usize = 12;

/// The most events of a word of a list.
pub const LISTED_EVENTS: usize = 6;

/// The most tables of a batch.
pub const TABLES: usize = 16;

/// How many numbers a share takes: the words accepted, out of how many, numerator and denominator.
pub const SHARE_NUMBERS: usize = 4;

/// How many numbers a line takes: a share for each of 0 to 6 events, and one in all.
pub const LINE_NUMBERS: usize = SHARE_NUMBERS * (LISTED_EVENTS + 2);

/// Where the share in all begins in a line.
pub const LINE_IN_ALL: usize = LINE_NUMBERS - SHARE_NUMBERS;

/// A time since the start of the word, in D-ths of a second.
#[repr(C)]
#[derive(Clone, Copy, Debug, Default, PartialEq, Eq, PartialOrd, Ord, Hash)]
pub struct Stamp(pub u32);

/// The head record of a rule. Sets have a bit for each location.
#[repr(C)]
#[derive(Clone, Copy, Debug, Default, PartialEq, Eq)]
pub struct Head {
    /// L, the count of locations.
    pub locations: u32,
    /// S, the count of symbols.
    pub symbols: u32,
    /// K, the count of clocks.
    pub clocks: u32,
    /// The initial locations.
    pub starts: u32,
    /// The final locations.
    pub ends: u32,
    /// The count of edges.
    pub count: u32,
}

/// The built record of a table.
#[repr(C)]
#[derive(Clone, Copy, Debug, Default, PartialEq, Eq)]
pub struct Built {
    /// L, the count of locations.
    pub locations: u32,
    /// S, the count of symbols.
    pub symbols: u32,
    /// K, the count of clocks.
    pub clocks: u32,
    /// cm, the largest constant in any atom, 0 if there is none.
    pub top: u32,
    /// The final locations.
    pub ends: u32,
    /// R, the count of rows.
    pub rows: u32,
    /// P, the count of codes in the pool.
    pub total: u32,
}

/// One timer over a table.
#[repr(C)]
#[derive(Clone, Copy, Debug, Default, PartialEq, Eq)]
pub struct Follower {
    /// D.
    pub grain: u32,
    /// The present row.
    pub row: u32,
    /// The stamp of the last timer reset.
    pub reset: Stamp,
    /// The last stamp.
    pub last: Stamp,
    /// The count of events so far.
    pub count: u32,
}

/// A refusal (number 0 for none) and a value: bytes written, or 1 for yes and 0 for no.
#[repr(C)]
#[derive(Clone, Copy, Debug, Default, PartialEq, Eq)]
pub struct Answer {
    /// The refusal's number, 0 for none.
    pub number: u8,
    /// The refusal's place.
    pub place: usize,
    /// The value, 0 on a refusal.
    pub value: usize,
}

/// What reading answers.
#[repr(C)]
#[derive(Clone, Copy, Debug, Default, PartialEq, Eq)]
pub struct Reading {
    /// The refusal's number, 0 for none.
    pub number: u8,
    /// The refusal's place.
    pub place: usize,
    /// The head record, all zero on a refusal.
    pub head: Head,
}

/// What building answers.
#[repr(C)]
#[derive(Clone, Copy, Debug, Default, PartialEq, Eq)]
pub struct Building {
    /// The refusal's number, 0 for none.
    pub number: u8,
    /// The refusal's place.
    pub place: usize,
    /// The built record, all zero on a refusal.
    pub built: Built,
}

/// What a run by branch answers; its edges go to a lent array.
#[repr(C)]
#[derive(Clone, Copy, Debug, Default, PartialEq, Eq)]
pub struct BranchAnswer {
    /// The refusal's number, 0 for none.
    pub number: u8,
    /// The refusal's place.
    pub place: usize,
    /// Whether some run accepts, false on a refusal.
    pub found: bool,
    /// The start location of the least one.
    pub start: u16,
    /// Whether no run accepts and a guard held the rule back at the first event, false on a refusal.
    pub held: bool,
    /// The position, from 0, of that guard's first member that does not hold, an atom or a whole group of the
    /// outermost level; 0 where `held` is false.
    pub position: usize,
}

/// A new follower.
#[repr(C)]
#[derive(Clone, Copy, Debug, Default, PartialEq, Eq)]
pub struct Started {
    /// The refusal's number, 0 for none.
    pub number: u8,
    /// The refusal's place.
    pub place: usize,
    /// The follower, all zero on a refusal.
    pub follower: Follower,
}

/// A follower after an event.
#[repr(C)]
#[derive(Clone, Copy, Debug, Default, PartialEq, Eq)]
pub struct Followed {
    /// The refusal's number, 0 for none.
    pub number: u8,
    /// The refusal's place.
    pub place: usize,
    /// The verdict of the row after the event, false on a refusal.
    pub yes: bool,
    /// The follower, unchanged on a refusal.
    pub follower: Follower,
}

/// What following an event answers where the follower stays in its place.
#[repr(C)]
#[derive(Clone, Copy, Debug, Default, PartialEq, Eq)]
pub struct Moved {
    /// The refusal's number, 0 for none.
    pub number: u8,
    /// The refusal's place.
    pub place: usize,
    /// The verdict of the row after the event, false on a refusal.
    pub yes: bool,
}

/// The size of a list of words.
#[repr(C)]
#[derive(Clone, Copy, Debug, Default, PartialEq, Eq, Hash)]
pub struct Size {
    /// S, the count of symbols.
    pub symbols: u32,
    /// m, the most events of a word.
    pub events: u32,
    /// H, the whole seconds up to which stamps go.
    pub seconds: u32,
}

/// A word of a list by value, D being 2. Unused places are zero.
#[repr(C)]
#[derive(Clone, Copy, Debug, Default, PartialEq, Eq, Hash)]
pub struct Listed {
    /// The count of events.
    pub count: u32,
    /// The events' symbols.
    pub symbols: [u16; LISTED_EVENTS],
    /// The events' stamps, in half seconds.
    pub stamps: [u32; LISTED_EVENTS],
}

/// The next word of a list.
#[repr(C)]
#[derive(Clone, Copy, Debug, Default, PartialEq, Eq)]
pub struct Next {
    /// The refusal's number, 0 for none.
    pub number: u8,
    /// The refusal's place.
    pub place: usize,
    /// Whether the word given was the last, false on a refusal.
    pub last: bool,
    /// The next word; the word given where that was the last, and on a refusal.
    pub word: Listed,
}

/// Does the first table allow only what the second allows?
#[repr(C)]
#[derive(Clone, Copy, Debug, Default, PartialEq, Eq)]
pub struct Inclusion {
    /// The refusal's number, 0 for none.
    pub number: u8,
    /// The refusal's place.
    pub place: usize,
    /// Yes; false on a refusal.
    pub included: bool,
    /// The count of events of the word shown, 0 on yes and on a refusal.
    pub events: usize,
}

/// The built records of up to 16 tables, whose cells, rows and pools stand one after another in three lent tables.
#[repr(C)]
#[derive(Clone, Copy, Debug, Default, PartialEq, Eq)]
pub struct Batch {
    /// The count of tables.
    pub count: u32,
    /// The built records.
    pub tables: [Built; TABLES],
}

/// How much of the list each table of a batch allows.
#[repr(C)]
#[derive(Clone, Copy, Debug, PartialEq, Eq)]
pub struct Shares {
    /// The refusal's number, 0 for none.
    pub number: u8,
    /// The refusal's place.
    pub place: usize,
    /// The table with the greatest share in all, from 1, the earliest on a tie; 0 on a refusal.
    pub greatest: u32,
    /// The tables' lines, one after another: [`SHARE_NUMBERS`] for each of 0 to 6 events, then in all. All zero
    /// past the list's length, past the batch, and on a refusal.
    pub lines: [u32; TABLES * LINE_NUMBERS],
}

impl Default for Shares {
    fn default() -> Self {
        Shares { number: 0, place: 0, greatest: 0, lines: [0; TABLES * LINE_NUMBERS] }
    }
}

/// The C names. A lent table is a pointer and a count.
mod c {
    use super::*;

    #[rustfmt::skip]
    extern "C" {
        pub fn alderskein_check_rule(head: Head, edges: *const u16, edges_length: usize) -> Answer;
        pub fn alderskein_read_rule(
            file: *const u8, file_length: usize, edges: *mut u16, edges_length: usize,
        ) -> Reading;
        pub fn alderskein_write_rule(
            head: Head, edges: *const u16, edges_length: usize, out: *mut u8, out_length: usize,
        ) -> Answer;
        pub fn alderskein_check_word(
            symbol_count: u32, grain: u32, most: u32,
            symbols: *const u16, symbols_length: usize, stamps: *const u32, stamps_length: usize,
        ) -> Answer;
        pub fn alderskein_build_table(
            head: Head, edges: *const u16, edges_length: usize,
            scratch: *mut u32, scratch_length: usize, cells: *mut u32, cells_length: usize,
            rows: *mut u32, rows_length: usize, pool: *mut u32, pool_length: usize,
        ) -> Building;
        pub fn alderskein_check_table(
            built: Built, cells: *const u32, cells_length: usize, rows: *const u32, rows_length: usize,
            pool: *const u32, pool_length: usize,
        ) -> Answer;
        pub fn alderskein_run_table(
            built: Built, cells: *const u32, cells_length: usize, rows: *const u32, rows_length: usize,
            pool: *const u32, pool_length: usize, grain: u32,
            symbols: *const u16, symbols_length: usize, stamps: *const u32, stamps_length: usize,
        ) -> Answer;
        pub fn alderskein_run_exact(
            head: Head, edges: *const u16, edges_length: usize, grain: u32,
            symbols: *const u16, symbols_length: usize, stamps: *const u32, stamps_length: usize,
            scratch: *mut u32, scratch_length: usize,
        ) -> Answer;
        pub fn alderskein_run_branches(
            head: Head, edges: *const u16, edges_length: usize, grain: u32,
            symbols: *const u16, symbols_length: usize, stamps: *const u32, stamps_length: usize,
            taken: *mut [u16; BRANCH_EVENTS],
        ) -> BranchAnswer;
        pub fn alderskein_start_follower(grain: u32) -> Started;
        pub fn alderskein_follow_event(
            follower: Follower, built: Built, cells: *const u32, cells_length: usize,
            rows: *const u32, rows_length: usize, pool: *const u32, pool_length: usize,
            symbol: u16, stamp: Stamp,
        ) -> Followed;
        pub fn alderskein_follow_in_place(
            follower: *mut Follower, built: Built, cells: *const u32, cells_length: usize,
            rows: *const u32, rows_length: usize, pool: *const u32, pool_length: usize,
            symbol: u16, stamp: Stamp,
        ) -> Moved;
        pub fn alderskein_decide(
            file: *const u8, file_length: usize, edges: *mut u16, edges_length: usize,
            scratch: *mut u32, scratch_length: usize, cells: *mut u32, cells_length: usize,
            rows: *mut u32, rows_length: usize, pool: *mut u32, pool_length: usize, grain: u32,
            symbols: *const u16, symbols_length: usize, stamps: *const u32, stamps_length: usize,
        ) -> Answer;
        pub fn alderskein_next_word(size: Size, word: Listed) -> Next;
        pub fn alderskein_check_inclusion(
            first: Built, cells: *const u32, cells_length: usize, rows: *const u32, rows_length: usize,
            pool: *const u32, pool_length: usize, second: Built, cells2: *const u32, cells2_length: usize,
            rows2: *const u32, rows2_length: usize, pool2: *const u32, pool2_length: usize,
            scratch: *mut u32, scratch_length: usize, symbols: *mut u16, symbols_length: usize,
            stamps: *mut u32, stamps_length: usize,
        ) -> Inclusion;
        pub fn alderskein_count_shares(
            batch: Batch, cells: *const u32, cells_length: usize, rows: *const u32, rows_length: usize,
            pool: *const u32, pool_length: usize, events: u32, seconds: u32,
        ) -> Shares;
    }
}

// Each call below hands on slices: their pointers are valid for their lengths, and no `&mut` slice overlaps
// another one.

/// Checks a head record and an edge table: 20, 21.
#[inline]
pub fn check_rule(head: Head, edges: &[u16]) -> Answer {
    unsafe { c::alderskein_check_rule(head, edges.as_ptr(), edges.len()) }
}

/// Reads a rule file, of which a ceiling is checked and dropped, into an edge table of [`crate::EDGE_NUMBERS`] per
/// edge: 20, then 1 to 8.
#[inline]
pub fn read_rule(file: &[u8], edges: &mut [u16]) -> Reading {
    unsafe { c::alderskein_read_rule(file.as_ptr(), file.len(), edges.as_mut_ptr(), edges.len()) }
}

/// Writes a rule as a file: 20, 21, 27.
#[inline]
pub fn write_rule(head: Head, edges: &[u16], out: &mut [u8]) -> Answer {
    unsafe { c::alderskein_write_rule(head, edges.as_ptr(), edges.len(), out.as_mut_ptr(), out.len()) }
}

/// Checks a word of at most `most` events over `symbol_count` symbols: 30 to 33.
#[inline]
pub fn check_word(symbol_count: u32, grain: u32, most: u32, symbols: &[u16], stamps: &[u32]) -> Answer {
    let (y, t) = (symbols, stamps);
    unsafe { c::alderskein_check_word(symbol_count, grain, most, y.as_ptr(), y.len(), t.as_ptr(), t.len()) }
}

/// Builds the table of a rule: 20, 21, 22, then 23 and 24.
#[rustfmt::skip]
#[inline]
pub fn build_table(
    head: Head,
    edges: &[u16],
    scratch: &mut [u32],
    cells: &mut [u32],
    rows: &mut [u32],
    pool: &mut [u32],
) -> Building {
    unsafe {
        c::alderskein_build_table(
            head, edges.as_ptr(), edges.len(), scratch.as_mut_ptr(), scratch.len(),
            cells.as_mut_ptr(), cells.len(), rows.as_mut_ptr(), rows.len(), pool.as_mut_ptr(), pool.len(),
        )
    }
}

/// Checks the shape of a built record and its tables: 25.
#[rustfmt::skip]
#[inline]
pub fn check_table(built: Built, cells: &[u32], rows: &[u32], pool: &[u32]) -> Answer {
    unsafe {
        c::alderskein_check_table(
            built, cells.as_ptr(), cells.len(), rows.as_ptr(), rows.len(), pool.as_ptr(), pool.len(),
        )
    }
}

/// Runs a word over a table: 25, 30 to 33.
#[rustfmt::skip]
#[inline]
pub fn run_table(
    built: Built,
    cells: &[u32],
    rows: &[u32],
    pool: &[u32],
    grain: u32,
    symbols: &[u16],
    stamps: &[u32],
) -> Answer {
    unsafe {
        c::alderskein_run_table(
            built, cells.as_ptr(), cells.len(), rows.as_ptr(), rows.len(), pool.as_ptr(), pool.len(),
            grain, symbols.as_ptr(), symbols.len(), stamps.as_ptr(), stamps.len(),
        )
    }
}

/// Runs a word over the rule itself, exactly: 20, 21, 30 to 33, then 26.
#[rustfmt::skip]
#[inline]
pub fn run_exact(
    head: Head,
    edges: &[u16],
    grain: u32,
    symbols: &[u16],
    stamps: &[u32],
    scratch: &mut [u32],
) -> Answer {
    unsafe {
        c::alderskein_run_exact(
            head, edges.as_ptr(), edges.len(), grain, symbols.as_ptr(), symbols.len(),
            stamps.as_ptr(), stamps.len(), scratch.as_mut_ptr(), scratch.len(),
        )
    }
}

/// Looks for the least accepting run of a short word, or names what held the rule back: 20, 21, 30 to 33.
/// Can take edges to the power of events.
#[rustfmt::skip]
#[inline]
pub fn run_branches(
    head: Head,
    edges: &[u16],
    grain: u32,
    symbols: &[u16],
    stamps: &[u32],
    taken: &mut [u16; BRANCH_EVENTS],
) -> BranchAnswer {
    unsafe {
        c::alderskein_run_branches(
            head, edges.as_ptr(), edges.len(), grain, symbols.as_ptr(), symbols.len(),
            stamps.as_ptr(), stamps.len(), taken,
        )
    }
}

/// A follower before the first event: 30.
#[inline]
pub fn start_follower(grain: u32) -> Started {
    unsafe { c::alderskein_start_follower(grain) }
}

/// Takes one event: 25, 30, 34, 31, 32, 33.
#[rustfmt::skip]
#[inline]
pub fn follow_event(
    follower: Follower,
    built: Built,
    cells: &[u32],
    rows: &[u32],
    pool: &[u32],
    symbol: u16,
    stamp: Stamp,
) -> Followed {
    unsafe {
        c::alderskein_follow_event(
            follower, built, cells.as_ptr(), cells.len(), rows.as_ptr(), rows.len(),
            pool.as_ptr(), pool.len(), symbol, stamp,
        )
    }
}

/// Takes one event, the follower brought forward where it is kept: 25, 30, 34, 31, 32, 33.
#[rustfmt::skip]
#[inline]
pub fn follow_in_place(
    follower: &mut Follower,
    built: Built,
    cells: &[u32],
    rows: &[u32],
    pool: &[u32],
    symbol: u16,
    stamp: Stamp,
) -> Moved {
    unsafe {
        c::alderskein_follow_in_place(
            follower, built, cells.as_ptr(), cells.len(), rows.as_ptr(), rows.len(),
            pool.as_ptr(), pool.len(), symbol, stamp,
        )
    }
}

/// Reader, builder and table runner in a row: 20, 1 to 8, 22 to 24, 30 to 33.
#[rustfmt::skip]
#[inline]
pub fn decide(
    file: &[u8],
    edges: &mut [u16],
    scratch: &mut [u32],
    cells: &mut [u32],
    rows: &mut [u32],
    pool: &mut [u32],
    grain: u32,
    symbols: &[u16],
    stamps: &[u32],
) -> Answer {
    unsafe {
        c::alderskein_decide(
            file.as_ptr(), file.len(), edges.as_mut_ptr(), edges.len(), scratch.as_mut_ptr(), scratch.len(),
            cells.as_mut_ptr(), cells.len(), rows.as_mut_ptr(), rows.len(), pool.as_mut_ptr(), pool.len(),
            grain, symbols.as_ptr(), symbols.len(), stamps.as_ptr(), stamps.len(),
        )
    }
}

/// The word after another in the list of all words up to a size: 38, 39.
#[inline]
pub fn next_word(size: Size, word: Listed) -> Next {
    unsafe { c::alderskein_next_word(size, word) }
}

/// Does the first table allow only what the second allows? Else a shortest word that only the first accepts, D
/// being 2, at the front of `symbols` and `stamps`: 25 (first, then second), 35, 36, 37.
#[rustfmt::skip]
#[inline]
pub fn check_inclusion(
    first: Built,
    cells: &[u32],
    rows: &[u32],
    pool: &[u32],
    second: Built,
    cells2: &[u32],
    rows2: &[u32],
    pool2: &[u32],
    scratch: &mut [u32],
    symbols: &mut [u16],
    stamps: &mut [u32],
) -> Inclusion {
    unsafe {
        c::alderskein_check_inclusion(
            first, cells.as_ptr(), cells.len(), rows.as_ptr(), rows.len(), pool.as_ptr(), pool.len(),
            second, cells2.as_ptr(), cells2.len(), rows2.as_ptr(), rows2.len(), pool2.as_ptr(), pool2.len(),
            scratch.as_mut_ptr(), scratch.len(), symbols.as_mut_ptr(), symbols.len(),
            stamps.as_mut_ptr(), stamps.len(),
        )
    }
}

/// How many words of the list, of at most so many events with stamps up to so many whole seconds, each table of a
/// batch accepts: 40, 38, then table by table 25 and 43.
#[rustfmt::skip]
#[inline]
pub fn count_shares(
    batch: Batch,
    cells: &[u32],
    rows: &[u32],
    pool: &[u32],
    events: u32,
    seconds: u32,
) -> Shares {
    unsafe {
        c::alderskein_count_shares(
            batch, cells.as_ptr(), cells.len(), rows.as_ptr(), rows.len(), pool.as_ptr(), pool.len(),
            events, seconds,
        )
    }
}
