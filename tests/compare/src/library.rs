//! The verified library.

use crate::engine::{Engine, Event, Rooms, Rule, Table, Tables};
use crate::{Batch, Word};
use alderskein::raw::{
    self, Answer, BranchAnswer, Building, Followed, Follower, Inclusion, Listed, Moved, Next, Reading,
    Shares, Size, Stamp, Started,
};

/// The most bytes of a file that the listing program reads.
const LISTING_BYTES: usize = 49_152;

/// The verified library.
pub struct Library;

impl Engine for Library {
    fn check_rule(rule: Rule) -> Answer {
        raw::check_rule(rule.head, rule.edges)
    }

    fn read_rule(file: &[u8], edges: &mut [u16]) -> Reading {
        raw::read_rule(file, edges)
    }

    fn write_rule(rule: Rule, out: &mut [u8]) -> Answer {
        raw::write_rule(rule.head, rule.edges, out)
    }

    fn check_word(symbol_count: u32, most: u32, w: &Word) -> Answer {
        raw::check_word(symbol_count, w.grain, most, &w.symbols, &w.stamps)
    }

    fn build_table(rule: Rule, lent: Tables) -> Building {
        raw::build_table(rule.head, rule.edges, lent.scratch, lent.cells, lent.rows, lent.pool)
    }

    fn check_table(t: Table) -> Answer {
        raw::check_table(t.built, t.cells, t.rows, t.pool)
    }

    fn run_table(t: Table, w: &Word) -> Answer {
        raw::run_table(t.built, t.cells, t.rows, t.pool, w.grain, &w.symbols, &w.stamps)
    }

    fn run_exact(rule: Rule, w: &Word, scratch: &mut [u32]) -> Answer {
        raw::run_exact(rule.head, rule.edges, w.grain, &w.symbols, &w.stamps, scratch)
    }

    fn run_branches(rule: Rule, w: &Word, taken: &mut [u16; 12]) -> BranchAnswer {
        raw::run_branches(rule.head, rule.edges, w.grain, &w.symbols, &w.stamps, taken)
    }

    fn start_follower(grain: u32) -> Started {
        raw::start_follower(grain)
    }

    fn follow_event(follower: Follower, t: Table, e: Event) -> Followed {
        raw::follow_event(follower, t.built, t.cells, t.rows, t.pool, e.symbol, Stamp(e.stamp))
    }

    fn follow_in_place(follower: &mut Follower, t: Table, e: Event) -> Moved {
        raw::follow_in_place(follower, t.built, t.cells, t.rows, t.pool, e.symbol, Stamp(e.stamp))
    }

    fn decide(file: &[u8], edges: &mut [u16], lent: Tables, w: &Word) -> Answer {
        let Tables { scratch, cells, rows, pool } = lent;
        raw::decide(file, edges, scratch, cells, rows, pool, w.grain, &w.symbols, &w.stamps)
    }

    fn check_inclusion(t: Table, u: Table, lent: Rooms) -> Inclusion {
        let Rooms { scratch, symbols, stamps } = lent;
        let (first, second) = (t.built, u.built);
        raw::check_inclusion(
            first, t.cells, t.rows, t.pool, second, u.cells, u.rows, u.pool, scratch, symbols, stamps,
        )
    }

    fn count_shares(batch: &Batch, events: u32, seconds: u32) -> Shares {
        raw::count_shares(batch.record(), &batch.cells, &batch.rows, &batch.pool, events, seconds)
    }

    fn next_word(size: Size, word: Listed) -> Next {
        raw::next_word(size, word)
    }

    fn list(file: &[u8]) -> Vec<u8> {
        let file = &file[..file.len().min(LISTING_BYTES)];
        let table = alderskein::Rule::read(file).and_then(|rule| rule.build(alderskein::Room::LISTING));
        let text = match table {
            Ok(table) => table.to_string(),
            Err(refusal) => format!("no {} {}\n", refusal.number, refusal.place),
        };
        text.into_bytes()
    }
}
