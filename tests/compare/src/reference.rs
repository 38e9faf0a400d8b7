//! The reference, its results put into the library's records.

use crate::engine::{Engine, Event, Rooms, Rule, Table, Tables};
use crate::{Batch, Word};
use alderskein::raw::{
    Answer, BranchAnswer, Building, Built, Followed, Follower, Head, Inclusion, Listed, Moved, Next, Reading,
    Shares, Size, Stamp, Started, LINE_IN_ALL, LINE_NUMBERS, SHARE_NUMBERS,
};
use reference::Refusal;

/// The separately written reference.
pub struct Reference;

impl Engine for Reference {
    fn check_rule(rule: Rule) -> Answer {
        answer(reference::check_rule(&plain_head(rule), rule.edges).map(|()| 0))
    }

    fn read_rule(file: &[u8], edges: &mut [u16]) -> Reading {
        let outcome = reference::read_rule(file, edges);
        let (number, place) = refusal(outcome);
        Reading { number, place, head: outcome.map_or(Head::default(), head_of) }
    }

    fn write_rule(rule: Rule, out: &mut [u8]) -> Answer {
        answer(reference::write_rule(&plain_head(rule), rule.edges, out))
    }

    fn check_word(symbol_count: u32, most: u32, w: &Word) -> Answer {
        answer(reference::check_word(symbol_count, w.grain, most, &w.symbols, &w.stamps).map(|()| 0))
    }

    fn build_table(rule: Rule, lent: Tables) -> Building {
        let Tables { scratch, cells, rows, pool } = lent;
        let outcome = reference::build_table(&plain_head(rule), rule.edges, scratch, cells, rows, pool);
        let (number, place) = refusal(outcome);
        Building { number, place, built: outcome.map_or(Built::default(), built_of) }
    }

    fn check_table(t: Table) -> Answer {
        answer(reference::check_table(&plain_built(t), t.cells, t.rows, t.pool).map(|()| 0))
    }

    fn run_table(t: Table, w: &Word) -> Answer {
        let built = plain_built(t);
        verdict(reference::run_table(&built, t.cells, t.rows, t.pool, w.grain, &w.symbols, &w.stamps))
    }

    fn run_exact(rule: Rule, w: &Word, scratch: &mut [u32]) -> Answer {
        let head = plain_head(rule);
        verdict(reference::run_exact(&head, rule.edges, w.grain, &w.symbols, &w.stamps, scratch))
    }

    fn run_branches(rule: Rule, w: &Word, taken: &mut [u16; 12]) -> BranchAnswer {
        let outcome = reference::run_branches(&plain_head(rule), rule.edges, w.grain, &w.symbols, &w.stamps);
        let (number, place) = refusal(outcome);
        let branch = outcome.unwrap_or_default();
        *taken = branch.edges.map(|edge| edge as u16);
        let (held, position) = (branch.held.is_some(), branch.held.unwrap_or(0));
        BranchAnswer { number, place, found: branch.found, start: branch.start as u16, held, position }
    }

    fn start_follower(grain: u32) -> Started {
        let outcome = reference::start_follower(grain);
        let (number, place) = refusal(outcome);
        Started { number, place, follower: follower_of(outcome.unwrap_or_default()) }
    }

    fn follow_event(follower: Follower, t: Table, e: Event) -> Followed {
        let was = plain_follower(follower);
        let built = plain_built(t);
        let outcome = reference::follow_event(was, &built, t.cells, t.rows, t.pool, e.symbol, e.stamp);
        let (number, place) = refusal(outcome);
        let (yes, after) = outcome.unwrap_or((false, was));
        Followed { number, place, yes, follower: follower_of(after) }
    }

    fn follow_in_place(follower: &mut Follower, t: Table, e: Event) -> Moved {
        let mut kept = plain_follower(*follower);
        let (built, kept_at) = (plain_built(t), &mut kept);
        let outcome =
            reference::follow_event_in_place(kept_at, &built, t.cells, t.rows, t.pool, e.symbol, e.stamp);
        *follower = follower_of(kept);
        let (number, place) = refusal(outcome);
        Moved { number, place, yes: outcome.unwrap_or(false) }
    }

    fn decide(file: &[u8], edges: &mut [u16], lent: Tables, w: &Word) -> Answer {
        let Tables { scratch, cells, rows, pool } = lent;
        verdict(reference::decide(file, edges, scratch, cells, rows, pool, w.grain, &w.symbols, &w.stamps))
    }

    fn check_inclusion(t: Table, u: Table, lent: Rooms) -> Inclusion {
        let Rooms { scratch, symbols, stamps } = lent;
        let (first, second) = (&plain_built(t), &plain_built(u));
        let outcome = reference::check_inclusion(
            first, t.cells, t.rows, t.pool, second, u.cells, u.rows, u.pool, scratch, symbols, stamps,
        );
        let (number, place) = refusal(outcome);
        let (included, events) = outcome.map_or((false, 0), |answer| (answer.included, answer.events));
        Inclusion { number, place, included, events }
    }

    fn count_shares(batch: &Batch, events: u32, seconds: u32) -> Shares {
        let built: Vec<_> = batch.built.iter().map(|&built| plain_record(built)).collect();
        match reference::share_words(&built, &batch.cells, &batch.rows, &batch.pool, events, seconds) {
            Ok(shares) => shares_of(&shares),
            Err(Refusal { number, place }) => Shares { number, place, ..Shares::default() },
        }
    }

    fn next_word(size: Size, word: Listed) -> Next {
        let outcome = reference::next_word(plain_size(size), &plain_listed(word));
        let (number, place) = refusal(outcome);
        let (last, next) = (outcome == Ok(None), outcome.ok().flatten());
        Next { number, place, last, word: next.map_or(word, listed_of) }
    }

    /// By nested loops.
    fn all_words(size: Size, visit: &mut dyn FnMut(&Listed)) -> Answer {
        let mut total = 0;
        let outcome = reference::all_words(plain_size(size), |word| {
            total += 1;
            visit(&listed_of(*word));
        });
        answer(outcome.map(|()| total))
    }

    fn list(file: &[u8]) -> Vec<u8> {
        reference::list_table(file)
    }
}

/// The refusal's number and place, zeros for none.
fn refusal<T>(outcome: Result<T, Refusal>) -> (u8, usize) {
    outcome.err().map_or((0, 0), |refusal| (refusal.number, refusal.place))
}

fn answer(outcome: Result<usize, Refusal>) -> Answer {
    let (number, place) = refusal(outcome);
    Answer { number, place, value: outcome.unwrap_or(0) }
}

fn verdict(outcome: Result<bool, Refusal>) -> Answer {
    answer(outcome.map(usize::from))
}

fn plain_head(rule: Rule) -> reference::Head {
    let Head { locations, symbols, clocks, starts, ends, count } = rule.head;
    reference::Head::from_numbers([locations, symbols, clocks, starts, ends, count])
}

fn head_of(head: reference::Head) -> Head {
    let [locations, symbols, clocks, starts, ends, count] = head.to_numbers();
    Head { locations, symbols, clocks, starts, ends, count }
}

fn plain_built(table: Table) -> reference::Built {
    plain_record(table.built)
}

fn plain_record(built: Built) -> reference::Built {
    let Built { locations, symbols, clocks, top, ends, rows, total } = built;
    reference::Built::from_numbers([locations, symbols, clocks, top, ends, rows, total])
}

fn built_of(built: reference::Built) -> Built {
    let [locations, symbols, clocks, top, ends, rows, total] = built.to_numbers();
    Built { locations, symbols, clocks, top, ends, rows, total }
}

fn plain_follower(follower: Follower) -> reference::Follower {
    let Follower { grain, row, reset, last, count } = follower;
    reference::Follower::from_numbers([grain, row, reset.0, last.0, count])
}

fn follower_of(follower: reference::Follower) -> Follower {
    let [grain, row, reset, last, count] = follower.to_numbers();
    Follower { grain, row, reset: Stamp(reset), last: Stamp(last), count }
}

fn plain_size(size: Size) -> reference::Size {
    let Size { symbols, events, seconds } = size;
    reference::Size { symbols, events, seconds }
}

fn plain_listed(word: Listed) -> reference::Listed {
    let Listed { count, symbols, stamps } = word;
    reference::Listed { count, symbols, stamps }
}

fn listed_of(word: reference::Listed) -> Listed {
    let reference::Listed { count, symbols, stamps } = word;
    Listed { count, symbols, stamps }
}

/// The lines as numbers, zeros past each list's length and past the batch.
fn shares_of(shares: &reference::Shares) -> Shares {
    let mut all = Shares { greatest: shares.best as u32, ..Shares::default() };
    for (numbers, line) in all.lines.chunks_exact_mut(LINE_NUMBERS).zip(&shares.lines) {
        let lengths = numbers[..LINE_IN_ALL].chunks_exact_mut(SHARE_NUMBERS).zip(&line.lengths);
        lengths.for_each(|(place, &share)| place.copy_from_slice(&share_numbers(share)));
        numbers[LINE_IN_ALL..].copy_from_slice(&share_numbers(line.all));
    }
    all
}

fn share_numbers(share: reference::Share) -> [u32; SHARE_NUMBERS] {
    let (numerator, denominator) = share.lowest_terms();
    [share.accepted, share.words, numerator, denominator].map(|number| number as u32)
}
