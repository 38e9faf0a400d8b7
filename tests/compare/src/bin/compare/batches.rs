//! How much of a list each table of a batch allows: batches of up to 16 tables that are built or filled by hand, whole
//! and damaged.

use crate::inclusion::{alike, put_sparse, small_rule};
use crate::inclusion_tables::Bare;
use crate::listed::{MOST_EVENTS, MOST_SECONDS};
use crate::plain::Plain;
use crate::random::Random;
use crate::scene::Scene;
use crate::scenes::some_rule;
use crate::tables::{change, plain_table, put};
use alderskein::raw::{Size, TABLES};
use alderskein::LISTED_WORDS;
use protocol::{word_count, Batch, Call, Length, What};

/// The slot of a damaged table; the others have the slots below.
const DAMAGED: usize = 7;
/// How many batches a scene has that are counted, and that are mostly refused.
const WHOLE: usize = 4;
const SPOILED: usize = 6;
/// The most words of the lists of a batch together, mostly and now and then.
const FEW_WORDS: [u64; 4] = [100, 1_000, 1_000, 5_000];
const MANY_WORDS: u64 = 60_000;
/// The longest list that is counted, and the shortest that is not: S, m and H.
const LONGEST: [u32; 3] = [2, 4, 16];
const TOO_LONG: [u32; 3] = [4, 6, 2];
/// The tables of a batch, one after another.
const PARTS: [What; 3] = [What::Cells, What::Rows, What::Pool];

/// Tables in the slots; batches of any of them, over lists of any size; then batches at fault.
pub fn batches(scene: &mut Scene) {
    let mut tables = vec![some_table(scene, 0)];
    let other = Bare::of(&tables[0]);
    let other = alike(scene.random, &other);
    tables.push(keep(scene, 1, &other));
    for slot in 2..DAMAGED {
        tables.push(some_table(scene, slot));
    }
    tables.push(damaged_table(scene, &tables));
    for _ in 0..WHOLE {
        let count = some_count(scene.random);
        let drawn = some_of(scene.random, &tables[..DAMAGED], count);
        add_all(scene, &drawn);
        share_whole(scene, &tables, &drawn);
        share_too_long(scene, &tables, &drawn);
        share_out_of_range(scene);
    }
    for _ in 0..SPOILED {
        spoiled(scene, &tables);
    }
    none_or_too_many(scene, &tables);
}

/// A table in a slot: filled by hand with codes that say its verdicts, with any codes, one that accepts by its last
/// symbol, or built.
fn some_table(scene: &mut Scene, slot: usize) -> Plain {
    let random = &mut *scene.random;
    let symbols = random.pick(&[1, 1, 1, 2, 2, 3, 4, 16]);
    match random.below(8) {
        0 | 1 => {
            let (rule, needs) = small_rule(random, some_rule);
            scene.read_surely(&rule);
            scene.build(needs.room);
            scene.add(Call::Keep { slot });
            needs.table
        }
        2 => {
            let plain = plain_table(random);
            put(scene, &plain);
            scene.add(Call::Keep { slot });
            plain
        }
        3 | 4 => {
            let bare = by_last_symbol(random, symbols);
            keep(scene, slot, &bare)
        }
        _ => {
            let bare = Bare::small(random, symbols);
            keep(scene, slot, &bare)
        }
    }
}

/// Keeps a table in a slot.
fn keep(scene: &mut Scene, slot: usize, bare: &Bare) -> Plain {
    let plain = bare.plain(scene.random);
    put(scene, &plain);
    scene.add(Call::Keep { slot });
    plain
}

/// Accepts the words whose last symbol is below some number, often all or none; the empty word or not.
fn by_last_symbol(random: &mut Random, symbols: u32) -> Bare {
    let any = random.between(0, symbols as usize);
    let below = random.pick(&[0, any, any, symbols as usize]);
    last_below(symbols, below as u32, random.chance(50))
}

/// Accepts the words whose last symbol is below this one; the empty word or not.
fn last_below(symbols: u32, below: u32, empty: bool) -> Bare {
    let next = |symbol| 1 + u32::from(symbol < below);
    let row_cells: Vec<u32> = (0..2 * symbols).map(|place| 2 * next(place / 2)).collect();
    Bare { symbols, top: 0, verdicts: vec![empty, false, true], cells: row_cells.repeat(3) }
}

/// One of the tables with numbers put in by hand, in the slot after them.
fn damaged_table(scene: &mut Scene, tables: &[Plain]) -> Plain {
    let slot = scene.random.below(tables.len());
    let mut damaged = tables[slot].clone();
    scene.add(Call::Use { slot });
    for _ in 0..scene.random.pick(&[1, 1, 2]) {
        change(scene, &mut damaged);
    }
    scene.add(Call::Keep { slot: DAMAGED });
    damaged
}

/// How many tables a batch has.
fn some_count(random: &mut Random) -> usize {
    let any = random.between(1, TABLES);
    random.pick(&[1, 2, 3, 4, any, TABLES])
}

/// The slots of so many tables, often several times the same; now and then the last one has the highest S alone.
fn some_of(random: &mut Random, tables: &[Plain], count: usize) -> Vec<usize> {
    let highest = (0..tables.len()).max_by_key(|&slot| tables[slot].symbols()).unwrap_or(0);
    let lower = |&slot: &usize| tables[slot].symbols() < tables[highest].symbols();
    let others: Vec<usize> = (0..tables.len()).filter(lower).collect();
    let alone = random.chance(30) && count > 0 && !others.is_empty();
    let from = if alone { others } else { (0..tables.len()).collect() };
    let mut slots: Vec<usize> = (0..count).map(|_| random.pick(&from)).collect();
    if alone {
        slots[count - 1] = highest;
    }
    slots
}

/// A batch of these slots.
fn add_all(scene: &mut Scene, slots: &[usize]) {
    scene.add(Call::BatchNew);
    for &slot in slots {
        scene.add(Call::Use { slot });
        scene.add(Call::BatchAdd);
    }
}

/// A batch of these slots; behind one of them, by its place, a table of the batch has one number more, or one fewer, so
/// that what follows is shifted.
fn add_shifted(scene: &mut Scene, tables: &[Plain], slots: &[usize], place: usize, what: What) {
    add_all(scene, &slots[..=place]);
    let length = lengths(tables, &slots[..=place])[part(what)];
    let length = scene.random.pick(&[Length::To(length + 1), Length::Less(length.min(1))]);
    let any = scene.fill();
    let fill = scene.random.pick(&[0, any]);
    scene.add(Call::BatchResize { what, length, fill });
    for &slot in &slots[place + 1..] {
        scene.add(Call::Use { slot });
        scene.add(Call::BatchAdd);
    }
}

/// Which of the three tables.
fn part(what: What) -> usize {
    PARTS.iter().position(|&part| part == what).unwrap_or(0)
}

/// How many cells, row numbers and codes a batch of these slots has, less the places that a slot has over.
fn lengths(tables: &[Plain], slots: &[usize]) -> [usize; 3] {
    let mut lengths = [0; 3];
    for table in slots.iter().map(|&slot| &tables[slot]) {
        let there = [table.cells.len(), table.rows.len(), table.pool.len()];
        let needs = Batch::needs(&table.lent().built);
        for (at, length) in lengths.iter_mut().enumerate() {
            *length += needs[at].min(there[at] as u128) as usize;
        }
    }
    lengths
}

/// How many words the lists of these slots have; none for one with S out of range.
fn word_counts<'a>(
    tables: &'a [Plain],
    slots: &'a [usize],
    [m, h]: [u32; 2],
) -> impl Iterator<Item = u64> + 'a {
    let size = move |&slot: &usize| Size { symbols: tables[slot].symbols(), events: m, seconds: h };
    slots.iter().map(move |slot| word_count(size(slot)).unwrap_or(0))
}

/// Shares over lists of some sizes.
fn share_whole(scene: &mut Scene, tables: &[Plain], slots: &[usize]) {
    for _ in 0..3 {
        let most = if scene.random.chance(5) { MANY_WORDS } else { scene.random.pick(&FEW_WORDS) };
        let [events, seconds] = some_size(scene.random, tables, slots, most);
        scene.add(Call::Share { events, seconds });
    }
}

/// m and H for which the lists of a batch together have at most so many words, often the highest H of that m.
fn some_size(random: &mut Random, tables: &[Plain], slots: &[usize], most: u64) -> [u32; 2] {
    let any = random.between(0, MOST_EVENTS as usize) as u32;
    let events = random.pick(&[any, any, MOST_EVENTS]);
    let few = |&size: &[u32; 2]| word_counts(tables, slots, size).sum::<u64>() <= most;
    let sizes = sizes_with((0..=events).rev(), few);
    let (any, last) = (random.pick(&sizes), sizes[sizes.len() - 1]);
    random.pick(&[any, any, last])
}

/// The sizes of this kind with the first m that has any.
fn sizes_with(mut events: impl Iterator<Item = u32>, is: impl Fn(&[u32; 2]) -> bool) -> Vec<[u32; 2]> {
    let of_length = |m| (0..=MOST_SECONDS).map(|h| [m, h]).filter(&is).collect();
    let some = |m| Some(of_length(m)).filter(|sizes: &Vec<_>| !sizes.is_empty());
    events.find_map(some).unwrap_or_default()
}

/// A list of more than 1,000,000 words for some table, often just over that.
fn share_too_long(scene: &mut Scene, tables: &[Plain], slots: &[usize]) {
    let random = &mut *scene.random;
    let (any, last) = (random.pick(slots), slots[slots.len() - 1]);
    let slot = [random.pick(&[any, last])];
    let long = |&size: &[u32; 2]| word_counts(tables, &slot, size).any(|count| count > LISTED_WORDS.into());
    let events = random.between(2, MOST_EVENTS as usize) as u32;
    let sizes = sizes_with(events..=MOST_EVENTS, long);
    if !sizes.is_empty() {
        let any = random.pick(&sizes);
        let [events, seconds] = random.pick(&[any, sizes[0], sizes[0]]);
        scene.add(Call::Share { events, seconds });
    }
}

/// m or H one past its limit or further on, or both.
fn share_out_of_range(scene: &mut Scene) {
    let random = &mut *scene.random;
    let past =
        |random: &mut Random, most: u32| random.pick(&[most + 1, most + 1, most + 2, 1 << 31, u32::MAX]);
    let [mut events, mut seconds] = [random.below(3) as u32, random.below(3) as u32];
    let which = random.below(5);
    if which != 0 && which != 1 {
        events = past(random, MOST_EVENTS);
    }
    if which != 2 && which != 3 {
        seconds = past(random, MOST_SECONDS);
    }
    scene.add(Call::Share { events, seconds });
}

/// A batch with a damaged table, with parts that do not stand where they should, or cut; or one that is only longer.
fn spoiled(scene: &mut Scene, tables: &[Plain]) {
    let random = &mut *scene.random;
    let count = some_count(random);
    let mut slots = some_of(random, &tables[..DAMAGED], count);
    let (what, place) = (random.pick(&PARTS), random.below(count));
    match random.below(9) {
        0..=3 => {
            slots[place] = DAMAGED;
            add_all(scene, &slots);
        }
        4 => add_shifted(scene, tables, &slots, place, what),
        5 | 6 => {
            let what = random.pick(&[what, What::Cells]);
            add_shifted(scene, tables, &slots, count.saturating_sub(2), what);
        }
        7 => {
            add_all(scene, &slots);
            let length = lengths(tables, &slots)[part(what)];
            let fewer = scene.random.pick(&[1, 1, 1, 2, length]);
            scene.add(Call::BatchResize { what, length: Length::Less(length.min(fewer)), fill: 0 });
        }
        _ => {
            add_all(scene, &slots);
            let length = lengths(tables, &slots)[part(what)] + scene.random.pick(&[0, 1, 9]);
            let fill = scene.fill();
            scene.add(Call::BatchResize { what, length: Length::To(length), fill });
        }
    }
    share_whole(scene, tables, &slots);
    share_too_long(scene, tables, &slots);
    share_out_of_range(scene);
}

/// Batches of no table and of more than 16, over lists of any size.
fn none_or_too_many(scene: &mut Scene, tables: &[Plain]) {
    let more = scene.random.pick(&[1, 1, 1, 2, 16]);
    for count in [0, TABLES + more] {
        let slots = some_of(scene.random, tables, count);
        add_all(scene, &slots);
        let [events, seconds] = [scene.random.below(3) as u32, scene.random.below(3) as u32];
        scene.add(Call::Share { events, seconds });
        share_out_of_range(scene);
    }
}

/// The longest list that is counted and the shortest that is not; shares near each other, of long lists; 4,096 rows, cm
/// 30, and 16 tables of both.
pub fn at_limits(scene: &mut Scene) {
    longest_lists(scene);
    near_shares(scene);
    largest_tables(scene);
}

fn longest_lists(scene: &mut Scene) {
    for [symbols, events, seconds] in [LONGEST, TOO_LONG] {
        let bare = Bare::small(scene.random, symbols);
        let plain = bare.plain(scene.random);
        put(scene, &plain);
        scene.add(Call::BatchNew);
        scene.add(Call::BatchAdd);
        scene.add(Call::Share { events, seconds });
    }
}

/// Tables over 15 and 16 symbols, of which nearly all words are accepted: of the products that tell their shares apart
/// one has more than 32 bits.
fn near_shares(scene: &mut Scene) {
    let empty = scene.random.chance(50);
    let mut tables = [last_below(16, 16, empty), last_below(15, 14, empty), last_below(16, 15, empty)];
    let (one, other) = (scene.random.below(3), scene.random.below(3));
    tables.swap(one, other);
    scene.add(Call::BatchNew);
    for bare in &tables {
        let plain = bare.plain(scene.random);
        put(scene, &plain);
        scene.add(Call::BatchAdd);
    }
    scene.add(Call::Share { events: 2, seconds: 11 });
}

fn largest_tables(scene: &mut Scene) {
    scene.add(Call::BatchNew);
    for (row_count, top) in [(4_096, 0), (2, 30)] {
        let symbols = scene.random.pick(&[1, 2]);
        put_sparse(scene, symbols, top, row_count, true);
        let times = scene.random.pick(&[1, TABLES / 2]);
        for _ in 0..times {
            scene.add(Call::BatchAdd);
        }
    }
    let [events, seconds] = scene.random.pick(&[[1, 30], [2, 10], [3, 3]]);
    scene.add(Call::Share { events, seconds });
    let what = scene.random.pick(&PARTS);
    scene.add(Call::BatchResize { what, length: Length::Less(1), fill: 0 });
    scene.add(Call::Share { events, seconds });
}
