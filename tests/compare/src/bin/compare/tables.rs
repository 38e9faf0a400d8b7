//! Tables filled by hand, tables changed by hand, and followers in any state.

use crate::plain::{verdict_at, weight, Plain};
use crate::random::Random;
use crate::rules::Rule;
use crate::scene::{needs, Scene};
use crate::scenes::some_rule;
use crate::words::spoil;
use alderskein::ROW_NUMBERS;
use protocol::{Call, What, Word};

/// K, cm and the most locations that then are accepted.
const LIMIT_SIZES: [(u32, u32, u32); 6] =
    [(1, 30, 32), (2, 30, 32), (3, 14, 16), (3, 30, 2), (4, 6, 16), (4, 14, 1)];

/// A table in shape that no rule has: any codes, any final set, any cells; each row's verdict by its codes.
pub fn plain_table(random: &mut Random) -> Plain {
    let mut plain = Plain { built: some_sizes(random), cells: vec![], rows: vec![], pool: vec![] };
    let [_, symbols, _, top, _, row_count, _] = plain.built;
    for row in 0..row_count as usize {
        let length = random.below(4);
        plain.rows.extend([plain.pool.len() as u32, length as u32, 0]);
        let codes: Vec<u32> = (0..length).map(|_| any_code(random, &plain)).collect();
        plain.pool.extend(codes);
        plain.rows[verdict_at(row)] = plain.said(row);
    }
    plain.built[6] = plain.pool.len() as u32;
    for place in 0..row_count * symbols * (2 * top + 2) {
        let reset = place % 2 == 0 && random.chance(30);
        plain.cells.push(2 * random.below(row_count as usize) as u32 + u32::from(reset));
    }
    plain
}

/// Small sizes, or some at their limits; any final set, no codes yet.
fn some_sizes(random: &mut Random) -> [u32; 7] {
    let (ends, row_count) = (random.next() as u32, random.between(1, 5) as u32);
    if random.chance(30) {
        let (clocks, top, most) = random.pick(&LIMIT_SIZES);
        return [most, 1, clocks, top, ends, row_count, 0];
    }
    let [locations, symbols, clocks] = [5, 3, 3].map(|most| random.between(1, most) as u32);
    [locations, symbols, clocks, random.between(0, 3) as u32, ends, row_count, 0]
}

/// A code below N, often the first or the last one of a location.
fn any_code(random: &mut Random, plain: &Plain) -> u32 {
    let weight = weight(&plain.built) as u32;
    let first = random.below(plain.built[0] as usize) as u32 * weight;
    let any = random.below(plain.code_count() as usize) as u32;
    random.pick(&[first, first + weight - 1, any, any])
}

/// Puts the table into the state, with some places more than it needs.
pub fn put(scene: &mut Scene, plain: &Plain) {
    for (index, &value) in plain.built.iter().enumerate() {
        scene.add(Call::Poke { what: What::Built, index, value });
    }
    let tables = [(What::Cells, &plain.cells), (What::Rows, &plain.rows), (What::Pool, &plain.pool)];
    for (what, numbers) in tables {
        let length = numbers.len() + scene.random.pick(&[0, 0, 1, 5]);
        let fill = scene.fill();
        scene.add(Call::Resize { what, length: 0, fill: 0 });
        scene.add(Call::Resize { what, length, fill });
        for (index, &value) in numbers.iter().enumerate() {
            scene.add(Call::Poke { what, index, value });
        }
    }
}

/// A table filled by hand, run as it is and with faults.
pub fn by_hand(scene: &mut Scene) {
    let plain = plain_table(scene.random);
    put(scene, &plain);
    scene.add(Call::Save);
    run_table(scene, plain.symbols());
    for _ in 0..6 {
        run_changed(scene, &plain);
    }
    scene.add(Call::Restore);
    wrap_around(scene, &plain);
    run_table(scene, plain.symbols());
}

/// Runs the saved table with changes. In nine cases of ten each row then stores what its codes say; else one row does
/// not, or each stores what it did before.
fn run_changed(scene: &mut Scene, plain: &Plain) {
    scene.add(Call::Restore);
    let mut changed = plain.clone();
    for _ in 0..scene.random.pick(&[1, 1, 2]) {
        change(scene, &mut changed);
    }
    let kind = scene.random.below(20);
    if kind > 0 {
        settle(scene, &changed);
    }
    if kind == 1 {
        put_wrong(scene, &changed);
    }
    run_table(scene, plain.symbols());
}

/// Stores in every row what its codes say.
fn settle(scene: &mut Scene, plain: &Plain) {
    for row in 0..plain.row_count() {
        let (index, value) = (verdict_at(row), plain.said(row));
        if plain.rows[index] != value {
            scene.add(Call::Poke { what: What::Rows, index, value });
        }
    }
}

/// Stores in some row what its codes do not say.
fn put_wrong(scene: &mut Scene, plain: &Plain) {
    if plain.row_count() > 0 {
        let row = scene.random.below(plain.row_count());
        let value = not_said(scene.random, plain.said(row));
        scene.add(Call::Poke { what: What::Rows, index: verdict_at(row), value });
    }
}

/// A number that is not this verdict: the other one, 2, a large one, or this one with a higher bit.
pub fn not_said(random: &mut Random, verdict: u32) -> u32 {
    let (any, bit) = (random.next() as u32 | 2, random.between(1, 31));
    random.pick(&[1 - verdict, 1 - verdict, 2, u32::MAX, any, verdict | 1 << bit])
}

/// Checks the state's table, runs a word over it and follows some events.
fn run_table(scene: &mut Scene, symbols: u32) {
    scene.add(Call::CheckTable);
    let mut word = any_word(scene.random, symbols);
    if scene.random.chance(20) {
        spoil(scene.random, &mut word, symbols as u16, 12);
    }
    scene.add(Call::Table { word: word.clone() });
    scene.follow(&word);
}

/// A word of any events, seldom with a symbol too large.
pub fn any_word(random: &mut Random, symbols: u32) -> Word {
    let grain = random.pick(&[1, 2, 3, 1_000]);
    let mut word = Word { grain, symbols: vec![], stamps: vec![] };
    let mut stamp = 0;
    for _ in 0..random.below(6) {
        stamp += random.below(4) as u32 * grain + random.pick(&[0, 0, 1]);
        let past = usize::from(random.chance(4));
        word.symbols.push(random.below(symbols as usize + past) as u16);
        word.stamps.push(stamp);
    }
    word
}

/// Puts one number in, or makes one table shorter.
pub fn change(scene: &mut Scene, plain: &mut Plain) {
    let random = &mut *scene.random;
    let [.., row_count, total] = plain.built;
    let call = match random.below(10) {
        0 | 1 => {
            let index = random.below(7);
            let limits = [32, 16, 4, 30, 0, row_count, total];
            Call::Poke { what: What::Built, index, value: random.number_about(limits[index]) }
        }
        2..=4 => poke_somewhere(random, What::Cells, plain.cells.len(), row_count.wrapping_mul(2)),
        5 | 6 => poke_row(random, plain, total),
        7 => poke_somewhere(random, What::Pool, plain.pool.len(), plain.code_count()),
        _ => shorten(random, plain),
    };
    plain.take(&call);
    scene.add(call);
}

/// Puts a start or a length in, now and then past the last row.
fn poke_row(random: &mut Random, plain: &Plain, total: u32) -> Call {
    let index = ROW_NUMBERS * random.below(plain.rows.len() / ROW_NUMBERS + 1) + random.below(2);
    Call::Poke { what: What::Rows, index, value: random.number_about(total) }
}

fn poke_somewhere(random: &mut Random, what: What, length: usize, limit: u32) -> Call {
    Call::Poke { what, index: random.below(length + 1), value: random.number_about(limit) }
}

fn shorten(random: &mut Random, plain: &Plain) -> Call {
    let (what, length) = random.pick(&[
        (What::Cells, plain.cells.len()),
        (What::Rows, plain.rows.len()),
        (What::Pool, plain.pool.len()),
    ]);
    Call::Resize { what, length: length.saturating_sub(random.below(3)), fill: 0 }
}

/// Lengths whose sum comes to P only if it wraps around at 32 bits.
fn wrap_around(scene: &mut Scene, plain: &Plain) {
    let total = plain.built[6];
    let first = u32::MAX - scene.random.below(3) as u32;
    let second = total.wrapping_sub(first);
    scene.add(Call::Poke { what: What::Built, index: 5, value: 2 });
    scene.add(Call::Resize { what: What::Rows, length: 0, fill: 0 });
    scene.add(Call::Resize { what: What::Rows, length: 12, fill: 0 });
    for (index, value) in [0, first, 0, first, second, 0].into_iter().enumerate() {
        scene.add(Call::Poke { what: What::Rows, index, value });
    }
    let cells = 2 * plain.symbols() * (2 * plain.built[3] + 2);
    scene.add(Call::Resize { what: What::Cells, length: 0, fill: 0 });
    scene.add(Call::Resize { what: What::Cells, length: cells as usize, fill: 2 });
}

/// Tables of empty rows, which say no, with their sizes at the limits, and at most one past them; now and then the last
/// row stores another number.
pub fn at_limit(scene: &mut Scene) {
    for _ in 0..6 {
        let built = limit_sizes(scene.random);
        for (index, &value) in built.iter().enumerate() {
            scene.add(Call::Poke { what: What::Built, index, value });
        }
        let [_, symbols, _, top, _, row_count, _] = built.map(|number| number as usize);
        let lengths =
            [(What::Cells, row_count * symbols * (2 * top + 2)), (What::Rows, ROW_NUMBERS * row_count)];
        for (what, length) in lengths.into_iter().chain([(What::Pool, 0)]) {
            scene.add(Call::Resize { what, length: 0, fill: 0 });
            scene.add(Call::Resize { what, length, fill: 0 });
        }
        if row_count > 0 && scene.random.chance(20) {
            let value = not_said(scene.random, 0);
            scene.add(Call::Poke { what: What::Rows, index: verdict_at(row_count - 1), value });
        }
        run_table(scene, built[1].max(1));
    }
}

/// Sizes at their limits; one of them may be past its own.
fn limit_sizes(random: &mut Random) -> [u32; 7] {
    let (clocks, top, most) = random.pick(&LIMIT_SIZES);
    let ends = random.pick(&[0, u32::MAX]);
    let mut built =
        [random.pick(&[1, most]), random.pick(&[1, 16]), clocks, top, ends, random.pick(&[1, 3]), 0];
    if random.chance(20) {
        built = [random.pick(&[1, 32]), 1, random.pick(&[1, 4]), 0, ends, 4_096, 0];
    }
    if random.chance(60) {
        let index = random.pick(&[0, 1, 2, 3, 5]);
        built[index] = random.pick(&[0, built[index] + 1]);
    }
    built
}

/// A built table with numbers put in by hand.
pub fn changed(scene: &mut Scene) {
    let (_, plain) = built_rule(scene);
    scene.add(Call::Save);
    for _ in 0..6 {
        run_changed(scene, &plain);
    }
}

/// Reads and builds a rule in room that just fits.
pub fn built_rule(scene: &mut Scene) -> (Rule, Plain) {
    loop {
        let rule = some_rule(scene.random);
        if let Some(needs) = needs(&rule) {
            scene.read_surely(&rule);
            scene.build(needs.room);
            return (rule, needs.table);
        }
    }
}

/// Followers put into any state, each with an event.
pub fn followers(scene: &mut Scene) {
    let (rule, plain) = built_rule(scene);
    let word = scene.word(&rule, 10);
    scene.follow(&word);
    scene.add(Call::Save);
    for _ in 0..20 {
        scene.add(Call::Restore);
        for _ in 0..scene.random.pick(&[1, 1, 2]) {
            change_follower(scene, plain.built[5], &word);
        }
        let stamp = last_stamp(&word).wrapping_add(scene.random.below(8) as u32).wrapping_sub(1);
        let symbol = scene.random.below(usize::from(rule.symbols) + 1) as u16;
        let in_place = scene.random.chance(50);
        scene.add(if in_place {
            Call::FollowInPlace { symbol, stamp }
        } else {
            Call::Follow { symbol, stamp }
        });
        scene.add(Call::Follow { symbol: 0, stamp: u32::MAX });
    }
    start_anyhow(scene);
}

fn last_stamp(word: &Word) -> u32 {
    word.stamps.last().copied().unwrap_or(0)
}

fn change_follower(scene: &mut Scene, row_count: u32, word: &Word) {
    let random = &mut *scene.random;
    let index = random.below(5);
    let whole = random.below(4) as u32 * word.grain;
    let value = match index {
        0 => random.number_about(1_000),
        1 => random.number_about(row_count),
        2 => {
            let about = random.number_about(last_stamp(word));
            random.pick(&[whole, whole, whole + 1, about])
        }
        3 => random.number_about(last_stamp(word)),
        _ => random.number_about(4_096),
    };
    scene.add(Call::Poke { what: What::Follower, index, value });
}

/// Followers started with D in and out of range.
fn start_anyhow(scene: &mut Scene) {
    for _ in 0..4 {
        let grain = scene.random.number_about(1_000);
        scene.add(Call::Start { grain });
    }
}
