//! The kinds of scenes.

use crate::batches;
use crate::bits;
use crate::ceiling;
use crate::damage::{damaged_file, rubbish};
use crate::edges::{Edge, ATOM_NUMBERS, EDGE_NUMBERS, EDGE_TABLE, GROUPED, MOST_ATOMS, MOST_CONSTANT};
use crate::edges::{RELATIONS, TEXT, TEXT_NUMBERS};
use crate::grouped;
use crate::held::held_back;
use crate::inclusion;
use crate::limits;
use crate::listed;
use crate::pins;
use crate::random::Random;
use crate::rules::{any_rule, Rule, MIDDLE, SMALL, WIDE};
use crate::scene::{needs, room_for, Needs, Scene, LISTING};
use crate::sizes::{self, EVERY_SIZE};
use crate::tables;
use crate::verdicts;
use crate::words::spoil;
use alderskein::BUILD_SCRATCH;
use protocol::{Call, Room, What, Word};

type Kind = fn(&mut Scene);

/// The common kinds with their weights.
const COMMON: [(&str, usize, Kind); 21] = [
    ("whole rules", 30, whole_rule),
    ("damaged files", 25, damaged),
    ("changed rules", 15, changed_rule),
    ("rules at limits", 20, limits::at_limit),
    ("tables filled by hand", 12, tables::by_hand),
    ("changed tables", 12, tables::changed),
    ("tables at limits", 6, tables::at_limit),
    ("verdicts wrong and right", 10, verdicts::wrong_and_right),
    ("bad words", 15, bad_words),
    ("followers", 10, tables::followers),
    ("loose words", 8, loose_words),
    ("words held back", 15, held_back),
    ("groups", 24, grouped::whole_rule),
    ("damaged groups", 20, grouped::damaged),
    ("changed groups", 15, grouped::changed),
    ("files with a ceiling", 10, ceiling::dropped),
    ("pins from both sides", 10, pins::both_sides),
    ("scratch in bits", 14, bits::near_32),
    ("lists of words", 12, listed::lists_of_words),
    ("one in another", 28, inclusion::one_in_another),
    ("batches", 14, batches::batches),
];

/// The costly kinds: one scene in so many, the first one early. Where two meet it is the upper one's turn, so that
/// every size gets its own.
const SELDOM: [(&str, u64, Kind); 7] = [
    (EVERY_SIZE, 29, sizes::every_size),
    ("wide rules", 23, wide_rule),
    ("long words", 151, long_words),
    ("largest rules", 67, limits::largest),
    ("one in another, at limits", 101, inclusion::at_limits),
    ("batches, at limits", 499, batches::at_limits),
    ("many rows", 997, limits::many_rows),
];

/// The scene with this number: its kind and its commands.
pub fn scene(seed: u64, number: u64) -> (&'static str, Vec<Call>) {
    let mut random = Random::new(seed, number);
    let seldom = SELDOM.iter().find(|(_, every, _)| number % every == every / 2);
    let (turn, (name, make)) = match seldom {
        Some(&(name, every, make)) => (number / every, (name, make)),
        None => (0, common(&mut random)),
    };
    let mut scene = Scene { random: &mut random, calls: Vec::new(), turn };
    make(&mut scene);
    (name, scene.calls)
}

fn common(random: &mut Random) -> (&'static str, Kind) {
    let total: usize = COMMON.iter().map(|(_, weight, _)| weight).sum();
    let mut left = random.below(total);
    for (name, weight, make) in COMMON {
        if left < weight {
            return (name, make);
        }
        left -= weight;
    }
    unreachable!("the weights add up")
}

/// A small or middle rule.
pub fn some_rule(random: &mut Random) -> Rule {
    let bounds = if random.chance(75) { &SMALL } else { &MIDDLE };
    any_rule(random, bounds)
}

/// Reads, checks, writes and builds a rule and runs words over it.
fn whole_rule(scene: &mut Scene) {
    let rule = some_rule(scene.random);
    scene.read_surely(&rule);
    scene.add(Call::CheckRule);
    scene.write(&rule.file());
    let needs = needs(&rule);
    let exact = needs.as_ref().map_or(LISTING, |needs| needs.room);
    build_tightly(scene, needs.as_ref(), exact);
    let room = scene.more(exact);
    scene.build(room);
    scene.add(Call::CheckTable);
    for _ in 0..5 {
        let word = scene.word(&rule, 12);
        scene.run_everywhere(&rule, &word);
    }
    decide_somehow(scene, &rule, exact);
}

/// Builds in room that just fits, and that is too short by some row numbers, by one table or by two.
fn build_tightly(scene: &mut Scene, needs: Option<&Needs>, exact: Room) {
    if let Some(needs) = needs {
        scene.build(exact);
        let rows = exact.rows - scene.random.pick(&[1, 1, 2, 3]);
        scene.build(Room { rows, ..exact });
        let row = scene.random.below(needs.row_count());
        let room = needs.short_of_both(scene.random, row);
        scene.build(room);
    }
    let room = scene.less(exact);
    scene.build(room);
}

/// All three calls in a row, in room that is enough or not.
fn decide_somehow(scene: &mut Scene, rule: &Rule, exact: Room) {
    for _ in 0..2 {
        let word = scene.any_word(rule, 8);
        let room = if scene.random.chance(30) { scene.less(exact) } else { exact };
        scene.decide(rule.file(), room, word);
    }
}

/// A rule with many locations, symbols and clocks, in the listing program's room.
fn wide_rule(scene: &mut Scene) {
    let rule = any_rule(scene.random, &WIDE);
    scene.read(rule.file());
    scene.add(Call::CheckRule);
    scene.write(&rule.file());
    scene.build(Room { scratch: rule.scratch(), cells: 30_000, rows: 450, pool: 20_000 });
    for _ in 0..3 {
        let word = scene.word(&rule, 8);
        scene.run_everywhere(&rule, &word);
    }
    scene.add(Call::List { file: rule.file() });
}

/// Files with faults.
fn damaged(scene: &mut Scene) {
    for _ in 0..8 {
        let rule = some_rule(scene.random);
        let file =
            if scene.random.chance(85) { damaged_file(scene.random, &rule) } else { rubbish(scene.random) };
        scene.read(file.clone());
        scene.add(Call::CheckRule);
        scene.write(&file);
        if scene.random.chance(25) {
            let word = scene.any_word(&rule, 4);
            scene.decide(file.clone(), LISTING, word);
            scene.add(Call::List { file });
        }
    }
}

/// A head record and an edge table with numbers put in by hand.
fn changed_rule(scene: &mut Scene) {
    let rule = some_rule(scene.random);
    scene.read_surely(&rule);
    scene.add(Call::Save);
    for _ in 0..6 {
        scene.add(Call::Restore);
        if scene.random.chance(15) {
            change_codes(scene, &rule);
        }
        for _ in 0..scene.random.pick(&[0, 1, 1, 1, 2, 3]) {
            change_rule(scene, &rule);
        }
        scene.add(Call::CheckRule);
        scene.write(&rule.file());
        scene.build(Room { scratch: BUILD_SCRATCH, cells: 2_000, rows: 150, pool: 500 });
        let word = scene.any_word(&rule, 3);
        scene.exact(&rule, word.clone());
        // A search that is short over the rule can be long over the changed one.
        if !(5..=12).contains(&word.symbols.len()) {
            scene.branch(&rule, &word);
        }
    }
}

/// More clocks and a higher constant in some atom, so that N comes near 65,536 or over it.
fn change_codes(scene: &mut Scene, rule: &Rule) {
    let (clocks, constant) = (scene.random.pick(&[2, 3, 4]), scene.random.pick(&[6, 14, 15, 30]));
    scene.add(Call::Poke { what: What::Head, index: 2, value: clocks });
    let places = constant_places(rule);
    if !places.is_empty() {
        let index = scene.random.pick(&places);
        scene.add(Call::Poke { what: What::Edges, index, value: constant });
    }
}

/// The places of all constants in the edge table.
fn constant_places(rule: &Rule) -> Vec<usize> {
    let constant = ATOM_NUMBERS - 1;
    let in_edge = |(number, edge): (usize, &Edge)| {
        edge.atom_places().into_iter().map(move |place| EDGE_NUMBERS * number + place + constant)
    };
    rule.edges.iter().enumerate().flat_map(in_edge).collect()
}

/// The place of some number of some edge, mostly one that is in use.
fn any_place(random: &mut Random, rule: &Rule) -> usize {
    let number = random.below(rule.edges.len());
    let used = TEXT + rule.edges[number].text().len();
    let most = random.pick(&[used, used, EDGE_NUMBERS]);
    EDGE_NUMBERS * number + random.below(most)
}

/// Puts a number into the head record or the edge table, or cuts or lengthens the table.
fn change_rule(scene: &mut Scene, rule: &Rule) {
    let random = &mut *scene.random;
    let used = EDGE_NUMBERS * rule.edges.len();
    let limits = [32, 16, 4, 1 << rule.locations, 1 << rule.locations, rule.edges.len() as u32];
    let call = match random.below(10) {
        0 => {
            let length =
                random.pick(&[EDGE_TABLE - 1, EDGE_TABLE + 1, EDGE_TABLE + EDGE_NUMBERS, 0, EDGE_NUMBERS]);
            Call::Resize { what: What::Edges, length, fill: random.below(2) as u32 }
        }
        1..=4 => {
            let index = random.below(limits.len());
            Call::Poke { what: What::Head, index, value: random.number_about(limits[index]) }
        }
        5..=8 if used > 0 => {
            let sizes = [rule.locations, rule.symbols, rule.clocks, 1 << rule.clocks, GROUPED];
            let counts = [MOST_ATOMS as u16 + 1, TEXT_NUMBERS as u16, RELATIONS as u16, MOST_CONSTANT + 1];
            let limit = random.pick(&[sizes.as_slice(), &counts].concat());
            let index = any_place(random, rule);
            Call::Poke { what: What::Edges, index, value: random.short_about(limit).into() }
        }
        _ => {
            let index = random.between(used.min(EDGE_TABLE - 1), EDGE_TABLE - 1);
            Call::Poke { what: What::Edges, index, value: random.below(3) as u32 }
        }
    };
    scene.add(call);
}

/// Words that break the word rules, or nearly.
fn bad_words(scene: &mut Scene) {
    let rule = some_rule(scene.random);
    let exact = room_for(&rule);
    scene.read_surely(&rule);
    scene.build(exact);
    for _ in 0..8 {
        let mut word = scene.word(&rule, 9);
        let most = if scene.random.chance(90) { 12 } else { 4_096 };
        spoil(scene.random, &mut word, rule.symbols, most);
        scene.run_everywhere(&rule, &word);
        scene.add(Call::CheckWord {
            symbol_count: rule.symbols.into(),
            most: most as u32,
            word: word.clone(),
        });
        if scene.random.chance(30) {
            scene.decide(rule.file(), exact, word);
        }
    }
}

/// Words alone, over any count of symbols.
fn loose_words(scene: &mut Scene) {
    for _ in 0..20 {
        let random = &mut *scene.random;
        let symbol_count = random.number_about(16);
        let most = random.pick(&[0, 1, 3, 12, 4_096, u32::MAX]);
        let length = random.below(6);
        let grain = if random.chance(80) { 1_000 } else { random.number_about(1_000) };
        let symbols = (0..length).map(|_| random.short_about(16) % 20).collect();
        let mut stamps: Vec<u32> = (0..length).map(|_| random.number_about(100)).collect();
        if random.chance(70) {
            stamps.sort_unstable();
        }
        if random.chance(5) {
            stamps.pop();
        }
        scene.add(Call::CheckWord { symbol_count, most, word: Word { grain, symbols, stamps } });
    }
}

/// Words of as many events as are allowed, and one more.
fn long_words(scene: &mut Scene) {
    let rule = any_rule(scene.random, &SMALL);
    let exact = room_for(&rule);
    scene.read_surely(&rule);
    scene.build(exact);
    let mut word = scene.word(&rule, 500);
    let last = word.stamps.last().copied().unwrap_or(0);
    word.symbols.resize(4_096, 0);
    word.stamps.resize(4_096, last);
    for _ in 0..2 {
        scene.exact(&rule, word.clone());
        scene.add(Call::Table { word: word.clone() });
        scene.decide(rule.file(), exact, word.clone());
        word.symbols.push(0);
        word.stamps.push(last);
    }
    let most = scene.random.pick(&[200, 200, 200, 200, 200, 200, 200, 4_097]);
    scene.add(Call::Start { grain: word.grain });
    scene.walk(&word, most);
}
