//! Random words.

use crate::edges::Edge;
use crate::random::Random;
use crate::rules::Rule;
use protocol::Word;
use std::collections::BTreeMap;

/// A location and ages.
type Configuration = (u16, [u32; 4]);
/// Configurations with how many runs end in each.
type Runs = BTreeMap<Configuration, u64>;

/// The most configurations that are kept while a word is made.
const MOST_KEPT: usize = 40;

fn start(rule: &Rule) -> Runs {
    rule.initial.iter().map(|&location| ((location, [0; 4]), 1)).collect()
}

/// The runs after an event.
fn after(rule: &Rule, runs: &Runs, grain: u32, symbol: u16, delay: u32) -> Runs {
    let mut next = Runs::new();
    for (&(location, ages), &count) in runs {
        let ages = ages.map(|age| age.saturating_add(delay));
        let leaves = |edge: &&Edge| edge.source == location && edge.symbol == symbol;
        for edge in rule.edges.iter().filter(leaves).filter(|edge| edge.allows(&ages, grain)) {
            let mut ages = ages;
            for (clock, age) in ages.iter_mut().enumerate() {
                *age = if edge.mask >> clock & 1 == 1 { 0 } else { *age };
            }
            let ended = next.entry((edge.target, ages)).or_default();
            *ended = u64::saturating_add(*ended, count);
        }
    }
    next
}

/// How many steps a search of all the word's runs takes.
pub fn branch_steps(rule: &Rule, word: &Word) -> u64 {
    let mut runs = start(rule);
    let (mut steps, mut last) = (0_u64, 0);
    for (&symbol, &stamp) in word.symbols.iter().zip(&word.stamps) {
        runs = after(rule, &runs, word.grain.min(1_000), symbol, stamp.saturating_sub(last));
        last = stamp;
        steps = runs.values().fold(steps, |steps, &count| steps.saturating_add(count));
        if runs.len() > 1_000 {
            return u64::MAX;
        }
    }
    steps
}

/// D in its range.
pub fn any_grain(random: &mut Random) -> u32 {
    let any = random.between(1, 1_000) as u32;
    random.pick(&[1, 2, 2, 2, 3, 4, 10, 1_000, any])
}

/// A word that keeps the word rules and mostly leaves some run alive.
pub fn live_word(random: &mut Random, rule: &Rule, most: usize) -> Word {
    let word = Word { grain: any_grain(random), symbols: vec![], stamps: vec![] };
    prolonged(random, rule, word, most)
}

/// The word with at most so many events more, which mostly leave some run alive.
pub fn prolonged(random: &mut Random, rule: &Rule, mut word: Word, most: usize) -> Word {
    let (mut alive, mut last) = (start(rule), 0);
    for (&symbol, &stamp) in word.symbols.iter().zip(&word.stamps) {
        alive = after(rule, &alive, word.grain, symbol, stamp - last);
        last = stamp;
    }
    for _ in 0..random.between(0, most) {
        add_event(random, rule, &mut word, &mut alive);
    }
    word
}

/// Leaves no more than are kept.
fn cut(runs: &mut Runs) {
    while runs.len() > MOST_KEPT {
        runs.pop_last();
    }
}

/// Adds an event, the best of some tries.
fn add_event(random: &mut Random, rule: &Rule, word: &mut Word, alive: &mut Runs) {
    let last = word.stamps.last().copied().unwrap_or(0);
    for tries_left in (0..8).rev() {
        let symbol = random.below(rule.symbols.into()) as u16;
        let delay = any_delay(random, rule, word.grain, last).min(u32::MAX - last);
        let mut next = after(rule, alive, word.grain, symbol, delay);
        if !next.is_empty() || tries_left == 0 || random.chance(3) {
            cut(&mut next);
            *alive = next;
            word.symbols.push(symbol);
            word.stamps.push(last + delay);
            return;
        }
    }
}

/// A word that keeps the word rules, whose events mostly come when some atom is at its constant or next to it.
pub fn pointed_word(random: &mut Random, rule: &Rule, most: usize) -> Word {
    let mut word = Word { grain: any_grain(random), symbols: vec![], stamps: vec![] };
    let mut alive = start(rule);
    for _ in 0..random.between(0, most) {
        let last = word.stamps.last().copied().unwrap_or(0);
        let Some((symbol, delay)) = pointed_event(random, rule, &alive, word.grain) else {
            add_event(random, rule, &mut word, &mut alive);
            continue;
        };
        let delay = delay.min(u32::MAX - last);
        alive = after(rule, &alive, word.grain, symbol, delay);
        cut(&mut alive);
        word.symbols.push(symbol);
        word.stamps.push(last + delay);
    }
    word
}

/// The symbol of an edge that leaves some configuration, and the delay to the constant of some atom of it: just so
/// long, a D-th less or more, or as long as it takes to be above cm. The best of some tries.
fn pointed_event(random: &mut Random, rule: &Rule, alive: &Runs, grain: u32) -> Option<(u16, u32)> {
    let mut best = None;
    for _ in 0..4 {
        let &(location, ages) = alive.keys().nth(random.below(alive.len().max(1)))?;
        let leaving: Vec<&Edge> = rule.edges.iter().filter(|edge| edge.source == location).collect();
        let edge = leaving.get(random.below(leaving.len().max(1)))?;
        let [clock, _, constant] = random.pick(&[edge.atoms(), vec![[0; 3]]].concat());
        let constant = random.pick(&[constant, constant, constant, constant, rule.top()]);
        let bound = u32::from(constant) * grain + 1;
        let aim = bound - random.pick(&[0, 1, 1, 2, 2]).min(bound);
        let Some(delay) = aim.checked_sub(ages[usize::from(clock)]) else { continue };
        best = Some((edge.symbol, delay));
        if !after(rule, alive, grain, edge.symbol, delay).is_empty() {
            break;
        }
    }
    best
}

/// Whole seconds, up to the next second, into a second, or far on.
pub fn any_delay(random: &mut Random, rule: &Rule, grain: u32, last: u32) -> u32 {
    let whole = random.pick(&[0, 0, 1, 1, 1, 2, 3, u32::from(rule.top()) + 1]) * grain;
    match random.below(40) {
        0 => u32::MAX - last - random.below(3_000) as u32 % (u32::MAX - last).max(1),
        1..=20 => whole,
        21..=30 => (grain - last % grain) % grain + whole,
        _ => whole + random.below(grain as usize) as u32,
    }
}

/// Puts faults into a word so that it breaks the word rules, or nearly.
pub fn spoil(random: &mut Random, word: &mut Word, symbol_count: u16, most: usize) {
    for _ in 0..random.pick(&[1, 1, 1, 2, 3]) {
        spoil_once(random, word, symbol_count, most);
    }
}

fn spoil_once(random: &mut Random, word: &mut Word, symbol_count: u16, most: usize) {
    let length = word.symbols.len().min(word.stamps.len());
    match random.below(7) {
        0 => word.grain = random.pick(&[0, 1_000, 1_001, u32::MAX, 65_536]),
        1 => drop(word.stamps.pop()),
        2 => word.symbols.push(0),
        3 => lengthen(random, word, most),
        4 | 5 if length > 0 => {
            let place = random.below(length);
            word.symbols[place] = random.pick(&[symbol_count, symbol_count + 1, 255, 65_535]);
        }
        _ if length > 1 => {
            let place = random.between(1, length - 1);
            word.stamps[place - 1] = word.stamps[place].saturating_add(random.below(2) as u32);
            word.stamps[place] = word.stamps[place].saturating_sub(1);
        }
        _ => {}
    }
}

/// Brings the word to its most events, or one more.
fn lengthen(random: &mut Random, word: &mut Word, most: usize) {
    let length = most + random.below(2);
    let stamp = word.stamps.last().copied().unwrap_or(0);
    word.symbols.resize(length, 0);
    word.stamps.resize(length, stamp);
}
