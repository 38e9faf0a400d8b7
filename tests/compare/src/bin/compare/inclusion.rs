//! Does one table allow only what another allows? Tables in the slots, each asked with each.

use crate::inclusion_tables::{varied, Bare, Lead};
use crate::plain::Plain;
use crate::random::Random;
use crate::rules::Rule;
use crate::scene::{needs, Needs, Scene};
use crate::scenes::some_rule;
use crate::tables::{change, put};
use alderskein::raw::Built;
use alderskein::ROW_NUMBERS;
use protocol::{Call, Engine, Reference, Rooms, Table, What, WordRoom};

/// The most events of a word that is shown.
pub const MOST_EVENTS: usize = 4_096;
/// The most states, R · W, of a table that was built: the reference takes all pauses from each.
const MOST_STATES: usize = 100;
/// The most numbers of a scratch that is lent.
const MOST_SCRATCH: usize = 1_002_000;
/// The slots of a table with another S and of a damaged one.
const OTHER: usize = 8;
const DAMAGED: usize = 9;
/// How many times tables are drawn in a scene.
const IN_A_SCENE: usize = 4;

/// R and cm of two tables with 1,000,000 joint states.
const AT_BOUND: [[(usize, u32); 2]; 6] = [
    [(500, 0), (500, 0)],
    [(250, 0), (1_000, 0)],
    [(125, 3), (20, 24)],
    [(1, 3), (3_125, 19)],
    [(25, 7), (625, 1)],
    [(625, 0), (25, 15)],
];
/// The same with 1,000,004, the next above it that there is, with some more, and with 2^32.
const ABOVE_BOUND: [[(usize, u32); 2]; 4] =
    [[(89, 0), (2_809, 0)], [(500, 0), (501, 0)], [(2_048, 15), (2_048, 15)], [(4_096, 0), (4_096, 30)]];

/// Tables of one S, each asked with each; then with one of another S and with a damaged one.
pub fn one_in_another(scene: &mut Scene) {
    for _ in 0..IN_A_SCENE {
        let tables = match scene.random.below(8) {
            0 | 1 => rules(scene),
            2 | 3 => rings(scene),
            _ => by_hand(scene),
        };
        for first in 0..tables.len() {
            for second in (0..tables.len()).filter(|&second| second != first) {
                ask(scene, &tables, first, second);
            }
        }
        let some = scene.random.below(tables.len());
        ask(scene, &tables, some, some);
        refused(scene, &tables);
    }
}

/// Two tables, one of them changed, and one that answers alike or accepts more.
fn by_hand(scene: &mut Scene) -> Vec<Plain> {
    let random = &mut *scene.random;
    let symbols = random.pick(&[1, 1, 2, 2, 2, 3, 3, 16]);
    let [table, other] = [Bare::small(random, symbols), Bare::small(random, symbols)];
    let changed = table.changed(random);
    let alike = alike(random, &table);
    keep(scene, &[table, other, changed, alike])
}

/// Rings of rows: words of many events.
fn rings(scene: &mut Scene) -> Vec<Plain> {
    let random = &mut *scene.random;
    let (symbols, top) = random.pick(&[(1, 0), (1, 0), (1, 1), (2, 0), (2, 0), (2, 1), (16, 0)]);
    let (lead, own) = (Lead::some(random, symbols, top), Lead::some(random, symbols, top));
    let ring = Bare::some_ring(random, symbols, top, lead, true);
    let lead = random.pick(&[lead, lead, own]);
    let other = Bare::some_ring(random, symbols, top, lead, false);
    let changed = ring.changed(random);
    keep(scene, &[ring, other, changed])
}

/// A table that answers as this one does, or accepts more.
pub fn alike(random: &mut Random, table: &Bare) -> Bare {
    match random.below(4) {
        0 => table.renumbered(random),
        1 => table.stretched(random.between(1, 2) as u32),
        2 => table.renumbered(random).looser(random),
        _ => table.looser(random),
    }
}

/// Keeps these in the slots from 0 on.
fn keep(scene: &mut Scene, tables: &[Bare]) -> Vec<Plain> {
    let plain: Vec<Plain> = tables.iter().map(|table| table.plain(scene.random)).collect();
    for (slot, plain) in plain.iter().enumerate() {
        put(scene, plain);
        scene.add(Call::Keep { slot });
    }
    plain
}

/// Two rules over the same symbols, and each changed a little, read and built; and one of the tables changed by hand.
fn rules(scene: &mut Scene) -> Vec<Plain> {
    let random = &mut *scene.random;
    let one = small_rule(random, some_rule);
    let other = small_rule(random, |random| some_rule_over(random, one.0.symbols));
    let changed = small_rule(random, |random| varied(random, &one.0));
    let other_changed = small_rule(random, |random| varied(random, &other.0));
    let mut tables = Vec::new();
    for (slot, (rule, needs)) in [one, other, changed, other_changed].into_iter().enumerate() {
        scene.read_surely(&rule);
        scene.build(needs.room);
        scene.add(Call::Keep { slot });
        tables.push(needs.table);
    }
    let by_hand = Bare::of(&tables[0]).changed(scene.random).plain(scene.random);
    put(scene, &by_hand);
    scene.add(Call::Keep { slot: tables.len() });
    tables.push(by_hand);
    tables
}

/// A rule with so many symbols.
fn some_rule_over(random: &mut Random, symbols: u16) -> Rule {
    loop {
        let rule = some_rule(random);
        if rule.symbols == symbols {
            return rule;
        }
    }
}

/// The first rule drawn that has a small table.
pub fn small_rule(random: &mut Random, draw: impl Fn(&mut Random) -> Rule) -> (Rule, Needs) {
    loop {
        let rule = draw(random);
        if let Some(needs) = needs(&rule).filter(|needs| states(&needs.table.lent().built) <= MOST_STATES) {
            return (rule, needs);
        }
    }
}

/// Asks whether one of the tables allows only what another allows.
fn ask(scene: &mut Scene, tables: &[Plain], first: usize, second: usize) {
    let events = shortest(tables[first].lent(), tables[second].lent());
    let scratch = some_scratch(scene.random, joint_states(&tables[first], &tables[second]));
    let (symbols, stamps) = some_room(scene.random, events);
    include(scene, first, second, WordRoom { scratch, symbols, stamps });
}

fn include(scene: &mut Scene, first: usize, second: usize, room: WordRoom) {
    let fill = scene.short_fill();
    scene.add(Call::Include { first, second, room, fill });
}

/// How many events the word has that the reference shows in room enough; 0 on yes.
pub fn shortest(first: Table, second: Table) -> usize {
    let mut scratch = vec![0; states(&first.built) * states(&second.built)];
    let (symbols, stamps) = (&mut [0; MOST_EVENTS], &mut [0; MOST_EVENTS]);
    Reference::check_inclusion(first, second, Rooms { scratch: &mut scratch, symbols, stamps }).events
}

/// R · W.
pub fn states(built: &Built) -> usize {
    built.rows as usize * (2 * built.top as usize + 2)
}

fn joint_states(first: &Plain, second: &Plain) -> usize {
    states(&first.lent().built) * states(&second.lent().built)
}

/// A scratch for so many joint states; now and then longer, one number too short, or none.
fn some_scratch(random: &mut Random, states: usize) -> usize {
    match random.below(20) {
        0 => 0,
        1 => states - 1,
        2 | 3 => states + 1,
        4 => states + random.between(2, 40),
        _ => states,
    }
}

/// Room for so many events by symbols and by stamps: just enough, more, or too little.
fn some_room(random: &mut Random, events: usize) -> (usize, usize) {
    let (more, less) = (events + random.between(1, 9), events.saturating_sub(1));
    match random.below(16) {
        0..=3 => (events, events),
        4 | 5 => (events, more),
        6 | 7 => (more, events),
        8..=11 => (more, more),
        12 => (less, more),
        13 => (more, less),
        14 => random.pick(&[(0, more), (more, 0)]),
        _ => (0, 0),
    }
}

/// 35 by a table with another S, 25 by a damaged one; and the two with each other.
fn refused(scene: &mut Scene, tables: &[Plain]) {
    let symbols = tables[0].symbols();
    let others: Vec<u32> = [1, 2, 3, 16].into_iter().filter(|&other| other != symbols).collect();
    let other = scene.random.pick(&others);
    let other = Bare::small(scene.random, other).plain(scene.random);
    put(scene, &other);
    scene.add(Call::Keep { slot: OTHER });
    let slot = scene.random.below(tables.len());
    let mut damaged = tables[slot].clone();
    scene.add(Call::Use { slot });
    for _ in 0..scene.random.pick(&[1, 1, 2]) {
        change(scene, &mut damaged);
    }
    scene.add(Call::Keep { slot: DAMAGED });
    let some = scene.random.below(tables.len());
    let pairs =
        [(OTHER, some), (some, OTHER), (DAMAGED, some), (some, DAMAGED), (DAMAGED, OTHER), (OTHER, DAMAGED)];
    let states = joint_states(&tables[some], &tables[slot]);
    for (first, second) in pairs {
        let scratch = scene.random.pick(&[0, states, states]);
        let (symbols, stamps) = some_room(scene.random, 1);
        include(scene, first, second, WordRoom { scratch, symbols, stamps });
    }
    if scene.random.chance(30) {
        include(scene, DAMAGED, DAMAGED, WordRoom { scratch: 0, symbols: 2, stamps: 2 });
    }
}

/// As many joint states as are allowed and more, words of as many events as are shown and one more, cm 30.
pub fn at_limits(scene: &mut Scene) {
    most_states(scene);
    most_events(scene);
    highest_top(scene);
}

/// Two large tables of which one accepts by one event, asked in a scratch that just fits and one number short of it.
fn most_states(scene: &mut Scene) {
    let turn = scene.turn as usize;
    for pair in [AT_BOUND[turn % AT_BOUND.len()], ABOVE_BOUND[turn % ABOVE_BOUND.len()]] {
        let symbols = scene.random.pick(&[1, 2]);
        for (slot, (row_count, top)) in pair.into_iter().enumerate() {
            put_sparse(scene, symbols, top, row_count, slot == 0);
            scene.add(Call::Keep { slot });
        }
        let [states, other] = pair.map(|(row_count, top)| row_count * (2 * top as usize + 2));
        let scratch = (states * other).min(MOST_SCRATCH);
        let (first, second) = scene.random.pick(&[(0, 1), (1, 0)]);
        include(scene, first, second, WordRoom { scratch, symbols: 1, stamps: 1 });
        include(scene, second, first, WordRoom { scratch: scratch - 1, symbols: 1, stamps: 1 });
    }
}

/// A table of empty rows, which say no and lead to row 0, save that from row 0 some cell leads to the last one. That
/// row may say yes.
pub fn put_sparse(scene: &mut Scene, symbols: u32, top: u32, row_count: usize, accepts: bool) {
    let last = row_count - 1;
    let built = [1, symbols, 1, top, 1, row_count as u32, accepts.into()];
    for (index, value) in built.into_iter().enumerate() {
        scene.add(Call::Poke { what: What::Built, index, value });
    }
    let row_cells = symbols as usize * (2 * top as usize + 2);
    let lengths = [
        (What::Cells, row_count * row_cells),
        (What::Rows, ROW_NUMBERS * row_count),
        (What::Pool, accepts.into()),
    ];
    for (what, length) in lengths {
        scene.add(Call::Resize { what, length: 0, fill: 0 });
        scene.add(Call::Resize { what, length, fill: 0 });
    }
    let index = scene.random.below(row_cells);
    scene.add(Call::Poke { what: What::Cells, index, value: 2 * last as u32 });
    for place in [1, 2] {
        let index = ROW_NUMBERS * last + place;
        scene.add(Call::Poke { what: What::Rows, index, value: accepts.into() });
    }
}

/// Two rings of 64 and 65 rows: the first accepts in one row alone, the second in all but one. From rows 0 and 1 on
/// they come there together after 4,096 events, from rows 1 and 2 on after 4,097.
fn most_events(scene: &mut Scene) {
    for by in [0, 1] {
        let first = Bare::ring(1, 0, (0..64).map(|row| row == by).collect());
        let second = Bare::ring(1, 0, (0..65).map(|row| row != by + 1).collect());
        let tables = keep(scene, &[first, second]);
        let scratch = joint_states(&tables[0], &tables[1]);
        let less = scene.random.pick(&[(4_095, 4_096), (4_096, 4_095)]);
        for (symbols, stamps) in [(4_096, 4_096), (5_000, 4_097), less] {
            include(scene, 0, 1, WordRoom { scratch, symbols, stamps });
        }
    }
}

/// Tables with cm 30.
fn highest_top(scene: &mut Scene) {
    let random = &mut *scene.random;
    let (symbols, row_count) = (random.pick(&[1, 2]), random.between(1, 2));
    let table = Bare::any(random, symbols, 30, row_count);
    let other = Bare::small(random, symbols);
    let changed = table.changed(random);
    let tables = keep(scene, &[table, other, changed]);
    for (first, second) in [(0, 1), (1, 0), (0, 2), (2, 0)] {
        ask(scene, &tables, first, second);
    }
}
