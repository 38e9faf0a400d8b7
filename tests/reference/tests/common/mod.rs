//! Rules and words for the tests, spelled apart from the library: a rule as plain values, its file, its
//! runs by the definition, and its table by sets of pairs. Tables filled by hand.

#![allow(dead_code)]

use std::collections::BTreeSet;

/// Numbers of an edge and of an edge table.
pub const EDGE: usize = 86;
pub const EDGE_TABLE: usize = 22_016;

/// Splitmix64.
pub struct Random(pub u64);

impl Random {
    pub fn next(&mut self) -> u64 {
        self.0 = self.0.wrapping_add(0x9e37_79b9_7f4a_7c15);
        let mut mixed = self.0;
        mixed = (mixed ^ (mixed >> 30)).wrapping_mul(0xbf58_476d_1ce4_e5b9);
        mixed = (mixed ^ (mixed >> 27)).wrapping_mul(0x94d0_49bb_1331_11eb);
        mixed ^ (mixed >> 31)
    }

    /// A number below the limit.
    pub fn below(&mut self, limit: u64) -> u64 {
        self.next() % limit
    }

    pub fn between(&mut self, low: u64, high: u64) -> u64 {
        low + self.below(high - low + 1)
    }

    pub fn chance(&mut self, percent: u64) -> bool {
        self.below(100) < percent
    }

    pub fn pick<T: Copy>(&mut self, choices: &[T]) -> T {
        choices[self.below(choices.len() as u64) as usize]
    }
}

/// Clock, relation, constant.
pub type PlainAtom = (u16, u16, u16);

/// A mark of a guard's text, an atom's with its numbers.
#[derive(Clone, Copy, Debug, PartialEq, Eq)]
pub enum Mark {
    AllOf,
    AnyOf,
    Atom(PlainAtom),
    Close,
}

#[derive(Clone, Debug)]
pub struct PlainEdge {
    pub source: u16,
    pub target: u16,
    pub symbol: u16,
    pub resets: Vec<u16>,
    /// 5 with atoms alone, or 6.
    pub kind: u16,
    /// The guard, one mark after another.
    pub marks: Vec<Mark>,
}

#[derive(Clone, Debug)]
pub struct PlainRule {
    pub locations: u16,
    pub symbols: u16,
    pub clocks: u16,
    pub initial: Vec<u16>,
    pub finals: Vec<u16>,
    /// In the file, and nothing to the rule.
    pub ceiling: Option<u16>,
    pub edges: Vec<PlainEdge>,
}

/// A record of a rule file.
pub fn record(kind: u16, numbers: &[u16]) -> Vec<u8> {
    let mut bytes = Vec::new();
    bytes.extend((2 * numbers.len() as u16).to_le_bytes());
    bytes.extend(kind.to_le_bytes());
    bytes.extend(numbers.iter().flat_map(|number| number.to_le_bytes()));
    bytes
}

pub fn hex(text: &str) -> Vec<u8> {
    let digits: String = text.split_whitespace().collect();
    (0..digits.len()).step_by(2).map(|at| u8::from_str_radix(&digits[at..at + 2], 16).unwrap()).collect()
}

/// The file of the whole case, 58 bytes.
pub fn whole_case() -> Vec<u8> {
    hex("06 00 01 00 02 00 02 00 01 00 02 00 02 00 00 00 02 00 03 00 00 00
         0E 00 05 00 00 00 01 00 00 00 01 00 00 00 02 00 01 00
         0E 00 05 00 01 00 00 00 01 00 00 00 00 00 03 00 01 00")
}

impl PlainRule {
    pub fn file(&self) -> Vec<u8> {
        self.file_with(self.ceiling)
    }

    /// The file as it is written after reading: without a ceiling.
    pub fn written_file(&self) -> Vec<u8> {
        self.file_with(None)
    }

    /// The file with this ceiling in place of the rule's own.
    pub fn file_with(&self, ceiling: Option<u16>) -> Vec<u8> {
        let mut file = record(1, &[self.locations, self.symbols, self.clocks]);
        file.extend(self.initial.iter().flat_map(|&location| record(2, &[location])));
        file.extend(self.finals.iter().flat_map(|&location| record(3, &[location])));
        file.extend(ceiling.iter().flat_map(|&ceiling| record(4, &[ceiling])));
        file.extend(self.edges.iter().flat_map(PlainEdge::record));
        file
    }

    /// cm.
    pub fn largest(&self) -> u64 {
        let atoms = self.edges.iter().flat_map(PlainEdge::atoms);
        atoms.map(|atom| atom.2).max().unwrap_or(0).into()
    }

    /// N.
    pub fn code_count(&self) -> u64 {
        u64::from(self.locations) * (self.largest() + 2).pow(self.clocks.into())
    }
}

impl PlainEdge {
    /// An edge with atoms alone.
    pub fn plain(source: u16, target: u16, symbol: u16, resets: &[u16], atoms: &[PlainAtom]) -> Self {
        PlainEdge { source, target, symbol, resets: resets.to_vec(), kind: 5, marks: plain_marks(atoms) }
    }

    pub fn record(&self) -> Vec<u8> {
        let mask = self.resets.iter().map(|clock| 1 << clock).sum();
        let mut numbers = vec![self.source, self.target, self.symbol, mask];
        if self.kind == 5 {
            assert!(self.marks.iter().all(|mark| matches!(mark, Mark::Atom(_))));
            numbers.extend(self.atoms().flat_map(|atom| [atom.0, atom.1, atom.2]));
        } else {
            numbers.extend(text(&self.marks));
        }
        record(self.kind, &numbers)
    }

    pub fn has_groups(&self) -> bool {
        self.marks.contains(&Mark::AnyOf)
    }

    /// The atoms of all groups.
    pub fn atoms(&self) -> impl Iterator<Item = PlainAtom> + '_ {
        self.marks.iter().filter_map(|mark| match mark {
            Mark::Atom(atom) => Some(*atom),
            _ => None,
        })
    }

    /// The places of the marks, and the one past them, that stand in no group.
    pub fn outermost(&self) -> Vec<usize> {
        let mut depth = 0;
        let mut places = Vec::new();
        for (place, mark) in self.marks.iter().enumerate() {
            places.extend((depth == 0).then_some(place));
            match mark {
                Mark::AllOf | Mark::AnyOf => depth += 1,
                Mark::Atom(_) => {}
                Mark::Close => depth -= 1,
            }
        }
        places.push(self.marks.len());
        places
    }

    /// The atoms in no group.
    pub fn own_atoms(&self) -> Vec<PlainAtom> {
        let own = self.outermost();
        let own = own.into_iter().filter_map(|place| match self.marks.get(place) {
            Some(Mark::Atom(atom)) => Some(*atom),
            _ => None,
        });
        own.collect()
    }

    /// The position of the first member of the outermost level that fails for these values, a constant being
    /// worth `unit` times itself. Goes along the marks with the open groups' answers so far.
    fn first_failing(&self, values: &[u64], unit: u64) -> Option<usize> {
        let (mut open, mut position) = (Vec::new(), 0);
        for &mark in &self.marks {
            let holds = match mark {
                Mark::AllOf | Mark::AnyOf => {
                    open.push((mark, mark == Mark::AllOf));
                    continue;
                }
                Mark::Atom(atom) => atom_holds(atom, values, unit),
                Mark::Close => open.pop().unwrap().1,
            };
            match open.last_mut() {
                Some((Mark::AllOf, so_far)) => *so_far &= holds,
                Some((_, so_far)) => *so_far |= holds,
                None if holds => position += 1,
                None => return Some(position),
            }
        }
        None
    }

    /// Whether the guard holds.
    fn holds(&self, values: &[u64], unit: u64) -> bool {
        self.first_failing(values, unit).is_none()
    }

    /// Whether the edge resets and has no equality, so that it must be pinned from both sides.
    pub fn resets_between_sides(&self) -> bool {
        !self.resets.is_empty() && self.own_atoms().iter().all(|atom| atom.1 != 2)
    }
}

pub fn plain_marks(atoms: &[PlainAtom]) -> Vec<Mark> {
    atoms.iter().map(|&atom| Mark::Atom(atom)).collect()
}

/// The numbers of a text.
pub fn text(marks: &[Mark]) -> Vec<u16> {
    let numbers = marks.iter().flat_map(|mark| match *mark {
        Mark::AllOf => vec![1],
        Mark::AnyOf => vec![2],
        Mark::Atom((clock, relation, constant)) => vec![3, clock, relation, constant],
        Mark::Close => vec![4],
    });
    numbers.collect()
}

/// Whether some clock and constant have an equality, or both an at-most and an at-least.
pub fn pinned(atoms: &[PlainAtom]) -> bool {
    let at = |clock, constant| {
        let [most, equal, least] = [1, 2, 3].map(|relation| atoms.contains(&(clock, relation, constant)));
        equal || (most && least)
    };
    (0..4).any(|clock| (0..=30).any(|constant| at(clock, constant)))
}

fn atom_holds((clock, relation, constant): PlainAtom, values: &[u64], unit: u64) -> bool {
    let (value, bound) = (values[usize::from(clock)], u64::from(constant) * unit);
    match relation {
        0 => value < bound,
        1 => value <= bound,
        2 => value == bound,
        3 => value >= bound,
        4 => value > bound,
        5 => value != bound,
        _ => unreachable!(),
    }
}

/// What holds the rule back in a word with at least one event and no accepting run.
pub fn held_back(rule: &PlainRule, word: &PlainWord) -> Option<usize> {
    let ages = vec![u64::from(word.stamps[0]); rule.clocks.into()];
    for edge in &rule.edges {
        if edge.symbol != word.symbols[0] || !rule.initial.contains(&edge.source) {
            continue;
        }
        return edge.first_failing(&ages, word.grain.into());
    }
    None
}

/// A word: D and its events.
#[derive(Clone, Debug)]
pub struct PlainWord {
    pub grain: u32,
    pub symbols: Vec<u16>,
    pub stamps: Vec<u32>,
}

impl PlainWord {
    pub fn new(grain: u32, events: &[(u16, u32)]) -> Self {
        PlainWord {
            grain,
            symbols: events.iter().map(|event| event.0).collect(),
            stamps: events.iter().map(|event| event.1).collect(),
        }
    }
}

/// What enumeration of all runs of a word finds.
#[derive(Default)]
pub struct Runs {
    /// Start and edges of every accepting run.
    pub accepting: Vec<(u16, Vec<u32>)>,
    /// The distinct configurations after each event, from 0.
    pub configurations: Vec<BTreeSet<(u16, Vec<u64>)>>,
}

/// Enumerates all runs of a word, straight from the definition.
pub fn enumerate(rule: &PlainRule, word: &PlainWord) -> Runs {
    let mut runs = Runs::default();
    runs.configurations.resize(word.symbols.len() + 1, BTreeSet::new());
    for &start in &rule.initial {
        let ages = vec![0; rule.clocks.into()];
        extend(rule, word, start, &mut Vec::new(), start, ages, &mut runs);
    }
    runs
}

fn extend(
    rule: &PlainRule,
    word: &PlainWord,
    start: u16,
    taken: &mut Vec<u32>,
    location: u16,
    ages: Vec<u64>,
    runs: &mut Runs,
) {
    let event = taken.len();
    runs.configurations[event].insert((location, ages.clone()));
    if event == word.symbols.len() {
        if rule.finals.contains(&location) {
            runs.accepting.push((start, taken.clone()));
        }
        return;
    }
    let before = if event == 0 { 0 } else { word.stamps[event - 1] };
    let delay = u64::from(word.stamps[event] - before);
    for (number, target, ages) in moves(rule, word.grain, word.symbols[event], delay, location, &ages) {
        taken.push(number);
        extend(rule, word, start, taken, target, ages, runs);
        taken.pop();
    }
}

/// Every edge an event can take from a configuration, with its target and the ages after it.
fn moves(
    rule: &PlainRule,
    grain: u32,
    symbol: u16,
    delay: u64,
    location: u16,
    ages: &[u64],
) -> Vec<(u32, u16, Vec<u64>)> {
    let aged: Vec<u64> = ages.iter().map(|age| age + delay).collect();
    let mut moves = Vec::new();
    for (number, edge) in rule.edges.iter().enumerate() {
        if edge.source == location && edge.symbol == symbol && edge.holds(&aged, grain.into()) {
            let mut ages = aged.clone();
            for &clock in &edge.resets {
                ages[usize::from(clock)] = 0;
            }
            moves.push((number as u32, edge.target, ages));
        }
    }
    moves
}

/// A pair: location, and bases with the highest clock first, so that pairs order as their codes do.
type Pair = (u16, Vec<u64>);

/// The table by sets of pairs: per row its pairs, per row and symbol and interval the next row and reset.
pub struct PlainTable {
    pub rows: Vec<BTreeSet<Pair>>,
    pub cells: Vec<(usize, bool)>,
}

impl PlainTable {
    /// The cell table.
    pub fn cell_numbers(&self) -> Vec<u32> {
        self.cells.iter().map(|&(row, reset)| 2 * row as u32 + u32::from(reset)).collect()
    }

    /// The row table: start, length and verdict of each row.
    pub fn row_numbers(&self, rule: &PlainRule) -> Vec<u32> {
        let (mut numbers, mut start) = (Vec::new(), 0);
        for pairs in &self.rows {
            let accepts = pairs.iter().any(|(location, _)| rule.finals.contains(location));
            numbers.extend([start, pairs.len() as u32, u32::from(accepts)]);
            start += pairs.len() as u32;
        }
        numbers
    }

    /// The codes of each row.
    pub fn row_codes(&self, rule: &PlainRule) -> Vec<Vec<u32>> {
        self.rows.iter().map(|row| row.iter().map(|pair| code(rule, pair)).collect()).collect()
    }
}

/// The construction over sets; nothing if it takes more rows than the most.
pub fn construct(rule: &PlainRule, most_rows: usize) -> Option<PlainTable> {
    let start = rule.initial.iter().map(|&location| (location, vec![0; rule.clocks.into()])).collect();
    let mut table = PlainTable { rows: vec![start], cells: Vec::new() };
    let mut row = 0;
    while row < table.rows.len() {
        for symbol in 0..rule.symbols {
            for interval in 0..2 * rule.largest() + 2 {
                let (next, reset) = successor(rule, &table.rows[row], symbol, interval);
                let number = table.rows.iter().position(|known| *known == next).unwrap_or(table.rows.len());
                if number == table.rows.len() {
                    table.rows.push(next);
                }
                table.cells.push((number, reset));
            }
        }
        row += 1;
        if table.rows.len() > most_rows {
            return None;
        }
    }
    Some(table)
}

/// The set a row leads to. Time is doubled, so an interval number is a point of its interval.
fn successor(rule: &PlainRule, row: &BTreeSet<Pair>, symbol: u16, interval: u64) -> (BTreeSet<Pair>, bool) {
    let above = rule.largest() + 1;
    let mut taken = Vec::new();
    for (location, bases) in row {
        let values: Vec<u64> = bases.iter().rev().map(|base| 2 * base + interval).collect();
        for edge in &rule.edges {
            if edge.source == *location && edge.symbol == symbol && edge.holds(&values, 2) {
                taken.push((edge, bases));
            }
        }
    }
    let reset = taken.iter().any(|(edge, _)| !edge.resets.is_empty());
    assert!(!reset || interval % 2 == 0, "a reset only at [c]");
    let target = |(edge, bases): (&PlainEdge, &Vec<u64>)| {
        let mut bases = bases.clone();
        if reset {
            bases.iter_mut().for_each(|base| *base = (*base + interval / 2).min(above));
            for &clock in &edge.resets {
                let place = bases.len() - 1 - usize::from(clock);
                bases[place] = 0;
            }
        }
        (edge.target, bases)
    };
    (taken.into_iter().map(target).collect(), reset)
}

/// The code of a pair.
pub fn code(rule: &PlainRule, pair: &Pair) -> u32 {
    let radix = rule.largest() + 2;
    pair.1.iter().fold(u64::from(pair.0), |code, base| code * radix + base) as u32
}

/// How large a random rule is.
pub struct Bounds {
    pub locations: u64,
    pub symbols: u64,
    pub clocks: u64,
    pub edges: u64,
    pub constant: u64,
}

pub fn random_rule(random: &mut Random, bounds: &Bounds) -> PlainRule {
    let locations = random.between(1, bounds.locations) as u16;
    let symbols = random.between(1, bounds.symbols) as u16;
    let clocks = random.between(1, bounds.clocks) as u16;
    let edge_count = if random.chance(3) { 0 } else { random.between(bounds.edges / 2, bounds.edges) };
    let constant = random.below(bounds.constant + 1);
    let plain = if random.chance(50) { edge_count } else { random.below(edge_count + 1) };
    let kind = |edge| if edge < plain { 5 } else { 6 };
    let sizes = [locations, symbols, clocks];
    PlainRule {
        locations,
        symbols,
        clocks,
        initial: (0..locations).filter(|_| random.chance(60)).collect(),
        finals: (0..locations).filter(|_| random.chance(40)).collect(),
        ceiling: random.chance(20).then(|| random.below(31) as u16),
        edges: (0..edge_count).map(|edge| random_edge(random, kind(edge), sizes, constant)).collect(),
    }
}

fn random_edge(random: &mut Random, kind: u16, sizes: [u16; 3], constant: u64) -> PlainEdge {
    let [locations, symbols, clocks] = sizes;
    let resets: Vec<u16> = if random.chance(50) { Vec::new() } else { random_clocks(random, clocks) };
    let marks = match kind {
        5 => {
            (0..random.pick(&[0u64, 0, 1, 1, 2, 3])).map(|_| random_atom(random, clocks, constant)).collect()
        }
        _ => random_marks(random, clocks, constant),
    };
    let mut edge = PlainEdge {
        source: random.below(locations.into()) as u16,
        target: random.below(locations.into()) as u16,
        symbol: random.below(symbols.into()) as u16,
        resets,
        kind,
        marks,
    };
    if !edge.resets.is_empty() && !pinned(&edge.own_atoms()) {
        let (clock, constant) = (random.below(clocks.into()) as u16, random.below(constant + 1) as u16);
        let pin: &[u16] = if random.chance(40) { &[2] } else { &[1, 3] };
        for &relation in pin {
            let place = random.pick(&edge.outermost());
            edge.marks.insert(place, Mark::Atom((clock, relation, constant)));
        }
    }
    edge
}

fn random_atom(random: &mut Random, clocks: u16, constant: u64) -> Mark {
    let relation = random.pick(&[0, 1, 2, 3, 3, 4, 5]);
    Mark::Atom((random.below(clocks.into()) as u16, relation, random.below(constant + 1) as u16))
}

/// A text of at most 14 atoms.
pub fn random_marks(random: &mut Random, clocks: u16, constant: u64) -> Vec<Mark> {
    let (mut marks, mut groups, mut level) = (Vec::new(), 0, 1);
    for _ in 0..random.pick(&[0, 1, 2, 4, 7, 10, 14]) {
        match random.below(10) {
            0..4 if level < 4 && groups < 8 => {
                marks.push(if level % 2 == 1 { Mark::AnyOf } else { Mark::AllOf });
                (groups, level) = (groups + 1, level + 1);
            }
            4..6 if level > 1 => {
                marks.push(Mark::Close);
                level -= 1;
            }
            _ => marks.push(random_atom(random, clocks, constant)),
        }
    }
    marks.extend((1..level).map(|_| Mark::Close));
    marks
}

fn random_clocks(random: &mut Random, clocks: u16) -> Vec<u16> {
    (0..clocks).filter(|_| random.chance(50)).collect()
}

/// A word whose events mostly leave some run alive.
pub fn random_word(random: &mut Random, rule: &PlainRule, most_events: u64) -> PlainWord {
    let grain = random.pick(&[1, 2, 2, 3, 4, 1000]);
    let mut alive: BTreeSet<(u16, Vec<u64>)> =
        rule.initial.iter().map(|&location| (location, vec![0; rule.clocks.into()])).collect();
    let mut events: Vec<(u16, u32)> = Vec::new();
    let mut stamp = 0;
    for _ in 0..random.below(most_events + 1) {
        for attempt in 0..12 {
            let symbol = random.below(rule.symbols.into()) as u16;
            let delay = random_delay(random, grain, stamp);
            let next: BTreeSet<_> = alive
                .iter()
                .flat_map(|(location, ages)| moves(rule, grain, symbol, delay.into(), *location, ages))
                .map(|(_, target, ages)| (target, ages))
                .collect();
            if !next.is_empty() || attempt == 11 || random.chance(2) {
                stamp += delay;
                alive = next;
                events.push((symbol, stamp));
                break;
            }
        }
    }
    PlainWord::new(grain, &events)
}

/// A delay of some whole seconds, or to the next second, or to somewhere within one.
fn random_delay(random: &mut Random, grain: u32, stamp: u32) -> u32 {
    let whole = random.pick(&[0, 0, 1, 1, 1, 2, 3]) * grain;
    match random.below(10) {
        0..5 => whole,
        5..8 => stamp.next_multiple_of(grain) - stamp + whole,
        _ => whole + random.below(grain.into()) as u32,
    }
}

/// Room for a rule and its table, each number the fill.
#[derive(Clone, Debug, PartialEq)]
pub struct Room {
    pub edges: Vec<u16>,
    pub scratch: Vec<u32>,
    pub cells: Vec<u32>,
    pub rows: Vec<u32>,
    pub pool: Vec<u32>,
}

impl Room {
    pub fn new(scratch: usize, cells: usize, rows: usize, pool: usize, fill: u16) -> Self {
        let wide = |length| vec![u32::from(fill); length];
        Room {
            edges: vec![fill; EDGE_TABLE],
            scratch: wide(scratch),
            cells: wide(cells),
            rows: wide(rows),
            pool: wide(pool),
        }
    }

    /// As lent by the listing program.
    pub fn listing(fill: u16) -> Self {
        Room::new(16384, 16384, 2048, 8192, fill)
    }

    pub fn read(&mut self, file: &[u8]) -> Result<reference::Head, reference::Refusal> {
        reference::read_rule(file, &mut self.edges)
    }

    pub fn build(&mut self, head: &reference::Head) -> Result<reference::Built, reference::Refusal> {
        let Room { edges, scratch, cells, rows, pool } = self;
        reference::build_table(head, edges, scratch, cells, rows, pool)
    }

    pub fn table(&self, built: &reference::Built, word: &PlainWord) -> Result<bool, reference::Refusal> {
        let PlainWord { grain, symbols, stamps } = word;
        reference::run_table(built, &self.cells, &self.rows, &self.pool, *grain, symbols, stamps)
    }

    pub fn exact(
        &self,
        head: &reference::Head,
        word: &PlainWord,
        scratch: &mut [u32],
    ) -> Result<bool, reference::Refusal> {
        reference::run_exact(head, &self.edges, word.grain, &word.symbols, &word.stamps, scratch)
    }

    pub fn branch(
        &self,
        head: &reference::Head,
        word: &PlainWord,
    ) -> Result<reference::Branch, reference::Refusal> {
        reference::run_branches(head, &self.edges, word.grain, &word.symbols, &word.stamps)
    }
}

/// A built record and its tables.
#[derive(Clone, Debug, PartialEq)]
pub struct Filled {
    pub built: reference::Built,
    pub cells: Vec<u32>,
    pub rows: Vec<u32>,
    pub pool: Vec<u32>,
}

impl Filled {
    /// A table in shape with these verdicts, if its cells are. Location 0 is final: a row that accepts holds
    /// its first code; one that does not holds that of location 1, or nothing.
    pub fn new(symbols: u32, largest: u32, verdicts: &[bool], cells: Vec<u32>) -> Self {
        let (mut rows, mut pool) = (Vec::new(), Vec::new());
        for (row, &accepts) in verdicts.iter().enumerate() {
            let start = pool.len();
            if accepts || row % 2 == 1 {
                pool.push(if accepts { 0 } else { largest + 2 });
            }
            rows.extend([start as u32, (pool.len() - start) as u32, u32::from(accepts)]);
        }
        let [row_count, pool_count] = [verdicts.len() as u32, pool.len() as u32];
        let built = reference::Built::from_numbers([2, symbols, 1, largest, 1, row_count, pool_count]);
        Filled { built, cells, rows, pool }
    }

    /// A table whose rows follow one another on any event, the first after the last.
    pub fn ring(symbols: u32, largest: u32, verdicts: &[bool]) -> Self {
        let length = verdicts.len();
        let row = |row: usize| vec![2 * ((row + 1) % length) as u32; (symbols * (2 * largest + 2)) as usize];
        Filled::new(symbols, largest, verdicts, (0..length).flat_map(row).collect())
    }

    /// A table that accepts all words, or none.
    pub fn all(symbols: u32, largest: u32, accepts: bool) -> Self {
        Filled::ring(symbols, largest, &[accepts])
    }

    pub fn intervals(&self) -> usize {
        2 * self.built.largest as usize + 2
    }

    /// R · W.
    pub fn states(&self) -> usize {
        self.built.rows as usize * self.intervals()
    }

    pub fn accepts(&self, row: usize) -> bool {
        self.rows[3 * row + 2] == 1
    }

    pub fn run(&self, word: &PlainWord) -> bool {
        let PlainWord { grain, symbols, stamps } = word;
        reference::run_table(&self.built, &self.cells, &self.rows, &self.pool, *grain, symbols, stamps)
            .unwrap()
    }
}

/// A random table in shape, of rows that accept with this chance and more or less often follow one another.
pub fn random_table(random: &mut Random, symbols: u32, accepting: u64) -> Filled {
    let rows = random.between(1, 6) as u32;
    let largest = random.below(3) as u32;
    let verdicts: Vec<bool> = (0..rows).map(|_| random.chance(accepting)).collect();
    let (wandering, resets) = (random.pick(&[0, 5, 20, 50, 100]), random.below(101));
    let mut cells = Vec::new();
    for row in 0..rows {
        for place in 0..symbols * (2 * largest + 2) {
            let anywhere = random.chance(wandering);
            let next = if anywhere { random.below(rows.into()) as u32 } else { (row + 1) % rows };
            cells.push(2 * next + u32::from(place % 2 == 0 && random.chance(resets)));
        }
    }
    Filled::new(symbols, largest, &verdicts, cells)
}

pub fn refusal<T>(number: u8, place: usize) -> Result<T, reference::Refusal> {
    Err(reference::Refusal { number, place })
}
