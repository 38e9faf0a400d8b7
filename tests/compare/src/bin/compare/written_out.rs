//! A rule with groups and the same rule written out accept the same words: by their tables, each of which must allow
//! only what the other allows, and by words that are run on both.

use crate::edges::{Edge, EDGE_TABLE, GROUPED, MOST_LEVELS, NOT_EQUAL};
use crate::group_counts::inner_atoms;
use crate::groups::grouped_edge;
use crate::inclusion::states;
use crate::random::Random;
use crate::rules::{any_rule, Bounds, Rule};
use crate::texts::level_count;
use crate::words::pointed_word;
use crate::write_out::written_out;
use alderskein::raw::{Built, Head};
use alderskein::ROW_NUMBERS;
use protocol::{Call, Engine, Library, Reference, Rooms, Table, Tables, Word};
use std::fmt;

/// How large the rules are, before they are written out.
const BOUNDS: Bounds = Bounds { locations: 4, symbols: 2, clocks: 2, edges: 6, constant: 3 };
/// The most states, R · W, of a table that is searched together with another.
const MOST_STATES: usize = 300;
/// Room for the tables, for the configurations of the exact runner and for a word that is shown.
const CELLS: usize = 2 * MOST_STATES;
const POOL: usize = 1 << 14;
const CONFIGURATIONS: usize = 1 << 12;
const SHOWN: usize = 1 << 10;
/// The words that are run on both, and their most events.
const WORDS: usize = 8;
const MOST_EVENTS: usize = 8;

/// What came up.
#[derive(Default)]
pub struct Counts {
    /// The pairs that were compared.
    pub rules: u64,
    /// The rules that were drawn again, as too many edges or atoms would be needed or a table was too large.
    pub drawn_again: u64,
    counts: [u64; NAMES.len()],
}

/// What is counted over the pairs; each must come up.
const NAMES: [&str; 10] = [
    "plain edges for grouped ones",
    "grouped edges that no plain one stands for",
    "not-equals inside groups",
    "guards with four levels",
    "with one cm, the tables the same number by number",
    "with another cm",
    "with a word that both accept",
    "told apart with an edge left out",
    "words accepted",
    "words not accepted",
];

/// Where a pair differs: what is wrong, and a script that shows the two rules.
pub struct Fault {
    pub what: String,
    pub script: Vec<Call>,
}

/// Compares so many rules, drawn from the seed, with what they are written out as.
pub fn compare(seed: u64, rules: u64) -> Result<Counts, Fault> {
    let mut counts = Counts::default();
    let mut number = 0;
    while counts.rules < rules {
        let random = &mut Random::new(seed, number);
        number += 1;
        let rule = some_rule(random);
        let plain = written_out(random, &rule);
        let words = (0..WORDS).map(|_| pointed_word(random, &rule, MOST_EVENTS)).collect();
        let pair = plain.map(|plain| Pair { fewer: less_an_edge(random, &plain), rule, plain, words });
        let found = pair.as_ref().map_or(Ok(None), |pair| pair.check::<Library>("library"))?;
        let Some((pair, found)) = pair.as_ref().zip(found) else {
            counts.drawn_again += 1;
            continue;
        };
        pair.check::<Reference>("reference")?;
        counts.add_pair(pair, &found);
    }
    Ok(counts)
}

/// A small rule, most of whose edges are grouped, from an initial location and to a final one.
fn some_rule(random: &mut Random) -> Rule {
    let mut rule = any_rule(random, &BOUNDS);
    let constant = random.between(1, BOUNDS.constant) as u16;
    let [first, last] = [0, 1].map(|_| random.below(rule.locations.into()) as u16);
    (rule.initial, rule.finals) = (vec![first], vec![last]);
    rule.edges.retain(|edge| edge.kind != GROUPED && random.chance(30));
    for _ in 0..random.between(1, BOUNDS.edges) {
        let mut edge = grouped_edge(random, &rule, constant);
        edge.source = random.pick(&[edge.source, first]);
        edge.target = random.pick(&[edge.target, last]);
        rule.put(random, edge);
    }
    rule
}

/// The rule less one edge, if it has any.
fn less_an_edge(random: &mut Random, rule: &Rule) -> Rule {
    let mut fewer = rule.clone();
    if !fewer.edges.is_empty() {
        fewer.edges.remove(random.below(fewer.edges.len()));
    }
    fewer
}

/// A rule, the same written out, that less one edge, and words.
struct Pair {
    rule: Rule,
    plain: Rule,
    fewer: Rule,
    words: Vec<Word>,
}

/// What was found of a pair without a difference.
struct Found {
    /// Whether both have the same cm.
    same_top: bool,
    /// Whether a word tells the rule apart from that with an edge left out.
    apart: bool,
    /// How many of the words are accepted.
    accepted: u64,
}

impl Pair {
    /// Compares the two as an implementation, which has this name, reads, builds and runs them; finds nothing if a
    /// table is too large.
    fn check<E: Engine>(&self, name: &str) -> Result<Option<Found>, Fault> {
        let read = |rule: &Rule| Call::Read { file: rule.file(), edges: EDGE_TABLE, fill: 0 };
        let script = || vec![read(&self.rule), read(&self.plain)];
        self.found::<E>().map_err(|what| Fault { what: format!("{name}: {what}"), script: script() })
    }

    /// The same; or what is wrong.
    fn found<E: Engine>(&self) -> Result<Option<Found>, String> {
        let mut made = Vec::new();
        for rule in [&self.rule, &self.plain, &self.fewer] {
            match Made::of::<E>(rule) {
                Ok(table) if states(&table.built) <= MOST_STATES => made.push(table),
                Ok(_) | Err((23 | 24, _)) => return Ok(None),
                Err((number, place)) => return Err(format!("refused: {number} {place}")),
            }
        }
        let [grouped, plain, fewer] = [0, 1, 2].map(|place: usize| &made[place]);
        same_words::<E>(grouped, plain)?;
        if fewer.allowed_by::<E>(grouped) != Some(true) {
            return Err("with an edge left out, more is allowed".into());
        }
        Ok(Some(Found {
            same_top: grouped.built.top == plain.built.top,
            apart: grouped.allowed_by::<E>(fewer) == Some(false),
            accepted: self.run::<E>(grouped, plain)?,
        }))
    }

    /// Runs the words on both, and returns how many are accepted.
    fn run<E: Engine>(&self, grouped: &Made, plain: &Made) -> Result<u64, String> {
        let mut accepted = 0;
        for word in &self.words {
            let [one, other] = [grouped, plain].map(|made| made.verdicts::<E>(word));
            if one != other || one[0] != one[1] {
                return Err(format!("exact and by table {one:?}, written out {other:?}: {word}"));
            }
            accepted += u64::from(one[0] == (0, 1));
        }
        Ok(accepted)
    }
}

/// Each of the two tables allows only what the other allows; with one cm they are the same.
fn same_words<E: Engine>(grouped: &Made, plain: &Made) -> Result<(), String> {
    if grouped.allowed_by::<E>(plain) != Some(true) {
        return Err("the rule with groups allows more than the one written out".into());
    }
    if plain.allowed_by::<E>(grouped) != Some(true) {
        return Err("the rule written out allows more than the one with groups".into());
    }
    if grouped.built.top == plain.built.top && grouped.tables() != plain.tables() {
        return Err("the tables differ, though cm is the same".into());
    }
    Ok(())
}

/// A rule that was read and built.
struct Made {
    head: Head,
    edges: Vec<u16>,
    built: Built,
    cells: Vec<u32>,
    rows: Vec<u32>,
    pool: Vec<u32>,
}

impl Made {
    /// The rule read and built in room for some rows; or the refusal's number and place.
    fn of<E: Engine>(rule: &Rule) -> Result<Self, (u8, usize)> {
        let mut edges = vec![0; EDGE_TABLE];
        let reading = E::read_rule(&rule.file(), &mut edges);
        let [mut scratch, mut cells, mut rows, mut pool] =
            [rule.scratch(), CELLS, ROW_NUMBERS * MOST_STATES, POOL].map(|length| vec![0; length]);
        let lent = Tables { scratch: &mut scratch, cells: &mut cells, rows: &mut rows, pool: &mut pool };
        if reading.number != 0 {
            return Err((reading.number, reading.place));
        }
        let head = reading.head;
        let building = E::build_table(protocol::Rule { head, edges: &edges }, lent);
        if building.number != 0 {
            return Err((building.number, building.place));
        }
        Ok(Made { head, edges, built: building.built, cells, rows, pool })
    }

    fn table(&self) -> Table<'_> {
        Table { built: self.built, cells: &self.cells, rows: &self.rows, pool: &self.pool }
    }

    /// Everything that was built; places past it are zero.
    fn tables(&self) -> (Built, [&[u32]; 3]) {
        (self.built, [&self.cells, &self.rows, &self.pool])
    }

    /// Whether the other table allows all that this one allows; nothing if the question is refused.
    fn allowed_by<E: Engine>(&self, other: &Made) -> Option<bool> {
        let mut scratch = vec![0; states(&self.built) * states(&other.built)];
        let (symbols, stamps) = (&mut [0; SHOWN], &mut [0; SHOWN]);
        let lent = Rooms { scratch: &mut scratch, symbols, stamps };
        let answer = E::check_inclusion(self.table(), other.table(), lent);
        (answer.number == 0).then_some(answer.included)
    }

    /// What the exact runner and the table runner say, each with its refusal's number.
    fn verdicts<E: Engine>(&self, word: &Word) -> [(u8, usize); 2] {
        let rule = protocol::Rule { head: self.head, edges: &self.edges };
        let exact = E::run_exact(rule, word, &mut vec![0; CONFIGURATIONS]);
        [exact, E::run_table(self.table(), word)].map(|answer| (answer.number, answer.value))
    }
}

impl Counts {
    fn add(&mut self, name: &str, more: u64) {
        if let Some(place) = NAMES.iter().position(|&known| known == name) {
            self.counts[place] += more;
        }
    }

    fn add_pair(&mut self, pair: &Pair, found: &Found) {
        self.rules += 1;
        let (grouped, kept): (Vec<&Edge>, Vec<&Edge>) =
            pair.rule.edges.iter().partition(|edge| edge.kind == GROUPED);
        let gone = grouped.iter().filter(|edge| edge.guard.iter().any(|member| member.group() == Some(&[])));
        let inside = grouped.iter().flat_map(|edge| inner_atoms(edge));
        let deep = grouped.iter().filter(|edge| level_count(&edge.guard) == MOST_LEVELS);
        self.add("plain edges for grouped ones", (pair.plain.edges.len() - kept.len()) as u64);
        self.add("grouped edges that no plain one stands for", gone.count() as u64);
        let not_equals = inside.filter(|[_, relation, _]| *relation == NOT_EQUAL);
        self.add("not-equals inside groups", not_equals.count() as u64);
        self.add("guards with four levels", deep.count() as u64);
        self.add("with one cm, the tables the same number by number", found.same_top.into());
        self.add("with another cm", (!found.same_top).into());
        self.add("with a word that both accept", (found.accepted > 0).into());
        self.add("told apart with an edge left out", found.apart.into());
        self.add("words accepted", found.accepted);
        self.add("words not accepted", pair.words.len() as u64 - found.accepted);
    }

    /// What has not come up.
    pub fn missing(&self) -> Vec<&'static str> {
        NAMES.into_iter().zip(self.counts).filter(|(_, count)| *count == 0).map(|(name, _)| name).collect()
    }
}

impl fmt::Display for Counts {
    fn fmt(&self, f: &mut fmt::Formatter) -> fmt::Result {
        for (name, count) in NAMES.into_iter().zip(self.counts) {
            writeln!(f, "{count:>16}  {name}")?;
        }
        Ok(())
    }
}
