//! Tables of which one may allow only what another allows: filled by hand, changed a little, rings of rows; and rules
//! that are changed a little.

use crate::edges::{Edge, RELATIONS};
use crate::pins::is_pinned;
use crate::plain::{weight, Plain};
use crate::random::Random;
use crate::rules::{any_edge, Rule};
use alderskein::ROW_NUMBERS;

/// The most rows of a ring, and of one over many symbols.
const LONGEST_RING: usize = 24;
const LONGEST_WIDE_RING: usize = 5;

/// A table without codes: what it answers, and no more.
#[derive(Clone)]
pub struct Bare {
    pub symbols: u32,
    /// cm.
    pub top: u32,
    pub verdicts: Vec<bool>,
    pub cells: Vec<u32>,
}

impl Bare {
    /// Any cells, often half or most of which stay in their row; few, half or most of the rows accept, the first one
    /// seldom.
    pub fn any(random: &mut Random, symbols: u32, top: u32, row_count: usize) -> Self {
        let (accepting, staying) = (random.pick(&[15, 50, 85]), random.pick(&[0, 0, 50, 95]));
        let mut verdicts: Vec<bool> = (0..row_count).map(|_| random.chance(accepting)).collect();
        verdicts[0] &= random.chance(30);
        let cells = (0..row_count * symbols as usize * width(top)).map(|place| {
            if random.chance(staying) {
                return 2 * apart(symbols, top, place).0 as u32;
            }
            let reset = place % 2 == 0 && random.chance(30);
            2 * random.below(row_count) as u32 + u32::from(reset)
        });
        Bare { symbols, top, cells: cells.collect(), verdicts }
    }

    /// A small one over so many symbols.
    pub fn small(random: &mut Random, symbols: u32) -> Self {
        let (most_rows, most_top) = match symbols {
            1 | 2 => (10, 3),
            3 => (6, 3),
            _ => (3, 1),
        };
        let (row_count, top) = (random.between(1, most_rows), random.between(0, most_top) as u32);
        Bare::any(random, symbols, top, row_count)
    }

    /// A table less its codes.
    pub fn of(plain: &Plain) -> Self {
        let row_count = plain.row_count();
        let used = row_count * plain.symbols() as usize * width(plain.built[3]);
        Bare {
            symbols: plain.symbols(),
            top: plain.built[3],
            verdicts: (0..row_count).map(|row| plain.said(row) == 1).collect(),
            cells: plain.cells[..used].to_vec(),
        }
    }

    /// Each row leads to the next one, the last to the first, by every symbol at every age.
    pub fn ring(symbols: u32, top: u32, verdicts: Vec<bool>) -> Self {
        let next = |row: usize| 2 * ((row + 1) % verdicts.len()) as u32;
        let row_cells = symbols as usize * width(top);
        let cells = (0..verdicts.len()).flat_map(|row| vec![next(row); row_cells]).collect();
        Bare { symbols, top, cells, verdicts }
    }

    /// A ring that accepts in one row, or in all but one; now and then in any. What does not lead on stays.
    pub fn some_ring(random: &mut Random, symbols: u32, top: u32, lead: Lead, in_one: bool) -> Self {
        let length = random.between(2, if symbols > 4 { LONGEST_WIDE_RING } else { LONGEST_RING });
        let (any, one) = (random.chance(20), random.below(length));
        let verdict = |row| if any { random.chance(50) } else { (row == one) == in_one };
        let verdicts = (0..length).map(verdict).collect();
        let mut ring = Bare::ring(symbols, top, verdicts);
        for (place, cell) in ring.cells.iter_mut().enumerate() {
            let (row, symbol, interval) = apart(symbols, top, place);
            if !lead.by(symbol, interval) {
                *cell = 2 * row as u32;
            } else if lead.resets && interval % 2 == 0 {
                *cell += 1;
            }
        }
        ring
    }

    /// With one or two verdicts, cells or resets changed.
    pub fn changed(&self, random: &mut Random) -> Self {
        let mut other = self.clone();
        for _ in 0..random.pick(&[1, 1, 2]) {
            let (row, place) = (random.below(other.verdicts.len()), random.below(other.cells.len()));
            match random.below(3) {
                0 => other.verdicts[row] ^= true,
                1 => other.cells[place] = 2 * row as u32 + other.cells[place] % 2,
                _ => other.cells[place - place % 2] ^= 1,
            }
        }
        other
    }

    /// Accepting in some rows more.
    pub fn looser(&self, random: &mut Random) -> Self {
        let verdicts = self.verdicts.iter().map(|&accepts| accepts || random.chance(30)).collect();
        Bare { verdicts, ..self.clone() }
    }

    /// The same answers from rows in another order; row 0 stays.
    pub fn renumbered(&self, random: &mut Random) -> Self {
        let mut order: Vec<usize> = (0..self.verdicts.len()).collect();
        for left in (2..order.len()).rev() {
            order.swap(left, random.between(1, left));
        }
        let mut other = self.clone();
        let row_cells = self.symbols as usize * width(self.top);
        for (row, &to) in order.iter().enumerate() {
            other.verdicts[to] = self.verdicts[row];
            let moved = self.cells[row * row_cells..][..row_cells].iter();
            let moved = moved.map(|&cell| 2 * order[cell as usize / 2] as u32 + cell % 2);
            other.cells.splice(to * row_cells..(to + 1) * row_cells, moved);
        }
        other
    }

    /// The same answers by a table with a higher cm: above the lower one all ages are alike.
    pub fn stretched(&self, more: u32) -> Self {
        let alike = 2 * more as usize;
        let stretch = |ages: &[u32]| [ages, &vec![ages[ages.len() - 1]; alike]].concat();
        let cells = self.cells.chunks_exact(width(self.top)).flat_map(stretch).collect();
        Bare { top: self.top + more, cells, ..self.clone() }
    }

    /// The table with codes that say its verdicts.
    pub fn plain(&self, random: &mut Random) -> Plain {
        let [locations, clocks] = [random.between(2, 5), random.between(1, if self.top > 6 { 2 } else { 3 })];
        let ends = random.pick(&[1, 2]) | (random.next() as u32 & !3);
        let row_count = self.verdicts.len() as u32;
        let built = [locations as u32, self.symbols, clocks as u32, self.top, ends, row_count, 0];
        let mut plain = Plain { built, cells: self.cells.clone(), rows: vec![], pool: vec![] };
        for &accepts in &self.verdicts {
            let start = plain.pool.len();
            for place in 0..random.between(accepts.into(), 3) {
                let last = accepts && (place == 0 || random.chance(50));
                let code = some_code(random, &built, last);
                plain.pool.push(code);
            }
            let length = plain.pool.len() - start;
            plain.rows.extend([start as u32, length as u32, u32::from(accepts)]);
        }
        plain.built[6] = plain.pool.len() as u32;
        debug_assert_eq!(plain.rows.len(), ROW_NUMBERS * row_count as usize);
        plain
    }
}

/// What leads on in a ring: a symbol alone, often the last, or any; an interval alone or any; by a reset or without.
#[derive(Clone, Copy)]
pub struct Lead {
    symbol: Option<usize>,
    interval: Option<usize>,
    resets: bool,
}

impl Lead {
    pub fn some(random: &mut Random, symbols: u32, top: u32) -> Self {
        let (symbol, interval) = (random.below(symbols as usize), random.below(width(top)));
        let symbol = random.pick(&[symbol, symbols as usize - 1]);
        Lead {
            symbol: random.chance(50).then_some(symbol),
            interval: random.chance(40).then_some(interval),
            resets: random.chance(50),
        }
    }

    fn by(self, symbol: usize, interval: usize) -> bool {
        self.symbol.is_none_or(|only| only == symbol) && self.interval.is_none_or(|only| only == interval)
    }
}

/// A code of a location that is final, or of one that is not.
fn some_code(random: &mut Random, built: &[u32; 7], last: bool) -> u32 {
    let is_final = |location: &u32| (built[4] >> location & 1 == 1) == last;
    let locations: Vec<u32> = (0..built[0]).filter(is_final).collect();
    let per_location = weight(built) as u32;
    random.pick(&locations) * per_location + random.below(per_location as usize) as u32
}

/// W.
fn width(top: u32) -> usize {
    2 * top as usize + 2
}

/// The row, the symbol and the interval of a cell.
fn apart(symbols: u32, top: u32, place: usize) -> (usize, usize, usize) {
    let (of_row, interval) = (place / width(top), place % width(top));
    (of_row / symbols as usize, of_row % symbols as usize, interval)
}

/// The rule with a final location, an edge or a member more, less or changed.
pub fn varied(random: &mut Random, rule: &Rule) -> Rule {
    let mut other = rule.clone();
    if rule.edges.is_empty() || random.chance(20) {
        let turned = random.below(rule.locations.into()) as u16;
        let is_final = |location: &u16| rule.finals.contains(location) != (*location == turned);
        other.finals = (0..rule.locations).filter(is_final).collect();
        return other;
    }
    let place = random.below(rule.edges.len());
    match random.below(4) {
        0 => drop(other.edges.remove(place)),
        1 => {
            let edge = any_edge(random, rule, rule.top());
            other.put(random, edge);
        }
        kind => vary(random, rule, &mut other.edges[place], kind == 2),
    }
    other
}

/// Takes a member of the outermost level away, or gives some atom any relation.
fn vary(random: &mut Random, rule: &Rule, edge: &mut Edge, less: bool) {
    let (member, atom) = (random.below(edge.guard.len().max(1)), random.below(edge.atoms().len().max(1)));
    if edge.guard.is_empty() {
        edge.target = random.below(rule.locations.into()) as u16;
    } else if less {
        edge.guard.remove(member);
    } else {
        let (relation, mut number) = (random.below(RELATIONS) as u16, 0);
        edge.for_each_atom(|[_, old, _]| {
            *old = if number == atom { relation } else { *old };
            number += 1;
        });
    }
    edge.mask = if is_pinned(&edge.guard) { edge.mask } else { 0 };
}
