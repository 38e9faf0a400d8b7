//! The rules with groups that are measured, and one of them written out.

use crate::rules::record;

/// The kinds of a plain and of a grouped edge, and the marks of a text.
const PLAIN: u16 = 5;
const GROUPED: u16 = 6;
const ALL_OF: u16 = 1;
const ANY_OF: u16 = 2;
const ATOM: u16 = 3;
const CLOSE: u16 = 4;
/// The relations.
const LESS: u16 = 0;
const AT_MOST: u16 = 1;
const EQUAL: u16 = 2;
const AT_LEAST: u16 = 3;
const GREATER: u16 = 4;
const NOT_EQUAL: u16 = 5;

/// An atom of a text.
fn atom(clock: u16, relation: u16, constant: u16) -> Vec<u16> {
    vec![ATOM, clock, relation, constant]
}

/// A group that this mark opens.
fn group(mark: u16, members: &[Vec<u16>]) -> Vec<u16> {
    [&[mark], members.concat().as_slice(), &[CLOSE]].concat()
}

/// The rule with every plain edge spelled in groups, so that each atom is looked at and the table stays the same:
/// beside an equality, which pins, each atom stands in an all-of that holds with it, behind an atom that never holds.
pub fn grouped(file: &[u8]) -> Vec<u8> {
    let (mut other, mut rest) = (Vec::new(), file);
    while let Some((front, after)) = rest.split_first_chunk::<4>() {
        let [length, kind] = [[front[0], front[1]], [front[2], front[3]]].map(u16::from_le_bytes);
        let (body, after) = after.split_at(length.into());
        let numbers: Vec<u16> =
            body.chunks_exact(2).map(|pair| u16::from_le_bytes([pair[0], pair[1]])).collect();
        other.extend(match kind {
            PLAIN => record(GROUPED, &[&numbers[..4], &grouped_text(&numbers[4..])].concat()),
            _ => record(kind, &numbers),
        });
        rest = after;
    }
    other
}

/// The text of plain atoms in groups.
fn grouped_text(atoms: &[u16]) -> Vec<u16> {
    let spelled = |clock, holds: Vec<u16>| {
        let inside = group(ALL_OF, &[holds, atom(clock, AT_LEAST, 0)]);
        group(ANY_OF, &[atom(clock, LESS, 0), inside])
    };
    let mut text = Vec::new();
    for numbers in atoms.chunks_exact(3) {
        let own = atom(numbers[0], numbers[1], numbers[2]);
        if numbers[1] == EQUAL {
            text.extend(&own);
        }
        text.extend(spelled(numbers[0], own));
    }
    if atoms.is_empty() {
        text = spelled(0, vec![]);
    }
    text
}

/// As long as a legal file can be: 44,432 bytes with its ceiling; written, less the ceiling, it has 44,426. Each text
/// has eight groups of two atoms.
pub fn longest_grouped() -> Vec<u8> {
    let mut records = vec![record(1, &[32, 16, 2])];
    for kind in [2, 3] {
        records.extend((0..32).map(|location| record(kind, &[location])));
    }
    records.push(record(4, &[30]));
    let either = group(ANY_OF, &[atom(1, EQUAL, 30), atom(1, GREATER, 30)]);
    let edge = [vec![31, 31, 15, 0], either.repeat(8)].concat();
    records.extend((0..256).map(|_| record(GROUPED, &edge)));
    records.concat()
}

/// 256 grouped edges with a reset and 14 atoms on four levels, pinned from both sides by the last two: for each of the
/// five at-leasts outside of groups a partner is looked for among all atoms there.
pub fn deep() -> Vec<u8> {
    let mut records = vec![record(1, &[32, 16, 2])];
    let inner = group(ANY_OF, &[atom(1, LESS, 9), atom(1, NOT_EQUAL, 9)]);
    let nested = group(ANY_OF, &[group(ALL_OF, &[inner, atom(1, GREATER, 3)]), atom(1, EQUAL, 2)]);
    let at_leasts: Vec<u16> = (26..=30).flat_map(|constant| atom(0, AT_LEAST, constant)).collect();
    let text = [nested.repeat(2), at_leasts, atom(0, AT_MOST, 30)].concat();
    let edge = [vec![31, 31, 15, 1], text].concat();
    records.extend((0..256).map(|_| record(GROUPED, &edge)));
    records.concat()
}

/// Locations in a ring, where each edge asks for one thing or another: symbol k goes on at age 2 of clock k and resets
/// it, if the next clock is at most 2, or at least 4 and not 5; one symbol more skips a location if the first clock is
/// 1 or above 3. `top`, at least 5, is cm.
pub fn either_or(locations: u16, clocks: u16, top: u16) -> Vec<u8> {
    let next_clock = |next| {
        let late = group(ALL_OF, &[atom(next, AT_LEAST, 4), atom(next, NOT_EQUAL, 5)]);
        vec![group(ANY_OF, &[atom(next, AT_MOST, 2), late])]
    };
    let skips = vec![group(ANY_OF, &[atom(0, EQUAL, 1), atom(0, GREATER, 3)])];
    either_or_ring(locations, clocks, top, GROUPED, next_clock, skips)
}

/// The same written out with plain edges.
pub fn written_out(locations: u16, clocks: u16, top: u16) -> Vec<u8> {
    let next_clock = |next| vec![vec![next, AT_MOST, 2], vec![next, AT_LEAST, 4, next, NOT_EQUAL, 5]];
    let skips = vec![vec![0, EQUAL, 1], vec![0, GREATER, 3]];
    either_or_ring(locations, clocks, top, PLAIN, next_clock, skips)
}

/// The ring with an edge of this kind for each of the guards.
fn either_or_ring(
    locations: u16,
    clocks: u16,
    top: u16,
    kind: u16,
    next_clock: impl Fn(u16) -> Vec<Vec<u16>>,
    skips: Vec<Vec<u16>>,
) -> Vec<u8> {
    let plain = |numbers: Vec<u16>| if kind == PLAIN { numbers[1..].to_vec() } else { numbers };
    let mut records = vec![record(1, &[locations, clocks + 1, clocks])];
    records.extend([record(2, &[0]), record(3, &[locations - 1])]);
    for location in 0..locations {
        let mut edge = |by, symbol, mask, guard: Vec<u16>| {
            let front = vec![location, (location + by) % locations, symbol, mask];
            records.push(record(kind, &[front, guard].concat()));
        };
        for clock in 0..clocks {
            for guard in next_clock((clock + 1) % clocks) {
                let highest =
                    if (location, clock) == (0, 0) { plain(atom(clock, AT_MOST, top)) } else { vec![] };
                edge(1, clock, 1 << clock, [plain(atom(clock, EQUAL, 2)), guard, highest].concat());
            }
        }
        for guard in &skips {
            edge(2, clocks, 0, guard.clone());
        }
    }
    records.concat()
}
