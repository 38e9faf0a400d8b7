//! The rules that are measured.

/// A record of a rule file.
pub fn record(kind: u16, numbers: &[u16]) -> Vec<u8> {
    let front = [2 * numbers.len() as u16, kind];
    front.iter().chain(numbers).flat_map(|number| number.to_le_bytes()).collect()
}

/// The worked case: 3 rows.
pub fn worked() -> Vec<u8> {
    let front = [record(1, &[2, 2, 1]), record(2, &[0]), record(3, &[0])].concat();
    [front, record(5, &[0, 1, 0, 1, 0, 2, 1]), record(5, &[1, 0, 1, 0, 0, 3, 1])].concat()
}

/// Locations in a ring: symbol k goes on at age 2 of clock k and resets it, one symbol more skips a location.
/// `top`, at least 2, is cm: the first edge also asks for an age of at most `top`, which age 2 is.
pub fn ring(locations: u16, clocks: u16, top: u16) -> Vec<u8> {
    let mut records = vec![record(1, &[locations, clocks + 1, clocks])];
    records.extend([record(2, &[0]), record(3, &[locations - 1])]);
    for location in 0..locations {
        for clock in 0..clocks {
            let mut edge = vec![location, (location + 1) % locations, clock, 1 << clock, clock, 2, 2];
            if (location, clock) == (0, 0) {
                edge.extend([clock, 1, top]);
            }
            records.push(record(5, &edge));
        }
        records.push(record(5, &[location, (location + 2) % locations, clocks, 0, 0, 3, 1]));
    }
    records.concat()
}

/// Accepts the words whose symbol so far back from the end is 1: two to that power rows.
pub fn back_in_the_word(back: u16) -> Vec<u8> {
    let mut records = vec![record(1, &[back + 1, 2, 1]), record(2, &[0]), record(3, &[back])];
    records.extend([[0, 0, 0], [0, 0, 1], [0, 1, 1]].map(|[from, to, on]| record(5, &[from, to, on, 0])));
    for location in 1..back {
        records.extend([0, 1].map(|symbol| record(5, &[location, location + 1, symbol, 0])));
    }
    records.concat()
}

/// As long as a legal file can be: 15,760 bytes with its ceiling; written, less the ceiling, it has 15,754.
pub fn longest() -> Vec<u8> {
    let mut records = vec![record(1, &[32, 16, 2])];
    for kind in [2, 3] {
        records.extend((0..32).map(|location| record(kind, &[location])));
    }
    records.push(record(4, &[30]));
    let edge = [vec![31, 31, 15, 0], [1, 4, 30].repeat(8)].concat();
    records.extend((0..256).map(|_| record(5, &edge)));
    records.concat()
}

/// 256 edges with a reset and eight atoms: seven at-leasts without a partner, then the equality that pins.
pub fn equalities() -> Vec<u8> {
    resetting([0, 2, 30])
}

/// 256 edges with a reset and eight atoms, pinned from both sides by the last two. Partners are looked for as long as
/// can be: for each of the seven at-leasts among all atoms.
pub fn both_sides() -> Vec<u8> {
    resetting([0, 1, 30])
}

fn resetting(last: [u16; 3]) -> Vec<u8> {
    let mut records = vec![record(1, &[32, 16, 2])];
    let at_leasts = (24..=30).flat_map(|constant| [0, 3, constant]);
    let edge: Vec<u16> = [31, 31, 15, 1].into_iter().chain(at_leasts).chain(last).collect();
    records.extend((0..256).map(|_| record(5, &edge)));
    records.concat()
}

/// Two edges everywhere and no final location: a search by branch follows them all.
pub fn forking() -> Vec<u8> {
    let edges = [record(5, &[0, 0, 0, 0]), record(5, &[0, 0, 0, 0, 0, 3, 0])].concat();
    [record(1, &[1, 1, 1]), record(2, &[0]), edges].concat()
}

/// Rows of many pairs: 32 locations in a ring, all initial, with three clocks and cm 2, so that N is 2,048. There are
/// 59 rows of up to 1,536 codes, 526 on average, 448 in the middle.
///
/// Symbol 0 goes on to the next location, or skips some: an edge for each clock resets it, the first at age 2, the
/// others at age 1. So pairs that reset come together with pairs that did not. Symbol 1 goes on where the first clock's
/// age is at least 1.
pub fn dense() -> Vec<u8> {
    let mut records = vec![record(1, &[32, 2, 3])];
    records.extend((0..32).map(|location| record(2, &[location])));
    records.push(record(3, &[0]));
    for location in 0..32 {
        let on = |by| (location + by) % 32;
        records.push(record(5, &[location, on(1), 0, 0]));
        for (clock, age) in [(0, 2), (1, 1), (2, 1)] {
            records.push(record(5, &[location, on(2 + clock), 0, 1 << clock, clock, 2, age]));
        }
        records.push(record(5, &[location, on(1), 1, 0, 0, 3, 1]));
    }
    records.concat()
}
