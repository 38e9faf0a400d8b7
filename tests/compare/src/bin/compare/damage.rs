//! Rule files with faults.

use crate::edges::{GROUPED, MOST_CONSTANT, PLAIN, RELATIONS};
use crate::random::Random;
use crate::rules::{record, Rule, CEILING};
use crate::texts::{ATOM, CLOSE};

/// The rule's file with one to three faults in its records or its bytes.
pub fn damaged_file(random: &mut Random, rule: &Rule) -> Vec<u8> {
    let mut records = rule.records();
    for _ in 0..random.below(3) {
        damage_records(random, rule, &mut records);
    }
    let mut file = records.concat();
    for _ in 0..random.pick(&[0, 0, 1, 1, 2]) {
        damage_bytes(random, &mut file);
    }
    file
}

fn damage_records(random: &mut Random, rule: &Rule, records: &mut Vec<Vec<u8>>) {
    let place = random.below(records.len());
    match random.below(10) {
        0 if records.len() > 1 => drop(records.remove(place)),
        1 => records.insert(place, records[place].clone()),
        2 => {
            let other = random.below(records.len());
            records.swap(place, other);
        }
        3 => {
            let made = any_record(random, rule);
            records.insert(place + random.below(2), made);
        }
        4 => records[place].extend([0; 6]),
        5 => drop(records[place].pop()),
        _ => damage_number(random, rule, &mut records[place]),
    }
}

/// Puts another number into a record: length, kind, or a number of its body.
fn damage_number(random: &mut Random, rule: &Rule, record: &mut [u8]) {
    if record.len() < 2 {
        return;
    }
    let place = 2 * random.below(record.len() / 2);
    let marks = [CLOSE + 1, RELATIONS as u16, MOST_CONSTANT + 1];
    let sizes = [rule.locations, rule.symbols, rule.clocks, 1 << rule.clocks, GROUPED, 14];
    let limit = random.pick(&[sizes.as_slice(), &marks].concat());
    record[place..place + 2].copy_from_slice(&random.short_about(limit).to_le_bytes());
}

/// A record of some kind with numbers near their limits.
fn any_record(random: &mut Random, rule: &Rule) -> Vec<u8> {
    let kind =
        random.pick(&[1, 2, 3, CEILING, CEILING, PLAIN, PLAIN, GROUPED, GROUPED, GROUPED + 1, 0, 65_535]);
    let location = random.short_about(rule.locations);
    match kind {
        1 => record(1, &[random.short_about(32), random.short_about(16), random.short_about(4)]),
        2 | 3 => record(kind, &[location]),
        CEILING => record(CEILING, &[random.short_about(MOST_CONSTANT + 1)]),
        PLAIN | GROUPED => {
            let symbol = random.short_about(rule.symbols);
            let mask = random.short_about(1 << rule.clocks);
            let relation = random.short_about(RELATIONS as u16);
            let atom = [random.short_about(rule.clocks), relation, random.short_about(MOST_CONSTANT + 1)];
            let front = [random.short_about(rule.locations), location, symbol, mask];
            let atom = if kind == GROUPED { [&[ATOM], atom.as_slice()].concat() } else { atom.to_vec() };
            record(kind, &[front.to_vec(), atom.repeat(random.below(10))].concat())
        }
        _ => record(kind, &vec![0; random.below(5)]),
    }
}

fn damage_bytes(random: &mut Random, file: &mut Vec<u8>) {
    let place = random.below(file.len() + 1);
    match random.below(5) {
        0 => file.truncate(place),
        1 => file.extend((0..random.between(1, 5)).map(|_| random.pick(&[0, 1, 2, 5, 255]))),
        2 => file.insert(place, random.pick(&[0, 1, 2, 5, 255])),
        3 if place < file.len() => drop(file.remove(place)),
        _ if place < file.len() => file[place] ^= 1 << random.below(8),
        _ => {}
    }
}

/// Bytes without any order, or records without any order.
pub fn rubbish(random: &mut Random) -> Vec<u8> {
    if random.chance(50) {
        return (0..random.below(60)).map(|_| random.next() as u8).collect();
    }
    let rule = Rule {
        locations: random.between(1, 32) as u16,
        symbols: random.between(1, 16) as u16,
        clocks: random.between(1, 4) as u16,
        initial: vec![],
        finals: vec![],
        ceiling: None,
        edges: vec![],
    };
    let mut records = rule.records();
    records.extend((0..random.below(6)).map(|_| any_record(random, &rule)));
    records.concat()
}
