//! Files with a ceiling, which is read, checked and dropped.

use crate::edges::MOST_CONSTANT;
use crate::random::Random;
use crate::rules::{records_in, Rule, CEILING, RECORD_HEAD};
use crate::scene::{room_for, Scene};
use crate::scenes::some_rule;
use protocol::{Call, Word};

/// The bytes of a ceiling's body, and of its record.
const CEILING_BODY: usize = 2;
pub const CEILING_BYTES: usize = RECORD_HEAD + CEILING_BODY;

/// The ceilings among a file's records, each with its place and its number.
pub fn ceilings(file: &[u8]) -> Vec<(usize, u16)> {
    let records = records_in(file).into_iter();
    let whole = records.filter(|(_, kind, body)| *kind == CEILING && body.len() == CEILING_BODY);
    whole.map(|(place, _, body)| (place, u16::from_le_bytes([body[0], body[1]]))).collect()
}

/// The file without its ceiling, as it is written.
pub fn less_ceiling(file: &[u8]) -> Vec<u8> {
    match ceilings(file).first() {
        Some(&(place, _)) => [&file[..place], &file[place + CEILING_BYTES..]].concat(),
        None => file.to_vec(),
    }
}

/// A rule read from a file with a ceiling and then from what is written of it, each built and run.
pub fn dropped(scene: &mut Scene) {
    let mut rule = some_rule(scene.random);
    rule.ceiling = Some(any_ceiling(scene.random));
    let words = [scene.word(&rule, 8), scene.word(&rule, 8)];
    for ceiling in [rule.ceiling, None] {
        let rule = Rule { ceiling, ..rule.clone() };
        scene.read_surely(&rule);
        scene.add(Call::CheckRule);
        write_tightly(scene, less_ceiling(&rule.file()).len());
        run_built(scene, &rule, &words);
    }
}

/// A ceiling in its range.
fn any_ceiling(random: &mut Random) -> u16 {
    let any = random.between(0, MOST_CONSTANT.into()) as u16;
    random.pick(&[0, any, any, MOST_CONSTANT])
}

/// Writes into room for a file of this length, for one byte less, and for a ceiling more.
fn write_tightly(scene: &mut Scene, length: usize) {
    for out in [length, length - 1, length + CEILING_BYTES] {
        let fill = scene.fill() as u8;
        scene.add(Call::Write { out, fill });
    }
}

/// Builds the state's rule in room that just fits, and runs the words over it.
fn run_built(scene: &mut Scene, rule: &Rule, words: &[Word]) {
    let room = room_for(rule);
    scene.build(room);
    for word in words {
        scene.run_everywhere(rule, word);
        scene.decide(rule.file(), room, word.clone());
    }
    scene.add(Call::List { file: rule.file() });
}
