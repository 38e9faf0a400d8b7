//! Verdicts that are put wrong and right again, one at a time.

use crate::plain::{verdict_at, Plain};
use crate::scene::Scene;
use crate::tables::{any_word, built_rule, not_said, plain_table, put};
use protocol::{Call, What, Word};

/// The most events of which each has a verdict put wrong before it.
const MOST_EVENTS: usize = 6;

/// A table and a word; before each event some row stores another verdict, and then the right one again.
pub fn wrong_and_right(scene: &mut Scene) {
    let (plain, word) = some_table(scene);
    scene.add(Call::Start { grain: word.grain });
    let events = word.symbols.iter().copied().zip(word.stamps.iter().copied());
    for event in events.chain([(0, u32::MAX)]).take(MOST_EVENTS) {
        let row = scene.random.below(plain.row_count());
        let (index, value) = (verdict_at(row), plain.said(row));
        let wrong = not_said(scene.random, value);
        scene.add(Call::Poke { what: What::Rows, index, value: wrong });
        run(scene, &word);
        follow(scene, event, true);
        follow(scene, event, false);
        scene.add(Call::Poke { what: What::Rows, index, value });
        run(scene, &word);
        let in_place = scene.random.chance(50);
        follow(scene, event, in_place);
    }
}

/// A table in the state, built from a rule or filled by hand, with a word over it.
fn some_table(scene: &mut Scene) -> (Plain, Word) {
    if scene.random.chance(50) {
        let (rule, plain) = built_rule(scene);
        return (plain, scene.word(&rule, MOST_EVENTS));
    }
    let plain = plain_table(scene.random);
    put(scene, &plain);
    let word = any_word(scene.random, plain.symbols());
    (plain, word)
}

/// Checks the state's table and runs a word over it.
fn run(scene: &mut Scene, word: &Word) {
    scene.add(Call::CheckTable);
    scene.add(Call::Table { word: word.clone() });
}

fn follow(scene: &mut Scene, (symbol, stamp): (u16, u32), in_place: bool) {
    scene.add(if in_place { Call::FollowInPlace { symbol, stamp } } else { Call::Follow { symbol, stamp } });
}
