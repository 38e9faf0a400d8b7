//! Rules with N at a multiple of 32 or next to one, in scratches about N / 32 numbers.

use crate::edges::{members, Edge, AT_MOST};
use crate::pins::pin;
use crate::random::Random;
use crate::rules::{some_locations, Rule, NUMBER_BITS};
use crate::scene::{needs, Scene};
use crate::sizes::{all_sizes, built_soon, Size, MOST_CODES};
use protocol::{Call, Room};

/// The sizes that come up most: N is 31, 32, 33, 64 and 65.
const FIRST: [Size; 5] = [
    Size { locations: 1, clocks: 1, top: 29 },
    Size { locations: 1, clocks: 1, top: 30 },
    Size { locations: 11, clocks: 1, top: 1 },
    Size { locations: 2, clocks: 1, top: 30 },
    Size { locations: 13, clocks: 1, top: 3 },
];

/// A rule built and decided over in a scratch that is one number too short, just enough and longer; in one that is just
/// enough with the row table, the cells or the pool too short; and in room that just fits.
pub fn near_32(scene: &mut Scene) {
    let size = size_near_32(scene.random);
    let (rule, exact) = crowded_or_not(scene.random, size);
    let word = scene.word(&rule, 6);
    scene.read_surely(&rule);
    for room in rooms_about(scene.random, exact).into_iter().chain([exact]) {
        build_over(scene, room);
        if scene.random.chance(50) {
            scene.decide(rule.file(), room, word.clone());
        }
    }
    scene.add(Call::CheckTable);
    scene.run_everywhere(&rule, &word);
}

/// A size with N at a multiple of 32 or next to one: one of the first, another with the N of one of them, N = 65,536 or
/// any other.
fn size_near_32(random: &mut Random) -> Size {
    let (kind, first) = (random.below(10), random.pick(&FIRST));
    let wanted = |size: &Size| match kind {
        0..=3 => *size == first,
        4 | 5 => size.code_count() == first.code_count(),
        6 => size.code_count() == MOST_CODES,
        _ => (size.code_count() + 1) % NUMBER_BITS < 3,
    };
    let sizes: Vec<Size> = all_sizes().filter(wanted).collect();
    random.pick(&sizes)
}

/// A rule of this size and the room that its table needs: one with many codes in a row, if the listing program's room
/// is enough for it, or one that is built soon.
fn crowded_or_not(random: &mut Random, size: Size) -> (Rule, Room) {
    if size.top > 0 && random.chance(50) {
        let rule = crowded(random, size);
        if let Some(needs) = needs(&rule) {
            return (rule, needs.room);
        }
    }
    built_soon(random, size)
}

/// At each location an edge that resets clock 0 when it is 1, and two that keep all clocks, one of them up to cm.
/// Second by second a row gets more codes, some by two edges. Either all locations are initial and every edge stays, so
/// that with one clock the last row has all codes; or the first is, and the resets lead from each to the next.
fn crowded(random: &mut Random, Size { locations, clocks, top }: Size) -> Rule {
    let all = random.chance(50);
    let initial: Vec<u16> = (0..if all { locations } else { 1 }).collect();
    let mut edges = Vec::new();
    for source in 0..locations {
        let target = if all { source } else { (source + 1) % locations };
        let mut guard = Vec::new();
        pin(random, &mut guard, 0, 1);
        let keep = Edge::plain(source, source, 0, &[]);
        let below = Edge { guard: members(&[[0, AT_MOST, top]]), ..keep.clone() };
        edges.extend([Edge { target, mask: 1, guard, ..keep.clone() }, keep, below]);
    }
    let finals = some_locations(random, locations);
    Rule { locations, symbols: 1, clocks, initial, finals, ceiling: None, edges }
}

/// Room with a scratch shorter by one, as long and longer than this one's; then with some other table shorter.
fn rooms_about(random: &mut Random, exact: Room) -> [Room; 7] {
    let scratch = exact.scratch;
    let scratches = [scratch - 1, scratch, scratch + 1, scratch + random.between(2, 70)];
    let [short, just, longer, long] = scratches.map(|scratch| Room { scratch, ..exact });
    let pool = if random.chance(50) { random.below(exact.pool) } else { exact.pool - 1 };
    let [fewer_rows, fewer_cells] =
        [Room { rows: exact.rows - 1, ..exact }, Room { cells: exact.cells - 1, ..exact }];
    [short, just, longer, long, fewer_rows, fewer_cells, Room { pool, ..exact }]
}

/// Builds in this room, in which often every bit is 1.
fn build_over(scene: &mut Scene, room: Room) {
    let any = scene.fill();
    let fill = scene.random.pick(&[u32::MAX, any]);
    scene.add(Call::Build { room, fill });
}
