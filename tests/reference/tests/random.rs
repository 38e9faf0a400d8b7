//! Random rules and words: all runs by the definition against every runner, and the set construction
//! against the builder.

mod common;

use common::{
    construct, enumerate, held_back, random_rule, random_word, refusal, Bounds, PlainEdge, PlainRule,
    PlainWord, Random, Room, Runs,
};
use reference::{
    check_rule, check_table, follow_event, list_table, start_follower, write_rule, Branch, Built, Head,
};

const SMALL: Bounds = Bounds { locations: 3, symbols: 2, clocks: 2, edges: 8, constant: 2 };
const WIDER: Bounds = Bounds { locations: 4, symbols: 3, clocks: 4, edges: 14, constant: 3 };
const LONG: Bounds = Bounds { locations: 3, symbols: 2, clocks: 2, edges: 5, constant: 2 };

#[test]
fn small_rules() {
    cross_check(1, 700, &SMALL, 12, 6);
}

#[test]
fn wider_rules() {
    cross_check(2, 250, &WIDER, 10, 5);
}

#[test]
fn twelve_events() {
    cross_check(3, 250, &LONG, 10, 12);
}

/// Words of one to three events at any times, most of which no run accepts.
#[test]
fn what_held_random_rules_back() {
    let mut random = Random(4);
    let (mut held_at, mut held_by_nothing) = ([0; 16], 0);
    for _ in 0..1000 {
        let rule = random_rule(&mut random, &WIDER);
        let mut room = Room::listing(2);
        let head = room.read(&rule.file()).unwrap();
        for _ in 0..20 {
            let word = careless_word(&mut random, &rule);
            let runs = enumerate(&rule, &word);
            let expected = branch(&rule, &word, &runs);
            assert_eq!(room.branch(&head, &word), Ok(expected), "{rule:?} {word:?}");
            match expected.held {
                Some(position) => held_at[position] += 1,
                None => held_by_nothing += 1,
            }
        }
    }
    println!("held at {held_at:?}, by nothing {held_by_nothing}");
    assert!(held_at[..4].iter().all(|&count| count > 50) && held_at[4] > 10, "too few of some kind");
    assert!(held_by_nothing > 1000, "too few held by nothing");
}

fn careless_word(random: &mut Random, rule: &PlainRule) -> PlainWord {
    let grain = random.pick(&[1, 2, 3, 1000]);
    let mut events = Vec::new();
    let mut stamp = 0;
    for _ in 0..random.between(1, 3) {
        stamp += random.below(u64::from(4 * grain) + 1) as u32;
        events.push((random.below(rule.symbols.into()) as u16, stamp));
    }
    PlainWord::new(grain, &events)
}

fn cross_check(seed: u64, rules: usize, bounds: &Bounds, words: usize, events: u64) {
    let mut random = Random(seed);
    let (mut accepted, mut refused, mut resets, mut ceilings) = (0, 0, 0, 0);
    let (mut between_sides, mut through_groups) = (0, 0);
    for _ in 0..rules {
        let rule = random_rule(&mut random, bounds);
        let Some((room, head, built)) = build_and_compare(&rule) else { continue };
        resets += room.cells.iter().filter(|&&cell| cell % 2 == 1).count();
        ceilings += usize::from(rule.ceiling.is_some_and(|ceiling| u64::from(ceiling) > rule.largest()));
        for _ in 0..words {
            let word = random_word(&mut random, &rule, events);
            let runs = run_and_compare(&rule, &word, &room, &head, &built);
            match runs.accepting.is_empty() {
                true => refused += 1,
                false => accepted += 1,
            }
            between_sides += usize::from(some_run_takes(&rule, &runs, PlainEdge::resets_between_sides));
            through_groups += usize::from(some_run_takes(&rule, &runs, PlainEdge::has_groups));
        }
    }
    println!("{accepted} accepted, {refused} not, {resets} cells with a reset, {ceilings} ceilings above cm");
    println!("{between_sides} accepted with a reset that is pinned from both sides");
    println!("{through_groups} accepted with an edge that has groups");
    assert!(accepted > rules && refused > rules && resets > rules / 2, "too few of some kind");
    assert!(ceilings > rules / 8, "too few ceilings");
    assert!(between_sides > rules / 8, "too few pins from both sides");
    assert!(through_groups > rules / 8, "too few groups");
}

/// Whether some accepting run takes such an edge.
fn some_run_takes(rule: &PlainRule, runs: &Runs, such: fn(&PlainEdge) -> bool) -> bool {
    let mut taken = runs.accepting.iter().flat_map(|(_, edges)| edges);
    taken.any(|&edge| such(&rule.edges[edge as usize]))
}

/// Reads, writes and builds a rule and compares each with what the plain rule says.
fn build_and_compare(rule: &PlainRule) -> Option<(Room, Head, Built)> {
    let plain = construct(rule, 400)?;
    let width = 2 * rule.largest() as usize + 2;
    let row_cells = width * usize::from(rule.symbols);
    let mut pool = plain.row_codes(rule).concat();
    let (count, total) = (plain.rows.len(), pool.len());
    let scratch = rule.code_count().div_ceil(32) as usize;
    let mut room = Room::new(scratch, count * row_cells + 3, 3 * count + 2, total + 2, 11);

    let head = room.read(&rule.file()).unwrap();
    assert_eq!(check_rule(&head, &room.edges), Ok(()));
    compare_written(rule, &room, &head);

    let built = room.build(&head).unwrap();
    assert_eq!((built.rows, built.pool), (count as u32, total as u32));
    assert_eq!(u64::from(built.largest), rule.largest());
    let (mut cells, mut rows) = (plain.cell_numbers(), plain.row_numbers(rule));
    cells.extend([0; 3]);
    rows.extend([0; 2]);
    pool.extend([0; 2]);
    assert_eq!(room.cells, cells);
    assert_eq!(room.rows, rows);
    assert_eq!(room.pool, pool);
    assert!(room.scratch.iter().all(|&number| number == 0));
    assert_eq!(check_table(&built, &room.cells, &room.rows, &room.pool), Ok(()));
    compare_tight_room(&head, &room, count, row_cells, total);
    compare_poked_verdicts(&mut room, &built);
    compare_listing(rule, &room, &built);
    Some((room, head, built))
}

/// What is written is the file without its ceiling, and one byte less than that is 27.
fn compare_written(rule: &PlainRule, room: &Room, head: &Head) {
    let file = rule.written_file();
    let mut out = vec![7; file.len() + 6];
    assert_eq!(write_rule(head, &room.edges, &mut out), Ok(file.len()));
    assert_eq!(out, [&file[..], &[7; 6]].concat());
    let mut short = vec![7; file.len() - 1];
    assert_eq!(write_rule(head, &room.edges, &mut short), refusal(27, 0));
    assert!(short.iter().all(|&byte| byte == 7));
    assert_eq!(write_rule(head, &room.edges, &mut out[..file.len()]), Ok(file.len()));
    let mut again = Room::listing(2);
    assert_eq!(again.read(&file), Ok(*head));
    assert_eq!(again.edges, room.edges);
    assert_eq!(list_table(&rule.file()), list_table(&file));
}

/// One row, cell or code less than needed is 23 or 24 and leaves zeros; just enough is enough.
fn compare_tight_room(head: &Head, room: &Room, count: usize, row_cells: usize, total: usize) {
    let scratch = room.scratch.len();
    let tries = [
        (count * row_cells, 3 * count, total, None),
        (count * row_cells - 1, 3 * count, total, Some(23)),
        (count * row_cells, 3 * count - 1, total, Some(23)),
        (count * row_cells, 3 * count - 2, total, Some(23)),
        (count * row_cells, 3 * count - 3, total, Some(23)),
    ];
    let short_pool = (count * row_cells, 3 * count, total.saturating_sub(1), Some(24));
    let tries = tries.into_iter().chain((total > 0).then_some(short_pool));
    for (cells, rows, pool, number) in tries {
        let mut tight = Room::new(scratch + 1, cells, rows, pool, 8);
        tight.scratch.fill(u32::MAX);
        tight.edges.copy_from_slice(&room.edges);
        let outcome = tight.build(head);
        assert!(tight.scratch.iter().all(|&number| number == 0));
        match number {
            None => assert!(outcome.is_ok()),
            Some(number) => {
                assert_eq!(outcome, refusal(number, 0));
                for table in [&tight.cells, &tight.rows, &tight.pool] {
                    assert!(table.iter().all(|&number| number == 0));
                }
            }
        }
    }
}

/// Any stored verdict but the right one is 25.
fn compare_poked_verdicts(room: &mut Room, built: &Built) {
    for row in 0..built.rows as usize {
        let right = room.rows[3 * row + 2];
        for wrong in [1 - right, 2] {
            room.rows[3 * row + 2] = wrong;
            assert_eq!(check_table(built, &room.cells, &room.rows, &room.pool), refusal(25, 0));
        }
        room.rows[3 * row + 2] = right;
    }
}

/// The listing is the built tables line by line, if they fit its room.
fn compare_listing(rule: &PlainRule, room: &Room, built: &Built) {
    let width = 2 * built.largest as usize + 2;
    let row_cells = width * built.symbols as usize;
    let used = built.rows as usize * row_cells;
    if used > 16_384 || built.rows > 682 || built.pool > 8_192 {
        assert!(list_table(&rule.file()).starts_with(b"no 2"));
        return;
    }
    let mut lines = vec![vec![built.rows, built.pool, built.symbols, width as u32]];
    for (row, cells) in room.cells[..used].chunks(row_cells).enumerate() {
        let [start, length, verdict] = room.rows[3 * row..][..3] else { unreachable!() };
        let codes = &room.pool[start as usize..][..length as usize];
        lines.push([&[row as u32, verdict, length], codes].concat());
        lines.extend(cells.chunks(width).map(|line| line.to_vec()));
    }
    let text = String::from_utf8(list_table(&rule.file())).unwrap();
    let listed: Vec<Vec<u32>> =
        text.lines().map(|line| line.split(' ').map(|number| number.parse().unwrap()).collect()).collect();
    assert_eq!(listed, lines);
}

/// Runs a word by every runner, compares with all its runs, and returns these.
fn run_and_compare(rule: &PlainRule, word: &PlainWord, room: &Room, head: &Head, built: &Built) -> Runs {
    let runs = enumerate(rule, word);
    let accepted = !runs.accepting.is_empty();
    let about = || format!("{rule:?} {word:?}");
    assert_eq!(room.table(built, word), Ok(accepted), "{}", about());
    assert_eq!(room.branch(head, word), Ok(branch(rule, word, &runs)), "{}", about());
    compare_follower(rule, word, room, built);

    let size = 2 * (1 + usize::from(rule.clocks));
    let most = runs.configurations.iter().map(|set| set.len()).max().unwrap();
    let mut scratch = vec![6; most * size + size - 1];
    assert_eq!(room.exact(head, word, &mut scratch), Ok(accepted), "{}", about());
    assert!(scratch.iter().all(|&number| number == 0));
    if most > 0 {
        let place = runs.configurations.iter().position(|set| set.len() == most).unwrap();
        let mut scratch = vec![6; most * size - 1];
        assert_eq!(room.exact(head, word, &mut scratch), refusal(26, place), "{}", about());
        assert!(scratch.iter().all(|&number| number == 0));
    }
    runs
}

/// The least accepting run, or what held the rule back, as the branch runner returns it.
fn branch(rule: &PlainRule, word: &PlainWord, runs: &Runs) -> Branch {
    let Some((start, taken)) = runs.accepting.iter().min() else {
        let held = if word.symbols.is_empty() { None } else { held_back(rule, word) };
        return Branch { held, ..Branch::default() };
    };
    let mut edges = [0; 12];
    edges[..taken.len()].copy_from_slice(taken);
    Branch { found: true, start: u32::from(*start), edges, held: None }
}

/// The follower's verdict after each event is that of the word so far.
fn compare_follower(rule: &PlainRule, word: &PlainWord, room: &Room, built: &Built) {
    let mut follower = start_follower(word.grain).unwrap();
    for event in 0..word.symbols.len() {
        let (symbol, stamp) = (word.symbols[event], word.stamps[event]);
        let (verdict, after) =
            follow_event(follower, built, &room.cells, &room.rows, &room.pool, symbol, stamp).unwrap();
        let so_far = PlainWord {
            grain: word.grain,
            symbols: word.symbols[..=event].to_vec(),
            stamps: word.stamps[..=event].to_vec(),
        };
        assert_eq!(verdict, !enumerate(rule, &so_far).accepting.is_empty());
        assert_eq!(room.rows[3 * after.row as usize + 2], u32::from(verdict));
        assert_eq!((after.grain, after.last_stamp, after.count), (word.grain, stamp, event as u32 + 1));
        follower = after;
    }
}
