//! Does one table allow only what another allows: pairs of shipped rules both ways, every word shown run on both and
//! none shorter, 25 and 35 to 37 at their bounds, and what the call leaves in the lent rooms.

mod common;

use alderskein::raw::{self, Built, Inclusion};
use alderskein::{Allows, LeastRun, Room, Rule, Size, Stamp, Table, Word, Words, EVENTS, JOINT_STATES};
use common::{followed, record, refused, word, worked_rule, worked_table};

/// A shipped rule.
macro_rules! shipped {
    ($name:literal) => {
        Rule::read(include_bytes!(concat!("../../../examples/", $name, ".rule"))).unwrap()
    };
}

/// The symbols of the shipped rules of three.
const LOW: u16 = 0;
const PULSE: u16 = 2;

/// What the lent rooms are filled with.
const FILL: u16 = 7;

/// Room for the configurations of every rule here.
const CONFIGURATIONS: usize = 64;

/// The shipped rules over low return, good return and pulse, by their names.
fn over_three() -> [(&'static str, Rule); 7] {
    [
        ("window", shipped!("window")),
        ("step", shipped!("step")),
        ("nofinal", shipped!("nofinal")),
        ("site", shipped!("site")),
        ("strict", shipped!("strict")),
        ("nozero", shipped!("nozero")),
        ("empty", shipped!("empty")),
    ]
}

fn table(rule: &Rule) -> Table {
    rule.build(Room::default()).unwrap()
}

fn allows(first: &Rule, second: &Rule) -> Allows {
    table(first).allows_only(&table(second)).unwrap()
}

/// What table runner, follower, exact runner and, for a short word, the search by branch say of a word, which is one.
fn verdict(rule: &Rule, word: &Word) -> bool {
    let table = table(rule);
    let yes = table.run(word).unwrap();
    assert_eq!(followed(&table, word), yes, "{word}");
    assert_eq!(rule.accepts(word, CONFIGURATIONS), Ok(yes), "{word}");
    if word.len() <= raw::BRANCH_EVENTS {
        assert_eq!(matches!(rule.least_run(word).unwrap(), LeastRun::Found(_)), yes, "{word}");
    }
    yes
}

/// Checks that every runner says yes of the word by the first rule and no by the second.
fn refutes(first: &Rule, second: &Rule, word: &Word) {
    assert_eq!(word.grain(), 2);
    assert_eq!((verdict(first, word), verdict(second, word)), (true, false), "{word}");
}

/// The length of the shortest listed word that only the first table accepts.
fn shortest_listed(first: &Table, second: &Table, size: Size) -> Option<usize> {
    let accepts = |table: &Table, word: &Word| table.run(word).unwrap();
    let mut words = Words::up_to(size).unwrap().map(Word::from);
    words.find(|word| accepts(first, word) && !accepts(second, word)).map(|word| word.len())
}

#[test]
fn a_rule_allows_only_what_it_allows_itself() {
    let others = [worked_rule(), shipped!("second"), shipped!("ring")].map(|rule| ("another", rule));
    for (name, rule) in over_three().into_iter().chain(others) {
        assert_eq!(allows(&rule, &rule), Allows::Only, "{name}");
    }
}

/// The words that are the only shortest ones.
#[test]
fn looser_and_stricter_rules_both_ways() {
    let (window, site, strict) = (shipped!("window"), shipped!("site"), shipped!("strict"));
    assert_eq!(allows(&window, &site), Allows::Only);
    assert_eq!(allows(&strict, &window), Allows::Only);
    assert_eq!(allows(&strict, &site), Allows::Only);
    let between_pulses = word(2, &[(PULSE, 2), (LOW, 3)]);
    refutes(&site, &window, &between_pulses);
    assert_eq!(allows(&site, &window), Allows::More(between_pulses));
    let echo = word(2, &[(PULSE, 2), (PULSE, 2)]);
    refutes(&window, &strict, &echo);
    assert_eq!(allows(&window, &strict), Allows::More(echo));
}

/// Beside the answers a list of words: on yes none refutes it, else none that is shorter than the word shown.
#[test]
fn every_pair_of_shipped_rules() {
    let size = Size { symbols: 3, events: 3, seconds: 3 };
    let (mut yes, mut no) = (0, 0);
    for (name, first) in over_three() {
        for (other, second) in over_three() {
            let listed = shortest_listed(&table(&first), &table(&second), size);
            match allows(&first, &second) {
                Allows::Only => {
                    assert_eq!(listed, None, "{name} and {other}");
                    yes += 1;
                }
                Allows::More(word) => {
                    refutes(&first, &second, &word);
                    assert_eq!(listed, Some(word.len()), "{name} and {other}");
                    no += 1;
                }
            }
        }
    }
    assert_eq!((yes, no), (24, 25));
}

#[test]
fn two_rules_over_two_symbols() {
    let (worked, second) = (worked_rule(), shipped!("second"));
    assert_eq!(allows(&worked, &second), Allows::More(Word::new(2)), "the empty word");
    refutes(&worked, &second, &Word::new(2));
    let Allows::More(word) = allows(&second, &worked) else {
        panic!("the second table has words of its own")
    };
    refutes(&second, &worked, &word);
    assert_eq!(word.len(), 2);
}

#[test]
fn a_rule_that_can_never_show_0_allows_only_what_the_empty_rule_allows() {
    let (empty, nozero) = (shipped!("empty"), shipped!("nozero"));
    assert_eq!(allows(&nozero, &empty), Allows::Only);
    for (name, rule) in over_three() {
        assert_eq!(allows(&nozero, &rule), Allows::Only, "{name}");
        assert_eq!(allows(&empty, &rule), Allows::Only, "{name}");
        let never = allows(&rule, &empty) == Allows::Only;
        assert_eq!(never, ["nozero", "empty"].contains(&name), "{name}");
    }
}

#[test]
fn with_one_of_two_final_locations_left_out_it_shows_0_still() {
    let (nofinal, window, empty) = (shipped!("nofinal"), shipped!("window"), shipped!("empty"));
    assert_eq!(allows(&nofinal, &window), Allows::Only);
    assert_eq!(allows(&nofinal, &empty), Allows::More(Word::new(2)), "0 at the start");
    let Allows::More(word) = allows(&window, &nofinal) else { panic!("measuring shows 0") };
    refutes(&window, &nofinal, &word);
    assert_eq!(word.len(), 2);
    assert_eq!((word.symbols()[0], word.stamps()[0]), (PULSE, 2), "the head begins to measure at 1 s");
}

/// A table of one symbol filled by hand: each event leads to the next row, and these rows show 0.
fn ring(row_count: u32, yes: impl Fn(u32) -> bool) -> Table {
    let built =
        Built { locations: 2, symbols: 1, clocks: 1, top: 0, ends: 0b10, rows: row_count, total: row_count };
    let cells = (0..row_count).flat_map(|row| [2 * ((row + 1) % row_count); 2]).collect();
    let rows = (0..row_count).flat_map(|row| [row, 1, u32::from(yes(row))]).collect();
    let pool = (0..row_count).map(|row| if yes(row) { 2 } else { 0 }).collect();
    Table::from_parts(built, cells, rows, pool).unwrap()
}

/// Rings of 64 and 65 rows: words of so many events, below 4,160, are yes by the first and no by the second, no others.
fn only_of(events: u32) -> (Table, Table) {
    (ring(64, |row| row == events % 64), ring(65, |row| row != events % 65))
}

/// So many events at the start.
fn at_start(events: usize) -> Word {
    (0..events).fold(Word::new(2), |word, _| word.with(0, Stamp(0)))
}

/// Lent rooms, filled, and the call over them.
#[derive(Clone, PartialEq, Debug)]
struct Lent {
    scratch: Vec<u32>,
    symbols: Vec<u16>,
    stamps: Vec<u32>,
}

impl Lent {
    fn new(scratch: usize, symbols: usize, stamps: usize) -> Lent {
        let scratch = vec![FILL.into(); scratch];
        Lent { scratch, symbols: vec![FILL; symbols], stamps: vec![FILL.into(); stamps] }
    }

    /// The same rooms with zeros.
    fn zero(&self) -> Lent {
        let scratch = vec![0; self.scratch.len()];
        Lent { scratch, symbols: vec![0; self.symbols.len()], stamps: vec![0; self.stamps.len()] }
    }

    #[rustfmt::skip]
    fn ask(&mut self, first: (Built, &Table), second: (Built, &Table)) -> Inclusion {
        let ([cells, rows, pool], [cells2, rows2, pool2]) = (first.1.parts(), second.1.parts());
        let (scratch, symbols, stamps) = (&mut self.scratch, &mut self.symbols, &mut self.stamps);
        raw::check_inclusion(
            first.0, cells, rows, pool, second.0, cells2, rows2, pool2, scratch, symbols, stamps,
        )
    }
}

/// Joint states of two tables.
fn joint_states(first: &Table, second: &Table) -> usize {
    [first, second].map(|table| table.row_count() * table.interval_count()).iter().product()
}

/// Checks a refusal before the search, which leaves what the rooms held.
fn refused_untouched(first: (Built, &Table), second: (Built, &Table), room: Lent, number: u8) {
    let mut lent = room.clone();
    assert_eq!(lent.ask(first, second), Inclusion { number, ..Inclusion::default() });
    assert_eq!(lent, room, "{number} touches nothing");
}

/// Checks 37, which leaves zeros.
fn refused_37(first: &Table, second: &Table, room: Lent) {
    let mut lent = room.clone();
    let inclusion = lent.ask((first.built(), first), (second.built(), second));
    assert_eq!(inclusion, Inclusion { number: 37, ..Inclusion::default() });
    assert_eq!(lent, room.zero());
}

/// The word shown, of so many events: only the first table accepts it, and zeros are left past it and in the scratch.
fn shown(first: &Table, second: &Table, room: Lent, events: usize) -> Word {
    let mut lent = room.clone();
    let inclusion = lent.ask((first.built(), first), (second.built(), second));
    assert_eq!(inclusion, Inclusion { events, ..Inclusion::default() });
    let front = lent.symbols[..events].iter().zip(&lent.stamps[..events]);
    let word = front.fold(Word::new(2), |word, (&symbol, &stamp)| word.with(symbol, Stamp(stamp)));
    assert_eq!((first.run(&word), second.run(&word)), (Ok(true), Ok(false)), "{word}");
    lent.symbols[..events].fill(0);
    lent.stamps[..events].fill(0);
    assert_eq!(lent, room.zero());
    word
}

/// Checks yes, which leaves zeros.
fn included(first: &Table, second: &Table, room: Lent) {
    let mut lent = room.clone();
    let inclusion = lent.ask((first.built(), first), (second.built(), second));
    assert_eq!(inclusion, Inclusion { included: true, ..Inclusion::default() });
    assert_eq!(lent, room.zero());
}

#[test]
fn tables_filled_by_hand_are_answered_like_any_other() {
    let (all, even, none) = (ring(1, |_| true), ring(2, |row| row == 0), ring(3, |_| false));
    for (first, second) in [(&even, &all), (&none, &even), (&none, &all), (&all, &all)] {
        assert_eq!(first.allows_only(second), Ok(Allows::Only));
        included(first, second, Lent::new(joint_states(first, second), 3, 3));
    }
    for (first, second, events) in [(&all, &even, 1), (&even, &none, 0), (&all, &none, 0)] {
        let Ok(Allows::More(word)) = first.allows_only(second) else { panic!("{events} events show it") };
        assert_eq!((word.len(), first.run(&word), second.run(&word)), (events, Ok(true), Ok(false)));
    }
}

#[test]
fn tables_out_of_shape_are_25_the_first_and_the_second() {
    let (worked, window) = (worked_table(), table(&shipped!("window")));
    let bad = Built { rows: 0, ..worked.built() };
    for scratch in [0, 144] {
        let room = || Lent::new(scratch, 2, 3);
        refused_untouched((bad, &worked), (worked.built(), &worked), room(), 25);
        refused_untouched((worked.built(), &worked), (bad, &worked), room(), 25);
        refused_untouched((bad, &worked), (window.built(), &window), room(), 25);
        refused_untouched((window.built(), &window), (bad, &worked), room(), 25);
    }
}

#[test]
fn unequal_counts_of_symbols_are_35() {
    let (worked, window) = (worked_table(), table(&shipped!("window")));
    for (first, second) in [(&worked, &window), (&window, &worked)] {
        assert_eq!(first.allows_only(second), refused(35, 0));
        for scratch in [0, joint_states(first, second)] {
            let room = Lent::new(scratch, 0, 9);
            refused_untouched((first.built(), first), (second.built(), second), room, 35);
        }
    }
    let (rings, many) = (table(&shipped!("rings")), table(&back_in_the_word(9)));
    assert!(JOINT_STATES < joint_states(&many, &rings));
    assert_eq!(many.allows_only(&rings), refused(35, 0), "35 before 36");
}

/// Accepts the words over two symbols whose symbol so far back from the end is 1: two to that power rows.
fn back_in_the_word(back: u16) -> Rule {
    let mut records = vec![record(1, &[back + 1, 2, 1]), record(2, &[0]), record(3, &[back])];
    records.extend([[0, 0, 0], [0, 0, 1], [0, 1, 1]].map(|[from, to, on]| record(5, &[from, to, on, 0])));
    for location in 1..back {
        records.extend([0, 1].map(|symbol| record(5, &[location, location + 1, symbol, 0])));
    }
    Rule::read(&records.concat()).unwrap()
}

#[test]
fn a_scratch_with_fewer_numbers_than_joint_states_is_36() {
    let (site, window) = (table(&shipped!("site")), table(&shipped!("window")));
    let states = joint_states(&site, &window);
    let word = word(2, &[(PULSE, 2), (LOW, 3)]);
    for scratch in [0, 1, states - 1] {
        let room = || Lent::new(scratch, 2, 2);
        refused_untouched((site.built(), &site), (window.built(), &window), room(), 36);
        refused_untouched((window.built(), &window), (site.built(), &site), room(), 36);
        refused_untouched((site.built(), &site), (window.built(), &window), Lent::new(scratch, 0, 0), 36);
    }
    for scratch in [states, states + 1, 2 * states] {
        assert_eq!(shown(&site, &window, Lent::new(scratch, 2, 2), 2), word);
        included(&window, &site, Lent::new(scratch, 2, 2));
    }
}

/// So many locations in a ring, the last one final, and one to which no run comes, for a constant: R · W is a multiple
/// of 50.
fn ring_with_24(locations: u16) -> Table {
    let mut records = vec![record(1, &[locations + 1, 1, 1]), record(2, &[0]), record(3, &[locations - 1])];
    records.extend((0..locations).map(|from| record(5, &[from, (from + 1) % locations, 0, 0])));
    records.push(record(5, &[locations, locations, 0, 0, 0, 1, 24]));
    table(&Rule::read(&records.concat()).unwrap())
}

#[test]
fn more_than_a_million_joint_states_are_36_in_any_scratch() {
    let (twenty, more) = (ring_with_24(20), ring_with_24(21));
    assert_eq!(joint_states(&twenty, &twenty), JOINT_STATES);
    assert_eq!(twenty.allows_only(&twenty), Ok(Allows::Only), "just a million");
    included(&twenty, &twenty, Lent::new(JOINT_STATES, 0, 0));
    let states = joint_states(&twenty, &more);
    assert_eq!(states, 1_050_000);
    for (first, second) in [(&twenty, &more), (&more, &twenty), (&more, &more)] {
        assert_eq!(first.allows_only(second), refused(36, 0));
        let room = Lent::new(2 * states, 2, 2);
        refused_untouched((first.built(), first), (second.built(), second), room, 36);
    }
    let rings = table(&shipped!("rings"));
    assert_eq!(joint_states(&rings, &rings), 1_016_064);
    assert_eq!(rings.allows_only(&rings), refused(36, 0));
}

#[test]
fn a_word_that_does_not_fit_its_room_is_37() {
    let (site, window) = (table(&shipped!("site")), table(&shipped!("window")));
    let scratch = joint_states(&site, &window) + 5;
    let word = word(2, &[(PULSE, 2), (LOW, 3)]);
    for (symbols, stamps) in [(2, 2), (3, 3), (2, 9), (9, 2), (EVENTS + 1, 2)] {
        assert_eq!(shown(&site, &window, Lent::new(scratch, symbols, stamps), 2), word);
    }
    for (symbols, stamps) in [(1, 1), (1, 2), (2, 1), (0, 9), (9, 1), (0, 0)] {
        refused_37(&site, &window, Lent::new(scratch, symbols, stamps));
        included(&window, &site, Lent::new(scratch, symbols, stamps));
    }
}

#[test]
fn the_empty_word_needs_no_room() {
    let (nofinal, empty) = (table(&shipped!("nofinal")), table(&shipped!("empty")));
    let scratch = joint_states(&nofinal, &empty);
    for (symbols, stamps) in [(0, 0), (0, 3), (3, 0), (3, 3)] {
        shown(&nofinal, &empty, Lent::new(scratch, symbols, stamps), 0);
    }
}

#[test]
fn words_of_4_096_events_are_shown_and_of_4_097_are_37() {
    for events in [5, EVENTS - 1, EVENTS] {
        let (first, second) = only_of(events as u32);
        let Ok(Allows::More(word)) = first.allows_only(&second) else { panic!("{events} events are shown") };
        assert_eq!((word.grain(), word.len()), (2, events));
        assert_eq!((first.run(&word), second.run(&word)), (Ok(true), Ok(false)));
        let scratch = joint_states(&first, &second);
        shown(&first, &second, Lent::new(scratch, events, events), events);
        shown(&first, &second, Lent::new(scratch, events + 9, events), events);
        refused_37(&first, &second, Lent::new(scratch, events - 1, events));
        refused_37(&first, &second, Lent::new(scratch, EVENTS, events - 1));
    }
    let (first, second) = only_of(EVENTS as u32 + 1);
    assert_eq!(first.allows_only(&second), refused(37, 0));
    for room in [0, EVENTS, EVENTS + 1, 2 * EVENTS] {
        refused_37(&first, &second, Lent::new(joint_states(&first, &second), room, room));
    }
}

#[test]
fn the_rules_for_long_words() {
    let (ring, rings) = (shipped!("ring"), shipped!("rings"));
    assert_eq!(table(&ring).allows_only(&table(&rings)), refused(37, 0));
    let one_less = at_start(EVENTS);
    assert_eq!((verdict(&ring, &one_less), verdict(&rings, &one_less)), (false, true));
    let Allows::More(word) = allows(&rings, &ring) else { panic!("rings accepts the empty word") };
    refutes(&rings, &ring, &word);
    assert!(word.is_empty());
}

#[test]
fn a_word_is_printed_in_seconds() {
    assert_eq!(word(2, &[(PULSE, 2), (LOW, 3)]).to_string(), "2 at 1 s, 0 at 1.5 s");
    assert_eq!(Word::new(2).to_string(), "no event");
    assert_eq!(
        word(2, &[(15, 0), (0, 1), (0, u32::MAX)]).to_string(),
        "15 at 0 s, 0 at 0.5 s, 0 at 2147483647.5 s"
    );
    assert_eq!(word(1, &[(1, 30)]).to_string(), "1 at 30 s");
    assert_eq!(word(1_000, &[(0, 999), (0, 1_500)]).to_string(), "0 at 999/1000 s, 0 at 1.5 s");
    assert_eq!(word(3, &[(0, 3), (1, 7)]).to_string(), "0 at 1 s, 1 at 7/3 s");
    assert_eq!(word(0, &[(0, 5)]).to_string(), "0 at 5/0 s", "refused where it is run");
    assert_eq!(word(u32::MAX, &[(0, u32::MAX - 1)]).to_string(), "0 at 4294967294/4294967295 s");
}
