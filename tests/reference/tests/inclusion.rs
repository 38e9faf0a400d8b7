//! Whether a table accepts only what another accepts: refusals 25 and 35 to 37 with what the lent memory holds
//! after them, words of the fewest events, and random tables and rules against enumerations of all words.

mod common;

use common::{
    random_rule, random_table, random_word, record, refusal, whole_case, Bounds, Filled, PlainRule,
    PlainWord, Random, Room,
};
use reference::{check_inclusion, run_exact, Built, Head, Inclusion, Refusal};

const YES: Result<Inclusion, Refusal> = Ok(Inclusion { included: true, events: 0 });

/// Lent memory.
#[derive(Clone, Debug, PartialEq)]
struct Lent {
    scratch: Vec<u32>,
    symbols: Vec<u16>,
    stamps: Vec<u32>,
}

impl Lent {
    fn new(scratch: usize, symbols: usize, stamps: usize, fill: u16) -> Self {
        let wide = u32::from(fill);
        Lent { scratch: vec![wide; scratch], symbols: vec![fill; symbols], stamps: vec![wide; stamps] }
    }

    /// As long, and all zero.
    fn zero(&self) -> Self {
        Lent::new(self.scratch.len(), self.symbols.len(), self.stamps.len(), 0)
    }

    fn check(&mut self, first: &Filled, second: &Filled) -> Result<Inclusion, Refusal> {
        check_inclusion(
            &first.built,
            &first.cells,
            &first.rows,
            &first.pool,
            &second.built,
            &second.cells,
            &second.rows,
            &second.pool,
            &mut self.scratch,
            &mut self.symbols,
            &mut self.stamps,
        )
    }
}

const FILLS: [u16; 3] = [0, 9, u16::MAX];

/// The call is refused and leaves everything as it was.
fn refused(first: &Filled, second: &Filled, scratch: usize, number: u8) {
    for (symbols, stamps) in [(0, 0), (7, 5), (4097, 5000)] {
        for fill in FILLS {
            let mut lent = Lent::new(scratch, symbols, stamps, fill);
            assert_eq!(lent.check(first, second), refusal(number, 0));
            assert_eq!(lent, Lent::new(scratch, symbols, stamps, fill), "{number} leaves all as it was");
        }
    }
}

/// The call is refused with 37 and leaves zeros.
fn too_long(first: &Filled, second: &Filled, symbols: usize, stamps: usize) {
    for fill in FILLS {
        let mut lent = Lent::new(first.states() * second.states() + 2, symbols, stamps, fill);
        assert_eq!(lent.check(first, second), refusal(37, 0), "rooms of {symbols} and {stamps}");
        assert_eq!(lent, lent.zero());
    }
}

/// The first accepts only what the second accepts, in word rooms of any length; all ends as zero.
fn included(first: &Filled, second: &Filled) {
    for (symbols, stamps) in [(0, 0), (3, 0), (2, 6)] {
        let mut lent = Lent::new(first.states() * second.states(), symbols, stamps, 9);
        assert_eq!(lent.check(first, second), YES);
        assert_eq!(lent, lent.zero());
    }
}

/// The word shown in word rooms of these lengths, run on both tables; all past it is zero.
fn shown(first: &Filled, second: &Filled, symbols: usize, stamps: usize) -> PlainWord {
    let mut words = Vec::new();
    for fill in FILLS {
        let mut lent = Lent::new(first.states() * second.states(), symbols, stamps, fill);
        let inclusion = lent.check(first, second).unwrap();
        assert!(!inclusion.included);
        let Lent { scratch, symbols, stamps } = lent;
        let (symbols, no_symbols) = symbols.split_at(inclusion.events);
        let (stamps, no_stamps) = stamps.split_at(inclusion.events);
        assert!(scratch.iter().all(|&number| number == 0));
        assert!(no_symbols.iter().all(|&symbol| symbol == 0));
        assert!(no_stamps.iter().all(|&stamp| stamp == 0));
        words.push(PlainWord { grain: 2, symbols: symbols.to_vec(), stamps: stamps.to_vec() });
    }
    let word = words.remove(0);
    assert!(words.iter().all(|other| other.symbols == word.symbols && other.stamps == word.stamps));
    assert_eq!((first.run(&word), second.run(&word)), (true, false), "{word:?}");
    word
}

/// How many events the word shown has; none if there is no such word.
fn fewest(first: &Filled, second: &Filled) -> Option<usize> {
    let mut lent = Lent::new(first.states() * second.states(), 0, 0, 3);
    match lent.check(first, second) {
        YES => None,
        Ok(_) => Some(0),
        Err(_) => Some(shown(first, second, 4096, 4096).symbols.len()),
    }
}

/// A rule and its table.
struct Made {
    head: Head,
    edges: Vec<u16>,
    table: Filled,
}

impl Made {
    /// Of a file; nothing if the table does not fit the listing's room.
    fn new(file: &[u8]) -> Option<Self> {
        let mut room = Room::listing(6);
        let head = room.read(file).unwrap();
        let built = room.build(&head).ok()?;
        let Room { edges, cells, rows, pool, .. } = room;
        Some(Made { head, edges, table: Filled { built, cells, rows, pool } })
    }

    /// By the exact runner, with room for 3 locations and, for each of 2 clocks, a reset at any event or none.
    fn exact(&self, word: &PlainWord) -> bool {
        let PlainWord { grain, symbols, stamps } = word;
        let mut scratch = vec![0; 18 * (symbols.len() + 1).pow(2)];
        run_exact(&self.head, &self.edges, *grain, symbols, stamps, &mut scratch).unwrap()
    }
}

/// The table of a rule with one location, all of it accepted, and one edge with these atoms.
fn one_edge(atoms: &[u16]) -> Filled {
    let sizes = [record(1, &[1, 1, 1]), record(2, &[0]), record(3, &[0])].concat();
    let edge = record(5, &[&[0, 0, 0, 0], atoms].concat());
    Made::new(&[sizes, edge].concat()).unwrap().table
}

/// The whole case, and the whole case without a final location.
#[test]
fn the_example_of_the_protocol() {
    let whole = Made::new(&whole_case()).unwrap().table;
    let mut without = whole.clone();
    without.built.finals = 0;
    without.rows[2] = 0;
    for (symbols, stamps) in [(3, 3), (0, 0), (0, 1)] {
        assert!(shown(&whole, &without, symbols, stamps).symbols.is_empty());
    }
    included(&without, &whole);
    included(&whole, &whole);
    included(&without, &without);
}

#[test]
fn words_of_small_rules() {
    let less = |constant| one_edge(&[0, 0, constant]);
    let most = |constant| one_edge(&[0, 1, constant]);
    let (free, never) = (one_edge(&[]), less(0));
    let one_event = |first: &Filled, second: &Filled, stamps: &[u32]| {
        let word = shown(first, second, 1, 1);
        assert_eq!(word.symbols, [0]);
        assert!(stamps.contains(&word.stamps[0]), "{word:?}");
    };
    for constant in 0..=30 {
        one_event(&most(constant), &less(constant), &[2 * u32::from(constant)]);
        included(&less(constant), &most(constant));
        included(&most(constant), &free);
        one_event(&free, &most(constant), &[2 * u32::from(constant) + 1, 2 * u32::from(constant) + 2]);
        included(&never, &less(constant));
    }
    for (wide, narrow) in (1..=30).flat_map(|wide| (0..wide).map(move |narrow| (wide, narrow))) {
        included(&most(narrow), &less(wide));
        let stamps: Vec<u32> = (2 * u32::from(narrow) + 1..2 * u32::from(wide)).collect();
        one_event(&less(wide), &most(narrow), &stamps);
    }
}

/// At age at least 1 against at age above 1: there and back, at 1 s after 1 s.
#[test]
fn the_whole_case_against_a_stricter_one() {
    let mut file = whole_case();
    let whole = Made::new(&file).unwrap().table;
    let relation = file.len() - 4;
    file[relation] = 4;
    let stricter = Made::new(&file).unwrap().table;
    included(&stricter, &whole);
    let word = shown(&whole, &stricter, 2, 3);
    assert_eq!((word.symbols, word.stamps), (vec![0, 1], vec![2, 4]));
}

/// The window with its final location left out: a pulse at 1 s, then a good return or a pulse.
#[test]
fn the_window_against_one_without_a_final_location() {
    let edges: [&[u16]; 10] = [
        &[0, 0, 0, 0, 0, 0, 1],
        &[0, 0, 1, 0, 0, 0, 1],
        &[0, 1, 2, 1, 0, 2, 1],
        &[0, 0, 2, 0, 0, 2, 1],
        &[1, 1, 1, 0],
        &[1, 2, 0, 0],
        &[1, 1, 2, 1, 0, 2, 1],
        &[2, 2, 0, 0],
        &[2, 1, 1, 0],
        &[2, 2, 2, 1, 0, 2, 1],
    ];
    let edges: Vec<u8> = edges.iter().flat_map(|edge| record(5, edge)).collect();
    let front = [record(1, &[3, 3, 1]), record(2, &[0]), record(3, &[0])].concat();
    let window = Made::new(&[&front[..], &record(3, &[1]), &edges].concat()).unwrap().table;
    let without = Made::new(&[&front[..], &edges].concat()).unwrap().table;
    included(&without, &window);
    let word = shown(&window, &without, 2, 2);
    assert_eq!((word.symbols[0], word.stamps[0]), (2, 2));
    assert!(word.symbols[1] == 1 || (word.symbols[1], word.stamps[1]) == (2, 4), "{word:?}");
}

/// Every way out of shape, first in the first table, then in the second, before 35, 36 and 37.
#[test]
fn out_of_shape_is_25() {
    let whole = Made::new(&whole_case()).unwrap().table;
    let changes: [fn(&mut Filled); 14] = [
        |table| table.built = Built::default(),
        |table| table.built.locations = 33,
        |table| table.built.symbols = 17,
        |table| table.built.clocks = 0,
        |table| table.built.largest = 31,
        |table| table.built.rows = 0,
        |table| table.built.rows = 4097,
        |table| table.built.finals = 2,
        |table| table.built.pool += 1,
        |table| table.cells.truncate(23),
        |table| table.cells[23] = 6,
        |table| table.cells[1] = 3,
        |table| table.rows[2] = 0,
        |table| table.pool[1] = 6,
    ];
    for change in changes {
        let mut wrong = whole.clone();
        change(&mut wrong);
        for other in [&whole, &wrong, &Filled::all(1, 0, true), &Filled::all(2, 0, false)] {
            for scratch in [0, 144, 2000] {
                refused(&wrong, other, scratch, 25);
                refused(other, &wrong, scratch, 25);
            }
        }
    }
}

/// Before 36 and 37.
#[test]
fn unequal_symbols_are_35() {
    for (first, second) in [(1, 2), (2, 1), (16, 15), (1, 16)] {
        for largest in [0, 30] {
            let [yes, no] = [Filled::all(first, largest, true), Filled::all(second, 0, false)];
            for scratch in [0, 2 * yes.states(), 100_000] {
                refused(&yes, &no, scratch, 35);
                refused(&no, &yes, scratch, 35);
            }
        }
    }
    let long = |symbols| Filled::ring(symbols, 0, &vec![true; 4096]);
    refused(&long(1), &long(2), 100, 35);
    for symbols in 1..=16 {
        included(&Filled::all(symbols, 1, true), &Filled::all(symbols, 2, true));
    }
}

/// A number short of R · W · R · W is 36, before 37; just as many are enough.
#[test]
fn a_short_scratch_is_36() {
    for (first, second) in [(1, 1), (1, 5), (3, 2), (7, 7)] {
        for (largest, other_largest) in [(0, 0), (0, 2), (3, 1), (30, 30)] {
            let first = Filled::ring(2, largest, &vec![true; first]);
            let second = Filled::ring(2, other_largest, &vec![true; second]);
            let states = first.states() * second.states();
            refused(&first, &second, states - 1, 36);
            refused(&first, &second, 0, 36);
            for scratch in [states, states + 1] {
                let mut lent = Lent::new(scratch, 1, 2, 9);
                assert_eq!(lent.check(&first, &second), YES);
                assert_eq!(lent, lent.zero());
            }
        }
    }
    let after_three = Filled::ring(1, 0, &[false, false, false, true]);
    let never = Filled::all(1, 0, false);
    refused(&after_three, &never, 15, 36);
    too_long(&after_three, &never, 2, 2);
}

/// Rows and cm of two tables whose joint states come to so many, up to the most and above it.
#[test]
fn too_many_joint_states_are_36() {
    let enough = [(501, 0, 499, 0), (500, 0, 500, 0), (125, 3, 250, 1), (4096, 0, 61, 0), (4, 30, 2016, 0)];
    for (rows, largest, other_rows, other_largest) in enough {
        let first = Filled::ring(1, largest, &vec![true; rows]);
        let second = Filled::ring(1, other_largest, &vec![true; other_rows]);
        let states = first.states() * second.states();
        assert!((999_000..=1_000_000).contains(&states));
        refused(&first, &second, states - 1, 36);
        for scratch in [states, 1_000_000, 1_000_001] {
            let mut lent = Lent::new(scratch, 1, 1, 9);
            assert_eq!(lent.check(&first, &second), YES, "{states} joint states");
            assert_eq!(lent, lent.zero());
        }
    }
    let too_many = [
        (2809, 0, 89, 0, 1_000_004),
        (89, 0, 2809, 0, 1_000_004),
        (17 * 19, 2, 43, 5, 1_000_008),
        (1024, 15, 4096, 15, 1 << 32),
        (1025, 15, 4096, 15, (1 << 32) + (1 << 22)),
        (4096, 30, 4096, 30, 64_491_618_304),
    ];
    for (rows, largest, other_rows, other_largest, states) in too_many {
        let first = Filled::ring(1, largest, &vec![true; rows]);
        let second = Filled::ring(1, other_largest, &vec![false; other_rows]);
        assert_eq!(first.states() as u64 * second.states() as u64, states);
        for scratch in [0, 1_000_000, 1_000_100] {
            refused(&first, &second, scratch, 36);
        }
    }
    refused(&Filled::ring(1, 0, &[true; 2809]), &Filled::ring(1, 0, &[true; 89]), 1_000_004, 36);
}

/// Both rooms must hold the word; the shorter one counts.
#[test]
fn a_word_longer_than_the_room_is_37() {
    let never = Filled::all(1, 0, false);
    for events in 0..12 {
        let verdicts: Vec<bool> = (0..=events).map(|row| row == events).collect();
        let first = Filled::ring(1, 0, &verdicts);
        for (symbols, stamps) in (0..14).flat_map(|symbols| (0..14).map(move |stamps| (symbols, stamps))) {
            if symbols.min(stamps) < events {
                too_long(&first, &never, symbols, stamps);
            } else {
                assert_eq!(shown(&first, &never, symbols, stamps).symbols.len(), events);
            }
        }
        if let Some(short) = events.checked_sub(1) {
            too_long(&first, &never, 5000, short);
            too_long(&first, &never, short, 5000);
        }
    }
}

/// Rings of 64 and 65 rows are at these rows together after so many events, and not before.
fn rings(events: usize) -> [Filled; 2] {
    let first: Vec<bool> = (0..64).map(|row| row == events % 64).collect();
    let second: Vec<bool> = (0..65).map(|row| row != events % 65).collect();
    [Filled::ring(1, 0, &first), Filled::ring(1, 0, &second)]
}

#[test]
fn words_of_4096_events_are_shown_and_longer_ones_are_37() {
    let [first, second] = rings(4096);
    for (symbols, stamps) in [(4096, 4096), (4097, 4096), (4096, 5000), (5000, 5000)] {
        assert_eq!(shown(&first, &second, symbols, stamps).symbols.len(), 4096);
    }
    for (symbols, stamps) in [(4095, 4096), (4096, 4095), (4095, 5000), (0, 5000), (0, 0)] {
        too_long(&first, &second, symbols, stamps);
    }
    for events in [4097, 4100, 4159] {
        let [first, second] = rings(events);
        for (symbols, stamps) in [(0, 0), (4095, 4095), (4096, 4096), (4097, 4097), (9000, 9000)] {
            too_long(&first, &second, symbols, stamps);
        }
    }
    for events in [0, 1, 63, 64, 65, 4095] {
        let [first, second] = rings(events);
        assert_eq!(shown(&first, &second, events, events).symbols.len(), events);
    }
}

/// Rings that are at no such rows together, however long: yes, and not 37.
#[test]
fn rings_that_never_come_apart() {
    let first: Vec<bool> = (0..64).map(|row| row == 0).collect();
    let second: Vec<bool> = (0..66).map(|row| row % 2 == 0).collect();
    included(&Filled::ring(1, 0, &first), &Filled::ring(1, 0, &second));
    let evens: Vec<bool> = (0..64).map(|row| row % 2 == 0).collect();
    included(&Filled::ring(1, 0, &evens), &Filled::ring(1, 0, &[true, false]));
    included(&Filled::ring(1, 0, &[true, false]), &Filled::ring(1, 0, &evens));
    assert_eq!(fewest(&Filled::ring(1, 0, &evens), &Filled::ring(1, 0, &[true, false, true])), Some(4));
}

#[test]
fn none_is_in_all_and_all_in_all() {
    let mut random = Random(31);
    for _ in 0..300 {
        let symbols = random.between(1, 3) as u32;
        let table = random_table(&mut random, symbols, 50);
        for largest in 0..3 {
            let [none, all] = [false, true].map(|accepts| Filled::all(symbols, largest, accepts));
            included(&none, &table);
            included(&table, &all);
            included(&none, &all);
            assert_eq!(fewest(&all, &none), Some(0));
        }
        included(&table, &table);
    }
}

/// One cell alone leads to a row that accepts, for every symbol and interval, in either table.
#[test]
fn a_single_cell() {
    for (symbols, largest) in [(1, 0), (1, 30), (2, 3), (15, 1), (16, 0), (16, 2), (3, 30)] {
        let intervals = 2 * largest + 2;
        for place in 0..symbols * intervals {
            let mut cells = vec![0; 2 * (symbols * intervals) as usize];
            cells[place as usize] = 2;
            let [only, all_but] = [[false, true], [true, false]]
                .map(|verdicts| Filled::new(symbols, largest, &verdicts, cells.clone()));
            let [none, all] = [false, true].map(|accepts| Filled::all(symbols, 1, accepts));
            for (first, second) in [(&only, &none), (&all, &all_but)] {
                let word = shown(first, second, 1, 1);
                let interval = word.stamps[0].min(intervals - 1);
                assert_eq!(u32::from(word.symbols[0]) * intervals + interval, place);
            }
            included(&none, &all_but);
            included(&only, &all);
        }
    }
}

/// Pauses that matter are as long as the larger cm of the two, whichever of the tables has it.
#[test]
fn pauses_of_the_larger_cm() {
    for constant in 1..=30 {
        let equal = one_edge(&[0, 2, constant]);
        let above = one_edge(&[0, 4, constant]);
        let [never, free] = [one_edge(&[0, 0, 0]), one_edge(&[])];
        assert_eq!(shown(&equal, &never, 1, 1).stamps, [2 * u32::from(constant)]);
        assert!(shown(&above, &never, 1, 1).stamps[0] > 2 * u32::from(constant));
        assert!(shown(&free, &one_edge(&[0, 1, constant]), 1, 1).stamps[0] > 2 * u32::from(constant));
        included(&equal, &free);
        included(&above, &free);
    }
}

/// Two events: after 1 s, with or without a reset, and then by the guard given.
fn two_events(mask: u16, atoms: &[u16]) -> Filled {
    let sizes = [record(1, &[3, 1, 1]), record(2, &[0]), record(3, &[2])].concat();
    let edges = [record(5, &[0, 1, 0, mask, 0, 2, 1]), record(5, &[&[1, 2, 0, 0], atoms].concat())].concat();
    Made::new(&[sizes, edges].concat()).unwrap().table
}

/// One timer is reset at 1 s and the other is not: they stand apart, also when one is above its cm.
#[test]
fn timers_apart() {
    for constant in 1..=29 {
        let late = 2 * u32::from(constant) + 2;
        let reset = |relation| two_events(1, &[0, relation, constant]);
        let kept = |relation| two_events(0, &[0, relation, constant + 1]);
        for (first, second) in [(reset(1), kept(0)), (kept(1), reset(0)), (two_events(1, &[]), kept(0))] {
            let word = shown(&first, &second, 2, 2);
            assert_eq!(word.symbols, [0, 0]);
            assert_eq!(word.stamps[0], 2);
            let any_later = first.built.largest == 1;
            assert!(word.stamps[1] == late || any_later && word.stamps[1] > late, "{word:?}");
        }
        for relation in 0..=5 {
            included(&reset(relation), &kept(relation));
            included(&kept(relation), &reset(relation));
        }
        included(&reset(0), &two_events(1, &[]));
    }
}

/// The table with one cell leading elsewhere, or one verdict turned.
fn changed(random: &mut Random, table: &Filled) -> Filled {
    let mut verdicts: Vec<bool> = (0..table.built.rows as usize).map(|row| table.accepts(row)).collect();
    let mut cells = table.cells.clone();
    let (row, place) = (random.below(verdicts.len() as u64), random.below(cells.len() as u64));
    if random.chance(50) {
        verdicts[row as usize] ^= true;
    } else {
        cells[place as usize] = 2 * row as u32 + cells[place as usize] % 2;
    }
    Filled::new(table.built.symbols, table.built.largest, &verdicts, cells)
}

/// All words with D of so many events and pauses up to the one given.
fn all_words(grain: u32, symbols: u32, events: usize, longest: u32) -> Vec<PlainWord> {
    let mut words = vec![PlainWord::new(grain, &[])];
    for _ in 0..events {
        let mut longer = Vec::new();
        for word in &words {
            let last = word.stamps.last().copied().unwrap_or(0);
            for (pause, symbol) in
                (0..=longest).flat_map(|pause| (0..symbols).map(move |symbol| (pause, symbol)))
            {
                let mut word = word.clone();
                word.symbols.push(symbol as u16);
                word.stamps.push(last + pause);
                longer.push(word);
            }
        }
        words = longer;
    }
    words
}

/// No word with D that only the first accepts has fewer events than those given, or none is there at all. The
/// pauses go to just above the larger cm; the events go as far as there are no more than so many words.
fn no_shorter_word(
    accepts: &dyn Fn(&PlainWord) -> (bool, bool),
    grain: u32,
    symbols: u32,
    largest: u32,
    fewest: Option<usize>,
    most_words: u64,
) {
    let longest = grain * largest + 1;
    let ways = u64::from(symbols * (longest + 1));
    let mut events = 0;
    while ways.pow(events as u32) <= most_words && fewest.is_none_or(|fewest| events < fewest) {
        for word in all_words(grain, symbols, events, longest) {
            assert_ne!(accepts(&word), (true, false), "{word:?}, and not {fewest:?}");
        }
        events += 1;
    }
}

/// The fewest events of a word with D that only the first accepts, worked out backwards: the joint states from
/// which such a word of no event leads, of one event, and so on until there are no new ones.
fn backwards(first: &Filled, second: &Filled, grain: usize) -> Option<usize> {
    let ages = |table: &Filled| grain * table.built.largest as usize + 2;
    let interval = |table: &Filled, age: usize| {
        if age > grain * table.built.largest as usize {
            return table.intervals() - 1;
        }
        2 * (age / grain) + usize::from(age % grain != 0)
    };
    let after = |table: &Filled, (row, age): (usize, usize), pause: usize, symbol: usize| {
        let age = (age + pause).min(ages(table) - 1);
        let line = row * table.built.symbols as usize + symbol;
        let cell = table.cells[line * table.intervals() + interval(table, age)] as usize;
        (cell / 2, if cell % 2 == 1 { 0 } else { age })
    };
    let states = |table: &Filled| -> Vec<(usize, usize)> {
        let rows = 0..table.built.rows as usize;
        rows.flat_map(|row| (0..ages(table)).map(move |age| (row, age))).collect()
    };
    let place = |table: &Filled, (row, age): (usize, usize)| row * ages(table) + age;
    let (states, other_states) = (states(first), states(second));
    let longest = ages(first).max(ages(second)) - 1;
    let mut least = vec![vec![None; other_states.len()]; states.len()];
    for events in 0.. {
        let before = least.clone();
        for (&state, line) in states.iter().zip(&mut least) {
            for (&other, least) in other_states.iter().zip(line) {
                let leads = |pause, symbol| {
                    let next = place(first, after(first, state, pause, symbol));
                    before[next][place(second, after(second, other, pause, symbol))].is_some()
                };
                let apart = || first.accepts(state.0) && !second.accepts(other.0);
                let one_more =
                    || (0..=longest).any(|pause| (0..first.built.symbols as usize).any(|s| leads(pause, s)));
                if least.is_none() && if events == 0 { apart() } else { one_more() } {
                    *least = Some(events);
                }
            }
        }
        if least == before && events > 0 {
            break;
        }
    }
    least[0][0]
}

/// Random tables in any shape, and tables that differ a little.
#[test]
fn random_tables() {
    let mut random = Random(10);
    let (mut yes, mut lengths) = (0, [0; 8]);
    for _ in 0..600 {
        let symbols = random.between(1, 2) as u32;
        let first = random_table(&mut random, symbols, 30);
        let second = if random.chance(40) {
            changed(&mut random, &first)
        } else {
            random_table(&mut random, symbols, 80)
        };
        let found = fewest(&first, &second);
        match found {
            None => yes += 1,
            Some(events) => lengths[events.min(7)] += 1,
        }
        let accepts = |word: &PlainWord| (first.run(word), second.run(word));
        let largest = first.built.largest.max(second.built.largest);
        for grain in [1, 2, 3, 7] {
            no_shorter_word(&accepts, grain, symbols, largest, found, 3000);
        }
    }
    println!("included {yes}, words of 0 to 7 and more events {lengths:?}");
    assert!(yes > 100 && lengths[..5].iter().all(|&count| count > 10), "too few of some kind");
}

/// The number of events, whatever it is, against a search backwards in half seconds and in thirds.
#[test]
fn random_tables_backwards() {
    let mut random = Random(11);
    let (mut yes, mut lengths) = (0, [0; 11]);
    for _ in 0..800 {
        let symbols = random.between(1, 2) as u32;
        let first = with_last_verdict(&random_table(&mut random, symbols, 0), true);
        let second = if random.chance(30) {
            changed(&mut random, &first)
        } else {
            with_last_verdict(&random_table(&mut random, symbols, 100), false)
        };
        let found = fewest(&first, &second);
        for grain in [2, 3] {
            assert_eq!(backwards(&first, &second, grain), found, "{first:?} {second:?}");
        }
        match found {
            None => yes += 1,
            Some(events) => lengths[events.min(10)] += 1,
        }
    }
    println!("included {yes}, words of 0 to 10 and more events {lengths:?}");
    assert!(yes > 100 && lengths[..6].iter().all(|&count| count > 10), "too few of some kind");
    assert!(lengths[6..].iter().sum::<usize>() > 20, "too few long words");
}

/// The table with this verdict of its last row.
fn with_last_verdict(table: &Filled, accepts: bool) -> Filled {
    let last = table.built.rows as usize - 1;
    let mut verdicts: Vec<bool> = (0..last).map(|row| table.accepts(row)).collect();
    verdicts.push(accepts);
    Filled::new(table.built.symbols, table.built.largest, &verdicts, table.cells.clone())
}

/// A rule a little unlike the one given, with the same symbols.
fn changed_rule(random: &mut Random, rule: &PlainRule, bounds: &Bounds) -> PlainRule {
    let mut changed = rule.clone();
    let other = loop {
        let other = random_rule(random, bounds);
        if (other.locations, other.symbols, other.clocks) == (rule.locations, rule.symbols, rule.clocks) {
            break other;
        }
    };
    match random.below(4) {
        0 => changed.finals = other.finals,
        1 => changed.initial = other.initial,
        2 => changed.edges.truncate(random.below(rule.edges.len() as u64 + 1) as usize),
        _ => changed.edges.extend(other.edges.into_iter().take(2)),
    }
    changed.edges.sort_by_key(|edge| edge.kind);
    changed
}

/// Tables as built: the answer holds of the rules themselves, by the exact runner.
#[test]
fn random_rules() {
    let bounds = Bounds { locations: 3, symbols: 2, clocks: 2, edges: 10, constant: 2 };
    let mut random = Random(12);
    let (mut yes, mut lengths, mut accepted) = (0, [0; 5], 0);
    for _ in 0..1500 {
        let mut rule = random_rule(&mut random, &bounds);
        if random.chance(80) {
            (rule.initial, rule.finals) = (vec![0], vec![rule.locations - 1]);
        }
        let mut other = changed_rule(&mut random, &rule, &bounds);
        if random.chance(50) {
            (rule, other) = (other, rule);
        }
        let [Some(first), Some(second)] = [&rule, &other].map(|rule| Made::new(&rule.file())) else {
            continue;
        };
        if first.table.states() * second.table.states() > 1_000_000 {
            refused(&first.table, &second.table, 1_000_001, 36);
            continue;
        }
        if first.table.states() <= 1000 {
            included(&first.table, &first.table);
        }
        let found = fewest(&first.table, &second.table);
        match found {
            None => yes += 1,
            Some(events) => {
                let word = shown(&first.table, &second.table, events, events);
                assert_eq!((first.exact(&word), second.exact(&word)), (true, false), "{rule:?} {other:?}");
                lengths[events.min(4)] += 1;
            }
        }
        let accepts = |word: &PlainWord| (first.exact(word), second.exact(word));
        let largest = rule.largest().max(other.largest()) as u32;
        for grain in [1, 2, 3, 7] {
            no_shorter_word(&accepts, grain, rule.symbols.into(), largest, found, 300);
        }
        for _ in 0..20 {
            let word = random_word(&mut random, &rule, 8);
            let answers = accepts(&word);
            accepted += usize::from(answers.0);
            let shorter = found.is_none_or(|fewest| word.symbols.len() < fewest);
            assert!(!shorter || answers != (true, false), "{word:?}");
        }
    }
    println!("included {yes}, words of 0 to 4 and more events {lengths:?}, {accepted} accepted");
    assert!(
        yes > 50 && lengths[..4].iter().all(|&count| count > 5) && accepted > 500,
        "too few of some kind"
    );
}

/// The most joint states with the most symbols, all of them gone through.
#[test]
fn the_largest_search() {
    let mut random = Random(13);
    let mut table = |rows: u32, accepts: bool| {
        let mut cells = Vec::new();
        for _ in 0..rows {
            for place in 0..16 * 62 {
                cells.push(
                    2 * random.below(rows.into()) as u32 + u32::from(place % 2 == 0 && random.chance(50)),
                );
            }
        }
        Filled::new(16, 30, &vec![accepts; rows as usize], cells)
    };
    for (rows, other_rows, states) in [(16, 16, 984_064), (13, 20, 999_440)] {
        let [first, second] = [table(rows, true), table(other_rows, true)];
        assert_eq!(first.states() * second.states(), states);
        let mut lent = Lent::new(1_000_000, 2, 3, 9);
        assert_eq!(lent.check(&first, &second), YES);
        assert_eq!(lent, lent.zero());
    }
}
