//! How much of the list a rule allows: shares of shipped rules beside their words run one by one, batches of one to 16
//! tables, ties and shares that are nearly equal, and 40, 38, 25 and 43 in their order and at their bounds.

mod common;

use alderskein::raw::{self, Batch, Built, LINE_IN_ALL, LINE_NUMBERS, SHARE_NUMBERS, TABLES};
use alderskein::{shares, Line, Refusal, Room, Rule, Share, Shares, Size, Table, Word, Words, LISTED_WORDS};
use common::{refused, worked_rule, worked_table};

/// A shipped rule.
macro_rules! shipped {
    ($name:literal) => {
        Rule::read(include_bytes!(concat!("../../../examples/", $name, ".rule"))).unwrap()
    };
}

/// The most events and whole seconds of a list.
const MOST_EVENTS: u32 = 6;
const MOST_SECONDS: u32 = 30;

/// Room for the configurations of every rule here.
const CONFIGURATIONS: usize = 64;

/// Shipped rules of one to three symbols, of either kind of edge, with their names.
fn shipped_rules() -> [(&'static str, Rule); 8] {
    [
        ("worked", worked_rule()),
        ("second", shipped!("second")),
        ("window", shipped!("window")),
        ("step", shipped!("step")),
        ("strict", shipped!("strict")),
        ("either", shipped!("either")),
        ("ring", shipped!("ring")),
        ("empty", shipped!("empty")),
    ]
}

fn table(rule: &Rule) -> Table {
    rule.build(Room::default()).unwrap()
}

fn share(accepted: u32, words: u32, numerator: u32, denominator: u32) -> Share {
    Share { accepted, words, numerator, denominator }
}

/// The share with its lowest terms by trial of every divisor.
fn share_of(accepted: u32, words: u32) -> Share {
    let divides = |&by: &u32| accepted.is_multiple_of(by) && words.is_multiple_of(by);
    let by = (1..=words).rev().find(divides).unwrap();
    share(accepted, words, accepted / by, words / by)
}

/// The line by counting word after word of the list.
fn counted(symbols: u32, events: u32, seconds: u32, accepts: impl Fn(&Word) -> bool) -> Line {
    let mut counts = vec![(0, 0); events as usize + 1];
    for word in Words::up_to(Size { symbols, events, seconds }).unwrap().map(Word::from) {
        let (accepted, words) = &mut counts[word.len()];
        *accepted += u32::from(accepts(&word));
        *words += 1;
    }
    let all = counts.iter().fold((0, 0), |sum, count| (sum.0 + count.0, sum.1 + count.1));
    let by_length = counts.into_iter().map(|(accepted, words)| share_of(accepted, words)).collect();
    Line { by_length, in_all: share_of(all.0, all.1) }
}

#[test]
fn the_worked_case() {
    let line = worked_table().share(2, 4).unwrap();
    assert_eq!(line.by_length, [share(1, 1, 1, 1), share(0, 18, 0, 1), share(5, 180, 1, 36)]);
    assert_eq!(line.in_all, share(6, 199, 6, 199));
    assert_eq!(line.in_all.to_string(), "6 of 199");
    let line = worked_table().share(0, 30).unwrap();
    assert_eq!(line, Line { by_length: vec![share(1, 1, 1, 1)], in_all: share(1, 1, 1, 1) });
}

#[test]
fn shares_are_those_of_the_listed_words() {
    for (name, rule) in shipped_rules() {
        let (table, symbols) = (table(&rule), rule.head().symbols);
        for (events, seconds) in [(0, 3), (1, 30), (2, 4), (3, 2), (4, 1), (6, 0)] {
            let line = counted(symbols, events, seconds, |word| table.run(word).unwrap());
            assert_eq!(table.share(events, seconds), Ok(line), "{name}, {events} and {seconds}");
        }
    }
}

#[test]
fn shares_of_tables_as_built_are_those_of_the_rules() {
    for (name, rule) in shipped_rules() {
        let line = counted(rule.head().symbols, 3, 2, |word| rule.accepts(word, CONFIGURATIONS).unwrap());
        assert_eq!(table(&rule).share(3, 2), Ok(line), "{name}");
    }
}

#[test]
fn a_batch_has_the_line_of_each_table() {
    let tables = shipped_rules().map(|(_, rule)| table(&rule));
    let twice: Vec<&Table> = tables.iter().chain(&tables).collect();
    assert_eq!(twice.len(), TABLES);
    for (events, seconds) in [(0, 0), (2, 3), (4, 1)] {
        let lines: Vec<Line> = twice.iter().map(|table| table.share(events, seconds).unwrap()).collect();
        for count in 1..=TABLES {
            let Shares { lines: given, greatest } = shares(&twice[..count], events, seconds).unwrap();
            assert_eq!(given, lines[..count], "{count} tables");
            assert_eq!(greatest, greatest_of(&lines[..count]), "{count} tables");
        }
    }
}

/// The first line of which no other is above.
fn greatest_of(lines: &[Line]) -> usize {
    let above = |one: &Share, other: &Share| {
        u64::from(one.accepted) * u64::from(other.words) > u64::from(other.accepted) * u64::from(one.words)
    };
    let no_other = |line: &&Line| !lines.iter().any(|other| above(&other.in_all, &line.in_all));
    lines.iter().position(|line| no_other(&line)).unwrap()
}

#[test]
fn the_earliest_on_a_tie() {
    let [worked, empty, window] = [worked_rule(), shipped!("empty"), shipped!("window")].map(|r| table(&r));
    let greatest = |tables: &[&Table]| shares(tables, 2, 2).unwrap().greatest;
    assert_eq!(greatest(&[&empty]), 0);
    assert_eq!(greatest(&[&empty, &empty, &empty]), 0, "no word is accepted");
    assert_eq!(greatest(&[&worked, &worked]), 0);
    assert_eq!(greatest(&[&empty, &worked, &worked, &empty]), 1);
    assert_eq!(greatest(&[&empty, &worked, &window, &worked, &window]), 2);
    assert_eq!(shares(&[&worked, &window], 0, 9).unwrap().greatest, 0, "the empty word alone");
}

/// A table over so many symbols that accepts every word, or every word but the empty one.
fn all_words(symbols: u32, empty_too: bool) -> Table {
    let built = Built { locations: 2, symbols, clocks: 1, top: 0, ends: 0b10, rows: 2, total: 2 };
    let code = if empty_too { 2 } else { 0 };
    let rows = vec![0, 1, empty_too.into(), 1, 1, 1];
    Table::from_parts(built, vec![2; 4 * symbols as usize], rows, vec![code, 2]).unwrap()
}

/// A table over so many symbols that accepts the words whose last symbol is below this one.
fn last_below(symbols: u32, below: u32) -> Table {
    let built = Built { locations: 2, symbols, clocks: 1, top: 0, ends: 0b10, rows: 2, total: 2 };
    let of_row = (0..symbols).flat_map(|symbol| [2 * u32::from(symbol < below); 2]);
    let cells = [of_row.clone().collect(), of_row.collect::<Vec<_>>()].concat();
    Table::from_parts(built, cells, vec![0, 1, 0, 1, 1, 1], vec![0, 2]).unwrap()
}

/// Of the two products that are compared one has more than 32 bits, the other not.
#[test]
fn shares_of_long_lists_are_compared_by_products_of_more_than_32_bits() {
    let (greater, smaller) = (last_below(16, 16), last_below(15, 14));
    let [first, second] = [&greater, &smaller].map(|table| table.share(2, 11).unwrap().in_all);
    assert_eq!([first, second], [share_of(71_024, 71_025), share_of(58_282, 62_446)]);
    let product = |one: Share, other: Share| u64::from(one.accepted) * u64::from(other.words);
    assert!(product(second, first) < 1 << 32 && 1 << 32 < product(first, second));
    assert_eq!(shares(&[&greater, &smaller], 2, 11).unwrap().greatest, 0);
    assert_eq!(shares(&[&smaller, &greater, &smaller], 2, 11).unwrap().greatest, 1);
}

/// All words but one: the longer the list, the greater the share.
#[test]
fn shares_are_compared_exactly() {
    let but_one: Vec<Table> = (1..=16).map(|symbols| all_words(symbols, false)).collect();
    let in_turn: Vec<&Table> = but_one.iter().collect();
    let back: Vec<&Table> = but_one.iter().rev().collect();
    assert_eq!(shares(&in_turn, 2, 30).unwrap().greatest, 15);
    assert_eq!(shares(&back, 2, 30).unwrap().greatest, 0);
    let line = but_one[15].share(2, 30).unwrap();
    assert_eq!(line.in_all, share(485_072, 485_073, 485_072, 485_073));
    assert_eq!(line.by_length[2], share(484_096, 484_096, 1, 1));
    let (one, all) = (&but_one[15], &all_words(1, true));
    assert_eq!(shares(&[one, all, one, all], 2, 30).unwrap().greatest, 1);
}

/// A table with places behind those that it uses, each of this number.
fn with_more(table: &Table, fill: u32) -> Table {
    let [cells, rows, pool] = table.parts().map(|part| [part, &[fill; 5]].concat());
    Table::from_parts(table.built(), cells, rows, pool).unwrap()
}

#[test]
fn places_that_a_table_does_not_use_are_left_out() {
    let (worked, window) = (worked_table(), table(&shipped!("window")));
    let (more, others) = (with_more(&worked, 7), with_more(&window, u32::MAX));
    assert_eq!(more.share(2, 4), worked.share(2, 4));
    assert_eq!(shares(&[&more, &others, &more], 2, 4), shares(&[&worked, &window, &worked], 2, 4));
}

#[test]
fn batches_of_no_table_or_of_more_than_16_are_40() {
    let worked = worked_table();
    assert_eq!(shares(&[], 2, 4), refused(40, 0));
    assert!(shares(&[&worked; 16], 2, 4).is_ok());
    assert_eq!(shares(&[&worked; 17], 2, 4), refused(40, 0));
    assert_eq!(shares(&[], 7, 31), refused(40, 0), "40 before 38");
    assert_eq!(shares(&[&worked; 1_000], 7, 31), refused(40, 0));
}

#[test]
fn events_or_seconds_out_of_range_are_38() {
    let worked = worked_table();
    for (events, seconds) in [(7, 0), (0, 31), (7, 31), (u32::MAX, 0), (0, u32::MAX), (0, 1 << 31)] {
        assert_eq!(worked.share(events, seconds), refused(38, 0), "{events}, {seconds}");
        assert_eq!(shares(&[&worked; 16], events, seconds), refused(38, 0), "{events}, {seconds}");
    }
    assert!(worked.share(MOST_EVENTS, 1).is_ok());
    assert!(worked.share(1, MOST_SECONDS).is_ok());
    assert_eq!(worked.share(MOST_EVENTS, MOST_SECONDS), refused(43, 1));
}

/// The sizes whose lists are the longest that are counted, and the shortest that are not.
#[test]
fn a_list_of_more_than_a_million_words_is_43() {
    for (symbols, events, seconds, words) in [(2, 4, 16, 997_151), (1, 5, 18, 850_668), (16, 4, 0, 69_905)] {
        let line = all_words(symbols, true).share(events, seconds).unwrap();
        assert_eq!(line.in_all, share(words, words, 1, 1), "{symbols}, {events}, {seconds}");
        assert!(words <= LISTED_WORDS);
    }
    for (symbols, events, seconds) in [(4, 6, 2), (13, 3, 6), (16, 5, 0), (1, 5, 19), (16, 6, 30)] {
        assert_eq!(all_words(symbols, true).share(events, seconds), refused(43, 1));
    }
    let tables = [1, 2, 3, 4].map(|symbols| all_words(symbols, true));
    let [one, two, three, four] = &tables;
    assert_eq!(shares(&[one, two, three, four, four], 6, 2), refused(43, 4));
    assert_eq!(shares(&[one, two, three], 6, 4), refused(43, 3));
    assert!(shares(&[one, two], 6, 4).is_ok());
}

/// A batch of the plain call: built records, and their tables one after another.
#[derive(Clone)]
struct Laid {
    built: Vec<Built>,
    parts: [Vec<u32>; 3],
}

impl Laid {
    fn new(tables: &[&Table]) -> Self {
        let part = |at: usize| tables.iter().flat_map(|table| table.parts()[at].to_vec()).collect();
        Laid { built: tables.iter().map(|table| table.built()).collect(), parts: [part(0), part(1), part(2)] }
    }

    fn count(&self, events: u32, seconds: u32) -> raw::Shares {
        let mut batch = Batch { count: self.built.len() as u32, ..Batch::default() };
        batch.tables[..self.built.len()].copy_from_slice(&self.built);
        let [cells, rows, pool] = &self.parts;
        raw::count_shares(batch, cells, rows, pool, events, seconds)
    }

    /// Checks a refusal, which has no lines.
    fn refuses(&self, events: u32, seconds: u32, number: u8, place: usize) {
        let none = raw::Shares { number, place, ..raw::Shares::default() };
        assert_eq!(self.count(events, seconds), none, "{number} {place}");
    }
}

#[test]
fn lines_of_the_plain_call() {
    let (worked, window) = (worked_table(), table(&shipped!("window")));
    let given = Laid::new(&[&worked, &window]).count(2, 4);
    assert_eq!((given.number, given.place), (0, 0));
    let numbers = |line: Line| {
        let mut numbers = vec![0; LINE_NUMBERS];
        let lengths =
            line.by_length.iter().enumerate().map(|(length, share)| (SHARE_NUMBERS * length, share));
        for (at, share) in lengths.chain([(LINE_IN_ALL, &line.in_all)]) {
            let four = [share.accepted, share.words, share.numerator, share.denominator];
            numbers[at..][..SHARE_NUMBERS].copy_from_slice(&four);
        }
        numbers
    };
    let mut lines = [worked, window].map(|table| numbers(table.share(2, 4).unwrap())).concat();
    lines.resize(TABLES * LINE_NUMBERS, 0);
    assert_eq!(given.lines, *lines);
    assert_eq!(given.greatest, 2, "from 1");
}

#[test]
fn tables_out_of_shape_are_25_at_their_place() {
    let (worked, window) = (worked_table(), table(&shipped!("window")));
    let laid = Laid::new(&[&worked, &window, &worked]);
    assert_eq!(laid.count(2, 4).number, 0);
    for place in 0..3 {
        let mut bad = laid.clone();
        bad.built[place].rows = 0;
        bad.refuses(2, 4, 25, place + 1);
        bad.built[0].rows = 0;
        bad.refuses(2, 4, 25, 1);
    }
    for (part, (first, second)) in worked.parts().into_iter().zip(window.parts()).enumerate() {
        for (at, place) in [(0, 1), (first.len(), 2), (first.len() + second.len(), 3)] {
            let mut bad = laid.clone();
            bad.parts[part][at] = u32::MAX;
            bad.refuses(2, 4, 25, place);
        }
    }
}

#[test]
fn parts_stand_one_after_another_without_gaps() {
    let (worked, window) = (worked_table(), table(&shipped!("window")));
    let laid = Laid::new(&[&worked, &window]);
    let answer = laid.count(2, 4);
    for part in 0..3 {
        let mut longer = laid.clone();
        longer.parts[part].push(u32::MAX);
        assert_eq!(longer.count(2, 4), answer, "what comes behind the last is not read");
        let mut shorter = laid.clone();
        shorter.parts[part].pop();
        shorter.refuses(2, 4, 25, 2);
        let mut gap = laid.clone();
        gap.parts[part].insert(worked.parts()[part].len(), u32::MAX);
        gap.refuses(2, 4, 25, 2);
    }
}

#[test]
fn refusals_in_their_order() {
    let (worked, all) = (worked_table(), all_words(16, true));
    let no_rows = |mut laid: Laid, place: usize| {
        laid.built[place].rows = 0;
        laid
    };
    let none = Laid::new(&[]);
    none.refuses(2, 4, 40, 0);
    none.refuses(7, 4, 40, 0);
    let two = Laid::new(&[&worked, &all]);
    no_rows(two.clone(), 0).refuses(7, 0, 38, 0);
    no_rows(two.clone(), 0).refuses(0, 31, 38, 0);
    two.refuses(5, 0, 43, 2);
    no_rows(two.clone(), 0).refuses(5, 0, 25, 1);
    no_rows(two.clone(), 1).refuses(5, 0, 25, 2);
    let back = Laid::new(&[&all, &worked]);
    no_rows(back.clone(), 1).refuses(5, 0, 43, 1);
    no_rows(back.clone(), 1).refuses(4, 0, 25, 2);
    no_rows(back, 0).refuses(5, 0, 25, 1);
    for count in [17, u32::MAX] {
        let batch = Batch { count, tables: [worked.built(); TABLES] };
        let none = raw::Shares { number: 40, ..raw::Shares::default() };
        assert_eq!(raw::count_shares(batch, &[], &[], &[], 9, 9), none);
    }
}

#[test]
fn refusals_name_the_table() {
    let refusal = shares(&[&worked_table(), &all_words(16, true)], 5, 0).unwrap_err();
    assert_eq!(refusal, Refusal { number: 43, place: 2 });
    assert_eq!(refusal.to_string(), "no 43 2: list of more than 1,000,000 words");
}
