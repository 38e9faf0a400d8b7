//! How much of the list of all words a table allows: shares per length and in all, by the run definition and
//! counted otherwise, the best of a batch, the tables' parts, and refusals 40, 38, 25 and 43 in their order.

mod common;

use common::{enumerate, random_rule, random_table, refusal, whole_case};
use common::{Bounds, Filled, PlainRule, PlainWord, Random, Room};
use reference::script::run_script;
use reference::{count_words, share_words, Built, Refusal, Share, ShareLine, Shares, Size};
use std::collections::BTreeMap;

const FILE: &str = "0600010002000200010002000200000002000300000\
    00E00050000000100000001000000020001000E0005000100000001000000000003000100";

/// Built records, and their tables one after another.
#[derive(Clone)]
struct Batch {
    built: Vec<Built>,
    cells: Vec<u32>,
    rows: Vec<u32>,
    pool: Vec<u32>,
}

impl Batch {
    fn new(tables: &[Filled]) -> Self {
        Batch {
            built: tables.iter().map(|table| table.built).collect(),
            cells: tables.iter().flat_map(|table| table.cells.clone()).collect(),
            rows: tables.iter().flat_map(|table| table.rows.clone()).collect(),
            pool: tables.iter().flat_map(|table| table.pool.clone()).collect(),
        }
    }

    fn share(&self, events: u32, seconds: u32) -> Result<Shares, Refusal> {
        share_words(&self.built, &self.cells, &self.rows, &self.pool, events, seconds)
    }

    /// Lengthened by so many numbers of the fill.
    fn longer(mut self, by: usize, fill: u32) -> Self {
        for table in [&mut self.cells, &mut self.rows, &mut self.pool] {
            table.resize(table.len() + by, fill);
        }
        self
    }
}

fn share(tables: &[Filled], events: u32, seconds: u32) -> Result<Shares, Refusal> {
    Batch::new(tables).share(events, seconds)
}

/// The line of a table on its own.
fn line(table: &Filled, events: u32, seconds: u32) -> ShareLine {
    let Shares { best, mut lines } = share(std::slice::from_ref(table), events, seconds).unwrap();
    assert_eq!((best, lines.len()), (1, 1));
    lines.remove(0)
}

fn best(tables: &[Filled], events: u32, seconds: u32) -> usize {
    share(tables, events, seconds).unwrap().best
}

fn of(accepted: u64, words: u64) -> Share {
    Share { accepted, words }
}

/// The line with these words accepted and these words of each length.
fn line_of(accepted: &[u64], words: &[u64]) -> ShareLine {
    let lengths = accepted.iter().zip(words).map(|(&accepted, &words)| of(accepted, words)).collect();
    ShareLine { lengths, all: of(accepted.iter().sum(), words.iter().sum()) }
}

/// The table of a rule file, of no more numbers than it needs; nothing if it does not fit the listing's room.
fn made(file: &[u8]) -> Option<Filled> {
    let mut room = Room::listing(6);
    let head = room.read(file).unwrap();
    let built = room.build(&head).ok()?;
    let Room { mut cells, mut rows, mut pool, .. } = room;
    cells.truncate((built.rows * built.symbols * (2 * built.largest + 2)) as usize);
    rows.truncate(3 * built.rows as usize);
    pool.truncate(built.pool as usize);
    Some(Filled { built, cells, rows, pool })
}

/// How many words there are of each length: S^n times the binomial, by Pascal's triangle.
fn words(symbols: u32, events: u32, seconds: u32) -> Vec<u64> {
    let mut row = vec![1];
    let mut counts = Vec::new();
    for top in 0..=2 * seconds + events {
        if let Some(length) = top.checked_sub(2 * seconds) {
            counts.push(u64::from(symbols).pow(length) * row[length as usize]);
        }
        let inner = row.windows(2).map(|pair| pair[0] + pair[1]);
        row = [1].into_iter().chain(inner).chain([1]).collect();
    }
    counts
}

/// How many words of each length are accepted, not word by word: how many lead to each row with each stamp of
/// the last reset and of the last event. With D = 2 an interval's number is the age, up to the top.
fn counted(table: &Filled, events: u32, seconds: u32) -> Vec<u64> {
    let (symbols, intervals) = (table.built.symbols, table.intervals());
    let mut ways = BTreeMap::from([((0, 0, 0), 1)]);
    let mut accepted = Vec::new();
    for _ in 0..=events {
        accepted.push(ways.iter().filter(|((row, ..), _)| table.accepts(*row)).map(|(_, ways)| ways).sum());
        let mut after = BTreeMap::new();
        for (&(row, reset, last), &ways) in &ways {
            for (stamp, symbol) in
                (last..=2 * seconds).flat_map(|stamp| (0..symbols).map(move |s| (stamp, s)))
            {
                let interval = ((stamp - reset) as usize).min(intervals - 1);
                let line = row * symbols as usize + symbol as usize;
                let cell = table.cells[line * intervals + interval];
                let reset = if cell % 2 == 1 { stamp } else { reset };
                *after.entry(((cell / 2) as usize, reset, stamp)).or_insert(0) += ways;
            }
        }
        ways = after;
    }
    accepted
}

/// Calls with every word of at most so many events over the symbols, its stamps in half seconds.
fn every_word(
    symbols: u16,
    events: usize,
    seconds: u32,
    word: &mut PlainWord,
    call: &mut dyn FnMut(&PlainWord),
) {
    call(word);
    if word.symbols.len() == events {
        return;
    }
    for stamp in word.stamps.last().copied().unwrap_or(0)..=2 * seconds {
        for symbol in 0..symbols {
            word.symbols.push(symbol);
            word.stamps.push(stamp);
            every_word(symbols, events, seconds, word, call);
            word.symbols.pop();
            word.stamps.pop();
        }
    }
}

/// How many words of each length the rule accepts, by all runs of each.
fn accepted_by_runs(rule: &PlainRule, events: u32, seconds: u32) -> Vec<u64> {
    let mut accepted = vec![0; events as usize + 1];
    let mut empty = PlainWord::new(2, &[]);
    every_word(rule.symbols, events as usize, seconds, &mut empty, &mut |word| {
        accepted[word.symbols.len()] += u64::from(!enumerate(rule, word).accepting.is_empty());
    });
    accepted
}

fn answers(script: &str) -> Vec<String> {
    let mut output = Vec::new();
    run_script(script.as_bytes(), &mut output).unwrap();
    String::from_utf8(output).unwrap().lines().map(String::from).collect()
}

/// The answers after the whole case is read and built in room to spare.
fn after_build(script: &str) -> Vec<String> {
    answers(&format!("read {FILE} 22016 9\nbuild 16384 16384 2048 8192 5\n{script}"))[2..].to_vec()
}

/// FNV-1a over eight bytes a number.
fn buffer(numbers: &[u32]) -> String {
    let bytes = numbers.iter().flat_map(|&number| u64::from(number).to_le_bytes());
    let hash = bytes
        .fold(0xcbf2_9ce4_8422_2325_u64, |hash, byte| (hash ^ u64::from(byte)).wrapping_mul(0x100_0000_01b3));
    format!("{}:{hash:016x}", numbers.len())
}

/// Two events up to 4 s: the empty word, none, and a pulse at 1 s with a return at 2, 2.5, 3, 3.5 or 4 s.
#[test]
fn the_whole_case() {
    let line = line(&made(&whole_case()).unwrap(), 2, 4);
    assert_eq!(line, line_of(&[1, 0, 5], &[1, 18, 180]));
    assert_eq!(
        line.lengths.iter().map(|share| share.lowest_terms()).collect::<Vec<_>>(),
        [(1, 1), (0, 1), (1, 36)]
    );
    assert_eq!((line.all, line.all.lowest_terms()), (of(6, 199), (6, 199)));
}

#[test]
fn lowest_terms() {
    for words in 1..=60_u64 {
        for accepted in 0..=words {
            let (numerator, denominator) = of(accepted, words).lowest_terms();
            assert_eq!(numerator * words, accepted * denominator);
            let divides = |divisor| numerator % divisor == 0 && denominator % divisor == 0;
            assert!(!(2..=words).any(divides), "{accepted} of {words} is {numerator}/{denominator}");
        }
        assert_eq!(of(0, words).lowest_terms(), (0, 1));
        assert_eq!(of(words, words).lowest_terms(), (1, 1));
    }
    assert_eq!(of(999_999, 1_000_000).lowest_terms(), (999_999, 1_000_000));
    assert_eq!(of(640_000, 1_000_000).lowest_terms(), (16, 25));
}

/// All, none, and every second length.
#[test]
fn lengths_of_the_list() {
    for (symbols, events, seconds) in [(1, 0, 0), (1, 6, 0), (1, 6, 2), (2, 3, 3), (3, 4, 1), (16, 2, 5)] {
        let words = words(symbols, events, seconds);
        let none = vec![0; words.len()];
        let odd: Vec<u64> = words.iter().zip(0..).map(|(&words, length)| words * (length % 2)).collect();
        for largest in [0, 1, 30] {
            let line = |verdicts: &[bool]| line(&Filled::ring(symbols, largest, verdicts), events, seconds);
            assert_eq!(line(&[true]), line_of(&words, &words));
            assert_eq!(line(&[false]), line_of(&none, &words));
            assert_eq!(line(&[false, true]), line_of(&odd, &words));
        }
    }
}

/// One cell alone leads to a row that accepts: one event with that symbol, at its stamp or above cm.
#[test]
fn a_single_cell() {
    for (symbols, largest, seconds) in [(1, 0, 0), (2, 1, 1), (2, 1, 5), (3, 30, 30), (16, 2, 3)] {
        let intervals = 2 * largest + 2;
        for place in 0..symbols * intervals {
            let mut cells = vec![0; 2 * (symbols * intervals) as usize];
            cells[place as usize] = 2;
            let interval = place % intervals;
            let stamps = (0..=2 * seconds).filter(|&stamp| stamp.min(intervals - 1) == interval).count();
            let line = line(&Filled::new(symbols, largest, &[false, true], cells), 1, seconds);
            assert_eq!(line, line_of(&[0, stamps as u64], &words(symbols, 1, seconds)));
        }
    }
}

/// Batches of random tables against another way to count, and the best of each.
#[test]
fn random_batches() {
    let mut random = Random(27);
    let mut bests = [0; 16];
    for _ in 0..400 {
        let tables: Vec<Filled> = (0..random.between(1, 16))
            .map(|_| {
                let (symbols, accepting) = (random.between(1, 3) as u32, random.below(101));
                random_table(&mut random, symbols, accepting)
            })
            .collect();
        let (events, seconds) = random.pick(&[(0, 30), (1, 30), (2, 5), (3, 3), (4, 1), (5, 1), (6, 0)]);
        let shares = Batch::new(&tables).longer(random.below(3) as usize, 9).share(events, seconds).unwrap();
        let expected: Vec<ShareLine> = tables
            .iter()
            .map(|table| {
                line_of(&counted(table, events, seconds), &words(table.built.symbols, events, seconds))
            })
            .collect();
        assert_eq!(shares.lines, expected);
        let not_above =
            |first: Share, second: Share| first.accepted * second.words <= second.accepted * first.words;
        let greatest = |line: &ShareLine| expected.iter().all(|other| not_above(other.all, line.all));
        assert_eq!(shares.best, expected.iter().position(greatest).unwrap() + 1);
        bests[shares.best - 1] += 1;
    }
    println!("best of the batch: {bests:?}");
    assert!(bests[..8].iter().all(|&count| count > 5), "too few of some kind");
}

/// Tables as built: each share is that of the run definition.
#[test]
fn random_rules() {
    let bounds = Bounds { locations: 3, symbols: 2, clocks: 2, edges: 10, constant: 2 };
    let mut random = Random(28);
    let (mut none, mut some, mut all) = (0, 0, 0);
    for _ in 0..400 {
        let mut rule = random_rule(&mut random, &bounds);
        if random.chance(80) {
            (rule.initial, rule.finals) = (vec![0], vec![rule.locations - 1]);
        }
        let Some(table) = made(&rule.file()) else {
            continue;
        };
        for (events, seconds) in [(2, 4), (3, 2), (4, 1), (6, 0)] {
            let accepted = accepted_by_runs(&rule, events, seconds);
            let line = line(&table, events, seconds);
            assert_eq!(line, line_of(&accepted, &words(rule.symbols.into(), events, seconds)), "{rule:?}");
            match line.all.lowest_terms() {
                (0, 1) => none += 1,
                (1, 1) => all += 1,
                _ => some += 1,
            }
        }
    }
    println!("none {none}, some {some}, all {all}");
    assert!(none > 100 && some > 500, "too few of some kind");
}

/// A table that accepts so many words of 4 events, below S^4, at one stamp: those whose symbols, read as a
/// number of base S, are below that. Rows 0 to 3: the same so far; 4 to 7: below after 1 to 4 events; 8: dead.
fn below(symbols: u32, count: u32) -> Filled {
    let mut cells = Vec::new();
    for row in 0..9_u32 {
        for symbol in 0..symbols {
            let next = match row {
                0..4 => match symbol.cmp(&(count / symbols.pow(3 - row) % symbols)) {
                    std::cmp::Ordering::Less => row + 4,
                    std::cmp::Ordering::Equal if row < 3 => row + 1,
                    _ => 8,
                },
                _ => (row + 1).min(8),
            };
            cells.extend([2 * next; 2]);
        }
    }
    let verdicts: Vec<bool> = (0..9).map(|row| row == 7).collect();
    Filled::new(symbols, 0, &verdicts, cells)
}

/// Shares as near to one another as 69,905 and 30,941 words allow, and equal ones.
#[test]
fn shares_are_compared_exactly() {
    let [many, few] = [16, 13].map(|symbols| words(symbols, 4, 0).iter().sum::<u64>());
    assert_eq!((many, few), (69_905, 30_941));
    let near = |count: u64| {
        let share = |other: u64| other * few == count * many + 1 || other * few + 1 == count * many;
        (0..16_u64.pow(4)).find(|&other| share(other)).map(|other| (other, count))
    };
    let (of_many, of_few) = (1..13_u64.pow(4)).find_map(near).unwrap();
    let [first, second] = [below(16, of_many as u32), below(13, of_few as u32)];
    let shares = share(&[first.clone(), second.clone()], 4, 0).unwrap();
    assert_eq!([shares.lines[0].all, shares.lines[1].all], [of(of_many, many), of(of_few, few)]);
    let first_is_greater = of_many * few > of_few * many;
    assert_eq!(shares.best, if first_is_greater { 1 } else { 2 });
    assert_eq!(best(&[second.clone(), first.clone()], 4, 0), if first_is_greater { 2 } else { 1 });
    let more = below(13, of_few as u32 + 1);
    assert_eq!(best(&[first.clone(), second.clone(), more.clone()], 4, 0), 3);
    assert_eq!(best(&[more, first, second], 4, 0), 1);
    for count in [0, 1, 12, 13, 168, 169, 28_560] {
        assert_eq!(line(&below(13, count), 4, 0).all, of(count.into(), few));
    }
}

#[test]
fn the_earliest_on_a_tie() {
    let all = |symbols| Filled::all(symbols, 0, true);
    let none = |symbols| Filled::all(symbols, 1, false);
    assert_eq!(best(&vec![none(3); 16], 2, 2), 1);
    assert_eq!(best(&vec![all(3); 16], 2, 2), 1);
    assert_eq!(best(&[none(1), all(1), all(2), all(3)], 2, 2), 2);
    assert_eq!(best(&[none(1), none(2), none(3), all(16)], 2, 2), 4);
    // One of two words, and two of four.
    let half = Filled::ring(1, 0, &[true, false]);
    let mut cells = vec![2; 12];
    cells[..2].fill(0);
    let other_half = Filled::new(3, 0, &[true, false], cells);
    let shares = share(&[half.clone(), other_half.clone()], 1, 0).unwrap();
    assert_eq!([shares.lines[0].all, shares.lines[1].all], [of(1, 2), of(2, 4)]);
    assert_eq!(shares.best, 1);
    assert_eq!(best(&[other_half.clone(), half.clone()], 1, 0), 1);
    assert_eq!(best(&[none(2), other_half.clone(), half.clone(), none(1)], 1, 0), 2);
    // More words accepted, but not a greater share.
    assert_eq!(best(&[Filled::ring(16, 0, &[false, true]), all(1)], 1, 0), 2);
    assert_eq!(best(&[all(1), Filled::ring(16, 0, &[false, true])], 1, 0), 1);
    // In all, and not by the longest words.
    assert_eq!(
        best(&[Filled::ring(1, 0, &[true, true, false]), Filled::ring(1, 0, &[false, false, true])], 2, 0),
        1
    );
}

/// Three tables of unlike sizes.
fn three() -> [Filled; 3] {
    [
        made(&whole_case()).unwrap(),
        Filled::ring(3, 2, &[true, false, true, true]),
        Filled::ring(1, 30, &[false, true]),
    ]
}

/// Which of the tables each number lent belongs to: that number out of range is 25 at that table.
#[test]
fn parts_one_after_another() {
    let tables = three();
    let batch = Batch::new(&tables);
    let shares = batch.share(2, 3).unwrap();
    assert_eq!(shares.lines, tables.each_ref().map(|table| line(table, 2, 3)));
    for fill in [0, 9, u32::MAX] {
        assert_eq!(batch.clone().longer(7, fill).share(2, 3), Ok(shares.clone()), "past the last table");
    }
    let owners = |length: fn(&Filled) -> usize| {
        let numbers = tables.iter().zip(1..);
        numbers.flat_map(|(table, number)| vec![number; length(table)]).collect::<Vec<usize>>()
    };
    let [cells, rows, pool] = [
        owners(|table| table.cells.len()),
        owners(|table| table.rows.len()),
        owners(|table| table.pool.len()),
    ];
    assert_eq!(
        [cells.len(), rows.len(), pool.len()],
        [batch.cells.len(), batch.rows.len(), batch.pool.len()]
    );
    for (place, &number) in cells.iter().enumerate() {
        let mut wrong = batch.clone().longer(5, 0);
        wrong.cells[place] = 2 * batch.built[number - 1].rows;
        assert_eq!(wrong.share(2, 3), refusal(25, number), "cell {place}");
    }
    for (place, &number) in rows.iter().enumerate() {
        let mut wrong = batch.clone().longer(5, 0);
        wrong.rows[place] += 7;
        assert_eq!(wrong.share(2, 3), refusal(25, number), "row number {place}");
    }
    for (place, &number) in pool.iter().enumerate() {
        let mut wrong = batch.clone().longer(5, 0);
        wrong.pool[place] = 65_536;
        assert_eq!(wrong.share(2, 3), refusal(25, number), "code {place}");
    }
    for (cut, number) in cells.iter().enumerate() {
        let mut short = batch.clone();
        short.cells.truncate(cut);
        assert_eq!(short.share(2, 3), refusal(25, *number), "{cut} cells");
    }
    for (cut, number) in rows.iter().enumerate() {
        let mut short = batch.clone();
        short.rows.truncate(cut);
        assert_eq!(short.share(2, 3), refusal(25, *number), "{cut} row numbers");
    }
    for (cut, number) in pool.iter().enumerate() {
        let mut short = batch.clone();
        short.pool.truncate(cut);
        assert_eq!(short.share(2, 3), refusal(25, *number), "{cut} codes");
    }
}

/// A cell of one table turned: that table's line moves, and no other.
#[test]
fn a_cell_of_a_part() {
    let tables =
        [Filled::all(2, 1, true), Filled::ring(1, 1, &[false, true]), Filled::ring(2, 0, &[true, false])];
    let batch = Batch::new(&tables);
    let lines = batch.share(3, 2).unwrap().lines;
    for (place, number) in [(8, 2), (11, 2), (16, 3), (19, 3)] {
        let mut turned = batch.clone();
        turned.cells[place] ^= 2;
        let after = turned.share(3, 2).unwrap().lines;
        for (index, (before, after)) in lines.iter().zip(&after).enumerate() {
            assert_eq!(before != after, index + 1 == number, "cell {place}, table {}", index + 1);
        }
    }
}

/// A number between two parts.
#[test]
fn gaps_are_25() {
    let tables = [Filled::ring(1, 0, &[false, true]), Filled::ring(1, 0, &[true, true])];
    let batch = Batch::new(&tables).longer(4, 0);
    assert!(batch.share(2, 1).is_ok());
    let mut gap = batch.clone();
    gap.rows.insert(6, 0);
    assert_eq!(gap.share(2, 1), refusal(25, 2));
    let mut gap = batch.clone();
    gap.pool.insert(2, 2);
    assert_eq!(gap.share(2, 1), refusal(25, 2));
    let mut gap = batch;
    gap.cells.insert(4, 4);
    assert_eq!(gap.share(2, 1), refusal(25, 2));
}

/// Before 38, 25 and 43.
#[test]
fn batches_of_none_or_too_many_are_40() {
    let [good, wrong] = [Filled::all(16, 0, true), Filled { cells: vec![], ..Filled::all(16, 0, true) }];
    for table in [good.clone(), wrong] {
        for count in [0, 17, 18, 32, 1000] {
            for (events, seconds) in [(0, 0), (2, 4), (6, 30), (7, 0), (0, 31), (u32::MAX, u32::MAX)] {
                assert_eq!(share(&vec![table.clone(); count], events, seconds), refusal(40, 0));
            }
        }
    }
    for count in 1..=16 {
        let shares = share(&vec![good.clone(); count], 1, 1).unwrap();
        assert_eq!(shares.lines, vec![line_of(&[1, 48], &[1, 48]); count]);
    }
}

/// Before 25 and 43.
#[test]
fn sizes_out_of_range_are_38() {
    let good = Filled::all(16, 0, true);
    let mut wrong = good.clone();
    wrong.rows[2] = 0;
    for table in [good, wrong, Filled { built: Built::default(), ..Filled::all(1, 0, true) }] {
        for count in [1, 2, 16] {
            let tables = vec![table.clone(); count];
            for events in [7, 8, 1 << 31, u32::MAX] {
                assert_eq!(share(&tables, events, 0), refusal(38, 0), "m = {events}");
                assert_eq!(share(&tables, events, 30), refusal(38, 0), "m = {events}");
            }
            for seconds in [31, 32, 1 << 31, u32::MAX] {
                assert_eq!(share(&tables, 0, seconds), refusal(38, 0), "H = {seconds}");
                assert_eq!(share(&tables, 6, seconds), refusal(38, 0), "H = {seconds}");
            }
            assert_eq!(share(&tables, 7, 31), refusal(38, 0));
        }
    }
}

/// Every way out of shape at every place of a batch, before 43 of the same table and of those after it.
#[test]
fn out_of_shape_is_25() {
    let changes: [fn(&mut Filled); 16] = [
        |table| table.built = Built::default(),
        |table| table.built.locations = 33,
        |table| table.built.symbols = 0,
        |table| table.built.symbols = 17,
        |table| table.built.symbols = u32::MAX,
        |table| table.built.clocks = 0,
        |table| table.built.largest = 31,
        |table| table.built.rows = 0,
        |table| table.built.rows = 4097,
        |table| table.built.rows = u32::MAX,
        |table| table.built.finals = 2,
        |table| table.built.pool += 1,
        |table| table.cells[23] = 6,
        |table| table.cells[1] = 3,
        |table| table.rows[2] = 0,
        |table| table.pool[1] = 6,
    ];
    let whole = made(&whole_case()).unwrap();
    for change in changes {
        let mut wrong = whole.clone();
        change(&mut wrong);
        for count in [1, 2, 3, 16] {
            for number in 1..=count {
                let mut tables = vec![whole.clone(); count];
                tables[number - 1] = wrong.clone();
                assert_eq!(share(&tables, 2, 4), refusal(25, number));
                let expected = if number == 1 { refusal(25, 1) } else { refusal(43, 1) };
                assert_eq!(share(&tables, 6, 30), expected, "25 and 43 in batch order");
                tables[count - 1] = wrong.clone();
                assert_eq!(share(&tables, 2, 4), refusal(25, number), "the earliest");
            }
        }
    }
}

/// Tables of many symbols among tables of few, and one out of shape.
#[test]
fn too_many_words_are_43_in_batch_order() {
    let [few, many] = [1, 16].map(|symbols| Filled::all(symbols, 0, true));
    let wrong = |symbols| {
        let mut wrong = Filled::all(symbols, 0, true);
        wrong.rows[2] = 0;
        wrong
    };
    let refused = [
        (vec![many.clone()], (43, 1)),
        (vec![few.clone(), many.clone()], (43, 2)),
        (vec![few.clone(), few.clone(), many.clone(), many.clone()], (43, 3)),
        (vec![many.clone(), wrong(1)], (43, 1)),
        (vec![wrong(1), many.clone()], (25, 1)),
        (vec![wrong(16)], (25, 1)),
        (vec![few.clone(), wrong(16), many.clone()], (25, 2)),
        (vec![few.clone(), many.clone(), wrong(16)], (43, 2)),
        ([vec![few.clone(); 15], vec![many.clone()]].concat(), (43, 16)),
        ([vec![few.clone(); 15], vec![wrong(16)]].concat(), (25, 16)),
    ];
    for (tables, (number, place)) in refused {
        assert_eq!(share(&tables, 5, 0), refusal(number, place));
    }
    let shares = share(&[few.clone(), many.clone()], 4, 0).unwrap();
    assert_eq!([shares.lines[0].all, shares.lines[1].all], [of(5, 5), of(69_905, 69_905)]);
    assert_eq!(share(&[few, many], 5, 0), refusal(43, 2));
}

/// Every size: 43 exactly if its list has more than 1,000,000 words. For each S and m the longest list within
/// is counted, and for each size with few words.
#[test]
fn the_list_on_both_sides_of_43() {
    assert_eq!(count_words(Size { symbols: 16, events: 4, seconds: 0 }), Ok(69_905));
    assert_eq!(count_words(Size { symbols: 16, events: 5, seconds: 0 }), Ok(1_118_481));
    assert_eq!(count_words(Size { symbols: 2, events: 4, seconds: 16 }), Ok(997_151));
    assert_eq!(count_words(Size { symbols: 4, events: 6, seconds: 2 }), Ok(1_009_605));
    let (mut within, mut past) = (0, 0);
    for (symbols, events) in (1..=16).flat_map(|symbols| (0..=6).map(move |events| (symbols, events))) {
        let table = Filled::ring(symbols, 0, &[true, false]);
        let total = |seconds| words(symbols, events, seconds).iter().sum::<u64>();
        for seconds in 0..=30 {
            if total(seconds) > 1_000_000 {
                past += 1;
                assert_eq!(share(std::slice::from_ref(&table), events, seconds), refusal(43, 1));
                let first_too = words(1, events, seconds).iter().sum::<u64>() > 1_000_000;
                let place = if first_too { 1 } else { 2 };
                let both = [Filled::all(1, 0, true), table.clone()];
                assert_eq!(share(&both, events, seconds), refusal(43, place));
                continue;
            }
            within += 1;
            if total(seconds) <= 3000 || seconds == 30 || total(seconds + 1) > 1_000_000 {
                let words = words(symbols, events, seconds);
                let even: Vec<u64> =
                    words.iter().zip(1..).map(|(&words, length)| words * (length % 2)).collect();
                assert_eq!(line(&table, events, seconds), line_of(&even, &words));
            }
        }
    }
    assert_eq!((within, past), (1903, 1569));
}

/// The longest list of all within the bound, sixteen times.
#[test]
fn the_largest_batch() {
    let mut random = Random(29);
    let tables: Vec<Filled> = (0..16).map(|_| random_table(&mut random, 2, 50)).collect();
    let shares = share(&tables, 4, 16).unwrap();
    for (line, table) in shares.lines.iter().zip(&tables) {
        assert_eq!(line.all.words, 997_151);
        assert_eq!(*line, line_of(&counted(table, 4, 16), &words(2, 4, 16)));
    }
}

#[test]
fn the_protocol_shows_the_shares() {
    let whole = "1,1,1,1;0,18,0,1;5,180,1,36;6,199,6,199";
    let script = "share 2 4\nbatch new\nshare 2 4\nbatch add\nshare 2 4\nbatch add\nshare 2 4\nshare 0 30\n\
        poke built 4 0\npoke rows 2 0\nbatch add\nuse 0\nshare 2 4\nshare 7 0\nshare 0 31\nshare 6 30\n\
        share 4294967295 4294967295\nbatch new\nshare 0 0";
    let none = "0,1,0,1;0,18,0,1;0,180,0,1;0,199,0,1";
    let expected = [
        "share no 40 0".into(),
        "batch".into(),
        "share no 40 0".into(),
        "batch 1".into(),
        format!("share ok 1 {whole}"),
        "batch 2".into(),
        format!("share ok 1 {whole} {whole}"),
        "share ok 1 1,1,1,1;1,1,1,1 1,1,1,1;1,1,1,1".into(),
        "poke 1".into(),
        "poke 1".into(),
        "batch 3".into(),
        "bad".into(),
        format!("share ok 1 {whole} {whole} {none}"),
        "share no 38 0".into(),
        "share no 38 0".into(),
        "share no 43 1".into(),
        "share no 38 0".into(),
        "batch".into(),
        "share no 40 0".into(),
    ];
    assert_eq!(after_build(script), expected);
    let last = "poke built 4 0\npoke rows 2 0\nbatch add\nrestore\nbatch add\nbatch add\nshare 2 4";
    let answers = after_build(&format!("save\n{last}"));
    assert_eq!(answers.last().unwrap(), &format!("share ok 2 {none} {whole} {whole}"));
}

/// The parts of tables two and three in a script, cut and lengthened; `-K` is shorter by K.
#[test]
fn the_protocol_resizes_a_batch() {
    let table = made(&whole_case()).unwrap();
    let three = |part: &[u32]| [part, part, part].concat();
    let lengthened = |part: &[u32], length: usize, fill: u32| {
        let mut table = three(part);
        table.resize(length, fill);
        format!("batch {}", buffer(&table))
    };
    let whole = "1,1,1,1;0,2,0,1;1,3,1,3";
    let ok = format!("share ok 1 {whole} {whole} {whole}");
    let script =
        "batch add\nbatch add\nbatch add\nshare 1 0\nbatch resize cells -0 7\nbatch resize rows 27 7\n\
        batch resize pool 6 7\nshare 1 0\nbatch resize cells 80 4294967295\nbatch resize rows 28 7\n\
        batch resize pool 3000 1\nshare 1 0\nbatch resize cells -9 0\nshare 1 0\nbatch resize pool -2995 0\n\
        share 1 0\nbatch resize pool 6 0\nbatch resize cells 47 0\nshare 1 0\nbatch resize rows -28 0\n\
        share 1 0\nbatch resize rows -1 0\nbatch resize rows 0 0\nshare 7 0\nstate";
    let state = after_build("state");
    let mut pool = three(&table.pool);
    pool[5] = 0;
    let expected = [
        "batch 1".into(),
        "batch 2".into(),
        "batch 3".into(),
        ok.clone(),
        lengthened(&table.cells, 72, 0),
        lengthened(&table.rows, 27, 0),
        lengthened(&table.pool, 6, 0),
        ok.clone(),
        lengthened(&table.cells, 80, u32::MAX),
        lengthened(&table.rows, 28, 7),
        lengthened(&table.pool, 3000, 1),
        ok,
        lengthened(&table.cells, 71, 0),
        "share no 25 3".into(),
        lengthened(&table.pool, 5, 0),
        "share no 25 3".into(),
        format!("batch {}", buffer(&pool)),
        lengthened(&table.cells, 47, 0),
        "share no 25 2".into(),
        format!("batch {}", buffer(&[])),
        "share no 25 1".into(),
        "bad".into(),
        format!("batch {}", buffer(&[])),
        "share no 38 0".into(),
        state[0].clone(),
    ];
    assert_eq!(after_build(script), expected);
}

/// Of tables shorter than the record says, all there is is added; of longer ones, what the record says.
#[test]
fn the_protocol_adds_what_there_is() {
    let table = made(&whole_case()).unwrap();
    let shown = "batch resize cells -0 0\nbatch resize rows -0 0\nbatch resize pool -0 0";
    let buffers = |cells: &[u32], rows: &[u32], pool: &[u32]| {
        [cells, rows, pool].map(|numbers| format!("batch {}", buffer(numbers))).to_vec()
    };
    let Filled { cells, rows, pool, .. } = &table;
    let added = after_build(&format!("batch add\n{shown}"));
    assert_eq!(added[1..], buffers(cells, rows, pool));

    let cut = "resize cells 23 0\nresize rows 4 0\nresize pool 0 0\nbatch add\nshare 0 0\n";
    let added = after_build(&format!("{cut}{shown}"));
    assert_eq!(added[3..5], ["batch 1", "share no 25 1"]);
    assert_eq!(added[5..], buffers(&cells[..23], &rows[..4], &[]));

    let huge = "resize cells 24 0\nresize rows 9 0\nresize pool 2 0\npoke built 1 4294967295\n\
        poke built 3 4294967295\npoke built 5 4294967295\npoke built 6 4294967295\nbatch add\nshare 0 0\n";
    let added = after_build(&format!("{huge}{shown}"));
    assert_eq!(added[7..9], ["batch 1", "share no 25 1"]);
    assert_eq!(added[9..], buffers(cells, rows, pool));

    let fewer = "poke built 5 2\npoke built 6 1\nbatch add\nshare 0 0\n";
    let added = after_build(&format!("{fewer}{shown}"));
    assert_eq!(added[2..4], ["batch 1", "share no 25 1"]);
    assert_eq!(added[4..], buffers(&cells[..16], &rows[..6], &pool[..1]));
}

/// A batch takes more than 16 tables, and is then refused.
#[test]
fn the_protocol_adds_beyond_16() {
    let answers = after_build(&"batch add\nshare 0 0\n".repeat(18));
    for (added, shared) in (1..=18).zip(answers.chunks(2)) {
        let lines = " 1,1,1,1;1,1,1,1".repeat(added);
        let expected = if added <= 16 { format!("share ok 1{lines}") } else { "share no 40 0".into() };
        assert_eq!(shared, [format!("batch {added}"), expected]);
    }
}

#[test]
fn malformed_commands_are_bad() {
    let lines = [
        "batch",
        "batch old",
        "batch new 1",
        "batch add 1",
        "batch resize",
        "batch resize cells",
        "batch resize cells 1",
        "batch resize cells 1 4294967296",
        "batch resize cells 67108865 1",
        "batch resize cells 4294967296 1",
        "batch resize cells 1 1 1",
        "batch resize cells - 1",
        "batch resize cells --1 1",
        "batch resize cells +1 1",
        "batch resize cells x 1",
        "batch resize cells 1 x",
        "batch resize cells -1 1",
        "batch resize cells -4294967296 1",
        "batch resize edges 1 1",
        "batch resize built 1 1",
        "share",
        "share 1",
        "share 1 1 1",
        "share x 1",
        "share 1 x",
        "share -1 1",
        "share 4294967296 1",
        "share 1 4294967296",
    ];
    for line in lines {
        assert_eq!(answers(line), ["bad"], "{line}");
    }
    let script = "batch add\nbatch resize cells 67108864 0\nbatch add\nshare 0 0\nbatch resize cells -1 0\n\
        poke built 5 1\npoke built 1 1\npoke built 3 0\nbatch resize cells -1 0\nbatch add";
    let answers = after_build(script);
    assert_eq!(answers[2..4], ["bad", "share ok 1 1,1,1,1;1,1,1,1"], "no room for more cells");
    assert_eq!(answers[9], "batch 2");
}
