//! What came up of batches: their tables and lists, shares, which one is the greatest, refusals in order.

use crate::cover::those;
use crate::listed::{MOST_EVENTS, MOST_SECONDS};
use alderskein::raw::{Built, Shares, Size, LINE_IN_ALL, LINE_NUMBERS, SHARE_NUMBERS, TABLES};
use alderskein::LISTED_WORDS;
use protocol::{word_count, Batch, Call, Engine, Length, Reference, Reply, Table};

/// The counts, each of which must be above 0.
pub const COUNTS: [&[&str]; 7] =
    [&TABLES_OF, &SIZES, &SHARES, &GREATEST, &NONE_OR_RANGE, &OUT_OF_SHAPE, &TOO_LONG];

/// Batches that were counted.
const TABLES_OF: [&str; 14] = [
    "share: a batch of 1 table",
    "share: a batch of 2 to 15 tables",
    "share: a batch of 16 tables",
    "share: tables as built",
    "share: tables filled by hand",
    "share: a built table and one filled by hand",
    "share: unequal S",
    "share: unequal cm",
    "share: S = 1",
    "share: S = 16",
    "share: cm = 30",
    "share: R = 4,096",
    "share: numbers behind the last table",
    "share: shifted parts, counted",
];

/// Their lists.
const SIZES: [&str; 7] = [
    "share: m = 0",
    "share: m = 6",
    "share: H = 0",
    "share: H = 30",
    "share: a list of more than 1,000 words",
    "share: a list of more than 10,000 words",
    "share: a list of 997,151 words",
];

/// Their lines.
const SHARES: [&str; 6] = [
    "share: no word in all",
    "share: every word in all",
    "share: no word of a length",
    "share: every word of a length",
    "share: lowest terms below the counts",
    "share: the counts in lowest terms",
];

/// The greatest of two and more.
const GREATEST: [&str; 8] = [
    "share: the first is the greatest",
    "share: the last is the greatest",
    "share: one between is the greatest",
    "share: a tie",
    "share: a tie of unequal counts",
    "share: the greatest has fewer words than another",
    "share: the greatest is not that of the longest words",
    "share: one of two products over 32 bits",
];

/// Batches of no table or too many, and sizes out of range.
const NONE_OR_RANGE: [&str; 10] = [
    "share: 40 for no table",
    "share: 40 for 17 tables",
    "share: 40 for more than 17 tables",
    "share: 40, and m or H is out of range",
    "share: 38 for m = 7 alone",
    "share: 38 for m over 7 alone",
    "share: 38 for H = 31 alone",
    "share: 38 for H over 31 alone",
    "share: 38 for m and H",
    "share: 38, and a table is out of shape",
];

/// The first table out of shape, and what comes after it.
const OUT_OF_SHAPE: [&str; 11] = [
    "share: 25 for the first table",
    "share: 25 for one between",
    "share: 25 for the last of several",
    "share: 25 for table 16",
    "share: 25 for a built record",
    "share: 25 for one cell too few",
    "share: 25 for one row number too few",
    "share: 25 for one code too few",
    "share: 25 for numbers in its tables",
    "share: 25, and a gap or an overlap before it",
    "share: 25, and its list or a later one is too long",
];

/// The first list that is too long.
const TOO_LONG: [&str; 6] = [
    "share: 43 for the first table",
    "share: 43 for a later table",
    "share: 43 for table 16",
    "share: 43 for 1,009,605 words",
    "share: 43, and another list is too long",
    "share: 43, and a later table is out of shape",
];

/// What is known of the batch.
#[derive(Default)]
pub struct BatchCounts {
    /// Whether each table was filled or changed by hand.
    by_hand: Vec<bool>,
    /// Whether a table was cut or lengthened, and whether another one was added behind that.
    resized: bool,
    shifted: bool,
}

/// A call with its batch and its answer.
struct Asked<'a> {
    batch: &'a Batch,
    events: u32,
    seconds: u32,
    shares: &'a Shares,
}

impl BatchCounts {
    /// The counts that a command with its reply adds to; `by_hand`: whether the state's table was filled by hand.
    pub fn seen(&mut self, call: &Call, reply: &Reply, batch: &Batch, by_hand: bool) -> Vec<&'static str> {
        match (call, reply) {
            (Call::BatchNew, _) => *self = BatchCounts::default(),
            (Call::BatchAdd, _) => {
                self.by_hand.push(by_hand);
                self.shifted |= self.resized;
            }
            (Call::BatchResize { length, .. }, _) => self.resized |= *length != Length::Less(0),
            (&Call::Share { events, seconds }, Reply::Shared(shares)) => {
                let asked = Asked { batch, events, seconds, shares };
                return [asked.seen(), self.seen_made(shares.number)].concat();
            }
            _ => {}
        }
        Vec::new()
    }

    /// How the batch was made.
    fn seen_made(&self, number: u8) -> Vec<&'static str> {
        let (counted, hands) = (number == 0, self.by_hand.iter().filter(|&&by_hand| by_hand).count());
        let count = self.by_hand.len();
        those([
            ("share: tables as built", counted && hands == 0),
            ("share: tables filled by hand", counted && hands == count),
            ("share: a built table and one filled by hand", counted && hands > 0 && hands < count),
            ("share: shifted parts, counted", counted && self.shifted),
            ("share: 25, and a gap or an overlap before it", number == 25 && self.shifted),
        ])
    }
}

impl Asked<'_> {
    fn seen(&self) -> Vec<&'static str> {
        match self.shares.number {
            0 => [self.seen_tables(), self.seen_lists(), self.seen_shares(), self.seen_greatest()].concat(),
            40 => self.seen_none(),
            38 => self.seen_range(),
            25 => self.seen_out_of_shape(),
            _ => self.seen_too_long(),
        }
    }

    fn count(&self) -> usize {
        self.batch.built.len()
    }

    /// Whether m, and whether H, is out of range.
    fn out_of_range(&self) -> [bool; 2] {
        [self.events > MOST_EVENTS, self.seconds > MOST_SECONDS]
    }

    /// How many words the list of a table has; none if S is out of range.
    fn words(&self, built: &Built) -> u64 {
        let (events, seconds) = (self.events, self.seconds);
        word_count(Size { symbols: built.symbols, events, seconds }).unwrap_or(0)
    }

    /// Whether the list of a table is too long.
    fn too_long(&self, built: &Built) -> bool {
        self.words(built) > LISTED_WORDS.into()
    }

    /// The tables with what stands from the place of each on; these are as many as begin within the batch.
    fn parts(&self) -> Vec<Table<'_>> {
        let (mut cells, mut rows, mut pool) =
            (&self.batch.cells[..], &self.batch.rows[..], &self.batch.pool[..]);
        let mut tables = Vec::new();
        for built in &self.batch.built {
            tables.push(Table { built: *built, cells, rows, pool });
            let needs = Batch::needs(built).map(|need| usize::try_from(need).unwrap_or(usize::MAX));
            let rest = [cells.get(needs[0]..), rows.get(needs[1]..), pool.get(needs[2]..)];
            let [Some(next_cells), Some(next_rows), Some(next_pool)] = rest else { break };
            (cells, rows, pool) = (next_cells, next_rows, next_pool);
        }
        tables
    }

    fn seen_tables(&self) -> Vec<&'static str> {
        let built = &self.batch.built;
        let any = |is: fn(&Built) -> bool| built.iter().any(is);
        let unequal = |of: fn(&Built) -> u32| built.iter().any(|one| of(one) != of(&built[0]));
        let needs =
            built.iter().map(Batch::needs).fold([0; 3], |sum, need| [0, 1, 2].map(|at| sum[at] + need[at]));
        let there = [self.batch.cells.len(), self.batch.rows.len(), self.batch.pool.len()];
        those([
            ("share: a batch of 1 table", self.count() == 1),
            ("share: a batch of 2 to 15 tables", (2..TABLES).contains(&self.count())),
            ("share: a batch of 16 tables", self.count() == TABLES),
            ("share: unequal S", unequal(|built| built.symbols)),
            ("share: unequal cm", unequal(|built| built.top)),
            ("share: S = 1", any(|built| built.symbols == 1)),
            ("share: S = 16", any(|built| built.symbols == 16)),
            ("share: cm = 30", any(|built| built.top == 30)),
            ("share: R = 4,096", any(|built| built.rows == 4_096)),
            ("share: numbers behind the last table", there.map(|length| length as u128) != needs),
        ])
    }

    fn seen_lists(&self) -> Vec<&'static str> {
        let longest = self.batch.built.iter().map(|built| self.words(built)).max().unwrap_or(0);
        those([
            ("share: m = 0", self.events == 0),
            ("share: m = 6", self.events == MOST_EVENTS),
            ("share: H = 0", self.seconds == 0),
            ("share: H = 30", self.seconds == MOST_SECONDS),
            ("share: a list of more than 1,000 words", longest > 1_000),
            ("share: a list of more than 10,000 words", longest > 10_000),
            ("share: a list of 997,151 words", longest == 997_151),
        ])
    }

    /// The tables' shares of a length, 7 for all lengths together.
    fn of_length(&self, length: usize) -> impl Iterator<Item = [u32; SHARE_NUMBERS]> + '_ {
        let lines = self.shares.lines.chunks_exact(LINE_NUMBERS).take(self.count());
        let at = SHARE_NUMBERS * length;
        lines.map(move |line| [0, 1, 2, 3].map(|place| line[at + place]))
    }

    fn in_all(&self) -> Vec<[u32; SHARE_NUMBERS]> {
        self.of_length(LINE_IN_ALL / SHARE_NUMBERS).collect()
    }

    fn seen_shares(&self) -> Vec<&'static str> {
        let lengths = 0..=self.events as usize;
        let by_length: Vec<_> = lengths.flat_map(|length| self.of_length(length)).collect();
        let in_all = self.in_all();
        those([
            ("share: no word in all", in_all.iter().any(|share| share[0] == 0)),
            ("share: every word in all", in_all.iter().any(|share| share[0] == share[1])),
            ("share: no word of a length", by_length.iter().any(|share| share[0] == 0)),
            (
                "share: every word of a length",
                by_length.iter().any(|share| share[0] == share[1] && share[1] > 1),
            ),
            (
                "share: lowest terms below the counts",
                by_length.iter().any(|share| 1 < share[2] && share[2] < share[0]),
            ),
            (
                "share: the counts in lowest terms",
                by_length.iter().any(|share| 1 < share[2] && share[2] == share[0]),
            ),
        ])
    }

    fn seen_greatest(&self) -> Vec<&'static str> {
        let (in_all, count) = (self.in_all(), self.count());
        let place = self.shares.greatest as usize;
        let Some(greatest) = in_all.get(place.wrapping_sub(1)) else { return Vec::new() };
        let others =
            || in_all.iter().enumerate().filter(|(other, _)| other + 1 != place).map(|(_, share)| share);
        let same = |share: &&[u32; SHARE_NUMBERS]| share[2..] == greatest[2..];
        let longest: Vec<_> = self.of_length(self.events as usize).collect();
        let above = |share: &[u32; SHARE_NUMBERS]| {
            product(share, &longest[place - 1]) > product(&longest[place - 1], share)
        };
        let over = |by: u64| by > u64::from(u32::MAX);
        let one_over =
            |share: &[u32; SHARE_NUMBERS]| over(product(greatest, share)) != over(product(share, greatest));
        those([
            ("share: the first is the greatest", count > 1 && place == 1),
            ("share: the last is the greatest", count > 1 && place == count),
            ("share: one between is the greatest", place > 1 && place < count),
            ("share: a tie", others().any(|share| same(&share))),
            (
                "share: a tie of unequal counts",
                others().filter(same).any(|share| share[..2] != greatest[..2]),
            ),
            (
                "share: the greatest has fewer words than another",
                others().any(|share| share[0] > greatest[0]),
            ),
            ("share: the greatest is not that of the longest words", longest.iter().any(above)),
            ("share: one of two products over 32 bits", others().any(one_over)),
        ])
    }

    fn seen_none(&self) -> Vec<&'static str> {
        those([
            ("share: 40 for no table", self.count() == 0),
            ("share: 40 for 17 tables", self.count() == TABLES + 1),
            ("share: 40 for more than 17 tables", self.count() > TABLES + 1),
            ("share: 40, and m or H is out of range", self.out_of_range() != [false; 2]),
        ])
    }

    fn seen_range(&self) -> Vec<&'static str> {
        let out = self.out_of_range();
        let [events_alone, seconds_alone] = [out == [true, false], out == [false, true]];
        let out_of_shape = self.parts().into_iter().any(|table| Reference::check_table(table).number != 0);
        those([
            ("share: 38 for m = 7 alone", events_alone && self.events == MOST_EVENTS + 1),
            ("share: 38 for m over 7 alone", events_alone && self.events > MOST_EVENTS + 1),
            ("share: 38 for H = 31 alone", seconds_alone && self.seconds == MOST_SECONDS + 1),
            ("share: 38 for H over 31 alone", seconds_alone && self.seconds > MOST_SECONDS + 1),
            ("share: 38 for m and H", out == [true; 2]),
            ("share: 38, and a table is out of shape", out_of_shape),
        ])
    }

    fn seen_out_of_shape(&self) -> Vec<&'static str> {
        let (place, count) = (self.shares.place, self.count());
        let parts = self.parts();
        let Some(table) = parts.get(place.wrapping_sub(1)) else { return Vec::new() };
        let there = [table.cells.len(), table.rows.len(), table.pool.len()];
        let needs = Batch::needs(&table.built);
        let short = [0, 1, 2].map(|at| needs[at].saturating_sub(there[at] as u128));
        let sizes = sizes_out_of_range(&table.built);
        let too_long = self.batch.built[place - 1..].iter().any(|built| self.too_long(built));
        those([
            ("share: 25 for the first table", place == 1 && count > 1),
            ("share: 25 for one between", 1 < place && place < count),
            ("share: 25 for the last of several", 1 < place && place == count),
            ("share: 25 for table 16", place == TABLES),
            ("share: 25 for a built record", sizes),
            ("share: 25 for one cell too few", !sizes && short == [1, 0, 0]),
            ("share: 25 for one row number too few", !sizes && short == [0, 1, 0]),
            ("share: 25 for one code too few", !sizes && short == [0, 0, 1]),
            ("share: 25 for numbers in its tables", !sizes && short == [0; 3]),
            ("share: 25, and its list or a later one is too long", too_long),
        ])
    }

    fn seen_too_long(&self) -> Vec<&'static str> {
        let place = self.shares.place;
        let Some([built, behind @ ..]) = self.batch.built.get(place.wrapping_sub(1)..) else {
            return Vec::new();
        };
        let parts = self.parts();
        let out_of_shape = parts.iter().skip(place).any(|&table| Reference::check_table(table).number != 0);
        let another = behind.iter().any(|built| self.too_long(built));
        those([
            ("share: 43 for the first table", place == 1),
            ("share: 43 for a later table", place > 1),
            ("share: 43 for table 16", place == TABLES),
            ("share: 43 for 1,009,605 words", self.words(built) == 1_009_605),
            ("share: 43, and another list is too long", another),
            ("share: 43, and a later table is out of shape", out_of_shape),
        ])
    }
}

/// What tells whether a share is above another: the words accepted times the other's words.
fn product(share: &[u32; SHARE_NUMBERS], other: &[u32; SHARE_NUMBERS]) -> u64 {
    u64::from(share[0]) * u64::from(other[1])
}

/// Whether a built record is out of shape by its sizes, whatever its tables hold.
fn sizes_out_of_range(built: &Built) -> bool {
    let Built { locations, symbols, clocks, top, rows, .. } = *built;
    let codes = (u64::from(top) + 2).saturating_pow(clocks).saturating_mul(locations.into());
    !(1..=32).contains(&locations)
        || !(1..=16).contains(&symbols)
        || !(1..=4).contains(&clocks)
        || top > 30
        || codes > 65_536
        || !(1..=4_096).contains(&rows)
}
