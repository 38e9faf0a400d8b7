//! Rule files: reading and writing.

use crate::edge::{spell_edge, spelling_fits, Edge, Places, EDGE_NUMBERS, RECORD_NUMBERS};
use crate::guard::MOST_CONSTANT;
use crate::rule::{
    check_rule, codes_fit, places_in_use, sizes_in_range, Head, EDGE_TABLE_NUMBERS, MOST_EDGES,
};
use crate::Refusal;

const SIZES: u16 = 1;
const INITIAL: u16 = 2;
const FINAL: u16 = 3;
const CEILING: u16 = 4;

/// Bytes of length and kind before a body.
const RECORD_FRONT: usize = 4;

/// Reads a rule file into a head record and the lent edge table: 20, then 1 to 8.
///
/// A ceiling is checked and then dropped. Places of the edge table not in use end as zero. After 1 to 8 the
/// whole table is zero; after 20 it is untouched. The head record that goes with a refusal is all zero
/// (`Head::default()`).
pub fn read_rule(file: &[u8], edges: &mut [u16]) -> Result<Head, Refusal> {
    Refusal::unless(edges.len() >= EDGE_TABLE_NUMBERS, 20)?;
    edges.fill(0);
    let outcome = read_records(file, edges);
    if outcome.is_err() {
        edges.fill(0);
    }
    outcome
}

fn read_records(file: &[u8], edges: &mut [u16]) -> Result<Head, Refusal> {
    Refusal::unless(!file.is_empty(), 3)?;
    let mut reader = Reader { head: Head::default(), edges, largest: 0, last: None };
    let mut place = 0;
    while place < file.len() {
        let refuse = |number| Refusal::at(number, place);
        let record = Record::first_of(&file[place..]).map_err(refuse)?;
        reader.take(record).map_err(refuse)?;
        place += RECORD_FRONT + record.body.len();
    }
    Refusal::unless_at(codes_fit(&reader.head, reader.largest), 8, file.len())?;
    Ok(reader.head)
}

/// One record of a file.
#[derive(Clone, Copy)]
struct Record<'a> {
    kind: u16,
    body: &'a [u8],
}

impl<'a> Record<'a> {
    /// The record at the front of the bytes: 1, then 2.
    fn first_of(bytes: &'a [u8]) -> Result<Self, u8> {
        let (front, rest) = bytes.split_at_checked(RECORD_FRONT).ok_or(1)?;
        let length = usize::from(number_at(front, 0));
        let record = Record { kind: number_at(front, 1), body: rest.get(..length).ok_or(1)? };
        if record.length_fits_kind() {
            Ok(record)
        } else {
            Err(2)
        }
    }

    fn length_fits_kind(self) -> bool {
        let length = self.body.len();
        match self.kind {
            SIZES => length == 6,
            INITIAL | FINAL | CEILING => length == 2,
            kind => {
                let spelling = (length / 2).checked_sub(RECORD_NUMBERS);
                length % 2 == 0 && spelling.is_some_and(|numbers| spelling_fits(kind, numbers))
            }
        }
    }

    fn number(self, index: usize) -> u16 {
        number_at(self.body, index)
    }

    fn numbers(self) -> impl ExactSizeIterator<Item = u16> + 'a {
        self.body.chunks_exact(2).map(|pair| number_at(pair, 0))
    }
}

/// The two-byte number with this index.
fn number_at(bytes: &[u8], index: usize) -> u16 {
    u16::from_le_bytes([bytes[2 * index], bytes[2 * index + 1]])
}

/// What the records so far have spelled.
struct Reader<'a> {
    head: Head,
    edges: &'a mut [u16],
    /// The largest constant in any atom.
    largest: u32,
    /// Kind and first number of the last record.
    last: Option<(u16, u16)>,
}

impl Reader<'_> {
    /// Takes in the next record: 3 to 7.
    fn take(&mut self, record: Record) -> Result<(), u8> {
        if !self.in_order(record) {
            return Err(3);
        }
        self.last = Some((record.kind, record.number(0)));
        match record.kind {
            SIZES => self.take_sizes(record)?,
            INITIAL => self.head.initial |= self.location_bit(record)?,
            FINAL => self.head.finals |= self.location_bit(record)?,
            CEILING => check_ceiling(record)?,
            _ => self.take_edge(record)?,
        }
        Ok(())
    }

    /// Whether a record of this kind and first number may come next.
    fn in_order(&self, record: Record) -> bool {
        let Some((last_kind, last_number)) = self.last else {
            return record.kind == SIZES;
        };
        match record.kind {
            SIZES => false,
            INITIAL | FINAL if record.kind == last_kind => record.number(0) > last_number,
            CEILING => last_kind < CEILING,
            kind => kind >= last_kind,
        }
    }

    fn take_sizes(&mut self, record: Record) -> Result<(), u8> {
        let [locations, symbols, clocks] = [0, 1, 2].map(|index| u32::from(record.number(index)));
        if !sizes_in_range(locations, symbols, clocks) {
            return Err(5);
        }
        self.head = Head { locations, symbols, clocks, ..Head::default() };
        Ok(())
    }

    fn location_bit(&self, record: Record) -> Result<u32, u8> {
        let location = u32::from(record.number(0));
        if location < self.head.locations {
            Ok(1 << location)
        } else {
            Err(6)
        }
    }

    fn take_edge(&mut self, record: Record) -> Result<(), u8> {
        let count = self.head.edge_count as usize;
        if count == MOST_EDGES {
            return Err(4);
        }
        let places = &mut self.edges[count * EDGE_NUMBERS..][..EDGE_NUMBERS];
        spell_edge(record.kind, record.numbers(), places);
        let edge = Edge::take(&self.head, Places(places))?;
        self.largest = self.largest.max(edge.guard.largest_constant());
        self.head.edge_count += 1;
        Ok(())
    }
}

/// Checks a ceiling: 6. Nothing of it is kept.
fn check_ceiling(record: Record) -> Result<(), u8> {
    if u32::from(record.number(0)) <= MOST_CONSTANT {
        Ok(())
    } else {
        Err(6)
    }
}

/// Writes the rule as a file and returns its length: 20, 21, 27.
///
/// A rule that was read from a file is written with the same bytes, less the ceiling's record if there was
/// one. The bytes past the file are not touched; a refusal touches none.
pub fn write_rule(head: &Head, edges: &[u16], out: &mut [u8]) -> Result<usize, Refusal> {
    check_rule(head, edges)?;
    let length = file_length(head, edges);
    Refusal::unless(out.len() >= length, 27)?;
    let mut writer = Writer { out, place: 0 };
    writer.record(SIZES, &[head.locations as u16, head.symbols as u16, head.clocks as u16]);
    writer.locations(INITIAL, head.initial);
    writer.locations(FINAL, head.finals);
    for edge in places_in_use(head, edges) {
        writer.edge(edge);
    }
    Ok(length)
}

fn file_length(head: &Head, edges: &[u16]) -> usize {
    let sizes = RECORD_FRONT + 6;
    let location_records = head.initial.count_ones() + head.finals.count_ones();
    let edge_bytes: usize = places_in_use(head, edges).map(|edge| RECORD_FRONT + body_length(edge)).sum();
    sizes + (RECORD_FRONT + 2) * location_records as usize + edge_bytes
}

/// Bytes of an edge's record behind length and kind.
fn body_length(edge: Places) -> usize {
    2 * (RECORD_NUMBERS + edge.spelling().len())
}

/// Puts numbers into bytes known to be enough.
struct Writer<'a> {
    out: &'a mut [u8],
    place: usize,
}

impl Writer<'_> {
    fn number(&mut self, number: u16) {
        self.out[self.place..self.place + 2].copy_from_slice(&number.to_le_bytes());
        self.place += 2;
    }

    fn numbers(&mut self, numbers: &[u16]) {
        for &number in numbers {
            self.number(number);
        }
    }

    fn record(&mut self, kind: u16, numbers: &[u16]) {
        self.numbers(&[2 * numbers.len() as u16, kind]);
        self.numbers(numbers);
    }

    fn locations(&mut self, kind: u16, set: u32) {
        for location in 0..32 {
            if set >> location & 1 == 1 {
                self.record(kind, &[location]);
            }
        }
    }

    /// An edge's record: its numbers without the count.
    fn edge(&mut self, edge: Places) {
        self.numbers(&[body_length(edge) as u16, edge.kind()]);
        self.numbers(edge.record());
        self.numbers(edge.spelling());
    }
}
