//! The rows, found by a hash of their words.

use super::plan::Plan;

/// Numbers per row in the row table.
const ROW_NUMBERS: usize = 3;
/// The bits of a slot that have a row's number plus 1; the others have bits of its hash.
const SLOT_ROW: u32 = (1 << 13) - 1;
/// Slots at first. They are doubled when half of them are taken, so that a small build clears few.
const FIRST_SLOTS: usize = 32;

/// A word of a set that is not zero, and which.
#[derive(Clone, Copy, PartialEq)]
pub struct Word {
    pub at: u64,
    pub bits: u64,
}

/// The rows so far.
#[derive(Default)]
pub struct Rows {
    /// The words of all rows, one row after another.
    words: Vec<Word>,
    /// Where each row's words begin, and at last their end.
    begins: Vec<u32>,
    hashes: Vec<u64>,
    /// A table of rows by hash with open addressing; 0 where there is none.
    slots: Vec<u32>,
    /// The empty row's number, once there is one.
    empty: Option<u32>,
    /// The row table: start, length and verdict of each.
    numbers: Vec<u32>,
    pool: Vec<u32>,
    /// The set to be numbered, ascending.
    set: Vec<Word>,
}

impl Rows {
    pub fn clear(&mut self) {
        for list in [&mut self.begins, &mut self.numbers, &mut self.pool, &mut self.slots] {
            list.clear();
        }
        self.words.clear();
        self.hashes.clear();
        self.begins.push(0);
        self.slots.resize(FIRST_SLOTS, 0);
        self.empty = None;
    }

    pub fn count(&self) -> usize {
        self.hashes.len()
    }

    pub fn numbers(&self) -> &[u32] {
        &self.numbers
    }

    pub fn pool(&self) -> &[u32] {
        &self.pool
    }

    pub fn pair_count(&self, row: usize) -> usize {
        self.numbers[ROW_NUMBERS * row + 1] as usize
    }

    pub fn words(&self, row: usize) -> &[Word] {
        &self.words[self.begins[row] as usize..self.begins[row + 1] as usize]
    }

    /// The number of the set of these places, ascending.
    pub fn number_places(&mut self, plan: &Plan, places: &[u32]) -> u32 {
        self.set.clear();
        for &place in places {
            let (at, bit) = (u64::from(place / 64), 1 << (place % 64));
            match self.set.last_mut() {
                Some(word) if word.at == at => word.bits |= bit,
                _ => self.set.push(Word { at, bits: bit }),
            }
        }
        self.number(plan)
    }

    /// The number of the set with these words, which are zeroed.
    pub fn number_words(&mut self, plan: &Plan, words: &mut [u64]) -> u32 {
        self.set.clear();
        for (at, bits) in words.iter_mut().enumerate() {
            if *bits != 0 {
                self.set.push(Word { at: at as u64, bits: *bits });
                *bits = 0;
            }
        }
        self.number(plan)
    }

    /// The set's number, which is a new row's if no row has it yet.
    fn number(&mut self, plan: &Plan) -> u32 {
        if self.set.is_empty() {
            return self.number_empty(plan);
        }
        let hash = hash(&self.set);
        let mask = self.slots.len() - 1;
        let mut slot = slot_of(hash) & mask;
        while self.slots[slot] != 0 {
            let row = (self.slots[slot] & SLOT_ROW) - 1;
            if self.slots[slot] == entry(hash, row) && self.words(row as usize) == self.set {
                return row;
            }
            slot = (slot + 1) & mask;
        }
        self.append(plan, hash, slot)
    }

    /// Most tables lead to the empty row again and again, so it is not looked for.
    fn number_empty(&mut self, plan: &Plan) -> u32 {
        if let Some(row) = self.empty {
            return row;
        }
        let row = self.append_numbers(plan, 0);
        self.empty = Some(row);
        row
    }

    /// Appends the set as the next row, into a free slot.
    fn append(&mut self, plan: &Plan, hash: u64, slot: usize) -> u32 {
        let row = self.append_numbers(plan, hash);
        self.slots[slot] = entry(hash, row);
        if 2 * self.count() >= self.slots.len() {
            self.double_slots();
        }
        row
    }

    fn double_slots(&mut self) {
        let mask = 2 * self.slots.len() - 1;
        self.slots.clear();
        self.slots.resize(mask + 1, 0);
        for (row, &hash) in self.hashes.iter().enumerate() {
            if Some(row as u32) == self.empty {
                continue;
            }
            let mut slot = slot_of(hash) & mask;
            while self.slots[slot] != 0 {
                slot = (slot + 1) & mask;
            }
            self.slots[slot] = entry(hash, row as u32);
        }
    }

    /// Appends the set's words, its codes and its row numbers.
    fn append_numbers(&mut self, plan: &Plan, hash: u64) -> u32 {
        let (row, start) = (self.count() as u32, self.pool.len() as u32);
        let mut verdict = 0;
        for word in &self.set {
            let mut bits = word.bits;
            while bits != 0 {
                let (code, last) = plan.code(64 * word.at as u32 + bits.trailing_zeros());
                self.pool.push(code);
                verdict |= last;
                bits &= bits - 1;
            }
        }
        self.words.extend_from_slice(&self.set);
        self.begins.push(self.words.len() as u32);
        self.hashes.push(hash);
        self.numbers.extend([start, self.pool.len() as u32 - start, verdict]);
        row
    }
}

/// The words' hashes added up: they do not wait for one another.
fn hash(set: &[Word]) -> u64 {
    let mut sum = 0u64;
    for word in set {
        let place = (word.at + 1).wrapping_mul(0x9E37_79B9_7F4A_7C15);
        let product = u128::from(word.bits ^ 0xD1B5_4A32_D192_ED03) * u128::from(place);
        sum = sum.wrapping_add(product as u64 ^ (product >> 64) as u64);
    }
    sum
}

fn slot_of(hash: u64) -> usize {
    (hash >> 32) as usize
}

fn entry(hash: u64, row: u32) -> u32 {
    hash as u32 & !SLOT_ROW | (row + 1)
}
