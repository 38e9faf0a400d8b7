//! The script protocol: one command per line in, one result line per command out.

use crate::{
    all_words, build_table, check_inclusion, check_rule, check_table, check_word, count_words, decide,
    follow_event, follow_event_in_place, list_table, next_word, read_rule, run_branches, run_exact,
    run_table, share_words, start_follower, write_rule, Built, Follower, Head, Listed, Refusal, Share,
    ShareLine, Size, MOST_LISTED_EVENTS, ROW_NUMBERS,
};
use std::io::{self, BufRead, Write};
use std::str::SplitAsciiWhitespace;

/// The longest buffer or list a script may ask for; more is malformed.
const MOST_NUMBERS: usize = 1 << 26;

/// How many slots there are.
const SLOTS: usize = 10;

/// Runs a script: reads commands to the end and writes their result lines.
pub fn run_script(mut input: impl BufRead, mut output: impl Write) -> io::Result<()> {
    let mut machine = Machine::default();
    let mut line = Vec::new();
    while input.read_until(b'\n', &mut line)? > 0 {
        let text = String::from_utf8_lossy(&line);
        let text = text.trim_ascii();
        if !text.is_empty() && !text.starts_with('#') {
            let answer = machine.answer(text).unwrap_or_else(|| "bad".into());
            writeln!(output, "{answer}")?;
            output.flush()?;
        }
        line.clear();
    }
    Ok(())
}

/// What is kept between commands.
#[derive(Clone, Default)]
struct State {
    head: Head,
    edges: Vec<u16>,
    built: Built,
    cells: Vec<u32>,
    rows: Vec<u32>,
    pool: Vec<u32>,
    follower: Follower,
}

/// A built record and its tables, kept for later.
#[derive(Clone)]
struct Slot {
    built: Built,
    cells: Vec<u32>,
    rows: Vec<u32>,
    pool: Vec<u32>,
}

/// Built records, and their tables one after another.
#[derive(Default)]
struct Batch {
    built: Vec<Built>,
    cells: Vec<u32>,
    rows: Vec<u32>,
    pool: Vec<u32>,
}

#[derive(Default)]
struct Machine {
    state: State,
    saved: Option<State>,
    slots: [Option<Slot>; SLOTS],
    batch: Batch,
}

impl Machine {
    /// The result line of a command, or nothing if it is malformed.
    fn answer(&mut self, line: &str) -> Option<String> {
        let mut fields = Fields(line.split_ascii_whitespace());
        let state = &mut self.state;
        let name = fields.text()?;
        let rest = match name {
            "read" => state.read(fields),
            "write" => state.write(fields),
            "build" => state.build(fields),
            "exact" => state.exact(fields),
            "branch" => state.branch(fields),
            "table" => state.table(fields),
            "start" => state.start(fields),
            "follow" => state.follow(fields),
            "follow_in_place" => state.follow_in_place(fields),
            "walk" => state.walk(fields),
            "list" => list(fields),
            "check_rule" => state.check_rule(fields),
            "check_word" => check_word_command(fields),
            "check_table" => state.check_table(fields),
            "decide" => decide_command(fields),
            "next" => next_command(fields),
            "words" => words_command(fields),
            "poke" => state.poke(fields),
            "resize" => state.resize(fields),
            "state" => state.show(fields),
            "dump" => state.dump(fields),
            "save" => self.save(fields),
            "restore" => self.restore(fields),
            "keep" => self.keep(fields),
            "use" => self.use_slot(fields),
            "include" => self.include(fields),
            "batch" => self.batch(fields),
            "share" => self.batch.share(fields),
            _ => None,
        }?;
        Some(if rest.is_empty() { name.into() } else { format!("{name} {rest}") })
    }

    fn save(&mut self, fields: Fields) -> Option<String> {
        fields.end()?;
        self.saved = Some(self.state.clone());
        Some(String::new())
    }

    fn restore(&mut self, fields: Fields) -> Option<String> {
        fields.end()?;
        self.state = self.saved.clone()?;
        Some(String::new())
    }

    fn keep(&mut self, mut fields: Fields) -> Option<String> {
        let slot = self.slots.get_mut(fields.index()?)?;
        fields.end()?;
        let State { built, cells, rows, pool, .. } = &self.state;
        let [cells, rows, pool] = [cells.clone(), rows.clone(), pool.clone()];
        *slot = Some(Slot { built: *built, cells, rows, pool });
        Some(String::new())
    }

    fn use_slot(&mut self, mut fields: Fields) -> Option<String> {
        let Slot { built, cells, rows, pool } = self.slot(&mut fields)?.clone();
        fields.end()?;
        self.state = State { built, cells, rows, pool, ..std::mem::take(&mut self.state) };
        Some(String::new())
    }

    fn include(&self, mut fields: Fields) -> Option<String> {
        let [first, second] = [self.slot(&mut fields)?, self.slot(&mut fields)?];
        let [scratch, symbols, stamps] = [fields.room()?, fields.room()?, fields.room()?];
        let narrow_fill: u16 = fields.number()?;
        fields.end()?;
        let fill = u32::from(narrow_fill);
        let [mut scratch, mut stamps] = [scratch.filled(fill)?, stamps.filled(fill)?];
        let mut symbols = symbols.filled(narrow_fill)?;
        let outcome = check_inclusion(
            &first.built,
            &first.cells,
            &first.rows,
            &first.pool,
            &second.built,
            &second.cells,
            &second.rows,
            &second.pool,
            &mut scratch,
            &mut symbols,
            &mut stamps,
        );
        let events = outcome.map_or(0, |inclusion| inclusion.events);
        let (shown_symbols, symbols) = symbols.split_at(events);
        let (shown_stamps, stamps) = stamps.split_at(events);
        let shown = outcome.map(|inclusion| {
            let [symbols, stamps] = [numbers_text(shown_symbols), numbers_text(shown_stamps)];
            format!("{} {events} {symbols} {stamps}", u8::from(inclusion.included))
        });
        Some(format!(
            "{} scratch={} symbols={} stamps={}",
            result_text(shown),
            buffer_text(&scratch),
            buffer_text(symbols),
            buffer_text(stamps),
        ))
    }

    fn batch(&mut self, mut fields: Fields) -> Option<String> {
        match fields.text()? {
            "new" => {
                fields.end()?;
                self.batch = Batch::default();
                Some(String::new())
            }
            "add" => {
                fields.end()?;
                self.batch.add(&self.state)
            }
            "resize" => self.batch.resize(fields),
            _ => None,
        }
    }

    /// The slot a field names, or nothing if there is none or it was never filled.
    fn slot(&self, fields: &mut Fields) -> Option<&Slot> {
        self.slots.get(fields.index()?)?.as_ref()
    }
}

impl Batch {
    /// Adds the state's built record and what its tables hold of the numbers it speaks of.
    fn add(&mut self, state: &State) -> Option<String> {
        let [_, symbols, _, largest, _, rows, pool] = state.built.to_numbers().map(u128::from);
        let cells = used(&state.cells, rows * symbols * (2 * largest + 2));
        let rows = used(&state.rows, ROW_NUMBERS as u128 * rows);
        let pool = used(&state.pool, pool);
        let pairs = [(&mut self.cells, cells), (&mut self.rows, rows), (&mut self.pool, pool)];
        if pairs.iter().any(|(table, added)| table.len() + added.len() > MOST_NUMBERS) {
            return None;
        }
        for (table, added) in pairs {
            table.extend(added);
        }
        self.built.push(state.built);
        Some(self.built.len().to_string())
    }

    fn resize(&mut self, mut fields: Fields) -> Option<String> {
        let table = match fields.text()? {
            "cells" => &mut self.cells,
            "rows" => &mut self.rows,
            "pool" => &mut self.pool,
            _ => return None,
        };
        let room = fields.room_from(table.len())?;
        let fill = fields.number()?;
        fields.end()?;
        room.resize(table, fill)
    }

    fn share(&self, mut fields: Fields) -> Option<String> {
        let (events, seconds) = (fields.number()?, fields.number()?);
        fields.end()?;
        let outcome = share_words(&self.built, &self.cells, &self.rows, &self.pool, events, seconds);
        let shown = outcome.map(|shares| {
            let lines: Vec<String> = shares.lines.iter().map(share_line_text).collect();
            format!("{} {}", shares.best, lines.join(" "))
        });
        Some(result_text(shown))
    }
}

/// The front of a table, so many numbers or as many as there are.
fn used(table: &[u32], count: u128) -> &[u32] {
    &table[..count.min(table.len() as u128) as usize]
}

/// The calls.
impl State {
    fn read(&mut self, mut fields: Fields) -> Option<String> {
        let file = fields.bytes()?;
        let mut edges: Vec<u16> = fields.room()?.filled(fields.number()?)?;
        fields.end()?;
        let outcome = read_rule(&file, &mut edges);
        self.head = outcome.unwrap_or_default();
        self.edges = edges;
        let [head, edges] = [numbers_text(&self.head.to_numbers()), buffer_text(&self.edges)];
        Some(format!("{} head={head} edges={edges}", done(outcome)))
    }

    fn write(&self, mut fields: Fields) -> Option<String> {
        let mut out: Vec<u8> = fields.room()?.filled(fields.number()?)?;
        fields.end()?;
        let outcome = write_rule(&self.head, &self.edges, &mut out);
        Some(format!("{} out={}", result_text(outcome), buffer_text(&out)))
    }

    fn build(&mut self, mut fields: Fields) -> Option<String> {
        let [scratch, cells, rows, pool] = [fields.room()?, fields.room()?, fields.room()?, fields.room()?];
        let fill: u32 = fields.number()?;
        fields.end()?;
        let mut scratch = scratch.filled(fill)?;
        let [mut cells, mut rows, mut pool] = [cells.filled(fill)?, rows.filled(fill)?, pool.filled(fill)?];
        let outcome = build_table(&self.head, &self.edges, &mut scratch, &mut cells, &mut rows, &mut pool);
        self.built = outcome.unwrap_or_default();
        (self.cells, self.rows, self.pool) = (cells, rows, pool);
        Some(format!(
            "{} built={} scratch={} {}",
            done(outcome),
            numbers_text(&self.built.to_numbers()),
            buffer_text(&scratch),
            tables_text(&self.cells, &self.rows, &self.pool),
        ))
    }

    fn exact(&self, mut fields: Fields) -> Option<String> {
        let (grain, symbols, stamps) = fields.word()?;
        let mut scratch = fields.room()?.filled(fields.number()?)?;
        fields.end()?;
        let outcome = run_exact(&self.head, &self.edges, grain, &symbols, &stamps, &mut scratch);
        Some(format!("{} scratch={}", verdict_text(outcome), buffer_text(&scratch)))
    }

    fn branch(&self, mut fields: Fields) -> Option<String> {
        let (grain, symbols, stamps) = fields.word()?;
        fields.end()?;
        let outcome = run_branches(&self.head, &self.edges, grain, &symbols, &stamps);
        let shown = outcome.map(|branch| {
            let held = branch.held.map_or(0, |position| position + 1);
            format!("{} {} {} {held}", u8::from(branch.found), branch.start, numbers_text(&branch.edges))
        });
        Some(result_text(shown))
    }

    fn table(&self, mut fields: Fields) -> Option<String> {
        let (grain, symbols, stamps) = fields.word()?;
        fields.end()?;
        let outcome = run_table(&self.built, &self.cells, &self.rows, &self.pool, grain, &symbols, &stamps);
        Some(verdict_text(outcome))
    }

    fn start(&mut self, mut fields: Fields) -> Option<String> {
        let grain = fields.number()?;
        fields.end()?;
        let outcome = start_follower(grain);
        self.follower = outcome.unwrap_or_default();
        Some(format!("{} {}", done(outcome), self.follower_text()))
    }

    fn follow(&mut self, mut fields: Fields) -> Option<String> {
        let (symbol, stamp) = (fields.number()?, fields.number()?);
        fields.end()?;
        let outcome = self.follow_by_value(symbol, stamp);
        Some(format!("{} {}", verdict_text(outcome), self.follower_text()))
    }

    fn follow_by_value(&mut self, symbol: u16, stamp: u32) -> Result<bool, Refusal> {
        let State { follower, built, cells, rows, pool, .. } = self;
        let (verdict, after) = follow_event(*follower, built, cells, rows, pool, symbol, stamp)?;
        *follower = after;
        Ok(verdict)
    }

    fn follow_in_place(&mut self, mut fields: Fields) -> Option<String> {
        let (symbol, stamp) = (fields.number()?, fields.number()?);
        fields.end()?;
        let State { follower, built, cells, rows, pool, .. } = self;
        let outcome = follow_event_in_place(follower, built, cells, rows, pool, symbol, stamp);
        Some(format!("{} {}", verdict_text(outcome), self.follower_text()))
    }

    fn walk(&mut self, mut fields: Fields) -> Option<String> {
        let (symbols, stamps): (Vec<u16>, Vec<u32>) = (fields.list()?, fields.list()?);
        fields.end()?;
        if symbols.len() != stamps.len() {
            return None;
        }
        let mut verdicts = Vec::new();
        let mut outcome = Ok(());
        for (&symbol, &stamp) in symbols.iter().zip(&stamps) {
            match self.follow_by_value(symbol, stamp) {
                Ok(verdict) => verdicts.push(u8::from(verdict)),
                Err(refusal) => {
                    outcome = Err(refusal);
                    break;
                }
            }
        }
        Some(format!("{} verdicts={} {}", done(outcome), buffer_text(&verdicts), self.follower_text()))
    }

    fn check_rule(&self, fields: Fields) -> Option<String> {
        fields.end()?;
        Some(done(check_rule(&self.head, &self.edges)))
    }

    fn check_table(&self, fields: Fields) -> Option<String> {
        fields.end()?;
        Some(done(check_table(&self.built, &self.cells, &self.rows, &self.pool)))
    }

    fn follower_text(&self) -> String {
        format!("follower={}", numbers_text(&self.follower.to_numbers()))
    }
}

/// The commands over the state itself.
impl State {
    fn poke(&mut self, mut fields: Fields) -> Option<String> {
        let (what, index, value) = (fields.text()?, fields.index()?, fields.text()?);
        fields.end()?;
        let old = match what {
            "edges" => u32::from(replace(&mut self.edges, index, number(value)?)?),
            "cells" => replace(&mut self.cells, index, number(value)?)?,
            "rows" => replace(&mut self.rows, index, number(value)?)?,
            "pool" => replace(&mut self.pool, index, number(value)?)?,
            _ => self.poke_record(what, index, number(value)?)?,
        };
        Some(old.to_string())
    }

    fn poke_record(&mut self, what: &str, index: usize, value: u32) -> Option<u32> {
        match what {
            "head" => {
                let mut numbers = self.head.to_numbers();
                let old = replace(&mut numbers, index, value)?;
                self.head = Head::from_numbers(numbers);
                Some(old)
            }
            "built" => {
                let mut numbers = self.built.to_numbers();
                let old = replace(&mut numbers, index, value)?;
                self.built = Built::from_numbers(numbers);
                Some(old)
            }
            "follower" => {
                let mut numbers = self.follower.to_numbers();
                let old = replace(&mut numbers, index, value)?;
                self.follower = Follower::from_numbers(numbers);
                Some(old)
            }
            _ => None,
        }
    }

    fn resize(&mut self, mut fields: Fields) -> Option<String> {
        let (what, room, fill) = (fields.text()?, fields.room()?, fields.text()?);
        fields.end()?;
        match what {
            "edges" => room.resize(&mut self.edges, number(fill)?),
            "cells" => room.resize(&mut self.cells, number(fill)?),
            "rows" => room.resize(&mut self.rows, number(fill)?),
            "pool" => room.resize(&mut self.pool, number(fill)?),
            _ => None,
        }
    }

    fn show(&self, fields: Fields) -> Option<String> {
        fields.end()?;
        Some(format!(
            "head={} edges={} built={} {} {}",
            numbers_text(&self.head.to_numbers()),
            buffer_text(&self.edges),
            numbers_text(&self.built.to_numbers()),
            tables_text(&self.cells, &self.rows, &self.pool),
            self.follower_text(),
        ))
    }

    fn dump(&self, mut fields: Fields) -> Option<String> {
        let what = fields.text()?;
        fields.end()?;
        match what {
            "head" => Some(numbers_text(&self.head.to_numbers())),
            "built" => Some(numbers_text(&self.built.to_numbers())),
            "follower" => Some(numbers_text(&self.follower.to_numbers())),
            "edges" => Some(numbers_text(&self.edges)),
            "cells" => Some(numbers_text(&self.cells)),
            "rows" => Some(numbers_text(&self.rows)),
            "pool" => Some(numbers_text(&self.pool)),
            _ => None,
        }
    }
}

fn list(mut fields: Fields) -> Option<String> {
    let file = fields.bytes()?;
    fields.end()?;
    Some(buffer_text(&list_table(&file)))
}

fn check_word_command(mut fields: Fields) -> Option<String> {
    let symbol_count = fields.number()?;
    let (grain, most) = (fields.number()?, fields.number()?);
    let (symbols, stamps): (Vec<u16>, Vec<u32>) = (fields.list()?, fields.list()?);
    fields.end()?;
    Some(done(check_word(symbol_count, grain, most, &symbols, &stamps)))
}

fn decide_command(mut fields: Fields) -> Option<String> {
    let file = fields.bytes()?;
    let edges = fields.room()?;
    let [scratch, cells, rows, pool] = [fields.room()?, fields.room()?, fields.room()?, fields.room()?];
    let narrow_fill: u16 = fields.number()?;
    let fill = u32::from(narrow_fill);
    let (grain, symbols, stamps) = fields.word()?;
    fields.end()?;
    let mut edges = edges.filled(narrow_fill)?;
    let mut scratch = scratch.filled(fill)?;
    let [mut cells, mut rows, mut pool] = [cells.filled(fill)?, rows.filled(fill)?, pool.filled(fill)?];
    let outcome =
        decide(&file, &mut edges, &mut scratch, &mut cells, &mut rows, &mut pool, grain, &symbols, &stamps);
    Some(format!(
        "{} edges={} scratch={} {}",
        verdict_text(outcome),
        buffer_text(&edges),
        buffer_text(&scratch),
        tables_text(&cells, &rows, &pool),
    ))
}

fn next_command(mut fields: Fields) -> Option<String> {
    let (size, count) = (fields.size()?, fields.number()?);
    let (symbols, stamps): (Vec<u16>, Vec<u32>) = (fields.list()?, fields.list()?);
    fields.end()?;
    let word = Listed { count, symbols: symbols.try_into().ok()?, stamps: stamps.try_into().ok()? };
    let outcome = next_word(size, &word);
    let Listed { count, symbols, stamps } = outcome.ok().flatten().unwrap_or(word);
    let more = verdict_text(outcome.map(|next| next.is_some()));
    Some(format!("{more} {count} {} {}", numbers_text(&symbols), numbers_text(&stamps)))
}

/// The whole list, hashed word by word; a list of more numbers than a buffer may have is malformed.
fn words_command(mut fields: Fields) -> Option<String> {
    let size = fields.size()?;
    fields.end()?;
    if count_words(size).is_ok_and(|total| LISTED_NUMBERS * total > MOST_NUMBERS as u64) {
        return None;
    }
    let (mut total, mut hash) = (0, FNV_OFFSET);
    let outcome = all_words(size, |word| {
        total += 1;
        hash = hash_listed(hash, word);
    });
    Some(result_text(outcome.map(|()| format!("{total} {}:{hash:016x}", LISTED_NUMBERS * total))))
}

/// The fields of a command, taken one by one; nothing if one is missing or malformed.
struct Fields<'a>(SplitAsciiWhitespace<'a>);

impl<'a> Fields<'a> {
    fn text(&mut self) -> Option<&'a str> {
        self.0.next()
    }

    fn number<T: TryFrom<u64>>(&mut self) -> Option<T> {
        number(self.text()?)
    }

    /// A place in a list.
    fn index(&mut self) -> Option<usize> {
        Some(self.number::<u32>()? as usize)
    }

    /// A length to be lent.
    fn room(&mut self) -> Option<Room> {
        room(self.text()?)
    }

    /// A new length for a buffer of the length given: `-K` is shorter by K.
    fn room_from(&mut self, length: usize) -> Option<Room> {
        let text = self.text()?;
        match text.strip_prefix('-') {
            Some(less) => length.checked_sub(number::<u32>(less)? as usize).map(Room),
            None => room(text),
        }
    }

    fn bytes(&mut self) -> Option<Vec<u8>> {
        bytes(self.text()?)
    }

    fn list<T: TryFrom<u64> + Clone>(&mut self) -> Option<Vec<T>> {
        list_numbers(self.text()?)
    }

    /// D, symbols and stamps.
    fn word(&mut self) -> Option<(u32, Vec<u16>, Vec<u32>)> {
        Some((self.number()?, self.list()?, self.list()?))
    }

    /// S, m and H.
    fn size(&mut self) -> Option<Size> {
        Some(Size { symbols: self.number()?, events: self.number()?, seconds: self.number()? })
    }

    /// Passes if no field is left.
    fn end(mut self) -> Option<()> {
        self.0.next().is_none().then_some(())
    }
}

/// The length of a buffer.
#[derive(Clone, Copy)]
struct Room(usize);

impl Room {
    /// A new buffer, or nothing if there is no memory for it.
    fn filled<T: Clone>(self, fill: T) -> Option<Vec<T>> {
        let mut buffer = Vec::new();
        buffer.try_reserve_exact(self.0).ok()?;
        buffer.resize(self.0, fill);
        Some(buffer)
    }

    /// Cuts or lengthens a buffer and shows it.
    fn resize<T: Copy + Into<u64>>(self, buffer: &mut Vec<T>, fill: T) -> Option<String> {
        buffer.try_reserve(self.0.saturating_sub(buffer.len())).ok()?;
        buffer.resize(self.0, fill);
        Some(buffer_text(buffer))
    }
}

/// The length a field asks for.
fn room(text: &str) -> Option<Room> {
    let length = number::<u32>(text)? as usize;
    (length <= MOST_NUMBERS).then_some(Room(length))
}

/// A decimal number that fits its width.
fn number<T: TryFrom<u64>>(text: &str) -> Option<T> {
    if text.is_empty() || !text.bytes().all(|byte| byte.is_ascii_digit()) {
        return None;
    }
    T::try_from(text.parse().ok()?).ok()
}

/// Bytes in hexadecimal, `-` for none.
fn bytes(text: &str) -> Option<Vec<u8>> {
    if text == "-" {
        return Some(Vec::new());
    }
    if text.len() % 2 != 0 {
        return None;
    }
    text.as_bytes().chunks_exact(2).map(|pair| Some(16 * hex_digit(pair[0])? + hex_digit(pair[1])?)).collect()
}

fn hex_digit(byte: u8) -> Option<u8> {
    char::from(byte).to_digit(16).map(|digit| digit as u8)
}

/// A list of numbers: `-`, or parts joined by commas.
fn list_numbers<T: TryFrom<u64> + Clone>(text: &str) -> Option<Vec<T>> {
    let mut numbers = Vec::new();
    if text != "-" {
        for part in text.split(',') {
            add_part(part, &mut numbers)?;
        }
    }
    Some(numbers)
}

/// Adds the numbers of a part: `V`, `V*N` or `V+S*N`.
fn add_part<T: TryFrom<u64> + Clone>(part: &str, numbers: &mut Vec<T>) -> Option<()> {
    let Some((front, count)) = part.split_once('*') else {
        numbers.push(number(part)?);
        return Some(());
    };
    let count = number::<u32>(count)? as usize;
    if count > MOST_NUMBERS - numbers.len().min(MOST_NUMBERS) {
        return None;
    }
    let Some((first, step)) = front.split_once('+') else {
        numbers.resize(numbers.len() + count, number(front)?);
        return Some(());
    };
    number::<T>(first)?;
    let (first, step) = (number::<u32>(first)?, number::<u32>(step)?);
    for index in 0..count as u64 {
        numbers.push(T::try_from(u64::from(first) + u64::from(step) * index).ok()?);
    }
    Some(())
}

/// Puts a value into a buffer and returns the old one, or nothing past the end.
fn replace<T>(buffer: &mut [T], index: usize, value: T) -> Option<T> {
    Some(std::mem::replace(buffer.get_mut(index)?, value))
}

fn refusal_text(refusal: Refusal) -> String {
    format!("no {} {}", refusal.number, refusal.place)
}

/// `ok`, or the refusal.
fn done<T>(outcome: Result<T, Refusal>) -> String {
    outcome.map_or_else(refusal_text, |_| "ok".into())
}

/// `ok` and the result, or the refusal.
fn result_text(outcome: Result<impl ToString, Refusal>) -> String {
    outcome.map_or_else(refusal_text, |result| format!("ok {}", result.to_string()))
}

fn verdict_text(outcome: Result<bool, Refusal>) -> String {
    result_text(outcome.map(u8::from))
}

/// The shares of each length and, last, in all.
fn share_line_text(line: &ShareLine) -> String {
    let shares = line.lengths.iter().chain([&line.all]).copied();
    shares.map(share_text).collect::<Vec<_>>().join(";")
}

fn share_text(share: Share) -> String {
    let (numerator, denominator) = share.lowest_terms();
    format!("{},{},{numerator},{denominator}", share.accepted, share.words)
}

fn tables_text(cells: &[u32], rows: &[u32], pool: &[u32]) -> String {
    format!("cells={} rows={} pool={}", buffer_text(cells), buffer_text(rows), buffer_text(pool))
}

/// Numbers in full, joined by commas; `-` for none.
fn numbers_text<T: ToString>(numbers: &[T]) -> String {
    if numbers.is_empty() {
        return "-".into();
    }
    numbers.iter().map(T::to_string).collect::<Vec<_>>().join(",")
}

/// A buffer's length and hash.
fn buffer_text<T: Copy + Into<u64>>(numbers: &[T]) -> String {
    let hash = numbers.iter().fold(FNV_OFFSET, |hash, &number| hash_number(hash, number.into()));
    format!("{}:{hash:016x}", numbers.len())
}

const FNV_OFFSET: u64 = 0xcbf2_9ce4_8422_2325;
const FNV_PRIME: u64 = 0x100_0000_01b3;

/// Numbers of a listed word: the count, the symbols, the stamps.
const LISTED_NUMBERS: u64 = 1 + 2 * MOST_LISTED_EVENTS as u64;

/// The hash with a listed word's numbers after it.
fn hash_listed(hash: u64, word: &Listed) -> u64 {
    let hash = hash_number(hash, word.count.into());
    let hash = word.symbols.iter().fold(hash, |hash, &symbol| hash_number(hash, symbol.into()));
    word.stamps.iter().fold(hash, |hash, &stamp| hash_number(hash, stamp.into()))
}

/// FNV-1a 64 over a number's eight bytes. A zero byte only multiplies, so a small number takes one step.
fn hash_number(hash: u64, number: u64) -> u64 {
    const PRIME_TO_8: u64 = FNV_PRIME.wrapping_pow(8);
    if number < 256 {
        return (hash ^ number).wrapping_mul(PRIME_TO_8);
    }
    number.to_le_bytes().iter().fold(hash, |hash, &byte| (hash ^ u64::from(byte)).wrapping_mul(FNV_PRIME))
}
