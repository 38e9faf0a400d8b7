//! A script's line as a command.

use crate::lists::{bytes, list, number, MOST_NUMBERS};
use crate::{Call, Length, Room, What, Word, WordRoom};
use alderskein::raw::{Listed, Size};
use std::str::{FromStr, SplitAsciiWhitespace};

/// A line that is no command.
#[derive(Debug, PartialEq)]
pub struct Malformed;

impl FromStr for Call {
    type Err = Malformed;

    fn from_str(line: &str) -> Result<Call, Malformed> {
        let mut fields = Fields(line.split_ascii_whitespace());
        let call = fields.call();
        call.filter(|_| fields.0.next().is_none()).ok_or(Malformed)
    }
}

/// The fields of a line, taken one by one; nothing if one is missing or malformed.
struct Fields<'a>(SplitAsciiWhitespace<'a>);

impl Fields<'_> {
    fn call(&mut self) -> Option<Call> {
        Some(match self.0.next()? {
            "read" => Call::Read { file: self.file()?, edges: self.length()?, fill: self.number()? },
            "write" => Call::Write { out: self.length()?, fill: self.number()? },
            "build" => Call::Build { room: self.room()?, fill: self.number()? },
            "exact" => Call::Exact { word: self.word()?, scratch: self.length()?, fill: self.number()? },
            "branch" => Call::Branch { word: self.word()? },
            "table" => Call::Table { word: self.word()? },
            "start" => Call::Start { grain: self.number()? },
            "follow" => Call::Follow { symbol: self.number()?, stamp: self.number()? },
            "follow_in_place" => Call::FollowInPlace { symbol: self.number()?, stamp: self.number()? },
            "walk" => Call::Walk { symbols: self.list()?, stamps: self.list()? },
            "list" => Call::List { file: self.file()? },
            "check_rule" => Call::CheckRule,
            "check_word" => self.check_word()?,
            "check_table" => Call::CheckTable,
            "decide" => self.decide()?,
            "next" => Call::Next { size: self.size()?, word: self.listed()? },
            "words" => Call::Words { size: self.size()? },
            "keep" => Call::Keep { slot: self.index()? },
            "use" => Call::Use { slot: self.index()? },
            "include" => self.include()?,
            "batch" => self.batch()?,
            "share" => Call::Share { events: self.number()?, seconds: self.number()? },
            "poke" => self.poke()?,
            "resize" => self.resize()?,
            "save" => Call::Save,
            "restore" => Call::Restore,
            "state" => Call::State,
            "dump" => Call::Dump { what: self.what()? },
            _ => return None,
        })
    }

    fn check_word(&mut self) -> Option<Call> {
        let (symbol_count, grain, most) = (self.number()?, self.number()?, self.number()?);
        let word = Word { grain, symbols: self.list()?, stamps: self.list()? };
        Some(Call::CheckWord { symbol_count, most, word })
    }

    fn decide(&mut self) -> Option<Call> {
        let (file, edges, room) = (self.file()?, self.length()?, self.room()?);
        Some(Call::Decide { file, edges, room, fill: self.number()?, word: self.word()? })
    }

    fn include(&mut self) -> Option<Call> {
        let (first, second) = (self.index()?, self.index()?);
        let (scratch, symbols, stamps) = (self.length()?, self.length()?, self.length()?);
        let room = WordRoom { scratch, symbols, stamps };
        Some(Call::Include { first, second, room, fill: self.number()? })
    }

    fn batch(&mut self) -> Option<Call> {
        Some(match self.0.next()? {
            "new" => Call::BatchNew,
            "add" => Call::BatchAdd,
            "resize" => self.batch_resize()?,
            _ => return None,
        })
    }

    fn batch_resize(&mut self) -> Option<Call> {
        let what = self.what()?;
        let length = self.length_or_less()?;
        let in_a_batch = matches!(what, What::Cells | What::Rows | What::Pool);
        in_a_batch.then_some(Call::BatchResize { what, length, fill: self.number()? })
    }

    fn poke(&mut self) -> Option<Call> {
        let (what, index) = (self.what()?, self.index()?);
        Some(Call::Poke { what, index, value: self.value_for(what)? })
    }

    fn resize(&mut self) -> Option<Call> {
        let (what, length) = (self.what()?, self.length()?);
        let is_buffer = !matches!(what, What::Head | What::Built | What::Follower);
        is_buffer.then_some(Call::Resize { what, length, fill: self.value_for(what)? })
    }

    /// A number that fits a place of this part.
    fn value_for(&mut self, what: What) -> Option<u32> {
        match what {
            What::Edges => self.number::<u16>().map(u32::from),
            _ => self.number(),
        }
    }

    fn number<T: TryFrom<u64>>(&mut self) -> Option<T> {
        number(self.0.next()?)
    }

    /// A place, or a slot.
    fn index(&mut self) -> Option<usize> {
        Some(self.number::<u32>()? as usize)
    }

    fn length(&mut self) -> Option<usize> {
        length(self.0.next()?)
    }

    /// A length, or `-K` for so many fewer.
    fn length_or_less(&mut self) -> Option<Length> {
        let text = self.0.next()?;
        match text.strip_prefix('-') {
            Some(fewer) => number::<u32>(fewer).map(|fewer| Length::Less(fewer as usize)),
            None => length(text).map(Length::To),
        }
    }

    fn file(&mut self) -> Option<Vec<u8>> {
        bytes(self.0.next()?)
    }

    fn list<T: TryFrom<u64> + Copy>(&mut self) -> Option<Vec<T>> {
        list(self.0.next()?)
    }

    fn word(&mut self) -> Option<Word> {
        Some(Word { grain: self.number()?, symbols: self.list()?, stamps: self.list()? })
    }

    fn size(&mut self) -> Option<Size> {
        Some(Size { symbols: self.number()?, events: self.number()?, seconds: self.number()? })
    }

    /// A word with just as many symbols and stamps as there are places.
    fn listed(&mut self) -> Option<Listed> {
        let (count, symbols, stamps) = (self.number()?, self.list()?, self.list()?);
        Some(Listed { count, symbols: symbols.try_into().ok()?, stamps: stamps.try_into().ok()? })
    }

    fn room(&mut self) -> Option<Room> {
        let [scratch, cells, rows] = [self.length()?, self.length()?, self.length()?];
        Some(Room { scratch, cells, rows, pool: self.length()? })
    }

    fn what(&mut self) -> Option<What> {
        let text = self.0.next()?;
        What::NAMES.iter().find(|(_, name)| *name == text).map(|(what, _)| *what)
    }
}

/// A length that a script may ask for.
fn length(text: &str) -> Option<usize> {
    let length = number::<u32>(text)? as usize;
    (length <= MOST_NUMBERS).then_some(length)
}
