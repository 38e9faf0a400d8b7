//! The answer of an inclusion. Which of several words it shows is free: two answers are compared in everything but the
//! word, and the word of each is run on both tables.

use crate::engine::{Engine, Rooms, Table};
use crate::lists::{buffer_text, numbers_text};
use crate::{Lent, Library, Reference, Word, WordRoom};
use alderskein::raw::Inclusion;

/// D of a word shown.
const SHOWN_GRAIN: u32 = 2;

/// An answer with all that was lent for it. Two are equal if they differ in nothing but the word shown.
#[allow(missing_docs)]
#[derive(Clone, Debug)]
pub struct Included {
    pub answer: Inclusion,
    pub scratch: Lent<u32>,
    pub symbols: Lent<u16>,
    pub stamps: Lent<u32>,
}

impl Included {
    /// Asks on new room, each number the fill; nothing if there is no memory for it.
    pub(crate) fn ask<E: Engine>(first: Table, second: Table, room: WordRoom, fill: u16) -> Option<Self> {
        let mut scratch = Lent::new(room.scratch, fill.into())?;
        let mut symbols = Lent::new(room.symbols, fill)?;
        let mut stamps = Lent::new(room.stamps, fill.into())?;
        let lent = Rooms { scratch: &mut scratch, symbols: &mut symbols, stamps: &mut stamps };
        let answer = E::check_inclusion(first, second, lent);
        Some(Included { answer, scratch, symbols, stamps })
    }

    /// The word shown, if there is one; nothing also if it is longer than its room.
    pub fn word(&self) -> Option<Word> {
        if !self.shows() {
            return None;
        }
        let symbols = self.symbols.get(..self.answer.events)?.to_vec();
        let stamps = self.stamps.get(..self.answer.events)?.to_vec();
        Some(Word { grain: SHOWN_GRAIN, symbols, stamps })
    }

    fn shows(&self) -> bool {
        self.answer.number == 0 && !self.answer.included
    }

    /// The word room past the word; nothing if the word is longer.
    fn past(&self) -> Option<(&[u16], &[u32])> {
        self.symbols.get(self.answer.events..).zip(self.stamps.get(self.answer.events..))
    }

    /// Whether no word is shown, or one that only the first table accepts, as the library and the reference run it.
    pub fn shows_rightly(&self, first: Table, second: Table) -> bool {
        let only_first = |word| {
            tells_apart::<Library>(first, second, word) && tells_apart::<Reference>(first, second, word)
        };
        !self.shows() || self.word().as_ref().is_some_and(only_first)
    }

    pub(crate) fn intact(&self) -> bool {
        self.scratch.intact() && self.symbols.intact() && self.stamps.intact()
    }

    /// Yes or no, and the word shown.
    pub(crate) fn answer_text(&self) -> String {
        let word = self.word().unwrap_or(Word { grain: SHOWN_GRAIN, symbols: vec![], stamps: vec![] });
        let (symbols, stamps) = (numbers_text(&word.symbols), numbers_text(&word.stamps));
        format!("{} {} {symbols} {stamps}", u8::from(self.answer.included), self.answer.events)
    }

    /// The scratch, and the word room past the word.
    pub(crate) fn rooms_text(&self) -> String {
        let (symbols, stamps) = self.past().unwrap_or_default();
        let (symbols, stamps) = (buffer_text(symbols), buffer_text(stamps));
        format!("scratch={} symbols={symbols} stamps={stamps}", buffer_text(&self.scratch))
    }
}

impl PartialEq for Included {
    fn eq(&self, other: &Self) -> bool {
        let lengths = |included: &Self| (included.symbols.len(), included.stamps.len());
        self.answer == other.answer
            && self.scratch == other.scratch
            && lengths(self) == lengths(other)
            && self.past() == other.past()
    }
}

/// Whether the first table accepts the word and the second does not.
fn tells_apart<E: Engine>(first: Table, second: Table, word: &Word) -> bool {
    let [yes, no] = [first, second].map(|table| E::run_table(table, word));
    (yes.number, yes.value) == (0, 1) && (no.number, no.value) == (0, 0)
}

#[cfg(test)]
mod tests {
    use super::*;
    use crate::Machine;
    use alderskein::EDGE_TABLE;

    const WORKED: &str = "060001000200020001000200020000000200030000000E00050000000100000001000000020001000E\
                          0005000100000001000000000003000100";

    /// The worked case in slot 0, the same without a final location in slot 1, with another edge in slot 2.
    fn kept<E: Engine>() -> Machine<E> {
        let mut machine = Machine::new();
        let stricter = WORKED.replace("00030001", "00040001");
        let lines = [
            &format!("read {WORKED} {EDGE_TABLE} 0"),
            "build 1 24 9 2 0",
            "keep 0",
            "poke built 4 0",
            "poke rows 2 0",
            "keep 1",
            &format!("read {stricter} {EDGE_TABLE} 0"),
            "build 1 24 9 2 0",
            "keep 2",
        ];
        for line in lines {
            assert_ne!(machine.answer(line), "bad", "{line}");
        }
        machine
    }

    #[test]
    fn inclusions_are_answered() {
        let zeros = "scratch=144:36fe4d3f1c233d25 symbols=3:81d23fd7003c2305 stamps=3:81d23fd7003c2305";
        let lines = [
            ("include 0 1 144 3 3 9", format!("include ok 0 0 - - {zeros}")),
            ("include 1 0 144 3 3 9", format!("include ok 1 0 - - {zeros}")),
            ("include 2 0 144 3 3 9", format!("include ok 1 0 - - {zeros}")),
        ];
        for (line, expected) in lines {
            assert_eq!(kept::<Library>().answer(line), expected, "{line}");
            assert_eq!(kept::<Reference>().answer(line), expected, "{line}");
        }
    }

    #[test]
    fn slots_are_kept_and_used() {
        let lines = [
            ("keep 10", "bad"),
            ("use 10", "bad"),
            ("use 9", "bad"),
            ("use 0", "use"),
            ("table 2 0,1 2,4", "table ok 1"),
            ("use 1", "use"),
            ("table 2 0,1 2,4", "table ok 0"),
            ("keep 9", "keep"),
            ("use 9", "use"),
            ("include 0 8 144 3 3 9", "bad"),
            ("include 10 0 144 3 3 9", "bad"),
            ("include 0 0 144 3 3 65536", "bad"),
            ("include 0 0 144 3 3", "bad"),
        ];
        let (mut library, mut reference) = (kept::<Library>(), kept::<Reference>());
        for (line, expected) in lines {
            assert_eq!([library.answer(line), reference.answer(line)], [expected, expected], "{line}");
        }
    }

    #[test]
    fn words_are_run_and_not_compared() {
        let machine = kept::<Library>();
        let [first, second] = [0, 2].map(|slot| machine.kept(slot).unwrap().table());
        let room = WordRoom { scratch: 144, symbols: 4, stamps: 3 };
        let shown = Included::ask::<Library>(first, second, room, 9).unwrap();
        assert_eq!(shown.word(), Some(Word { grain: 2, symbols: vec![0, 1], stamps: vec![2, 4] }));
        assert!(shown.shows_rightly(first, second));
        assert!(!shown.shows_rightly(second, first));
        let mut changed = shown.clone();
        changed.stamps[1] = 3;
        assert!(changed == shown && !changed.shows_rightly(first, second));
        changed.stamps[2] = 1;
        assert!(changed != shown);
        changed.answer.events = 4;
        assert_eq!(changed.word(), None);
        assert!(!changed.shows_rightly(first, second));
    }
}
