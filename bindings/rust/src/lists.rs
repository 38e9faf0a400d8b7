//! All words up to a size, in order.

use crate::raw::{self, Listed, Size, Stamp};
use crate::{Refusal, Word};
use std::iter::FusedIterator;

/// D of the words of a list: their stamps are in half seconds.
pub const LIST_GRAIN: u32 = 2;

/// The words of at most m events over S symbols with stamps up to H whole seconds, each once: shorter first,
/// and among equal lengths by event, stamp before symbol. They come by value and allocate nothing;
/// `Word::from` makes a word that can be run.
///
/// ```
/// use alderskein::{Size, Stamp, Word, Words};
///
/// let size = Size { symbols: 1, events: 2, seconds: 1 };
/// let words: Vec<Word> = Words::up_to(size)?.map(Word::from).collect();
/// assert_eq!(words.len(), 10);
/// assert_eq!(words[0], Word::new(2));
/// assert_eq!(words[5], Word::new(2).with(0, Stamp(0)).with(0, Stamp(1)));
///
/// // A word is kept, and the list is taken up again after it.
/// let kept = Words::up_to(size)?.nth(7).unwrap();
/// assert!(Words::after(size, kept)?.map(Word::from).eq(words[8..].iter().cloned()));
/// # Ok::<(), alderskein::Refusal>(())
/// ```
#[derive(Clone, Debug)]
pub struct Words {
    size: Size,
    /// The word that comes next, none after the last.
    ahead: Option<Listed>,
}

impl Words {
    /// The whole list from the empty word on: 38.
    pub fn up_to(size: Size) -> Result<Words, Refusal> {
        let empty = Listed::default();
        following(size, empty)?;
        Ok(Words { size, ahead: Some(empty) })
    }

    /// The list from the word after this one on, nothing after the last: 38, 39.
    pub fn after(size: Size, word: Listed) -> Result<Words, Refusal> {
        Ok(Words { size, ahead: following(size, word)? })
    }
}

/// The word after another, none after the last: 38, 39.
fn following(size: Size, word: Listed) -> Result<Option<Listed>, Refusal> {
    let next = raw::next_word(size, word);
    Refusal::unless_none(next.number, next.place, (!next.last).then_some(next.word))
}

impl Iterator for Words {
    type Item = Listed;

    fn next(&mut self) -> Option<Listed> {
        let word = self.ahead?;
        self.ahead = following(self.size, word).expect("a word of the list");
        Some(word)
    }
}

impl FusedIterator for Words {}

impl From<Listed> for Word {
    /// The word of a list with D = 2: as many events as it counts, at most the six that it has places for.
    fn from(word: Listed) -> Word {
        let events = word.symbols.into_iter().zip(word.stamps).take(word.count as usize);
        events.fold(Word::new(LIST_GRAIN), |word, (symbol, stamp)| word.with(symbol, Stamp(stamp)))
    }
}
