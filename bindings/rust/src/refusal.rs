//! Refusals: a number and a place.

use std::fmt;

/// Why a call was refused.
#[derive(Clone, Copy, Debug, PartialEq, Eq, Hash)]
pub struct Refusal {
    /// 1 to 8, 20 to 27, 30 to 40 or 43.
    pub number: u8,
    /// A byte of the file (1 to 8), an event from 1 (26, 32, 33), a table of a batch from 1 (25, 43), or 0.
    pub place: usize,
}

/// Who can cause a refusal.
#[derive(Clone, Copy, Debug, PartialEq, Eq, Hash)]
pub enum Cause {
    /// The author of the rule file: 1 to 8.
    Author,
    /// The caller: 20 to 27, 34 to 40, 43.
    Caller,
    /// The sender of the word: 30 to 33.
    Sender,
}

impl Refusal {
    /// The value if the number is 0, else the refusal.
    pub(crate) fn unless_none<T>(number: u8, place: usize, value: T) -> Result<T, Refusal> {
        match number {
            0 => Ok(value),
            _ => Err(Refusal { number, place }),
        }
    }

    /// Who caused it.
    pub fn cause(&self) -> Cause {
        match self.number {
            0..=8 => Cause::Author,
            30..=33 => Cause::Sender,
            _ => Cause::Caller,
        }
    }

    /// What the number says.
    pub fn meaning(&self) -> &'static str {
        match self.number {
            1 => "fewer than 4 bytes left, or the body passes the end",
            2 => "unknown kind, or a body length its kind does not have",
            3 => "sizes missing or repeated, a kind that falls, second ceiling, or locations not rising",
            4 => "edge 257",
            5 => "locations, symbols or clocks outside their range",
            6 => "location, symbol, clock, mask bit, relation, constant or ceiling outside its range, or text that \
                  breaks the group rules",
            7 => "resets that are not pinned",
            8 => "the rule has more than 65,536 codes",
            20 => "edge table shorter than 22,016 numbers",
            21 => "head record and edge table are not what reading some accepted file leaves",
            22 => "build scratch with fewer bits than the rule has codes",
            23 => "more rows than the tables have room for",
            24 => "pool too short",
            25 => "built record or its tables out of shape",
            26 => "more configurations than room",
            27 => "output shorter than the file to be written",
            30 => "resolution outside 1 to 1,000",
            31 => "symbol and stamp counts differ, or too many events",
            32 => "symbol outside its range",
            33 => "stamp below the one before",
            34 => "follower out of shape",
            35 => "two tables with unequal counts of symbols",
            36 => "more joint states of two tables than 1,000,000 or than the scratch has numbers",
            37 => "the shortest word to be shown has more events than 4,096 or than its room",
            38 => "symbols, events or seconds of a list outside their range",
            39 => "word that is not in the list",
            40 => "batch of no table, or of more than 16",
            43 => "list of more than 1,000,000 words",
            _ => "unknown number",
        }
    }
}

impl fmt::Display for Refusal {
    fn fmt(&self, f: &mut fmt::Formatter) -> fmt::Result {
        write!(f, "no {} {}: {}", self.number, self.place, self.meaning())
    }
}

impl std::error::Error for Refusal {}
