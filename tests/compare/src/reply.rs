//! What a command answers, in full.

use crate::lists::{buffer_text, numbers_text, Hashed};
use crate::{Included, Lent};
use alderskein::raw::{Answer, BranchAnswer, Building, Followed, Moved, Next, Reading, Shares, Started};

/// Every part of an answer, with every buffer that was lent and is not kept in the state.
#[allow(missing_docs)]
#[derive(Clone, Debug, PartialEq)]
pub enum Reply {
    Checked(Answer),
    Read(Reading),
    Written(Answer, Lent<u8>),
    Built(Building, Lent<u32>),
    Exact(Answer, Lent<u32>),
    Branch(BranchAnswer, [u16; 12]),
    Table(Answer),
    Started(Started),
    Followed(Followed),
    Moved(Moved),
    /// The events' answers up to the first refused one.
    Walked(Vec<Followed>),
    /// Edges; scratch, cells, rows, pool.
    Decided(Answer, Lent<u16>, [Lent<u32>; 4]),
    Next(Next),
    /// How many words there are, and all their numbers.
    Words(Answer, Hashed),
    Included(Included),
    Shared(Box<Shares>),
    /// What a command over the state itself shows.
    Text(String),
    /// A malformed command.
    Bad,
}

impl Reply {
    /// Whether the lent buffers' guards are as they were.
    pub fn intact(&self) -> bool {
        match self {
            Reply::Written(_, out) => out.intact(),
            Reply::Built(_, scratch) | Reply::Exact(_, scratch) => scratch.intact(),
            Reply::Decided(_, edges, tables) => edges.intact() && tables.iter().all(Lent::intact),
            Reply::Included(included) => included.intact(),
            _ => true,
        }
    }

    /// The refusal's number and place, if this answers a call of the library; zeros for none.
    pub fn refusal(&self) -> Option<(u8, usize)> {
        Some(match self {
            Reply::Checked(answer) | Reply::Table(answer) => (answer.number, answer.place),
            Reply::Written(answer, _) => (answer.number, answer.place),
            Reply::Exact(answer, _) | Reply::Decided(answer, _, _) => (answer.number, answer.place),
            Reply::Read(reading) => (reading.number, reading.place),
            Reply::Built(building, _) => (building.number, building.place),
            Reply::Branch(branch, _) => (branch.number, branch.place),
            Reply::Started(started) => (started.number, started.place),
            Reply::Followed(followed) => (followed.number, followed.place),
            Reply::Moved(moved) => (moved.number, moved.place),
            Reply::Walked(steps) => steps.last().map_or((0, 0), |last| (last.number, last.place)),
            Reply::Next(next) => (next.number, next.place),
            Reply::Words(answer, _) => (answer.number, answer.place),
            Reply::Included(Included { answer, .. }) => (answer.number, answer.place),
            Reply::Shared(shares) => (shares.number, shares.place),
            Reply::Text(_) | Reply::Bad => return None,
        })
    }

    /// Yes or no, if the call was not refused and answers that.
    pub fn verdict(&self) -> Option<bool> {
        if self.refusal()?.0 != 0 {
            return None;
        }
        match self {
            Reply::Exact(answer, _) | Reply::Decided(answer, _, _) => Some(answer.value == 1),
            Reply::Table(answer) => Some(answer.value == 1),
            Reply::Branch(branch, _) => Some(branch.found),
            Reply::Followed(followed) => Some(followed.yes),
            Reply::Moved(moved) => Some(moved.yes),
            Reply::Walked(steps) => steps.last().map(|last| last.yes),
            Reply::Included(included) => Some(included.answer.included),
            _ => None,
        }
    }

    /// `ok` or the refusal, with the value or the verdict where there is one.
    pub(crate) fn front(&self) -> String {
        match self.refusal() {
            None => String::new(),
            Some((0, _)) => ["ok".into(), self.value()].join(" ").trim_end().into(),
            Some((number, place)) => format!("no {number} {place}"),
        }
    }

    fn value(&self) -> String {
        match self {
            Reply::Written(answer, _) => answer.value.to_string(),
            Reply::Words(answer, _) => answer.value.to_string(),
            Reply::Next(next) => u8::from(!next.last).to_string(),
            Reply::Branch(branch, taken) => {
                let (found, edges) = (u8::from(branch.found), numbers_text(taken));
                let held = if branch.held { branch.position.saturating_add(1) } else { 0 };
                format!("{found} {} {edges} {held}", branch.start)
            }
            Reply::Walked(_) => String::new(),
            Reply::Included(included) => included.answer_text(),
            _ => self.verdict().map_or(String::new(), |yes| u8::from(yes).to_string()),
        }
    }

    /// The verdicts of a walk, as numbers.
    pub(crate) fn verdicts_text(steps: &[Followed]) -> String {
        let taken = steps.iter().filter(|step| step.number == 0);
        buffer_text(&taken.map(|step| u8::from(step.yes)).collect::<Vec<_>>())
    }
}
