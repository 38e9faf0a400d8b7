//! Refusals: a number of the specification and a place.

/// Why a call was refused.
#[derive(Clone, Copy, Debug, PartialEq, Eq)]
pub struct Refusal {
    /// The specification's number for the condition.
    pub number: u8,
    /// A byte of the file, an event or a table from 1, or 0, as the number has it.
    pub place: usize,
}

impl Refusal {
    /// A refusal at a place.
    pub(crate) fn at(number: u8, place: usize) -> Self {
        Refusal { number, place }
    }

    /// Passes if the condition holds, else refuses at place 0.
    pub(crate) fn unless(condition: bool, number: u8) -> Result<(), Self> {
        Self::unless_at(condition, number, 0)
    }

    /// Passes if the condition holds, else refuses at the place.
    pub(crate) fn unless_at(condition: bool, number: u8, place: usize) -> Result<(), Self> {
        if condition {
            Ok(())
        } else {
            Err(Self::at(number, place))
        }
    }
}
