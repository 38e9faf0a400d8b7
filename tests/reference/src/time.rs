//! Stamps, ages and intervals, kept apart by type.

/// A moment, in D-ths of a second from the start of the word.
#[derive(Clone, Copy, Debug, PartialEq, Eq, PartialOrd, Ord)]
pub(crate) struct Stamp(pub u32);

/// The time since a reset (or the last event), in D-ths of a second.
#[derive(Clone, Copy, Debug, PartialEq, Eq, PartialOrd, Ord)]
pub(crate) struct Age(pub u32);

/// An interval number: 2c is [c], 2c + 1 is (c, c + 1), and the top is everything above cm.
#[derive(Clone, Copy, Debug, PartialEq, Eq, PartialOrd, Ord)]
pub(crate) struct Interval(pub u32);

impl Stamp {
    /// The start of the word.
    pub const START: Stamp = Stamp(0);

    /// The time from an earlier stamp to this one.
    pub fn since(self, earlier: Stamp) -> Age {
        Age(self.0 - earlier.0)
    }
}

impl Age {
    /// A clock that was just reset.
    pub const ZERO: Age = Age(0);

    /// The age a constant stands for.
    pub fn of_constant(constant: u32, grain: u32) -> Age {
        Age(constant * grain)
    }

    /// The age after a delay.
    pub fn after(self, delay: Age) -> Age {
        Age(self.0 + delay.0)
    }
}

impl Interval {
    /// Everything above cm.
    pub fn top(largest: u32) -> Interval {
        Interval(2 * largest + 1)
    }

    /// How many intervals there are (W).
    pub fn count(largest: u32) -> u32 {
        2 * largest + 2
    }

    /// The interval [c].
    pub fn of_constant(constant: u32) -> Interval {
        Interval(2 * constant)
    }

    /// The interval an age falls into.
    pub fn of_age(age: Age, grain: u32, largest: u32) -> Interval {
        if age > Age::of_constant(largest, grain) {
            return Interval::top(largest);
        }
        Interval(2 * (age.0 / grain) + u32::from(age.0 % grain != 0))
    }

    /// The c of an interval [c].
    pub fn constant(self) -> Option<u32> {
        (self.0 % 2 == 0).then_some(self.0 / 2)
    }

    /// The region of a clock with this base when the timer is in this interval.
    pub fn plus_base(self, base: u32, largest: u32) -> Interval {
        Interval(self.0 + 2 * base).min(Interval::top(largest))
    }
}
