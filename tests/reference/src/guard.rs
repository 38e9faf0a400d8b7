//! Guards: trees of atoms and groups, the texts that spell them, and whether they hold.

/// The most atoms of a guard that is spelled by atoms alone.
pub(crate) const MOST_ATOMS: usize = 8;
/// Numbers of an atom: clock, relation, constant.
pub(crate) const ATOM_NUMBERS: usize = 3;
/// Numbers of the longest text: a mark and an atom each, and two marks for each group.
pub(crate) const MOST_TEXT: usize = (1 + ATOM_NUMBERS) * MOST_TEXT_ATOMS + 2 * MOST_GROUPS;
/// The largest constant an atom may have.
pub(crate) const MOST_CONSTANT: u32 = 30;

const MOST_TEXT_ATOMS: usize = 16;
const MOST_GROUPS: usize = 8;
const MOST_LEVELS: u32 = 4;
const OUTERMOST: u32 = 1;

const OPEN_ALL_OF: u16 = 1;
const OPEN_ANY_OF: u16 = 2;
const ATOM: u16 = 3;
const CLOSE: u16 = 4;

const LESS: u16 = 0;
const AT_MOST: u16 = 1;
const EQUAL: u16 = 2;
const AT_LEAST: u16 = 3;
const GREATER: u16 = 4;
const NOT_EQUAL: u16 = 5;

/// A guard; all of its members must hold.
pub(crate) enum Guard<'a> {
    /// Atoms alone, as they are spelled.
    Atoms(&'a [u16]),
    /// The members of the outermost level that a text spells.
    Members(Vec<Member>),
}

/// What stands on a level of a guard.
pub(crate) enum Member {
    Atom(Atom),
    AllOf(Vec<Member>),
    AnyOf(Vec<Member>),
}

/// A clock compared with a constant.
#[derive(Clone, Copy, PartialEq, Eq)]
pub(crate) struct Atom {
    clock: u16,
    relation: u16,
    constant: u16,
}

impl Guard<'_> {
    /// The guard that a text of marks spells, or nothing if it breaks the group rules.
    pub fn of_text(text: &[u16]) -> Option<Self> {
        let mut parser = Parser { rest: text, groups_left: MOST_GROUPS, atoms_left: MOST_TEXT_ATOMS };
        parser.level(OUTERMOST).map(Guard::Members)
    }

    /// Whether every atom's numbers are in their ranges.
    pub fn in_range(&self, clocks: u32) -> bool {
        match self {
            Guard::Atoms(numbers) => atoms(numbers).all(|atom| atom.in_range(clocks)),
            Guard::Members(members) => members.iter().all(|member| member.in_range(clocks)),
        }
    }

    /// The largest constant in any atom, 0 if there is none.
    pub fn largest_constant(&self) -> u32 {
        match self {
            Guard::Atoms(numbers) => atoms(numbers).map(|atom| atom.constant.into()).fold(0, u32::max),
            Guard::Members(members) => largest_constant(members),
        }
    }

    /// Whether atoms of the outermost level, those in no group, pin a clock to a constant.
    pub fn pinned(&self) -> bool {
        match self {
            Guard::Atoms(numbers) => pin(atoms(numbers)),
            Guard::Members(members) => pin(members.iter().filter_map(Member::own_atom)),
        }
    }

    /// The guard's answer, given the clocks' values and the constants' worth on the same scale: the position
    /// from 0 of the first member of the outermost level that does not hold, or nothing if all hold.
    pub fn first_failing<T: Ord>(
        &self,
        value: impl Fn(usize) -> T,
        worth: impl Fn(u32) -> T,
    ) -> Option<usize> {
        match self {
            Guard::Atoms(numbers) => atoms(numbers).position(|atom| !atom.holds(&value, &worth)),
            Guard::Members(members) => members.iter().position(|member| !member.holds(&value, &worth)),
        }
    }
}

/// The atoms that numbers spell, three each.
fn atoms(numbers: &[u16]) -> impl Iterator<Item = Atom> + Clone + '_ {
    numbers.chunks_exact(ATOM_NUMBERS).map(Atom::new)
}

/// Whether atoms that must all hold pin a clock to a constant: by an equality, or from both sides, by an
/// at-least and an at-most with the same clock and constant.
fn pin(mut atoms: impl Iterator<Item = Atom> + Clone) -> bool {
    let all = atoms.clone();
    let from_above = |atom| all.clone().any(|other| other == Atom { relation: AT_MOST, ..atom });
    atoms.any(|atom| match atom.relation {
        EQUAL => true,
        AT_LEAST => from_above(atom),
        _ => false,
    })
}

fn largest_constant(members: &[Member]) -> u32 {
    members.iter().map(Member::largest_constant).fold(0, u32::max)
}

impl Member {
    /// The atom that the member itself is.
    fn own_atom(&self) -> Option<Atom> {
        match self {
            Member::Atom(atom) => Some(*atom),
            Member::AllOf(_) | Member::AnyOf(_) => None,
        }
    }

    fn in_range(&self, clocks: u32) -> bool {
        match self {
            Member::Atom(atom) => atom.in_range(clocks),
            Member::AllOf(members) | Member::AnyOf(members) => {
                members.iter().all(|member| member.in_range(clocks))
            }
        }
    }

    fn largest_constant(&self) -> u32 {
        match self {
            Member::Atom(atom) => atom.constant.into(),
            Member::AllOf(members) | Member::AnyOf(members) => largest_constant(members),
        }
    }

    /// Whether the member holds: an empty all-of does, an empty any-of does not.
    fn holds<T: Ord>(&self, value: &impl Fn(usize) -> T, worth: &impl Fn(u32) -> T) -> bool {
        match self {
            Member::Atom(atom) => atom.holds(value, worth),
            Member::AllOf(members) => members.iter().all(|member| member.holds(value, worth)),
            Member::AnyOf(members) => members.iter().any(|member| member.holds(value, worth)),
        }
    }
}

impl Atom {
    fn new(numbers: &[u16]) -> Self {
        Atom { clock: numbers[0], relation: numbers[1], constant: numbers[2] }
    }

    fn in_range(self, clocks: u32) -> bool {
        u32::from(self.clock) < clocks
            && self.relation <= NOT_EQUAL
            && u32::from(self.constant) <= MOST_CONSTANT
    }

    fn holds<T: Ord>(self, value: &impl Fn(usize) -> T, worth: &impl Fn(u32) -> T) -> bool {
        let (value, bound) = (value(self.clock.into()), worth(self.constant.into()));
        match self.relation {
            LESS => value < bound,
            AT_MOST => value <= bound,
            EQUAL => value == bound,
            AT_LEAST => value >= bound,
            GREATER => value > bound,
            _ => value != bound,
        }
    }
}

/// A text of marks under way.
struct Parser<'a> {
    rest: &'a [u16],
    groups_left: usize,
    atoms_left: usize,
}

impl Parser<'_> {
    /// The members of a level, up to its close or, of the outermost, the text's end.
    fn level(&mut self, level: u32) -> Option<Vec<Member>> {
        let mut members = Vec::new();
        while let Some((&mark, rest)) = self.rest.split_first() {
            self.rest = rest;
            if mark == CLOSE {
                return (level > OUTERMOST).then_some(members);
            }
            members.push(self.member(mark, level)?);
        }
        (level == OUTERMOST).then_some(members)
    }

    /// The member of a level that a mark begins.
    fn member(&mut self, mark: u16, level: u32) -> Option<Member> {
        match mark {
            ATOM => self.atom().map(Member::Atom),
            OPEN_ANY_OF if is_all_of(level) => self.group(level + 1).map(Member::AnyOf),
            OPEN_ALL_OF if !is_all_of(level) => self.group(level + 1).map(Member::AllOf),
            _ => None,
        }
    }

    fn group(&mut self, level: u32) -> Option<Vec<Member>> {
        if level > MOST_LEVELS {
            return None;
        }
        self.groups_left = self.groups_left.checked_sub(1)?;
        self.level(level)
    }

    fn atom(&mut self) -> Option<Atom> {
        self.atoms_left = self.atoms_left.checked_sub(1)?;
        let (numbers, rest) = self.rest.split_at_checked(ATOM_NUMBERS)?;
        self.rest = rest;
        Some(Atom::new(numbers))
    }
}

/// Whether a level is an all-of: the outermost is, and below it any-of and all-of alternate.
fn is_all_of(level: u32) -> bool {
    level % 2 == OUTERMOST % 2
}
