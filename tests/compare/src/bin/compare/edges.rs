//! Edges: their guards, their records and their places in an edge table.

use crate::rules::record;
use crate::texts::{marks_in, members_in, text_of, ATOM};

/// The places of an edge in the edge table: kind, source, target, symbol, mask, count and text.
pub const KIND: usize = 0;
pub const MASK: usize = 4;
pub const COUNT: usize = 5;
pub const TEXT: usize = 6;
/// The most numbers of a text, and how many an edge takes.
pub const TEXT_NUMBERS: usize = 80;
pub const EDGE_NUMBERS: usize = TEXT + TEXT_NUMBERS;
/// The most edges, and the least length of an edge table.
pub const MOST_EDGES: usize = 256;
pub const EDGE_TABLE: usize = MOST_EDGES * EDGE_NUMBERS;
/// The kinds of an edge record: atoms all of which must hold, and a text of groups.
pub const PLAIN: u16 = 5;
pub const GROUPED: u16 = 6;
/// How many numbers an atom takes, and how many stand before the atoms or the text in an edge record.
pub const ATOM_NUMBERS: usize = 3;
pub const EDGE_FRONT: usize = 4;
/// The most atoms of a plain edge.
pub const MOST_ATOMS: usize = 8;
/// The most atoms and groups of a grouped edge, and the most levels, the outermost among them.
pub const MOST_GROUPED_ATOMS: usize = 16;
pub const MOST_GROUPS: usize = 8;
pub const MOST_LEVELS: usize = 4;
/// The largest constant of an atom.
pub const MOST_CONSTANT: u16 = 30;
/// The relations.
pub const LESS: u16 = 0;
pub const AT_MOST: u16 = 1;
pub const EQUAL: u16 = 2;
pub const AT_LEAST: u16 = 3;
pub const GREATER: u16 = 4;
pub const NOT_EQUAL: u16 = 5;
pub const RELATIONS: usize = 6;

/// Clock, relation, constant.
pub type Atom = [u16; ATOM_NUMBERS];

/// A member of a level. All-of and any-of take turns from level to level, so a group's kind is that of its level.
#[derive(Clone, Debug, PartialEq)]
pub enum Member {
    Atom(Atom),
    Group(Vec<Member>),
}

/// An edge. The guard is the outermost level, an all-of; a plain edge has atoms alone.
#[derive(Clone, Debug, PartialEq)]
pub struct Edge {
    pub kind: u16,
    pub source: u16,
    pub target: u16,
    pub symbol: u16,
    pub mask: u16,
    pub guard: Vec<Member>,
}

impl Edge {
    /// A plain edge without resets.
    pub fn plain(source: u16, target: u16, symbol: u16, atoms: &[Atom]) -> Self {
        Edge { kind: PLAIN, source, target, symbol, mask: 0, guard: members(atoms) }
    }

    /// The numbers of its atoms, or of its marks and atoms.
    pub fn text(&self) -> Vec<u16> {
        match self.kind {
            GROUPED => text_of(&self.guard),
            _ => outer_atoms(&self.guard).concat(),
        }
    }

    /// The numbers of its record.
    pub fn numbers(&self) -> Vec<u16> {
        [vec![self.source, self.target, self.symbol, self.mask], self.text()].concat()
    }

    pub fn record(&self) -> Vec<u8> {
        record(self.kind, &self.numbers())
    }

    /// The edge that the body of a record of either kind spells, also if it breaks the group rules.
    pub fn of_numbers(kind: u16, numbers: &[u16]) -> Option<Self> {
        let (&[source, target, symbol, mask], text) = numbers.split_first_chunk()?;
        let guard = match kind {
            PLAIN => text.as_chunks().0.iter().copied().map(Member::Atom).collect(),
            GROUPED => members_in(text),
            _ => return None,
        };
        Some(Edge { kind, source, target, symbol, mask, guard })
    }

    /// The edge in these places of an edge table, whatever they hold; nothing if it is of neither kind.
    pub fn of_places(places: &[u16]) -> Option<Self> {
        let length = text_length(places).min(TEXT_NUMBERS);
        let numbers = [&places[KIND + 1..COUNT], &places[TEXT..TEXT + length]].concat();
        Edge::of_numbers(places[KIND], &numbers)
    }

    /// Its places in an edge table.
    pub fn places(&self) -> Vec<u16> {
        let text = self.text();
        let count = if self.kind == GROUPED { text.len() } else { text.len() / ATOM_NUMBERS };
        let front = [self.kind, self.source, self.target, self.symbol, self.mask, count as u16];
        let mut places = [&front, text.as_slice()].concat();
        places.resize(EDGE_NUMBERS, 0);
        places
    }

    /// The places of its atoms' first numbers, in their order.
    pub fn atom_places(&self) -> Vec<usize> {
        let text = self.text();
        if self.kind == GROUPED {
            let atoms = marks_in(&text).into_iter().filter(|&place| text[place] == ATOM);
            return atoms.map(|place| TEXT + place + 1).collect();
        }
        (TEXT..TEXT + text.len()).step_by(ATOM_NUMBERS).collect()
    }

    /// The place of the first number of the atom at this position of the outermost level.
    pub fn outer_place(&self, position: usize) -> usize {
        let before = Edge { guard: self.guard[..position].to_vec(), ..self.clone() };
        TEXT + before.text().len() + usize::from(self.kind == GROUPED)
    }

    /// Whether the guard holds at these ages, in D-ths of a second.
    pub fn allows(&self, ages: &[u32], grain: u32) -> bool {
        self.guard.iter().all(|member| member.holds(Level::All, &|atom| holds(atom, ages, grain)))
    }

    /// All atoms, those in groups too.
    pub fn atoms(&self) -> Vec<Atom> {
        let mut atoms = Vec::new();
        add_atoms(&self.guard, &mut atoms);
        atoms
    }

    /// The largest constant in any atom, 0 if there is none.
    pub fn top(&self) -> u16 {
        largest_constant(&self.guard)
    }

    /// Changes all atoms.
    pub fn for_each_atom(&mut self, mut change: impl FnMut(&mut Atom)) {
        self.guard.iter_mut().for_each(|member| member.for_each_atom(&mut change));
    }

    /// The most atoms of an edge of its kind.
    pub fn most_atoms(&self) -> usize {
        if self.kind == GROUPED {
            MOST_GROUPED_ATOMS
        } else {
            MOST_ATOMS
        }
    }
}

/// How many numbers the count in these places says that the text has.
pub fn text_length(places: &[u16]) -> usize {
    let count = usize::from(places[COUNT]);
    if places[KIND] == GROUPED {
        count
    } else {
        ATOM_NUMBERS * count
    }
}

/// These atoms as members.
pub fn members(atoms: &[Atom]) -> Vec<Member> {
    atoms.iter().copied().map(Member::Atom).collect()
}

/// The atoms of a level itself.
pub fn outer_atoms(members: &[Member]) -> Vec<Atom> {
    members.iter().filter_map(Member::atom).collect()
}

fn add_atoms(members: &[Member], atoms: &mut Vec<Atom>) {
    for member in members {
        match member {
            Member::Atom(atom) => atoms.push(*atom),
            Member::Group(inner) => add_atoms(inner, atoms),
        }
    }
}

fn largest_constant(members: &[Member]) -> u16 {
    let constants = members.iter().map(|member| match member {
        Member::Atom([_, _, constant]) => *constant,
        Member::Group(inner) => largest_constant(inner),
    });
    constants.max().unwrap_or(0)
}

/// The kind of a level: all of its members must hold, or any.
#[derive(Clone, Copy, PartialEq)]
pub enum Level {
    All,
    Any,
}

impl Member {
    /// Whether it holds as a member of a level of this kind.
    pub fn holds(&self, level: Level, test: &impl Fn(&Atom) -> bool) -> bool {
        match (self, level) {
            (Member::Atom(atom), _) => test(atom),
            (Member::Group(inner), Level::All) => inner.iter().any(|member| member.holds(Level::Any, test)),
            (Member::Group(inner), Level::Any) => inner.iter().all(|member| member.holds(Level::All, test)),
        }
    }

    pub fn atom(&self) -> Option<Atom> {
        match self {
            Member::Atom(atom) => Some(*atom),
            Member::Group(_) => None,
        }
    }

    /// The members of a group.
    pub fn group(&self) -> Option<&[Member]> {
        match self {
            Member::Atom(_) => None,
            Member::Group(inner) => Some(inner),
        }
    }

    pub fn group_mut(&mut self) -> Option<&mut Vec<Member>> {
        match self {
            Member::Atom(_) => None,
            Member::Group(inner) => Some(inner),
        }
    }

    fn for_each_atom(&mut self, change: &mut impl FnMut(&mut Atom)) {
        match self {
            Member::Atom(atom) => change(atom),
            Member::Group(inner) => inner.iter_mut().for_each(|member| member.for_each_atom(change)),
        }
    }
}

/// Whether an atom holds at these ages.
pub fn holds(&[clock, relation, constant]: &Atom, ages: &[u32], grain: u32) -> bool {
    let (age, bound) = (ages[usize::from(clock)], u32::from(constant) * grain);
    match relation {
        LESS => age < bound,
        AT_MOST => age <= bound,
        EQUAL => age == bound,
        AT_LEAST => age >= bound,
        GREATER => age > bound,
        _ => age != bound,
    }
}
