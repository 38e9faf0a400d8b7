//! Guards as regions: what a guard allows is a list of ranges, each a lowest and a highest region for each clock.
//!
//! A plain guard without a not-equal is one range. A not-equal makes two of each, a group as many as its members do.

/// Numbers of an atom, and the marks of a text.
const ATOM_NUMBERS: usize = 3;
const ALL_OF: u16 = 1;
const ANY_OF: u16 = 2;
const ATOM: u16 = 3;
/// The relation that two ranges stand for.
const NOT_EQUAL: u16 = 5;
const LESS: u16 = 0;
const GREATER: u16 = 4;
/// Above every region: a clock without a highest.
const NO_HIGHEST: i32 = i32::MAX / 2;

/// The regions that each clock may be in. Regions are numbered as intervals are.
#[derive(Clone, Copy)]
pub struct Ranges {
    pub lowest: [i32; 4],
    pub highest: [i32; 4],
}

impl Ranges {
    /// All regions.
    pub const ALL: Ranges = Ranges { lowest: [0; 4], highest: [NO_HIGHEST; 4] };

    /// Narrows a clock's regions by an atom that is no not-equal.
    ///
    /// A highest is below the region above cm, and a lowest at most that, so that neither asks for the cut.
    fn narrow(&mut self, clock: usize, relation: u16, constant: u16) {
        let own = 2 * i32::from(constant);
        let (lowest, highest) = match relation {
            LESS => (0, own - 1),
            1 => (0, own),
            2 => (own, own),
            3 => (own, NO_HIGHEST),
            _ => (own + 1, NO_HIGHEST),
        };
        self.lowest[clock] = self.lowest[clock].max(lowest);
        self.highest[clock] = self.highest[clock].min(highest);
    }

    /// The regions that both have.
    fn both(&self, other: &Ranges) -> Ranges {
        Ranges {
            lowest: std::array::from_fn(|clock| self.lowest[clock].max(other.lowest[clock])),
            highest: std::array::from_fn(|clock| self.highest[clock].min(other.highest[clock])),
        }
    }

    fn is_empty(&self) -> bool {
        self.lowest.iter().zip(&self.highest).any(|(lowest, highest)| lowest > highest)
    }
}

/// The range of these atoms, three numbers each; nothing if one of them is a not-equal.
pub fn one_range(atoms: &[u16]) -> Option<Ranges> {
    let mut ranges = Ranges::ALL;
    for atom in atoms.chunks_exact(ATOM_NUMBERS) {
        if atom[1] == NOT_EQUAL {
            return None;
        }
        ranges.narrow(atom[0].into(), atom[1], atom[2]);
    }
    Some(ranges)
}

/// The ranges of these atoms, three numbers each.
pub fn plain_ranges(atoms: &[u16]) -> Vec<Ranges> {
    let all = vec![Ranges::ALL];
    atoms.chunks_exact(ATOM_NUMBERS).fold(all, |ranges, atom| joined(&ranges, &atom_ranges(atom)))
}

/// The ranges of a text's outermost level.
pub fn text_ranges(text: &[u16]) -> Vec<Ranges> {
    all_of(&mut { text })
}

/// The ranges that all members of a level have, up to the mark that closes it or to the end.
fn all_of(rest: &mut &[u16]) -> Vec<Ranges> {
    let mut ranges = vec![Ranges::ALL];
    while let Some(member) = next_member(rest) {
        ranges = joined(&ranges, &member);
    }
    ranges
}

/// The ranges that some member of a level has.
fn any_of(rest: &mut &[u16]) -> Vec<Ranges> {
    let mut ranges = Vec::new();
    while let Some(member) = next_member(rest) {
        ranges.extend(member);
    }
    ranges
}

/// The ranges of the next member; nothing if the level ends.
fn next_member(rest: &mut &[u16]) -> Option<Vec<Ranges>> {
    let (&mark, after) = rest.split_first()?;
    *rest = after;
    match mark {
        ALL_OF => Some(all_of(rest)),
        ANY_OF => Some(any_of(rest)),
        ATOM => {
            let (atom, after) = rest.split_at(ATOM_NUMBERS);
            *rest = after;
            Some(atom_ranges(atom))
        }
        _ => None,
    }
}

fn atom_ranges(atom: &[u16]) -> Vec<Ranges> {
    let range = |relation| {
        let mut ranges = Ranges::ALL;
        ranges.narrow(atom[0].into(), relation, atom[2]);
        ranges
    };
    let ranges = if atom[1] == NOT_EQUAL { vec![range(LESS), range(GREATER)] } else { vec![range(atom[1])] };
    ranges.into_iter().filter(|ranges| !ranges.is_empty()).collect()
}

/// What one of these and one of those have in common, for each pair that has any.
fn joined(these: &[Ranges], those: &[Ranges]) -> Vec<Ranges> {
    let pairs = these.iter().flat_map(|one| those.iter().map(move |other| one.both(other)));
    pairs.filter(|ranges| !ranges.is_empty()).collect()
}

/// The largest constant of these atoms, three numbers each.
pub fn plain_top(atoms: &[u16]) -> u32 {
    atoms.chunks_exact(ATOM_NUMBERS).map(|atom| u32::from(atom[2])).fold(0, u32::max)
}

/// The largest constant in any atom of a text.
pub fn text_top(text: &[u16]) -> u32 {
    let (mut rest, mut top) = (text, 0);
    while let Some((&mark, after)) = rest.split_first() {
        let (atom, after) = after.split_at(if mark == ATOM { ATOM_NUMBERS } else { 0 });
        top = top.max(plain_top(atom));
        rest = after;
    }
    top
}
