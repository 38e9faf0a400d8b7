//! The texts of grouped edges: marks, members, and what breaks the group rules.

use crate::edges::{Atom, Level, Member, ATOM_NUMBERS, MOST_GROUPED_ATOMS, MOST_GROUPS, MOST_LEVELS};

/// The marks.
pub const ALL_OF: u16 = 1;
pub const ANY_OF: u16 = 2;
pub const ATOM: u16 = 3;
pub const CLOSE: u16 = 4;

/// What a text breaks the group rules by.
#[derive(Clone, Copy, Debug, PartialEq)]
pub enum Flaw {
    /// A mark that is none.
    Mark,
    /// An atom that the text's end cuts.
    Cut,
    /// A group closed that was not opened.
    Closed,
    /// A group that is not closed.
    Open,
    /// An all-of group in an all-of, or an any-of group in an any-of.
    Kind,
    /// A fifth level.
    Level,
    /// A ninth group.
    Group,
    /// A seventeenth atom.
    Atom,
}

/// The places of a text's marks.
pub fn marks_in(text: &[u16]) -> Vec<usize> {
    let (mut places, mut place) = (Vec::new(), 0);
    while let Some(&mark) = text.get(place) {
        places.push(place);
        place += if mark == ATOM { 1 + ATOM_NUMBERS } else { 1 };
    }
    places
}

/// The text of an outermost level.
pub fn text_of(members: &[Member]) -> Vec<u16> {
    let mut text = Vec::new();
    add_text(members, Level::All, &mut text);
    text
}

fn add_text(members: &[Member], level: Level, text: &mut Vec<u16>) {
    let (mark, inside) = match level {
        Level::All => (ANY_OF, Level::Any),
        Level::Any => (ALL_OF, Level::All),
    };
    for member in members {
        match member {
            Member::Atom(atom) => {
                text.push(ATOM);
                text.extend(atom);
            }
            Member::Group(inner) => {
                text.push(mark);
                add_text(inner, inside, text);
                text.push(CLOSE);
            }
        }
    }
}

/// The members of the outermost level that a text spells. One that breaks the group rules is read somehow: a mark that
/// is none closes, what the end cuts is left out, what is left open ends there.
pub fn members_in(text: &[u16]) -> Vec<Member> {
    let mut levels: Vec<Vec<Member>> = vec![Vec::new()];
    for place in marks_in(text) {
        match text[place] {
            ALL_OF | ANY_OF => levels.push(Vec::new()),
            ATOM => {
                let atom: Option<&Atom> = text[place + 1..].first_chunk();
                add(&mut levels, atom.copied().map(Member::Atom));
            }
            _ if levels.len() > 1 => close(&mut levels),
            _ => {}
        }
    }
    while levels.len() > 1 {
        close(&mut levels);
    }
    levels.pop().unwrap_or_default()
}

fn close(levels: &mut Vec<Vec<Member>>) {
    let group = levels.pop().map(Member::Group);
    add(levels, group);
}

fn add(levels: &mut [Vec<Member>], member: Option<Member>) {
    if let Some(level) = levels.last_mut() {
        level.extend(member);
    }
}

/// The first thing by which a text breaks the group rules.
pub fn flaw(text: &[u16]) -> Option<Flaw> {
    let (mut level, mut groups, mut atoms) = (1, 0, 0);
    for place in marks_in(text) {
        let found = match text[place] {
            mark @ (ALL_OF | ANY_OF) => {
                level += 1;
                groups += 1;
                opening_flaw(mark, level, groups)
            }
            ATOM => {
                atoms += 1;
                let cut = text.len() < place + 1 + ATOM_NUMBERS;
                cut.then_some(Flaw::Cut).or((atoms > MOST_GROUPED_ATOMS).then_some(Flaw::Atom))
            }
            CLOSE => {
                level -= 1;
                (level == 0).then_some(Flaw::Closed)
            }
            _ => Some(Flaw::Mark),
        };
        if found.is_some() {
            return found;
        }
    }
    (level > 1).then_some(Flaw::Open)
}

/// What is wrong with a group that this mark opens, the so many-th and at this level.
fn opening_flaw(mark: u16, level: usize, groups: usize) -> Option<Flaw> {
    let right = if level.is_multiple_of(2) { ANY_OF } else { ALL_OF };
    let flaws = [
        (mark != right, Flaw::Kind),
        (level > MOST_LEVELS, Flaw::Level),
        (groups > MOST_GROUPS, Flaw::Group),
    ];
    flaws.into_iter().find(|(found, _)| *found).map(|(_, flaw)| flaw)
}

/// How many groups there are, one in another too.
pub fn group_count(members: &[Member]) -> usize {
    members.iter().filter_map(Member::group).map(|inner| 1 + group_count(inner)).sum()
}

/// How many levels there are, this one among them.
pub fn level_count(members: &[Member]) -> usize {
    1 + members.iter().filter_map(Member::group).map(level_count).max().unwrap_or(0)
}

#[cfg(test)]
mod tests {
    use super::*;

    const AGE: [u16; 4] = [ATOM, 0, 2, 1];

    fn text(parts: &[&[u16]]) -> Vec<u16> {
        parts.concat()
    }

    #[test]
    fn texts_are_read_and_spelled() {
        let opened: &[u16] = &[ANY_OF];
        for text in [
            text(&[]),
            text(&[&AGE]),
            text(&[opened, &[CLOSE], &AGE]),
            text(&[opened, &AGE, &[ALL_OF], &AGE, &[ANY_OF, CLOSE, CLOSE], &AGE, &[CLOSE], &AGE]),
        ] {
            assert_eq!((text_of(&members_in(&text)), flaw(&text)), (text.clone(), None));
        }
        let members = members_in(&[ANY_OF, ALL_OF, ANY_OF, CLOSE, CLOSE, CLOSE, ANY_OF, CLOSE]);
        assert_eq!((group_count(&members), level_count(&members), level_count(&[])), (4, 4, 1));
    }

    #[test]
    fn flaws_are_found() {
        let nine = [ANY_OF, CLOSE].repeat(9);
        let seventeen = AGE.repeat(17);
        let flawed: [(&[u16], Flaw); 10] = [
            (&[0], Flaw::Mark),
            (&[5], Flaw::Mark),
            (&[ATOM, 0, 2], Flaw::Cut),
            (&[CLOSE], Flaw::Closed),
            (&[ANY_OF], Flaw::Open),
            (&[ALL_OF, CLOSE], Flaw::Kind),
            (&[ANY_OF, ANY_OF, CLOSE, CLOSE], Flaw::Kind),
            (&[ANY_OF, ALL_OF, ANY_OF, ALL_OF, CLOSE, CLOSE, CLOSE, CLOSE], Flaw::Level),
            (&nine, Flaw::Group),
            (&seventeen, Flaw::Atom),
        ];
        for (text, expected) in flawed {
            assert_eq!(flaw(text), Some(expected), "{text:?}");
            members_in(text);
        }
        assert_eq!([flaw(&nine[2..]), flaw(&seventeen[4..])], [None, None]);
    }
}
