//! Grouped edges written out as plain ones: an edge for each way in which the guard can hold.

use crate::edges::{
    members, Atom, Edge, Level, Member, GREATER, GROUPED, LESS, MOST_ATOMS, MOST_EDGES, NOT_EQUAL, PLAIN,
};
use crate::random::Random;
use crate::rules::Rule;

/// Atoms all of which must hold.
type Way = Vec<Atom>;

/// The rule with plain edges in place of its grouped ones, if that takes no more edges and atoms than there may be.
/// Each not-equal stays, or becomes less and greater.
pub fn written_out(random: &mut Random, rule: &Rule) -> Option<Rule> {
    let mut edges = Vec::new();
    for edge in &rule.edges {
        match edge.kind {
            GROUPED => edges.extend(plain_edges(random, edge)?),
            _ => edges.push(edge.clone()),
        }
        if edges.len() > MOST_EDGES {
            return None;
        }
    }
    Some(Rule { edges, ..rule.clone() })
}

/// An edge for each way in which the guard holds. Atoms of the outermost level, and so its pin, stand in each of them.
fn plain_edges(random: &mut Random, edge: &Edge) -> Option<Vec<Edge>> {
    let ways = ways(random, &edge.guard, Level::All)?;
    let plain = |way: Way| Edge { kind: PLAIN, guard: members(&way), ..edge.clone() };
    ways.iter().all(|way| way.len() <= MOST_ATOMS).then(|| ways.into_iter().map(plain).collect())
}

/// The ways in which these members of a level hold; nothing if there are too many.
fn ways(random: &mut Random, level_members: &[Member], level: Level) -> Option<Vec<Way>> {
    let mut found = if level == Level::All { vec![Way::new()] } else { Vec::new() };
    for member in level_members {
        let by_member = match (member, level) {
            (Member::Atom(atom), _) => atom_ways(random, *atom),
            (Member::Group(inner), Level::All) => ways(random, inner, Level::Any)?,
            (Member::Group(inner), Level::Any) => ways(random, inner, Level::All)?,
        };
        match level {
            Level::All => found = found.iter().flat_map(|way| joined(way, &by_member)).collect(),
            Level::Any => found.extend(by_member),
        }
        if found.len() > MOST_EDGES {
            return None;
        }
    }
    Some(found)
}

/// An atom as it is, or the two sides of a not-equal.
fn atom_ways(random: &mut Random, [clock, relation, constant]: Atom) -> Vec<Way> {
    if relation == NOT_EQUAL && random.chance(50) {
        return vec![vec![[clock, LESS, constant]], vec![[clock, GREATER, constant]]];
    }
    vec![vec![[clock, relation, constant]]]
}

/// A way with each of these besides, no atom twice.
fn joined(way: &Way, others: &[Way]) -> Vec<Way> {
    let with = |other: &Way| {
        let mut both = way.clone();
        both.extend(other.iter().filter(|atom| !way.contains(atom)));
        both
    };
    others.iter().map(with).collect()
}

#[cfg(test)]
mod tests {
    use super::*;
    use crate::edges::{holds, EQUAL};
    use crate::groups::grouped_edge;

    fn edge(guard: Vec<Member>) -> Edge {
        Edge { kind: GROUPED, guard, ..Edge::plain(0, 0, 0, &[]) }
    }

    #[test]
    fn empty_groups_are_written_out() {
        let random = &mut Random::new(1, 0);
        let count = |random: &mut Random, guard| plain_edges(random, &edge(guard)).map(|edges| edges.len());
        assert_eq!(count(random, vec![]), Some(1));
        assert_eq!(count(random, vec![Member::Group(vec![])]), Some(0));
        assert_eq!(count(random, vec![Member::Group(vec![Member::Group(vec![])])]), Some(1));
        let two = Member::Group(vec![Member::Atom([0, EQUAL, 1]), Member::Atom([0, EQUAL, 2])]);
        assert_eq!(count(random, vec![two.clone(), two.clone()]), Some(4));
        assert_eq!(count(random, vec![two; 9]), None);
    }

    #[test]
    fn one_of_the_edges_holds_when_the_guard_does() {
        let rule = Rule {
            locations: 1,
            symbols: 1,
            clocks: 2,
            initial: vec![],
            finals: vec![],
            ceiling: None,
            edges: vec![],
        };
        let mut written = 0;
        for number in 0..2_000 {
            let random = &mut Random::new(20, number);
            let edge = grouped_edge(random, &rule, 2);
            let Some(plain) = plain_edges(random, &edge) else { continue };
            written += plain.len();
            for ages in (0..7).flat_map(|one| (0..7).map(move |other| [one, other])) {
                let some = plain.iter().any(|plain| plain.allows(&ages, 2));
                assert_eq!(some, edge.allows(&ages, 2), "{edge:?} at {ages:?}");
            }
        }
        assert!(written > 2_000 && holds(&[0, NOT_EQUAL, 1], &[1], 2));
    }
}
