//! Files that were refused for a grouped edge.

use crate::cover::those;
use crate::edges::{Atom, Edge, Member, EDGE_FRONT, EQUAL, GROUPED, MOST_CONSTANT, PLAIN, RELATIONS};
use crate::group_counts::{inner_atoms, top_is_inside};
use crate::group_damage::{LEAST_BODY, MOST_BODY};
use crate::pins::{is_pinned, sides};
use crate::rules::{edge_at, numbers_in, record_at, records_in};
use crate::texts::{flaw, Flaw};

/// Files that were refused.
pub const REFUSED: [&str; 17] = [
    "groups: 2 for a body of 6 bytes",
    "groups: 2 for a body of 7 bytes",
    "groups: 2 for a body of 169 bytes",
    "groups: 2 for a body of 170 bytes",
    "groups: 2 for an odd body of a length between",
    "groups: 3 for a plain edge behind a grouped one",
    "groups: 4 for a grouped edge behind 256 plain ones",
    "groups: 4 for a grouped edge behind a grouped one",
    "groups: 6 for a clock inside a group",
    "groups: 6 for relation 6 inside a group",
    "groups: 6 for constant 31 inside a group",
    "groups: 6 for relation 6 in a plain edge",
    "groups: 6 for text, resets not pinned",
    "groups: 6 for an atom, resets not pinned",
    "groups: 7 for an equality inside a group alone",
    "groups: 7 for a side inside a group",
    "groups: 8 by a constant inside a group alone",
];

/// 6 for a text, by what is wrong first.
pub const FLAWS: [&str; 8] = [
    "groups: 6 for a mark that is none",
    "groups: 6 for a cut atom",
    "groups: 6 for a group closed too often",
    "groups: 6 for a group left open",
    "groups: 6 for a group of the wrong kind",
    "groups: 6 for a fifth level",
    "groups: 6 for a ninth group",
    "groups: 6 for a seventeenth atom",
];

/// The counts that a file adds to which was refused with this number at this place.
pub fn seen_refused(file: &[u8], number: u8, place: usize) -> Vec<&'static str> {
    match (number, record_at(file, place)) {
        (2, Some((GROUPED, body))) => seen_length(body.len()),
        (3 | 4, Some((kind, _))) => seen_order(file, number, place, kind),
        (6, Some((GROUPED, body))) => match numbers_in(body).get(EDGE_FRONT..).and_then(flaw) {
            Some(flaw) => seen_flaw(file, place, flaw),
            None => seen_atoms(file, place),
        },
        (6, _) => seen_plain(file, place),
        (7, _) => seen_unpinned(file, place),
        (8, _) => {
            let edges = records_in(file).into_iter().filter_map(|(place, ..)| edge_at(file, place));
            let edges: Vec<Edge> = edges.collect();
            those([("groups: 8 by a constant inside a group alone", top_is_inside(&edges))])
        }
        _ => Vec::new(),
    }
}

fn seen_length(length: usize) -> Vec<&'static str> {
    let between = (LEAST_BODY..MOST_BODY).contains(&length);
    those([
        ("groups: 2 for a body of 6 bytes", length == LEAST_BODY - 2),
        ("groups: 2 for a body of 7 bytes", length == LEAST_BODY - 1),
        ("groups: 2 for a body of 169 bytes", length == MOST_BODY + 1),
        ("groups: 2 for a body of 170 bytes", length == MOST_BODY + 2),
        ("groups: 2 for an odd body of a length between", between && length % 2 == 1),
    ])
}

/// A record of this kind that was refused for the kinds before it or for their number.
fn seen_order(file: &[u8], number: u8, place: usize, kind: u16) -> Vec<&'static str> {
    let last = records_in(&file[..place]).last().map(|&(_, kind, _)| kind);
    let grouped = (number, kind) == (4, GROUPED);
    those([
        (
            "groups: 3 for a plain edge behind a grouped one",
            (number, kind, last) == (3, PLAIN, Some(GROUPED)),
        ),
        ("groups: 4 for a grouped edge behind 256 plain ones", grouped && last == Some(PLAIN)),
        ("groups: 4 for a grouped edge behind a grouped one", grouped && last == Some(GROUPED)),
    ])
}

/// A grouped edge that was refused for its text.
fn seen_flaw(file: &[u8], place: usize, found: Flaw) -> Vec<&'static str> {
    let order =
        [Flaw::Mark, Flaw::Cut, Flaw::Closed, Flaw::Open, Flaw::Kind, Flaw::Level, Flaw::Group, Flaw::Atom];
    let name = order.iter().position(|&flaw| flaw == found).map(|place| FLAWS[place]);
    let unpinned = edge_at(file, place).is_some_and(|edge| is_unpinned(&edge));
    let mut seen = those([("groups: 6 for text, resets not pinned", unpinned)]);
    seen.extend(name);
    seen
}

/// A grouped edge that was refused, and not for its text.
fn seen_atoms(file: &[u8], place: usize) -> Vec<&'static str> {
    let Some(edge) = edge_at(file, place) else { return Vec::new() };
    let clocks = record_at(file, 0).and_then(|(_, sizes)| numbers_in(sizes).get(2).copied()).unwrap_or(0);
    let inside = inner_atoms(&edge);
    let any = |test: &dyn Fn(&Atom) -> bool| inside.iter().any(test);
    let relation = edge.atoms().iter().any(is_past_relations);
    those([
        ("groups: 6 for a clock inside a group", any(&|[clock, ..]| *clock >= clocks)),
        ("groups: 6 for relation 6 inside a group", any(&is_past_relations)),
        ("groups: 6 for constant 31 inside a group", any(&|atom| atom[2] == MOST_CONSTANT + 1)),
        ("groups: 6 for an atom, resets not pinned", is_unpinned(&edge) && relation),
    ])
}

/// A plain edge, or another record, that was refused for a number.
fn seen_plain(file: &[u8], place: usize) -> Vec<&'static str> {
    let past = |edge: Edge| edge.kind == PLAIN && edge.atoms().iter().any(is_past_relations);
    those([("groups: 6 for relation 6 in a plain edge", edge_at(file, place).is_some_and(past))])
}

fn is_past_relations([_, relation, _]: &Atom) -> bool {
    usize::from(*relation) == RELATIONS
}

fn is_unpinned(edge: &Edge) -> bool {
    edge.mask != 0 && !is_pinned(&edge.guard)
}

/// An edge that was refused for its resets, which would be pinned if no atom stood in a group.
fn seen_unpinned(file: &[u8], place: usize) -> Vec<&'static str> {
    let Some(edge) = edge_at(file, place) else { return Vec::new() };
    let atoms: Vec<Member> = edge.atoms().into_iter().map(Member::Atom).collect();
    let equality = edge.atoms().iter().any(|[_, relation, _]| *relation == EQUAL);
    those([
        ("groups: 7 for an equality inside a group alone", equality),
        ("groups: 7 for a side inside a group", !sides(&atoms).is_empty()),
    ])
}
