//! What came up of grouped edges: texts at their limits, edge tables with a fault, runs that groups decide.

use crate::cover::those;
use crate::edges::{
    holds, outer_atoms, text_length, Atom, Edge, Level, Member, COUNT, EDGE_NUMBERS, EDGE_TABLE, EQUAL,
    GROUPED, KIND, MOST_EDGES, MOST_GROUPED_ATOMS, MOST_GROUPS, MOST_LEVELS, NOT_EQUAL, PLAIN, TEXT,
    TEXT_NUMBERS,
};
use crate::group_refusals::{self, seen_refused};
use crate::pins::sides;
use crate::rules::edges_in;
use crate::texts::{group_count, level_count, marks_in};
use alderskein::raw::Head;
use protocol::{Call, Engine, Reference, Reply, Rule, State, What, Word};

/// The counts, each of which must be above 0.
pub const COUNTS: [&[&str]; 5] = [&READ, &CHECKED, &RUN, &group_refusals::REFUSED, &group_refusals::FLAWS];

/// Rules that were read.
const READ: [&str; 16] = [
    "groups: a grouped edge without text",
    "groups: 8 groups",
    "groups: 16 atoms",
    "groups: 4 levels",
    "groups: 80 numbers of text",
    "groups: an empty any-of group",
    "groups: an empty all-of group",
    "groups: not equal in a plain edge",
    "groups: not equal on the outermost level",
    "groups: not equal inside a group",
    "groups: edges of both kinds",
    "groups: 256 grouped edges",
    "groups: 256 edges of both kinds",
    "groups: cm by a constant inside a group alone",
    "groups: pinned by an equality behind a group",
    "groups: pinned from both sides, a group between",
];

/// Edge tables that were checked.
const CHECKED: [&str; 14] = [
    "groups: put in by hand, accepted",
    "groups: 20 for 22,015 numbers",
    "groups: 20 for 22,015 numbers, reading",
    "groups: 21 for kind 5 alone",
    "groups: 21 for kind 6 alone",
    "groups: 21 for a kind that is none alone",
    "groups: 21 for the count of a plain edge alone",
    "groups: 21 for the count of a grouped edge alone",
    "groups: 21 for a mark alone",
    "groups: 21 for another number of a text alone",
    "groups: 21 for a place of a plain edge that is not in use alone",
    "groups: 21 for a place of a grouped edge that is not in use alone",
    "groups: 21 for the last place of an edge alone",
    "groups: 21 for the order of the kinds alone",
];

/// Runs by branch.
const RUN: [&str; 10] = [
    "groups: held at a group",
    "groups: held at an atom behind a group",
    "groups: held at member 16",
    "groups: held at member 19",
    "groups: a run by a group whose first member fails",
    "groups: a run by a group inside a group alone",
    "groups: a run with an atom of a group at its constant",
    "groups: a run with an atom of a group a D-th below its constant",
    "groups: a run with an atom of a group a D-th above its constant",
    "groups: a run with a clock of a group above cm",
];

/// What was accepted last in a scene.
#[derive(Default)]
pub struct GroupCounts {
    accepted: Option<(Head, Vec<u16>)>,
    /// Whether the edge table was filled by hand.
    by_hand: bool,
}

impl GroupCounts {
    /// The counts that a command with its reply and the state after it adds to.
    pub fn seen(&mut self, call: &Call, reply: &Reply, state: &State) -> Vec<&'static str> {
        match (call, reply) {
            (Call::Read { file, edges, .. }, Reply::Read(reading)) => {
                self.by_hand = false;
                if reading.number == 0 {
                    self.accepted = Some((state.head, state.edges.to_vec()));
                    return seen_read(state);
                }
                let short = reading.number == 20 && *edges == EDGE_TABLE - 1;
                let mut seen = those([("groups: 20 for 22,015 numbers, reading", short)]);
                seen.extend(seen_refused(file, reading.number, reading.place));
                seen
            }
            (Call::Resize { what: What::Edges, .. }, _) => {
                self.by_hand = true;
                Vec::new()
            }
            (Call::CheckRule, Reply::Checked(answer)) => self.seen_checked(answer.number, state),
            (Call::Branch { word }, Reply::Branch(answer, taken)) if answer.number == 0 => {
                let held = answer.held.then_some(answer.position);
                let run = answer.found.then_some(taken.as_slice());
                [seen_held(word, held, state), seen_run(word, run.unwrap_or_default(), state)].concat()
            }
            _ => Vec::new(),
        }
    }

    fn seen_checked(&mut self, number: u8, state: &State) -> Vec<&'static str> {
        let grouped = edges_in(state).any(|edge| edge.kind == GROUPED);
        let short = number == 20 && state.edges.len() == EDGE_TABLE - 1;
        let mut seen = those([
            ("groups: put in by hand, accepted", number == 0 && grouped && self.by_hand),
            ("groups: 20 for 22,015 numbers", short),
            ("groups: 21 for the order of the kinds alone", number == 21 && only_order(state)),
        ]);
        if number == 0 {
            self.accepted = Some((state.head, state.edges.to_vec()));
        } else if let (21, Some((head, edges))) = (number, &self.accepted) {
            let only = if *head == state.head { only_change(edges, &state.edges) } else { None };
            seen.extend(only.map_or(Vec::new(), |place| seen_change(edges, &state.edges, place)));
        }
        seen
    }
}

/// The one place at which two edge tables differ.
fn only_change(before: &[u16], after: &[u16]) -> Option<usize> {
    let mut places = (0..before.len().min(after.len())).filter(|&place| before[place] != after[place]);
    let only = places.next().filter(|_| places.next().is_none())?;
    (before.len() == after.len() && only < EDGE_TABLE).then_some(only)
}

/// An edge table that was accepted, and is refused for what stands at one place now.
fn seen_change(before: &[u16], after: &[u16], place: usize) -> Vec<&'static str> {
    let (edge, at) = (&before[place - place % EDGE_NUMBERS..][..EDGE_NUMBERS], place % EDGE_NUMBERS);
    let (grouped, used) = (edge[KIND] == GROUPED, TEXT + text_length(edge));
    let mark = grouped && at >= TEXT && marks_in(&edge[TEXT..used]).contains(&(at - TEXT));
    let (unused, in_text) = (at >= used && edge[KIND] != 0, (TEXT..used).contains(&at));
    those([
        ("groups: 21 for kind 5 alone", at == KIND && after[place] == PLAIN),
        ("groups: 21 for kind 6 alone", at == KIND && after[place] == GROUPED),
        (
            "groups: 21 for a kind that is none alone",
            at == KIND && !(PLAIN..=GROUPED).contains(&after[place]),
        ),
        ("groups: 21 for the count of a plain edge alone", at == COUNT && !grouped),
        ("groups: 21 for the count of a grouped edge alone", at == COUNT && grouped),
        ("groups: 21 for a mark alone", mark),
        ("groups: 21 for another number of a text alone", grouped && in_text && !mark),
        ("groups: 21 for a place of a plain edge that is not in use alone", unused && !grouped),
        ("groups: 21 for a place of a grouped edge that is not in use alone", unused && grouped),
        ("groups: 21 for the last place of an edge alone", unused && at == EDGE_NUMBERS - 1),
    ])
}

/// Whether the state's rule would be accepted with its plain edges before its grouped ones.
fn only_order(state: &State) -> bool {
    let count = (state.head.count as usize).min(state.edges.len() / EDGE_NUMBERS);
    let (used, rest) = state.edges.split_at(EDGE_NUMBERS * count);
    let mut edges: Vec<&[u16]> = used.chunks_exact(EDGE_NUMBERS).collect();
    edges.sort_by_key(|edge| edge[KIND]);
    let sorted = [edges.concat(), rest.to_vec()].concat();
    let rule = Rule { head: state.head, edges: &sorted };
    sorted != *state.edges && Reference::check_rule(rule).number == 0
}

/// The atoms of an edge that stand inside groups.
pub fn inner_atoms(edge: &Edge) -> Vec<Atom> {
    let groups = edge.guard.iter().filter(|member| member.group().is_some()).cloned().collect();
    Edge { guard: groups, ..edge.clone() }.atoms()
}

/// The groups of these members and inside them, each with the kind of the level that it stands on.
fn groups_in(members: &[Member], level: Level) -> Vec<(Level, &[Member])> {
    let mut groups = Vec::new();
    for inner in members.iter().filter_map(Member::group) {
        groups.push((level, inner));
        groups.extend(groups_in(inner, if level == Level::All { Level::Any } else { Level::All }));
    }
    groups
}

/// The largest of these constants.
fn top_of(atoms: impl IntoIterator<Item = Atom>) -> Option<u16> {
    atoms.into_iter().map(|[_, _, constant]| constant).max()
}

fn seen_read(state: &State) -> Vec<&'static str> {
    let edges: Vec<Edge> = edges_in(state).collect();
    let (plain, grouped): (Vec<&Edge>, Vec<&Edge>) = edges.iter().partition(|edge| edge.kind == PLAIN);
    let any = |test: &dyn Fn(&Edge) -> bool| grouped.iter().any(|edge| test(edge));
    let differs = |atoms: Vec<Atom>| atoms.iter().any(|[_, relation, _]| *relation == NOT_EQUAL);
    let empty = |edge: &Edge, level| {
        groups_in(&edge.guard, Level::All).iter().any(|&(on, inner)| on == level && inner.is_empty())
    };
    let (both, all) = (!plain.is_empty() && !grouped.is_empty(), edges.len() == MOST_EDGES);
    those([
        ("groups: a grouped edge without text", any(&|edge| edge.guard.is_empty())),
        ("groups: 8 groups", any(&|edge| group_count(&edge.guard) == MOST_GROUPS)),
        ("groups: 16 atoms", any(&|edge| edge.atoms().len() == MOST_GROUPED_ATOMS)),
        ("groups: 4 levels", any(&|edge| level_count(&edge.guard) == MOST_LEVELS)),
        ("groups: 80 numbers of text", any(&|edge| edge.text().len() == TEXT_NUMBERS)),
        ("groups: an empty any-of group", any(&|edge| empty(edge, Level::All))),
        ("groups: an empty all-of group", any(&|edge| empty(edge, Level::Any))),
        ("groups: not equal in a plain edge", plain.iter().any(|edge| differs(edge.atoms()))),
        ("groups: not equal on the outermost level", any(&|edge| differs(outer_atoms(&edge.guard)))),
        ("groups: not equal inside a group", any(&|edge| differs(inner_atoms(edge)))),
        ("groups: edges of both kinds", both),
        ("groups: 256 grouped edges", all && plain.is_empty()),
        ("groups: 256 edges of both kinds", all && both),
        ("groups: cm by a constant inside a group alone", top_is_inside(&edges)),
        ("groups: pinned by an equality behind a group", any(&pinned_behind_group)),
        ("groups: pinned from both sides, a group between", any(&pinned_about_group)),
    ])
}

/// Whether a constant inside some group is larger than all that stand inside none.
pub fn top_is_inside(edges: &[Edge]) -> bool {
    top_of(edges.iter().flat_map(inner_atoms))
        > top_of(edges.iter().flat_map(|edge| outer_atoms(&edge.guard)))
}

fn pinned_behind_group(edge: &Edge) -> bool {
    let equality = |member: &Member| member.atom().is_some_and(|[_, relation, _]| relation == EQUAL);
    let first = edge.guard.iter().position(equality);
    edge.mask != 0
        && first.is_some_and(|first| edge.guard[..first].iter().any(|member| member.group().is_some()))
}

fn pinned_about_group(edge: &Edge) -> bool {
    let about = |&(one, other): &(usize, usize)| {
        let between = &edge.guard[one.min(other)..one.max(other)];
        between.iter().any(|member| member.group().is_some())
    };
    edge.mask != 0 && sides(&edge.guard).iter().any(about)
}

/// What held a rule back at this position.
fn seen_held(word: &Word, position: Option<usize>, state: &State) -> Vec<&'static str> {
    let Some((position, &symbol)) = position.zip(word.symbols.first()) else { return Vec::new() };
    let leaves = |edge: &Edge| state.head.starts >> edge.source & 1 == 1 && edge.symbol == symbol;
    let Some(edge) = edges_in(state).find(leaves) else { return Vec::new() };
    let is_group = |member: &Member| member.group().is_some();
    let group = edge.guard.get(position).is_some_and(is_group);
    those([
        ("groups: held at a group", group),
        ("groups: held at an atom behind a group", !group && edge.guard[..position].iter().any(is_group)),
        ("groups: held at member 16", position == 16),
        ("groups: held at member 19", position == 19),
    ])
}

/// The grouped edges that a run takes.
fn seen_run(word: &Word, taken: &[u16], state: &State) -> Vec<&'static str> {
    let edges: Vec<Edge> = if taken.is_empty() { Vec::new() } else { edges_in(state).collect() };
    let top = edges.iter().map(Edge::top).max().unwrap_or(0);
    let (mut ages, mut last, mut seen) = ([0; 4], 0, Vec::new());
    for (&stamp, &number) in word.stamps.iter().zip(taken) {
        let Some(edge) = edges.get(usize::from(number)) else { break };
        ages = ages.map(|age| age + (stamp - last));
        last = stamp;
        seen.extend(seen_taken(edge, &ages, word.grain, top));
        for (clock, age) in ages.iter_mut().enumerate() {
            *age = if edge.mask >> clock & 1 == 1 { 0 } else { *age };
        }
    }
    seen
}

/// An edge taken at these ages.
fn seen_taken(edge: &Edge, ages: &[u32; 4], grain: u32, top: u16) -> Vec<&'static str> {
    let test = |atom: &Atom| holds(atom, ages, grain);
    let groups: Vec<&[Member]> = edge.guard.iter().filter_map(Member::group).collect();
    let fails = |member: &Member| !member.holds(Level::Any, &test);
    let late = groups.iter().any(|group| group.first().is_some_and(fails));
    let deep =
        groups.iter().any(|group| group.iter().all(|member| member.group().is_some() || fails(member)));
    let inside = inner_atoms(edge);
    let age = |clock: u16| ages[usize::from(clock)];
    let at = |shift: u32| {
        inside.iter().any(|&[clock, _, constant]| age(clock) + 1 == u32::from(constant) * grain + shift)
    };
    let above = inside.iter().any(|&[clock, ..]| age(clock) > u32::from(top) * grain);
    those([
        ("groups: a run by a group whose first member fails", late),
        ("groups: a run by a group inside a group alone", deep),
        ("groups: a run with an atom of a group at its constant", at(1)),
        ("groups: a run with an atom of a group a D-th below its constant", at(0)),
        ("groups: a run with an atom of a group a D-th above its constant", at(2)),
        ("groups: a run with a clock of a group above cm", above),
    ])
}
