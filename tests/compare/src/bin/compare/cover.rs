//! What came up: refusals call by call, verdicts runner by runner, limits.

use crate::batch_counts::{self, BatchCounts};
use crate::bit_counts;
use crate::ceiling::{ceilings, less_ceiling, CEILING_BYTES};
use crate::edges::{Edge, EDGE_TABLE, MOST_ATOMS, MOST_CONSTANT, PLAIN};
use crate::group_counts::{self, GroupCounts};
use crate::inclusion_counts::{self, InclusionCounts};
use crate::listed_counts::{self, ListedCounts};
use crate::partners::{lacks_partner, only_unpinned, WrongIn};
use crate::pins::{from_both_sides, Sides};
use crate::plain::{only_wrong, Wrong};
use crate::rules::{code_count, edge_at, edges_in, top_in};
use crate::size_counts::{SizeCounts, COUNTS};
use crate::sizes::EVERY_SIZE;
use alderskein::raw::{Answer, BranchAnswer, Built};
use alderskein::ROW_NUMBERS;
use protocol::{Call, Kept, Library, Machine, Reply, State, What, Word, SLOTS};
use std::collections::BTreeMap;
use std::fmt;

/// The bytes of the longest legal file.
const LONGEST_FILE: usize = 44_432;

/// The refusals that each call can give.
const REFUSALS: [(&str, &[u8]); 17] = [
    ("check_rule", &[20, 21]),
    ("read", &[20, 1, 2, 3, 4, 5, 6, 7, 8]),
    ("write", &[20, 21, 27]),
    ("check_word", &[30, 31, 32, 33]),
    ("build", &[20, 21, 22, 23, 24]),
    ("check_table", &[25]),
    ("table", &[25, 30, 31, 32, 33]),
    ("exact", &[20, 21, 30, 31, 32, 33, 26]),
    ("branch", &[20, 21, 30, 31, 32, 33]),
    ("start", &[30]),
    ("follow", &[25, 30, 34, 31, 32, 33]),
    ("follow_in_place", &[25, 30, 34, 31, 32, 33]),
    ("decide", &[20, 1, 2, 3, 4, 5, 6, 7, 8, 22, 23, 24, 30, 31, 32, 33]),
    ("next", &[38, 39]),
    ("words", &[38]),
    ("include", &[25, 35, 36, 37]),
    ("share", &[40, 38, 25, 43]),
];

/// The calls that answer yes or no.
const RUNNERS: [&str; 7] = ["exact", "branch", "table", "follow", "follow_in_place", "decide", "include"];

/// The limits and corners that must come up.
const LIMITS: [&str; 72] = [
    "read: L = 32",
    "read: S = 16",
    "read: K = 4",
    "read: no initial location",
    "read: no final location",
    "read: no edge",
    "read: 256 edges",
    "read: 8 atoms",
    "read: longest file",
    "read: longer edge table",
    "read: a ceiling, dropped",
    "read: ceiling 0",
    "read: ceiling 30",
    "read: accepted though by its ceiling N would be over 65,536",
    "read: ceiling 31 refused",
    "read: second ceiling refused",
    "read: a ceiling after an edge refused",
    "read: again what was written less a ceiling",
    "read: pinned from both sides",
    "read: pinned from both sides, at most first",
    "read: pinned from both sides, other members between",
    "read: refused for the partner's clock",
    "read: refused for the partner's constant",
    "read: refused for the partner's relation",
    "check_rule: pinned from both sides",
    "check_rule: refused for the partner's clock alone",
    "check_rule: refused for the partner's constant alone",
    "check_rule: refused for the partner's relation alone",
    "write: just fits",
    "write: less a ceiling, just fits",
    "write: less a ceiling, one byte short",
    "build: cm = 30",
    "build: N = 65,536",
    "build: R = 4,096",
    "build: more than 4,096 rows",
    "build: row table full",
    "build: cell table full",
    "build: just fits",
    "build: just 3 R row numbers",
    "build: one row number less than 3 R",
    "check_table: only a verdict differs, 0 for yes",
    "check_table: only a verdict differs, 1 for no",
    "check_table: only a verdict differs, 2",
    "check_table: only a verdict differs, over 2",
    "check_table: only a verdict differs, row 4,095",
    "table: only a verdict differs",
    "table: a verdict put right again",
    "follow: only a verdict differs",
    "follow: a verdict put right again",
    "follow_in_place: only a verdict differs",
    "follow_in_place: a verdict put right again",
    "table: filled by hand",
    "table: filled by hand, R = 4,096",
    "table: filled by hand, cm = 30",
    "table: filled by hand, N = 65,536",
    "follow: timer reset",
    "follow: event 4,096",
    "exact: 4,096 events",
    "exact: no room at the start",
    "branch: 12 events",
    "branch: a run by an edge pinned from both sides",
    "branch: accepted though the lowest edge's guard fails",
    "branch: no run, no events",
    "branch: no run, no edge on the first symbol",
    "branch: no run, the lowest edge's guard holds",
    "branch: held at member 0",
    "branch: held at a later member",
    "branch: held at member 7",
    "branch: held, several initial locations",
    "branch: held, not by an edge of the first location",
    "table: 4,096 events",
    "table: stamp over 2^31",
];

/// The counts.
pub struct Cover {
    /// Calls of the library.
    pub calls: u64,
    answers: BTreeMap<(&'static str, u8), u64>,
    verdicts: BTreeMap<(&'static str, bool), u64>,
    limits: BTreeMap<&'static str, u64>,
    /// Whether the state's table was changed by hand since it was built.
    by_hand: bool,
    /// What the state's rule is written as, if it was read from a file with a ceiling and not changed since.
    written_as: Option<Vec<u8>>,
    /// 3 R, if the state's rule was built and not changed since.
    row_numbers: Option<usize>,
    /// Whether a call was refused for a verdict alone since the table was built, brought back or cut.
    was_wrong: bool,
    /// Whether the scene is one of every size, and the sizes that came up in these.
    every_size: bool,
    sizes: SizeCounts,
    /// The walks from word to word.
    listed: ListedCounts,
    /// What is kept in the slots.
    inclusions: InclusionCounts,
    /// What the batch was made of.
    batches: BatchCounts,
    /// The rule accepted last.
    groups: GroupCounts,
}

impl Cover {
    pub fn new() -> Self {
        Cover {
            calls: 0,
            answers: REFUSALS
                .iter()
                .flat_map(|(name, numbers)| numbers.iter().map(|&number| ((*name, number), 0)))
                .collect(),
            verdicts: RUNNERS.iter().flat_map(|&name| [((name, false), 0), ((name, true), 0)]).collect(),
            limits: LIMITS
                .iter()
                .chain(&COUNTS)
                .chain(bit_counts::COUNTS.into_iter().chain(listed_counts::COUNTS).flatten())
                .chain(inclusion_counts::COUNTS.into_iter().chain(group_counts::COUNTS).flatten())
                .chain(batch_counts::COUNTS.into_iter().flatten())
                .map(|&name| (name, 0))
                .collect(),
            by_hand: false,
            written_as: None,
            row_numbers: None,
            was_wrong: false,
            every_size: false,
            sizes: SizeCounts::default(),
            listed: ListedCounts::default(),
            inclusions: InclusionCounts::default(),
            batches: BatchCounts::default(),
            groups: GroupCounts::default(),
        }
    }

    /// Begins a scene of this kind.
    pub fn begin(&mut self, kind: &str) {
        self.every_size = kind == EVERY_SIZE;
        self.inclusions = InclusionCounts::default();
        self.batches = BatchCounts::default();
        self.groups = GroupCounts::default();
    }

    /// Counts a command with its reply, and what the machine keeps after it.
    pub fn count(&mut self, call: &Call, reply: &Reply, machine: &Machine<Library>) {
        let state = machine.state();
        self.count_sizes(call, reply, state);
        self.count_slots(call, reply, machine.slots());
        for name in self.batches.seen(call, reply, machine.batch(), self.by_hand) {
            self.mark(name, true);
        }
        let seen = [bit_counts::seen(call, reply, state), self.listed.seen(call, reply)].concat();
        for name in [seen, self.groups.seen(call, reply, state)].concat() {
            self.mark(name, true);
        }
        if matches!(call, Call::Poke { .. } | Call::Resize { .. } | Call::Restore) {
            self.written_as = None;
            self.row_numbers = None;
        }
        match (call, reply) {
            (Call::Poke { what, .. }, _) => self.by_hand |= !matches!(what, What::Follower | What::Head),
            (Call::Restore | Call::Resize { .. }, _) => self.was_wrong = false,
            (_, Reply::Built(..)) => (self.by_hand, self.was_wrong) = (false, false),
            (_, Reply::Read(_)) => self.row_numbers = None,
            (_, Reply::Walked(steps)) => {
                for step in steps {
                    self.count_verdict("follow", step.number, state);
                    self.count_answer("follow", step.number, Some(step.yes));
                    self.mark("follow: timer reset", step.follower.reset.0 > 0);
                    self.mark("follow: event 4,096", step.number == 0 && step.follower.count == 4_096);
                }
                return;
            }
            _ => {}
        }
        if let Some((number, _)) = reply.refusal() {
            self.count_answer(call.name(), number, reply.verdict());
            self.count_verdict(call.name(), number, state);
            self.count_limits(call, reply, state);
        }
    }

    fn count_sizes(&mut self, call: &Call, reply: &Reply, state: &State) {
        let seen = if self.every_size { self.sizes.seen(call, reply, state) } else { Vec::new() };
        for (name, more) in seen {
            *self.limits.entry(name).or_default() += more;
        }
    }

    fn count_slots(&mut self, call: &Call, reply: &Reply, slots: &[Option<Kept>; SLOTS]) {
        match *call {
            Call::Keep { slot } => self.inclusions.keep(slot, self.by_hand),
            Call::Use { slot } => self.by_hand = self.inclusions.is_by_hand(slot),
            _ => {}
        }
        for name in self.inclusions.seen(call, reply, slots) {
            self.mark(name, true);
        }
    }

    fn count_answer(&mut self, name: &'static str, number: u8, verdict: Option<bool>) {
        self.calls += 1;
        if number != 0 {
            *self.answers.entry((name, number)).or_default() += 1;
        } else if let Some(yes) = verdict {
            *self.verdicts.entry((name, yes)).or_default() += 1;
        }
    }

    /// Counts a limit that was reached.
    fn mark(&mut self, name: &'static str, reached: bool) {
        *self.limits.entry(name).or_default() += u64::from(reached);
    }

    fn count_limits(&mut self, call: &Call, reply: &Reply, state: &State) {
        match (call, reply) {
            (Call::Read { file, .. }, Reply::Read(reading)) if reading.number == 0 => {
                self.count_read(file, state);
                self.count_dropped(file, state);
                self.count_pinned(state);
            }
            (Call::Read { file, .. }, Reply::Read(reading)) => {
                self.count_refused(file, reading.number, reading.place);
                self.count_unpinned(file, reading.number, reading.place);
            }
            (Call::CheckRule, Reply::Checked(answer)) => self.count_checked(answer.number, state),
            (_, Reply::Written(answer, out)) => self.count_write(answer, out),
            (_, Reply::Built(building, _)) if matches!(building.number, 0 | 23) => {
                self.count_build(building.number, state);
            }
            (Call::Table { word }, Reply::Table(answer)) if answer.number == 0 => {
                let (by_hand, built) = (self.by_hand, state.built);
                self.mark("table: filled by hand", by_hand);
                self.mark("table: filled by hand, R = 4,096", by_hand && built.rows == 4_096);
                self.mark("table: filled by hand, cm = 30", by_hand && built.top == 30);
                self.mark("table: filled by hand, N = 65,536", by_hand && largest(&built));
                self.mark("table: 4,096 events", word.symbols.len() == 4_096);
                self.mark("table: stamp over 2^31", word.stamps.last().is_some_and(|&stamp| stamp > 1 << 31));
            }
            (Call::Exact { word, .. }, Reply::Exact(answer, _)) => {
                self.mark("exact: 4,096 events", answer.number == 0 && word.symbols.len() == 4_096);
                self.mark("exact: no room at the start", answer.number == 26 && answer.place == 0);
            }
            (Call::Branch { word }, Reply::Branch(answer, taken)) if answer.number == 0 => {
                let run = if answer.found { &taken[..word.symbols.len()] } else { &[] };
                let mut edges = run.iter().filter_map(|&edge| edges_in(state).nth(edge.into()));
                let pinned = edges.any(|edge| from_both_sides(&edge).is_some());
                self.mark("branch: a run by an edge pinned from both sides", pinned);
                self.mark("branch: 12 events", word.symbols.len() == 12);
                self.count_held(word, answer, state);
            }
            (_, Reply::Followed(_) | Reply::Moved(_)) => {
                let whole = reply.refusal() == Some((0, 0));
                self.mark("follow: event 4,096", whole && state.follower.count == 4_096);
            }
            _ => {}
        }
    }

    /// A verdict for which alone a call over a table is refused, or that was put right after that.
    fn count_verdict(&mut self, call: &str, number: u8, state: &State) {
        let over_a_table = ["check_table", "table", "follow", "follow_in_place"].contains(&call);
        let wrong = if over_a_table && number == 25 { only_wrong(state) } else { None };
        let righted = self.was_wrong && number == 0;
        self.was_wrong |= wrong.is_some();
        match call {
            "check_table" => {
                let Some(Wrong { row, stored, said }) = wrong else { return };
                self.mark("check_table: only a verdict differs, 0 for yes", (stored, said) == (0, 1));
                self.mark("check_table: only a verdict differs, 1 for no", (stored, said) == (1, 0));
                self.mark("check_table: only a verdict differs, 2", stored == 2);
                self.mark("check_table: only a verdict differs, over 2", stored > 2);
                self.mark("check_table: only a verdict differs, row 4,095", row == 4_095);
            }
            "table" => {
                self.mark("table: only a verdict differs", wrong.is_some());
                self.mark("table: a verdict put right again", righted);
            }
            "follow" => {
                self.mark("follow: only a verdict differs", wrong.is_some());
                self.mark("follow: a verdict put right again", righted);
            }
            "follow_in_place" => {
                self.mark("follow_in_place: only a verdict differs", wrong.is_some());
                self.mark("follow_in_place: a verdict put right again", righted);
            }
            _ => {}
        }
    }

    /// What held the rule back, or why nothing did.
    fn count_held(&mut self, word: &Word, answer: &BranchAnswer, state: &State) {
        let BranchAnswer { found, held, position, .. } = *answer;
        let Some((&symbol, &stamp)) = word.symbols.first().zip(word.stamps.first()) else {
            return self.mark("branch: no run, no events", !found);
        };
        let starts = state.head.starts;
        let lowest = lowest_edge(state, starts, symbol);
        let fails = lowest.as_ref().is_some_and(|(_, edge)| !edge.allows(&[stamp; 4], word.grain));
        let of_first = lowest_edge(state, starts & starts.wrapping_neg(), symbol);
        let numbers = [&lowest, &of_first].map(|edge| edge.as_ref().map(|(number, _)| number));
        self.mark("branch: accepted though the lowest edge's guard fails", found && fails);
        self.mark("branch: no run, no edge on the first symbol", !found && lowest.is_none());
        self.mark("branch: no run, the lowest edge's guard holds", !found && lowest.is_some() && !fails);
        self.mark("branch: held at member 0", held && position == 0);
        self.mark("branch: held at a later member", held && position > 0);
        self.mark("branch: held at member 7", held && position == 7);
        self.mark("branch: held, several initial locations", held && starts.count_ones() > 1);
        self.mark("branch: held, not by an edge of the first location", held && numbers[0] != numbers[1]);
    }

    fn count_read(&mut self, file: &[u8], state: &State) {
        let head = state.head;
        self.mark("read: L = 32", head.locations == 32);
        self.mark("read: S = 16", head.symbols == 16);
        self.mark("read: K = 4", head.clocks == 4);
        self.mark("read: no initial location", head.starts == 0);
        self.mark("read: no final location", head.ends == 0);
        self.mark("read: no edge", head.count == 0);
        self.mark("read: 256 edges", head.count == 256);
        let of_most = |edge: Edge| edge.kind == PLAIN && edge.guard.len() == MOST_ATOMS;
        self.mark("read: 8 atoms", edges_in(state).any(of_most));
        self.mark("read: longest file", file.len() == LONGEST_FILE);
        self.mark("read: longer edge table", state.edges.len() > EDGE_TABLE);
    }

    /// The ceiling of a file that was read, or that the file is what was written less one.
    fn count_dropped(&mut self, file: &[u8], state: &State) {
        let Some(&(_, ceiling)) = ceilings(file).first() else {
            let again = self.written_as.take().is_some_and(|written| written == file);
            return self.mark("read: again what was written less a ceiling", again);
        };
        let (locations, clocks) = (state.head.locations as u16, state.head.clocks as u16);
        let by_ceiling = code_count(locations, clocks, ceiling.max(top_in(state)));
        self.mark("read: a ceiling, dropped", true);
        self.mark("read: ceiling 0", ceiling == 0);
        self.mark("read: ceiling 30", ceiling == MOST_CONSTANT);
        self.mark("read: accepted though by its ceiling N would be over 65,536", by_ceiling > 65_536);
        self.written_as = Some(less_ceiling(file));
    }

    /// A ceiling at which a file was refused.
    fn count_refused(&mut self, file: &[u8], number: u8, place: usize) {
        self.written_as = None;
        let found = ceilings(file);
        let Some(&(_, ceiling)) = found.iter().find(|(start, _)| *start == place) else {
            return;
        };
        let second = found.iter().any(|(start, _)| start + CEILING_BYTES == place);
        self.mark("read: ceiling 31 refused", number == 6 && ceiling == MOST_CONSTANT + 1);
        self.mark("read: second ceiling refused", number == 3 && second);
        self.mark("read: a ceiling after an edge refused", number == 3 && !second && place > 0);
    }

    /// How the resets of a rule that was read are pinned from both sides.
    fn count_pinned(&mut self, state: &State) {
        let pinned: Vec<Sides> = edges_in(state).filter_map(|edge| from_both_sides(&edge)).collect();
        let (first, apart) = (pinned.iter().any(|pin| pin.at_most_first), pinned.iter().any(|pin| pin.apart));
        self.mark("read: pinned from both sides", !pinned.is_empty());
        self.mark("read: pinned from both sides, at most first", first);
        self.mark("read: pinned from both sides, other members between", apart);
    }

    /// A wrong partner for which a file was refused.
    fn count_unpinned(&mut self, file: &[u8], number: u8, place: usize) {
        let Some(edge) = edge_at(file, place).filter(|_| number == 7) else { return };
        self.mark("read: refused for the partner's clock", lacks_partner(&edge, WrongIn::Clock));
        self.mark("read: refused for the partner's constant", lacks_partner(&edge, WrongIn::Constant));
        self.mark("read: refused for the partner's relation", lacks_partner(&edge, WrongIn::Relation));
    }

    /// Resets pinned from both sides in a rule that was checked, or a wrong partner for which alone it was refused.
    fn count_checked(&mut self, number: u8, state: &State) {
        let pinned = number == 0 && edges_in(state).any(|edge| from_both_sides(&edge).is_some());
        let only = if number == 21 { only_unpinned(state) } else { None };
        let lacks = |wrong| only.as_ref().is_some_and(|edge| lacks_partner(edge, wrong));
        let [clock, constant, relation] = [WrongIn::Clock, WrongIn::Constant, WrongIn::Relation].map(lacks);
        self.mark("check_rule: pinned from both sides", pinned);
        self.mark("check_rule: refused for the partner's clock alone", clock);
        self.mark("check_rule: refused for the partner's constant alone", constant);
        self.mark("check_rule: refused for the partner's relation alone", relation);
    }

    fn count_write(&mut self, answer: &Answer, out: &[u8]) {
        let fits = answer.number == 0 && answer.value == out.len();
        let file = self.written_as.as_deref().unwrap_or_default();
        let (less, short) = (fits && out == file, answer.number == 27 && out.len() + 1 == file.len());
        self.mark("write: just fits", fits);
        self.mark("write: less a ceiling, just fits", less);
        self.mark("write: less a ceiling, one byte short", short);
    }

    fn count_build(&mut self, number: u8, state: &State) {
        let built = state.built;
        let rows = state.rows.len() / ROW_NUMBERS;
        let rows_of_cells = state.cells.len() / row_cells(state);
        if number == 23 {
            let one_less = self.row_numbers == Some(state.rows.len() + 1) && rows < rows_of_cells;
            self.mark("build: one row number less than 3 R", one_less);
            self.mark("build: more than 4,096 rows", rows > 4_096 && rows_of_cells > 4_096);
            self.mark("build: row table full", rows < rows_of_cells);
            self.mark("build: cell table full", rows_of_cells < rows);
        } else if number == 0 {
            let total = state.pool.len() == built.total as usize;
            let rows_fit = rows == built.rows as usize && rows_of_cells == rows;
            self.row_numbers = Some(ROW_NUMBERS * built.rows as usize);
            self.mark("build: just 3 R row numbers", self.row_numbers == Some(state.rows.len()));
            self.mark("build: cm = 30", built.top == 30);
            self.mark("build: N = 65,536", largest(&built));
            self.mark("build: R = 4,096", built.rows == 4_096);
            self.mark("build: just fits", rows_fit && total);
        }
    }

    /// What has not come up.
    pub fn missing(&self) -> Vec<String> {
        let answers = self.answers.iter().filter(|(_, &count)| count == 0);
        let verdicts = self.verdicts.iter().filter(|(_, &count)| count == 0);
        let limits = self.limits.iter().filter(|(_, &count)| count == 0);
        let mut missing: Vec<String> =
            answers.map(|((name, number), _)| format!("{name} {number}")).collect();
        missing.extend(verdicts.map(|((name, yes), _)| format!("{name} {}", yes_or_no(*yes))));
        missing.extend(limits.map(|(name, _)| name.to_string()));
        missing
    }
}

/// The names that came up.
pub fn those<const M: usize>(names: [(&'static str, bool); M]) -> Vec<&'static str> {
    names.into_iter().filter_map(|(name, came_up)| came_up.then_some(name)).collect()
}

/// The lowest edge that leaves one of these locations on this symbol, with its number.
fn lowest_edge(state: &State, locations: u32, symbol: u16) -> Option<(usize, Edge)> {
    edges_in(state).enumerate().find(|(_, edge)| locations >> edge.source & 1 == 1 && edge.symbol == symbol)
}

/// Whether N is 65,536.
fn largest(built: &Built) -> bool {
    built.locations * (built.top + 2).pow(built.clocks) == 65_536
}

/// S · W of the rule in the state.
fn row_cells(state: &State) -> usize {
    (state.head.symbols * (2 * u32::from(top_in(state)) + 2)).max(1) as usize
}

fn yes_or_no(yes: bool) -> &'static str {
    if yes {
        "yes"
    } else {
        "no"
    }
}

impl fmt::Display for Cover {
    fn fmt(&self, f: &mut fmt::Formatter) -> fmt::Result {
        for (name, _) in REFUSALS {
            write!(f, "{name:>16}")?;
            for ((_, yes), count) in self.verdicts.range((name, false)..=(name, true)) {
                write!(f, "  {} {count}", yes_or_no(*yes))?;
            }
            for ((_, number), count) in self.answers.range((name, 0)..=(name, u8::MAX)) {
                write!(f, "  {number}:{count}")?;
            }
            writeln!(f)?;
        }
        for (name, count) in &self.limits {
            writeln!(f, "{count:>16}  {name}")?;
        }
        Ok(())
    }
}
