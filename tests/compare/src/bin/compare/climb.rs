//! Edges that lead up to the highest code of a rule.

use crate::edges::{Edge, Member, AT_LEAST, AT_MOST, EQUAL, GREATER, PLAIN};
use crate::pins::pin;
use crate::random::Random;
use crate::rules::{some_ends, Rule};

/// Edges of a rule with this cm, the first from its initial location.
///
/// Step by step another clock is reset and pins the next step, so that the bases differ. The last step but one resets
/// some, and an edge beside it takes every base, above 0, to the highest location. The last step comes cm later, and an
/// edge beside it stays there with every base above cm: that is the highest code. With cm = 0 all bases stay 0.
pub fn climb(random: &mut Random, rule: &Rule, top: u16) -> Vec<Edge> {
    let (highest, any) = (rule.locations - 1, random.below(rule.locations.into()) as u16);
    let order = shuffled_clocks(random, rule.clocks);
    let least = top.min(1);
    let longest = random.pick(&[top, top / rule.clocks]).max(least);
    let seconds = |random: &mut Random| random.between(least.into(), longest.into()) as u16;
    let mut run = Run { top, location: random.pick(&[0, highest, any, any]), ages: vec![0; order.len()] };
    let mut edges = Vec::new();
    for pair in order.windows(2) {
        run.wait(seconds(random));
        edges.push(run.reset(random, rule, pair[0], 1 << pair[1]));
    }
    run.wait(seconds(random));
    let mut beside = run.clone();
    let several = random.below(1 << rule.clocks) as u16 | 1 << order[0];
    let reset = run.reset(random, rule, order[order.len() - 1], several);
    let keep = beside.keep(random, reset.symbol, highest);
    run.wait(top);
    beside.wait(top);
    let some = random.between(1, (1 << rule.clocks) - 1) as u16;
    let last = run.reset(random, rule, order[0], some);
    let above = beside.keep(random, last.symbol, highest);
    edges.extend([reset, keep, last, above]);
    edges
}

/// The clocks in any order.
fn shuffled_clocks(random: &mut Random, clocks: u16) -> Vec<u16> {
    let mut order: Vec<u16> = (0..clocks).collect();
    for left in (1..order.len()).rev() {
        order.swap(left, random.below(left + 1));
    }
    order
}

/// Where a run stands.
#[derive(Clone)]
struct Run {
    /// cm.
    top: u16,
    location: u16,
    /// The clocks' ages in seconds, cm + 1 for all above cm.
    ages: Vec<u16>,
}

impl Run {
    fn wait(&mut self, seconds: u16) {
        for age in &mut self.ages {
            *age = (*age + seconds).min(self.top + 1);
        }
    }

    /// Takes an edge that resets these clocks, pinned by a clock that is not above cm.
    fn reset(&mut self, random: &mut Random, rule: &Rule, clock: u16, mask: u16) -> Edge {
        let mut guard = self.guard(random);
        pin(random, &mut guard, clock, self.ages[usize::from(clock)]);
        let edge = Edge { source: self.location, mask, ..some_ends(random, rule, guard) };
        self.location = edge.target;
        for (clock, age) in self.ages.iter_mut().enumerate() {
            *age = if mask >> clock & 1 == 1 { 0 } else { *age };
        }
        edge
    }

    /// Takes an edge without resets.
    fn keep(&mut self, random: &mut Random, symbol: u16, target: u16) -> Edge {
        let guard = self.guard(random);
        let source = std::mem::replace(&mut self.location, target);
        Edge { kind: PLAIN, source, target, symbol, mask: 0, guard }
    }

    /// Atoms that hold now, at least one.
    fn guard(&self, random: &mut Random) -> Vec<Member> {
        let sure = random.below(self.ages.len());
        let ages = self.ages.iter().enumerate();
        let some = ages.filter(|(clock, _)| *clock == sure || random.chance(60)).collect::<Vec<_>>();
        some.into_iter().map(|(clock, &age)| self.atom(random, clock as u16, age)).collect()
    }

    fn atom(&self, random: &mut Random, clock: u16, age: u16) -> Member {
        if age > self.top {
            return Member::Atom([clock, GREATER, self.top]);
        }
        Member::Atom([clock, random.pick(&[EQUAL, EQUAL, EQUAL, AT_LEAST, AT_MOST]), age])
    }
}
