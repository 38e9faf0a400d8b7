//! What came up in the scenes of every size.

use crate::edges::Edge;
use crate::rules::{numbers_in, records_in};
use crate::sizes::{Size, MOST_CODES};
use alderskein::raw::Built;
use protocol::{Call, Reply, State};
use std::collections::BTreeSet;

/// How many sizes there are with N at most 65,536.
const SIZE_COUNT: usize = 2_736;

/// The counts, each of which must be above 0.
pub const COUNTS: [&str; 25] = [
    "every size: all 2,736 built",
    "every size: tables built",
    "every size: codes compared",
    "every size: N = 65,536",
    "every size: a code at the highest location, not 0",
    "every size: the highest code, N - 1",
    "every size: code 65,535",
    ABOVE_0[0],
    ABOVE_0[1],
    ABOVE_0[2],
    ABOVE_0[3],
    ABOVE_CM[0],
    ABOVE_CM[1],
    ABOVE_CM[2],
    ABOVE_CM[3],
    DIFFERENT[0],
    DIFFERENT[1],
    DIFFERENT[2],
    TOO_SHORT[0],
    TOO_SHORT[1],
    TOO_SHORT[2],
    "every size: 8 for one location more",
    "every size: 8 for cm one more",
    "every size: N = 65,536, 8 for one location more",
    "every size: N = 65,536, 8 for cm one more",
];

/// A code whose location, the highest, and bases are all above 0, by K.
const ABOVE_0: [&str; 4] = [
    "every size: K = 1, highest location and base above 0",
    "every size: K = 2, highest location and both bases above 0",
    "every size: K = 3, highest location and all bases above 0",
    "every size: K = 4, highest location and all bases above 0",
];

/// A code with the base of the highest clock above cm, by K.
const ABOVE_CM: [&str; 4] = [
    "every size: K = 1, clock 0 above cm",
    "every size: K = 2, clock 1 above cm",
    "every size: K = 3, clock 2 above cm",
    "every size: K = 4, clock 3 above cm",
];

/// A code whose bases are above 0 and all different, by K from 2.
const DIFFERENT: [&str; 3] = [
    "every size: K = 2, bases above 0 and different",
    "every size: K = 3, bases above 0 and all different",
    "every size: K = 4, bases above 0 and all different",
];

/// The builder's refusals for too little room, 22 to 24.
const TOO_SHORT: [&str; 3] = [
    "every size: scratch too short, 22",
    "every size: no room for a row, 23",
    "every size: pool too short, 24",
];

/// The sizes that were built.
#[derive(Default)]
pub struct SizeCounts {
    /// All since the last of them was reached.
    built: BTreeSet<Size>,
    /// The last one.
    last: Option<Size>,
}

impl SizeCounts {
    /// What a command with its reply and the state after it adds to the counts.
    pub fn seen(&mut self, call: &Call, reply: &Reply, state: &State) -> Vec<(&'static str, u64)> {
        match (call, reply) {
            (_, Reply::Built(building, _)) => match building.number {
                0 => self.seen_built(state),
                number @ 22..=24 => vec![(TOO_SHORT[usize::from(number) - 22], 1)],
                _ => Vec::new(),
            },
            (Call::Read { file, .. }, Reply::Read(reading)) if reading.number == 8 => self.seen_refused(file),
            _ => Vec::new(),
        }
    }

    fn seen_built(&mut self, state: &State) -> Vec<(&'static str, u64)> {
        let built = state.built;
        let [locations, clocks, top] = [built.locations, built.clocks, built.top].map(|size| size as u16);
        let size = Size { locations, clocks, top };
        self.last = Some(size);
        self.built.insert(size);
        let all = self.built.len() == SIZE_COUNT;
        if all {
            self.built.clear();
        }
        let pairs: Vec<Pair> =
            state.pool[..built.total as usize].iter().map(|&code| Pair::of(&built, code)).collect();
        let mut seen = vec![
            ("every size: all 2,736 built", u64::from(all)),
            ("every size: tables built", 1),
            ("every size: codes compared", pairs.len() as u64),
            ("every size: N = 65,536", u64::from(size.code_count() == MOST_CODES)),
        ];
        seen.extend(seen_in_codes(size, &pairs));
        seen
    }

    /// A file refused with 8, beside the rule built last.
    fn seen_refused(&self, file: &[u8]) -> Vec<(&'static str, u64)> {
        let Some((last, size)) = self.last.zip(size_in(file)) else { return Vec::new() };
        let [wider, higher] = last.next().map(|next| next == Some(size));
        let at_most = last.code_count() == MOST_CODES;
        vec![
            ("every size: 8 for one location more", wider.into()),
            ("every size: 8 for cm one more", higher.into()),
            ("every size: N = 65,536, 8 for one location more", (at_most && wider).into()),
            ("every size: N = 65,536, 8 for cm one more", (at_most && higher).into()),
        ]
    }
}

/// A location and the clocks' bases.
struct Pair {
    location: u32,
    bases: Vec<u32>,
}

impl Pair {
    /// The pair that a code of a built table stands for.
    fn of(built: &Built, code: u32) -> Self {
        let radix = built.top + 2;
        Pair {
            location: code / radix.pow(built.clocks),
            bases: (0..built.clocks).map(|clock| code / radix.pow(clock) % radix).collect(),
        }
    }
}

/// What the codes of a table of this size show.
fn seen_in_codes(size: Size, pairs: &[Pair]) -> Vec<(&'static str, u64)> {
    let (highest, above) = (u32::from(size.locations) - 1, u32::from(size.top) + 1);
    let clocks = usize::from(size.clocks);
    let at_highest: Vec<&Pair> = pairs.iter().filter(|pair| pair.location == highest).collect();
    let above_0 = at_highest.iter().any(|pair| !pair.bases.contains(&0));
    let above_cm = pairs.iter().any(|pair| pair.bases[clocks - 1] == above);
    let highest_code = at_highest.iter().any(|pair| pair.bases.iter().all(|&base| base == above));
    let mut seen = vec![
        ("every size: a code at the highest location, not 0", (highest > 0 && !at_highest.is_empty()).into()),
        ("every size: the highest code, N - 1", highest_code.into()),
        ("every size: code 65,535", (highest_code && size.code_count() == MOST_CODES).into()),
        (ABOVE_0[clocks - 1], (highest > 0 && above_0).into()),
        (ABOVE_CM[clocks - 1], above_cm.into()),
    ];
    if clocks > 1 {
        let different = pairs.iter().any(|pair| all_differ(&pair.bases));
        seen.push((DIFFERENT[clocks - 2], different.into()));
    }
    seen
}

/// Whether these are above 0 and all different.
fn all_differ(bases: &[u32]) -> bool {
    let different: BTreeSet<u32> = bases.iter().copied().filter(|&base| base > 0).collect();
    different.len() == bases.len()
}

/// L, K and cm as a file spells them.
pub fn size_in(file: &[u8]) -> Option<Size> {
    let records = records_in(file);
    let sizes = numbers_in(records.first()?.2);
    let edges = records.iter().filter_map(|(_, kind, body)| Edge::of_numbers(*kind, &numbers_in(body)));
    let top = edges.map(|edge| edge.top()).max().unwrap_or(0);
    Some(Size { locations: *sizes.first()?, clocks: *sizes.get(2)?, top })
}
