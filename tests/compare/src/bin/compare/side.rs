//! Library and reference side by side.

use crate::cover::Cover;
use protocol::{Call, Engine, Library, Machine, Reference, Reply};

/// Where the two differ.
pub struct Difference {
    /// The commands up to the one that shows it.
    pub script: Vec<Call>,
    /// What each answered.
    pub library: String,
    pub reference: String,
    /// What is wrong, if it is more than that they differ.
    pub fault: Option<&'static str>,
}

const PAST: &str = "The library wrote past the end of a lent buffer.";
const WRONG_WORD: &str = "A word shown is not one that only the first table accepts.";

/// Runs commands on both and compares every part of every answer, save for words that are free, and every buffer. Words
/// shown are run on both tables.
pub fn run(calls: &[Call], cover: &mut Cover, trace: bool) -> Result<(), Box<Difference>> {
    let (mut library, mut reference) = (Machine::<Library>::new(), Machine::<Reference>::new());
    for (index, call) in calls.iter().enumerate() {
        if trace {
            println!("{call}");
        }
        let (ours, theirs) = (library.run(call), reference.run(call));
        let same = ours == theirs
            && library.state() == reference.state()
            && library.slots() == reference.slots()
            && library.batch() == reference.batch();
        let intact = ours.intact() && library.intact();
        let rightly = library.shows_rightly(call, &ours) && reference.shows_rightly(call, &theirs);
        if !same || !intact || !rightly {
            let shown = [views(&library, call, &ours), views(&reference, call, &theirs)];
            let [library, reference] = first_unlike(shown);
            let script = calls[..=index].to_vec();
            let fault = (!intact).then_some(PAST).or((!rightly).then_some(WRONG_WORD));
            return Err(Box::new(Difference { script, library, reference, fault }));
        }
        cover.count(call, &ours, &library);
    }
    Ok(())
}

/// An answer as the result line, with the state, and with every part.
fn views<E: Engine>(machine: &Machine<E>, call: &Call, reply: &Reply) -> [String; 3] {
    let line = machine.line(call, reply);
    let with_state = format!("{line}, state {}", machine.state().text());
    [line, with_state, format!("{reply:?}")]
}

/// The first view in which the two differ.
fn first_unlike(views: [[String; 3]; 2]) -> [String; 2] {
    let at = (0..3).find(|&at| views[0][at] != views[1][at]).unwrap_or(0);
    views.map(|view| view[at].clone())
}

/// The same difference, or another, from fewer commands: each is left out that is not needed.
pub fn shortened(difference: Box<Difference>) -> Box<Difference> {
    let mut shortest = difference;
    let mut index = shortest.script.len();
    while index > 0 {
        index -= 1;
        let mut fewer = shortest.script.clone();
        if fewer.len() < 2 || index >= fewer.len() {
            continue;
        }
        fewer.remove(index);
        if let Err(difference) = run(&fewer, &mut Cover::new(), false) {
            shortest = difference;
        }
    }
    shortest
}
