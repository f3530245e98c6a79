//! The first step on offer: request M-105 of document 02.

use crate::node::{Node, PROCESSES};
use crate::step::{self, Step};
use crate::text::Refused;
use crate::{plan, play, steps};

/// The kinds of a step in the number for C.
pub const RUN: usize = 0;
pub const ARRIVE: usize = 1;
pub const TIMEOUT: usize = 2;

/// The first acceptable step of the node that two texts give: the plan as it is when the schedule has
/// been "played until one is refused". A text that is refused gives no node to ask.
pub fn suggest(plan: &[u8], steps: &[u8]) -> Result<Option<Step>, Refused> {
    let mut node = plan::load(plan)?;
    let schedule = steps::read(steps)?;
    play(&mut node, &schedule, None);
    Ok(first_acceptable(&node))
}

/// "Suggest must give the first acceptable step"; "None is still said only if every step would be
/// refused." One copy is enough for all tries, because "A refused step leaves the node unchanged" and
/// the first that is accepted is the last one tried.
pub fn first_acceptable(node: &Node) -> Option<Step> {
    let mut copy = node.clone();
    in_order().find(|&step| step::take(&mut copy, step).is_ok())
}

/// Every step that 20 does not refuse: "lowest owner, for one owner run, then timeout, then arrivals
/// by rising sender".
pub fn in_order() -> impl Iterator<Item = Step> {
    (1..=PROCESSES).flat_map(|owner| {
        let arrivals = (1..=PROCESSES).map(move |from| Step::Arrive { to: owner, from });
        [Step::Run(owner), Step::Timeout(owner)]
            .into_iter()
            .chain(arrivals)
    })
}

/// What the library's call for C answers: kind * 65536 + owner * 256 + from, where a run and a timeout
/// have no sender and from is 0; 0 for no step; the largest number where a text is refused.
pub fn number(suggested: Result<Option<Step>, Refused>) -> usize {
    let (kind, owner, from) = match suggested {
        Err(_) => return usize::MAX,
        Ok(None) => return 0,
        Ok(Some(Step::Run(owner))) => (RUN, owner, 0),
        Ok(Some(Step::Arrive { to, from })) => (ARRIVE, to, from),
        Ok(Some(Step::Timeout(owner))) => (TIMEOUT, owner, 0),
    };
    kind * 65_536 + usize::from(owner) * 256 + usize::from(from)
}
