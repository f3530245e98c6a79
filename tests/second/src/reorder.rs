//! The check of demand 3: a reordering of accepted steps that keeps each owner's order gives an
//! equal node; "Two lists compared for their end now compare these sets [of watching] too"; "Demand 3
//! holds for lists with timeouts too, which count as their owner's steps".

use crate::cases::{plans, schedules};
use crate::listing;
use crate::node::{Node, PROCESSES};
use crate::random::Random;
use crate::step::{self, Step};
use std::collections::VecDeque;

/// What one check did.
#[derive(Clone, Copy, Debug, Default)]
pub struct Report {
    pub steps: usize,
    /// How many of the steps are timeouts.
    pub timeouts: usize,
    /// Whether the second list differs from the first.
    pub differs: bool,
    /// Steps that were refused and skipped while the second list was played.
    pub skipped: usize,
}

/// Check number k of a seed. An error tells what went wrong.
pub fn check(seed: u64, k: u64) -> Result<Report, String> {
    let mut random = Random::new(seed, k);
    let theme = plans::any_theme(&mut random);
    let draft = plans::draft(&mut random, theme);
    let start = schedules::node_of(&draft);
    let mut first = start.clone();
    let length = random.between(5, 250);
    let steps = schedules::accepted_steps(&mut random, &mut first, length);
    let (second, order, skipped) = play_reordered(&mut random, start, &steps)?;
    compare(&first, &second)?;
    Ok(Report {
        steps: steps.len(),
        timeouts: steps.iter().filter(|step| is_timeout(step)).count(),
        differs: order != steps,
        skipped,
    })
}

fn is_timeout(step: &Step) -> bool {
    matches!(step, Step::Timeout(_))
}

/// Equal nodes, and equal listings, which show all of a node but its behaviours.
fn compare(first: &Node, second: &Node) -> Result<(), String> {
    if first != second {
        return Err(format!("nodes differ:\n{first:?}\n{second:?}"));
    }
    if listing::text(first) != listing::text(second) {
        return Err("the nodes are equal and their listings differ".to_string());
    }
    Ok(())
}

/// How the next owner is chosen.
#[derive(Clone, Copy)]
enum Order {
    Random,
    LowestFirst,
    HighestFirst,
    /// Stay with one owner as long as its steps are accepted.
    Runs,
}

/// The steps of each owner that are not yet played, in their order.
struct Queues {
    queues: Vec<VecDeque<Step>>,
    left: usize,
}

impl Queues {
    fn new(steps: &[Step]) -> Queues {
        let mut queues = vec![VecDeque::new(); usize::from(PROCESSES) + 1];
        for &step in steps {
            queues[usize::from(step.owner())].push_back(step);
        }
        Queues {
            queues,
            left: steps.len(),
        }
    }

    fn owners(&self) -> Vec<usize> {
        let owners = 0..self.queues.len();
        owners.filter(|&o| !self.queues[o].is_empty()).collect()
    }
}

/// Plays the steps in another order of the owners. The answer is the node, the order played and
/// the count of refused steps.
fn play_reordered(
    random: &mut Random,
    mut node: Node,
    steps: &[Step],
) -> Result<(Node, Vec<Step>, usize), String> {
    let order = *random.pick(&[
        Order::Random,
        Order::LowestFirst,
        Order::HighestFirst,
        Order::Runs,
    ]);
    let mut queues = Queues::new(steps);
    let mut played: Vec<Step> = Vec::new();
    let mut skipped = 0;
    while queues.left > 0 {
        if random.chance(6) {
            skipped += try_refused_step(random, &mut node)?;
        }
        let current = played.last().map_or(0, |step| usize::from(step.owner()));
        let owners = arrange(random, order, queues.owners(), current);
        let (step, refused) = play_first_accepted(&mut node, &mut queues, &owners);
        skipped += refused;
        played.push(step.ok_or_else(|| format!("no next step is accepted after {played:?}"))?);
    }
    Ok((node, played, skipped))
}

/// Tries the next step of each owner and plays the first that is accepted. The answer is this step
/// and the count of refused ones.
fn play_first_accepted(
    node: &mut Node,
    queues: &mut Queues,
    owners: &[usize],
) -> (Option<Step>, usize) {
    for (refused, &owner) in owners.iter().enumerate() {
        let step = queues.queues[owner][0];
        if step::take(node, step).is_ok() {
            queues.queues[owner].pop_front();
            queues.left -= 1;
            return (Some(step), refused);
        }
    }
    (None, owners.len())
}

/// The owners in the order in which their next steps are tried.
fn arrange(
    random: &mut Random,
    order: Order,
    mut owners: Vec<usize>,
    current: usize,
) -> Vec<usize> {
    match order {
        Order::LowestFirst => {}
        Order::HighestFirst => owners.reverse(),
        Order::Random | Order::Runs => {
            for last in (1..owners.len()).rev() {
                owners.swap(last, random.below(last + 1));
            }
        }
    }
    if let Order::Runs = order {
        if let Some(index) = owners.iter().position(|&owner| owner == current) {
            owners.swap(0, index);
        }
    }
    owners
}

/// Tries some step that may be refused. "A refused step leaves the node unchanged"; an accepted
/// one is undone. The answer is the count of refused steps, 0 or 1.
fn try_refused_step(random: &mut Random, node: &mut Node) -> Result<usize, String> {
    let before = node.clone();
    let step = schedules::blind_step(random);
    if step::take(node, step).is_ok() {
        *node = before;
        return Ok(0);
    }
    if *node != before {
        return Err(format!("the refused step {step:?} changed the node"));
    }
    Ok(1)
}
