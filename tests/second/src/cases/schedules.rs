//! Schedules: mostly acceptable steps, found by playing them, and an end with a chosen refusal.

use super::plans::Draft;
use crate::node::{Node, Op, Signal, Stage, PROCESSES};
use crate::plan;
use crate::random::Random;
use crate::step::{self, Search, Step};
use crate::steps::LINE_LIMIT;

/// The refusal with which a schedule tries to end.
#[derive(Clone, Copy, Debug, PartialEq, Eq)]
pub enum Goal {
    Whole,
    BadNumber,
    OwnerUnborn,
    RunOfGone,
    NoneInFlight,
    MailboxFull,
    MailboxEmpty,
    NoFit,
    PairFull,
    NotUnborn,
    NoTimeout(Obstacle),
}

/// What stands against a timeout of a process that is not unborn.
#[derive(Clone, Copy, Debug, PartialEq, Eq)]
pub enum Obstacle {
    Closing,
    Gone,
    EndOfCode,
    OtherOp,
    NoAfter,
    Message,
}

const GOALS: [(Goal, usize); 16] = [
    (Goal::Whole, 31),
    (Goal::BadNumber, 5),
    (Goal::OwnerUnborn, 5),
    (Goal::RunOfGone, 6),
    (Goal::NoneInFlight, 5),
    (Goal::MailboxFull, 12),
    (Goal::MailboxEmpty, 2),
    (Goal::NoFit, 5),
    (Goal::PairFull, 21),
    (Goal::NotUnborn, 8),
    (Goal::NoTimeout(Obstacle::Closing), 3),
    (Goal::NoTimeout(Obstacle::Gone), 1),
    (Goal::NoTimeout(Obstacle::EndOfCode), 3),
    (Goal::NoTimeout(Obstacle::OtherOp), 1),
    (Goal::NoTimeout(Obstacle::NoAfter), 3),
    (Goal::NoTimeout(Obstacle::Message), 5),
];

pub fn any_goal(random: &mut Random) -> Goal {
    let weights = GOALS.map(|(_, weight)| weight);
    GOALS[random.weighted(&weights)].0
}

impl Goal {
    /// The refusal's number; 0 for none.
    pub fn number(self) -> u8 {
        match self {
            Goal::Whole => 0,
            Goal::BadNumber => step::BAD_NUMBER,
            Goal::OwnerUnborn => step::OWNER_UNBORN,
            Goal::RunOfGone => step::RUN_OF_GONE,
            Goal::NoneInFlight => step::NONE_IN_FLIGHT,
            Goal::MailboxFull => step::MAILBOX_FULL,
            Goal::MailboxEmpty => step::MAILBOX_EMPTY,
            Goal::NoFit => step::NO_FIT,
            Goal::PairFull => step::PAIR_FULL,
            Goal::NotUnborn => step::NOT_UNBORN,
            Goal::NoTimeout(_) => step::NO_TIMEOUT,
        }
    }

    /// How many steps of 100 are arrivals, where something can arrive.
    fn arrivals(self, random: &mut Random) -> usize {
        match self {
            Goal::MailboxFull => 60,
            Goal::PairFull => 12,
            _ => *random.pick(&[25, 45, 65]),
        }
    }

    /// How many steps of 100 are timeouts, where some process waits.
    fn timeouts(self, random: &mut Random) -> usize {
        match self {
            Goal::MailboxFull | Goal::PairFull => *random.pick(&[0, 3]),
            Goal::NoTimeout(_) => 15,
            _ => *random.pick(&[0, 5, 15, 40]),
        }
    }
}

/// The node that a draft's plan gives.
pub fn node_of(draft: &Draft) -> Node {
    match plan::load(&draft.text()) {
        Ok(node) => node,
        Err(refused) => panic!("a drafted plan is refused with {refused:?}: {draft:?}"),
    }
}

/// A schedule for a plan. Its last played step may be refused; unplayed steps may follow.
pub fn schedule(random: &mut Random, draft: &Draft, goal: Goal) -> Vec<Step> {
    let mut node = node_of(draft);
    let length = length(random, goal);
    if random.chance(3) {
        return (0..length.min(40)).map(|_| blind_step(random)).collect();
    }
    let mut schedule = Vec::new();
    let refused = extend(random, &mut node, goal, length, &mut schedule);
    let last = match refused {
        Some(step) => Some(step),
        None => step_for(random, &node, goal),
    };
    if let Some(step) = last {
        schedule.push(step);
        for _ in 0..random.below(4) {
            schedule.push(blind_step(random));
        }
    }
    if schedule.is_empty() && length > 0 {
        // Nothing is acceptable at the start.
        schedule.push(some_run(random, &node, None).unwrap_or(Step::Run(1)));
    }
    schedule.truncate(LINE_LIMIT);
    schedule
}

/// A schedule of at most 30 steps, mostly accepted.
pub fn short_schedule(random: &mut Random, draft: &Draft) -> Vec<Step> {
    let mut node = node_of(draft);
    let length = random.between(1, 30);
    let mut schedule = Vec::new();
    extend(random, &mut node, Goal::Whole, length, &mut schedule);
    schedule
}

/// Plays up to `length` accepted steps on the node; the answer is these steps.
pub fn accepted_steps(random: &mut Random, node: &mut Node, length: usize) -> Vec<Step> {
    let mut schedule = Vec::new();
    extend(random, node, Goal::Whole, length, &mut schedule);
    schedule
}

fn length(random: &mut Random, goal: Goal) -> usize {
    match goal {
        Goal::MailboxFull => return random.between(100, 400),
        Goal::PairFull
        | Goal::NotUnborn
        | Goal::MailboxEmpty
        | Goal::NoFit
        | Goal::NoTimeout(_) => return random.between(20, 150),
        _ => {}
    }
    match random.below(100) {
        0..=3 => random.below(3),
        4..=49 => random.between(3, 60),
        50..=86 => random.between(60, 300),
        87..=98 => random.between(300, 800),
        _ => LINE_LIMIT,
    }
}

/// How many refused tries in a row say that little is left to do.
const PATIENCE: usize = 40;

/// Adds accepted steps, playing each on the node. The answer is a step that the node refused with
/// the goal's number, if one was met; it is not added.
fn extend(
    random: &mut Random,
    node: &mut Node,
    goal: Goal,
    length: usize,
    schedule: &mut Vec<Step>,
) -> Option<Step> {
    let likely = Likely::new(random, node, goal);
    // A goal met at once would leave all schedules short.
    let earliest = random.below(length / 2 + 1);
    let mut refused = 0;
    let mut passed_over = None;
    while schedule.len() < length && refused < PATIENCE {
        let Some(step) = likely.step(random, node) else {
            break;
        };
        match step::take(node, step) {
            Ok(_) => {
                schedule.push(step);
                refused = 0;
            }
            Err(number)
                if number == goal.number()
                    && schedule.len() >= earliest
                    && !is_common(random, node, step, number) =>
            {
                return Some(step);
            }
            Err(number) => {
                refused += 1;
                if number == goal.number() {
                    passed_over = Some(step);
                }
            }
        }
    }
    // Steps may have been accepted since; then the step is accepted or refused as it comes.
    passed_over
}

/// Whether a refused step is of the commoner sort of its number, of which most are passed over: a
/// msg at a full mailbox, a send or an exit to a full pair, the end of a process to a full pair, a
/// spawn of a live process.
fn is_common(random: &mut Random, node: &Node, step: Step, number: u8) -> bool {
    let common = match step {
        Step::Arrive { to, from } => {
            let first = node.flight(from, to).first();
            number == step::MAILBOX_FULL && matches!(first, Some(Signal::Msg(_)))
        }
        Step::Run(process) => is_common_run(node, process),
        Step::Timeout(_) => false,
    };
    common && random.chance(92)
}

fn is_common_run(node: &Node, process: u8) -> bool {
    let stage = node.stage(process);
    if !matches!(stage, Stage::Live(_)) {
        return matches!(stage, Stage::Closing(_));
    }
    match node.current_op(process) {
        Some(Op::Send(..) | Op::Exit(..)) => true,
        Some(Op::Spawn {
            process: spawned, ..
        }) => matches!(node.stage(spawned), Stage::Live(_)),
        _ => false,
    }
}

/// Always for a full mailbox, and at times else: a live process that seldom runs, so that its
/// messages stay.
fn quiet_process(random: &mut Random, node: &Node, goal: Goal) -> Option<u8> {
    let live: Vec<u8> = (1..=PROCESSES)
        .filter(|&process| matches!(node.stage(process), Stage::Live(_)))
        .collect();
    let wanted = goal == Goal::MailboxFull || random.chance(35);
    if !wanted || live.is_empty() {
        return None;
    }
    Some(*random.pick(&live))
}

/// How the steps of one schedule are drawn.
struct Likely {
    goal: Goal,
    /// How many steps of 100 are of each kind, where there is one; the others are runs.
    timeouts: usize,
    arrivals: usize,
    /// A process that seldom runs.
    quiet: Option<u8>,
}

impl Likely {
    fn new(random: &mut Random, node: &Node, goal: Goal) -> Likely {
        Likely {
            goal,
            timeouts: goal.timeouts(random),
            arrivals: goal.arrivals(random),
            quiet: quiet_process(random, node, goal),
        }
    }

    /// A step that is not refused by 20 to 23, if there is one.
    fn step(&self, random: &mut Random, node: &Node) -> Option<Step> {
        let mut step = None;
        if random.chance(self.timeouts) {
            step = some_timeout(random, node, self.goal);
        }
        if step.is_none() && random.chance(self.arrivals) {
            step = some_arrival(random, node, self.goal);
        }
        step.or_else(|| some_run(random, node, self.quiet))
    }
}

/// A timeout of a process at a recv with `after`. Where the goal is 28 it is half the time one that
/// meets the goal's obstacle.
fn some_timeout(random: &mut Random, node: &Node, goal: Goal) -> Option<Step> {
    match goal {
        Goal::NoTimeout(wanted) if random.chance(50) => {
            return refused_timeout(random, node, wanted);
        }
        _ => {}
    }
    let waits = |process: u8| {
        let awaited = step::awaited(node, process);
        awaited.is_some_and(|awaited| awaited.after.is_some())
    };
    let waiting: Vec<u8> = (1..=PROCESSES).filter(|&process| waits(process)).collect();
    (!waiting.is_empty()).then(|| Step::Timeout(*random.pick(&waiting)))
}

fn obstacle(node: &Node, process: u8) -> Option<Obstacle> {
    match node.stage(process) {
        Stage::Unborn => return None,
        Stage::Closing(_) => return Some(Obstacle::Closing),
        Stage::Gone => return Some(Obstacle::Gone),
        Stage::Live(_) => {}
    }
    let Some(awaited) = step::awaited(node, process) else {
        return Some(match node.current_op(process) {
            None => Obstacle::EndOfCode,
            Some(_) => Obstacle::OtherOp,
        });
    };
    if awaited.after.is_none() {
        return Some(Obstacle::NoAfter);
    }
    matches!(awaited.search, Search::Fit(..)).then_some(Obstacle::Message)
}

/// A timeout that the node refuses with 28 because of this obstacle, if there is one.
fn refused_timeout(random: &mut Random, node: &Node, wanted: Obstacle) -> Option<Step> {
    let stopped: Vec<u8> = (1..=PROCESSES)
        .filter(|&process| obstacle(node, process) == Some(wanted))
        .collect();
    (!stopped.is_empty()).then(|| Step::Timeout(*random.pick(&stopped)))
}

/// An arrival at a process that is not unborn, mostly at a live one. For a full pair ended ones are
/// as good, and pairs that are full mostly stay so.
fn some_arrival(random: &mut Random, node: &Node, goal: Goal) -> Option<Step> {
    let (at_live, spared) = match goal {
        Goal::PairFull => (30, 97),
        _ => (80, 0),
    };
    let (only_live, spare_full) = (random.chance(at_live), random.chance(spared));
    let at = |to: u8| match node.stage(to) {
        Stage::Unborn => false,
        Stage::Live(_) => true,
        Stage::Closing(_) | Stage::Gone => !only_live,
    };
    let ready = |&(from, to, _): &(u8, u8, &[Signal])| {
        at(to) && !(spare_full && node.pair_is_full(from, to))
    };
    let count = node.flights().filter(ready).count();
    if count == 0 {
        return None;
    }
    let chosen = random.below(count);
    let (from, to, _) = node.flights().filter(ready).nth(chosen)?;
    Some(Step::Arrive { to, from })
}

fn some_run(random: &mut Random, node: &Node, quiet: Option<u8>) -> Option<Step> {
    let runs = |process: u8| matches!(node.stage(process), Stage::Live(_) | Stage::Closing(_));
    let ready: Vec<u8> = (1..=PROCESSES).filter(|&process| runs(process)).collect();
    if ready.is_empty() {
        return None;
    }
    let process = *random.pick(&ready);
    if Some(process) == quiet && random.chance(85) {
        return Some(Step::Run(*random.pick(&ready)));
    }
    Some(Step::Run(process))
}

/// Any step, mostly with numbers 1 to 16.
pub fn blind_step(random: &mut Random) -> Step {
    let mut number = || match random.below(20) {
        0 => random.below(256) as u8,
        1 => 0,
        2 => 17,
        _ => random.between(1, 16) as u8,
    };
    let (to, from) = (number(), number());
    match random.below(5) {
        0..=1 => Step::Run(to),
        2..=3 => Step::Arrive { to, from },
        _ => Step::Timeout(to),
    }
}

/// A step that the node refuses with the goal's number, if it is one of 20 to 23 or 28 and there is
/// one.
fn step_for(random: &mut Random, node: &Node, goal: Goal) -> Option<Step> {
    match goal {
        Goal::BadNumber => Some(step_with_bad_number(random)),
        Goal::OwnerUnborn => step_of_unborn(random, node),
        Goal::RunOfGone => {
            let gone = |process: &u8| *node.stage(*process) == Stage::Gone;
            let gone: Vec<u8> = (1..=PROCESSES).filter(gone).collect();
            (!gone.is_empty()).then(|| Step::Run(*random.pick(&gone)))
        }
        Goal::NoneInFlight => {
            let to = some_process(random, node, |stage| *stage != Stage::Unborn)?;
            let from = random.between(1, 16) as u8;
            node.flight(from, to)
                .is_empty()
                .then_some(Step::Arrive { to, from })
        }
        Goal::NoTimeout(wanted) => refused_timeout(random, node, wanted),
        _ => None,
    }
}

fn some_process(random: &mut Random, node: &Node, wanted: fn(&Stage) -> bool) -> Option<u8> {
    let fit: Vec<u8> = (1..=PROCESSES)
        .filter(|&process| wanted(node.stage(process)))
        .collect();
    (!fit.is_empty()).then(|| *random.pick(&fit))
}

fn step_with_bad_number(random: &mut Random) -> Step {
    let bad = match random.below(4) {
        0 => 0,
        1 => 17,
        2 => 255,
        _ => random.between(17, 255) as u8,
    };
    let good = random.between(1, 16) as u8;
    match random.below(5) {
        0 => Step::Run(bad),
        1 => Step::Arrive {
            to: bad,
            from: good,
        },
        2 => Step::Arrive {
            to: good,
            from: bad,
        },
        3 => Step::Arrive { to: bad, from: bad },
        _ => Step::Timeout(bad),
    }
}

/// A step of an unborn process, mostly one for which a signal waits.
fn step_of_unborn(random: &mut Random, node: &Node) -> Option<Step> {
    let waiting: Vec<(u8, u8)> = node
        .flights()
        .filter(|&(_, to, _)| *node.stage(to) == Stage::Unborn)
        .map(|(from, to, _)| (from, to))
        .collect();
    if !waiting.is_empty() && random.chance(60) {
        let &(from, to) = random.pick(&waiting);
        return Some(Step::Arrive { to, from });
    }
    let owner = some_process(random, node, |stage| *stage == Stage::Unborn)?;
    Some(match random.below(5) {
        0..=1 => Step::Run(owner),
        2..=3 => Step::Arrive {
            to: owner,
            from: random.between(1, 16) as u8,
        },
        _ => Step::Timeout(owner),
    })
}
