//! Mail that waits: a listener at a recv, often of eight clauses of two kinds, that seldom runs while
//! messages of all kinds join its mailbox.

use super::plans::Draft;
use super::schedules::{blind_step, node_of};
use crate::node::{Clause, Node, Op, Pattern, Stage, Value, MAILBOX_LIMIT, PROCESSES};
use crate::random::Random;
use crate::step::{self, Step};
use crate::steps::schedule_text;

/// The processes of a plan.
struct Cast {
    listener: u8,
    /// They send values, and notes if the listener traps exits, for ever.
    senders: [u8; 2],
    /// The listener watches them, so that their ends are downs.
    ending: Vec<u8>,
    /// Whether the listener traps exits.
    trap: bool,
    /// Whether the mailbox becomes full of values that have the kinds of eight exact clauses and fit
    /// none of them.
    in_vain: bool,
}

/// Case number k of a seed: plan text and steps text, the same on every call.
pub fn mail(seed: u64, k: u64) -> (Vec<u8>, Vec<u8>) {
    drawn(&mut Random::new(seed, k))
}

/// Such a case from a source of random numbers.
pub fn drawn(random: &mut Random) -> (Vec<u8>, Vec<u8>) {
    let cast = cast(random);
    let mut behaviours = vec![listener(random, &cast)];
    let mut starts = vec![(cast.listener, 1)];
    for process in cast.senders {
        behaviours.push(sender(random, &cast));
        starts.push((process, behaviours.len() as u8));
    }
    behaviours.push(vec![Op::Stop(0)]);
    for &process in &cast.ending {
        starts.push((process, behaviours.len() as u8));
    }
    starts.sort_unstable();
    let draft = Draft { behaviours, starts };
    let schedule = schedule(random, node_of(&draft), &cast);
    (draft.text(), schedule_text(&schedule))
}

fn cast(random: &mut Random) -> Cast {
    let mut rest: Vec<u8> = (1..=PROCESSES).collect();
    let mut draw = |random: &mut Random| rest.swap_remove(random.below(rest.len()));
    let listener = draw(random);
    let senders = [draw(random), draw(random)];
    let in_vain = random.chance(10);
    let ends = if in_vain { 0 } else { random.below(5) };
    Cast {
        listener,
        senders,
        ending: (0..ends).map(|_| draw(random)).collect(),
        trap: !in_vain && random.chance(85),
        in_vain,
    }
}

/// Watches those that end, then waits. A recv that is jumped over may stand before the one at which it
/// waits, and another one behind it.
fn listener(random: &mut Random, cast: &Cast) -> Vec<Op> {
    let mut ops = vec![Op::Trap(cast.trap)];
    for &process in &cast.ending {
        ops.push(Op::Set(3, Value::Pid(process)));
        ops.push(Op::Monitor(3));
    }
    if random.chance(40) {
        ops.push(Op::Jump(ops.len() + 3));
        let pattern = any_pattern(random);
        push_recv(&mut ops, &[pattern]);
    }
    let patterns = patterns(random, cast.in_vain);
    push_recv(&mut ops, &patterns);
    if random.chance(40) {
        ops.push(Op::After(ops.len() + 1));
    }
    if random.chance(40) {
        let patterns = [any_pattern(random), any_pattern(random)];
        push_recv(&mut ops, &patterns);
    }
    ops
}

/// A recv whose clauses go back to it.
fn push_recv(ops: &mut Vec<Op>, patterns: &[Pattern]) {
    let target = ops.len();
    ops.push(Op::Recv(patterns.len()));
    for &pattern in patterns {
        ops.push(Op::Clause(Clause {
            pattern,
            r: 1,
            s: 2,
            target,
        }));
    }
}

/// Numbers that many messages have, and numbers that few have and exact clauses want. A process that
/// traps does not survive an exit with a1, so 1 is not among them.
const COMMON: [u8; 4] = [2, 3, 4, 5];
const RARE: [u8; 4] = [6, 7, 8, 9];

/// The value of a kind, 0 to 2, that has this number.
fn value(kind: usize, number: u8) -> Value {
    match kind {
        0 => Value::Int(i32::from(number)),
        1 => Value::Atom(number),
        _ => Value::Pid(number),
    }
}

/// A clause of a kind, 0 to 4.
fn by_kind(kind: usize) -> Pattern {
    match kind {
        0 => Pattern::Int,
        1 => Pattern::Atom,
        2 => Pattern::Pid,
        3 => Pattern::Note,
        _ => Pattern::Down,
    }
}

fn any_pattern(random: &mut Random) -> Pattern {
    match random.below(6) {
        0 => Pattern::Any,
        kind => by_kind(kind - 1),
    }
}

/// Exact values of one kind or two; one clause may take all of a kind or any message.
fn patterns(random: &mut Random, in_vain: bool) -> Vec<Pattern> {
    let mut count = *random.pick(&[1, 2, 3, 4, 5, 6, 7, 8, 8, 8, 8, 8]);
    let mut kinds = [random.below(3), random.below(3)];
    if in_vain {
        (count, kinds) = (8, [0, 1]);
    }
    let mut patterns = Vec::new();
    for index in 0..count {
        // The first two are of both kinds.
        let kind = kinds.get(index).unwrap_or(random.pick(&kinds));
        patterns.push(Pattern::Exact(value(*kind, *random.pick(&RARE))));
    }
    if !in_vain && random.chance(50) {
        patterns[random.below(count)] = any_pattern(random);
    }
    patterns
}

/// Sends a row of messages over and over.
fn sender(random: &mut Random, cast: &Cast) -> Vec<Op> {
    let mut ops = vec![Op::Set(0, Value::Pid(cast.listener))];
    // At times all values are of one kind.
    let only = random.chance(50).then(|| random.below(3));
    for _ in 0..random.between(1, 10) {
        let mut kind = only.unwrap_or(random.below(3));
        let mut numbers = if random.chance(85) { COMMON } else { RARE };
        if cast.in_vain {
            (kind, numbers) = (random.below(2), COMMON);
        }
        ops.push(Op::Set(1, value(kind, *random.pick(&numbers))));
        ops.push(if cast.trap && random.chance(15) {
            Op::Exit(0, 1)
        } else {
            Op::Send(0, 1)
        });
    }
    ops.push(Op::Jump(1));
    ops
}

/// How many steps are tried at most.
const TRIES: usize = 400;

/// Accepted steps until the listener has as many messages as wanted; at times one that may be refused,
/// and others, behind them.
fn schedule(random: &mut Random, mut node: Node, cast: &Cast) -> Vec<Step> {
    let mut wanted = *random.pick(&[1, 2, 4, 8, 12, 16, 16, 16]);
    if cast.in_vain {
        wanted = MAILBOX_LIMIT;
    }
    let mut schedule = Vec::new();
    for _ in 0..TRIES {
        match node.stage(cast.listener) {
            Stage::Live(live) if live.mailbox.len() < wanted => {}
            _ => break,
        }
        let step = next_step(random, &node, cast);
        if step::take(&mut node, step).is_ok() {
            schedule.push(step);
        }
    }
    if random.chance(30) {
        schedule.extend((0..random.between(1, 3)).map(|_| blind_step(random)));
    }
    schedule
}

/// The listener runs until it is at a recv, and seldom then.
fn next_step(random: &mut Random, node: &Node, cast: &Cast) -> Step {
    let Cast {
        listener, ending, ..
    } = cast;
    if step::awaited(node, *listener).is_none() {
        return Step::Run(*listener);
    }
    let others = [&cast.senders[..], ending].concat();
    let other = *random.pick(&others);
    match random.below(100) {
        0 => Step::Run(*listener),
        1 => Step::Timeout(*listener),
        2..=45 => Step::Arrive {
            to: *listener,
            from: other,
        },
        // The watch of one that has ended is answered with a down.
        46..=60 => Step::Arrive {
            to: other,
            from: *listener,
        },
        _ => Step::Run(other),
    }
}
