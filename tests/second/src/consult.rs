//! Mail before clauses: request M-106 of document 02. What a recv's search answers stays in `step`;
//! here it is counted how many clauses the search consults.

use crate::node::{Message, Node, Op, Pattern, Stage, Value, PROCESSES};
use crate::{plan, play, step, steps};

/// How many clauses a search of a process's mailbox consults, on the plan as it is when the schedule
/// has been "played until one is refused". None where a text is refused or the process is not live at
/// a recv.
pub fn consulted(plan: &[u8], steps: &[u8], process: usize) -> Option<usize> {
    let mut node = plan::load(plan).ok()?;
    let schedule = steps::read(steps).ok()?;
    play(&mut node, &schedule, None);
    walk(&node, process).map(|walk| walk.consulted())
}

/// What the library's call for C answers: the largest number stands for none.
pub fn number(consulted: Option<usize>) -> usize {
    consulted.unwrap_or(usize::MAX)
}

/// The kinds of message.
#[derive(Clone, Copy, Debug, PartialEq, Eq)]
pub enum Kind {
    Int,
    Atom,
    Pid,
    Note,
    Down,
}

const KINDS: [Kind; 5] = [Kind::Int, Kind::Atom, Kind::Pid, Kind::Note, Kind::Down];

pub fn kind_of(message: &Message) -> Kind {
    match message {
        Message::Value(value) => kind_of_value(*value),
        Message::Note { .. } => Kind::Note,
        Message::Down { .. } => Kind::Down,
    }
}

fn kind_of_value(value: Value) -> Kind {
    match value {
        Value::Int(_) => Kind::Int,
        Value::Atom(_) => Kind::Atom,
        Value::Pid(_) => Kind::Pid,
    }
}

/// "An exact V can take its own kind, any takes every kind."; a clause by kind takes that kind.
pub fn can_take(pattern: Pattern, kind: Kind) -> bool {
    match pattern {
        Pattern::Any => true,
        Pattern::Int => kind == Kind::Int,
        Pattern::Atom => kind == Kind::Atom,
        Pattern::Pid => kind == Kind::Pid,
        Pattern::Note => kind == Kind::Note,
        Pattern::Down => kind == Kind::Down,
        Pattern::Exact(value) => kind == kind_of_value(value),
    }
}

/// A search of a mailbox.
#[derive(Clone, Debug, PartialEq, Eq)]
pub struct Walk {
    /// The clauses of the recv, in their order.
    pub patterns: Vec<Pattern>,
    /// What the search did with each message that it came to, in mailbox order.
    pub looks: Vec<Look>,
}

/// What a search did with one message.
#[derive(Clone, Copy, Debug, PartialEq, Eq)]
pub struct Look {
    pub kind: Kind,
    /// Whether the message is of a kind that was noted; the search leaves out the others.
    pub noted: bool,
    /// How many clauses were consulted.
    pub consulted: usize,
    /// The clause that fits, which is the last one consulted.
    pub fit: Option<Pattern>,
}

impl Walk {
    /// "for each message up to the fit, or for all if none fits": the walk has no others.
    pub fn consulted(&self) -> usize {
        self.looks.iter().map(|look| look.consulted).sum()
    }
}

/// The search of the mailbox of a process that is live at a recv; None for every other number.
pub fn walk(node: &Node, process: usize) -> Option<Walk> {
    let known = |process: &u8| (1..=PROCESSES).contains(process);
    let process = u8::try_from(process).ok().filter(known)?;
    let patterns = patterns(node, process)?;
    let mut looks = Vec::new();
    // "first note which kinds of message the clauses can take at all"
    let noted = kinds_noted(&patterns);
    // "then walk the mailbox"
    for message in &node.live(process).mailbox {
        let look = look_at(message, &patterns, &noted);
        looks.push(look);
        if look.fit.is_some() {
            break;
        }
    }
    Some(Walk { patterns, looks })
}

/// "The next n ops are its clauses", of the recv at which a process is live.
fn patterns(node: &Node, process: u8) -> Option<Vec<Pattern>> {
    let Stage::Live(live) = node.stage(process) else {
        return None;
    };
    let Some(Op::Recv(count)) = node.current_op(process) else {
        return None;
    };
    let next = node.code(live.behaviour).iter().skip(live.place + 1);
    let patterns = next.take(count).map(|op| match op {
        Op::Clause(clause) => clause.pattern,
        op => panic!("recv is followed by {op:?} instead of a clause"),
    });
    Some(patterns.collect())
}

fn kinds_noted(patterns: &[Pattern]) -> Vec<Kind> {
    let taken = |kind: Kind| patterns.iter().any(|&pattern| can_take(pattern, kind));
    KINDS.into_iter().filter(|&kind| taken(kind)).collect()
}

/// "consult clauses only for messages of those kinds"; "none where the clauses can't take its kind,
/// else its clauses up to the first that fits, or all"
fn look_at(message: &Message, patterns: &[Pattern], noted: &[Kind]) -> Look {
    let kind = kind_of(message);
    let mut look = Look {
        kind,
        noted: noted.contains(&kind),
        consulted: 0,
        fit: None,
    };
    if !look.noted {
        return look;
    }
    for &pattern in patterns {
        look.consulted += 1;
        if step::fits(pattern, message) {
            look.fit = Some(pattern);
            break;
        }
    }
    look
}
