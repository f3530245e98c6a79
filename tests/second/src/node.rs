//! The node of document 01 and of requests M-100 to M-102 of document 02: values, messages, signals,
//! ops, processes and the signals in flight.

use std::collections::{BTreeMap, BTreeSet};
use std::fmt;

/// "Processes are numbered 1 to 16."
pub const PROCESSES: u8 = 16;
/// "mailbox of at most 16 messages"
pub const MAILBOX_LIMIT: usize = 16;
/// "For each ordered pair (from, to), itself included, at most 4 signals are in flight"
pub const PAIR_LIMIT: usize = 4;

/// "A value is an integer `i` (-2147483648 to 2147483647), an atom `a` (0 to 255) or a process
/// number `p` (1 to 16)."
#[derive(Clone, Copy, Debug, PartialEq, Eq)]
pub enum Value {
    Int(i32),
    Atom(u8),
    Pid(u8),
}

/// "a0 normal, a1 kill, a2 killed, a3 badarg; a4, the fifth with a meaning, is badarith"
pub const NORMAL: Value = Value::Atom(0);
pub const KILL: Value = Value::Atom(1);
pub const KILLED: Value = Value::Atom(2);
pub const BADARG: Value = Value::Atom(3);
pub const BADARITH: Value = Value::Atom(4);
/// "down(a5), noproc"
pub const NOPROC: Value = Value::Atom(5);

impl fmt::Display for Value {
    fn fmt(&self, out: &mut fmt::Formatter<'_>) -> fmt::Result {
        match self {
            Value::Int(number) => write!(out, "i{number}"),
            Value::Atom(number) => write!(out, "a{number}"),
            Value::Pid(number) => write!(out, "p{number}"),
        }
    }
}

/// "A message is a value or a note (sender, reason)."; "message and clause kind `down`"
#[derive(Clone, Copy, Debug, PartialEq, Eq)]
pub enum Message {
    Value(Value),
    Note { sender: u8, reason: Value },
    Down { sender: u8, reason: Value },
}

/// "A signal is msg(value), exit(reason, linked 0 or 1), link or unlink."; "signals monitor,
/// demonitor and down(reason)"
#[derive(Clone, Copy, Debug, PartialEq, Eq)]
pub enum Signal {
    Msg(Value),
    Exit { reason: Value, linked: bool },
    Link,
    Unlink,
    Monitor,
    Demonitor,
    Down(Value),
}

/// "k is any (notes too), int, atom, pid, note or one exact V (values only)"; "message and clause
/// kind `down`"
#[derive(Clone, Copy, Debug, PartialEq, Eq)]
pub enum Pattern {
    Any,
    Int,
    Atom,
    Pid,
    Note,
    Down,
    Exact(Value),
}

/// The op `clause,k,r,s,t`.
#[derive(Clone, Copy, Debug, PartialEq, Eq)]
pub struct Clause {
    pub pattern: Pattern,
    pub r: usize,
    pub s: usize,
    pub target: usize,
}

/// The ops in the order of the document's table, then "ops `monitor,r` and `demonitor,r`" and "op
/// `after,t`".
#[derive(Clone, Copy, Debug, PartialEq, Eq)]
pub enum Op {
    Set(usize, Value),
    Copy(usize, usize),
    SelfNumber(usize),
    Add(usize, usize),
    Send(usize, usize),
    Exit(usize, usize),
    Link(usize),
    Unlink(usize),
    Trap(bool),
    Spawn {
        r: usize,
        behaviour: u8,
        process: u8,
    },
    Recv(usize),
    Clause(Clause),
    Jump(usize),
    Same(usize, Value, usize),
    Less(usize, usize, usize),
    Stop(usize),
    Monitor(usize),
    Demonitor(usize),
    After(usize),
}

/// "live: behaviour number, place (0 to N), registers r0 to r3, trap flag, link set, mailbox of at
/// most 16 messages in order of arrival"; "Each live process gains a set of those it watches and a
/// set of its watchers"
#[derive(Clone, Debug, PartialEq, Eq)]
pub struct Live {
    pub behaviour: u8,
    pub place: usize,
    pub registers: [Value; 4],
    pub trap: bool,
    pub links: BTreeSet<u8>,
    pub watches: BTreeSet<u8>,
    pub watchers: BTreeSet<u8>,
    pub mailbox: Vec<Message>,
}

impl Live {
    /// "process q goes live in behaviour b, place 0, its r0 the spawner's number, other registers
    /// i0, no links, trap 0, no mail"; "started processes are as spawned, r0 being i0"; the two
    /// sets of watching are "both empty when it is started or spawned"
    pub fn fresh(behaviour: u8, r0: Value) -> Live {
        let zero = Value::Int(0);
        Live {
            behaviour,
            place: 0,
            registers: [r0, zero, zero, zero],
            trap: false,
            links: BTreeSet::new(),
            watches: BTreeSet::new(),
            watchers: BTreeSet::new(),
            mailbox: Vec::new(),
        }
    }
}

/// "closing: reason and link set"; "An ended process keeps its watchers"
#[derive(Clone, Debug, PartialEq, Eq)]
pub struct Closing {
    pub reason: Value,
    pub links: BTreeSet<u8>,
    pub watchers: BTreeSet<u8>,
}

/// "Each process is in one stage"
#[derive(Clone, Debug, PartialEq, Eq)]
pub enum Stage {
    Unborn,
    Live(Live),
    Closing(Closing),
    Gone,
}

/// A whole node. "Equal nodes have equal behaviours, stages, contents of each stage (link sets as
/// sets) and in-flight rows"; "Two lists compared for their end now compare these sets too": this
/// is the derived equality, because a pair without signals has no entry in `flights`.
#[derive(Clone, Debug, PartialEq, Eq)]
pub struct Node {
    /// Behaviour number b is at index b - 1.
    pub behaviours: Vec<Vec<Op>>,
    /// Process number i is at index i - 1.
    processes: Vec<Stage>,
    /// For each pair (from, to) that has signals in flight, these in order of sending.
    flights: BTreeMap<(u8, u8), Vec<Signal>>,
}

impl Node {
    /// A node with these behaviours, all processes unborn, nothing in flight.
    pub fn new(behaviours: Vec<Vec<Op>>) -> Node {
        Node {
            behaviours,
            processes: vec![Stage::Unborn; usize::from(PROCESSES)],
            flights: BTreeMap::new(),
        }
    }

    pub fn stage(&self, process: u8) -> &Stage {
        &self.processes[usize::from(process) - 1]
    }

    pub fn set_stage(&mut self, process: u8, stage: Stage) {
        self.processes[usize::from(process) - 1] = stage;
    }

    /// The record of a process that is known to be live.
    pub fn live(&self, process: u8) -> &Live {
        match self.stage(process) {
            Stage::Live(live) => live,
            other => panic!("process {process} is not live but {other:?}"),
        }
    }

    /// The record, to be changed, of a process that is known to be live.
    pub fn live_mut(&mut self, process: u8) -> &mut Live {
        match &mut self.processes[usize::from(process) - 1] {
            Stage::Live(live) => live,
            other => panic!("process {process} is not live but {other:?}"),
        }
    }

    pub fn code(&self, behaviour: u8) -> &[Op] {
        &self.behaviours[usize::from(behaviour) - 1]
    }

    /// The op at the place of a live process, or None at place N.
    pub fn current_op(&self, process: u8) -> Option<Op> {
        let live = self.live(process);
        self.code(live.behaviour).get(live.place).copied()
    }

    /// The signals in flight of one pair, the oldest first.
    pub fn flight(&self, from: u8, to: u8) -> &[Signal] {
        match self.flights.get(&(from, to)) {
            Some(signals) => signals,
            None => &[],
        }
    }

    pub fn pair_is_full(&self, from: u8, to: u8) -> bool {
        self.flight(from, to).len() >= PAIR_LIMIT
    }

    /// Puts a signal behind the others of its pair, which is known not to be full.
    pub fn push_signal(&mut self, from: u8, to: u8, signal: Signal) {
        self.flights.entry((from, to)).or_default().push(signal);
    }

    /// Removes the oldest signal of a pair that is known to have one.
    pub fn remove_oldest(&mut self, from: u8, to: u8) {
        let signals = self
            .flights
            .get_mut(&(from, to))
            .expect("a pair with signals");
        signals.remove(0);
        if signals.is_empty() {
            self.flights.remove(&(from, to));
        }
    }

    /// The pairs that have signals in flight, by from, then to.
    pub fn flights(&self) -> impl Iterator<Item = (u8, u8, &[Signal])> {
        self.flights
            .iter()
            .map(|(&(from, to), signals)| (from, to, signals.as_slice()))
    }
}
