//! Document 01 with M-100 to M-102 and M-104 in plain Rust that is written for speed: the yardstick of the proved library. One node is changed in
//! place and nothing is allocated; each call looks at the same refusals in the same order as the proved one. The search of a recv is document
//! 01's: messages in mailbox order and, for each, clauses in their order.

pub mod listing;
pub mod plan;
pub mod program;
pub mod sound;
pub mod step;
pub mod steps;
pub mod text;
pub mod value;

pub use value::{Message, Pattern, Signal, SignalKind, Value};

/// Processes are numbered 1 to 16, so a number less 1 is an index.
pub const PROCESSES: usize = 16;
pub const BEHAVIOURS: usize = 8;
pub const OPS: usize = 32;
pub const CLAUSES: u8 = 8;
pub const MAILBOX: usize = 16;
pub const PAIR: usize = 4;

#[derive(Clone, Copy, PartialEq, Eq)]
#[repr(u8)]
pub enum Register {
    R0,
    R1,
    R2,
    R3,
}

pub const REGISTERS: [Register; 4] = [Register::R0, Register::R1, Register::R2, Register::R3];

/// The number of an op stands in a byte of its own. The pattern of a clause is not here but in its behaviour.
#[derive(Clone, Copy)]
#[repr(u8)]
pub enum Op {
    Set(Register, Value),
    Copy(Register, Register),
    Own(Register),
    Add(Register, Register),
    Send(Register, Register),
    Exit(Register, Register),
    Link(Register),
    Unlink(Register),
    Trap(bool),
    Spawn(Register, u8, u8),
    Recv(u8),
    Clause(Register, Register, u8),
    Jump(u8),
    Same(Register, Value, u8),
    Less(Register, Register, u8),
    Stop(Register),
    Monitor(Register),
    Demonitor(Register),
    After(u8),
    /// What stands at place N and behind it, so that a place needs no test against N.
    End,
}

#[derive(Clone, Copy)]
pub struct Behaviour {
    pub count: u8,
    pub ops: [Op; OPS + 1],
    /// Those of the clauses, at the places of these, so that a search reads nothing else.
    pub patterns: [Pattern; OPS],
}

#[derive(Clone, Copy, PartialEq, Eq)]
pub enum Stage {
    Unborn,
    Live,
    Closing,
    Gone,
}

/// A process; what its stage does not have is left as it was and is not looked at. `behaviour` is an index. The reason of a closing process
/// is in r0. The mailbox is a ring: message k is at `first + k`, modulo 16.
#[derive(Clone, Copy)]
pub struct Process {
    pub stage: Stage,
    pub behaviour: u8,
    pub place: u8,
    pub trap: bool,
    pub first: u8,
    pub count: u8,
    /// Sets of processes: bit k is process k + 1.
    pub links: u16,
    pub watches: u16,
    pub watchers: u16,
    pub registers: [Value; 4],
    pub mail: [Message; MAILBOX],
}

/// The signals from one process, by the index of the receiver. Those of a pair are a ring like the mailbox, modulo 4. The counts stand side by
/// side, so that empty pairs are passed over together.
#[derive(Clone, Copy)]
pub struct Row {
    pub counts: [u8; PROCESSES],
    pub firsts: [u8; PROCESSES],
    pub signals: [[Signal; PAIR]; PROCESSES],
}

#[derive(Clone)]
pub struct Node {
    pub behaviour_count: u8,
    pub behaviours: [Behaviour; BEHAVIOURS],
    pub processes: [Process; PROCESSES],
    /// By the index of the sender.
    pub flight: [Row; PROCESSES],
}

/// Places of a behaviour as sets, bit k for place k: those of clauses, those that recvs want to be clauses, those of afters, those directly
/// behind what a recv wants, and those that ops aim at.
#[derive(Default)]
pub struct Places {
    pub clauses: u64,
    pub wanted: u64,
    pub afters: u64,
    pub behind: u64,
    pub targets: u64,
}

impl Places {
    pub fn of(behaviour: &Behaviour) -> Places {
        let mut places = Places::default();
        for (place, op) in behaviour.ops[..usize::from(behaviour.count)].iter().enumerate() {
            places.add(place, op);
        }
        places
    }

    #[inline]
    fn add(&mut self, place: usize, op: &Op) {
        match *op {
            Op::Recv(count) => self.add_recv(place, count),
            Op::Clause(_, _, target) => self.add_clause(place, target),
            Op::After(target) => self.add_after(place, target),
            Op::Jump(target) | Op::Same(_, _, target) | Op::Less(_, _, target) => self.add_target(target),
            _ => {}
        }
    }

    #[inline]
    pub fn add_recv(&mut self, place: usize, count: u8) {
        self.wanted |= ((1 << count) - 1) << (place + 1);
        self.behind |= 1 << (place + 1 + usize::from(count));
    }

    #[inline]
    pub fn add_clause(&mut self, place: usize, target: u8) {
        self.clauses |= 1 << place;
        self.add_target(target);
    }

    #[inline]
    pub fn add_after(&mut self, place: usize, target: u8) {
        self.afters |= 1 << place;
        self.add_target(target);
    }

    #[inline]
    pub fn add_target(&mut self, target: u8) {
        self.targets |= 1 << target;
    }

    /// No recv lacks its clauses, no clause and no after is stray and none is a target: what 14 tells.
    #[inline]
    pub fn are_good(&self) -> bool {
        self.clauses == self.wanted && self.afters & !self.behind == 0 && (self.clauses | self.afters) & self.targets == 0
    }
}

impl Op {
    pub fn target(&self) -> Option<u8> {
        match *self {
            Op::Clause(_, _, target) | Op::Jump(target) | Op::Same(_, _, target) | Op::Less(_, _, target) | Op::After(target) => Some(target),
            _ => None,
        }
    }
}

impl Process {
    pub const UNBORN: Process = Process::fresh(Stage::Unborn, 0, Value::int(0));

    /// As spawned: place 0, the first register given and the others i0, no links, watches or watchers, trap 0, no mail.
    pub const fn fresh(stage: Stage, behaviour: u8, r0: Value) -> Process {
        let zero = Value::int(0);
        Process {
            stage,
            behaviour,
            place: 0,
            trap: false,
            first: 0,
            count: 0,
            links: 0,
            watches: 0,
            watchers: 0,
            registers: [r0, zero, zero, zero],
            mail: [Message::of(zero); MAILBOX],
        }
    }

    #[inline]
    pub fn message(&self, k: u8) -> Message {
        self.mail[usize::from(self.first + k) % MAILBOX]
    }
}

impl Row {
    pub const EMPTY: Row = Row { counts: [0; PROCESSES], firsts: [0; PROCESSES], signals: [[Signal::LINK; PAIR]; PROCESSES] };

    #[inline]
    pub fn is_empty(&self) -> bool {
        self.counts == [0; PROCESSES]
    }

    #[inline]
    pub fn signal(&self, to: usize, k: u8) -> Signal {
        self.signals[to][usize::from(self.firsts[to] + k) % PAIR]
    }
}

impl Node {
    /// No behaviours, all processes unborn, nothing in flight.
    pub const EMPTY: Node = Node {
        behaviour_count: 0,
        behaviours: [Behaviour { count: 0, ops: [Op::End; OPS + 1], patterns: [Pattern::ANY; OPS] }; BEHAVIOURS],
        processes: [Process::UNBORN; PROCESSES],
        flight: [Row::EMPTY; PROCESSES],
    };
}
