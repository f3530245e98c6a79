//! Counts of what a batch of cases reached, so that a thin batch is seen.

use crate::node::{
    Clause, Live, Message, Node, Op, Pattern, Signal, Stage, Value, MAILBOX_LIMIT, NOPROC,
    PAIR_LIMIT, PROCESSES,
};
use crate::plan::{self, op_word, Fault, Misplaced, OPERANDS};
use crate::step::{self, Effect, Search, Step};
use crate::steps::LINE_LIMIT;
use crate::text::Refused;
use std::collections::BTreeMap;
use std::fmt;

/// Every refusal number that the program can tell.
pub const REFUSALS: [u8; 17] = [
    10, 11, 12, 13, 14, 15, 20, 21, 22, 23, 24, 25, 26, 27, 28, 29, 32,
];

/// The stages; an unborn process is counted where a listing leaves it out.
pub const STAGES: [&str; 4] = ["unborn", "live", "closing", "gone"];

/// The words of signals in listings.
pub const SIGNALS: [&str; 7] = [
    "msg",
    "exit",
    "link",
    "unlink",
    "monitor",
    "demonitor",
    "down",
];

/// Finer events, in the order of the table. A count of an event that is not here is a mistake.
pub const DETAILS: [&str; 153] = [
    "run at place N",
    "closing told a link",
    "closing told a watcher",
    "closing went gone",
    "add ended with a4, overflow",
    "add ended with a4, kinds",
    "add reached a limit of i",
    "send ended with a3",
    "exit ended with a3",
    "link ended with a3",
    "unlink ended with a3",
    "monitor ended with a3",
    "demonitor ended with a3",
    "less ended with a3",
    "less to its target",
    "less not to its target",
    "same to its target",
    "same not to its target",
    "link to itself",
    "unlink to itself",
    "monitor to itself",
    "demonitor to itself",
    "send to itself",
    "exit to itself",
    "monitor of a watched process",
    "demonitor of a process not watched",
    "signal sent to an unborn process",
    "monitor sent to an unborn process",
    "demonitor sent to an unborn process",
    "spawn of a process with signals waiting",
    "spawn of a process with a monitor waiting",
    "clause any took a value",
    "clause any took a note",
    "clause any took a down",
    "clause int fitted",
    "clause atom fitted",
    "clause pid fitted",
    "clause note fitted",
    "clause down fitted",
    "clause exact value fitted",
    "clause with r = s took a note",
    "clause with r = s took a down",
    "clause note passed over a down",
    "clause down passed over a note",
    "clause exact value passed over a down",
    "recv passed over a message",
    "recv with after took a message",
    "timeout with empty mail",
    "timeout with mail that does not fit",
    "timeout at a full mailbox",
    "timeout of a recv with 8 clauses",
    "timeout by the last op of a code",
    "timeout to place N",
    "timeout back to its own recv",
    "msg joined",
    "link added",
    "link at a full mailbox",
    "unlink taken",
    "unlink at a full mailbox",
    "monitor taken",
    "monitor at a full mailbox",
    "demonitor taken",
    "demonitor at a full mailbox",
    "down joined",
    "down joined, a5",
    "down dropped unwatched",
    "down dropped unwatched at a full mailbox",
    "monitor answered at closing",
    "monitor answered at gone",
    "msg dropped at closing or gone",
    "exit dropped at closing or gone",
    "link dropped at closing or gone",
    "unlink dropped at closing or gone",
    "demonitor dropped at closing or gone",
    "down dropped at closing or gone",
    "line 1 at a full mailbox",
    "line 2, trap 0",
    "line 2, trap 1",
    "line 3, linked 0",
    "line 3, linked 0, from a link",
    "line 3, linked 1",
    "line 3, linked 1, a1",
    "line 4, linked 0",
    "line 4, linked 0, from a link",
    "line 4, linked 1",
    "line 4 at a full mailbox",
    "line 5, linked 0",
    "line 5, linked 0, from a link",
    "line 5, linked 1",
    "line 5, linked 1, a1",
    "line 5, a0 from itself",
    "14 recv without its clauses",
    "14 recv with an after between its clauses",
    "14 recv with an after for its last clause",
    "14 stray clause",
    "14 stray after",
    "14 second after",
    "14 target on a clause, from an op",
    "14 target on a clause, from a clause",
    "14 target on a clause, from an after",
    "14 target on an after, from an op",
    "14 target on an after, from a clause",
    "14 target on an after, from an after",
    "20 run",
    "20 arrive, owner",
    "20 arrive, sender",
    "20 timeout",
    "21 run",
    "21 arrive, none in flight",
    "21 arrive, signal waits",
    "21 timeout",
    "24 msg",
    "24 note",
    "24 down",
    "25 empty mailbox",
    "25 at a recv with after",
    "26 send",
    "26 exit",
    "26 link",
    "26 unlink",
    "26 monitor",
    "26 demonitor",
    "26 closing, link",
    "26 closing, watcher",
    "26 arrive, monitor at closing",
    "26 arrive, monitor at gone",
    "26 pair with itself",
    "27 itself",
    "27 another",
    "28 closing",
    "28 gone",
    "28 at place N",
    "28 at another op",
    "28 recv without after",
    "28 recv that ends its code",
    "28 first message fits",
    "28 later message fits",
    "29 mail without a fit",
    "29 at a recv with after",
    "29 values only",
    "29 notes only",
    "29 downs only",
    "29 full mailbox",
    "listing with mail=16",
    "listing with a note",
    "listing with a down",
    "listing with a pair of 4",
    "listing with two links or more",
    "listing with watches",
    "listing with two watchers or more",
    "listing of a closing process with watchers",
    "play of 0 steps",
    "play of 4,096 steps accepted",
];

/// The counters. Ops are counted when they ran; clause is counted when it took a message, after when
/// a timeout went to its t.
#[derive(Clone, Debug)]
pub struct Coverage {
    pub ops: BTreeMap<&'static str, u64>,
    pub refusals: BTreeMap<u8, u64>,
    /// Index 0 is line 1.
    pub exit_lines: [u64; 5],
    pub stages: [u64; 4],
    /// The lines `signal=` of listings, by SIGNALS.
    pub listed_signals: [u64; 7],
    pub details: BTreeMap<&'static str, u64>,
    pub cases: u64,
    pub accepted_steps: u64,
    pub whole_plays: u64,
}

impl Default for Coverage {
    fn default() -> Coverage {
        Coverage {
            ops: OPERANDS.iter().map(|&(word, _)| (word, 0)).collect(),
            refusals: REFUSALS.iter().map(|&number| (number, 0)).collect(),
            exit_lines: [0; 5],
            stages: [0; 4],
            listed_signals: [0; 7],
            details: DETAILS.iter().map(|&name| (name, 0)).collect(),
            cases: 0,
            accepted_steps: 0,
            whole_plays: 0,
        }
    }
}

impl Coverage {
    pub fn new() -> Coverage {
        Coverage::default()
    }

    pub fn count_load_refusal(&mut self, plan: &[u8], refused: &Refused) {
        self.cases += 1;
        self.refusal(refused.number);
        if let Some(misplaced) = plan::misplaced(plan) {
            self.count_misplaced(&misplaced);
        }
    }

    /// A fault is counted where it alone is why the line is told: with a second one beside it, a
    /// loader that misses the first tells the same.
    fn count_misplaced(&mut self, misplaced: &Misplaced) {
        let &[fault] = &misplaced.faults[..] else {
            return;
        };
        self.detail(match (fault, misplaced.op) {
            (Fault::LacksClauses, _) => "14 recv without its clauses",
            (Fault::AfterBetweenClauses, _) => "14 recv with an after between its clauses",
            (Fault::AfterForLastClause, _) => "14 recv with an after for its last clause",
            (Fault::StrayClause, _) => "14 stray clause",
            (Fault::StrayAfter, _) => "14 stray after",
            (Fault::SecondAfter, _) => "14 second after",
            (Fault::TargetOnClause, Op::Clause(_)) => "14 target on a clause, from a clause",
            (Fault::TargetOnClause, Op::After(_)) => "14 target on a clause, from an after",
            (Fault::TargetOnClause, _) => "14 target on a clause, from an op",
            (Fault::TargetOnAfter, Op::Clause(_)) => "14 target on an after, from a clause",
            (Fault::TargetOnAfter, Op::After(_)) => "14 target on an after, from an after",
            (Fault::TargetOnAfter, _) => "14 target on an after, from an op",
        });
    }

    pub fn count_steps_refusal(&mut self, refused: &Refused) {
        self.cases += 1;
        self.refusal(refused.number);
    }

    /// Counts a whole play and the node that its listing shows.
    pub fn count_play(&mut self, node: &Node, steps: usize, accepted: usize, refused: u8) {
        self.cases += 1;
        self.accepted_steps += accepted as u64;
        if refused == 0 {
            self.whole_plays += 1;
        }
        self.detail_if(steps == 0, "play of 0 steps");
        self.detail_if(accepted == LINE_LIMIT, "play of 4,096 steps accepted");
        for process in 1..=PROCESSES {
            self.count_stage(node.stage(process));
        }
        for (_, _, signals) in node.flights() {
            self.count_flight(signals);
        }
    }

    /// Counts one step; the node is the one after it, which is the one before it on a refusal.
    pub fn count_step(&mut self, node: &Node, step: Step, result: &Result<Effect, u8>) {
        match *result {
            Ok(effect) => self.count_effect(node, step, effect),
            Err(number) => self.count_step_refusal(node, step, number),
        }
    }

    /// The names of the counters that are below `least`, except the plain sums.
    pub fn rarer_than(&self, least: u64) -> Vec<String> {
        let rows = self.rows();
        let rare = rows.into_iter().filter(|(_, count)| *count < least);
        rare.map(|(name, count)| format!("{name}: {count}"))
            .collect()
    }

    fn rows(&self) -> Vec<(String, u64)> {
        let mut rows = Vec::new();
        for (word, _) in OPERANDS {
            rows.push((format!("op {word}"), self.ops[word]));
        }
        for number in REFUSALS {
            rows.push((format!("refusal {number}"), self.refusals[&number]));
        }
        for (index, &count) in self.exit_lines.iter().enumerate() {
            rows.push((format!("exit line {}", index + 1), count));
        }
        for (name, &count) in STAGES.iter().zip(&self.stages) {
            rows.push((format!("stage {name}"), count));
        }
        for (name, &count) in SIGNALS.iter().zip(&self.listed_signals) {
            rows.push((format!("listed signal {name}"), count));
        }
        for name in DETAILS {
            rows.push((name.to_string(), self.details[name]));
        }
        rows
    }

    fn refusal(&mut self, number: u8) {
        *self
            .refusals
            .get_mut(&number)
            .expect("a number of REFUSALS") += 1;
    }

    fn detail(&mut self, name: &'static str) {
        *self.details.get_mut(name).expect("a name of DETAILS") += 1;
    }

    fn detail_if(&mut self, happened: bool, name: &'static str) {
        if happened {
            self.detail(name);
        }
    }

    fn count_stage(&mut self, stage: &Stage) {
        let index = match stage {
            Stage::Unborn => 0,
            Stage::Live(_) => 1,
            Stage::Closing(_) => 2,
            Stage::Gone => 3,
        };
        self.stages[index] += 1;
        match stage {
            Stage::Live(live) => self.count_live(live),
            Stage::Closing(closing) => {
                let watched = !closing.watchers.is_empty();
                self.detail_if(watched, "listing of a closing process with watchers");
            }
            Stage::Unborn | Stage::Gone => {}
        }
    }

    fn count_live(&mut self, live: &Live) {
        let full = live.mailbox.len() == MAILBOX_LIMIT;
        self.detail_if(full, "listing with mail=16");
        self.detail_if(live.mailbox.iter().any(is_note), "listing with a note");
        self.detail_if(live.mailbox.iter().any(is_down), "listing with a down");
        self.detail_if(live.links.len() > 1, "listing with two links or more");
        self.detail_if(!live.watches.is_empty(), "listing with watches");
        let watchers = live.watchers.len();
        self.detail_if(watchers > 1, "listing with two watchers or more");
    }

    fn count_flight(&mut self, signals: &[Signal]) {
        self.detail_if(signals.len() == PAIR_LIMIT, "listing with a pair of 4");
        for signal in signals {
            let index = match signal {
                Signal::Msg(_) => 0,
                Signal::Exit { .. } => 1,
                Signal::Link => 2,
                Signal::Unlink => 3,
                Signal::Monitor => 4,
                Signal::Demonitor => 5,
                Signal::Down(_) => 6,
            };
            self.listed_signals[index] += 1;
        }
    }

    fn count_effect(&mut self, node: &Node, step: Step, effect: Effect) {
        let owner = step.owner();
        match effect {
            Effect::EndOfCode => self.detail("run at place N"),
            Effect::ToldLink => self.detail("closing told a link"),
            Effect::ToldWatcher => self.detail("closing told a watcher"),
            Effect::WentGone => self.detail("closing went gone"),
            Effect::Ran {
                op,
                registers,
                watched,
            } => {
                self.count_op(node, owner, op, registers);
                self.count_watch(op, registers, owner, watched);
            }
            Effect::Received {
                clause,
                message,
                index,
                after,
            } => {
                let passed = &node.live(owner).mailbox[..index];
                self.count_received(clause, message, passed);
                self.detail_if(after, "recv with after took a message");
            }
            Effect::TimedOut { place } => self.count_timeout(node, owner, place),
            _ => self.count_arrival(node, owner, effect),
        }
    }

    fn count_arrival(&mut self, node: &Node, owner: u8, effect: Effect) {
        match effect {
            Effect::DroppedAtEnded(signal) => self.count_dropped(signal),
            Effect::DroppedUnwatched => {
                let full = node.live(owner).mailbox.len() == MAILBOX_LIMIT;
                self.detail("down dropped unwatched");
                self.detail_if(full, "down dropped unwatched at a full mailbox");
            }
            Effect::ToldNoproc => self.detail(match node.stage(owner) {
                Stage::Gone => "monitor answered at gone",
                _ => "monitor answered at closing",
            }),
            Effect::Taken(signal) => self.count_taken(node, owner, signal),
            Effect::ExitLine {
                line,
                reason,
                linked,
                from_link,
                trap,
            } => {
                self.count_exit_line(node, owner, line);
                match line {
                    1 => {}
                    2 if trap => self.detail("line 2, trap 1"),
                    2 => self.detail("line 2, trap 0"),
                    _ if linked => self.count_linked_exit(line, reason),
                    _ => self.count_exit(line, from_link, reason),
                }
            }
            other => panic!("{other:?} is no effect of an arrival"),
        }
    }

    fn count_exit_line(&mut self, node: &Node, owner: u8, line: u8) {
        self.exit_lines[usize::from(line) - 1] += 1;
        let full = match node.stage(owner) {
            Stage::Live(live) => live.mailbox.len() == MAILBOX_LIMIT,
            _ => false,
        };
        self.detail_if(full && line == 1, "line 1 at a full mailbox");
        self.detail_if(full && line == 4, "line 4 at a full mailbox");
    }

    /// A timeout moved the owner away from, or back to, the recv at this place.
    fn count_timeout(&mut self, node: &Node, owner: u8, place: usize) {
        let live = node.live(owner);
        let code = node.code(live.behaviour);
        let Op::Recv(count) = code[place] else {
            panic!("a timeout at {:?}", code[place]);
        };
        let after = place + count + 1;
        self.count_word(code[after]);
        self.detail(if live.mailbox.is_empty() {
            "timeout with empty mail"
        } else {
            "timeout with mail that does not fit"
        });
        let full = live.mailbox.len() == MAILBOX_LIMIT;
        self.detail_if(full, "timeout at a full mailbox");
        self.detail_if(count == 8, "timeout of a recv with 8 clauses");
        let last = after + 1 == code.len();
        self.detail_if(last, "timeout by the last op of a code");
        self.detail_if(live.place == code.len(), "timeout to place N");
        self.detail_if(live.place == place, "timeout back to its own recv");
    }

    fn count_word(&mut self, op: Op) {
        *self.ops.get_mut(op_word(op)).expect("a word of OPERANDS") += 1;
    }

    fn count_op(&mut self, node: &Node, owner: u8, op: Op, before: [Value; 4]) {
        self.count_word(op);
        match node.stage(owner) {
            Stage::Live(_) => self.count_op_of_live(node, owner, op),
            _ => self.count_op_that_ended(op, before),
        }
    }

    fn count_op_of_live(&mut self, node: &Node, owner: u8, op: Op) {
        let live = node.live(owner);
        match op {
            Op::Add(r, _) => {
                let limits = [Value::Int(i32::MAX), Value::Int(i32::MIN)];
                let at_limit = limits.contains(&live.registers[r]);
                self.detail_if(at_limit, "add reached a limit of i");
            }
            Op::Less(_, _, target) if live.place == target => self.detail("less to its target"),
            Op::Less(..) => self.detail("less not to its target"),
            Op::Same(_, _, target) if live.place == target => self.detail("same to its target"),
            Op::Same(..) => self.detail("same not to its target"),
            Op::Send(r, _)
            | Op::Exit(r, _)
            | Op::Link(r)
            | Op::Unlink(r)
            | Op::Monitor(r)
            | Op::Demonitor(r) => {
                self.count_sending(node, owner, op, live.registers[r]);
            }
            Op::Spawn { process, .. } => {
                let waiting = || node.flights().filter(|&(_, to, _)| to == process);
                let monitor = waiting().any(|(_, _, row)| row.contains(&Signal::Monitor));
                let signals = waiting().next().is_some();
                self.detail_if(signals, "spawn of a process with signals waiting");
                self.detail_if(monitor, "spawn of a process with a monitor waiting");
            }
            _ => {}
        }
    }

    fn count_sending(&mut self, node: &Node, owner: u8, op: Op, addressee: Value) {
        let Value::Pid(to) = addressee else { return };
        if *node.stage(to) == Stage::Unborn {
            self.detail("signal sent to an unborn process");
            match op {
                Op::Monitor(_) => self.detail("monitor sent to an unborn process"),
                Op::Demonitor(_) => self.detail("demonitor sent to an unborn process"),
                _ => {}
            }
        }
        if to != owner {
            return;
        }
        self.detail(match op {
            Op::Send(..) => "send to itself",
            Op::Exit(..) => "exit to itself",
            Op::Link(_) => "link to itself",
            Op::Unlink(_) => "unlink to itself",
            Op::Monitor(_) => "monitor to itself",
            _ => "demonitor to itself",
        });
    }

    /// A monitor of a process that was watched before, a demonitor of one that was not.
    fn count_watch(&mut self, op: Op, before: [Value; 4], owner: u8, watched: bool) {
        match op {
            Op::Monitor(_) => self.detail_if(watched, "monitor of a watched process"),
            Op::Demonitor(r) if !watched => {
                let another = matches!(before[r], Value::Pid(other) if other != owner);
                self.detail_if(another, "demonitor of a process not watched");
            }
            _ => {}
        }
    }

    fn count_op_that_ended(&mut self, op: Op, before: [Value; 4]) {
        let is_int = |r: usize| matches!(before[r], Value::Int(_));
        match op {
            Op::Add(r, s) if is_int(r) && is_int(s) => self.detail("add ended with a4, overflow"),
            Op::Add(..) => self.detail("add ended with a4, kinds"),
            Op::Send(..) => self.detail("send ended with a3"),
            Op::Exit(..) => self.detail("exit ended with a3"),
            Op::Link(_) => self.detail("link ended with a3"),
            Op::Unlink(_) => self.detail("unlink ended with a3"),
            Op::Monitor(_) => self.detail("monitor ended with a3"),
            Op::Demonitor(_) => self.detail("demonitor ended with a3"),
            Op::Less(..) => self.detail("less ended with a3"),
            _ => {}
        }
    }

    /// A clause took a message; these stood before it in the mailbox and fitted no clause.
    fn count_received(&mut self, clause: Clause, message: Message, passed: &[Message]) {
        self.count_word(Op::Recv(1));
        self.count_word(Op::Clause(clause));
        let (note, down) = (is_note(&message), is_down(&message));
        self.detail(match clause.pattern {
            Pattern::Any if note => "clause any took a note",
            Pattern::Any if down => "clause any took a down",
            Pattern::Any => "clause any took a value",
            Pattern::Int => "clause int fitted",
            Pattern::Atom => "clause atom fitted",
            Pattern::Pid => "clause pid fitted",
            Pattern::Note => "clause note fitted",
            Pattern::Down => "clause down fitted",
            Pattern::Exact(_) => "clause exact value fitted",
        });
        let one_register = clause.r == clause.s;
        self.detail_if(one_register && note, "clause with r = s took a note");
        self.detail_if(one_register && down, "clause with r = s took a down");
        self.detail_if(!passed.is_empty(), "recv passed over a message");
        let (a_note, a_down) = (passed.iter().any(is_note), passed.iter().any(is_down));
        match clause.pattern {
            Pattern::Note => self.detail_if(a_down, "clause note passed over a down"),
            Pattern::Down => self.detail_if(a_note, "clause down passed over a note"),
            Pattern::Exact(_) => self.detail_if(a_down, "clause exact value passed over a down"),
            _ => {}
        }
    }

    fn count_dropped(&mut self, signal: Signal) {
        self.detail(match signal {
            Signal::Msg(_) => "msg dropped at closing or gone",
            Signal::Exit { .. } => "exit dropped at closing or gone",
            Signal::Link => "link dropped at closing or gone",
            Signal::Unlink => "unlink dropped at closing or gone",
            Signal::Demonitor => "demonitor dropped at closing or gone",
            Signal::Down(_) => "down dropped at closing or gone",
            Signal::Monitor => panic!("a monitor was dropped"),
        });
    }

    fn count_taken(&mut self, node: &Node, owner: u8, signal: Signal) {
        let full = node.live(owner).mailbox.len() == MAILBOX_LIMIT;
        match signal {
            Signal::Link => {
                self.detail("link added");
                self.detail_if(full, "link at a full mailbox");
            }
            Signal::Unlink => {
                self.detail("unlink taken");
                self.detail_if(full, "unlink at a full mailbox");
            }
            Signal::Monitor => {
                self.detail("monitor taken");
                self.detail_if(full, "monitor at a full mailbox");
            }
            Signal::Demonitor => {
                self.detail("demonitor taken");
                self.detail_if(full, "demonitor at a full mailbox");
            }
            Signal::Down(reason) => {
                self.detail("down joined");
                self.detail_if(reason == NOPROC, "down joined, a5");
            }
            Signal::Msg(_) | Signal::Exit { .. } => self.detail("msg joined"),
        }
    }

    /// The finer events of lines 3, 4 and 5 with b = 1.
    fn count_linked_exit(&mut self, line: u8, reason: Value) {
        let kill = reason == Value::Atom(1);
        match line {
            3 => {
                self.detail("line 3, linked 1");
                self.detail_if(kill, "line 3, linked 1, a1");
            }
            4 => self.detail("line 4, linked 1"),
            _ => {
                self.detail("line 5, linked 1");
                self.detail_if(kill, "line 5, linked 1, a1");
            }
        }
    }

    /// The same with b = 0.
    fn count_exit(&mut self, line: u8, from_link: bool, reason: Value) {
        match line {
            3 => {
                self.detail("line 3, linked 0");
                self.detail_if(from_link, "line 3, linked 0, from a link");
            }
            4 => {
                self.detail("line 4, linked 0");
                self.detail_if(from_link, "line 4, linked 0, from a link");
            }
            _ => {
                self.detail("line 5, linked 0");
                self.detail_if(from_link, "line 5, linked 0, from a link");
                // From another process a0 is dropped by line 4.
                self.detail_if(reason == Value::Atom(0), "line 5, a0 from itself");
            }
        }
    }

    fn count_step_refusal(&mut self, node: &Node, step: Step, number: u8) {
        self.refusal(number);
        match (number, step) {
            (step::BAD_NUMBER, _) => self.count_bad_number(step),
            (step::OWNER_UNBORN, _) => self.count_unborn_owner(node, step),
            (step::MAILBOX_FULL, Step::Arrive { to, from }) => {
                let first = node.flight(from, to).first();
                self.detail(match first {
                    Some(Signal::Msg(_)) => "24 msg",
                    Some(Signal::Down(_)) => "24 down",
                    _ => "24 note",
                });
            }
            (step::PAIR_FULL, Step::Arrive { to, .. }) => self.detail(match node.stage(to) {
                Stage::Gone => "26 arrive, monitor at gone",
                _ => "26 arrive, monitor at closing",
            }),
            (step::MAILBOX_EMPTY, _) => self.count_empty_mailbox(node, step.owner()),
            (step::PAIR_FULL | step::NOT_UNBORN, Step::Run(process)) => {
                self.count_run_refusal(node, process);
            }
            (step::NO_TIMEOUT, _) => self.count_timeout_refusal(node, step.owner()),
            (step::NO_FIT, _) => self.count_no_fit(node, step.owner()),
            _ => {}
        }
    }

    fn count_bad_number(&mut self, step: Step) {
        self.detail(match step {
            Step::Run(_) => "20 run",
            Step::Arrive { to, .. } if (1..=PROCESSES).contains(&to) => "20 arrive, sender",
            Step::Arrive { .. } => "20 arrive, owner",
            Step::Timeout(_) => "20 timeout",
        });
    }

    fn count_unborn_owner(&mut self, node: &Node, step: Step) {
        self.detail(match step {
            Step::Run(_) => "21 run",
            Step::Arrive { to, from } if node.flight(from, to).is_empty() => {
                "21 arrive, none in flight"
            }
            Step::Arrive { .. } => "21 arrive, signal waits",
            Step::Timeout(_) => "21 timeout",
        });
    }

    /// Counts a 28 by what stands against the timeout. A recv without `after` is counted where no
    /// message fits, because one that fits would be reason enough.
    fn count_timeout_refusal(&mut self, node: &Node, process: u8) {
        let live = match node.stage(process) {
            Stage::Live(live) => live,
            Stage::Closing(_) => return self.detail("28 closing"),
            Stage::Unborn | Stage::Gone => return self.detail("28 gone"),
        };
        let length = node.code(live.behaviour).len();
        let Some(Op::Recv(count)) = node.current_op(process) else {
            return self.detail(if live.place == length {
                "28 at place N"
            } else {
                "28 at another op"
            });
        };
        let awaited = step::awaited(node, process).expect("a process at a recv");
        match (awaited.after, awaited.search) {
            (Some(_), Search::Fit(0, _)) => self.detail("28 first message fits"),
            (Some(_), Search::Fit(..)) => self.detail("28 later message fits"),
            (Some(_), _) => panic!("28 where nothing stands against the timeout"),
            (None, Search::Fit(..)) => {}
            (None, _) => {
                self.detail("28 recv without after");
                let ends = live.place + count + 1 == length;
                self.detail_if(ends, "28 recv that ends its code");
            }
        }
    }

    fn count_empty_mailbox(&mut self, node: &Node, process: u8) {
        self.detail("25 empty mailbox");
        let after = waits_with_after(node, process);
        self.detail_if(after, "25 at a recv with after");
    }

    fn count_no_fit(&mut self, node: &Node, process: u8) {
        self.detail("29 mail without a fit");
        let after = waits_with_after(node, process);
        self.detail_if(after, "29 at a recv with after");
        let mailbox = &node.live(process).mailbox;
        self.detail_if(mailbox.iter().all(is_value), "29 values only");
        self.detail_if(mailbox.iter().all(is_note), "29 notes only");
        self.detail_if(mailbox.iter().all(is_down), "29 downs only");
        self.detail_if(mailbox.len() == MAILBOX_LIMIT, "29 full mailbox");
    }

    /// Counts a refusal of 26 or 27 by the op, or the closing process, that met it.
    fn count_run_refusal(&mut self, node: &Node, process: u8) {
        if let Stage::Closing(closing) = node.stage(process) {
            self.detail(if closing.links.is_empty() {
                "26 closing, watcher"
            } else {
                "26 closing, link"
            });
            return;
        }
        let live = node.live(process);
        let own = |r: usize| live.registers[r] == Value::Pid(process);
        match node.current_op(process) {
            Some(Op::Send(r, _)) => {
                self.detail("26 send");
                self.detail_if(own(r), "26 pair with itself");
            }
            Some(Op::Exit(r, _)) => {
                self.detail("26 exit");
                self.detail_if(own(r), "26 pair with itself");
            }
            Some(Op::Link(_)) => self.detail("26 link"),
            Some(Op::Unlink(_)) => self.detail("26 unlink"),
            Some(Op::Monitor(_)) => self.detail("26 monitor"),
            Some(Op::Demonitor(_)) => self.detail("26 demonitor"),
            Some(Op::Spawn {
                process: spawned, ..
            }) => {
                self.detail(if spawned == process {
                    "27 itself"
                } else {
                    "27 another"
                });
            }
            _ => {}
        }
    }
}

/// Whether a process that is live at a recv may give up waiting.
fn waits_with_after(node: &Node, process: u8) -> bool {
    let awaited = step::awaited(node, process).expect("a process at a recv");
    awaited.after.is_some()
}

fn is_value(message: &Message) -> bool {
    matches!(message, Message::Value(_))
}

fn is_note(message: &Message) -> bool {
    matches!(message, Message::Note { .. })
}

fn is_down(message: &Message) -> bool {
    matches!(message, Message::Down { .. })
}

impl fmt::Display for Coverage {
    fn fmt(&self, out: &mut fmt::Formatter<'_>) -> fmt::Result {
        for (name, count) in self.rows() {
            writeln!(out, "{count:>10}  {name}")?;
        }
        writeln!(out, "{:>10}  cases", self.cases)?;
        writeln!(out, "{:>10}  accepted steps", self.accepted_steps)?;
        writeln!(out, "{:>10}  plays without a refusal", self.whole_plays)
    }
}
