//! The steps: run, arrive, timeout, and a play of a row of them.

use super::sound::NOT_SOUND;
use super::steps::{MOST_STEPS, TOO_LONG};
use super::{Behaviour, Message, Node, Op, Pattern, Process, Register, Row, Signal, SignalKind, Stage, Value, MAILBOX, PAIR, PROCESSES};

/// A step by the numbers that were written, whatever they are.
#[derive(Clone, Copy)]
pub enum Step {
    Run(u8),
    Arrive { to: u8, from: u8 },
    Timeout(u8),
}

/// The refusals of steps by their numbers; each leaves the node unchanged.
#[derive(Clone, Copy)]
#[repr(u8)]
enum Refusal {
    BadNumber = 20,
    OwnerUnborn = 21,
    RunOfGone = 22,
    NoneInFlight = 23,
    MailboxFull = 24,
    MailboxEmpty = 25,
    PairFull = 26,
    NotUnborn = 27,
    NoTimeout = 28,
    NoFit = 29,
}

impl Node {
    /// Takes the steps until one is refused; answers how many were accepted, and the refusal, or 0.
    pub fn play(&mut self, steps: &[Step]) -> (usize, u8) {
        if !self.is_sound() {
            return (0, NOT_SOUND);
        }
        if steps.len() > MOST_STEPS {
            return (0, TOO_LONG);
        }
        self.play_on(steps)
    }

    /// A step of its own; answers the refusal, or 0.
    pub fn step(&mut self, step: Step) -> u8 {
        if !self.is_sound() {
            return NOT_SOUND;
        }
        self.take(step).err().map_or(0, |refusal| refusal as u8)
    }

    #[inline(never)]
    fn play_on(&mut self, steps: &[Step]) -> (usize, u8) {
        for (accepted, &step) in steps.iter().enumerate() {
            if let Err(refusal) = self.take(step) {
                return (accepted, refusal as u8);
            }
        }
        (steps.len(), 0)
    }

    #[inline(always)]
    fn take(&mut self, step: Step) -> Result<(), Refusal> {
        match step {
            Step::Run(process) => self.run(index(process)?),
            Step::Arrive { to, from } => self.arrive(index(to)?, index(from)?),
            Step::Timeout(process) => self.timeout(index(process)?),
        }
    }

    #[inline(always)]
    fn run(&mut self, i: usize) -> Result<(), Refusal> {
        if self.processes[i].stage == Stage::Live {
            self.run_live(i)
        } else {
            self.run_other(i)
        }
    }

    /// A closing process sends one exit signal to its lowest link or, without links, one down to its lowest watcher; without either it goes.
    #[cold]
    #[inline(never)]
    fn run_other(&mut self, i: usize) -> Result<(), Refusal> {
        let process = &mut self.processes[i];
        match process.stage {
            Stage::Unborn => return Err(Refusal::OwnerUnborn),
            Stage::Gone => return Err(Refusal::RunOfGone),
            Stage::Live | Stage::Closing => {}
        }
        let reason = process.registers[0];
        let (set, signal) = match process.links {
            0 => (&mut process.watchers, Signal::down(reason)),
            _ => (&mut process.links, Signal::exit(reason, SignalKind::LinkedExit)),
        };
        if *set == 0 {
            process.stage = Stage::Gone;
            return Ok(());
        }
        let lowest = set.trailing_zeros() as usize;
        self.flight[i].push(lowest % PROCESSES, signal)?;
        *set &= *set - 1;
        Ok(())
    }

    #[inline(always)]
    fn run_live(&mut self, i: usize) -> Result<(), Refusal> {
        let process = &mut self.processes[i];
        let behaviour = &self.behaviours[usize::from(process.behaviour)];
        match behaviour.ops[usize::from(process.place)] {
            Op::Set(r, value) => process.set(r, value),
            Op::Copy(r, s) => process.set(r, process.get(s)),
            Op::Own(r) => process.set(r, Value::pid(i as u8 + 1)),
            Op::Add(r, s) => process.add(r, s),
            Op::Send(r, s) => process.send(&mut self.flight[i], r, Signal::message(process.get(s)))?,
            Op::Exit(r, s) => process.send(&mut self.flight[i], r, Signal::exit(process.get(s), SignalKind::Exit))?,
            Op::Link(r) => process.links |= process.send_to_other(&mut self.flight[i], i, r, Signal::LINK)?,
            Op::Unlink(r) => process.links &= !process.send_to_other(&mut self.flight[i], i, r, Signal::UNLINK)?,
            Op::Trap(flag) => process.set_trap(flag),
            Op::Spawn(r, behaviour, spawned) => self.spawn(i, r, behaviour, spawned)?,
            Op::Recv(count) => process.receive(behaviour, count)?,
            // No place of a sound node is on a clause or an after.
            Op::Clause(..) | Op::After(_) => {}
            Op::Jump(target) => process.place = target,
            Op::Same(r, value, target) => process.branch(process.get(r) == value, target),
            Op::Less(r, s, target) => process.less(r, s, target),
            Op::Stop(r) => process.end(process.get(r)),
            Op::Monitor(r) => process.watches |= process.send_to_other(&mut self.flight[i], i, r, Signal::MONITOR)?,
            Op::Demonitor(r) => process.watches &= !process.send_to_other(&mut self.flight[i], i, r, Signal::DEMONITOR)?,
            Op::End => process.end(Value::NORMAL),
        }
        Ok(())
    }

    fn spawn(&mut self, i: usize, r: Register, behaviour: u8, spawned: u8) -> Result<(), Refusal> {
        let born = &mut self.processes[usize::from(spawned - 1) % PROCESSES];
        if born.stage != Stage::Unborn {
            return Err(Refusal::NotUnborn);
        }
        *born = Process::fresh(Stage::Live, behaviour - 1, Value::pid(i as u8 + 1));
        self.processes[i].set(r, Value::pid(spawned));
        Ok(())
    }

    #[inline(always)]
    fn arrive(&mut self, to: usize, from: usize) -> Result<(), Refusal> {
        let process = &mut self.processes[to];
        if process.stage == Stage::Unborn {
            return Err(Refusal::OwnerUnborn);
        }
        let row = &mut self.flight[from];
        if row.counts[to] == 0 {
            return Err(Refusal::NoneInFlight);
        }
        if process.stage != Stage::Live {
            return self.arrive_at_ended(to, from);
        }
        let signal = row.signal(to, 0);
        let from = from as u8 + 1;
        match signal.kind() {
            SignalKind::Message => process.join(Message::of(signal.value()))?,
            SignalKind::Link => process.links |= bit(from),
            SignalKind::Unlink => process.links &= !bit(from),
            SignalKind::Exit => process.exited(from, signal.value(), from == to as u8 + 1)?,
            SignalKind::LinkedExit => process.exited_along_link(from, signal.value())?,
            SignalKind::Monitor => process.watchers |= bit(from),
            SignalKind::Demonitor => process.watchers &= !bit(from),
            SignalKind::Down => process.down(from, signal.value())?,
        }
        row.pop(to);
        Ok(())
    }

    #[inline]
    fn timeout(&mut self, i: usize) -> Result<(), Refusal> {
        let process = &mut self.processes[i];
        match process.stage {
            Stage::Unborn => Err(Refusal::OwnerUnborn),
            Stage::Live => process.give_up(&self.behaviours[usize::from(process.behaviour)]),
            Stage::Closing | Stage::Gone => Err(Refusal::NoTimeout),
        }
    }

    /// At a closing or gone process every signal is dropped; a monitor is answered.
    #[cold]
    #[inline(never)]
    fn arrive_at_ended(&mut self, to: usize, from: usize) -> Result<(), Refusal> {
        if self.flight[from].signal(to, 0).kind() == SignalKind::Monitor {
            self.flight[to].push(from, Signal::down(Value::NOPROC))?;
        }
        self.flight[from].pop(to);
        Ok(())
    }
}

/// The index of a process number; 20 outside 1 to 16.
#[inline]
fn index(process: u8) -> Result<usize, Refusal> {
    let index = usize::from(process.wrapping_sub(1));
    if index < PROCESSES {
        Ok(index)
    } else {
        Err(Refusal::BadNumber)
    }
}

#[inline]
fn bit(process: u8) -> u16 {
    1 << (process - 1)
}

/// The first clause that the message fits.
#[inline]
fn fit(patterns: &[Pattern], message: Message) -> Option<usize> {
    patterns.iter().position(|pattern| pattern.fits(message))
}

impl Row {
    #[inline]
    fn push(&mut self, to: usize, signal: Signal) -> Result<(), Refusal> {
        let count = self.counts[to];
        if usize::from(count) >= PAIR {
            return Err(Refusal::PairFull);
        }
        self.signals[to][usize::from(self.firsts[to] + count) % PAIR] = signal;
        self.counts[to] = count + 1;
        Ok(())
    }

    #[inline]
    fn pop(&mut self, to: usize) {
        self.firsts[to] = (self.firsts[to] + 1) % PAIR as u8;
        self.counts[to] -= 1;
    }
}

impl Process {
    #[inline]
    fn get(&self, r: Register) -> Value {
        self.registers[r as usize]
    }

    #[inline]
    fn set(&mut self, r: Register, value: Value) {
        self.registers[r as usize] = value;
        self.place += 1;
    }

    #[inline]
    fn add(&mut self, r: Register, s: Register) {
        match self.ints(r, s).and_then(|(x, y)| x.checked_add(y)) {
            Some(sum) => self.set(r, Value::int(sum)),
            None => self.end(Value::BADARITH),
        }
    }

    #[inline]
    fn less(&mut self, r: Register, s: Register, target: u8) {
        match self.ints(r, s) {
            Some((x, y)) => self.branch(x < y, target),
            None => self.end(Value::BADARG),
        }
    }

    /// Both registers, if both hold integers.
    #[inline]
    fn ints(&self, r: Register, s: Register) -> Option<(i32, i32)> {
        self.get(r).as_int().zip(self.get(s).as_int())
    }

    #[inline]
    fn set_trap(&mut self, flag: bool) {
        self.trap = flag;
        self.place += 1;
    }

    /// A signal to the process whose number is in r; `row` has those that it sent.
    #[inline]
    fn send(&mut self, row: &mut Row, r: Register, signal: Signal) -> Result<(), Refusal> {
        let Some(to) = self.receiver(r) else {
            self.end(Value::BADARG);
            return Ok(());
        };
        row.push(to, signal)?;
        self.place += 1;
        Ok(())
    }

    /// The same, but nothing to itself; answers the set of the process that the signal was sent to.
    #[inline]
    fn send_to_other(&mut self, row: &mut Row, own: usize, r: Register, signal: Signal) -> Result<u16, Refusal> {
        let Some(to) = self.receiver(r) else {
            self.end(Value::BADARG);
            return Ok(0);
        };
        if to == own {
            self.place += 1;
            return Ok(0);
        }
        row.push(to, signal)?;
        self.place += 1;
        Ok(1 << to)
    }

    /// The index of the process whose number is in r.
    #[inline]
    fn receiver(&self, r: Register) -> Option<usize> {
        self.get(r).as_pid().map(|to| usize::from(to - 1) % PROCESSES)
    }

    #[inline]
    fn branch(&mut self, taken: bool, target: u8) {
        self.place = if taken { target } else { self.place + 1 };
    }

    /// The process goes closing, its links and watchers unchanged.
    #[inline]
    fn end(&mut self, reason: Value) {
        self.stage = Stage::Closing;
        self.registers[0] = reason;
    }

    #[inline]
    fn join(&mut self, message: Message) -> Result<(), Refusal> {
        if usize::from(self.count) >= MAILBOX {
            return Err(Refusal::MailboxFull);
        }
        self.mail[usize::from(self.first + self.count) % MAILBOX] = message;
        self.count += 1;
        Ok(())
    }

    /// An exit signal that came along no link: lines 2 to 5.
    fn exited(&mut self, from: u8, reason: Value, own: bool) -> Result<(), Refusal> {
        if reason == Value::KILL {
            self.end(Value::KILLED);
        } else if self.trap {
            self.join(Message::note(from, reason))?;
        } else if reason != Value::NORMAL || own {
            self.end(reason);
        }
        Ok(())
    }

    /// One that came along a link, which ends by it: lines 1, 3, 4 and 5; no process has a link to itself.
    fn exited_along_link(&mut self, from: u8, reason: Value) -> Result<(), Refusal> {
        if self.links & bit(from) == 0 {
            return Ok(());
        }
        if self.trap {
            self.join(Message::note(from, reason))?;
        } else if reason != Value::NORMAL {
            self.end(reason);
        }
        self.links &= !bit(from);
        Ok(())
    }

    /// A down: a message if the watch still stands, which ends by it.
    fn down(&mut self, from: u8, reason: Value) -> Result<(), Refusal> {
        if self.watches & bit(from) != 0 {
            self.join(Message::down(from, reason))?;
            self.watches &= !bit(from);
        }
        Ok(())
    }

    #[inline]
    fn receive(&mut self, behaviour: &Behaviour, count: u8) -> Result<(), Refusal> {
        let next = usize::from(self.place) + 1;
        let Some((k, clause)) = self.first_fit(&behaviour.patterns[next..][..usize::from(count)]) else {
            return Err(if self.count == 0 { Refusal::MailboxEmpty } else { Refusal::NoFit });
        };
        // The n ops behind the recv of a sound node are clauses.
        let Op::Clause(r, s, target) = behaviour.ops[next + clause] else { return Err(Refusal::NoFit) };
        let message = self.message(k);
        self.remove(k);
        match message.sender() {
            None => self.registers[r as usize] = message.value(),
            Some(sender) => {
                self.registers[r as usize] = Value::pid(sender);
                self.registers[s as usize] = message.value();
            }
        }
        self.place = target;
        Ok(())
    }

    /// At a recv with an after, and no message that fits: on to where the after leads.
    #[inline]
    fn give_up(&mut self, behaviour: &Behaviour) -> Result<(), Refusal> {
        let place = usize::from(self.place);
        let Op::Recv(count) = behaviour.ops[place] else { return Err(Refusal::NoTimeout) };
        let behind = place + 1 + usize::from(count);
        // At place N, where the clauses of a sound node end at the latest, stands an End.
        let Op::After(target) = behaviour.ops[behind] else { return Err(Refusal::NoTimeout) };
        if self.first_fit(&behaviour.patterns[place + 1..behind]).is_some() {
            return Err(Refusal::NoTimeout);
        }
        self.place = target;
        Ok(())
    }

    /// Messages in mailbox order and, for each, clauses in their order; answers which message and which clause.
    #[inline]
    fn first_fit(&self, patterns: &[Pattern]) -> Option<(u8, usize)> {
        if self.count == 0 {
            return None;
        }
        match fit(patterns, self.message(0)) {
            Some(clause) => Some((0, clause)),
            None => self.later_fit(patterns),
        }
    }

    /// The same behind the first message; by itself the compiler makes a tighter loop of it.
    #[inline(never)]
    fn later_fit(&self, patterns: &[Pattern]) -> Option<(u8, usize)> {
        (1..self.count).find_map(|k| Some((k, fit(patterns, self.message(k))?)))
    }

    /// Message k leaves; those before it or those behind it are moved, whichever are fewer.
    #[inline]
    fn remove(&mut self, k: u8) {
        let at = |k: u8| usize::from(k) % MAILBOX;
        let first = self.first;
        if k < self.count / 2 {
            for k in (0..k).rev() {
                self.mail[at(first + k + 1)] = self.mail[at(first + k)];
            }
            self.first = (first + 1) % MAILBOX as u8;
        } else {
            for k in k + 1..self.count {
                self.mail[at(first + k - 1)] = self.mail[at(first + k)];
            }
        }
        self.count -= 1;
    }
}
