//! The step rules of document 01, sections "Steps" and "The three hands", and of requests M-100 to
//! M-102 and M-104 of document 02.
//! Every function looks for a refusal first and changes the node only afterwards, because "A
//! refused step leaves the node unchanged".

use crate::node::{
    Clause, Closing, Live, Message, Node, Op, Pattern, Signal, Stage, Value, BADARG, BADARITH,
    KILL, KILLED, MAILBOX_LIMIT, NOPROC, NORMAL, PROCESSES,
};

/// "A step is `run i` or `arrive i from j`; its owner is i."; "the step `timeout=i`, owned by i"
#[derive(Clone, Copy, Debug, PartialEq, Eq)]
pub enum Step {
    Run(u8),
    Arrive { to: u8, from: u8 },
    Timeout(u8),
}

impl Step {
    pub fn owner(self) -> u8 {
        match self {
            Step::Run(process) | Step::Timeout(process) => process,
            Step::Arrive { to, .. } => to,
        }
    }
}

/// The refusals that a step can meet.
pub const BAD_NUMBER: u8 = 20;
pub const OWNER_UNBORN: u8 = 21;
pub const RUN_OF_GONE: u8 = 22;
pub const NONE_IN_FLIGHT: u8 = 23;
pub const MAILBOX_FULL: u8 = 24;
pub const MAILBOX_EMPTY: u8 = 25;
pub const PAIR_FULL: u8 = 26;
pub const NOT_UNBORN: u8 = 27;
pub const NO_TIMEOUT: u8 = 28;
pub const NO_FIT: u8 = 29;

/// What an accepted step did. The rules do not need it; coverage counts it.
#[derive(Clone, Copy, Debug, PartialEq, Eq)]
pub enum Effect {
    /// A live process at place N ended.
    EndOfCode,
    /// A live process ran an op other than recv; its registers were these before, and `watched`
    /// tells whether it watched the process that a monitor or demonitor names.
    Ran {
        op: Op,
        registers: [Value; 4],
        watched: bool,
    },
    /// A live process ran recv and this clause took this message, so far at this index; `after`
    /// tells whether the recv has one.
    Received {
        clause: Clause,
        message: Message,
        index: usize,
        after: bool,
    },
    /// A closing process sent its exit reason to a link.
    ToldLink,
    /// A closing process without links sent its reason to a watcher.
    ToldWatcher,
    /// A closing process without links and watchers went gone.
    WentGone,
    /// A signal other than monitor reached a closing or a gone process.
    DroppedAtEnded(Signal),
    /// A monitor signal reached a closing or a gone process, which told that it has ended.
    ToldNoproc,
    /// A signal other than exit reached a live process and was taken.
    Taken(Signal),
    /// A down signal reached a live process that does not watch the sender.
    DroppedUnwatched,
    /// An exit signal reached a live process, whose trap flag was this, and this line, 1 to 5,
    /// applied. `linked` is the signal's b; `from_link` tells whether the sender was a link.
    ExitLine {
        line: u8,
        reason: Value,
        linked: bool,
        from_link: bool,
        trap: bool,
    },
    /// A live process gave up waiting at the recv of this place.
    TimedOut { place: usize },
}

/// Plays one step. On a refusal the node is unchanged and the answer is the refusal's number.
pub fn take(node: &mut Node, step: Step) -> Result<Effect, u8> {
    // "Checks run in this order: 31, 30, 32, 20, 21, 22 or 23, then the rest"
    check_numbers(step)?;
    // "21 owner unborn"
    if *node.stage(step.owner()) == Stage::Unborn {
        return Err(OWNER_UNBORN);
    }
    match step {
        Step::Run(process) => run(node, process),
        Step::Arrive { to, from } => arrive(node, to, from),
        Step::Timeout(process) => timeout(node, process),
    }
}

/// "20 a process number outside 1 to 16"
fn check_numbers(step: Step) -> Result<(), u8> {
    let known = |process: u8| (1..=PROCESSES).contains(&process);
    let good = match step {
        Step::Run(process) | Step::Timeout(process) => known(process),
        Step::Arrive { to, from } => known(to) && known(from),
    };
    if good {
        Ok(())
    } else {
        Err(BAD_NUMBER)
    }
}

fn run(node: &mut Node, process: u8) -> Result<Effect, u8> {
    match node.stage(process) {
        Stage::Unborn => Err(OWNER_UNBORN),
        Stage::Live(_) => run_live(node, process),
        Stage::Closing(_) => run_closing(node, process),
        // "22 run of a gone process"
        Stage::Gone => Err(RUN_OF_GONE),
    }
}

/// "At place N the process ends with a0. Otherwise the op decides; unless said, the place rises
/// by 1."
fn run_live(node: &mut Node, process: u8) -> Result<Effect, u8> {
    let Some(op) = node.current_op(process) else {
        end(node, process, NORMAL);
        return Ok(Effect::EndOfCode);
    };
    let live = node.live(process);
    let (registers, watched) = (live.registers, watches_addressee(live, op));
    match op {
        Op::Set(r, value) => set(node, process, r, value),
        Op::Copy(r, s) => copy(node, process, r, s),
        Op::SelfNumber(r) => set(node, process, r, Value::Pid(process)),
        Op::Add(r, s) => add(node, process, r, s),
        Op::Send(r, s) => send(node, process, r, s)?,
        Op::Exit(r, s) => exit(node, process, r, s)?,
        Op::Link(r) => link(node, process, r)?,
        Op::Unlink(r) => unlink(node, process, r)?,
        Op::Trap(flag) => trap(node, process, flag),
        Op::Spawn {
            r,
            behaviour,
            process: spawned,
        } => spawn(node, process, r, behaviour, spawned)?,
        Op::Recv(count) => return recv(node, process, count),
        // "no place is on a clause"; "a node with a place on one [an `after`] is not sound": loading
        // and the steps keep every place off both.
        Op::Clause(_) | Op::After(_) => panic!("process {process} has its place on {op:?}"),
        Op::Jump(target) => node.live_mut(process).place = target,
        Op::Same(r, value, target) => same(node, process, r, value, target),
        Op::Less(r, s, target) => less(node, process, r, s, target),
        Op::Stop(r) => stop(node, process, r),
        Op::Monitor(r) => monitor(node, process, r)?,
        Op::Demonitor(r) => demonitor(node, process, r)?,
    }
    Ok(Effect::Ran {
        op,
        registers,
        watched,
    })
}

/// Whether a process watches the one that its op, a monitor or a demonitor, names.
fn watches_addressee(live: &Live, op: Op) -> bool {
    let (Op::Monitor(r) | Op::Demonitor(r)) = op else {
        return false;
    };
    matches!(live.registers[r], Value::Pid(other) if live.watches.contains(&other))
}

fn register(node: &Node, process: u8, r: usize) -> Value {
    node.live(process).registers[r]
}

fn rise(node: &mut Node, process: u8) {
    node.live_mut(process).place += 1;
}

/// "set,r,V / copy,r,s / self,r: r becomes V / s / own number"
fn set(node: &mut Node, process: u8, r: usize, value: Value) {
    node.live_mut(process).registers[r] = value;
    rise(node, process);
}

fn copy(node: &mut Node, process: u8, r: usize, s: usize) {
    let value = register(node, process, s);
    set(node, process, r, value);
}

/// "add,r,s: r becomes r+s; not both integers, or sum outside i: ends with a4"
fn add(node: &mut Node, process: u8, r: usize, s: usize) {
    let pair = (register(node, process, r), register(node, process, s));
    let sum = match pair {
        (Value::Int(left), Value::Int(right)) => left.checked_add(right),
        _ => None,
    };
    match sum {
        Some(sum) => set(node, process, r, Value::Int(sum)),
        None => end(node, process, BADARITH),
    }
}

/// The process number in a register, if it holds one.
fn addressee(node: &Node, process: u8, r: usize) -> Option<u8> {
    match register(node, process, r) {
        Value::Pid(number) => Some(number),
        Value::Int(_) | Value::Atom(_) => None,
    }
}

/// "26 pair full"
fn check_room(node: &Node, from: u8, to: u8) -> Result<(), u8> {
    if node.pair_is_full(from, to) {
        Err(PAIR_FULL)
    } else {
        Ok(())
    }
}

/// "send,r,s: sends msg(s) to r"
fn send(node: &mut Node, process: u8, r: usize, s: usize) -> Result<(), u8> {
    let signal = Signal::Msg(register(node, process, s));
    send_to_register(node, process, r, signal)
}

/// "exit,r,s: sends exit(s,0) to r"
fn exit(node: &mut Node, process: u8, r: usize, s: usize) -> Result<(), u8> {
    let signal = Signal::Exit {
        reason: register(node, process, s),
        linked: false,
    };
    send_to_register(node, process, r, signal)
}

/// "If r of send, exit, link or unlink holds no p, the process ends with a3, before 26 is looked
/// at."
fn send_to_register(node: &mut Node, process: u8, r: usize, signal: Signal) -> Result<(), u8> {
    let Some(to) = addressee(node, process, r) else {
        end(node, process, BADARG);
        return Ok(());
    };
    check_room(node, process, to)?;
    node.push_signal(process, to, signal);
    rise(node, process);
    Ok(())
}

/// "link,r: adds r to own links, sends link"
fn link(node: &mut Node, process: u8, r: usize) -> Result<(), u8> {
    let join = |own: &mut Live, other: u8| own.links.insert(other);
    send_to_another(node, process, r, Signal::Link, join)
}

/// "unlink,r: takes r from own links, sends unlink"
fn unlink(node: &mut Node, process: u8, r: usize) -> Result<(), u8> {
    let leave = |own: &mut Live, other: u8| own.links.remove(&other);
    send_to_another(node, process, r, Signal::Unlink, leave)
}

/// "Monitor adds the target to the first set and sends"; the first set is "of those it watches"
fn monitor(node: &mut Node, process: u8, r: usize) -> Result<(), u8> {
    let join = |own: &mut Live, other: u8| own.watches.insert(other);
    send_to_another(node, process, r, Signal::Monitor, join)
}

/// "demonitor removes and sends"
fn demonitor(node: &mut Node, process: u8, r: usize) -> Result<(), u8> {
    let leave = |own: &mut Live, other: u8| own.watches.remove(&other);
    send_to_another(node, process, r, Signal::Demonitor, leave)
}

/// Changes one of the process's own sets by the addressee, and sends. Of link and unlink: "to
/// itself: nothing"; of monitor and demonitor: "to itself both do nothing; r without a p ends with
/// a3".
fn send_to_another(
    node: &mut Node,
    process: u8,
    r: usize,
    signal: Signal,
    change: fn(&mut Live, u8) -> bool,
) -> Result<(), u8> {
    let Some(other) = addressee(node, process, r) else {
        end(node, process, BADARG);
        return Ok(());
    };
    if other != process {
        check_room(node, process, other)?;
        change(node.live_mut(process), other);
        node.push_signal(process, other, signal);
    }
    rise(node, process);
    Ok(())
}

/// "trap,f: trap flag becomes f, 0 or 1"
fn trap(node: &mut Node, process: u8, flag: bool) {
    node.live_mut(process).trap = flag;
    rise(node, process);
}

/// "spawn,r,b,q: process q goes live in behaviour b, place 0, its r0 the spawner's number, other
/// registers i0, no links, trap 0, no mail; r becomes q"
fn spawn(node: &mut Node, process: u8, r: usize, behaviour: u8, spawned: u8) -> Result<(), u8> {
    // "27 spawned number not unborn"
    if *node.stage(spawned) != Stage::Unborn {
        return Err(NOT_UNBORN);
    }
    let fresh = Live::fresh(behaviour, Value::Pid(process));
    node.set_stage(spawned, Stage::Live(fresh));
    set(node, process, r, Value::Pid(spawned));
    Ok(())
}

/// "same,r,V,t: place t if r equals V in kind and number"
fn same(node: &mut Node, process: u8, r: usize, value: Value, target: usize) {
    if register(node, process, r) == value {
        node.live_mut(process).place = target;
    } else {
        rise(node, process);
    }
}

/// "less,r,s,t: place t if r < s; not both integers: ends with a3"
fn less(node: &mut Node, process: u8, r: usize, s: usize, target: usize) {
    let pair = (register(node, process, r), register(node, process, s));
    match pair {
        (Value::Int(left), Value::Int(right)) if left < right => {
            node.live_mut(process).place = target;
        }
        (Value::Int(_), Value::Int(_)) => rise(node, process),
        _ => end(node, process, BADARG),
    }
}

/// "stop,r: ends with the value of r"
fn stop(node: &mut Node, process: u8, r: usize) {
    let reason = register(node, process, r);
    end(node, process, reason);
}

/// "The next n ops are its clauses". "That message leaves, the rest keep their order. A value goes
/// to r; of a note the sender goes to r, then the reason to s. Place becomes t."; "24 and recv treat
/// it [a down] like a note"
fn recv(node: &mut Node, process: u8, count: usize) -> Result<Effect, u8> {
    let (index, clause) = match search(node, process, count) {
        Search::Fit(index, clause) => (index, clause),
        // "25 keeps the empty mailbox."
        Search::Empty => return Err(MAILBOX_EMPTY),
        // "29, in 25's place in the order, when the mailbox has messages and none fits."
        Search::Unfit => return Err(NO_FIT),
    };
    let after = after_of(node, process, count).is_some();
    let live = node.live_mut(process);
    let message = live.mailbox.remove(index);
    match message {
        Message::Value(value) => live.registers[clause.r] = value,
        Message::Note { sender, reason } | Message::Down { sender, reason } => {
            live.registers[clause.r] = Value::Pid(sender);
            live.registers[clause.s] = reason;
        }
    }
    live.place = clause.target;
    Ok(Effect::Received {
        clause,
        message,
        index,
        after,
    })
}

/// What the search of a mailbox says.
#[derive(Clone, Copy, Debug, PartialEq, Eq)]
pub enum Search {
    /// It has no message.
    Empty,
    /// It has messages, and none fits a clause.
    Unfit,
    /// The message at this index is the first that fits, and this clause the first that it fits.
    Fit(usize, Clause),
}

/// "Messages are tried in mailbox order and, for each, clauses in their order; the first fit wins.";
/// "a row that hears nothing from one that hears the wrong thing. The search of the mailbox has to
/// say which"
fn search(node: &Node, process: u8, count: usize) -> Search {
    let live = node.live(process);
    if live.mailbox.is_empty() {
        return Search::Empty;
    }
    let clauses = &node.code(live.behaviour)[live.place + 1..=live.place + count];
    for (index, message) in live.mailbox.iter().enumerate() {
        for op in clauses {
            let Op::Clause(clause) = op else {
                panic!("recv is followed by {op:?} instead of a clause");
            };
            if fits(clause.pattern, message) {
                return Search::Fit(index, *clause);
            }
        }
    }
    Search::Unfit
}

/// "k is any (notes too), int, atom, pid, note or one exact V (values only)"; "24 and recv treat it
/// [a down] like a note, its kind being `down`"
pub fn fits(pattern: Pattern, message: &Message) -> bool {
    match (pattern, message) {
        (Pattern::Any, _) => true,
        (Pattern::Note, Message::Note { .. }) => true,
        (Pattern::Down, Message::Down { .. }) => true,
        (Pattern::Int, Message::Value(Value::Int(_))) => true,
        (Pattern::Atom, Message::Value(Value::Atom(_))) => true,
        (Pattern::Pid, Message::Value(Value::Pid(_))) => true,
        (Pattern::Exact(wanted), Message::Value(value)) => wanted == *value,
        _ => false,
    }
}

/// "It moves a live process at such a recv to t if no message fits."; "Errors: 28, given for a
/// timeout directly after 21, when the owner is not live at a recv with `after`, or a message fits."
fn timeout(node: &mut Node, process: u8) -> Result<Effect, u8> {
    let awaited = awaited(node, process).ok_or(NO_TIMEOUT)?;
    let target = awaited.after.ok_or(NO_TIMEOUT)?;
    if let Search::Fit(..) = awaited.search {
        return Err(NO_TIMEOUT);
    }
    let live = node.live_mut(process);
    let place = live.place;
    live.place = target;
    Ok(Effect::TimedOut { place })
}

/// What a live process at a recv waits for.
pub struct Awaited {
    /// The t of the recv's `after`, if it has one.
    pub after: Option<usize>,
    pub search: Search,
}

/// What a process waits for that is live at a recv; None for every other one.
pub fn awaited(node: &Node, process: u8) -> Option<Awaited> {
    if !matches!(node.stage(process), Stage::Live(_)) {
        return None;
    }
    let Some(Op::Recv(count)) = node.current_op(process) else {
        return None;
    };
    Some(Awaited {
        after: after_of(node, process, count),
        search: search(node, process, count),
    })
}

/// The t of the op "directly behind the last clause of a recv" at which a process stands, if it is
/// an `after`. A code that ends with its clauses has none.
fn after_of(node: &Node, process: u8, count: usize) -> Option<usize> {
    let live = node.live(process);
    match node.code(live.behaviour).get(live.place + count + 1) {
        Some(&Op::After(target)) => Some(target),
        _ => None,
    }
}

/// "Ending with v: the process goes closing with reason v and its links unchanged; registers and
/// mail are lost."; "An ended process keeps its watchers"
fn end(node: &mut Node, process: u8, reason: Value) {
    let live = node.live(process);
    let closing = Closing {
        reason,
        links: live.links.clone(),
        watchers: live.watchers.clone(),
    };
    node.set_stage(process, Stage::Closing(closing));
}

/// "Run, closing: sends exit(v,1) to its lowest-numbered link and drops it from the set; with no
/// links it goes gone."; "closing, it sends them [its watchers] down with its reason, one a run,
/// lowest first, after its exit signals, and goes gone only then"
fn run_closing(node: &mut Node, process: u8) -> Result<Effect, u8> {
    let Stage::Closing(closing) = node.stage(process) else {
        panic!("process {process} is not closing");
    };
    let mut closing = closing.clone();
    let reason = closing.reason;
    let (lowest, signal, effect) = if let Some(link) = closing.links.pop_first() {
        let exit = Signal::Exit {
            reason,
            linked: true,
        };
        (link, exit, Effect::ToldLink)
    } else if let Some(watcher) = closing.watchers.pop_first() {
        (watcher, Signal::Down(reason), Effect::ToldWatcher)
    } else {
        node.set_stage(process, Stage::Gone);
        return Ok(Effect::WentGone);
    };
    check_room(node, process, lowest)?;
    node.push_signal(process, lowest, signal);
    node.set_stage(process, Stage::Closing(closing));
    Ok(effect)
}

/// "Arrive takes the oldest signal from j to i."
fn arrive(node: &mut Node, to: u8, from: u8) -> Result<Effect, u8> {
    // "23 none in flight"
    let signal = *node.flight(from, to).first().ok_or(NONE_IN_FLIGHT)?;
    let effect = match node.stage(to) {
        Stage::Unborn => return Err(OWNER_UNBORN),
        Stage::Closing(_) | Stage::Gone => arrive_ended(node, to, from, signal)?,
        Stage::Live(_) => arrive_live(node, to, from, signal)?,
    };
    node.remove_oldest(from, to);
    Ok(effect)
}

/// "Closing or gone i: the signal is dropped."; "Monitor arriving at a closing or gone process puts
/// down(a5), noproc, in flight back, so 26 can now meet an arrival."
fn arrive_ended(node: &mut Node, to: u8, from: u8, signal: Signal) -> Result<Effect, u8> {
    if signal != Signal::Monitor {
        return Ok(Effect::DroppedAtEnded(signal));
    }
    check_room(node, to, from)?;
    node.push_signal(to, from, Signal::Down(NOPROC));
    Ok(Effect::ToldNoproc)
}

/// "Live i: msg joins the mailbox; link adds j; unlink removes j; exit(v,b), first line that
/// applies"; "Monitor arriving at a live process adds the sender to its watchers; demonitor removes
/// it."
fn arrive_live(node: &mut Node, to: u8, from: u8, signal: Signal) -> Result<Effect, u8> {
    match signal {
        Signal::Msg(value) => join_mailbox(node, to, Message::Value(value))?,
        Signal::Link => {
            node.live_mut(to).links.insert(from);
        }
        Signal::Unlink => {
            node.live_mut(to).links.remove(&from);
        }
        Signal::Monitor => {
            node.live_mut(to).watchers.insert(from);
        }
        Signal::Demonitor => {
            node.live_mut(to).watchers.remove(&from);
        }
        Signal::Exit { reason, linked } => return arrive_exit(node, to, from, reason, linked),
        Signal::Down(reason) => return arrive_down(node, to, from, reason),
    }
    Ok(Effect::Taken(signal))
}

/// "Down joins the mailbox and ends the watch only if the watch still stands; else it is dropped."
fn arrive_down(node: &mut Node, to: u8, from: u8, reason: Value) -> Result<Effect, u8> {
    if !node.live(to).watches.contains(&from) {
        return Ok(Effect::DroppedUnwatched);
    }
    let down = Message::Down {
        sender: from,
        reason,
    };
    join_mailbox(node, to, down)?;
    node.live_mut(to).watches.remove(&from);
    Ok(Effect::Taken(Signal::Down(reason)))
}

/// "24 mailbox full where a message or note would join"; "24 and recv treat it [a down] like a
/// note"
fn join_mailbox(node: &mut Node, process: u8, message: Message) -> Result<(), u8> {
    let mailbox = &mut node.live_mut(process).mailbox;
    if mailbox.len() >= MAILBOX_LIMIT {
        return Err(MAILBOX_FULL);
    }
    mailbox.push(message);
    Ok(())
}

/// "a link is gone once its exit signal has been received": `linked` is the signal's b.
fn drop_link(node: &mut Node, to: u8, from: u8, linked: bool) {
    if linked {
        node.live_mut(to).links.remove(&from);
    }
}

/// The five lines for exit(v,b) from j at a live i.
fn arrive_exit(
    node: &mut Node,
    to: u8,
    from: u8,
    reason: Value,
    linked: bool,
) -> Result<Effect, u8> {
    let live = node.live(to);
    let trap = live.trap;
    let from_link = live.links.contains(&from);
    let line = if linked && !from_link {
        // "1. b=1, j not linked: dropped."
        1
    } else if !linked && reason == KILL {
        // "2. b=0, v=a1: i ends with a2."
        end(node, to, KILLED);
        2
    } else if trap {
        // "3. trap 1: note (j,v) joins the mailbox; if b=1, j leaves the links."
        let note = Message::Note {
            sender: from,
            reason,
        };
        join_mailbox(node, to, note)?;
        drop_link(node, to, from, linked);
        3
    } else if reason == NORMAL && from != to {
        // "4. v=a0, j is not i: dropped"; "Where the exit rules drop a linked a0 because trap is
        // 0, the sender now leaves the links."
        drop_link(node, to, from, linked);
        4
    } else {
        // "5. i ends with v."; "A process that a linked exit ends also takes that sender out
        // before closing."
        drop_link(node, to, from, linked);
        end(node, to, reason);
        5
    };
    Ok(Effect::ExitLine {
        line,
        reason,
        linked,
        from_link,
        trap,
    })
}
