//! Valid plans: behaviours made of short runs of ops that make processes act on one another.

use crate::node::{Clause, Op, Pattern, Value};
use crate::random::Random;
use crate::writer;

/// What a plan is rich in.
#[derive(Clone, Copy, Debug, PartialEq, Eq)]
pub enum Theme {
    Mixed,
    /// Loops of send and exit, so that mailboxes and pairs become full.
    Flood,
    Links,
    Monitors,
    Exits,
    Receive,
    Spawns,
    Arithmetic,
    /// Signs that watch rows, which send a sign up to as many signals as a pair holds and end.
    Signs,
    /// Processes that wait for some kinds of messages only and give up at times.
    Silence,
    /// A process that ties itself to another one and takes the tie back; the other one sends a row
    /// of messages and ends.
    Race(Tie),
    /// The same with a full mailbox: the other one ends just after the tie is taken back.
    FullRace(Tie),
}

const THEMES: [(Theme, usize); 14] = [
    (Theme::Mixed, 2),
    (Theme::Flood, 2),
    (Theme::Links, 2),
    (Theme::Monitors, 2),
    (Theme::Exits, 2),
    (Theme::Receive, 2),
    (Theme::Spawns, 2),
    (Theme::Arithmetic, 3),
    (Theme::Signs, 5),
    (Theme::Silence, 4),
    (Theme::Race(Tie::Link), 2),
    (Theme::Race(Tie::Watch), 1),
    (Theme::FullRace(Tie::Link), 3),
    (Theme::FullRace(Tie::Watch), 3),
];

/// What lets a process hear of another one's end.
#[derive(Clone, Copy, Debug, PartialEq, Eq)]
pub enum Tie {
    Link,
    Watch,
}

impl Tie {
    /// The op that ties a process to the one in its register r.
    fn tied(self, r: usize) -> Op {
        match self {
            Tie::Link => Op::Link(r),
            Tie::Watch => Op::Monitor(r),
        }
    }

    /// The op that takes the tie back.
    fn untied(self, r: usize) -> Op {
        match self {
            Tie::Link => Op::Unlink(r),
            Tie::Watch => Op::Demonitor(r),
        }
    }
}

pub fn any_theme(random: &mut Random) -> Theme {
    let weights = THEMES.map(|(_, weight)| weight);
    THEMES[random.weighted(&weights)].0
}

/// A plan before it is text.
#[derive(Clone, Debug)]
pub struct Draft {
    pub behaviours: Vec<Vec<Op>>,
    /// Process and behaviour, by rising process.
    pub starts: Vec<(u8, u8)>,
}

impl Draft {
    /// The lines of the plan, without byte 10.
    pub fn lines(&self) -> Vec<String> {
        writer::lines(&self.behaviours, &self.starts)
    }

    pub fn text(&self) -> Vec<u8> {
        writer::text_of(&self.lines())
    }

    /// The number of the line of a behaviour's op, both counted from 0.
    pub fn line_of(&self, behaviour: usize, place: usize) -> usize {
        let before: usize = self.behaviours[..behaviour]
            .iter()
            .map(|code| code.len() + 1)
            .sum();
        2 + before + 1 + place + 1
    }
}

/// A target that is chosen when the whole code is known.
const ANYWHERE: usize = usize::MAX;
/// Place N, which is known by then.
const END: usize = usize::MAX - 1;
/// The largest N.
const LONGEST: usize = 32;

/// A valid plan.
pub fn draft(random: &mut Random, theme: Theme) -> Draft {
    let count = match theme {
        Theme::Race(_) | Theme::FullRace(_) | Theme::Signs | Theme::Silence => 3,
        Theme::Receive => random.between(2, 3),
        _ => random.weighted(&[0, 2, 4, 4, 3, 2, 1, 1, 1]),
    };
    let population = population(random, theme);
    let behaviours = (0..count)
        .map(|index| code(random, theme, index, count, &population))
        .collect();
    let starts = match theme {
        Theme::Race(_) | Theme::FullRace(_) => race_starts(random, &population),
        Theme::Signs | Theme::Silence => sign_starts(random, &population),
        _ => starts(random, theme, count, &population),
    };
    Draft { behaviours, starts }
}

/// The first process of the population watches, the second crashes, the others do the third
/// behaviour.
fn race_starts(random: &mut Random, population: &[u8]) -> Vec<(u8, u8)> {
    let mut starts = vec![(population[0], 1), (population[1], 2)];
    for &process in &population[2..] {
        if random.chance(50) {
            starts.push((process, 3));
        }
    }
    starts.sort_unstable();
    starts
}

/// The first process of the population is a sign or one that waits, the second a row or a sender, the
/// others do any behaviour.
fn sign_starts(random: &mut Random, population: &[u8]) -> Vec<(u8, u8)> {
    let mut starts = vec![(population[0], 1), (population[1], 2)];
    for &process in &population[2..] {
        starts.push((process, random.between(1, 3) as u8));
    }
    starts.sort_unstable();
    starts
}

/// A plan whose first process accepts `run=1` for ever.
pub fn endless_draft(random: &mut Random) -> Draft {
    let mut code = vec![Op::Jump(0)];
    if random.chance(50) {
        let zero = Value::Int(0);
        code = vec![Op::Set(1, zero), Op::Same(1, zero, 0), Op::Stop(1)];
    }
    Draft {
        behaviours: vec![code],
        starts: vec![(1, 1)],
    }
}

/// The process numbers that the plan mostly names, so that its processes meet.
fn population(random: &mut Random, theme: Theme) -> Vec<u8> {
    let size = match theme {
        Theme::Spawns => random.between(4, 9),
        _ => random.between(2, 5),
    };
    let mut population = Vec::new();
    while population.len() < size {
        let process = random.between(1, 16) as u8;
        if !population.contains(&process) {
            population.push(process);
        }
    }
    population
}

fn starts(random: &mut Random, theme: Theme, count: usize, population: &[u8]) -> Vec<(u8, u8)> {
    let (member, stranger) = match theme {
        Theme::Spawns => (30, 1),
        Theme::Receive => (95, 1),
        _ => (80, 5),
    };
    let mut starts = Vec::new();
    for process in 1..=16 {
        let percent = if population.contains(&process) {
            member
        } else {
            stranger
        };
        if random.chance(percent) {
            starts.push((process, random.between(1, count) as u8));
        }
    }
    if starts.is_empty() {
        starts.push((population[0], 1));
    }
    starts
}

/// A short run of ops that belong together; the method of the same name writes it.
#[derive(Clone, Copy, Debug, PartialEq, Eq)]
enum Part {
    Sends,
    Flood,
    Exits,
    Links,
    Unlinks,
    Trap,
    Spawn,
    Sum,
    Receive,
    Branch,
    Plain,
    Stop,
    FullPair,
    LinkAndUnlink,
    Monitors,
    Demonitors,
    MonitorAndDemonitor,
    Serve,
    Crash,
    SendRow,
    Select,
    Wait,
}

// How likely each part is under a theme.
const MIXED_PARTS: &[(Part, usize)] = &[
    (Part::Sends, 6),
    (Part::Flood, 2),
    (Part::Exits, 4),
    (Part::Links, 4),
    (Part::Unlinks, 4),
    (Part::Trap, 3),
    (Part::Spawn, 3),
    (Part::Sum, 4),
    (Part::Receive, 6),
    (Part::Branch, 4),
    (Part::Plain, 4),
    (Part::Stop, 1),
    (Part::FullPair, 1),
    (Part::LinkAndUnlink, 2),
    (Part::Monitors, 4),
    (Part::Demonitors, 3),
    (Part::MonitorAndDemonitor, 2),
    (Part::Serve, 4),
    (Part::Crash, 2),
    (Part::SendRow, 4),
    (Part::Select, 4),
    (Part::Wait, 4),
];

const FLOOD_PARTS: &[(Part, usize)] = &[
    (Part::Sends, 4),
    (Part::Flood, 14),
    (Part::Exits, 2),
    (Part::Links, 2),
    (Part::Unlinks, 1),
    (Part::Trap, 4),
    (Part::Spawn, 1),
    (Part::Sum, 1),
    (Part::Receive, 3),
    (Part::Branch, 1),
    (Part::Plain, 1),
    (Part::FullPair, 3),
    (Part::LinkAndUnlink, 1),
    (Part::Monitors, 2),
    (Part::Demonitors, 2),
    (Part::MonitorAndDemonitor, 3),
    (Part::Serve, 2),
    (Part::Crash, 1),
    (Part::SendRow, 2),
    (Part::Select, 1),
    (Part::Wait, 1),
];

const LINKS_PARTS: &[(Part, usize)] = &[
    (Part::Sends, 2),
    (Part::Flood, 1),
    (Part::Exits, 3),
    (Part::Links, 8),
    (Part::Unlinks, 4),
    (Part::Trap, 4),
    (Part::Spawn, 1),
    (Part::Sum, 1),
    (Part::Receive, 4),
    (Part::Branch, 1),
    (Part::Plain, 3),
    (Part::Stop, 1),
    (Part::FullPair, 3),
    (Part::LinkAndUnlink, 10),
    (Part::Serve, 3),
    (Part::Crash, 4),
    (Part::SendRow, 1),
    (Part::Select, 1),
    (Part::Wait, 2),
];

const MONITORS_PARTS: &[(Part, usize)] = &[
    (Part::Sends, 2),
    (Part::Exits, 4),
    (Part::Links, 2),
    (Part::Trap, 3),
    (Part::Spawn, 2),
    (Part::Receive, 4),
    (Part::Plain, 2),
    (Part::Stop, 1),
    (Part::FullPair, 2),
    (Part::Monitors, 10),
    (Part::Demonitors, 4),
    (Part::MonitorAndDemonitor, 4),
    (Part::Serve, 2),
    (Part::Crash, 3),
    (Part::SendRow, 1),
    (Part::Select, 3),
    (Part::Wait, 3),
];

const EXITS_PARTS: &[(Part, usize)] = &[
    (Part::Sends, 2),
    (Part::Flood, 1),
    (Part::Exits, 14),
    (Part::Links, 6),
    (Part::Unlinks, 2),
    (Part::Trap, 6),
    (Part::Spawn, 1),
    (Part::Sum, 1),
    (Part::Receive, 4),
    (Part::Branch, 1),
    (Part::Plain, 2),
    (Part::Stop, 2),
    (Part::FullPair, 1),
    (Part::LinkAndUnlink, 2),
    (Part::Monitors, 2),
    (Part::Serve, 3),
    (Part::Crash, 2),
    (Part::SendRow, 2),
    (Part::Select, 4),
    (Part::Wait, 2),
];

const RECEIVE_PARTS: &[(Part, usize)] = &[
    (Part::Sends, 4),
    (Part::Exits, 2),
    (Part::Links, 1),
    (Part::Trap, 4),
    (Part::Receive, 4),
    (Part::Plain, 1),
    (Part::Monitors, 3),
    (Part::Serve, 4),
    (Part::SendRow, 10),
    (Part::Select, 10),
    (Part::Wait, 6),
];

const SPAWNS_PARTS: &[(Part, usize)] = &[
    (Part::Sends, 5),
    (Part::Flood, 1),
    (Part::Exits, 2),
    (Part::Links, 3),
    (Part::Unlinks, 1),
    (Part::Trap, 2),
    (Part::Spawn, 5),
    (Part::Sum, 1),
    (Part::Receive, 5),
    (Part::Branch, 1),
    (Part::Plain, 2),
    (Part::Stop, 4),
    (Part::LinkAndUnlink, 1),
    (Part::Monitors, 3),
    (Part::Demonitors, 1),
    (Part::Serve, 4),
    (Part::Crash, 2),
    (Part::SendRow, 1),
    (Part::Select, 1),
    (Part::Wait, 2),
];

const ARITHMETIC_PARTS: &[(Part, usize)] = &[
    (Part::Sends, 2),
    (Part::Exits, 1),
    (Part::Links, 1),
    (Part::Trap, 1),
    (Part::Spawn, 1),
    (Part::Sum, 12),
    (Part::Receive, 2),
    (Part::Branch, 8),
    (Part::Plain, 6),
    (Part::Stop, 1),
    (Part::Serve, 3),
    (Part::Wait, 1),
];

fn parts_of(theme: Theme) -> &'static [(Part, usize)] {
    match theme {
        Theme::Mixed => MIXED_PARTS,
        Theme::Flood => FLOOD_PARTS,
        Theme::Links => LINKS_PARTS,
        Theme::Monitors | Theme::Signs => MONITORS_PARTS,
        Theme::Exits | Theme::Race(_) | Theme::FullRace(_) => EXITS_PARTS,
        Theme::Receive | Theme::Silence => RECEIVE_PARTS,
        Theme::Spawns => SPAWNS_PARTS,
        Theme::Arithmetic => ARITHMETIC_PARTS,
    }
}

/// One behaviour in the making.
struct Writer<'a> {
    random: &'a mut Random,
    population: &'a [u8],
    behaviours: usize,
    ops: Vec<Op>,
}

/// A recv in the making: its place, whether it gets an `after`, and the place behind it all.
#[derive(Clone, Copy)]
struct Recv {
    start: usize,
    after: bool,
    behind: usize,
}

/// The behaviour at this index of a plan.
fn code(
    random: &mut Random,
    theme: Theme,
    index: usize,
    behaviours: usize,
    population: &[u8],
) -> Vec<Op> {
    let mut writer = Writer {
        random,
        population,
        behaviours,
        ops: Vec::new(),
    };
    match (theme, index) {
        (Theme::Signs, 0) => writer.sign(),
        (Theme::Signs, 1) => writer.row(),
        (Theme::Silence, 0) => writer.waiter(),
        (Theme::Silence, 1) => writer.sender(),
        (Theme::Race(tie), 0) => writer.watcher(tie),
        (Theme::Race(_), 1) => writer.crasher(),
        (Theme::FullRace(tie), 0) => writer.late_watcher(tie),
        (Theme::FullRace(tie), 1) => writer.full_crasher(tie),
        (Theme::FullRace(_), 2) => writer.visitor(),
        (Theme::Receive, 0) => writer.receiver(),
        (Theme::Receive, 1) => writer.sender(),
        (Theme::Spawns, 0) => {
            writer.spawn();
            writer.spawn();
            writer.parts(theme);
        }
        _ => writer.parts(theme),
    }
    writer.finish()
}

impl Writer<'_> {
    /// A code made of parts that the theme makes likely.
    fn parts(&mut self, theme: Theme) {
        let wanted = match self.random.below(10) {
            0 => 1,
            1..=6 => self.random.between(3, 14),
            _ => self.random.between(10, LONGEST),
        };
        if wanted > 1 && self.random.chance(40) {
            self.trap();
        }
        while self.ops.len() < wanted {
            self.add_part(theme);
        }
        if self.random.chance(75) {
            self.push(Op::Jump(ANYWHERE));
        }
    }

    /// Takes messages for ever, in two selections.
    fn receiver(&mut self) {
        self.push(Op::Trap(true));
        if self.random.chance(50) {
            self.monitors();
        }
        self.select();
        if self.random.chance(50) {
            self.delay(2);
            self.select();
        }
        self.push(Op::Jump(1));
    }

    /// Sends rows of messages, then takes some itself or ends.
    fn sender(&mut self) {
        if self.random.chance(50) {
            self.push(Op::Trap(true));
        }
        for _ in 0..self.random.between(1, 2) {
            self.send_row();
        }
        if self.random.chance(50) {
            self.select();
        }
        if self.random.chance(70) {
            self.push(Op::Jump(0));
        }
    }

    /// Waits once or twice, then mostly again. The last recv may be without an `after`.
    fn waiter(&mut self) {
        if self.random.chance(60) {
            self.push(Op::Trap(true));
        }
        if self.random.chance(30) {
            self.monitors();
        }
        let start = self.ops.len();
        if self.random.chance(60) {
            self.wait(100);
            self.delay(2);
        }
        self.wait(75);
        if self.random.chance(60) {
            self.push(Op::Jump(start));
        }
    }

    /// Watches a row and lets it go on by a message, at times watches another process, then takes
    /// what it hears.
    fn sign(&mut self) {
        let trapping = self.random.chance(60);
        if trapping {
            self.push(Op::Trap(true));
        }
        self.delay(6);
        self.push(Op::Set(1, Value::Pid(self.population[1])));
        self.push(Op::Monitor(1));
        if self.random.chance(40) {
            self.push(Op::Link(1));
        }
        if self.random.chance(80) {
            self.push(Op::Send(1, 1));
        }
        self.delay(3);
        match self.random.below(6) {
            0 => self.push(Op::Demonitor(1)),
            1..=3 => self.push(Op::Monitor(1)),
            4 => self.monitors(),
            _ => {}
        }
        let start = self.ops.len();
        if self.random.chance(75) {
            self.wait_for_one_kind(trapping);
        }
        if self.random.chance(30) {
            self.receive();
        } else {
            self.select();
        }
        self.push(Op::Jump(start));
    }

    /// A recv that takes one kind only. What it takes the process sends to itself, unless it is a
    /// down: other messages may come before it.
    fn wait_for_one_kind(&mut self, trapping: bool) {
        self.push(Op::SelfNumber(3));
        let pattern = match self.random.below(3) {
            0 if trapping => {
                self.push(Op::Exit(3, 2));
                Pattern::Note
            }
            1 => {
                self.push(Op::Send(3, 2));
                Pattern::Exact(Value::Int(0))
            }
            _ => Pattern::Down,
        };
        let recv = self.recv(1, 20);
        self.push(Op::Clause(Clause {
            pattern,
            r: 0,
            s: 3,
            target: recv.behind,
        }));
        self.finish_recv(recv);
    }

    /// Sends the first sign up to as many signals as a pair holds, often only after it has heard of
    /// a sign, then ends.
    fn row(&mut self) {
        if self.random.chance(50) {
            self.push(Op::Recv(1));
            self.push(Op::Clause(Clause {
                pattern: Pattern::Any,
                r: 3,
                s: 3,
                target: 2,
            }));
        }
        self.push(Op::Set(0, Value::Pid(self.population[0])));
        let mut sends = *self.random.pick(&[0, 1, 4, 4, 4, 4, 4, 4]);
        if sends > 0 && self.random.chance(50) {
            self.push(Op::Link(0));
            sends -= 1;
        }
        for _ in 0..sends {
            self.push(Op::Send(0, 2));
        }
        let reason = self.reason();
        self.push(Op::Set(1, reason));
        self.push(Op::Stop(1));
    }

    /// Ties itself to the crasher, mostly takes the tie back, then waits.
    fn watcher(&mut self, tie: Tie) {
        if self.random.chance(40) {
            self.push(Op::Trap(true));
        }
        self.push(Op::Set(1, Value::Pid(self.population[1])));
        self.push(tie.tied(1));
        self.delay(3);
        if self.random.chance(75) {
            self.push(tie.untied(1));
        }
        self.delay(3);
        if self.random.chance(20) {
            self.push(tie.tied(1));
        }
        self.receive();
        self.push(Op::Jump(ANYWHERE));
    }

    /// Sends the watcher a row of messages, often as many as its mailbox holds, then ends.
    fn crasher(&mut self) {
        self.push(Op::Set(0, Value::Pid(self.population[0])));
        if self.random.chance(40) {
            self.push(Op::Link(0));
        }
        let sends = *self.random.pick(&[0, 1, 3, 4, 15, 16, 16, 16, 17]);
        for _ in 0..sends {
            self.push(Op::Send(0, 2));
        }
        self.delay(6);
        let reason = self.reason();
        self.push(Op::Set(1, reason));
        self.push(Op::Stop(1));
    }

    /// Watches the crasher if that is the tie, unties itself from the process whose number it is
    /// sent, then takes no integer.
    fn late_watcher(&mut self, tie: Tie) {
        if self.random.chance(40) {
            self.push(Op::Trap(true));
        }
        if tie == Tie::Watch {
            self.push(Op::Set(1, Value::Pid(self.population[1])));
            self.push(tie.tied(1));
        }
        let recv = self.recv(1, 0);
        self.push(Op::Clause(Clause {
            pattern: Pattern::Pid,
            r: 1,
            s: 1,
            target: recv.behind,
        }));
        if self.random.chance(70) {
            self.push(tie.untied(1));
        }
        let recv = self.recv(1, 50);
        let pattern =
            *self
                .random
                .pick(&[Pattern::Atom, Pattern::Note, Pattern::Pid, Pattern::Down]);
        self.push(Op::Clause(Clause {
            pattern,
            r: 1,
            s: 2,
            target: ANYWHERE,
        }));
        self.finish_recv(recv);
    }

    /// Links the watcher if that is the tie, fills its mailbox, asks it to take the tie back and
    /// ends.
    fn full_crasher(&mut self, tie: Tie) {
        self.push(Op::Set(0, Value::Pid(self.population[0])));
        if tie == Tie::Link {
            self.push(tie.tied(0));
        }
        for _ in 0..15 {
            self.push(Op::Send(0, 2));
        }
        self.push(Op::SelfNumber(3));
        self.push(Op::Send(0, 3));
        self.push(Op::Send(0, 2));
        let reason = self.reason();
        self.push(Op::Set(1, reason));
        if self.random.chance(50) {
            self.push(Op::Exit(0, 1));
        }
        self.push(Op::Stop(1));
    }

    /// Ties itself to the watcher and takes ties back, for ever.
    fn visitor(&mut self) {
        self.push(Op::Set(0, Value::Pid(self.population[0])));
        for _ in 0..self.random.between(1, 4) {
            let tie = *self.random.pick(&[Tie::Link, Tie::Watch]);
            let op = *self.random.pick(&[tie.tied(0), tie.untied(0)]);
            self.push(op);
        }
        self.push(Op::Jump(1));
    }

    /// Up to `most` ops that only change r3.
    fn delay(&mut self, most: usize) {
        for _ in 0..self.random.between(0, most) {
            let value = self.value();
            self.push(Op::Set(3, value));
        }
    }

    /// Adds a short run of ops that belong together.
    fn add_part(&mut self, theme: Theme) {
        let parts = parts_of(theme);
        let weights: Vec<usize> = parts.iter().map(|&(_, weight)| weight).collect();
        match parts[self.random.weighted(&weights)].0 {
            Part::Sends => self.sends(),
            Part::Flood => self.flood(),
            Part::Exits => self.exits(),
            Part::Links => self.links(),
            Part::Unlinks => self.unlinks(),
            Part::Trap => self.trap(),
            Part::Spawn => self.spawn(),
            Part::Sum => self.sum(),
            Part::Receive => self.receive(),
            Part::Branch => self.branch(),
            Part::Plain => self.plain(),
            Part::Stop => self.stop(),
            Part::FullPair => self.full_pair(),
            Part::LinkAndUnlink => self.tied_for_a_while(Tie::Link),
            Part::Monitors => self.monitors(),
            Part::Demonitors => self.demonitors(),
            Part::MonitorAndDemonitor => self.tied_for_a_while(Tie::Watch),
            Part::Serve => self.serve(),
            Part::Crash => self.crash(),
            Part::SendRow => self.send_row(),
            Part::Select => self.select(),
            Part::Wait => self.wait(100),
        }
    }

    fn push(&mut self, op: Op) {
        self.ops.push(op);
    }

    fn register(&mut self) -> usize {
        self.random.below(4)
    }

    /// A process number, mostly of the population.
    fn process(&mut self) -> u8 {
        if self.random.chance(92) {
            *self.random.pick(self.population)
        } else {
            self.random.between(1, 16) as u8
        }
    }

    fn integer(&mut self) -> i32 {
        const NEAR_LIMITS: [i32; 8] = [
            i32::MAX,
            i32::MAX - 1,
            i32::MIN,
            i32::MIN + 1,
            1_073_741_824,
            -1_073_741_824,
            1,
            -1,
        ];
        match self.random.below(4) {
            0 => *self.random.pick(&NEAR_LIMITS),
            1 => self.random.number() as i32,
            _ => self.random.below(5) as i32 - 2,
        }
    }

    fn atom(&mut self) -> u8 {
        match self.random.below(8) {
            0 => self.random.below(256) as u8,
            1 => 255,
            _ => self.random.below(8) as u8,
        }
    }

    /// A value, often one of a few that exact clauses and `same` can meet: of the same number and
    /// of different kinds.
    fn value(&mut self) -> Value {
        match self.random.below(6) {
            0 => Value::Int(i32::from(self.population[0])),
            1 => Value::Atom(self.population[0]),
            2 => Value::Pid(self.population[0]),
            3 => Value::Int(self.integer()),
            4 => Value::Atom(self.atom()),
            _ => Value::Pid(self.process()),
        }
    }

    /// A reason that the exit lines tell apart, or any value.
    fn reason(&mut self) -> Value {
        match self.random.below(10) {
            0..=2 => Value::Atom(0),
            3..=4 => Value::Atom(1),
            5..=6 => Value::Atom(9),
            _ => self.value(),
        }
    }

    /// A register that mostly holds a process number when the next op runs.
    fn addressee(&mut self) -> usize {
        let r = self.register();
        match self.random.below(50) {
            0 => {}
            1..=2 => self.push(Op::SelfNumber(r)),
            3..=4 => return 0,
            _ => {
                let process = self.process();
                self.push(Op::Set(r, Value::Pid(process)));
            }
        }
        r
    }

    /// Another register than r, mostly set to a value.
    fn content(&mut self, r: usize, value: Value) -> usize {
        let s = (r + self.random.between(1, 3)) % 4;
        if self.random.chance(75) {
            self.push(Op::Set(s, value));
        }
        s
    }

    fn sends(&mut self) {
        let r = self.addressee();
        let value = self.value();
        let s = self.content(r, value);
        for _ in 0..self.random.between(1, 3) {
            self.push(Op::Send(r, s));
        }
    }

    /// A loop that sends for ever.
    fn flood(&mut self) {
        let r = self.addressee();
        let value = match self.random.below(3) {
            0 => Value::Atom(9),
            1 => Value::Atom(0),
            _ => self.value(),
        };
        let s = self.content(r, value);
        let start = self.ops.len();
        for _ in 0..self.random.between(1, 3) {
            let op = match self.random.below(17) {
                0..=4 => Op::Send(r, s),
                5..=7 => Op::Exit(r, s),
                8..=9 => Op::Link(r),
                10..=11 => Op::Unlink(r),
                12..=13 => Op::Monitor(r),
                14..=15 => Op::Demonitor(r),
                _ => Op::Copy(s, r),
            };
            self.push(op);
        }
        if self.random.chance(70) {
            self.push(Op::Jump(start));
        }
    }

    fn exits(&mut self) {
        let r = self.addressee();
        let reason = self.reason();
        let s = self.content(r, reason);
        self.push(Op::Exit(r, s));
    }

    fn links(&mut self) {
        for _ in 0..self.random.between(1, 2) {
            let r = self.addressee();
            self.push(Op::Link(r));
        }
    }

    fn unlinks(&mut self) {
        let r = self.addressee();
        self.push(Op::Unlink(r));
    }

    fn monitors(&mut self) {
        for _ in 0..self.random.between(1, 2) {
            let r = self.addressee();
            self.push(Op::Monitor(r));
            if self.random.chance(10) {
                self.push(Op::Monitor(r));
            }
        }
    }

    fn demonitors(&mut self) {
        let r = self.addressee();
        self.push(Op::Demonitor(r));
    }

    /// A tie that is taken back after some steps; what the other one sends at its end meanwhile
    /// is dropped.
    fn tied_for_a_while(&mut self, tie: Tie) {
        let (r, process) = (self.register(), self.process());
        self.push(Op::Set(r, Value::Pid(process)));
        self.push(tie.tied(r));
        for _ in 0..self.random.below(4) {
            self.push(Op::Trap(true));
        }
        self.push(tie.untied(r));
    }

    /// Messages of different kinds, and notes if the other one traps, in a random order.
    fn send_row(&mut self) {
        let (r, process) = (self.register(), self.process());
        let values = [
            Value::Int(i32::from(self.population[0])),
            Value::Atom(self.population[0]),
            self.value(),
        ];
        self.push(Op::Set(r, Value::Pid(process)));
        for (offset, value) in values.into_iter().enumerate() {
            self.push(Op::Set((r + 1 + offset) % 4, value));
        }
        for _ in 0..self.random.between(2, 6) {
            let s = self.register();
            let op = if self.random.chance(75) {
                Op::Send(r, s)
            } else {
                Op::Exit(r, s)
            };
            self.push(op);
        }
    }

    /// A recv with clauses of different kinds in a random order.
    fn select(&mut self) {
        let mut patterns = vec![
            Pattern::Int,
            Pattern::Atom,
            Pattern::Pid,
            Pattern::Note,
            Pattern::Down,
            Pattern::Exact(self.value()),
        ];
        let count = self.random.between(2, 6);
        let recv = self.recv(count, 25);
        for _ in 0..count {
            let pattern = patterns.swap_remove(self.random.below(patterns.len()));
            let target = *self.random.pick(&[recv.start, recv.behind]);
            let (r, s) = (self.register(), self.register());
            self.push(Op::Clause(Clause {
                pattern,
                r,
                s,
                target,
            }));
        }
        self.finish_recv(recv);
    }

    /// An end some steps after a link.
    fn crash(&mut self) {
        let (r, process) = (self.register(), self.process());
        self.push(Op::Set(r, Value::Pid(process)));
        self.push(Op::Link(r));
        self.delay(4);
        let reason = self.reason();
        self.push(Op::Set(r, reason));
        self.push(Op::Stop(r));
    }

    /// A loop that takes messages and passes some of them on.
    fn serve(&mut self) {
        let start = self.ops.len();
        let count = self.random.between(1, 4);
        let recv = self.recv(count, 25);
        for _ in 0..count {
            let target = if self.random.chance(60) {
                start
            } else {
                recv.behind
            };
            let clause = self.clause(target);
            self.push(Op::Clause(clause));
        }
        self.finish_recv(recv);
        let (r, s) = (self.register(), self.register());
        if self.random.chance(50) {
            let process = self.process();
            self.push(Op::Set(r, Value::Pid(process)));
            self.push(Op::Send(r, s));
        }
        if self.random.chance(60) {
            self.push(Op::Jump(start));
        }
    }

    fn trap(&mut self) {
        let flag = self.random.chance(75);
        self.push(Op::Trap(flag));
    }

    fn spawn(&mut self) {
        let (r, s) = (self.register(), self.register());
        let behaviour = self.random.between(1, self.behaviours) as u8;
        let process = self.process();
        if self.random.chance(30) {
            // A signal that waits for the spawn.
            self.push(Op::Set(r, Value::Pid(process)));
            let op = *self.random.pick(&[Op::Monitor(r), Op::Send(r, s)]);
            self.push(op);
        }
        self.push(Op::Spawn {
            r,
            behaviour,
            process,
        });
        match self.random.below(5) {
            0 => self.push(Op::Link(r)),
            1 => self.push(Op::Send(r, s)),
            2 => self.push(Op::Monitor(r)),
            _ => {}
        }
    }

    /// An add whose sum is often near a limit of i.
    fn sum(&mut self) {
        let (r, s) = (self.register(), self.register());
        if self.random.chance(80) {
            let left = self.integer();
            self.push(Op::Set(r, Value::Int(left)));
        }
        if self.random.chance(70) {
            let right = self.random.below(3) as i32 - 1;
            self.push(Op::Set(s, Value::Int(right)));
        }
        self.push(Op::Add(r, s));
    }

    fn receive(&mut self) {
        let count = self.random.weighted(&[0, 6, 5, 3, 1, 1, 1, 1, 1]);
        let recv = self.recv(count, 25);
        for _ in 0..count {
            let target = if self.random.chance(55) {
                recv.behind
            } else {
                ANYWHERE
            };
            let clause = self.clause(target);
            self.push(Op::Clause(clause));
        }
        self.finish_recv(recv);
    }

    /// A recv of `count` clauses, which in `percent` of 100 calls gets an `after`.
    fn recv(&mut self, count: usize, percent: usize) -> Recv {
        let start = self.ops.len();
        let after = self.random.chance(percent);
        self.push(Op::Recv(count));
        Recv {
            start,
            after,
            behind: start + 1 + count + usize::from(after),
        }
    }

    /// The `after` of a recv whose clauses are written, if it gets one: back to its recv, to place N,
    /// to the op behind it, or anywhere.
    fn finish_recv(&mut self, recv: Recv) {
        if recv.after {
            let target = *self
                .random
                .pick(&[recv.start, END, recv.behind, recv.behind, ANYWHERE]);
            self.push(Op::After(target));
        }
    }

    /// A recv whose clauses, eight at times, are of one kind or two, with an `after` in `percent` of
    /// 100 calls.
    fn wait(&mut self, percent: usize) {
        let kinds = [
            Pattern::Int,
            Pattern::Atom,
            Pattern::Pid,
            Pattern::Note,
            Pattern::Down,
            Pattern::Exact(self.value()),
        ];
        let wanted = [*self.random.pick(&kinds), *self.random.pick(&kinds)];
        let count = *self.random.pick(&[1, 1, 1, 2, 2, 3, 8]);
        let recv = self.recv(count, percent);
        for _ in 0..count {
            let target = *self.random.pick(&[recv.start, recv.behind]);
            let (r, s) = (self.register(), self.register());
            let pattern = *self.random.pick(&wanted);
            self.push(Op::Clause(Clause {
                pattern,
                r,
                s,
                target,
            }));
        }
        self.finish_recv(recv);
    }

    fn clause(&mut self, target: usize) -> Clause {
        let pattern = match self.random.below(15) {
            0..=2 => Pattern::Any,
            3..=4 => Pattern::Int,
            5..=6 => Pattern::Atom,
            7..=8 => Pattern::Pid,
            9..=10 => Pattern::Note,
            11..=12 => Pattern::Down,
            _ => Pattern::Exact(self.value()),
        };
        let (r, s) = (self.register(), self.register());
        let s = if self.random.chance(15) { r } else { s };
        Clause {
            pattern,
            r,
            s,
            target,
        }
    }

    fn branch(&mut self) {
        let (r, s) = (self.register(), self.register());
        let op = match self.random.below(6) {
            0..=1 => Op::Less(r, s, ANYWHERE),
            2..=3 => {
                let value = self.value();
                self.push(Op::Set(r, value));
                Op::Same(r, self.value(), ANYWHERE)
            }
            4 => Op::Same(r, Value::Int(0), ANYWHERE),
            _ => Op::Jump(ANYWHERE),
        };
        self.push(op);
    }

    fn plain(&mut self) {
        let (r, s) = (self.register(), self.register());
        let op = match self.random.below(4) {
            0 => Op::Copy(r, s),
            1 => Op::SelfNumber(r),
            _ => Op::Set(r, self.value()),
        };
        self.push(op);
    }

    fn stop(&mut self) {
        let r = self.register();
        if self.random.chance(60) {
            let reason = self.reason();
            self.push(Op::Set(r, reason));
        }
        self.push(Op::Stop(r));
    }

    /// A link, then as many signals as fill the pair, then the end: the closing process meets 26
    /// unless some of its signals have arrived.
    fn full_pair(&mut self) {
        let (r, process) = (self.register(), self.process());
        if self.random.chance(60) {
            let other = self.process();
            self.push(Op::Set(r, Value::Pid(other)));
            self.push(Op::Link(r));
        }
        self.push(Op::Set(r, Value::Pid(process)));
        self.push(Op::Link(r));
        for _ in 0..3 {
            self.push(Op::Send(r, r));
        }
        if self.random.chance(80) {
            let s = self.register();
            self.push(Op::Stop(s));
        }
    }

    /// Cuts the code to its limit without parting a recv from its clauses, then sets the targets.
    fn finish(self) -> Vec<Op> {
        let Writer {
            random, mut ops, ..
        } = self;
        cut(&mut ops);
        let length = ops.len();
        let barred = |place: usize| matches!(ops.get(place), Some(Op::Clause(_) | Op::After(_)));
        let places: Vec<usize> = (0..=length).filter(|&place| !barred(place)).collect();
        for op in &mut ops {
            match op {
                Op::Clause(clause) => set_target(random, &mut clause.target, &places),
                Op::Jump(target)
                | Op::Same(_, _, target)
                | Op::Less(_, _, target)
                | Op::After(target) => {
                    set_target(random, target, &places);
                }
                _ => {}
            }
        }
        ops
    }
}

/// The places are those that a target can be, of which N is the last.
fn set_target(random: &mut Random, target: &mut usize, places: &[usize]) {
    if *target == END {
        *target = places[places.len() - 1];
    }
    if !places.contains(target) {
        *target = *random.pick(places);
    }
}

/// Leaves at most 32 ops, and at least one. A recv may lose its `after`.
fn cut(ops: &mut Vec<Op>) {
    if ops.len() <= LONGEST {
        return;
    }
    // Cut before a recv that would lose clauses.
    let loses_clauses = |place: usize| match ops[place] {
        Op::Recv(count) => place + count >= LONGEST,
        _ => false,
    };
    let length = (0..LONGEST).find(|&place| loses_clauses(place));
    ops.truncate(length.unwrap_or(LONGEST));
}
