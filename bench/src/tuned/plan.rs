//! Loading a plan text into a node. A line is read once; a number out of range (12) is only told when the line is known to be well formed (11).

use super::text::{Malformed, Reader, Refused};
use super::{Behaviour, Node, Op, Pattern, Places, Process, Register, Stage, Value, CLAUSES, OPS, PROCESSES, REGISTERS};
use std::ops::RangeInclusive;

const MOST_BYTES: usize = 16_384;

const TEXT_TOO_LONG: u8 = 10;
const MALFORMED: u8 = 11;
const OUT_OF_RANGE: u8 = 12;
const NOT_RISING: u8 = 13;
const BAD_CLAUSES: u8 = 14;

/// The words of a plan as numbers.
mod words {
    use super::super::text::word;

    pub const SET: u64 = word(b"set");
    pub const COPY: u64 = word(b"copy");
    pub const SELF: u64 = word(b"self");
    pub const ADD: u64 = word(b"add");
    pub const SEND: u64 = word(b"send");
    pub const EXIT: u64 = word(b"exit");
    pub const LINK: u64 = word(b"link");
    pub const UNLINK: u64 = word(b"unlink");
    pub const TRAP: u64 = word(b"trap");
    pub const SPAWN: u64 = word(b"spawn");
    pub const RECV: u64 = word(b"recv");
    pub const CLAUSE: u64 = word(b"clause");
    pub const JUMP: u64 = word(b"jump");
    pub const SAME: u64 = word(b"same");
    pub const LESS: u64 = word(b"less");
    pub const STOP: u64 = word(b"stop");
    pub const MONITOR: u64 = word(b"monitor");
    pub const DEMONITOR: u64 = word(b"demonitor");
    pub const AFTER: u64 = word(b"after");

    pub const ANY: u64 = word(b"any");
    pub const INT: u64 = word(b"int");
    pub const ATOM: u64 = word(b"atom");
    pub const PID: u64 = word(b"pid");
    pub const NOTE: u64 = word(b"note");
    pub const DOWN: u64 = word(b"down");

    // The letters of values.
    pub const I: u64 = word(b"i");
    pub const A: u64 = word(b"a");
    pub const P: u64 = word(b"p");
}

/// Makes `node` the node of the plan, or the blank one where the text is refused.
#[inline(never)]
pub fn load(text: &[u8], node: &mut Node) -> Result<(), Refused> {
    let loaded = read(text, node);
    if loaded.is_err() {
        node.blank();
    }
    loaded
}

fn read(text: &[u8], node: &mut Node) -> Result<(), Refused> {
    if text.len() > MOST_BYTES {
        return Err(Refused { number: TEXT_TOO_LONG, line: 0 });
    }
    node.clear();
    let mut plan = Plan { reader: Reader { rest: text }, line: 1, far: false, behaviours: 0, count: 0 };
    plan.lines(node).map_err(|number| Refused { number, line: plan.line })?;
    match misplaced(node) {
        Some(line) => Err(Refused { number: BAD_CLAUSES, line }),
        None => Ok(()),
    }
}

impl Node {
    fn clear(&mut self) {
        for process in &mut self.processes {
            process.stage = Stage::Unborn;
        }
        for row in &mut self.flight {
            (row.counts, row.firsts) = ([0; PROCESSES], [0; PROCESSES]);
        }
    }

    /// One behaviour, `stop,0`, all processes unborn, nothing in flight.
    fn blank(&mut self) {
        self.clear();
        self.behaviour_count = 1;
        self.behaviours[0].count = 1;
        self.behaviours[0].ops[..2].copy_from_slice(&[Op::Stop(Register::R0), Op::End]);
    }
}

impl From<Malformed> for u8 {
    fn from(_: Malformed) -> u8 {
        MALFORMED
    }
}

struct Plan<'a> {
    reader: Reader<'a>,
    /// The line that is being read, from 1.
    line: usize,
    /// Whether a number of this line was out of its range.
    far: bool,
    /// How many behaviours the plan has, and how many ops the behaviour that is being read.
    behaviours: u8,
    count: u8,
}

impl Plan<'_> {
    fn lines(&mut self, node: &mut Node) -> Result<(), u8> {
        self.reader.expect(b"plan=1\n")?;
        self.line += 1;
        self.behaviours = self.count_line(b"behaviours=", 8)?;
        node.behaviour_count = self.behaviours;
        for behaviour in &mut node.behaviours[..usize::from(self.behaviours)] {
            self.behaviour(behaviour)?;
        }
        let starts = self.count_line(b"starts=", PROCESSES as u8)?;
        let mut last = 0;
        for _ in 0..starts {
            let (process, behaviour) = self.start()?;
            if process <= last {
                return Err(NOT_RISING);
            }
            last = process;
            node.processes[usize::from(process - 1)] = Process::fresh(Stage::Live, behaviour - 1, Value::int(0));
            self.line += 1;
        }
        if self.reader.rest.is_empty() {
            Ok(())
        } else {
            Err(MALFORMED)
        }
    }

    #[inline]
    fn count_line(&mut self, key: &[u8], most: u8) -> Result<u8, u8> {
        self.reader.expect(key)?;
        let count = self.ranged(1, most)?;
        self.end_line()?;
        self.line += 1;
        Ok(count)
    }

    /// The line ends here; tells 11, then 12, and leaves the number of the line.
    #[inline]
    fn end_line(&mut self) -> Result<(), u8> {
        self.reader.expect(b"\n")?;
        if self.far {
            return Err(OUT_OF_RANGE);
        }
        Ok(())
    }

    fn behaviour(&mut self, behaviour: &mut Behaviour) -> Result<(), u8> {
        self.count = self.count_line(b"code=", OPS as u8)?;
        behaviour.count = self.count;
        let count = usize::from(self.count);
        for (op, pattern) in behaviour.ops.iter_mut().zip(&mut behaviour.patterns).take(count) {
            self.reader.expect(b"op=")?;
            *op = self.op(pattern)?;
            self.end_line()?;
            self.line += 1;
        }
        behaviour.ops[count] = Op::End;
        Ok(())
    }

    fn start(&mut self) -> Result<(u8, u8), u8> {
        self.reader.expect(b"start=")?;
        let process = self.ranged(1, PROCESSES as u8)?;
        let behaviour = self.next_ranged(1, self.behaviours)?;
        self.end_line()?;
        Ok((process, behaviour))
    }

    #[inline]
    fn op(&mut self, pattern: &mut Pattern) -> Result<Op, Malformed> {
        Ok(match self.reader.word() {
            words::SET => Op::Set(self.register()?, self.value()?),
            words::COPY => Op::Copy(self.register()?, self.register()?),
            words::SELF => Op::Own(self.register()?),
            words::ADD => Op::Add(self.register()?, self.register()?),
            words::SEND => Op::Send(self.register()?, self.register()?),
            words::EXIT => Op::Exit(self.register()?, self.register()?),
            words::LINK => Op::Link(self.register()?),
            words::UNLINK => Op::Unlink(self.register()?),
            words::TRAP => Op::Trap(self.next_ranged(0, 1)? == 1),
            words::SPAWN => Op::Spawn(self.register()?, self.next_ranged(1, self.behaviours)?, self.next_ranged(1, PROCESSES as u8)?),
            words::RECV => Op::Recv(self.next_ranged(1, CLAUSES)?),
            words::CLAUSE => {
                *pattern = self.pattern()?;
                Op::Clause(self.register()?, self.register()?, self.place()?)
            }
            words::JUMP => Op::Jump(self.place()?),
            words::SAME => Op::Same(self.register()?, self.value()?, self.place()?),
            words::LESS => Op::Less(self.register()?, self.register()?, self.place()?),
            words::STOP => Op::Stop(self.register()?),
            words::MONITOR => Op::Monitor(self.register()?),
            words::DEMONITOR => Op::Demonitor(self.register()?),
            words::AFTER => Op::After(self.place()?),
            _ => return Err(Malformed),
        })
    }

    /// A number; one out of range is noted and read as the lowest.
    #[inline]
    fn in_range(&mut self, range: RangeInclusive<i64>) -> Result<i64, Malformed> {
        let number = self.reader.number()?;
        let inside = range.contains(&number);
        self.far |= !inside;
        Ok(if inside { number } else { *range.start() })
    }

    #[inline]
    fn ranged(&mut self, lowest: u8, highest: u8) -> Result<u8, Malformed> {
        Ok(self.in_range(i64::from(lowest)..=i64::from(highest))? as u8)
    }

    #[inline]
    fn next_ranged(&mut self, lowest: u8, highest: u8) -> Result<u8, Malformed> {
        self.reader.expect(b",")?;
        self.ranged(lowest, highest)
    }

    #[inline]
    fn register(&mut self) -> Result<Register, Malformed> {
        Ok(REGISTERS[usize::from(self.next_ranged(0, 3)?)])
    }

    #[inline]
    fn place(&mut self) -> Result<u8, Malformed> {
        self.next_ranged(0, self.count)
    }

    #[inline]
    fn value(&mut self) -> Result<Value, Malformed> {
        self.reader.expect(b",")?;
        let letter = self.reader.word();
        self.value_behind(letter)
    }

    #[inline]
    fn value_behind(&mut self, letter: u64) -> Result<Value, Malformed> {
        Ok(match letter {
            words::I => Value::int(self.in_range(i64::from(i32::MIN)..=i64::from(i32::MAX))? as i32),
            words::A => Value::atom(self.ranged(0, 255)?),
            words::P => Value::pid(self.ranged(1, PROCESSES as u8)?),
            _ => return Err(Malformed),
        })
    }

    #[inline]
    fn pattern(&mut self) -> Result<Pattern, Malformed> {
        self.reader.expect(b",")?;
        Ok(match self.reader.word() {
            words::ANY => Pattern::ANY,
            words::INT => Pattern::INT,
            words::ATOM => Pattern::ATOM,
            words::PID => Pattern::PID,
            words::NOTE => Pattern::NOTE,
            words::DOWN => Pattern::DOWN,
            letter => Pattern::exact(self.value_behind(letter)?),
        })
    }
}

/// The line of the first recv without its clauses, stray clause, stray after, or op whose target is a clause or an after.
fn misplaced(node: &Node) -> Option<usize> {
    // The line of the first `code=`.
    let mut line = 3;
    for behaviour in &node.behaviours[..usize::from(node.behaviour_count)] {
        if let Some(place) = behaviour.misplaced() {
            return Some(line + 1 + place);
        }
        line += 1 + usize::from(behaviour.count);
    }
    None
}

impl Behaviour {
    /// The first place that 14 is told of.
    fn misplaced(&self) -> Option<usize> {
        let places = Places::of(self);
        if places.are_good() {
            return None;
        }
        let is_clause = |place: u8| places.clauses >> place & 1 == 1;
        let is_barred = |place: u8| (places.clauses | places.afters) >> place & 1 == 1;
        let mut due = 0;
        (0..self.count).find(|&place| {
            let op = &self.ops[usize::from(place)];
            let stray = match *op {
                Op::Clause(..) => due == 0,
                // Of a recv that lacks clauses the line is told, which is lower.
                Op::After(_) => places.behind >> place & 1 == 0,
                _ => false,
            };
            let lacking = matches!(*op, Op::Recv(count) if (1..=count).any(|k| !is_clause(place + k)));
            due = if let Op::Recv(count) = *op { count } else { due.saturating_sub(1) };
            stray || lacking || op.target().is_some_and(is_barred)
        })
        .map(usize::from)
    }
}
