//! Plan text: loading it into a node.

use crate::node::{Clause, Live, Node, Op, Pattern, Stage, Value, PROCESSES};
use crate::text::{number, parts, split_lines, value_of, Refused};

/// "10 text above 16,384 bytes (line 0)"
pub const BYTE_LIMIT: usize = 16_384;
/// "`behaviours=` 1 to 8"
pub const BEHAVIOUR_LIMIT: i64 = 8;
/// "`code=` N (1 to 32)"
pub const CODE_LIMIT: i64 = 32;
/// "recv,n: n is 1 to 8"
pub const CLAUSE_LIMIT: i64 = 8;

/// The refusals that a plan can meet.
pub const TEXT_TOO_LONG: u8 = 10;
pub const BAD_FORM: u8 = 11;
pub const OUT_OF_RANGE: u8 = 12;
pub const NOT_RISING: u8 = 13;
pub const BAD_CLAUSES: u8 = 14;

/// Loads a plan: a node ready to play, or "First bad line from 1 is told" with its number.
pub fn load(text: &[u8]) -> Result<Node, Refused> {
    contents(text).map(first_node)
}

/// What an accepted plan text holds.
#[derive(Clone, Debug, PartialEq, Eq)]
pub struct Contents {
    pub behaviours: Vec<Vec<Op>>,
    /// Process and behaviour of each start line.
    pub starts: Vec<(u8, u8)>,
}

/// What a plan text holds, or its refusal.
pub fn contents(text: &[u8]) -> Result<Contents, Refused> {
    let plan = read(text)?;
    // "14, looked for after the last line"
    if let Some(misplaced) = first_misplaced(&plan) {
        return Err(Refused {
            number: BAD_CLAUSES,
            line: misplaced.line,
        });
    }
    Ok(Contents {
        behaviours: plan.codes.into_iter().map(|code| code.ops).collect(),
        starts: plan.starts,
    })
}

/// What 14 is told of, in a text that is refused by 14.
pub fn misplaced(text: &[u8]) -> Option<Misplaced> {
    first_misplaced(&read(text).ok()?)
}

/// What the text says, 14 not looked for.
fn read(text: &[u8]) -> Result<Plan, Refused> {
    if text.len() > BYTE_LIMIT {
        return Err(Refused {
            number: TEXT_TOO_LONG,
            line: 0,
        });
    }
    let (lines, rest) = split_lines(text);
    let mut reader = Reader { lines, told: 0 };
    read_plan(&mut reader, rest)
}

/// What the lines of a plan say.
struct Plan {
    codes: Vec<Code>,
    /// Process and behaviour of each start line.
    starts: Vec<(u8, u8)>,
}

/// One behaviour and the number of the line of its first op.
struct Code {
    first_line: usize,
    ops: Vec<Op>,
}

/// The complete lines of the text, read one by one.
struct Reader<'a> {
    lines: Vec<&'a [u8]>,
    /// How many lines have been read, which is the number of the line read last.
    told: usize,
}

impl<'a> Reader<'a> {
    /// The value of the next line, which must have this key.
    /// "a missing line counting as the one after the last"; "a last line without it [byte 10] is
    /// 11": both are the line after the complete ones.
    fn value(&mut self, key: &str) -> Result<&'a [u8], Refused> {
        let line = self.lines.get(self.told).copied();
        self.told += 1;
        line.and_then(|line| value_of(line, key))
            .ok_or(self.refuse(BAD_FORM))
    }

    /// A refusal at the line read last.
    fn refuse(&self, number: u8) -> Refused {
        Refused {
            number,
            line: self.told,
        }
    }

    /// The next line, which must be `key=` and a number of this range.
    fn count(&mut self, key: &str, limit: i64) -> Result<i64, Refused> {
        let value = self.value(key)?;
        let count = number(value).ok_or(self.refuse(BAD_FORM))?;
        if !(1..=limit).contains(&count) {
            return Err(self.refuse(OUT_OF_RANGE));
        }
        Ok(count)
    }
}

/// "Plan: `plan=1`, `behaviours=` 1 to 8, for each `code=` N (1 to 32) and N lines `op=`, then
/// `starts=` 1 to 16 and lines `start=process,behaviour`"
fn read_plan(reader: &mut Reader, rest: &[u8]) -> Result<Plan, Refused> {
    // "A first line other than `plan=1` is 11."
    if reader.value("plan")? != b"1" {
        return Err(reader.refuse(BAD_FORM));
    }
    let behaviours = reader.count("behaviours", BEHAVIOUR_LIMIT)?;
    let mut codes = Vec::new();
    for _ in 0..behaviours {
        codes.push(read_code(reader, behaviours)?);
    }
    let starts = read_starts(reader, behaviours)?;
    // A surplus line, complete or not, is the one behind the last start.
    if reader.told < reader.lines.len() || !rest.is_empty() {
        reader.told += 1;
        return Err(reader.refuse(BAD_FORM));
    }
    Ok(Plan { codes, starts })
}

fn read_code(reader: &mut Reader, behaviours: i64) -> Result<Code, Refused> {
    let length = reader.count("code", CODE_LIMIT)?;
    let first_line = reader.told + 1;
    let mut ops = Vec::new();
    for _ in 0..length {
        let value = reader.value("op")?;
        let op = read_op(value, length, behaviours).map_err(|number| reader.refuse(number))?;
        ops.push(op);
    }
    Ok(Code { first_line, ops })
}

/// "13 start numbers not rising"; "on a line 11, 12, 13 in that order"
fn read_starts(reader: &mut Reader, behaviours: i64) -> Result<Vec<(u8, u8)>, Refused> {
    let count = reader.count("starts", i64::from(PROCESSES))?;
    let mut starts: Vec<(u8, u8)> = Vec::new();
    for _ in 0..count {
        let value = reader.value("start")?;
        let (process, behaviour) = read_start(value).ok_or(reader.refuse(BAD_FORM))?;
        let process = in_range(process, 1, i64::from(PROCESSES));
        let behaviour = in_range(behaviour, 1, behaviours);
        let (Some(process), Some(behaviour)) = (process, behaviour) else {
            return Err(reader.refuse(OUT_OF_RANGE));
        };
        let previous = starts.last().map_or(0, |&(previous, _)| previous);
        if process <= previous {
            return Err(reader.refuse(NOT_RISING));
        }
        starts.push((process, behaviour));
    }
    Ok(starts)
}

fn read_start(value: &[u8]) -> Option<(i64, i64)> {
    match parts(value)[..] {
        [process, behaviour] => Some((number(process)?, number(behaviour)?)),
        _ => None,
    }
}

/// The number as a byte if it is in a range, which is one of bytes.
fn in_range(number: i64, lowest: i64, highest: i64) -> Option<u8> {
    if (lowest..=highest).contains(&number) {
        u8::try_from(number).ok()
    } else {
        None
    }
}

/// What an operand of an op can be.
#[derive(Clone, Copy, Debug, PartialEq, Eq)]
pub enum Operand {
    /// "r, s are registers 0 to 3"
    Register,
    /// "V a value"
    Value,
    /// "t a place 0 to N"
    Place,
    /// "b a behaviour number up to the plan's count"
    Behaviour,
    /// "q a process number written without p"
    Process,
    /// "f, 0 or 1"
    Flag,
    /// "n is 1 to 8"
    Count,
    /// The k of a clause.
    Pattern,
}

/// The operands of each op word, in the order of the document's table, then "ops `monitor,r` and
/// `demonitor,r`" and "op `after,t`".
pub const OPERANDS: [(&str, &[Operand]); 19] = [
    ("set", &[Operand::Register, Operand::Value]),
    ("copy", &[Operand::Register, Operand::Register]),
    ("self", &[Operand::Register]),
    ("add", &[Operand::Register, Operand::Register]),
    ("send", &[Operand::Register, Operand::Register]),
    ("exit", &[Operand::Register, Operand::Register]),
    ("link", &[Operand::Register]),
    ("unlink", &[Operand::Register]),
    ("trap", &[Operand::Flag]),
    (
        "spawn",
        &[Operand::Register, Operand::Behaviour, Operand::Process],
    ),
    ("recv", &[Operand::Count]),
    (
        "clause",
        &[
            Operand::Pattern,
            Operand::Register,
            Operand::Register,
            Operand::Place,
        ],
    ),
    ("jump", &[Operand::Place]),
    ("same", &[Operand::Register, Operand::Value, Operand::Place]),
    (
        "less",
        &[Operand::Register, Operand::Register, Operand::Place],
    ),
    ("stop", &[Operand::Register]),
    ("monitor", &[Operand::Register]),
    ("demonitor", &[Operand::Register]),
    ("after", &[Operand::Place]),
];

/// The operands of a word, or None when there is no such op.
pub fn operands_of(word: &[u8]) -> Option<&'static [Operand]> {
    OPERANDS
        .iter()
        .find(|(known, _)| known.as_bytes() == word)
        .map(|(_, operands)| *operands)
}

/// An operand whose form is right and whose range has not been looked at.
#[derive(Clone, Copy)]
enum Written {
    Number(i64),
    /// The letter and the number of a value.
    Value(u8, i64),
    /// A k that is a word.
    Kind(Pattern),
}

/// Reads the value of an `op=` line. The answer on failure is 11 or 12.
/// "on a line 11, 12, 13 in that order": the form of every operand is looked at before any range.
fn read_op(value: &[u8], length: i64, behaviours: i64) -> Result<Op, u8> {
    let fields = parts(value);
    let (word, texts) = (fields[0], &fields[1..]);
    // "11 wrong key, word, operand count, number form"
    let operands = operands_of(word).ok_or(BAD_FORM)?;
    if operands.len() != texts.len() {
        return Err(BAD_FORM);
    }
    let mut written = Vec::new();
    for (&operand, text) in operands.iter().zip(texts) {
        written.push(read_form(operand, text).ok_or(BAD_FORM)?);
    }
    // "12 number out of range"
    for (&operand, &written) in operands.iter().zip(&written) {
        if !has_range(operand, written, length, behaviours) {
            return Err(OUT_OF_RANGE);
        }
    }
    Ok(make_op(word, &written))
}

fn read_form(operand: Operand, text: &[u8]) -> Option<Written> {
    match operand {
        Operand::Value => read_value(text),
        Operand::Pattern => read_pattern(text),
        _ => Some(Written::Number(number(text)?)),
    }
}

/// "an integer `i`, an atom `a` or a process number `p`": the letter, then the number.
fn read_value(text: &[u8]) -> Option<Written> {
    let (&letter, digits) = text.split_first()?;
    if !b"iap".contains(&letter) {
        return None;
    }
    Some(Written::Value(letter, number(digits)?))
}

/// "k is any (notes too), int, atom, pid, note or one exact V"; "message and clause kind `down`"
fn read_pattern(text: &[u8]) -> Option<Written> {
    match text {
        b"any" => Some(Written::Kind(Pattern::Any)),
        b"int" => Some(Written::Kind(Pattern::Int)),
        b"atom" => Some(Written::Kind(Pattern::Atom)),
        b"pid" => Some(Written::Kind(Pattern::Pid)),
        b"note" => Some(Written::Kind(Pattern::Note)),
        b"down" => Some(Written::Kind(Pattern::Down)),
        _ => read_value(text),
    }
}

fn has_range(operand: Operand, written: Written, length: i64, behaviours: i64) -> bool {
    let (lowest, highest, number) = match (operand, written) {
        (_, Written::Kind(_)) => return true,
        (_, Written::Value(b'i', number)) => (i64::from(i32::MIN), i64::from(i32::MAX), number),
        (_, Written::Value(b'a', number)) => (0, 255, number),
        (_, Written::Value(_, number)) => (1, i64::from(PROCESSES), number),
        (Operand::Register, Written::Number(number)) => (0, 3, number),
        (Operand::Place, Written::Number(number)) => (0, length, number),
        (Operand::Behaviour, Written::Number(number)) => (1, behaviours, number),
        (Operand::Process, Written::Number(number)) => (1, i64::from(PROCESSES), number),
        (Operand::Flag, Written::Number(number)) => (0, 1, number),
        (Operand::Count, Written::Number(number)) => (1, CLAUSE_LIMIT, number),
        (Operand::Value | Operand::Pattern, Written::Number(_)) => return false,
    };
    (lowest..=highest).contains(&number)
}

impl Written {
    /// The number of an operand whose range fits a byte.
    fn byte(self) -> u8 {
        match self {
            Written::Number(number) => u8::try_from(number).expect("a number in range"),
            _ => panic!("an operand that is no plain number"),
        }
    }

    fn index(self) -> usize {
        usize::from(self.byte())
    }

    fn value(self) -> Value {
        match self {
            Written::Value(b'i', number) => {
                Value::Int(i32::try_from(number).expect("an integer in range"))
            }
            Written::Value(b'a', number) => {
                Value::Atom(u8::try_from(number).expect("an atom in range"))
            }
            Written::Value(_, number) => {
                Value::Pid(u8::try_from(number).expect("a process number in range"))
            }
            _ => panic!("an operand that is no value"),
        }
    }

    fn pattern(self) -> Pattern {
        match self {
            Written::Kind(pattern) => pattern,
            _ => Pattern::Exact(self.value()),
        }
    }
}

/// The op of a word and its operands, which have passed all checks.
fn make_op(word: &[u8], written: &[Written]) -> Op {
    match (word, written) {
        (b"set", [r, v]) => Op::Set(r.index(), v.value()),
        (b"copy", [r, s]) => Op::Copy(r.index(), s.index()),
        (b"self", [r]) => Op::SelfNumber(r.index()),
        (b"add", [r, s]) => Op::Add(r.index(), s.index()),
        (b"send", [r, s]) => Op::Send(r.index(), s.index()),
        (b"exit", [r, s]) => Op::Exit(r.index(), s.index()),
        (b"link", [r]) => Op::Link(r.index()),
        (b"unlink", [r]) => Op::Unlink(r.index()),
        (b"trap", [f]) => Op::Trap(f.byte() == 1),
        (b"spawn", [r, b, q]) => Op::Spawn {
            r: r.index(),
            behaviour: b.byte(),
            process: q.byte(),
        },
        (b"recv", [n]) => Op::Recv(n.index()),
        (b"clause", [k, r, s, t]) => Op::Clause(Clause {
            pattern: k.pattern(),
            r: r.index(),
            s: s.index(),
            target: t.index(),
        }),
        (b"jump", [t]) => Op::Jump(t.index()),
        (b"same", [r, v, t]) => Op::Same(r.index(), v.value(), t.index()),
        (b"less", [r, s, t]) => Op::Less(r.index(), s.index(), t.index()),
        (b"stop", [r]) => Op::Stop(r.index()),
        (b"monitor", [r]) => Op::Monitor(r.index()),
        (b"demonitor", [r]) => Op::Demonitor(r.index()),
        (b"after", [t]) => Op::After(t.index()),
        _ => panic!("a word and operands that the checks let pass"),
    }
}

/// What makes an op one that 14 is told of.
#[derive(Clone, Copy, Debug, PartialEq, Eq)]
pub enum Fault {
    LacksClauses,
    /// A recv that lacks clauses because an `after` stands before its last one, or in the place of
    /// its last one.
    AfterBetweenClauses,
    AfterForLastClause,
    StrayClause,
    StrayAfter,
    /// An `after` behind an `after`.
    SecondAfter,
    TargetOnClause,
    TargetOnAfter,
}

/// The op of the lowest line that 14 can be told of, and all that is wrong with it.
#[derive(Clone, Debug, PartialEq, Eq)]
pub struct Misplaced {
    pub line: usize,
    pub op: Op,
    pub faults: Vec<Fault>,
}

/// "For 14 it is the lowest line of such a recv, clause or op."
fn first_misplaced(plan: &Plan) -> Option<Misplaced> {
    for code in &plan.codes {
        let owned = owned_places(&code.ops);
        for (place, &op) in code.ops.iter().enumerate() {
            let faults = faults_at(&code.ops, &owned, place);
            if !faults.is_empty() {
                let line = code.first_line + place;
                return Some(Misplaced { line, op, faults });
            }
        }
    }
    None
}

/// "14, looked for after the last line, recv without its clauses, stray clause, target place on a
/// clause"; "A plan with `after` elsewhere is 14, a target place on an `after` is 14 as well"
fn faults_at(ops: &[Op], owned: &[bool], place: usize) -> Vec<Fault> {
    let op = ops[place];
    let standing = match op {
        Op::Recv(count) => recv_fault(ops, place, count),
        Op::Clause(_) if !owned[place] => Some(Fault::StrayClause),
        Op::After(_) => after_fault(ops, place),
        _ => None,
    };
    let aiming = target_of(op).and_then(|target| match ops.get(target) {
        Some(Op::Clause(_)) => Some(Fault::TargetOnClause),
        Some(Op::After(_)) => Some(Fault::TargetOnAfter),
        _ => None,
    });
    standing.into_iter().chain(aiming).collect()
}

/// Whether an op is a clause; place N is not.
fn is_clause(ops: &[Op], place: usize) -> bool {
    matches!(ops.get(place), Some(Op::Clause(_)))
}

/// "The next n ops are its clauses"
fn has_clauses(ops: &[Op], place: usize, count: usize) -> bool {
    (place + 1..=place + count).all(|next| is_clause(ops, next))
}

fn recv_fault(ops: &[Op], place: usize, count: usize) -> Option<Fault> {
    let last = place + count;
    let other = (place + 1..=last).find(|&next| !is_clause(ops, next))?;
    Some(match ops.get(other) {
        Some(Op::After(_)) if other == last => Fault::AfterForLastClause,
        Some(Op::After(_)) if is_clause(ops, other + 1) => Fault::AfterBetweenClauses,
        _ => Fault::LacksClauses,
    })
}

/// "op `after,t`, allowed only directly behind the last clause of a recv"
fn after_fault(ops: &[Op], place: usize) -> Option<Fault> {
    let is_behind = |start: usize| match ops[start] {
        Op::Recv(count) => start + count + 1 == place && has_clauses(ops, start, count),
        _ => false,
    };
    if (0..place).any(is_behind) {
        return None;
    }
    match ops[..place].last() {
        Some(Op::After(_)) => Some(Fault::SecondAfter),
        _ => Some(Fault::StrayAfter),
    }
}

/// For each place, whether it is one of the n next places of some recv,n.
fn owned_places(ops: &[Op]) -> Vec<bool> {
    let mut owned = vec![false; ops.len()];
    for (place, op) in ops.iter().enumerate() {
        if let Op::Recv(count) = op {
            for owned in owned.iter_mut().skip(place + 1).take(*count) {
                *owned = true;
            }
        }
    }
    owned
}

/// The t of an op that has one.
pub fn target_of(op: Op) -> Option<usize> {
    match op {
        Op::Clause(clause) => Some(clause.target),
        Op::Jump(target) | Op::Same(_, _, target) | Op::Less(_, _, target) | Op::After(target) => {
            Some(target)
        }
        _ => None,
    }
}

/// "started processes are as spawned, r0 being i0, all others unborn, nothing in flight"
fn first_node(contents: Contents) -> Node {
    let mut node = Node::new(contents.behaviours);
    for (process, behaviour) in contents.starts {
        let fresh = Live::fresh(behaviour, Value::Int(0));
        node.set_stage(process, Stage::Live(fresh));
    }
    node
}

/// The word of an op.
pub fn op_word(op: Op) -> &'static str {
    match op {
        Op::Set(..) => "set",
        Op::Copy(..) => "copy",
        Op::SelfNumber(_) => "self",
        Op::Add(..) => "add",
        Op::Send(..) => "send",
        Op::Exit(..) => "exit",
        Op::Link(_) => "link",
        Op::Unlink(_) => "unlink",
        Op::Trap(_) => "trap",
        Op::Spawn { .. } => "spawn",
        Op::Recv(_) => "recv",
        Op::Clause(_) => "clause",
        Op::Jump(_) => "jump",
        Op::Same(..) => "same",
        Op::Less(..) => "less",
        Op::Stop(_) => "stop",
        Op::Monitor(_) => "monitor",
        Op::Demonitor(_) => "demonitor",
        Op::After(_) => "after",
    }
}
