//! Plans written back: behaviours and starts as plan text (request M-103 of document 02). The
//! generator writes its plans with it too.

use crate::node::{Clause, Op, Pattern};
use crate::plan::{contents, op_word};

/// What the library's call on two plan texts does.
#[derive(Clone, Debug, PartialEq, Eq)]
pub enum Outcome {
    Written(Vec<u8>),
    /// One of the two texts is refused.
    Refused,
    /// "Behaviours or starts that no accepted plan text holds are turned down as 31."
    Unsound,
    /// "A buffer too short is 30 and stays unchanged."
    Short,
}

/// The behaviours of one plan text with the starts of another, as plan text for a buffer of `room`
/// bytes. "Checks run in this order: 31, 30"
pub fn write_plan(behaviours_plan: &[u8], starts_plan: &[u8], room: usize) -> Outcome {
    let (Ok(first), Ok(other)) = (contents(behaviours_plan), contents(starts_plan)) else {
        return Outcome::Refused;
    };
    match write(&first.behaviours, &other.starts) {
        None => Outcome::Unsound,
        Some(text) if text.len() > room => Outcome::Short,
        Some(text) => Outcome::Written(text),
    }
}

/// "a writer that takes behaviours and a row of starts and gives plan text. Loading that text gives
/// the same behaviours and starts"; None is 31. A number has one form only, so no other text than
/// the one of these lines could hold them: the loader says whether it does.
pub fn write(behaviours: &[Vec<Op>], starts: &[(u8, u8)]) -> Option<Vec<u8>> {
    let text = text_of(&lines(behaviours, starts));
    let held = contents(&text).ok()?;
    (held.behaviours == behaviours && held.starts == starts).then_some(text)
}

/// "Key=value lines in fixed order, each ended by byte 10"
pub fn text_of(lines: &[String]) -> Vec<u8> {
    let ended = lines.iter().map(|line| format!("{line}\n"));
    ended.collect::<String>().into_bytes()
}

/// "Plan: `plan=1`, `behaviours=` 1 to 8, for each `code=` N (1 to 32) and N lines `op=`, then
/// `starts=` 1 to 16 and lines `start=process,behaviour`": these lines, whatever the numbers are.
pub fn lines(behaviours: &[Vec<Op>], starts: &[(u8, u8)]) -> Vec<String> {
    let mut lines = vec!["plan=1".to_string()];
    lines.push(format!("behaviours={}", behaviours.len()));
    for code in behaviours {
        lines.push(format!("code={}", code.len()));
        lines.extend(code.iter().map(|&op| format!("op={}", op_text(op))));
    }
    lines.push(format!("starts={}", starts.len()));
    for (process, behaviour) in starts {
        lines.push(format!("start={process},{behaviour}"));
    }
    lines
}

/// The op as the value of its `op=` line.
pub fn op_text(op: Op) -> String {
    let word = op_word(op);
    match op {
        Op::Set(r, value) => format!("{word},{r},{value}"),
        Op::Copy(r, s) | Op::Add(r, s) | Op::Send(r, s) | Op::Exit(r, s) => {
            format!("{word},{r},{s}")
        }
        Op::SelfNumber(r)
        | Op::Link(r)
        | Op::Unlink(r)
        | Op::Stop(r)
        | Op::Monitor(r)
        | Op::Demonitor(r) => format!("{word},{r}"),
        Op::Trap(flag) => format!("{word},{}", u8::from(flag)),
        Op::Spawn {
            r,
            behaviour,
            process,
        } => format!("{word},{r},{behaviour},{process}"),
        Op::Recv(count) => format!("{word},{count}"),
        Op::Clause(clause) => format!("{word},{}", clause_text(clause)),
        Op::Jump(target) | Op::After(target) => format!("{word},{target}"),
        Op::Same(r, value, target) => format!("{word},{r},{value},{target}"),
        Op::Less(r, s, target) => format!("{word},{r},{s},{target}"),
    }
}

fn clause_text(clause: Clause) -> String {
    let pattern = pattern_text(clause.pattern);
    format!("{pattern},{},{},{}", clause.r, clause.s, clause.target)
}

fn pattern_text(pattern: Pattern) -> String {
    match pattern {
        Pattern::Any => "any".to_string(),
        Pattern::Int => "int".to_string(),
        Pattern::Atom => "atom".to_string(),
        Pattern::Pid => "pid".to_string(),
        Pattern::Note => "note".to_string(),
        Pattern::Down => "down".to_string(),
        Pattern::Exact(value) => value.to_string(),
    }
}
