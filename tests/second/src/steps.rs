//! Steps text: reading it into a schedule.

use crate::step::Step;
use crate::text::{number, parts, split_lines, value_of, Refused};

/// "32 with line 0 for text above 61,440 bytes"
pub const BYTE_LIMIT: usize = 61_440;
/// "A schedule is a row of at most 4,096 steps"
pub const LINE_LIMIT: usize = 4_096;

pub const MALFORMED: u8 = 15;
pub const TOO_LONG: u8 = 32;

/// "32 with line 0 for text above 61,440 bytes; else 15 malformed line, the first told; if none,
/// 32 with line 0 for over 4,096 lines; each gives no steps."
pub fn read(text: &[u8]) -> Result<Vec<Step>, Refused> {
    let too_long = Refused {
        number: TOO_LONG,
        line: 0,
    };
    if text.len() > BYTE_LIMIT {
        return Err(too_long);
    }
    let steps = read_lines(text)?;
    if steps.len() > LINE_LIMIT {
        return Err(too_long);
    }
    Ok(steps)
}

/// "empty text is no steps"
fn read_lines(text: &[u8]) -> Result<Vec<Step>, Refused> {
    let (lines, rest) = split_lines(text);
    let malformed = |index: usize| Refused {
        number: MALFORMED,
        line: index + 1,
    };
    let mut steps = Vec::with_capacity(lines.len());
    for (index, line) in lines.iter().enumerate() {
        steps.push(read_step(line).ok_or(malformed(index))?);
    }
    // "each ended by byte 10; a last line without it is 11, in steps 15"
    if !rest.is_empty() {
        return Err(malformed(lines.len()));
    }
    Ok(steps)
}

/// "Steps: `run=i`, `arrive=i,j`, numbers 0 to 255 (any other: 15)"; "the step `timeout=i`"
fn read_step(line: &[u8]) -> Option<Step> {
    if let Some(value) = value_of(line, "run") {
        return Some(Step::Run(process_number(value)?));
    }
    if let Some(value) = value_of(line, "timeout") {
        return Some(Step::Timeout(process_number(value)?));
    }
    let value = value_of(line, "arrive")?;
    match parts(value)[..] {
        [to, from] => Some(Step::Arrive {
            to: process_number(to)?,
            from: process_number(from)?,
        }),
        _ => None,
    }
}

fn process_number(text: &[u8]) -> Option<u8> {
    u8::try_from(number(text)?).ok()
}

/// The line of a step, without its byte 10; the generator writes schedules with it.
pub fn step_text(step: Step) -> String {
    match step {
        Step::Run(process) => format!("run={process}"),
        Step::Arrive { to, from } => format!("arrive={to},{from}"),
        Step::Timeout(process) => format!("timeout={process}"),
    }
}

/// The steps text of a schedule.
pub fn schedule_text(schedule: &[Step]) -> Vec<u8> {
    let mut text = String::new();
    for &step in schedule {
        text.push_str(&step_text(step));
        text.push('\n');
    }
    text.into_bytes()
}
