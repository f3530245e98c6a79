//! Plans written back: the library's answers and bytes against those of the second interpreter.

use open_controller::{NotWritten, PLAN_OUTPUT};
use second::writer::Outcome;
use std::fmt;
use std::process::exit;

/// No byte of a plan text.
const MARK: u8 = 0xA5;

/// One of so many cases is also written into buffers of other lengths.
const PART: u64 = 16;

/// How often each thing was met.
#[derive(Default)]
pub struct Writing {
    came_back: u64,
    written: u64,
    refused_first: u64,
    refused_other: u64,
    unsound: u64,
    unsound_in_empty: u64,
    short: u64,
    exact: u64,
    /// The plan text of the case before.
    previous: Option<Vec<u8>>,
}

impl Writing {
    /// Case number k: its plan written back, and its behaviours with the starts of the case before.
    pub fn compare(&mut self, k: u64, plan: &[u8], accepted: bool) {
        comes_back(plan, accepted);
        self.came_back += u64::from(accepted);
        let Some(previous) = self.previous.replace(plan.to_vec()) else {
            return;
        };
        let outcome = compare_one(plan, &previous, PLAN_OUTPUT);
        match outcome {
            Outcome::Written(_) => self.written += 1,
            Outcome::Unsound => self.unsound += 1,
            Outcome::Short => panic!("PLAN_OUTPUT bytes do not hold a plan"),
            Outcome::Refused if accepted => self.refused_other += 1,
            Outcome::Refused => self.refused_first += 1,
        }
        if k % PART == 0 {
            self.compare_rooms(plan, &previous, &outcome);
        }
    }

    /// Buffers of the exact length, one byte less, and none; without a text the empty one, in which 31 is told before 30.
    fn compare_rooms(&mut self, plan: &[u8], previous: &[u8], outcome: &Outcome) {
        let rooms = match outcome {
            Outcome::Written(text) => vec![text.len(), text.len() - 1, 0],
            _ => vec![0],
        };
        for room in rooms {
            match compare_one(plan, previous, room) {
                Outcome::Written(_) => self.exact += 1,
                Outcome::Short => self.short += 1,
                Outcome::Unsound => self.unsound_in_empty += 1,
                Outcome::Refused => {}
            }
        }
    }

    /// What no case met.
    pub fn missing(&self) -> Vec<String> {
        let none = self.rows().into_iter().filter(|(_, count)| *count == 0);
        none.map(|(what, _)| what.to_string()).collect()
    }

    fn rows(&self) -> [(&'static str, u64); 8] {
        [
            ("plan written back to its bytes", self.came_back),
            ("plan written with the starts of another", self.written),
            ("plan refused, not written", self.refused_first),
            ("plan with the starts of a refused one, not written", self.refused_other),
            ("writing, 31", self.unsound),
            ("writing, 31 before 30", self.unsound_in_empty),
            ("writing, 30", self.short),
            ("writing into a buffer as long as the text", self.exact),
        ]
    }
}

/// The rows of a table, as those of `Coverage`.
impl fmt::Display for Writing {
    fn fmt(&self, out: &mut fmt::Formatter<'_>) -> fmt::Result {
        for (what, count) in self.rows() {
            writeln!(out, "{count:>10}  {what}")?;
        }
        Ok(())
    }
}

/// "writing a loaded plan gives its very bytes": no interpreter is needed to know what is to be written.
pub fn comes_back(plan: &[u8], accepted: bool) {
    let expected = if accepted { Outcome::Written(plan.to_vec()) } else { Outcome::Refused };
    check(plan, plan, PLAN_OUTPUT, &expected);
}

/// One call in a buffer of this length, which must do what the second interpreter says.
fn compare_one(behaviours_plan: &[u8], starts_plan: &[u8], room: usize) -> Outcome {
    let expected = second::write_plan(behaviours_plan, starts_plan, room);
    check(behaviours_plan, starts_plan, room, &expected);
    expected
}

/// One call of the library: its answer, the bytes that it wrote, and all other bytes of the buffer as they were.
fn check(behaviours_plan: &[u8], starts_plan: &[u8], room: usize, expected: &Outcome) {
    let (answer, text): (_, &[u8]) = match expected {
        Outcome::Written(text) => (Ok(text.len()), text),
        Outcome::Refused => (Err(NotWritten::Refused), b""),
        Outcome::Unsound => (Err(NotWritten::Unsound), b""),
        Outcome::Short => (Err(NotWritten::Short), b""),
    };
    let mut buffer = text.to_vec();
    buffer.resize(room, MARK);
    let mut out = vec![MARK; room];
    let found = open_controller::write_plan(behaviours_plan, starts_plan, &mut out);
    if found != answer || out != buffer {
        println!("the plan written by the library differs: a buffer of {room} bytes, {answer:?} expected, {found:?} found");
        for (name, bytes) in [("behaviours", behaviours_plan), ("starts", starts_plan), ("expected", &buffer), ("found", &out)] {
            println!("---- {name}\n{}", String::from_utf8_lossy(bytes).trim_end_matches('\u{FFFD}'));
        }
        exit(1);
    }
}
