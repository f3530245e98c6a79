//! The first acceptable step: the library's answers against those of the second interpreter.

use open_controller::{Refused, Step as Found};
use second::node::{Node, Stage, PROCESSES};
use second::offer::{first_acceptable, in_order};
use second::step::{self, Step};
use std::collections::BTreeMap;
use std::fmt;
use std::process::exit;

/// One of so many cases is asked after each of its steps too.
const PART: u64 = 32;

/// What is met, in the order of the table. A count of something that is not here is a mistake.
///
/// Of one owner a run and an arrival can both be open, a timeout and an arrival, and two arrivals. A run and a timeout cannot: the timeout is open
/// only at a recv that no message fits, where the run is 25 or 29. So no row has these two, and their order cannot be seen.
///
/// What is passed over is a step before the answer that the node would refuse: a controller that overlooks this refusal tells that step. 20 is
/// not among them, since no step with such a number is looked at.
const ROWS: [&str; 32] = [
    "first step is a run of a live process",
    "first step is a run of a closing process",
    "first step is a timeout",
    "first step is an arrival at a live process",
    "first step is an arrival at a closing process",
    "first step is an arrival at a gone process",
    "run before an arrival of its owner",
    "timeout before an arrival of its owner",
    "arrival before another of its owner",
    "timeout before a run of a higher owner",
    "arrival before a run of a higher owner",
    "arrival before a run of a higher owner, below its sender",
    "arrival before one of a higher owner from a lower sender",
    "no step, a process is live",
    "no step, a process is closing",
    "no step, no process is live or closing",
    "passed over 21, a signal waits",
    "passed over 22",
    "passed over 23",
    "passed over 24",
    "passed over 25",
    "passed over 26, run of a live process",
    "passed over 26, run of a closing process",
    "passed over 26, arrival",
    "passed over 27",
    "passed over 28, recv without after",
    "passed over 29",
    "asked after a refused step",
    "asked after a refused step with others behind it",
    "plan refused, no node to ask",
    "steps refused, no node to ask",
    "both texts refused, no node to ask",
];

/// How often each thing was met.
pub struct Suggesting {
    rows: BTreeMap<&'static str, u64>,
    asked: u64,
}

impl Suggesting {
    pub fn new() -> Suggesting {
        Suggesting { rows: ROWS.iter().map(|&row| (row, 0)).collect(), asked: 0 }
    }

    /// Case number k: the node at its end, and for one of PART cases the node after each step.
    pub fn compare(&mut self, k: u64, plan: &[u8], steps: &[u8]) {
        let (loaded, read) = (second::plan::load(plan), second::steps::read(steps));
        let (start, schedule) = match (loaded, read) {
            (Ok(start), Ok(schedule)) => (start, schedule),
            (Err(_), Ok(_)) => return self.compare_refused(plan, steps, "plan refused, no node to ask"),
            (Ok(_), Err(_)) => return self.compare_refused(plan, steps, "steps refused, no node to ask"),
            (Err(_), Err(_)) => return self.compare_refused(plan, steps, "both texts refused, no node to ask"),
        };
        let mut node = start.clone();
        let (accepted, refused) = second::play(&mut node, &schedule, None);
        self.count_if(refused != 0, "asked after a refused step");
        self.count_if(refused != 0 && accepted + 1 < schedule.len(), "asked after a refused step with others behind it");
        self.ask(plan, steps, &node);
        if k % PART == 0 {
            self.compare_each(plan, steps, start, &schedule);
        }
    }

    fn compare_refused(&mut self, plan: &[u8], steps: &[u8], row: &'static str) {
        check(plan, steps, Err(Refused));
        self.count(row);
    }

    /// The node at the start and after each step, the refused one included.
    fn compare_each(&mut self, plan: &[u8], steps: &[u8], mut node: Node, schedule: &[Step]) {
        self.ask(plan, b"", &node);
        let mut length = 0;
        for (&step, line) in schedule.iter().zip(steps.split_inclusive(|byte| *byte == b'\n')) {
            length += line.len();
            let refused = step::take(&mut node, step).is_err();
            self.ask(plan, &steps[..length], &node);
            if refused {
                return;
            }
        }
    }

    /// One node, which the two texts give.
    fn ask(&mut self, plan: &[u8], steps: &[u8], node: &Node) {
        let first = first_acceptable(node);
        check(plan, steps, Ok(first));
        self.asked += 1;
        let looks = looked_at(node);
        match first {
            Some(step) => self.count_first(node, step, &looks),
            None => self.count_none(node),
        }
        for &(step, number) in looks.iter().take_while(|(_, number)| *number != 0) {
            self.count_passed(node, step, number);
        }
    }

    fn count_first(&mut self, node: &Node, first: Step, looks: &[(Step, u8)]) {
        self.count(match (first, node.stage(first.owner())) {
            (Step::Run(_), Stage::Closing(_)) => "first step is a run of a closing process",
            (Step::Run(_), _) => "first step is a run of a live process",
            (Step::Timeout(_), _) => "first step is a timeout",
            (Step::Arrive { .. }, Stage::Live(_)) => "first step is an arrival at a live process",
            (Step::Arrive { .. }, Stage::Closing(_)) => "first step is an arrival at a closing process",
            (Step::Arrive { .. }, _) => "first step is an arrival at a gone process",
        });
        let open = || looks.iter().filter(|&&(step, number)| number == 0 && step != first).map(|(step, _)| *step);
        let own_arrival = open().any(|step| step.owner() == first.owner() && matches!(step, Step::Arrive { .. }));
        let higher_run = open().any(|step| step.owner() != first.owner() && matches!(step, Step::Run(_)));
        match first {
            Step::Run(_) => self.count_if(own_arrival, "run before an arrival of its owner"),
            Step::Timeout(_) => {
                self.count_if(own_arrival, "timeout before an arrival of its owner");
                self.count_if(higher_run, "timeout before a run of a higher owner");
            }
            Step::Arrive { from: sender, .. } => {
                self.count_if(own_arrival, "arrival before another of its owner");
                self.count_if(higher_run, "arrival before a run of a higher owner");
                let below = open().any(|step| matches!(step, Step::Run(owner) if owner < sender));
                self.count_if(below, "arrival before a run of a higher owner, below its sender");
                let lower = open().any(|step| matches!(step, Step::Arrive { from, .. } if from < sender));
                self.count_if(lower, "arrival before one of a higher owner from a lower sender");
            }
        }
    }

    fn count_none(&mut self, node: &Node) {
        let mut stages = (1..=PROCESSES).map(|process| node.stage(process));
        let live = stages.clone().any(|stage| matches!(stage, Stage::Live(_)));
        let closing = stages.any(|stage| matches!(stage, Stage::Closing(_)));
        self.count_if(live, "no step, a process is live");
        self.count_if(closing, "no step, a process is closing");
        self.count_if(!live && !closing, "no step, no process is live or closing");
    }

    /// A step that the node would refuse with this number. 21 without a signal and 28 of a process that does not wait are left out: nearly every
    /// node has them.
    fn count_passed(&mut self, node: &Node, step: Step, number: u8) {
        let closing = matches!(node.stage(step.owner()), Stage::Closing(_));
        let waits = step::awaited(node, step.owner()).is_some();
        let row = match (number, step) {
            (step::OWNER_UNBORN, Step::Arrive { to, from }) if !node.flight(from, to).is_empty() => "passed over 21, a signal waits",
            (step::RUN_OF_GONE, _) => "passed over 22",
            (step::NONE_IN_FLIGHT, _) => "passed over 23",
            (step::MAILBOX_FULL, _) => "passed over 24",
            (step::MAILBOX_EMPTY, _) => "passed over 25",
            (step::PAIR_FULL, Step::Arrive { .. }) => "passed over 26, arrival",
            (step::PAIR_FULL, _) if closing => "passed over 26, run of a closing process",
            (step::PAIR_FULL, _) => "passed over 26, run of a live process",
            (step::NOT_UNBORN, _) => "passed over 27",
            (step::NO_TIMEOUT, _) if waits => "passed over 28, recv without after",
            (step::NO_FIT, _) => "passed over 29",
            _ => return,
        };
        self.count(row);
    }

    fn count(&mut self, row: &'static str) {
        *self.rows.get_mut(row).expect("a row of ROWS") += 1;
    }

    fn count_if(&mut self, met: bool, row: &'static str) {
        if met {
            self.count(row);
        }
    }

    /// What no case met.
    pub fn missing(&self) -> Vec<String> {
        let none = ROWS.iter().filter(|row| self.rows[*row] == 0);
        none.map(|row| row.to_string()).collect()
    }
}

/// The rows of a table, as those of `Coverage`.
impl fmt::Display for Suggesting {
    fn fmt(&self, out: &mut fmt::Formatter<'_>) -> fmt::Result {
        for row in ROWS {
            writeln!(out, "{:>10}  {row}", self.rows[row])?;
        }
        writeln!(out, "{:>10}  nodes asked for their first acceptable step", self.asked)
    }
}

/// Each step in the order in which they are looked at, with the refusal that the node would give, 0 for none.
fn looked_at(node: &Node) -> Vec<(Step, u8)> {
    let mut copy = node.clone();
    let mut refusal = |step| match step::take(&mut copy, step) {
        Ok(_) => {
            copy = node.clone();
            0
        }
        Err(number) => number,
    };
    in_order().map(|step| (step, refusal(step))).collect()
}

/// One call of the library, which must answer what the second interpreter says.
pub fn check(plan: &[u8], steps: &[u8], expected: Result<Option<Step>, Refused>) {
    let expected = expected.map(|first| first.map(as_found));
    let found = open_controller::suggest(plan, steps);
    if found != expected {
        println!("the first acceptable step of the library differs: {expected:?} expected, {found:?} found");
        for (name, bytes) in [("plan", plan), ("steps", steps)] {
            println!("---- {name}\n{}", String::from_utf8_lossy(bytes));
        }
        exit(1);
    }
}

fn as_found(step: Step) -> Found {
    match step {
        Step::Run(owner) => Found::Run { owner },
        Step::Arrive { to, from } => Found::Arrive { owner: to, from },
        Step::Timeout(owner) => Found::Timeout { owner },
    }
}
