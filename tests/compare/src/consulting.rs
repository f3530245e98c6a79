//! The clauses that a search consults: the library's numbers against those of the second interpreter.

use second::consult::{self, Kind, Look, Walk};
use second::node::{Message, Node, Op, Pattern, Stage, Value, MAILBOX_LIMIT};
use second::step::{self, Step};
use std::collections::BTreeMap;
use std::fmt;
use std::process::exit;

/// One of so many cases is asked after each of its steps too.
const PART: u64 = 32;

/// A number that no process has. Its lowest 8, 16 and 32 bits are 1, so that a controller that cuts it answers for process 1.
const VERY_LARGE: usize = usize::MAX - u32::MAX as usize + 1;

/// What is met, in the order of the table. A count of something that is not here is a mistake.
///
/// A note and a down are never consulted in vain: `any`, `note` and `down` alone can take their kinds, and fit all messages of the kinds that they
/// can take. So only exact values are consulted in vain, for values.
const ROWS: [&str; 67] = [
    "plan refused, no node to search",
    "steps refused, no node to search",
    "both texts refused, no node to search",
    "no process 0",
    "no process 17",
    "no process of a very large number",
    "not at a recv, unborn",
    "not at a recv, closing",
    "not at a recv, gone",
    "not at a recv, live at another op",
    "not at a recv, live past its code",
    "searched after a refused step",
    "searched after a refused step with others behind it",
    "empty mailbox",
    "fit at the first clause of the first message",
    "fit at a later clause of the first message",
    "fit behind messages left out only",
    "fit behind messages consulted in vain only",
    "fit behind messages left out and messages consulted in vain",
    "fit at the first of several clauses",
    "fit at a clause between others",
    "fit at the last of several clauses",
    "fit before messages that would be left out",
    "fit before messages that would be consulted",
    "no fit, all messages left out",
    "no fit, some messages left out",
    "no fit, no message left out",
    "count above 8, a message fits",
    "count above 8, none fits",
    "count above 64",
    "count of 128",
    "full mailbox, a message fits",
    "full mailbox, none fits",
    "recv with 8 clauses, a message fits",
    "recv with 8 clauses, none fits",
    "clause before the fit that cannot take the kind",
    "clause consulted in vain that cannot take the kind",
    "kind that only the first of several clauses can take",
    "kind that only the last of several clauses can take",
    "left out, a clause of an earlier recv can take it",
    "left out, a clause of a later recv can take it",
    "left out, the recv has an after",
    "left out, an exact value of its number and another kind",
    "consulted in vain, an exact value of its number and another kind",
    "fit by any, an int",
    "fit by any, an atom",
    "fit by any, a pid",
    "fit by any, a note",
    "fit by any, a down",
    "fit by int",
    "fit by atom",
    "fit by pid",
    "fit by note",
    "fit by down",
    "fit by an exact int",
    "fit by an exact atom",
    "fit by an exact pid",
    "int left out",
    "atom left out",
    "pid left out",
    "note left out",
    "down left out",
    "int consulted in vain",
    "atom consulted in vain",
    "pid consulted in vain",
    "note consulted",
    "down consulted",
];

/// How often each thing was met.
pub struct Consulting {
    rows: BTreeMap<&'static str, u64>,
    nodes: u64,
    asked: u64,
}

impl Consulting {
    pub fn new() -> Consulting {
        Consulting { rows: ROWS.iter().map(|&row| (row, 0)).collect(), nodes: 0, asked: 0 }
    }

    /// Case number k: the node at its end, and for one of PART cases the node after each step.
    pub fn compare(&mut self, k: u64, plan: &[u8], steps: &[u8]) {
        let (loaded, read) = (second::plan::load(plan), second::steps::read(steps));
        let (start, schedule) = match (loaded, read) {
            (Ok(start), Ok(schedule)) => (start, schedule),
            (Err(_), Ok(_)) => return self.compare_refused(plan, steps, "plan refused, no node to search"),
            (Ok(_), Err(_)) => return self.compare_refused(plan, steps, "steps refused, no node to search"),
            (Err(_), Err(_)) => return self.compare_refused(plan, steps, "both texts refused, no node to search"),
        };
        let mut node = start.clone();
        let (accepted, refused) = second::play(&mut node, &schedule, None);
        let searched = numbers().any(|process| consult::walk(&node, process).is_some());
        self.count_if(searched && refused != 0, "searched after a refused step");
        let more = accepted + 1 < schedule.len();
        self.count_if(searched && refused != 0 && more, "searched after a refused step with others behind it");
        self.ask(plan, steps, &node);
        if k % PART == 0 {
            self.compare_each(plan, steps, start, &schedule);
        }
    }

    fn compare_refused(&mut self, plan: &[u8], steps: &[u8], row: &'static str) {
        for process in numbers() {
            check(plan, steps, process, None);
            self.asked += 1;
        }
        self.count(row);
    }

    /// The node at the start and after each step, the refused one included.
    fn compare_each(&mut self, plan: &[u8], steps: &[u8], mut node: Node, schedule: &[Step]) {
        self.ask(plan, b"", &node);
        let mut length = 0;
        for (&step, line) in schedule.iter().zip(steps.split_inclusive(|byte| *byte == b'\n')) {
            length += line.len();
            let refused = step::take(&mut node, step).is_err();
            self.ask(plan, &steps[..length], &node);
            if refused {
                break;
            }
        }
    }

    /// One node, which the two texts give, asked for each number.
    fn ask(&mut self, plan: &[u8], steps: &[u8], node: &Node) {
        self.nodes += 1;
        for process in numbers() {
            let walk = consult::walk(node, process);
            check(plan, steps, process, walk.as_ref().map(Walk::consulted));
            self.asked += 1;
            match walk {
                Some(walk) => self.count_walk(&Searched::new(node, process as u8, walk)),
                None => self.count_none(node, process),
            }
        }
    }

    fn count_none(&mut self, node: &Node, process: usize) {
        let row = match process {
            0 => "no process 0",
            17 => "no process 17",
            VERY_LARGE => "no process of a very large number",
            _ => match node.stage(process as u8) {
                Stage::Unborn => "not at a recv, unborn",
                Stage::Closing(_) => "not at a recv, closing",
                Stage::Gone => "not at a recv, gone",
                Stage::Live(_) if node.current_op(process as u8).is_some() => "not at a recv, live at another op",
                Stage::Live(_) => "not at a recv, live past its code",
            },
        };
        self.count(row);
    }

    fn count_walk(&mut self, searched: &Searched) {
        let Searched { walk, mailbox, .. } = searched;
        match walk.looks.split_last() {
            None => self.count("empty mailbox"),
            Some((Look { consulted, fit: Some(_), .. }, before)) => self.count_fit(searched, before, *consulted),
            Some(_) => self.count_unfit(searched),
        }
        self.count_if(walk.consulted() > 64, "count above 64");
        self.count_if(walk.consulted() == 128, "count of 128");
        for (look, message) in walk.looks.iter().zip(*mailbox) {
            self.count_look(searched, look, message);
        }
    }

    /// A search that ends with a fit, for which so many clauses were consulted.
    fn count_fit(&mut self, searched: &Searched, before: &[Look], consulted: usize) {
        let Searched { walk, mailbox, .. } = searched;
        let (left_out, in_vain) = (before.iter().any(|look| !look.noted), before.iter().any(|look| look.noted));
        self.count(match (left_out, in_vain) {
            (false, false) if consulted == 1 => "fit at the first clause of the first message",
            (false, false) => "fit at a later clause of the first message",
            (true, false) => "fit behind messages left out only",
            (false, true) => "fit behind messages consulted in vain only",
            (true, true) => "fit behind messages left out and messages consulted in vain",
        });
        let clauses = walk.patterns.len();
        if clauses > 1 {
            self.count(match consulted {
                1 => "fit at the first of several clauses",
                _ if consulted < clauses => "fit at a clause between others",
                _ => "fit at the last of several clauses",
            });
        }
        let behind = || mailbox[walk.looks.len()..].iter().map(|message| takers(walk, consult::kind_of(message)));
        self.count_if(behind().any(|takers| takers.is_empty()), "fit before messages that would be left out");
        self.count_if(behind().any(|takers| !takers.is_empty()), "fit before messages that would be consulted");
        self.count_if(walk.consulted() > 8, "count above 8, a message fits");
        self.count_if(mailbox.len() == MAILBOX_LIMIT, "full mailbox, a message fits");
        self.count_if(clauses == 8, "recv with 8 clauses, a message fits");
    }

    /// A search of messages none of which fits.
    fn count_unfit(&mut self, searched: &Searched) {
        let Searched { walk, mailbox, .. } = searched;
        let left_out = walk.looks.iter().filter(|look| !look.noted).count();
        self.count(match left_out {
            0 => "no fit, no message left out",
            _ if left_out == walk.looks.len() => "no fit, all messages left out",
            _ => "no fit, some messages left out",
        });
        self.count_if(walk.consulted() > 8, "count above 8, none fits");
        self.count_if(mailbox.len() == MAILBOX_LIMIT, "full mailbox, none fits");
        self.count_if(walk.patterns.len() == 8, "recv with 8 clauses, none fits");
    }

    /// One message that a search came to.
    fn count_look(&mut self, searched: &Searched, look: &Look, message: &Message) {
        let Searched { walk, .. } = searched;
        if !look.noted {
            return self.count_left_out(searched, look.kind, message);
        }
        let takers = takers(walk, look.kind);
        let others = (0..look.consulted).any(|index| !takers.contains(&index));
        let several = walk.patterns.len() > 1;
        self.count_if(several && takers == [0], "kind that only the first of several clauses can take");
        self.count_if(several && takers == [walk.patterns.len() - 1], "kind that only the last of several clauses can take");
        match (look.kind, look.fit) {
            (Kind::Note, _) => self.count("note consulted"),
            (Kind::Down, _) => self.count("down consulted"),
            (Kind::Int, None) => self.count("int consulted in vain"),
            (Kind::Atom, None) => self.count("atom consulted in vain"),
            (Kind::Pid, None) => self.count("pid consulted in vain"),
            _ => {}
        }
        match look.fit {
            Some(pattern) => {
                self.count_if(others, "clause before the fit that cannot take the kind");
                self.count(fit_row(pattern, look.kind));
            }
            None => {
                self.count_if(others, "clause consulted in vain that cannot take the kind");
                self.count_if(namesake(walk, message), "consulted in vain, an exact value of its number and another kind");
            }
        }
    }

    /// A message of a kind that no clause can take.
    fn count_left_out(&mut self, searched: &Searched, kind: Kind, message: &Message) {
        self.count(match kind {
            Kind::Int => "int left out",
            Kind::Atom => "atom left out",
            Kind::Pid => "pid left out",
            Kind::Note => "note left out",
            Kind::Down => "down left out",
        });
        let takes = |op: &Op| matches!(op, Op::Clause(clause) if consult::can_take(clause.pattern, kind));
        self.count_if(searched.before.iter().any(takes), "left out, a clause of an earlier recv can take it");
        self.count_if(searched.behind.iter().any(takes), "left out, a clause of a later recv can take it");
        self.count_if(matches!(searched.behind.first(), Some(Op::After(_))), "left out, the recv has an after");
        self.count_if(namesake(&searched.walk, message), "left out, an exact value of its number and another kind");
    }

    fn count(&mut self, row: &'static str) {
        *self.rows.get_mut(row).expect("a row of ROWS") += 1;
    }

    fn count_if(&mut self, met: bool, row: &'static str) {
        if met {
            self.count(row);
        }
    }

    /// What no case met.
    pub fn missing(&self) -> Vec<String> {
        let none = ROWS.iter().filter(|row| self.rows[*row] == 0);
        none.map(|row| row.to_string()).collect()
    }
}

/// The rows of a table, as those of `Coverage`.
impl fmt::Display for Consulting {
    fn fmt(&self, out: &mut fmt::Formatter<'_>) -> fmt::Result {
        for row in ROWS {
            writeln!(out, "{:>10}  {row}", self.rows[row])?;
        }
        writeln!(out, "{:>10}  nodes searched", self.nodes)?;
        writeln!(out, "{:>10}  times asked how many clauses are consulted", self.asked)
    }
}

/// A search and what it was made on.
struct Searched<'a> {
    walk: Walk,
    mailbox: &'a [Message],
    /// The ops before the recv, and those behind its clauses.
    before: &'a [Op],
    behind: &'a [Op],
}

impl Searched<'_> {
    fn new(node: &Node, process: u8, walk: Walk) -> Searched<'_> {
        let live = node.live(process);
        let (before, rest) = node.code(live.behaviour).split_at(live.place);
        let behind = &rest[1 + walk.patterns.len()..];
        Searched { walk, mailbox: &live.mailbox, before, behind }
    }
}

/// The numbers that are asked for: those of the processes, those beside them and a very large one.
fn numbers() -> impl Iterator<Item = usize> {
    (0..=17).chain([VERY_LARGE])
}

/// The indexes of the clauses that can take messages of a kind.
fn takers(walk: &Walk, kind: Kind) -> Vec<usize> {
    let takes = |index: &usize| consult::can_take(walk.patterns[*index], kind);
    (0..walk.patterns.len()).filter(takes).collect()
}

/// Whether a clause is for exactly a value that has the number of the message's value and another kind.
fn namesake(walk: &Walk, message: &Message) -> bool {
    let Message::Value(value) = message else {
        return false;
    };
    let other = |wanted: &Value| wanted != value && number_of(*wanted) == number_of(*value);
    walk.patterns.iter().any(|pattern| matches!(pattern, Pattern::Exact(wanted) if other(wanted)))
}

fn number_of(value: Value) -> i32 {
    match value {
        Value::Int(number) => number,
        Value::Atom(number) | Value::Pid(number) => i32::from(number),
    }
}

/// The row of a clause that fits a message of this kind.
fn fit_row(pattern: Pattern, kind: Kind) -> &'static str {
    match (pattern, kind) {
        (Pattern::Any, Kind::Int) => "fit by any, an int",
        (Pattern::Any, Kind::Atom) => "fit by any, an atom",
        (Pattern::Any, Kind::Pid) => "fit by any, a pid",
        (Pattern::Any, Kind::Note) => "fit by any, a note",
        (Pattern::Any, Kind::Down) => "fit by any, a down",
        (Pattern::Int, _) => "fit by int",
        (Pattern::Atom, _) => "fit by atom",
        (Pattern::Pid, _) => "fit by pid",
        (Pattern::Note, _) => "fit by note",
        (Pattern::Down, _) => "fit by down",
        (Pattern::Exact(Value::Int(_)), _) => "fit by an exact int",
        (Pattern::Exact(Value::Atom(_)), _) => "fit by an exact atom",
        (Pattern::Exact(Value::Pid(_)), _) => "fit by an exact pid",
    }
}

/// Two texts, asked for each number.
pub fn check_all(plan: &[u8], steps: &[u8]) {
    for process in numbers() {
        check(plan, steps, process, second::consulted(plan, steps, process));
    }
}

/// One call of the library, which must answer what the second interpreter says.
fn check(plan: &[u8], steps: &[u8], process: usize, expected: Option<usize>) {
    let found = open_controller::consulted(plan, steps, process);
    if found != expected {
        println!("the clauses that the library says process {process} consults differ: {expected:?} expected, {found:?} found");
        for (name, bytes) in [("plan", plan), ("steps", steps)] {
            println!("---- {name}\n{}", String::from_utf8_lossy(bytes));
        }
        exit(1);
    }
}
