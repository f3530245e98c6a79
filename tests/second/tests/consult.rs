//! How many clauses a search consults: request M-106 of document 02. The numbers are worked out by
//! hand.

// Only `plan` and `steps` are used here; the other tests use the rest.
#[allow(dead_code)]
mod support;

use second::consult::{can_take, number, walk, Kind, Walk};
use second::node::{Clause, Live, Message, Node, Op, Pattern, Stage, Value, PROCESSES};
use second::step::{self, Search};
use second::{case, consulted};
use support::{plan, steps};
use Pattern::{Any, Exact};

const I5: Message = Message::Value(Value::Int(5));
const A5: Message = Message::Value(Value::Atom(5));
const P5: Message = Message::Value(Value::Pid(5));
const NOTE: Message = Message::Note {
    sender: 5,
    reason: Value::Int(5),
};
const DOWN: Message = Message::Down {
    sender: 5,
    reason: Value::Int(5),
};

/// A message of each kind; the numbers in them are all 5, so that only kinds tell them apart.
const MESSAGES: [Message; 5] = [I5, A5, P5, NOTE, DOWN];

/// The clauses int, atom, pid, note and down.
const BY_KIND: [Pattern; 5] = [
    Pattern::Int,
    Pattern::Atom,
    Pattern::Pid,
    Pattern::Note,
    Pattern::Down,
];

fn int(number: i32) -> Pattern {
    Exact(Value::Int(number))
}

fn atom(number: u8) -> Pattern {
    Exact(Value::Atom(number))
}

fn pid(number: u8) -> Pattern {
    Exact(Value::Pid(number))
}

/// A node on which process 7 waits at a recv with these clauses; behind them are clauses of another
/// recv, which take everything.
fn waiting(patterns: &[Pattern], mailbox: &[Message]) -> Node {
    let clause = |&pattern: &Pattern| {
        Op::Clause(Clause {
            pattern,
            r: 0,
            s: 0,
            target: 0,
        })
    };
    let mut code = vec![Op::Recv(patterns.len())];
    code.extend(patterns.iter().map(clause));
    code.push(Op::Recv(1));
    code.push(clause(&Any));
    let mut node = Node::new(vec![code]);
    let mut live = Live::fresh(1, Value::Int(0));
    live.mailbox = mailbox.to_vec();
    node.set_stage(7, Stage::Live(live));
    node
}

fn count(patterns: &[Pattern], mailbox: &[Message]) -> usize {
    let walk = walk(&waiting(patterns, mailbox), 7);
    walk.expect("process 7 waits").consulted()
}

#[test]
fn kinds_that_a_clause_can_take() {
    let kinds = [Kind::Int, Kind::Atom, Kind::Pid, Kind::Note, Kind::Down];
    let taken = |pattern| kinds.map(|kind| u8::from(can_take(pattern, kind)));
    assert_eq!(taken(Any), [1, 1, 1, 1, 1]);
    assert_eq!(taken(Pattern::Int), [1, 0, 0, 0, 0]);
    assert_eq!(taken(Pattern::Atom), [0, 1, 0, 0, 0]);
    assert_eq!(taken(Pattern::Pid), [0, 0, 1, 0, 0]);
    assert_eq!(taken(Pattern::Note), [0, 0, 0, 1, 0]);
    assert_eq!(taken(Pattern::Down), [0, 0, 0, 0, 1]);
    assert_eq!(taken(int(5)), [1, 0, 0, 0, 0]);
    assert_eq!(taken(atom(5)), [0, 1, 0, 0, 0]);
    assert_eq!(taken(pid(5)), [0, 0, 1, 0, 0]);
}

#[test]
fn one_clause_and_one_message() {
    let row = |pattern| MESSAGES.map(|message| count(&[pattern], &[message]));
    assert_eq!(row(Any), [1, 1, 1, 1, 1]);
    for (index, pattern) in BY_KIND.into_iter().enumerate() {
        let mut expected = [0; 5];
        expected[index] = 1;
        assert_eq!(row(pattern), expected, "{pattern:?}");
    }
    // An exact value of another number is consulted in vain, which counts as well.
    for number in [5, 6] {
        assert_eq!(row(int(i32::from(number))), [1, 0, 0, 0, 0]);
        assert_eq!(row(atom(number)), [0, 1, 0, 0, 0]);
        assert_eq!(row(pid(number)), [0, 0, 1, 0, 0]);
    }
}

#[test]
fn clauses_that_cannot_take_the_kind_count_once_another_can() {
    let a7 = Message::Value(Value::Atom(7));
    assert_eq!(count(&[Pattern::Int, atom(3)], &[a7]), 2);
    assert_eq!(count(&[Pattern::Int, Pattern::Int], &[a7]), 0);
    assert_eq!(count(&[atom(3), Pattern::Int, Pattern::Note], &[a7]), 3);
}

#[test]
fn any_behind_another_clause() {
    let row = |pattern| MESSAGES.map(|message| count(&[pattern, Any], &[message]));
    assert_eq!(row(Any), [1, 1, 1, 1, 1]);
    for (index, pattern) in BY_KIND.into_iter().enumerate() {
        let mut expected = [2; 5];
        expected[index] = 1;
        assert_eq!(row(pattern), expected, "{pattern:?}");
    }
    assert_eq!(row(int(5)), [1, 2, 2, 2, 2]);
    assert_eq!(row(int(6)), [2, 2, 2, 2, 2]);
}

#[test]
fn an_empty_mailbox() {
    assert_eq!(count(&[Any], &[]), 0);
    assert_eq!(count(&[Any; 8], &[]), 0);
    assert_eq!(count(&[int(1)], &[]), 0);
}

#[test]
fn messages_up_to_the_fit_count() {
    // The atom and the note are left out; what is behind the integer is not looked at.
    assert_eq!(count(&[Pattern::Int], &[A5, NOTE, I5, I5, I5]), 1);
    // 2 for the first integer, nothing for the pid, 2 for the second.
    let patterns = [int(1), int(5)];
    let i9 = Message::Value(Value::Int(9));
    assert_eq!(count(&patterns, &[A5, i9, P5, I5, i9]), 4);
    // Nothing fits: the integers have 2 each.
    assert_eq!(count(&patterns, &[A5, i9, DOWN, i9, NOTE]), 4);
    assert_eq!(count(&patterns, &[A5, P5, DOWN, NOTE]), 0);
}

#[test]
fn clauses_of_one_kind_before_the_fit() {
    let patterns = [int(1), int(2), int(5), Pattern::Int, Pattern::Int];
    assert_eq!(count(&patterns, &[I5]), 3);
    assert_eq!(count(&patterns, &[Message::Value(Value::Int(6))]), 4);
    assert_eq!(count(&patterns, &[Message::Value(Value::Int(1))]), 1);
}

#[test]
fn sixteen_messages_and_eight_clauses() {
    let patterns = [1, 2, 3, 4]
        .map(int)
        .into_iter()
        .chain([1, 2, 3, 4].map(atom));
    let patterns: Vec<Pattern> = patterns.collect();
    let a1 = Message::Value(Value::Atom(1));
    assert_eq!(count(&patterns, &[I5; 16]), 128);
    assert_eq!(count(&patterns, &[P5; 16]), 0);
    let last = [&[I5; 15][..], &[a1]].concat();
    assert_eq!(count(&patterns, &last), 125);
    let middle = [&[I5; 7][..], &[a1], &[I5; 8]].concat();
    assert_eq!(count(&patterns, &middle), 61);
    let with_others = [&[NOTE; 5][..], &[A5; 5], &[DOWN; 6]].concat();
    assert_eq!(count(&patterns, &with_others), 40);
}

/// Process 1 waits for an integer; process 2 sends it a7, then i5, and goes to its end.
fn sender() -> String {
    let waits: &[&str] = &["recv,2", "clause,i6,0,0,3", "clause,int,0,0,3"];
    let sends: &[&str] = &["set,0,p1", "set,1,a7", "send,0,1", "set,1,i5", "send,0,1"];
    plan(&[waits, sends], &[(1, 1), (2, 2)])
}

fn after(words: &str, process: usize) -> Option<usize> {
    consulted(sender().as_bytes(), steps(words).as_bytes(), process)
}

#[test]
fn the_mailbox_at_the_end_of_the_steps_is_searched() {
    let both = "run=2 run=2 run=2 run=2 run=2 arrive=1,2 arrive=1,2";
    assert_eq!(after("", 1), Some(0));
    assert_eq!(after("run=2 run=2 run=2 arrive=1,2", 1), Some(0));
    assert_eq!(after(both, 1), Some(2));
    // Process 3 is unborn: 21, and the arrivals behind are not played.
    assert_eq!(after("run=2 run=2 run=3 run=2 arrive=1,2", 1), Some(0));
    assert_eq!(after(&format!("{both} run=3 run=1"), 1), Some(2));
}

#[test]
fn none_of_what_is_not_live_at_a_recv() {
    let both = "run=2 run=2 run=2 run=2 run=2 arrive=1,2 arrive=1,2 ";
    // At a set, past the end of its code, closing, gone.
    assert_eq!(after("", 2), None);
    assert_eq!(after(both, 2), None);
    assert_eq!(after(&format!("{both} run=2"), 2), None);
    assert_eq!(after(&format!("{both} run=2 run=2"), 2), None);
    // The integer is taken, and process 1 is past the end of its code.
    assert_eq!(after(&format!("{both} run=1"), 1), None);
    for process in [0, 3, 16, 17, 256, 257, 65_537, usize::MAX] {
        assert_eq!(after(both, process), None, "process {process}");
    }
}

#[test]
fn none_where_a_text_is_refused() {
    let good = sender();
    assert_eq!(consulted(good.as_bytes(), b"", 1), Some(0));
    assert_eq!(consulted(b"", b"", 1), None);
    assert_eq!(consulted(good.as_bytes(), b"run=1", 1), None);
    assert_eq!(consulted(b"", b"run=1", 1), None);
    let too_long = b"run=2\n".repeat(4_097);
    assert_eq!(consulted(good.as_bytes(), &too_long, 1), None);
}

#[test]
fn numbers_for_c() {
    assert_eq!(number(Some(0)), 0);
    assert_eq!(number(Some(128)), 128);
    assert_eq!(number(None), usize::MAX);
}

/// Shows every search of the generator's first cases, after each accepted step, with the node and the
/// process that is live at a recv.
fn each_search(mut see: impl FnMut(&Node, u8, &Walk)) {
    for (plan, steps) in (0..2_000).map(|k| case(17, k)) {
        let loaded = (second::plan::load(&plan), second::steps::read(&steps));
        let (Ok(mut node), Ok(schedule)) = loaded else {
            continue;
        };
        for step in schedule {
            if step::take(&mut node, step).is_err() {
                break;
            }
            for process in 1..=PROCESSES {
                let walk = walk(&node, usize::from(process));
                assert_eq!(walk.is_some(), step::awaited(&node, process).is_some());
                if let Some(walk) = walk {
                    see(&node, process, &walk);
                }
            }
        }
    }
}

/// "Its answer stays that of document 01 and M-104": what is left out never hides the fit.
#[test]
fn leaving_out_kinds_does_not_change_the_fit() {
    let (mut fits, mut unfit, mut left_out) = (0, 0, 0);
    each_search(|node, process, walk| {
        let awaited = step::awaited(node, process).expect("the process waits");
        let fit = walk.looks.last().and_then(|look| look.fit);
        let length = node.live(process).mailbox.len();
        match awaited.search {
            Search::Empty => assert!(walk.looks.is_empty()),
            Search::Unfit => assert_eq!((walk.looks.len(), fit), (length, None)),
            Search::Fit(index, clause) => {
                assert_eq!((walk.looks.len(), fit), (index + 1, Some(clause.pattern)));
                fits += 1;
            }
        }
        unfit += u32::from(awaited.search == Search::Unfit);
        left_out += walk.looks.iter().filter(|look| !look.noted).count();
    });
    assert!(fits > 1_000, "only {fits} fits");
    assert!(unfit > 1_000, "only {unfit} without a fit");
    assert!(left_out > 1_000, "only {left_out} messages left out");
}

/// Of the clauses consulted for a message all but the last do not fit, and where none fits all are.
#[test]
fn clauses_are_consulted_up_to_the_first_that_fits() {
    let (mut first, mut later, mut all) = (0, 0, 0);
    each_search(|node, process, walk| {
        for (look, message) in walk.looks.iter().zip(&node.live(process).mailbox) {
            let fits = |pattern: &Pattern| step::fits(*pattern, message);
            let expected = match walk.patterns.iter().position(fits) {
                Some(index) => index + 1,
                None if look.noted => walk.patterns.len(),
                None => 0,
            };
            assert_eq!(look.consulted, expected);
            first += u32::from(look.consulted == 1);
            later += u32::from(look.consulted > 1 && look.fit.is_some());
            all += u32::from(look.consulted > 1 && look.fit.is_none());
        }
    });
    assert!(
        first > 500 && later > 500 && all > 500,
        "{first}, {later}, {all}"
    );
}
