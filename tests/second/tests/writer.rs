//! Plans written back: request M-103 of document 02. The texts are written by hand.

// Only `plan` is used here; the other tests use the rest.
#[allow(dead_code)]
mod support;

use second::node::{Clause, Op, Pattern, Value};
use second::plan::{contents, OPERANDS};
use second::writer::{write, write_plan, Outcome};
use second::{case, full, longest};
use support::plan;

/// A buffer of so many bytes holds every accepted text, because the loader refuses longer ones.
const ROOM: usize = 16_384;

/// Loads a text, whose behaviours and starts must come back as the same bytes.
fn comes_back(text: &[u8]) {
    let held = contents(text).expect("an accepted plan");
    let written = write(&held.behaviours, &held.starts).expect("an accepted text holds them");
    assert_eq!(String::from_utf8(written), String::from_utf8(text.to_vec()));
    let outcome = write_plan(text, text, ROOM);
    assert_eq!(outcome, Outcome::Written(text.to_vec()));
}

#[test]
fn the_sample_comes_back() {
    comes_back(
        b"plan=1\nbehaviours=2\ncode=3\nop=set,0,p2\nop=set,1,i12\nop=send,0,1\n\
code=2\nop=recv,1\nop=clause,int,0,1,2\nstarts=2\nstart=1,1\nstart=2,2\n",
    );
}

/// Each op of document 01's table, in its order, then those of M-100 and M-102 of document 02.
const OPS: [&str; 19] = [
    "set,0,i1",
    "copy,1,2",
    "self,3",
    "add,0,3",
    "send,2,1",
    "exit,3,0",
    "link,1",
    "unlink,2",
    "trap,1",
    "spawn,3,2,16",
    "recv,1",
    "clause,any,2,3,0",
    "jump,21",
    "same,1,a2,0",
    "less,2,3,10",
    "stop,3",
    "monitor,0",
    "demonitor,1",
    "after,18",
];

#[test]
fn each_op_comes_back() {
    let words = OPS.map(|op| op.split(',').next().expect("a word"));
    assert_eq!(words, OPERANDS.map(|(word, _)| word));
    // An `after` has its place behind the last clause of a recv only.
    let mut code = OPS[..18].to_vec();
    code.extend(["recv,1", "clause,int,0,0,0", OPS[18]]);
    comes_back(plan(&[&code, &["trap,0"]], &[(1, 1)]).as_bytes());
}

#[test]
fn each_kind_of_clause_comes_back() {
    let kinds = ["any", "int", "atom", "pid", "note", "down", "i-7", "a7"];
    let clauses = kinds.map(|kind| format!("clause,{kind},1,2,12"));
    let mut code = vec!["recv,8"];
    code.extend(clauses.iter().map(String::as_str));
    code.extend(["recv,1", "clause,p7,3,0,0", "after,0"]);
    comes_back(plan(&[&code], &[(16, 1)]).as_bytes());
}

#[test]
fn extreme_values_come_back() {
    for value in [
        "i-2147483648",
        "i2147483647",
        "i0",
        "i-1",
        "a0",
        "a255",
        "p1",
        "p16",
    ] {
        let set = format!("set,3,{value}");
        let same = format!("same,0,{value},4");
        let clause = format!("clause,{value},3,3,0");
        comes_back(plan(&[&[&set, &same, "recv,1", &clause]], &[(1, 1)]).as_bytes());
    }
}

#[test]
fn smallest_and_largest_numbers_come_back() {
    let places: Vec<String> = (0..=32).map(|place| format!("jump,{place}")).collect();
    for codes in [1, 2, 31, 32] {
        let code: Vec<&str> = places[..codes].iter().map(String::as_str).collect();
        for behaviours in 1..=8 {
            let behaviour = u8::try_from(behaviours).expect("a small number");
            let all = vec![&code[..]; behaviours];
            comes_back(plan(&all, &[(1, 1), (16, behaviour)]).as_bytes());
        }
    }
    let starts: Vec<(u8, u8)> = (1..=16).map(|process| (process, 1)).collect();
    for count in 1..=16 {
        comes_back(plan(&[&["stop,0"]], &starts[..count]).as_bytes());
        comes_back(plan(&[&["stop,0"]], &starts[16 - count..]).as_bytes());
    }
}

#[test]
fn the_longest_plan_comes_back() {
    let text = longest();
    assert_eq!(text.len(), 7_301);
    comes_back(&text);
}

#[test]
fn accepted_plans_of_the_generator_come_back() {
    let (mut accepted, mut refused) = (0, 0);
    for k in 0..10_000 {
        let (text, _) = case(11, k);
        if contents(&text).is_ok() {
            comes_back(&text);
            accepted += 1;
        } else {
            assert_eq!(write_plan(&text, &text, ROOM), Outcome::Refused);
            refused += 1;
        }
    }
    assert!(accepted > 5_000 && refused > 1_000, "{accepted}, {refused}");
    for k in 0..20 {
        comes_back(&full(11, k).0);
    }
}

/// A behaviour that a plan may have, if the plan has two.
fn code() -> Vec<Op> {
    vec![Op::Jump(1)]
}

/// That these ops are 31 as the first of two behaviours.
fn is_turned_down(ops: &[Op]) {
    let behaviours = [ops.to_vec(), code()];
    assert_eq!(write(&behaviours, &[(1, 1)]), None, "{ops:?}");
}

/// That these ops have a text as the first of two behaviours.
fn is_written(ops: &[Op]) {
    let behaviours = [ops.to_vec(), code()];
    assert!(write(&behaviours, &[(1, 1)]).is_some(), "{ops:?}");
}

fn clause(pattern: Pattern, r: usize, s: usize, target: usize) -> Op {
    Op::Clause(Clause {
        pattern,
        r,
        s,
        target,
    })
}

#[test]
fn counts_outside_the_limits_are_31() {
    let start = [(1, 1)];
    assert_eq!(write(&[], &start), None);
    assert_eq!(write(&[], &[]), None);
    assert!(write(&vec![code(); 8], &start).is_some());
    assert_eq!(write(&vec![code(); 9], &start), None);
    assert_eq!(write(&[code(), vec![]], &start), None);
    is_turned_down(&[]);
    is_written(&[Op::Stop(0); 32]);
    is_turned_down(&[Op::Stop(0); 33]);
}

#[test]
fn operands_outside_their_range_are_31() {
    let spawn = |r, behaviour, process| Op::Spawn {
        r,
        behaviour,
        process,
    };
    for op in [Op::Stop(3), spawn(3, 2, 16), Op::Jump(1), Op::Less(3, 3, 1)] {
        is_written(&[op]);
    }
    let bad = [
        Op::Stop(4),
        Op::Copy(0, 4),
        Op::Add(usize::MAX, 0),
        Op::Set(4, Value::Int(0)),
        Op::Set(0, Value::Pid(0)),
        Op::Set(0, Value::Pid(17)),
        Op::Same(0, Value::Pid(255), 0),
        Op::Same(0, Value::Int(0), 2),
        Op::Less(0, 0, 2),
        Op::Jump(2),
        Op::Jump(usize::MAX),
        spawn(4, 1, 1),
        spawn(0, 0, 1),
        spawn(0, 3, 1),
        spawn(0, 1, 0),
        spawn(0, 1, 17),
    ];
    for op in bad {
        is_turned_down(&[op]);
    }
}

#[test]
fn clauses_outside_their_range_are_31() {
    is_written(&[Op::Recv(1), clause(Pattern::Any, 3, 3, 2)]);
    let bad = [
        clause(Pattern::Any, 4, 0, 0),
        clause(Pattern::Any, 0, 4, 0),
        clause(Pattern::Any, 0, 0, 3),
        clause(Pattern::Exact(Value::Pid(0)), 0, 0, 0),
        clause(Pattern::Exact(Value::Pid(17)), 0, 0, 0),
    ];
    for clause in bad {
        is_turned_down(&[Op::Recv(1), clause]);
    }
    let fitting = clause(Pattern::Any, 0, 0, 0);
    is_turned_down(&[Op::Recv(0), fitting]);
    let mut eight = vec![Op::Recv(8)];
    eight.extend([fitting; 8]);
    is_written(&eight);
    let mut nine = vec![Op::Recv(9)];
    nine.extend([fitting; 9]);
    is_turned_down(&nine);
}

#[test]
fn misplaced_clauses_and_afters_are_31() {
    let (recv, fitting, end) = (Op::Recv(1), clause(Pattern::Int, 0, 0, 0), Op::Stop(0));
    is_written(&[recv, fitting, Op::After(0), end]);
    is_turned_down(&[recv]);
    is_turned_down(&[recv, end]);
    is_turned_down(&[Op::Recv(2), fitting]);
    is_turned_down(&[fitting]);
    is_turned_down(&[recv, fitting, fitting]);
    is_turned_down(&[Op::Jump(2), recv, fitting]);
    is_turned_down(&[recv, clause(Pattern::Int, 0, 0, 1)]);
    is_turned_down(&[Op::After(1)]);
    is_turned_down(&[recv, Op::After(0), fitting]);
    is_turned_down(&[recv, fitting, Op::After(0), Op::After(0)]);
    is_turned_down(&[recv, fitting, Op::After(2)]);
    is_turned_down(&[recv, fitting, Op::After(0), Op::Jump(2)]);
}

#[test]
fn starts_that_no_text_holds_are_31() {
    let two = [code(), code()];
    assert!(write(&two, &[(1, 2), (2, 1), (16, 2)]).is_some());
    let bad: [&[(u8, u8)]; 9] = [
        &[],
        &[(0, 1)],
        &[(17, 1)],
        &[(1, 0)],
        &[(1, 3)],
        &[(1, 1), (2, 3)],
        &[(1, 1), (1, 2)],
        &[(2, 1), (1, 1)],
        &[(1, 1), (3, 1), (2, 1)],
    ];
    for starts in bad {
        assert_eq!(write(&two, starts), None, "{starts:?}");
    }
}

#[test]
fn behaviours_of_one_plan_with_the_starts_of_another() {
    let one = plan(&[&["stop,0"]], &[(3, 1)]);
    let two = plan(&[&["stop,1"], &["trap,1"]], &[(1, 1), (7, 2)]);
    let both = "plan=1\nbehaviours=2\ncode=1\nop=stop,1\ncode=1\nop=trap,1\nstarts=1\nstart=3,1\n";
    let (one, two) = (one.as_bytes(), two.as_bytes());
    let written = Outcome::Written(both.as_bytes().to_vec());
    assert_eq!(write_plan(two, one, ROOM), written);
    // A buffer as long as the text is enough, and one byte less is not.
    assert_eq!(write_plan(two, one, both.len()), written);
    assert_eq!(write_plan(two, one, both.len() - 1), Outcome::Short);
    assert_eq!(write_plan(two, one, 0), Outcome::Short);
    // Behaviour 2 is above the count of the first; 31 is told before 30.
    assert_eq!(write_plan(one, two, ROOM), Outcome::Unsound);
    assert_eq!(write_plan(one, two, 0), Outcome::Unsound);
}

#[test]
fn a_refused_text_gives_no_plan() {
    let good = plan(&[&["stop,0"]], &[(1, 1)]);
    for bad in ["", "plan=1\n", &good[1..], &good[..good.len() - 1]] {
        for room in [0, ROOM] {
            let (good, bad) = (good.as_bytes(), bad.as_bytes());
            assert_eq!(write_plan(bad, good, room), Outcome::Refused);
            assert_eq!(write_plan(good, bad, room), Outcome::Refused);
            assert_eq!(write_plan(bad, bad, room), Outcome::Refused);
        }
    }
}
