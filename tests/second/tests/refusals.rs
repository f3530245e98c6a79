//! One test or more for every refusal number that the program tells.

mod support;

use second::simulate;
use support::{answer, flights, plan, process, run};

fn load(text: impl AsRef<[u8]>) -> String {
    let out = simulate(text.as_ref(), b"");
    String::from_utf8(out).expect("the program prints ASCII")
}

/// A plan of one behaviour and one start.
fn one(code: &[&str]) -> String {
    plan(&[code], &[(1, 1)])
}

fn steps_answer(steps: impl AsRef<[u8]>) -> String {
    let out = simulate(one(&["jump,0"]).as_bytes(), steps.as_ref());
    String::from_utf8(out).expect("the program prints ASCII")
}

#[test]
fn refusal_10_above_16384_bytes() {
    let mut text = one(&["jump,0"]).into_bytes();
    text.resize(16_384, b'\n');
    assert_eq!(load(&text), "load=11,7\n");
    text.push(b'\n');
    assert_eq!(load(&text), "load=10,0\n");
    assert_eq!(load(vec![b'x'; 16_385]), "load=10,0\n");
    assert_eq!(load(vec![b'x'; 16_384]), "load=11,1\n");
}

#[test]
fn refusal_11_first_line() {
    assert_eq!(load(""), "load=11,1\n");
    assert_eq!(load("\n"), "load=11,1\n");
    assert_eq!(load("plan=1"), "load=11,1\n");
    assert_eq!(load("plan=2\n"), "load=11,1\n");
    assert_eq!(load("plan=1\r\n"), "load=11,1\n");
    assert_eq!(load("plan=1\n"), "load=11,2\n");
}

#[test]
fn refusal_11_missing_and_surplus_lines() {
    let text = one(&["jump,0"]);
    assert_eq!(load(text.replace("start=1,1\n", "")), "load=11,6\n");
    assert_eq!(load(text.replace("op=jump,0\n", "")), "load=11,4\n");
    assert_eq!(load(text.clone() + "\n"), "load=11,7\n");
    assert_eq!(load(text.clone() + "x"), "load=11,7\n");
    assert_eq!(load(&text[..text.len() - 1]), "load=11,6\n");
}

/// Ops that are 11.
const BAD_FORMS: &[&str] = &[
    "",
    "nop",
    "set,0",
    "set,0,i1,2",
    "set,0,1",
    "set,0,x1",
    "set,0,i",
    "set,0,i-0",
    "set,0,i+1",
    "set,0,i01",
    "set,0,a-0",
    "set,00,i1",
    "set,-0,i1",
    "set, 0,i1",
    "set,0,i1 ",
    "self",
    "self,",
    "self,0,0",
    "trap,on",
    "spawn,0,1,p2",
    "recv",
    "clause,Any,0,0,0",
    "clause,anyx,0,0,0",
    "clause,5,0,0,0",
    "clause,any,0,0",
    "clause,Down,0,0,0",
    "clause,down,0,0",
    "monitor",
    "monitor,0,0",
    "monitor,p1",
    "demonitor",
    "demonitor,0,0",
    "after",
    "after,",
    "after,0,0",
    "after,p1",
    "after,i0",
    "after,00",
    "after,-0",
    "After,0",
    "afters,0",
    "jump,p1",
    "same,0,1,0",
    "less,0,0",
    "stop,0,",
    "stop,\u{0}",
    "stop,0\u{0}",
    "stop,0\r",
    "stop,é",
    "Stop,0",
    "jump,--1",
];

#[test]
fn refusal_11_words_counts_and_forms() {
    for op in BAD_FORMS {
        assert_eq!(load(one(&[op])), "load=11,4\n", "{op}");
    }
}

#[test]
fn refusal_11_comes_before_12_on_a_line() {
    assert_eq!(load(one(&["set,9,i01"])), "load=11,4\n");
    assert_eq!(load(one(&["set,99999999999999999999,x"])), "load=11,4\n");
    let text = plan(&[&["jump,0"]], &[(17, 1)]).replace("start=17,1", "start=17,01");
    assert_eq!(load(text), "load=11,6\n");
}

/// Ops of a code of one that are 12.
const OUT_OF_RANGE: &[&str] = &[
    "set,4,i0",
    "set,-1,i0",
    "set,0,i2147483648",
    "set,0,i-2147483649",
    "set,0,a256",
    "set,0,a-1",
    "set,0,p0",
    "set,0,p17",
    "set,0,p-1",
    "copy,0,4",
    "self,4",
    "add,4,0",
    "send,0,4",
    "exit,4,0",
    "link,4",
    "unlink,4",
    "monitor,4",
    "demonitor,-1",
    "trap,2",
    "trap,-1",
    "spawn,0,0,2",
    "spawn,0,2,2",
    "spawn,0,1,0",
    "spawn,0,1,17",
    "spawn,4,1,2",
    "recv,0",
    "recv,9",
    "clause,p17,0,0,0",
    "clause,any,4,0,0",
    "clause,any,0,4,0",
    "clause,any,0,0,2",
    "clause,down,4,0,0",
    "after,2",
    "after,-1",
    "after,18446744073709551616",
    "jump,2",
    "jump,-1",
    "jump,18446744073709551616",
    "same,0,a300,0",
    "same,0,i0,2",
    "less,0,0,2",
    "less,0,4,0",
    "stop,4",
];

#[test]
fn refusal_12_operands() {
    for op in OUT_OF_RANGE {
        assert_eq!(load(one(&[op])), "load=12,4\n", "{op}");
    }
}

#[test]
fn refusal_12_counts_and_starts() {
    let text = one(&["jump,0"]);
    for number in ["0", "9", "-1", "99999999999999999999999"] {
        let changed = text.replace("behaviours=1", &format!("behaviours={number}"));
        assert_eq!(load(changed), "load=12,2\n");
    }
    for number in ["0", "33", "-1"] {
        let changed = text.replace("code=1", &format!("code={number}"));
        assert_eq!(load(changed), "load=12,3\n");
    }
    for number in ["0", "17"] {
        let changed = text.replace("starts=1", &format!("starts={number}"));
        assert_eq!(load(changed), "load=12,5\n");
    }
    for start in ["0,1", "17,1", "1,0", "1,2", "-1,1"] {
        let changed = text.replace("start=1,1", &format!("start={start}"));
        assert_eq!(load(changed), "load=12,6\n");
    }
}

#[test]
fn limits_of_ranges_are_taken() {
    let code = [
        "set,3,i2147483647",
        "set,0,i-2147483648",
        "set,0,a255",
        "set,0,a0",
        "set,0,p1",
        "set,0,p16",
        "spawn,3,1,16",
        "trap,0",
        "jump,9",
    ];
    assert!(load(one(&code)).starts_with("accepted=0\n"));
    let starts: Vec<(u8, u8)> = (1..=16).map(|process| (process, 8)).collect();
    let long = vec!["jump,32"; 32];
    let text = plan(&[long.as_slice(); 8], &starts);
    assert!(load(text).starts_with("accepted=0\n"));
    // `code=` counts the `after`.
    let mut with_after = vec!["jump,0"; 29];
    with_after.extend(["recv,1", "clause,any,0,0,32", "after,32"]);
    assert!(load(one(&with_after)).starts_with("accepted=0\n"));
    with_after.insert(0, "jump,0");
    assert_eq!(load(one(&with_after)), "load=12,3\n");
}

#[test]
fn refusal_13_starts_not_rising() {
    let starts = |starts: &[(u8, u8)]| load(plan(&[&["jump,0"]], starts));
    assert_eq!(starts(&[(1, 1), (1, 1)]), "load=13,7\n");
    assert_eq!(starts(&[(2, 1), (5, 1), (4, 1)]), "load=13,8\n");
    // "on a line 11, 12, 13 in that order"
    assert_eq!(starts(&[(2, 1), (1, 2)]), "load=12,7\n");
    // 14 is looked for after the last line.
    let text = plan(&[&["recv,1"]], &[(2, 1), (1, 1)]);
    assert_eq!(load(text), "load=13,7\n");
}

#[test]
fn refusal_14_clauses() {
    assert_eq!(load(one(&["recv,1"])), "load=14,4\n");
    assert_eq!(load(one(&["recv,2", "clause,any,0,0,0"])), "load=14,4\n");
    let stray = ["jump,0", "clause,any,0,0,0"];
    assert_eq!(load(one(&stray)), "load=14,5\n");
    let one_more = ["recv,1", "clause,any,0,0,0", "clause,any,0,0,0"];
    assert_eq!(load(one(&one_more)), "load=14,6\n");
    let between = ["recv,2", "clause,any,0,0,0", "trap,0", "clause,any,0,0,0"];
    assert_eq!(load(one(&between)), "load=14,4\n");
}

#[test]
fn refusal_14_targets() {
    for op in ["jump,1", "same,0,i0,1", "less,0,0,1"] {
        let code = ["recv,1", "clause,any,0,0,2", op];
        assert_eq!(load(one(&code)), "load=14,6\n", "{op}");
    }
    assert_eq!(load(one(&["recv,1", "clause,any,0,0,1"])), "load=14,5\n");
    let early = ["jump,2", "recv,1", "clause,any,0,0,0"];
    assert_eq!(load(one(&early)), "load=14,4\n");
}

/// A recv with one clause, then these ops.
fn behind_a_recv(ops: &[&str]) -> String {
    let mut code = vec!["recv,1", "clause,any,0,0,0"];
    code.extend(ops);
    load(one(&code))
}

#[test]
fn an_after_stands_behind_the_last_clause() {
    for target in ["after,0", "after,3"] {
        assert!(behind_a_recv(&[target]).starts_with("accepted=0\n"));
    }
    let two = ["after,3", "recv,1", "clause,any,0,0,6", "after,3"];
    assert!(behind_a_recv(&two).starts_with("accepted=0\n"));
    let mut eight = vec!["recv,8"];
    eight.extend(["clause,any,0,0,0"; 8]);
    eight.push("after,10");
    assert!(load(one(&eight)).starts_with("accepted=0\n"));
}

#[test]
fn refusal_14_after_elsewhere() {
    assert_eq!(load(one(&["after,0"])), "load=14,4\n");
    assert_eq!(load(one(&["after,1"])), "load=14,4\n");
    assert_eq!(load(one(&["trap,0", "after,0"])), "load=14,5\n");
    // Not directly behind the last clause, and behind another `after`.
    assert_eq!(behind_a_recv(&["trap,0", "after,0"]), "load=14,7\n");
    assert_eq!(behind_a_recv(&["after,0", "after,0"]), "load=14,7\n");
    // Behind a clause that no recv counts: the clause is the lower line.
    let stray = ["clause,any,0,0,0", "after,0"];
    assert_eq!(behind_a_recv(&stray), "load=14,6\n");
    assert_eq!(load(one(&stray)), "load=14,4\n");
}

#[test]
fn refusal_14_recv_with_an_after_among_its_clauses() {
    let clause = "clause,any,0,0,0";
    let codes: [&[&str]; 4] = [
        &["recv,2", clause, "after,0", clause],
        &["recv,2", "after,0", clause, clause],
        &["recv,2", clause, "after,0"],
        &["recv,1", "after,0", clause],
    ];
    for code in codes {
        assert_eq!(load(one(code)), "load=14,4\n", "{code:?}");
    }
    // The code ends before the last clause.
    assert_eq!(load(one(&["recv,1", "after,0"])), "load=14,4\n");
}

#[test]
fn refusal_14_targets_on_an_after() {
    for op in ["jump,2", "same,0,i0,2", "less,0,0,2"] {
        assert_eq!(behind_a_recv(&["after,0", op]), "load=14,7\n", "{op}");
    }
    assert_eq!(behind_a_recv(&["after,2"]), "load=14,6\n");
    let other = ["after,5", "recv,1", "clause,any,0,0,0", "after,0"];
    assert_eq!(behind_a_recv(&other), "load=14,6\n");
    // The t of an `after` is a target, also one on a clause.
    assert_eq!(behind_a_recv(&["after,1"]), "load=14,6\n");
    let clause = ["recv,1", "clause,any,0,0,2", "after,0"];
    assert_eq!(load(one(&clause)), "load=14,5\n");
    // The lowest line is told, be the `after` a stray one or not.
    let early = ["jump,3", "recv,1", "clause,any,0,0,0", "after,0"];
    assert_eq!(load(one(&early)), "load=14,4\n");
    assert_eq!(load(one(&["jump,1", "after,0"])), "load=14,4\n");
}

#[test]
fn refusal_14_after_in_a_later_behaviour() {
    // The first behaviour ends with the clause of its recv; the `after` belongs to the second one.
    let text = plan(&[&["recv,1", "clause,any,0,0,0"], &["after,0"]], &[(1, 1)]);
    assert_eq!(load(text), "load=14,7\n");
    let text = plan(&[&["trap,0"], &["trap,0", "after,0"]], &[(2, 1), (1, 1)]);
    assert_eq!(load(text), "load=13,10\n");
}

#[test]
fn refusal_14_lowest_line_over_all_behaviours() {
    let text = plan(
        &[&["trap,0"], &["trap,0", "recv,1"], &["clause,any,0,0,1"]],
        &[(1, 1)],
    );
    assert_eq!(load(text), "load=14,7\n");
}

/// Lines that are no step.
const BAD_STEPS: &[&str] = &[
    "",
    "run",
    "run=",
    "run=256",
    "run=-1",
    "run=-0",
    "run=+1",
    "run=01",
    "run=1,1",
    "run=1 ",
    "run=1\r",
    "run=\u{0}",
    "arrive=1",
    "arrive=1,",
    "arrive=1,2,3",
    "arrive=1,256",
    "Run=1",
    "run=99999999999999999999999",
    "arrive=1,-1",
    "timeout",
    "timeout=",
    "timeout=256",
    "timeout=-1",
    "timeout=-0",
    "timeout=+1",
    "timeout=01",
    "timeout=1,1",
    "timeout=1,",
    "timeout=p1",
    "timeout=1 ",
    "timeout=1\r",
    "Timeout=1",
    "timeouts=1",
    "timeout=99999999999999999999999",
    "after=1",
    "stop=1",
];

#[test]
fn refusal_15_malformed_steps() {
    for line in BAD_STEPS {
        let text = format!("run=1\n{line}\nrun=1\n");
        assert_eq!(steps_answer(text), "steps=15,2\n", "{line}");
    }
    assert_eq!(steps_answer("run=1"), "steps=15,1\n");
    assert_eq!(steps_answer("run=1\nrun=1"), "steps=15,2\n");
    assert_eq!(steps_answer("\n"), "steps=15,1\n");
    assert_eq!(steps_answer(b"run=\xff\n"), "steps=15,1\n");
    assert_eq!(steps_answer("timeout=1"), "steps=15,1\n");
}

#[test]
fn refusal_32_and_its_limits() {
    let lines = |count: usize| "run=1\n".repeat(count);
    assert!(steps_answer(lines(4_096)).starts_with("accepted=4096\nrefused=0\n"));
    assert_eq!(steps_answer(lines(4_097)), "steps=32,0\n");
    assert_eq!(steps_answer(lines(4_097) + "x\n"), "steps=15,4098\n");
    assert_eq!(steps_answer(lines(4_096) + "run=1"), "steps=15,4097\n");
    let long = "arrive=255,255\n".repeat(4_096);
    assert_eq!(long.len(), 61_440);
    assert!(steps_answer(&long).starts_with("accepted=0\nrefused=20\n"));
    assert_eq!(steps_answer(long + "x"), "steps=32,0\n");
    assert_eq!(steps_answer(vec![b'x'; 61_440]), "steps=15,1\n");
    assert_eq!(steps_answer(vec![b'x'; 61_441]), "steps=32,0\n");
}

#[test]
fn a_refused_plan_is_told_before_refused_steps() {
    assert_eq!(simulate(b"", b"x"), b"load=11,1\n");
}

#[test]
fn refusal_20_comes_first() {
    for step in [
        "run=0",
        "run=17",
        "run=255",
        "arrive=0,1",
        "arrive=17,1",
        "arrive=1,0",
        "arrive=1,17",
        "arrive=2,0",
        "timeout=0",
        "timeout=17",
        "timeout=255",
    ] {
        let out = run(&one(&["jump,0"]), step);
        assert_eq!(answer(&out), "accepted=0 refused=20", "{step}");
    }
}

#[test]
fn refusal_21_unborn_owner() {
    for step in [
        "run=2",
        "arrive=2,1",
        "arrive=16,16",
        "timeout=2",
        "timeout=16",
    ] {
        let out = run(&one(&["jump,0"]), step);
        assert_eq!(answer(&out), "accepted=0 refused=21", "{step}");
    }
}

#[test]
fn refusal_22_and_23_at_a_gone_process() {
    let text = one(&["stop,0"]);
    assert_eq!(
        answer(&run(&text, "run=1 run=1 run=1")),
        "accepted=2 refused=22"
    );
    assert_eq!(
        answer(&run(&text, "run=1 run=1 arrive=1,2")),
        "accepted=2 refused=23"
    );
}

#[test]
fn refusal_23_nothing_in_flight() {
    let out = run(&one(&["jump,0"]), "run=1 arrive=1,1 run=1");
    assert_eq!(answer(&out), "accepted=1 refused=23");
}

#[test]
fn refusal_24_for_a_note_keeps_the_link_and_the_signal() {
    // Process 1 links process 2, fills its mailbox and stops; process 2 traps.
    let mut code = vec!["set,0,p2", "link,0"];
    code.extend(["send,0,1"; 16]);
    code.push("stop,0");
    let text = plan(&[&code, &["trap,1"]], &[(1, 1), (2, 2)]);
    let fill = "run=1 arrive=2,1 ".repeat(17);
    let words = format!("run=2 run=1 {fill} run=1 run=1 arrive=2,1");
    let out = run(&text, &words);
    assert_eq!(answer(&out), "accepted=38 refused=24");
    assert!(process(&out, 2).contains("trap=1 links=1 watches= watchers= mail=16"));
    assert_eq!(flights(&out), "flight=1,2,1 signal=exit,p2,1");
}

/// Process 1 waits for an integer or a note, with an `after`; process 2 sends it what is in the row.
fn waiting(row: &[&str]) -> String {
    let mut sends = vec!["set,0,p1".to_string()];
    for value in row {
        sends.extend([format!("set,1,{value}"), "send,0,1".to_string()]);
    }
    let sends: Vec<&str> = sends.iter().map(String::as_str).collect();
    let waits = ["recv,2", "clause,int,1,1,4", "clause,note,1,1,4", "after,4"];
    plan(&[&waits, &sends], &[(1, 1), (2, 2)])
}

/// The steps by which the values of such a row are sent and join the mailbox of process 1.
fn delivered(row: &[&str]) -> String {
    format!("run=2 {}", "run=2 run=2 arrive=1,2 ".repeat(row.len()))
}

#[test]
fn refusal_25_empty_mailbox() {
    let out = run(&waiting(&["i5"]), "run=1");
    assert_eq!(answer(&out), "accepted=0 refused=25");
    // What is in flight has not arrived.
    let out = run(&waiting(&["i5"]), "run=2 run=2 run=2 run=1");
    assert_eq!(answer(&out), "accepted=3 refused=25");
    assert_eq!(flights(&out), "flight=2,1,1 signal=msg,i5");
    // The one message that fits has been taken.
    let text = plan(
        &[&["set,0,p2", "send,0,1"], &["recv,1", "clause,int,0,0,0"]],
        &[(1, 1), (2, 2)],
    );
    let out = run(&text, "run=1 run=1 arrive=2,1 run=2 run=2");
    assert_eq!(answer(&out), "accepted=4 refused=25");
}

#[test]
fn refusal_29_mail_without_a_fit() {
    let rows: [&[&str]; 3] = [&["a5"], &["p5", "a5"], &["a5"; 8]];
    for row in rows {
        let (text, words) = (waiting(row), delivered(row));
        let before = run(&text, &words);
        let out = run(&text, &format!("{words}run=1"));
        assert!(answer(&out).ends_with("refused=29"), "{row:?}");
        assert_eq!(process(&out, 1), process(&before, 1), "{row:?}");
    }
    let row: &[&str] = &["a5", "i5"];
    let out = run(&waiting(row), &format!("{}run=1", delivered(row)));
    assert_eq!(answer(&out), "accepted=8 refused=0");
    assert!(process(&out, 1).ends_with("mail=1 message=a5"));
}

#[test]
fn refusal_29_full_mailbox() {
    let text = plan(
        &[
            &["set,0,p2", "send,0,0", "jump,1"],
            &["recv,1", "clause,int,0,0,0"],
        ],
        &[(1, 1), (2, 2)],
    );
    let fill = "run=1 arrive=2,1 run=1 ".repeat(16);
    let out = run(&text, &format!("run=1 {fill}run=2"));
    assert_eq!(answer(&out), "accepted=49 refused=29");
    assert!(process(&out, 2).contains("mail=16 message=p2"));
}

/// Process 1 traps, watches process 2 and waits, with an `after`; process 2 sends it an exit and
/// stops.
fn trapping(clause: &str) -> String {
    let waits = [
        "trap,1",
        "set,0,p2",
        "monitor,0",
        "recv,1",
        clause,
        "after,6",
    ];
    let ends = ["set,0,p1", "exit,0,0", "stop,0"];
    plan(&[&waits, &ends], &[(1, 1), (2, 2)])
}

/// The six steps of such a plan by which a note joins the mailbox of process 1.
const NOTED: &str = "run=1 run=1 run=1 run=2 run=2 arrive=1,2";

/// The ten steps by which a note and then a down join it.
const TOLD: &str = "run=1 run=1 run=1 arrive=2,1 run=2 run=2 run=2 run=2 arrive=1,2 arrive=1,2";

#[test]
fn refusal_29_notes_and_downs() {
    let out = run(&trapping("clause,down,1,1,0"), &format!("{NOTED} run=1"));
    assert_eq!(answer(&out), "accepted=6 refused=29");
    assert!(process(&out, 1).ends_with("mail=1 note=p2,p1"));
    let out = run(&trapping("clause,int,1,1,0"), &format!("{TOLD} run=1"));
    assert_eq!(answer(&out), "accepted=10 refused=29");
    assert!(process(&out, 1).ends_with("mail=2 note=p2,p1 down=p2,p1"));
    // The clause takes the note, and the down is left.
    let text = trapping("clause,note,1,1,3");
    let out = run(&text, &format!("{TOLD} run=1 run=1"));
    assert_eq!(answer(&out), "accepted=11 refused=29");
    assert!(process(&out, 1).ends_with("mail=1 down=p2,p1"));
}

#[test]
fn refusal_26_for_each_sender() {
    let senders = [
        "send,0,0",
        "exit,0,0",
        "link,0",
        "unlink,0",
        "monitor,0",
        "demonitor,0",
    ];
    for op in senders {
        let code = [
            "set,0,p2", "send,0,0", "send,0,0", "send,0,0", "send,0,0", op,
        ];
        let out = run(&one(&code), &"run=1 ".repeat(6));
        assert_eq!(answer(&out), "accepted=5 refused=26", "{op}");
    }
    let closing = [
        "set,0,p2", "link,0", "send,0,0", "send,0,0", "send,0,0", "stop,1",
    ];
    let out = run(&one(&closing), &"run=1 ".repeat(7));
    assert_eq!(answer(&out), "accepted=6 refused=26");
    assert_eq!(
        process(&out, 1),
        "stage=closing reason=i0 links=2 watchers="
    );
}

#[test]
fn refusal_26_is_for_each_pair() {
    let code = ["set,0,p2", "set,1,p1", "send,0,0", "send,1,0", "jump,2"];
    let out = run(&one(&code), &"run=1 ".repeat(14));
    assert_eq!(answer(&out), "accepted=14 refused=0");
    assert_eq!(flights(&out).matches("signal=").count(), 8);
    let out = run(&one(&code), &"run=1 ".repeat(15));
    assert_eq!(answer(&out), "accepted=14 refused=26");
}

#[test]
fn refusal_27_not_unborn() {
    let text = plan(&[&["spawn,3,2,2"], &["stop,0"]], &[(1, 1), (2, 2)]);
    for before in ["", "run=2 ", "run=2 run=2 "] {
        let out = run(&text, &format!("{before}run=1"));
        assert!(answer(&out).ends_with("refused=27"), "{before}");
        assert!(process(&out, 1).contains("place=0 r0=i0 r1=i0 r2=i0 r3=i0"));
    }
}

#[test]
fn refusal_28_message_that_fits() {
    let rows: [&[&str]; 4] = [
        &["i5"],
        &["i5", "a5"],
        &["a5", "p5", "i5"],
        &["a5", "i5", "i6"],
    ];
    for row in rows {
        let (text, words) = (waiting(row), delivered(row));
        let before = run(&text, &words);
        let out = run(&text, &format!("{words}timeout=1"));
        assert!(answer(&out).ends_with("refused=28"), "{row:?}");
        assert_eq!(process(&out, 1), process(&before, 1), "{row:?}");
    }
    // What is in flight has not arrived, and a message that does not fit is no hindrance.
    let out = run(&waiting(&["i5"]), "run=2 run=2 run=2 timeout=1");
    assert_eq!(answer(&out), "accepted=4 refused=0");
    let row: &[&str] = &["a5", "p5"];
    let out = run(&waiting(row), &format!("{}timeout=1", delivered(row)));
    assert_eq!(answer(&out), "accepted=8 refused=0");
}

#[test]
fn refusal_28_note_or_down_that_fits() {
    let ends_with =
        |clause, words: &str| answer(&run(&trapping(clause), &format!("{words} timeout=1")));
    for clause in ["clause,note,1,1,0", "clause,any,1,1,0"] {
        assert_eq!(
            ends_with(clause, NOTED),
            "accepted=6 refused=28",
            "{clause}"
        );
    }
    for clause in ["clause,down,1,1,0", "clause,note,1,1,0", "clause,any,1,1,0"] {
        assert_eq!(
            ends_with(clause, TOLD),
            "accepted=10 refused=28",
            "{clause}"
        );
    }
    assert_eq!(
        ends_with("clause,down,1,1,0", NOTED),
        "accepted=7 refused=0"
    );
    assert_eq!(ends_with("clause,int,1,1,0", TOLD), "accepted=11 refused=0");
}

#[test]
fn refusal_28_not_at_a_recv() {
    for op in ["jump,0", "trap,1", "stop,0", "spawn,0,1,2"] {
        let out = run(&one(&[op]), "timeout=1");
        assert_eq!(answer(&out), "accepted=0 refused=28", "{op}");
    }
    // At the place before the recv, and at place N.
    let code = ["trap,0", "recv,1", "clause,any,0,0,0", "after,4"];
    let text = one(&code);
    assert_eq!(answer(&run(&text, "timeout=1")), "accepted=0 refused=28");
    assert_eq!(
        answer(&run(&text, "run=1 timeout=1 timeout=1")),
        "accepted=2 refused=28"
    );
}

#[test]
fn refusal_28_recv_without_after() {
    let clause = "clause,any,0,0,0";
    let codes: [&[&str]; 4] = [
        &["recv,1", clause],
        &["recv,1", clause, "jump,0"],
        // The `after` of the next recv is not its own.
        &["recv,1", clause, "recv,1", clause, "after,0"],
        &["recv,2", clause, clause, "stop,0"],
    ];
    for code in codes {
        let out = run(&one(code), "timeout=1");
        assert_eq!(answer(&out), "accepted=0 refused=28", "{code:?}");
        assert!(process(&out, 1).contains("place=0"), "{code:?}");
    }
}

#[test]
fn refusal_28_behind_the_code_there_is_no_after() {
    let waits: [&str; 3] = ["recv,1", "clause,any,0,0,0", "after,0"];
    // Place 32 lies before a behaviour that begins with a recv.
    let mut full = vec!["jump,32"];
    full.extend(["stop,0"; 31]);
    let text = plan(&[&full, &waits], &[(1, 1)]);
    assert_eq!(
        answer(&run(&text, "run=1 timeout=1")),
        "accepted=1 refused=28"
    );
    // The clauses of the last recv are the last ops.
    full[0] = "jump,30";
    full[30] = "recv,1";
    full[31] = "clause,any,0,0,0";
    let text = plan(&[&full, &waits], &[(1, 1)]);
    assert_eq!(
        answer(&run(&text, "run=1 timeout=1")),
        "accepted=1 refused=28"
    );
}

#[test]
fn refusal_28_closing_and_gone() {
    let text = one(&["stop,0", "recv,1", "clause,any,0,0,0", "after,0"]);
    let out = run(&text, "run=1 timeout=1");
    assert_eq!(answer(&out), "accepted=1 refused=28");
    assert_eq!(process(&out, 1), "stage=closing reason=i0 links= watchers=");
    let out = run(&text, "run=1 run=1 timeout=1");
    assert_eq!(answer(&out), "accepted=2 refused=28");
    assert_eq!(process(&out, 1), "stage=gone");
}
