//! How many clauses a search of a mailbox consults, through the wrapper. The numbers are worked out by hand from request M-106 of document 02: for
//! each message up to and with the one that fits, or for all if none fits, 0 where no clause can take its kind; else its clauses in order up to
//! the first that fits, that one counted, or all.

use open_controller::{consulted, simulate, OUTPUT};

/// A message of each kind. Numbers are 5 wherever there is one, so that kinds alone tell the values apart.
const MESSAGES: [&str; 5] = ["i5", "a5", "p5", "note", "down"];

/// The plan text of these behaviours and starts; an op is written without `op=`.
fn plan(behaviours: &[Vec<String>], starts: &[(u8, usize)]) -> String {
    let mut text = format!("plan=1\nbehaviours={}\n", behaviours.len());
    for code in behaviours {
        text += &format!("code={}\n", code.len());
        for op in code {
            text += &format!("op={op}\n");
        }
    }
    text += &format!("starts={}\n", starts.len());
    for (process, behaviour) in starts {
        text += &format!("start={process},{behaviour}\n");
    }
    text
}

/// The ops of a behaviour that are written with blanks between them.
fn code(words: &str) -> Vec<String> {
    words.split_whitespace().map(str::to_string).collect()
}

/// The steps text of steps that are written with blanks between them.
fn steps(words: &str) -> String {
    words.split_whitespace().map(|step| format!("{step}\n")).collect()
}

/// A recv with these clauses, all of which go to place 0.
fn recv(clauses: &[&str]) -> Vec<String> {
    let mut ops = vec![format!("recv,{}", clauses.len())];
    ops.extend(clauses.iter().map(|kind| format!("clause,{kind},0,0,0")));
    ops
}

/// A plan and the steps that bring mail to process 1, which waits then.
struct Delivery {
    behaviours: Vec<Vec<String>>,
    starts: Vec<(u8, usize)>,
    /// The steps, with blanks between them.
    words: String,
    /// Where process 1 waits.
    place: usize,
}

/// Process 1 traps exits and watches processes 4 and up, one for each down, before it is at the first op of `waits`. Processes 2 and 3 send it
/// values and exit signals, eight each, since one code does not hold sixteen.
fn delivery(waits: &[String], mail: &[&str]) -> Delivery {
    let downs = mail.iter().filter(|message| **message == "down").count() as u8;
    let mut waiting = code("trap,1");
    for watched in 4..4 + downs {
        waiting.extend([format!("set,3,p{watched}"), "monitor,3".to_string()]);
    }
    let place = waiting.len();
    let mut words = "run=1 ".repeat(place) + "run=2 run=3 ";
    waiting.extend_from_slice(waits);
    let mut senders = [code("set,0,p1"), code("set,0,p1")];
    let mut ending = 4..;
    for (index, message) in mail.iter().enumerate() {
        if *message == "down" {
            let process = ending.next().expect("a process for each down");
            // It ends, hears of the watch, and says that it has ended.
            words += &format!("run={process} arrive={process},1 arrive=1,{process} ");
            continue;
        }
        let (value, op) = if *message == "note" { ("a5", "exit,0,1") } else { (*message, "send,0,1") };
        senders[index / 8].extend([format!("set,1,{value}"), op.to_string()]);
        let sender = 2 + index / 8;
        words += &format!("run={sender} run={sender} arrive=1,{sender} ");
    }
    let [first, second] = senders;
    let mut starts = vec![(1, 1), (2, 2), (3, 3)];
    starts.extend((4..4 + downs).map(|process| (process, 4)));
    Delivery { behaviours: vec![waiting, first, second, code("stop,0")], starts, words, place }
}

impl Delivery {
    fn plan(&self) -> String {
        plan(&self.behaviours, &self.starts)
    }

    /// That process 1 has this mail and every step was accepted, by the listing; a note has a5 and comes from a sender, a down has a5, noproc.
    fn check(&self, mail: &[&str]) {
        let mut out = vec![0; OUTPUT];
        let length = simulate(self.plan().as_bytes(), steps(&self.words).as_bytes(), &mut out).expect("enough room");
        let listing = String::from_utf8(out[..length].to_vec()).expect("a listing");
        let head = format!("refused=0\nprocess=1\nstage=live\nbehaviour=1\nplace={}\n", self.place);
        assert!(listing.contains(&head), "{listing}");
        let mut lines = listing.lines().skip_while(|line| !line.starts_with("mail="));
        assert_eq!(lines.next(), Some(&format!("mail={}", mail.len())[..]));
        for message in mail {
            let line = lines.next().expect("a line for each message");
            match *message {
                "note" => assert!(line.starts_with("note=p") && line.ends_with(",a5"), "{line}"),
                "down" => assert!(line.starts_with("down=p") && line.ends_with(",a5"), "{line}"),
                value => assert_eq!(line, format!("message={value}")),
            }
        }
    }
}

/// What is told of process 1, which is at the first op of `waits`, a recv, with this mail.
fn told_at(waits: &[String], mail: &[&str]) -> usize {
    let delivery = delivery(waits, mail);
    delivery.check(mail);
    let told = consulted(delivery.plan().as_bytes(), steps(&delivery.words).as_bytes(), 1);
    told.expect("process 1 is live at a recv")
}

/// What is told of a recv with these clauses and this mail.
fn told(clauses: &[&str], mail: &[&str]) -> usize {
    told_at(&recv(clauses), mail)
}

#[test]
fn each_kind_of_clause_against_each_kind_of_message() {
    let row = |clause| MESSAGES.map(|message| told(&[clause], &[message]));
    assert_eq!(row("any"), [1, 1, 1, 1, 1]);
    assert_eq!(row("int"), [1, 0, 0, 0, 0]);
    assert_eq!(row("atom"), [0, 1, 0, 0, 0]);
    assert_eq!(row("pid"), [0, 0, 1, 0, 0]);
    assert_eq!(row("note"), [0, 0, 0, 1, 0]);
    assert_eq!(row("down"), [0, 0, 0, 0, 1]);
    assert_eq!(row("i5"), [1, 0, 0, 0, 0]);
    assert_eq!(row("a5"), [0, 1, 0, 0, 0]);
    assert_eq!(row("p5"), [0, 0, 1, 0, 0]);
    // Values that do not fit are of the kind that the clause can take: it is consulted, in vain.
    assert_eq!(row("i6"), [1, 0, 0, 0, 0]);
    assert_eq!(row("a6"), [0, 1, 0, 0, 0]);
    assert_eq!(row("p6"), [0, 0, 1, 0, 0]);
}

#[test]
fn any_behind_each_kind_of_clause() {
    // `any` can take every kind, so that both clauses are consulted unless the first fits.
    let row = |clause| MESSAGES.map(|message| told(&[clause, "any"], &[message]));
    assert_eq!(row("any"), [1, 1, 1, 1, 1]);
    assert_eq!(row("int"), [1, 2, 2, 2, 2]);
    assert_eq!(row("atom"), [2, 1, 2, 2, 2]);
    assert_eq!(row("pid"), [2, 2, 1, 2, 2]);
    assert_eq!(row("note"), [2, 2, 2, 1, 2]);
    assert_eq!(row("down"), [2, 2, 2, 2, 1]);
    assert_eq!(row("i5"), [1, 2, 2, 2, 2]);
    assert_eq!(row("a5"), [2, 1, 2, 2, 2]);
    assert_eq!(row("p5"), [2, 2, 1, 2, 2]);
    assert_eq!(row("a6"), [2, 2, 2, 2, 2]);
}

#[test]
fn any_before_each_kind_of_clause() {
    for clause in ["any", "int", "atom", "pid", "note", "down", "i5", "a5", "p5"] {
        assert_eq!(MESSAGES.map(|message| told(&["any", clause], &[message])), [1, 1, 1, 1, 1], "{clause}");
    }
}

#[test]
fn clauses_that_cannot_take_the_kind_count_once_another_can() {
    assert_eq!(told(&["int", "a3"], &["a7"]), 2);
    assert_eq!(told(&["int", "int"], &["a7"]), 0);
    assert_eq!(told(&["a3", "int"], &["a7"]), 2);
    assert_eq!(told(&["note", "down", "int", "a7", "pid"], &["a7"]), 4);
    assert_eq!(told(&["note", "down", "int", "a3", "pid"], &["a7"]), 5);
    assert_eq!(told(&["i7", "p7", "note", "down"], &["a7"]), 0);
    assert_eq!(told(&["i1", "a1", "p1", "down", "note"], &["note"]), 5);
    assert_eq!(told(&["i1", "a1", "p1", "note", "down"], &["down"]), 5);
    assert_eq!(told(&["int", "atom", "pid", "down"], &["note"]), 0);
    assert_eq!(told(&["int", "atom", "pid", "note"], &["down"]), 0);
}

#[test]
fn nothing_is_consulted_for_an_empty_mailbox() {
    for clause in ["any", "int", "atom", "pid", "note", "down", "i5", "a5", "p5"] {
        assert_eq!(told(&[clause], &[]), 0, "{clause}");
        assert_eq!(told(&[clause; 8], &[]), 0, "{clause}");
    }
    // The message is in flight: it has been sent and has not arrived.
    let delivery = delivery(&recv(&["any"]), &["i5"]);
    let before = delivery.words.trim_end().strip_suffix("arrive=1,2").expect("the arrival is last");
    assert_eq!(consulted(delivery.plan().as_bytes(), steps(before).as_bytes(), 1), Some(0));
    assert_eq!(consulted(delivery.plan().as_bytes(), steps(&delivery.words).as_bytes(), 1), Some(1));
}

#[test]
fn messages_of_other_kinds_count_nothing_before_between_and_behind() {
    // One clause for the message that fits, wherever it stands among others.
    assert_eq!(told(&["int"], &["a5", "p5", "note", "down", "i5"]), 1);
    assert_eq!(told(&["int"], &["a5", "note", "i5", "p5", "down"]), 1);
    assert_eq!(told(&["int"], &["i5", "a5", "p5", "note", "down"]), 1);
    assert_eq!(told(&["note"], &["i5", "a5", "p5", "down", "note", "down"]), 1);
    assert_eq!(told(&["down"], &["note", "note", "down", "note"]), 1);
    // Two for i5, nothing for a5 and p5, two for i8, which fits; i7 is behind it.
    assert_eq!(told(&["i7", "i8"], &["a5", "i5", "p5", "i8", "i7"]), 4);
    assert_eq!(told(&["i7", "i8"], &["a5", "i5", "p5", "i7", "i8"]), 3);
    // The same without a fit: two for each integer.
    assert_eq!(told(&["i7", "i8"], &["note", "i5", "down", "i6", "a7"]), 4);
    // Kinds are noted together: a5 is consulted because of a6, i5 because of i6, p5 not at all.
    assert_eq!(told(&["i6", "note", "a6"], &["p5", "i5", "down", "a5", "p6", "note"]), 8);
}

#[test]
fn messages_behind_the_fit_count_nothing() {
    assert_eq!(told(&["int"], &["i5", "i5", "i5"]), 1);
    assert_eq!(told(&["a1", "any"], &["a5", "a5", "i5", "note"]), 2);
    assert_eq!(told(&["a9", "a5"], &["a8", "a5", "a8", "a5"]), 4);
}

#[test]
fn clauses_of_one_kind_before_the_fit() {
    let clauses = ["i1", "i2", "i3", "int", "int", "any"];
    assert_eq!(told(&clauses, &["i1"]), 1);
    assert_eq!(told(&clauses, &["i2"]), 2);
    assert_eq!(told(&clauses, &["i3"]), 3);
    assert_eq!(told(&clauses, &["i9"]), 4);
    assert_eq!(told(&clauses, &["a1"]), 6);
    assert_eq!(told(&["a1", "a2", "a3", "atom"], &["i1", "p2", "a9", "a1"]), 4);
    assert_eq!(told(&["p1", "p2", "p3"], &["p4", "p4", "p3"]), 9);
    assert_eq!(told(&["int", "int", "note", "note"], &["note"]), 3);
}

#[test]
fn only_the_clauses_of_its_own_recv_are_noted_and_consulted() {
    let int = recv(&["int"]);
    let with = |more: &[String]| [&int[..], more].concat();
    // Behind the clauses: another recv, and an `after`, with and without another recv behind it.
    let others = recv(&["atom", "any", "a5"]);
    let after = code("after,0");
    for waits in [with(&others), with(&after), with(&[&after[..], &others].concat())] {
        assert_eq!(MESSAGES.map(|message| told_at(&waits, &[message])), [1, 0, 0, 0, 0]);
        assert_eq!(told_at(&waits, &["a5", "note", "down", "p5", "i5"]), 1);
        assert_eq!(told_at(&waits, &[]), 0);
    }
    // A clause that does not fit is the last one: what is behind it is not consulted.
    let waits = [recv(&["a6", "a7"]), recv(&["a8", "any"])].concat();
    assert_eq!(told_at(&waits, &["a5", "a5", "i5"]), 4);
    let waits = [recv(&["a6", "a7"]), after, recv(&["a8", "any"])].concat();
    assert_eq!(told_at(&waits, &["a5", "a5", "i5"]), 4);
}

/// The clauses of the recv at place 1 do not count at the recv at place 4, at which process 1 is once it has taken i5.
#[test]
fn clauses_of_an_earlier_recv_are_not_noted() {
    let mut delivery = delivery(&code("recv,2 clause,a6,0,0,4 clause,any,0,0,4 recv,1 clause,pid,0,0,0"), &["i5", "a6", "i5"]);
    let plan = delivery.plan();
    assert_eq!(consulted(plan.as_bytes(), steps(&delivery.words).as_bytes(), 1), Some(2));
    delivery.words += "run=1";
    assert_eq!(consulted(plan.as_bytes(), steps(&delivery.words).as_bytes(), 1), Some(0));
}

/// After its timeout process 1 is at another recv, whose clauses are consulted then.
#[test]
fn a_timeout_leads_to_another_recv() {
    let mut delivery = delivery(&code("recv,1 clause,i6,0,0,0 after,4 recv,3 clause,a6,0,0,0 clause,p6,0,0,0 clause,i5,0,0,0"), &["i5", "a5"]);
    let plan = delivery.plan();
    assert_eq!(consulted(plan.as_bytes(), steps(&delivery.words).as_bytes(), 1), Some(1));
    delivery.words += "timeout=1";
    assert_eq!(consulted(plan.as_bytes(), steps(&delivery.words).as_bytes(), 1), Some(3));
    // This recv takes i5 and goes to place 0, from where a run leads to the first one: a5 is left.
    delivery.words += " run=1 run=1";
    assert_eq!(consulted(plan.as_bytes(), steps(&delivery.words).as_bytes(), 1), Some(0));
}

/// Eight clauses: four integers, then four atoms.
const EIGHT: [&str; 8] = ["i1", "i2", "i3", "i4", "a1", "a2", "a3", "a4"];

/// Sixteen messages, all the same but one.
fn sixteen(message: &'static str, index: usize, other: &'static str) -> [&'static str; 16] {
    let mut mail = [message; 16];
    mail[index] = other;
    mail
}

#[test]
fn sixteen_messages_and_eight_clauses() {
    // The fit is the last message: 15 times 8, and 5 or 8 or 1 for it.
    assert_eq!(told(&EIGHT, &sixteen("i9", 15, "a1")), 125);
    assert_eq!(told(&EIGHT, &sixteen("a9", 15, "a4")), 128);
    assert_eq!(told(&EIGHT, &sixteen("a9", 15, "i1")), 121);
    // In the middle: 7 times 8 before it, and 8 messages behind it.
    assert_eq!(told(&EIGHT, &sixteen("i9", 7, "a2")), 62);
    assert_eq!(told(&EIGHT, &sixteen("p9", 7, "a2")), 6);
    // At the beginning.
    assert_eq!(told(&EIGHT, &sixteen("i9", 0, "i3")), 3);
    // Nowhere.
    assert_eq!(told(&EIGHT, &["i9"; 16]), 128);
    assert_eq!(told(&EIGHT, &sixteen("i9", 15, "p1")), 120);
    assert_eq!(told(&EIGHT, &sixteen("p9", 15, "i9")), 8);
    assert_eq!(told(&EIGHT, &sixteen("note", 0, "a9")), 8);
}

#[test]
fn sixteen_messages_of_several_kinds_and_eight_clauses() {
    // Three kinds are taken, and nothing fits.
    let three = ["i1", "i2", "i3", "a1", "a2", "p1", "p2", "p3"];
    let values = ["i9", "a9", "p9", "i8", "a8", "p8", "i7", "a7", "p7", "i6", "a6", "p6", "i5", "a5", "p5", "i0"];
    assert_eq!(told(&three, &values), 128);
    // No kind is taken.
    let mixed = ["p1", "note", "p2", "p3", "down", "note", "p4", "p5", "note", "p6", "p7", "down", "p8", "p9", "note", "p1"];
    assert_eq!(told(&EIGHT, &mixed), 0);
    assert_eq!(told(&["i1"; 8], &["a1"; 16]), 0);
    // The kinds of seven values are taken, those of the others are not.
    let half = ["i9", "note", "i8", "p1", "a9", "down", "a8", "p1", "i7", "p2", "a7", "note", "a6", "p3", "down", "p4"];
    assert_eq!(told(&EIGHT, &half), 56);
}

/// A plan in which processes 1, 2, 3 and 16 wait and have 1, 2, 3 and 4 clauses consulted; process 8 sends each of them i0.
fn neighbours() -> (String, String) {
    let sends = code("set,0,p1 send,0,1 set,0,p2 send,0,1 set,0,p3 send,0,1 set,0,p16 send,0,1");
    let waits = [&["int"][..], &["atom", "int"], &["a1", "a2", "int"], &["p1", "p2", "p3", "int"]].map(recv);
    let [first, second, third, last] = waits;
    let plan = plan(&[first, second, third, last, sends], &[(1, 1), (2, 2), (3, 3), (8, 5), (16, 4)]);
    (plan, steps(&("run=8 ".repeat(8) + "arrive=1,8 arrive=2,8 arrive=3,8 arrive=16,8")))
}

#[test]
fn each_process_is_told_of_itself() {
    let (plan, steps) = neighbours();
    for (process, clauses) in [(1, 1), (2, 2), (3, 3), (16, 4)] {
        assert_eq!(consulted(plan.as_bytes(), steps.as_bytes(), process), Some(clauses), "process {process}");
    }
    // Process 8 is past its code, the others are unborn.
    for process in (4..16).chain([0, 17]) {
        assert_eq!(consulted(plan.as_bytes(), steps.as_bytes(), process), None, "process {process}");
    }
}

#[test]
fn no_process_has_another_number() {
    let (plan, steps) = neighbours();
    // Some are 1, 2 or 16 once their higher bits are lost.
    let cut = [257, 258, 272, 65_537, 65_552, (1 << 32) + 1, (1 << 32) + 16, (1 << 63) + 1, (1 << 63) + 16];
    for process in [0, 17, 18, 31, 32, 33, 255, 256].into_iter().chain(cut).chain([usize::MAX, usize::MAX - 1, usize::MAX - 14]) {
        assert_eq!(consulted(plan.as_bytes(), steps.as_bytes(), process), None, "process {process}");
    }
}

/// Process 1 goes through its whole life: at ops before its recv, at the recv, at an op behind it, past its code, closing, gone.
#[test]
fn none_unless_the_process_is_live_at_a_recv() {
    let life = code("self,0 send,0,0 recv,1 clause,pid,0,0,4 link,0");
    let plan = plan(&[life], &[(1, 1)]);
    for (words, expected) in [
        ("", None),
        ("run=1", None),
        ("run=1 run=1", Some(0)),
        ("run=1 run=1 arrive=1,1", Some(1)),
        ("run=1 run=1 arrive=1,1 run=1", None),
        ("run=1 run=1 arrive=1,1 run=1 run=1", None),
        ("run=1 run=1 arrive=1,1 run=1 run=1 run=1", None),
        ("run=1 run=1 arrive=1,1 run=1 run=1 run=1 run=1", None),
    ] {
        assert_eq!(consulted(plan.as_bytes(), steps(words).as_bytes(), 1), expected, "{words}");
        assert_eq!(consulted(plan.as_bytes(), steps(words).as_bytes(), 2), None, "{words}");
    }
}

/// Mail waits at ops that are no recv, and past the end of a code: it is not searched there.
#[test]
fn none_with_mail_at_another_op() {
    let past_the_end = ("jump,2", "run=1");
    for (op, more) in [("set,0,i1", ""), ("jump,0", ""), ("stop,0", ""), ("same,0,i0,0", ""), ("trap,0", ""), past_the_end] {
        let delivery = delivery(&code(op), &["i5", "a5", "note"]);
        delivery.check(&["i5", "a5", "note"]);
        let words = delivery.words.clone() + more;
        assert_eq!(consulted(delivery.plan().as_bytes(), steps(&words).as_bytes(), 1), None, "{op} {more}");
    }
    // Mail is lost where the process ends at once: closing, and gone.
    let delivery = delivery(&code("stop,0"), &["i5"]);
    for more in ["run=1", "run=1 run=1"] {
        let words = delivery.words.clone() + more;
        assert_eq!(consulted(delivery.plan().as_bytes(), steps(&words).as_bytes(), 1), None, "{more}");
    }
}

#[test]
fn the_mailbox_before_a_refused_step_is_searched() {
    let delivery = delivery(&recv(&["a6", "int"]), &["a5", "i5", "i5"]);
    let (plan, words) = (delivery.plan(), delivery.words.trim_end());
    let after = |words: &str| consulted(plan.as_bytes(), steps(words).as_bytes(), 1);
    // 2 for a5 and 2 for the first i5.
    assert_eq!(after(words), Some(4));
    for refused in ["run=17", "run=0", "run=16", "arrive=1,2", "timeout=1"] {
        // What is behind the refused step is not played: run 1 would take i5 and leave the recv.
        assert_eq!(after(&format!("{words} {refused} run=1")), Some(4), "{refused}");
        // Nor is anything where it is the first: process 1 is at its first op, trap.
        assert_eq!(after(&format!("{refused} {words}")), None, "{refused}");
    }
    // Refused before a5 arrives, and behind it.
    let first = "run=1 run=2 run=2 run=2";
    assert_eq!(after(&format!("{first} run=17 arrive=1,2")), Some(0));
    assert_eq!(after(&format!("{first} arrive=1,2 run=17")), Some(2));
}

/// Plan texts that are refused by 10, 11, 12, 13 and 14.
fn refused_plans() -> [Vec<u8>; 7] {
    let good = plan(&[recv(&["any"])], &[(1, 1)]).into_bytes();
    [
        vec![b'x'; 16_385],
        Vec::new(),
        good[1..].to_vec(),
        good[..good.len() - 1].to_vec(),
        plan(&[recv(&["a256"])], &[(1, 1)]).into_bytes(),
        plan(&[recv(&["any"])], &[(1, 1), (1, 1)]).into_bytes(),
        plan(&[code("recv,2 clause,any,0,0,0")], &[(1, 1)]).into_bytes(),
    ]
}

/// Steps texts that are refused by 15, and by 32 for their bytes and for their lines.
fn refused_steps() -> [Vec<u8>; 6] {
    [
        b"run=1".to_vec(),
        b"run=1\nrun=01\n".to_vec(),
        b"run=256\n".to_vec(),
        b"timeout=1,1\n".to_vec(),
        vec![b'\n'; 61_441],
        b"run=1\n".repeat(4097),
    ]
}

#[test]
fn none_where_a_text_is_refused() {
    let (plan, steps) = (plan(&[recv(&["any"])], &[(1, 1)]).into_bytes(), b"run=1\n".repeat(4096));
    assert_eq!(consulted(&plan, &steps, 1), Some(0));
    for process in [0, 1, 2, 16, 17, usize::MAX] {
        for refused in refused_plans() {
            assert_eq!(consulted(&refused, &steps, process), None);
            assert_eq!(consulted(&refused, b"", process), None);
            for both in refused_steps() {
                assert_eq!(consulted(&refused, &both, process), None);
            }
        }
        for refused in refused_steps() {
            assert_eq!(consulted(&plan, &refused, process), None);
        }
    }
}
