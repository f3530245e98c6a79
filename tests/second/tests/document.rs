//! The documents' own examples, worked out from their text by hand.

mod support;

use support::{answer, flights, plan, process, run};

const SAMPLE: &str = "plan=1\nbehaviours=2\ncode=3\nop=set,0,p2\nop=set,1,i12\nop=send,0,1\n\
code=2\nop=recv,1\nop=clause,int,0,1,2\nstarts=2\nstart=1,1\nstart=2,2\n";

/// A live process in behaviour b at place t with fresh registers, as `process` shows it.
fn fresh(behaviour: u8, place: usize) -> String {
    format!(
        "stage=live behaviour={behaviour} place={place} r0=i0 r1=i0 r2=i0 r3=i0 trap=0 links= watches= watchers= mail=0"
    )
}

#[test]
fn p1_no_steps() {
    let out = run(SAMPLE, "");
    assert_eq!(answer(&out), "accepted=0 refused=0");
    assert_eq!(process(&out, 1), fresh(1, 0));
    assert_eq!(process(&out, 2), fresh(2, 0));
    assert_eq!(flights(&out), "");
}

#[test]
fn p2_the_listing() {
    let expected = "accepted=5\nrefused=0\nprocess=1\nstage=live\nbehaviour=1\nplace=3\nr0=p2\n\
r1=i12\nr2=i0\nr3=i0\ntrap=0\nlinks=\nwatches=\nwatchers=\nmail=0\nprocess=2\nstage=live\nbehaviour=2\nplace=2\n\
r0=i12\nr1=i0\nr2=i0\nr3=i0\ntrap=0\nlinks=\nwatches=\nwatchers=\nmail=0\n";
    assert_eq!(run(SAMPLE, "run=1 run=1 run=1 arrive=2,1 run=2"), expected);
}

#[test]
fn p3_normal_exit_from_another_is_dropped() {
    let text = plan(
        &[&["set,0,p2", "set,1,a0", "exit,0,1"], &["jump,0"]],
        &[(1, 1), (2, 2)],
    );
    let out = run(&text, "run=1 run=1 run=1 arrive=2,1");
    assert_eq!(answer(&out), "accepted=4 refused=0");
    assert_eq!(process(&out, 2), fresh(2, 0));
    assert_eq!(flights(&out), "");
}

#[test]
fn p3_normal_exit_from_itself_ends() {
    let text = plan(&[&["self,0", "set,1,a0", "exit,0,1"]], &[(3, 1)]);
    let out = run(&text, "run=3 run=3 run=3 arrive=3,3");
    assert_eq!(answer(&out), "accepted=4 refused=0");
    assert_eq!(process(&out, 3), "stage=closing reason=a0 links= watchers=");
}

#[test]
fn p4_kill_ends_a_trapping_process_with_killed() {
    let text = plan(
        &[&["set,0,p2", "set,1,a1", "exit,0,1"], &["trap,1"]],
        &[(1, 1), (2, 2)],
    );
    let out = run(&text, "run=2 run=1 run=1 run=1 arrive=2,1");
    assert_eq!(process(&out, 2), "stage=closing reason=a2 links= watchers=");
}

/// Process 1 links process 2 and stops with a reason; process 2 runs its first op.
fn linked_stop(reason: &str, first: &str) -> String {
    let set = format!("set,1,{reason}");
    plan(
        &[&["set,0,p2", "link,0", &set, "stop,1"], &[first, "jump,1"]],
        &[(1, 1), (2, 2)],
    )
}

const LINKED_STOP_STEPS: &str = "run=2 run=1 run=1 arrive=2,1 run=1 run=1 run=1 arrive=2,1";

#[test]
fn p4_linked_kill_gives_a_trapping_process_a_note() {
    let out = run(&linked_stop("a1", "trap,1"), LINKED_STOP_STEPS);
    assert_eq!(answer(&out), "accepted=8 refused=0");
    assert_eq!(process(&out, 1), "stage=closing reason=a1 links= watchers=");
    assert_eq!(
        process(&out, 2),
        "stage=live behaviour=2 place=1 r0=i0 r1=i0 r2=i0 r3=i0 trap=1 links= watches= watchers= mail=1 note=p1,a1"
    );
}

#[test]
fn p5_linked_kill_ends_with_kill() {
    let out = run(&linked_stop("a1", "trap,0"), LINKED_STOP_STEPS);
    assert_eq!(process(&out, 2), "stage=closing reason=a1 links= watchers=");
}

#[test]
fn linked_normal_exit_is_dropped_and_the_link_is_over() {
    let out = run(&linked_stop("a0", "trap,0"), LINKED_STOP_STEPS);
    assert_eq!(
        process(&out, 2),
        "stage=live behaviour=2 place=1 r0=i0 r1=i0 r2=i0 r3=i0 trap=0 links= watches= watchers= mail=0"
    );
}

#[test]
fn p6_exit_without_the_link_is_dropped() {
    let text = plan(
        &[
            &["set,0,p2", "link,0", "set,1,a9", "stop,1"],
            &["trap,1", "set,0,p1", "unlink,0"],
        ],
        &[(1, 1), (2, 2)],
    );
    let words = "run=2 run=1 run=1 arrive=2,1 run=1 run=1 run=1 run=2 run=2 arrive=2,1";
    let out = run(&text, words);
    assert_eq!(answer(&out), "accepted=10 refused=0");
    assert_eq!(
        process(&out, 2),
        "stage=live behaviour=2 place=3 r0=p1 r1=i0 r2=i0 r3=i0 trap=1 links= watches= watchers= mail=0"
    );
    assert_eq!(flights(&out), "flight=2,1,1 signal=unlink");
}

#[test]
fn p7_sum_outside_i_ends_with_badarith() {
    let over = plan(&[&["set,0,i2147483647", "set,1,i1", "add,0,1"]], &[(1, 1)]);
    let out = run(&over, "run=1 run=1 run=1");
    assert_eq!(process(&out, 1), "stage=closing reason=a4 links= watchers=");
    let under = plan(
        &[&["set,0,i-2147483648", "set,1,i-1", "add,0,1"]],
        &[(1, 1)],
    );
    let out = run(&under, "run=1 run=1 run=1");
    assert_eq!(process(&out, 1), "stage=closing reason=a4 links= watchers=");
}

#[test]
fn p7_sum_at_the_limit_stands() {
    let text = plan(&[&["set,0,i2147483647", "add,0,1"]], &[(1, 1)]);
    let out = run(&text, "run=1 run=1");
    assert_eq!(
        process(&out, 1),
        "stage=live behaviour=1 place=2 r0=i2147483647 r1=i0 r2=i0 r3=i0 trap=0 links= watches= watchers= mail=0"
    );
}

/// Process 1 sends process 2 integers for ever; process 3 links process 2.
fn flood() -> String {
    plan(
        &[
            &["set,0,p2", "send,0,1", "jump,1"],
            &["jump,0"],
            &["set,0,p2", "link,0"],
        ],
        &[(1, 1), (2, 2), (3, 3)],
    )
}

/// The steps by which `count` messages of process 1 join the mailbox of process 2.
fn flood_steps(count: usize) -> String {
    format!("run=1 {}", "run=1 arrive=2,1 run=1 ".repeat(count))
}

#[test]
fn p8_mailbox_of_15_takes_a_message() {
    let out = run(&flood(), &flood_steps(16));
    assert_eq!(answer(&out), "accepted=49 refused=0");
    assert!(process(&out, 2).contains("mail=16"));
}

#[test]
fn p8_mailbox_of_16_refuses_a_message_and_takes_a_link() {
    let out = run(&flood(), &flood_steps(17));
    assert_eq!(answer(&out), "accepted=50 refused=24");
    assert_eq!(flights(&out), "flight=1,2,1 signal=msg,i0");
    let words = flood_steps(16) + "run=3 run=3 arrive=2,3";
    let out = run(&flood(), &words);
    assert_eq!(answer(&out), "accepted=52 refused=0");
    assert!(process(&out, 2).contains("links=3 watches= watchers= mail=16"));
}

#[test]
fn p9_pair_of_3_takes_a_send_and_pair_of_4_does_not() {
    let sends = "run=1 run=1 run=1 run=1 run=1 run=1 run=1 run=1";
    let out = run(&flood(), sends);
    assert_eq!(answer(&out), "accepted=8 refused=0");
    assert!(flights(&out).starts_with("flight=1,2,4 "));
    let out = run(&flood(), &format!("{sends} run=1 run=1"));
    assert_eq!(answer(&out), "accepted=9 refused=26");
    assert!(flights(&out).starts_with("flight=1,2,4 "));
}

#[test]
fn p10_messages_are_tried_before_clauses() {
    let text = plan(
        &[
            &["set,0,p2", "set,1,i5", "set,2,a7", "send,0,1", "send,0,2"],
            &["recv,2", "clause,atom,1,1,3", "clause,int,2,2,0"],
        ],
        &[(1, 1), (2, 2)],
    );
    let words = "run=1 run=1 run=1 run=1 run=1 arrive=2,1 arrive=2,1 run=2";
    let out = run(&text, words);
    assert_eq!(answer(&out), "accepted=8 refused=0");
    assert_eq!(
        process(&out, 2),
        "stage=live behaviour=2 place=0 r0=i0 r1=i0 r2=i5 r3=i0 trap=0 links= watches= watchers= mail=1 message=a7"
    );
}

#[test]
fn spawn_of_itself() {
    let text = plan(&[&["spawn,0,1,1"]], &[(1, 1)]);
    let out = run(&text, "run=1");
    assert_eq!(answer(&out), "accepted=0 refused=27");
    assert_eq!(process(&out, 1), fresh(1, 0));
}

#[test]
fn closing_without_links_run_twice() {
    let text = plan(&[&["stop,0"]], &[(1, 1)]);
    let out = run(&text, "run=1");
    assert_eq!(process(&out, 1), "stage=closing reason=i0 links= watchers=");
    let out = run(&text, "run=1 run=1 run=1");
    assert_eq!(out, "accepted=2\nrefused=22\nprocess=1\nstage=gone\n");
}

#[test]
fn end_of_code_ends_with_normal() {
    let text = plan(&[&["trap,0"]], &[(1, 1)]);
    let out = run(&text, "run=1 run=1");
    assert_eq!(process(&out, 1), "stage=closing reason=a0 links= watchers=");
}

#[test]
fn signals_wait_for_an_unborn_process() {
    let text = plan(
        &[&["set,0,p2", "send,0,0", "spawn,1,2,2"], &["jump,0"]],
        &[(1, 1)],
    );
    let out = run(&text, "run=1 run=1 arrive=2,1");
    assert_eq!(answer(&out), "accepted=2 refused=21");
    assert_eq!(flights(&out), "flight=1,2,1 signal=msg,p2");
    let out = run(&text, "run=1 run=1 run=1 arrive=2,1");
    assert_eq!(answer(&out), "accepted=4 refused=0");
    assert_eq!(
        process(&out, 2),
        "stage=live behaviour=2 place=0 r0=p1 r1=i0 r2=i0 r3=i0 trap=0 links= watches= watchers= mail=1 message=p2"
    );
    assert!(process(&out, 1).contains("place=3 r0=p2 r1=p2"));
}

#[test]
fn note_goes_to_r_then_s() {
    let code = |clause: &'static str| {
        plan(
            &[
                &["set,0,p2", "set,1,a9", "exit,0,1"],
                &["trap,1", "recv,1", clause],
            ],
            &[(1, 1), (2, 2)],
        )
    };
    let words = "run=2 run=1 run=1 run=1 arrive=2,1 run=2";
    let out = run(&code("clause,note,2,3,0"), words);
    assert!(process(&out, 2)
        .contains("place=0 r0=i0 r1=i0 r2=p1 r3=a9 trap=1 links= watches= watchers= mail=0"));
    let out = run(&code("clause,any,2,2,0"), words);
    assert!(process(&out, 2)
        .contains("place=0 r0=i0 r1=i0 r2=a9 r3=i0 trap=1 links= watches= watchers= mail=0"));
    let out = run(&code("clause,a9,2,2,0"), words);
    assert_eq!(answer(&out), "accepted=5 refused=29");
}

#[test]
fn closing_tells_the_lowest_link_first() {
    let text = plan(
        &[&["set,0,p9", "link,0", "set,0,p3", "link,0", "stop,0"]],
        &[(1, 1)],
    );
    let words = "run=1 run=1 run=1 run=1 run=1 run=1";
    let out = run(&text, words);
    assert_eq!(
        process(&out, 1),
        "stage=closing reason=p3 links=9 watchers="
    );
    assert_eq!(
        flights(&out),
        "flight=1,3,2 signal=link signal=exit,p3,1 flight=1,9,1 signal=link"
    );
    let out = run(&text, &format!("{words} run=1 run=1 run=1"));
    assert_eq!(answer(&out), "accepted=8 refused=22");
    assert_eq!(process(&out, 1), "stage=gone");
}

#[test]
fn link_and_unlink_of_itself_do_nothing() {
    let text = plan(&[&["self,0", "link,0", "unlink,0"]], &[(1, 1)]);
    let out = run(&text, "run=1 run=1 run=1");
    assert_eq!(
        process(&out, 1),
        "stage=live behaviour=1 place=3 r0=p1 r1=i0 r2=i0 r3=i0 trap=0 links= watches= watchers= mail=0"
    );
    assert_eq!(flights(&out), "");
}

#[test]
fn repeated_link_sends_again() {
    let text = plan(&[&["set,0,p2", "link,0", "jump,1"]], &[(1, 1)]);
    let out = run(&text, &"run=1 ".repeat(10));
    assert_eq!(answer(&out), "accepted=9 refused=26");
    assert_eq!(
        flights(&out),
        "flight=1,2,4 signal=link signal=link signal=link signal=link"
    );
}

#[test]
fn refused_link_adds_nothing() {
    let text = plan(
        &[&[
            "set,0,p2", "send,0,0", "send,0,0", "send,0,0", "send,0,0", "link,0",
        ]],
        &[(1, 1)],
    );
    let out = run(&text, &"run=1 ".repeat(6));
    assert_eq!(answer(&out), "accepted=5 refused=26");
    assert!(process(&out, 1)
        .contains("place=5 r0=p2 r1=i0 r2=i0 r3=i0 trap=0 links= watches= watchers= mail=0"));
}

#[test]
fn no_process_number_ends_with_badarg_before_26() {
    let senders = [
        "send,1,0",
        "exit,1,0",
        "link,1",
        "unlink,1",
        "monitor,1",
        "demonitor,1",
    ];
    for op in senders {
        let text = plan(&[&[op]], &[(1, 1)]);
        let out = run(&text, "run=1");
        assert_eq!(
            process(&out, 1),
            "stage=closing reason=a3 links= watchers=",
            "{op}"
        );
    }
}

#[test]
fn less_and_same_compare() {
    let text = plan(&[&["set,0,i-1", "less,0,1,3", "stop,0"]], &[(1, 1)]);
    assert!(process(&run(&text, "run=1 run=1"), 1).contains("place=3"));
    let text = plan(&[&["less,0,1,0"]], &[(1, 1)]);
    assert!(process(&run(&text, "run=1"), 1).contains("place=1"));
    let text = plan(&[&["set,0,a1", "less,0,1,0"]], &[(1, 1)]);
    let out = run(&text, "run=1 run=1");
    assert_eq!(process(&out, 1), "stage=closing reason=a3 links= watchers=");
    let text = plan(&[&["set,0,p1", "same,0,i1,0", "same,0,p1,0"]], &[(1, 1)]);
    assert!(process(&run(&text, "run=1 run=1"), 1).contains("place=2"));
    assert!(process(&run(&text, "run=1 run=1 run=1"), 1).contains("place=0"));
}

#[test]
fn add_of_other_kinds_ends_with_badarith() {
    let text = plan(&[&["set,0,p1", "add,1,0"]], &[(1, 1)]);
    let out = run(&text, "run=1 run=1");
    assert_eq!(process(&out, 1), "stage=closing reason=a4 links= watchers=");
}

#[test]
fn trapped_exit_from_a_link_keeps_the_link_when_not_linked() {
    let text = plan(
        &[&["set,0,p2", "link,0", "set,1,a0", "exit,0,1"], &["trap,1"]],
        &[(1, 1), (2, 2)],
    );
    let words = "run=2 run=1 run=1 run=1 run=1 arrive=2,1 arrive=2,1";
    let out = run(&text, words);
    assert!(process(&out, 2).ends_with("trap=1 links=1 watches= watchers= mail=1 note=p1,a0"));
}

#[test]
fn signals_at_closing_and_gone_are_dropped() {
    let text = plan(
        &[&["set,0,p2", "send,0,0", "link,0"], &["stop,0"]],
        &[(1, 1), (2, 2)],
    );
    let out = run(&text, "run=1 run=1 run=1 run=2 arrive=2,1 run=2 arrive=2,1");
    assert_eq!(answer(&out), "accepted=7 refused=0");
    assert_eq!(process(&out, 2), "stage=gone");
    assert_eq!(flights(&out), "");
}

/// Waits for an integer and gives up to place N.
const QUIET: [&str; 3] = ["recv,1", "clause,int,1,1,0", "after,3"];

#[test]
fn a_timeout_moves_a_quiet_process_to_t() {
    let out = run(&plan(&[&QUIET], &[(1, 1)]), "timeout=1");
    assert_eq!(answer(&out), "accepted=1 refused=0");
    assert_eq!(process(&out, 1), fresh(1, 3));
    let out = run(&plan(&[&QUIET], &[(1, 1)]), "timeout=1 run=1");
    assert_eq!(process(&out, 1), "stage=closing reason=a0 links= watchers=");
}

#[test]
fn a_timeout_changes_the_place_alone() {
    let signs = [
        "trap,1",
        "set,0,p2",
        "link,0",
        "monitor,0",
        "recv,1",
        "clause,int,1,1,0",
        "after,0",
    ];
    let row = [
        "set,0,p1",
        "set,1,a9",
        "link,0",
        "send,0,1",
        "exit,0,1",
        "monitor,0",
    ];
    let text = plan(&[&signs, &row], &[(1, 1), (2, 2)]);
    let words = "run=1 run=1 run=1 run=1 run=2 run=2 run=2 run=2 run=2 run=2 \
                 arrive=1,2 arrive=1,2 arrive=1,2 arrive=1,2";
    let before = run(&text, words);
    let out = run(&text, &format!("{words} timeout=1"));
    assert_eq!(answer(&out), "accepted=15 refused=0");
    let live =
        "r0=p2 r1=i0 r2=i0 r3=i0 trap=1 links=2 watches=2 watchers=2 mail=2 message=a9 note=p2,a9";
    let at = |place: usize| format!("stage=live behaviour=1 place={place} {live}");
    assert_eq!(process(&before, 1), at(4));
    assert_eq!(process(&out, 1), at(0));
    assert_eq!(process(&out, 2), process(&before, 2));
    assert_eq!(flights(&out), flights(&before));
    assert_eq!(flights(&out), "flight=1,2,2 signal=link signal=monitor");
}

#[test]
fn a_timeout_at_a_full_mailbox() {
    let text = plan(
        &[&["set,0,p2", "send,0,0", "jump,1"], &QUIET],
        &[(1, 1), (2, 2)],
    );
    let out = run(&text, &format!("{}timeout=2", flood_steps(16)));
    assert_eq!(answer(&out), "accepted=50 refused=0");
    assert!(process(&out, 2).contains("place=3"));
    assert!(process(&out, 2).contains("mail=16"));
}

#[test]
fn a_timeout_may_lead_back_to_its_recv() {
    let text = plan(&[&["recv,1", "clause,int,1,1,0", "after,0"]], &[(1, 1)]);
    let out = run(&text, &"timeout=1 ".repeat(5));
    assert_eq!(answer(&out), "accepted=5 refused=0");
    assert_eq!(process(&out, 1), fresh(1, 0));
}

#[test]
fn each_recv_has_its_own_after() {
    let mut code = vec!["recv,8"];
    code.extend(["clause,int,1,1,0"; 8]);
    code.extend([
        "after,10",
        "recv,2",
        "clause,int,1,1,0",
        "clause,any,1,1,0",
        "after,15",
        "stop,0",
    ]);
    let text = plan(&[&code], &[(1, 1)]);
    assert_eq!(process(&run(&text, "timeout=1"), 1), fresh(1, 10));
    assert_eq!(process(&run(&text, "timeout=1 timeout=1"), 1), fresh(1, 15));
}

#[test]
fn a_run_never_takes_the_after() {
    let text = plan(&[&["set,0,p2", "send,0,1"], &QUIET], &[(1, 1), (2, 2)]);
    let out = run(&text, "run=2");
    assert_eq!(answer(&out), "accepted=0 refused=25");
    assert_eq!(process(&out, 2), fresh(2, 0));
    let out = run(&text, "run=1 run=1 arrive=2,1 run=2 timeout=2");
    assert_eq!(answer(&out), "accepted=5 refused=0");
    assert_eq!(process(&out, 2), fresh(2, 3));
}
