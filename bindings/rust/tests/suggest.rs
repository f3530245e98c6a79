//! The first acceptable step of a node, through the wrapper. The answers are worked out by hand from document 01 and requests M-100 to M-105 of
//! document 02.

use open_controller::{suggest, Refused, Step};
use Step::{Arrive, Run, Timeout};

/// The sample of document 01.
const SAMPLE: &str = "plan=1\nbehaviours=2\ncode=3\nop=set,0,p2\nop=set,1,i12\nop=send,0,1\n\
code=2\nop=recv,1\nop=clause,int,0,1,2\nstarts=2\nstart=1,1\nstart=2,2\n";

/// A behaviour whose every run is accepted.
const ENDLESS: &[&str] = &["jump,0"];

/// A behaviour that waits for an integer and cannot give up.
const WAITS: &[&str] = &["recv,1", "clause,int,0,0,2"];

/// The plan text of these behaviours and starts; an op is written without `op=`.
fn plan(behaviours: &[&[&str]], starts: &[(u8, u8)]) -> String {
    let mut text = format!("plan=1\nbehaviours={}\n", behaviours.len());
    for code in behaviours {
        text += &format!("code={}\n", code.len());
        for op in *code {
            text += &format!("op={op}\n");
        }
    }
    text += &format!("starts={}\n", starts.len());
    for (process, behaviour) in starts {
        text += &format!("start={process},{behaviour}\n");
    }
    text
}

/// The first acceptable step after steps that are written with blanks between them.
fn first(plan: &str, words: &str) -> Option<Step> {
    let steps: String = words.split_whitespace().map(|step| format!("{step}\n")).collect();
    suggest(plan.as_bytes(), steps.as_bytes()).expect("two accepted texts")
}

#[test]
fn the_sample() {
    assert_eq!(first(SAMPLE, ""), Some(Run { owner: 1 }));
    // Process 1 is at its end: its run ends it with a0, and one more lets it go gone.
    assert_eq!(first(SAMPLE, "run=1 run=1 run=1 arrive=2,1"), Some(Run { owner: 1 }));
    assert_eq!(first(SAMPLE, "run=1 run=1 run=1 arrive=2,1 run=1"), Some(Run { owner: 1 }));
    // Process 1 is gone, and process 2 takes i12, ends and goes gone as well.
    assert_eq!(first(SAMPLE, "run=1 run=1 run=1 arrive=2,1 run=1 run=1"), Some(Run { owner: 2 }));
    assert_eq!(first(SAMPLE, "run=1 run=1 run=1 arrive=2,1 run=1 run=1 run=2"), Some(Run { owner: 2 }));
    assert_eq!(first(SAMPLE, "run=1 run=1 run=1 arrive=2,1 run=1 run=1 run=2 run=2"), Some(Run { owner: 2 }));
    assert_eq!(first(SAMPLE, "run=1 run=1 run=1 arrive=2,1 run=1 run=1 run=2 run=2 run=2"), None);
}

#[test]
fn an_arrival_is_first_where_its_owner_waits() {
    // The sample's process 1 is gone before its message has arrived.
    assert_eq!(first(SAMPLE, "run=1 run=1 run=1 run=1 run=1"), Some(Arrive { owner: 2, from: 1 }));
}

#[test]
fn an_arrival_comes_before_the_run_of_a_higher_owner_whatever_its_sender() {
    let sender: &[&str] = &["set,0,p1", "send,0,0", "jump,2"];
    let text = plan(&[WAITS, sender], &[(1, 1), (2, 2), (16, 2)]);
    assert_eq!(first(&text, "run=16"), Some(Run { owner: 2 }));
    assert_eq!(first(&text, "run=16 run=16"), Some(Arrive { owner: 1, from: 16 }));
    // Of two arrivals of one owner the one from the lower sender is first, though its signal is the younger one.
    assert_eq!(first(&text, "run=16 run=16 run=2 run=2"), Some(Arrive { owner: 1, from: 2 }));
}

#[test]
fn a_run_comes_before_an_arrival_of_its_owner() {
    let text = plan(&[&["self,0", "send,0,0", "jump,2"]], &[(3, 1)]);
    assert_eq!(first(&text, "run=3 run=3"), Some(Run { owner: 3 }));
}

#[test]
fn a_timeout_comes_before_an_arrival_of_its_owner_and_before_higher_owners() {
    let waiter: &[&str] = &["self,0", "send,0,0", "recv,1", "clause,pid,0,0,5", "after,5"];
    let text = plan(&[waiter, ENDLESS], &[(1, 1), (2, 2)]);
    assert_eq!(first(&text, "run=1 run=1"), Some(Timeout { owner: 1 }));
    // Its own number has arrived and fits: a timeout would be 28, and a run takes it.
    assert_eq!(first(&text, "run=1 run=1 arrive=1,1"), Some(Run { owner: 1 }));
}

#[test]
fn a_closing_process_runs() {
    let linked: &[&str] = &["set,0,p2", "link,0", "stop,0"];
    let text = plan(&[linked, WAITS], &[(1, 1), (2, 2)]);
    assert_eq!(first(&text, "run=1 run=1 run=1"), Some(Run { owner: 1 }));
    // Its exit signal is sent and it has no link left; then it is gone, and the link arrives at process 2.
    assert_eq!(first(&text, "run=1 run=1 run=1 run=1"), Some(Run { owner: 1 }));
    assert_eq!(first(&text, "run=1 run=1 run=1 run=1 run=1"), Some(Arrive { owner: 2, from: 1 }));
}

#[test]
fn the_highest_number() {
    let waiter: &[&str] = &["self,0", "send,0,0", "recv,1", "clause,pid,0,0,5", "after,5"];
    let text = plan(&[waiter], &[(16, 1)]);
    assert_eq!(first(&text, ""), Some(Run { owner: 16 }));
    assert_eq!(first(&text, "run=16 run=16"), Some(Timeout { owner: 16 }));
    let text = plan(&[&waiter[..4]], &[(16, 1)]).replace("clause,pid,0,0,5", "clause,pid,0,0,4");
    assert_eq!(first(&text, "run=16 run=16"), Some(Arrive { owner: 16, from: 16 }));
}

#[test]
fn none_where_every_step_would_be_refused() {
    assert_eq!(first(&plan(&[WAITS], &[(1, 1)]), ""), None);
    assert_eq!(first(&plan(&[WAITS], &[(1, 1), (16, 1)]), ""), None);
    assert_eq!(first(&plan(&[&["stop,0"]], &[(1, 1)]), "run=1 run=1"), None);
}

#[test]
fn the_node_before_a_refused_step_is_asked() {
    // The sixth run of process 1 is 22. Without the steps before it run 1 would be told, with those behind it run 2.
    let words = "run=1 run=1 run=1 run=1 run=1 run=1 arrive=2,1";
    assert_eq!(first(SAMPLE, words), Some(Arrive { owner: 2, from: 1 }));
    assert_eq!(first(SAMPLE, "run=17 run=1 run=1 run=1 run=1 run=1"), Some(Run { owner: 1 }));
}

#[test]
fn steps_of_an_unborn_process_are_21_though_a_signal_waits() {
    let text = plan(&[&["set,0,p1", "send,0,0", "jump,2"]], &[(2, 1)]);
    assert_eq!(first(&text, "run=2 run=2"), Some(Run { owner: 2 }));
}

#[test]
fn an_arrival_at_a_full_mailbox_is_24() {
    let sender: &[&str] = &["set,0,p1", "set,1,a7", "send,0,1", "jump,2"];
    let text = plan(&[WAITS, sender], &[(1, 1), (2, 2)]);
    let words = "run=2 run=2 ".to_string() + &"run=2 run=2 arrive=1,2 ".repeat(15) + "run=2 run=2 ";
    assert_eq!(first(&text, &words), Some(Arrive { owner: 1, from: 2 }));
    let words = words + "arrive=1,2 run=2 run=2";
    assert_eq!(first(&text, &words), Some(Run { owner: 2 }));
}

#[test]
fn a_run_that_sends_to_a_full_pair_is_26() {
    let text = plan(&[&["set,0,p2", "send,0,0", "jump,1"], WAITS], &[(1, 1), (2, 2)]);
    let words = "run=1 ".to_string() + &"run=1 run=1 ".repeat(3);
    assert_eq!(first(&text, &words), Some(Run { owner: 1 }));
    assert_eq!(first(&text, &(words + "run=1 run=1")), Some(Arrive { owner: 2, from: 1 }));
}

#[test]
fn a_run_of_a_closing_process_whose_pair_is_full_is_26() {
    let ending: &[&str] = &["set,0,p2", "link,0", "send,0,0", "send,0,0", "send,0,0", "stop,0"];
    let text = plan(&[ending, WAITS], &[(1, 1), (2, 2)]);
    let words = "run=1 run=1 run=1 run=1 run=1 run=1 ";
    assert_eq!(first(&text, words), Some(Arrive { owner: 2, from: 1 }));
    assert_eq!(first(&text, &(words.to_string() + "arrive=2,1")), Some(Run { owner: 1 }));
}

#[test]
fn an_arrival_of_a_monitor_that_cannot_be_answered_is_26() {
    let ending: &[&str] = &["set,0,p2", "send,0,0", "send,0,0", "send,0,0", "send,0,0", "stop,0"];
    let watching: &[&str] = &["set,0,p1", "monitor,0", "jump,2"];
    let text = plan(&[ending, watching], &[(1, 1), (2, 2)]);
    let words = "run=1 run=1 run=1 run=1 run=1 run=1 run=1 run=2 run=2 ";
    assert_eq!(first(&text, words), Some(Run { owner: 2 }));
    assert_eq!(first(&text, &(words.to_string() + "arrive=2,1")), Some(Arrive { owner: 1, from: 2 }));
}

#[test]
fn a_run_that_spawns_a_born_process_is_27() {
    for spawned in [1, 2] {
        let spawn = format!("spawn,0,2,{spawned}");
        let text = plan(&[&[&spawn], ENDLESS], &[(1, 1), (2, 2)]);
        assert_eq!(first(&text, ""), Some(Run { owner: 2 }));
    }
    let text = plan(&[&["spawn,0,2,3"], ENDLESS], &[(1, 1), (2, 2)]);
    assert_eq!(first(&text, ""), Some(Run { owner: 1 }));
}

#[test]
fn a_run_at_a_recv_that_no_message_fits_is_29() {
    let confused: &[&str] = &["self,0", "send,0,0", "recv,1", "clause,int,0,0,4"];
    let text = plan(&[confused, ENDLESS], &[(1, 1), (2, 2)]);
    assert_eq!(first(&text, "run=1 run=1 arrive=1,1"), Some(Run { owner: 2 }));
    // With an `after` its timeout is open.
    let confused: &[&str] = &["self,0", "send,0,0", "recv,1", "clause,int,0,0,5", "after,5"];
    let text = plan(&[confused, ENDLESS], &[(1, 1), (2, 2)]);
    assert_eq!(first(&text, "run=1 run=1 arrive=1,1"), Some(Timeout { owner: 1 }));
}

/// Plan texts that are refused by 10, 11, 12, 13 and 14.
fn refused_plans() -> [Vec<u8>; 7] {
    let sample = SAMPLE.as_bytes();
    [
        vec![b'x'; 16_385],
        Vec::new(),
        sample[1..].to_vec(),
        sample[..sample.len() - 1].to_vec(),
        plan(&[&["stop,4"]], &[(1, 1)]).into_bytes(),
        plan(&[ENDLESS], &[(1, 1), (1, 1)]).into_bytes(),
        plan(&[&["recv,1"]], &[(1, 1)]).into_bytes(),
    ]
}

/// Steps texts that are refused by 15, and by 32 for their bytes and for their lines.
fn refused_steps() -> [Vec<u8>; 6] {
    [
        b"run=1".to_vec(),
        b"run=1\nrun=01\n".to_vec(),
        b"run=256\n".to_vec(),
        b"timeout=1,1\n".to_vec(),
        vec![b'\n'; 61_441],
        b"run=1\n".repeat(4097),
    ]
}

#[test]
fn a_refused_text_is_told() {
    let (plan, steps) = (plan(&[ENDLESS], &[(1, 1)]).into_bytes(), b"run=1\n".repeat(4096));
    assert_eq!(suggest(&plan, &steps), Ok(Some(Run { owner: 1 })));
    for refused in refused_plans() {
        assert_eq!(suggest(&refused, &steps), Err(Refused));
        assert_eq!(suggest(&refused, b""), Err(Refused));
        for both in refused_steps() {
            assert_eq!(suggest(&refused, &both), Err(Refused));
        }
    }
    for refused in refused_steps() {
        assert_eq!(suggest(&plan, &refused), Err(Refused));
    }
}
