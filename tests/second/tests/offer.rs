//! The first acceptable step: request M-105 of document 02. The answers are worked out by hand.

// Only `plan` and `steps` are used here; the other tests use the rest.
#[allow(dead_code)]
mod support;

use second::node::{Node, PROCESSES};
use second::offer::{first_acceptable, in_order, number};
use second::step::{self, Step};
use second::text::Refused;
use second::{case, suggest};
use support::{plan, steps};

/// A behaviour whose every run is accepted.
const ENDLESS: &[&str] = &["jump,0"];

/// A behaviour that waits for an atom and cannot give up.
const WAITS: &[&str] = &["recv,1", "clause,atom,0,0,2"];

/// The first acceptable step after steps that are written with blanks between them.
fn first(plan: &str, words: &str) -> Option<Step> {
    let suggested = suggest(plan.as_bytes(), steps(words).as_bytes());
    suggested.expect("two accepted texts")
}

fn arrive(to: u8, from: u8) -> Step {
    Step::Arrive { to, from }
}

#[test]
fn every_step_has_its_place_in_the_order() {
    let order: Vec<Step> = in_order().collect();
    assert_eq!(order.len(), 288);
    assert_eq!(order[..3], [Step::Run(1), Step::Timeout(1), arrive(1, 1)]);
    assert_eq!(
        order[16..20],
        [arrive(1, 15), arrive(1, 16), Step::Run(2), Step::Timeout(2)]
    );
    assert_eq!(order[286..], [arrive(16, 15), arrive(16, 16)]);
}

#[test]
fn the_lowest_owner_is_first() {
    let text = plan(&[ENDLESS], &[(2, 1), (3, 1), (16, 1)]);
    assert_eq!(first(&text, ""), Some(Step::Run(2)));
    assert_eq!(first(&text, "run=3 run=16"), Some(Step::Run(2)));
    let text = plan(&[ENDLESS, WAITS], &[(2, 2), (3, 2), (16, 1)]);
    assert_eq!(first(&text, ""), Some(Step::Run(16)));
}

#[test]
fn a_timeout_of_a_lower_owner_comes_before_a_run() {
    let waiter: &[&str] = &["recv,1", "clause,any,0,0,0", "after,0"];
    let text = plan(&[waiter, ENDLESS], &[(1, 1), (2, 2)]);
    assert_eq!(first(&text, ""), Some(Step::Timeout(1)));
    let text = plan(&[waiter, ENDLESS], &[(1, 2), (2, 1)]);
    assert_eq!(first(&text, ""), Some(Step::Run(1)));
}

/// Processes 1 and 2 wait; 5, 9 and 16 each send process 1 a message, then process 2, and go on.
fn senders() -> String {
    let sender: &[&str] = &["set,0,p1", "send,0,0", "set,0,p2", "send,0,0", "jump,4"];
    plan(&[WAITS, sender], &[(1, 1), (2, 1), (5, 2), (9, 2), (16, 2)])
}

#[test]
fn an_arrival_of_a_lower_owner_comes_before_a_run() {
    assert_eq!(first(&senders(), ""), Some(Step::Run(5)));
    assert_eq!(first(&senders(), "run=16 run=16"), Some(arrive(1, 16)));
}

#[test]
fn arrivals_of_one_owner_come_by_rising_sender() {
    let both = "run=16 run=16 run=9 run=9";
    assert_eq!(first(&senders(), both), Some(arrive(1, 9)));
    let all = "run=16 run=16 run=9 run=9 run=5 run=5";
    assert_eq!(first(&senders(), all), Some(arrive(1, 5)));
    assert_eq!(
        first(&senders(), &(all.to_string() + " arrive=1,5")),
        Some(arrive(1, 9))
    );
}

#[test]
fn arrivals_come_by_owner_before_sender() {
    // Process 5 has sent to both and its signal to 1 has arrived; of 16 the one to 1 is in flight.
    let words = "run=5 run=5 run=5 run=5 arrive=1,5 run=16 run=16";
    assert_eq!(first(&senders(), words), Some(arrive(1, 16)));
    assert_eq!(
        first(&senders(), &(words.to_string() + " arrive=1,16")),
        Some(arrive(2, 5))
    );
}

#[test]
fn of_one_owner_a_run_comes_before_an_arrival() {
    let text = plan(&[&["self,0", "send,0,0", "jump,2"]], &[(4, 1)]);
    assert_eq!(first(&text, "run=4 run=4"), Some(Step::Run(4)));
}

#[test]
fn of_one_owner_a_timeout_comes_before_an_arrival() {
    let code = [
        "self,0",
        "send,0,0",
        "recv,1",
        "clause,pid,0,0,5",
        "after,5",
    ];
    let text = plan(&[&code], &[(4, 1)]);
    assert_eq!(first(&text, "run=4 run=4"), Some(Step::Timeout(4)));
    // The message has arrived and fits, so that the timeout is 28 and the run takes it.
    assert_eq!(first(&text, "run=4 run=4 arrive=4,4"), Some(Step::Run(4)));
}

#[test]
fn none_where_every_step_is_refused() {
    assert_eq!(first(&plan(&[WAITS], &[(1, 1), (7, 1)]), ""), None);
    let text = plan(&[&["stop,0"]], &[(7, 1)]);
    assert_eq!(first(&text, "run=7"), Some(Step::Run(7)));
    assert_eq!(first(&text, "run=7 run=7"), None);
}

#[test]
fn the_node_before_a_refused_step_is_asked() {
    let text = plan(&[&["stop,0"], ENDLESS], &[(1, 1), (2, 2)]);
    // Process 3 is unborn: 21. Process 1 is closing then; gone, it would leave process 2's run.
    assert_eq!(first(&text, "run=1 run=3 run=1"), Some(Step::Run(1)));
    assert_eq!(first(&text, "run=1 run=1 run=3"), Some(Step::Run(2)));
}

#[test]
fn the_refusal_of_a_text_is_told() {
    let good = plan(&[ENDLESS], &[(1, 1)]);
    let refused = |number, line| Err(Refused { number, line });
    assert_eq!(suggest(b"", b"run=1\n"), refused(11, 1));
    assert_eq!(suggest(good.as_bytes(), b"run=1\nrun=\n"), refused(15, 2));
    assert_eq!(
        suggest(good.as_bytes(), &b"run=1\n".repeat(4_097)),
        refused(32, 0)
    );
    assert_eq!(suggest(b"", b"run=\n"), refused(11, 1));
}

#[test]
fn numbers_for_c() {
    for (suggested, expected) in [
        (Some(Step::Run(1)), 256),
        (Some(Step::Run(16)), 4_096),
        (Some(arrive(1, 1)), 65_793),
        (Some(arrive(1, 16)), 65_808),
        (Some(arrive(16, 1)), 69_633),
        (Some(Step::Timeout(1)), 131_328),
        (Some(Step::Timeout(16)), 135_168),
        (None, 0),
    ] {
        assert_eq!(number(Ok(suggested)), expected);
    }
    let refused = Refused {
        number: 11,
        line: 1,
    };
    assert_eq!(number(Err(refused)), usize::MAX);
}

/// Where a step stands: by owner, then by kind, then by sender.
fn rank(step: Step) -> (u8, u8, u8) {
    match step {
        Step::Run(owner) => (owner, 0, 0),
        Step::Timeout(owner) => (owner, 1, 0),
        Step::Arrive { to, from } => (to, 2, from),
    }
}

fn is_acceptable(node: &Node, step: Step) -> bool {
    step::take(&mut node.clone(), step).is_ok()
}

/// Every acceptable step, each tried on a copy of its own.
fn acceptable(node: &Node) -> Vec<Step> {
    let arrivals = (1..=PROCESSES).flat_map(|from| (1..=PROCESSES).map(move |to| arrive(to, from)));
    let runs = (1..=PROCESSES).map(Step::Run);
    let all = arrivals
        .chain((1..=PROCESSES).map(Step::Timeout))
        .chain(runs);
    all.filter(|&step| is_acceptable(node, step)).collect()
}

/// The nodes at the ends of the generator's cases.
fn nodes() -> Vec<Node> {
    let cases = (0..2_000).map(|k| case(13, k));
    let nodes = cases.filter_map(|(plan, steps)| {
        let mut node = second::plan::load(&plan).ok()?;
        let schedule = second::steps::read(&steps).ok()?;
        second::play(&mut node, &schedule, None);
        Some(node)
    });
    nodes.collect()
}

#[test]
fn nodes_of_the_generator_give_the_least_acceptable_step() {
    let (mut some, mut none) = (0, 0);
    for node in nodes() {
        let least = acceptable(&node).into_iter().min_by_key(|&step| rank(step));
        assert_eq!(first_acceptable(&node), least);
        some += u32::from(least.is_some());
        none += u32::from(least.is_none());
    }
    assert!(some > 500 && none > 100, "{some}, {none}");
}

/// A timeout is open only where no message fits, and there the run is 25 or 29: of one owner the two
/// are never both acceptable.
#[test]
fn a_run_and_a_timeout_of_one_owner_exclude_each_other() {
    let mut timeouts = 0;
    for node in nodes() {
        for owner in 1..=PROCESSES {
            let timeout = is_acceptable(&node, Step::Timeout(owner));
            assert!(!timeout || !is_acceptable(&node, Step::Run(owner)));
            timeouts += u32::from(timeout);
        }
    }
    assert!(timeouts > 100, "only {timeouts}");
}
