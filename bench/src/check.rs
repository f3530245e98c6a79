//! Before anything is timed: on every input of the benchmark, and on random ones, the proved library and the tuned Rust answer what the second
//! interpreter answers. Whatever differs ends the run.

use crate::inputs;
use crate::mixes::Case;
use crate::proved;
use crate::tuned::listing::{list, LONGEST};
use crate::tuned::program::simulate;
use crate::tuned::step::Step;
use crate::tuned::{Message, Node, Op, Register, Signal, Stage, Value};
use crate::yardstick::Loaded;

/// Random cases, of which some are refused, and nearly full nodes.
const CASES: u64 = 5000;
const FULL: u64 = 50;
const SEED: u64 = 15;

/// How many random inputs there are.
pub const RANDOM: u64 = CASES + FULL;

/// All print the same; answers what they print.
pub fn printed(case: &Case) -> Vec<u8> {
    let expected = second::simulate(&case.plan, &case.steps);
    let mut out = [0; LONGEST];
    let length = simulate(&case.plan, &case.steps, &mut out);
    assert!(out[..length] == expected, "the tuned Rust differs from the second interpreter");
    let length = proved::simulate(case, &mut out, 1);
    assert!(out[..length] == expected, "the proved library differs from the second interpreter");
    expected
}

/// All print the same, all steps are accepted, in a play and singly, and both listings are the end of what is printed.
pub fn accepted(case: &Case) {
    let printed = printed(case);
    let loaded = Loaded::new(case);
    let count = second::steps::read(&case.steps).map_or(0, |steps| steps.len());
    let front = format!("accepted={count}\nrefused=0\n").into_bytes();
    let listing = printed.strip_prefix(&front[..]).expect("all steps are accepted");
    assert_eq!([proved::play(case, 1), proved::play_steps(case, 1), proved::step(case, 1)], [count; 3], "not all steps are accepted");
    assert_eq!([loaded.play(1), loaded.step(1)], [count; 2], "not all steps are accepted by the tuned Rust");
    let mut out = [0; LONGEST];
    let length = proved::list(case, &mut out, 1);
    assert!(out[..length] == *listing, "the listing is the end of what is printed");
    let length = list(&loaded.reached(), &mut out).expect("the node is sound");
    assert!(out[..length] == *listing, "so it is for the tuned Rust");
    assert_eq!(proved::sound(case, 1), 1, "the node is sound");
}

/// A load tells the same refusal, or 0.
pub fn loaded(plan: &[u8]) {
    printed(&Case { plan: plan.to_vec(), steps: Vec::new() });
    let refusal = second::plan::load(plan).err().map_or(0, |refused| usize::from(refused.number));
    assert_eq!(proved::load(plan, 1), refusal, "the proved load differs");
}

/// The steps are as many.
pub fn read(steps: &[u8]) {
    let count = second::steps::read(steps).map_or(0, |steps| steps.len());
    assert_eq!(proved::read(steps, 1), count, "the proved read differs");
    let case = Case { plan: inputs::small().plan, steps: steps.to_vec() };
    printed(&case);
}

/// No step at all is accepted.
pub fn stuck(case: &Case) {
    accepted(case);
    let node = second::plan::load(&case.plan).expect("an accepted plan");
    let refused = |step| second::step::take(&mut node.clone(), step).is_err();
    for to in 1..=16 {
        assert!(refused(second::step::Step::Run(to)), "a run is accepted");
        assert!(refused(second::step::Step::Timeout(to)), "a timeout is accepted");
        assert!((1..=16).all(|from| refused(second::step::Step::Arrive { to, from })), "an arrival is accepted");
    }
    assert_eq!(proved::suggest(case, 1), 1, "a step is suggested");
}

pub fn random() {
    for k in 0..CASES {
        let (plan, steps) = second::case(SEED, k);
        printed(&Case { plan, steps });
    }
    for k in 0..FULL {
        let (plan, steps) = second::full(SEED, k);
        printed(&Case { plan, steps });
    }
    damages();
}

/// Behaviour 8 waits at its end, with an after, and the processes that do it stand there.
fn wait(node: &mut Node) {
    node.behaviours[7].ops[28..31].copy_from_slice(&[Op::Recv(1), Op::Clause(Register::R0, Register::R0, 0), Op::After(0)]);
    for i in [7, 15] {
        node.processes[i].place = 28;
    }
}

/// The same with another op at a place.
fn wait_with(node: &mut Node, place: usize, op: Op) {
    wait(node);
    node.behaviours[7].ops[place] = op;
}

/// What makes the nearly full node one that is not sound.
const DAMAGES: [fn(&mut Node); 25] = [
    |node| node.behaviour_count = 9,
    |node| node.behaviours[7].count = 33,
    |node| node.behaviours[7].ops[31] = Op::Jump(33),
    |node| node.behaviours[7].ops[31] = Op::Clause(Register::R0, Register::R0, 0),
    |node| node.behaviours[7].ops[31] = Op::Spawn(Register::R0, 1, 17),
    |node| node.behaviours[7].ops[31] = Op::After(0),
    |node| wait_with(node, 31, Op::After(0)),
    |node| wait_with(node, 29, Op::After(0)),
    |node| wait_with(node, 30, Op::After(30)),
    |node| wait_with(node, 30, Op::After(33)),
    |node| wait_with(node, 31, Op::Jump(30)),
    |node| {
        wait(node);
        node.processes[15].place = 30;
    },
    |node| node.processes[15].links = 1 << 15,
    |node| node.processes[15].watches = 1 << 15,
    |node| node.processes[15].watchers = 1 << 15,
    |node| (node.processes[15].stage, node.processes[15].watchers) = (Stage::Closing, 1 << 15),
    |node| node.processes[15].place = 33,
    |node| node.processes[15].mail[15] = Message::note(17, Value::NORMAL),
    |node| node.processes[15].mail[15] = Message::down(17, Value::NORMAL),
    |node| node.processes[15].mail[15] = Message::down(1, Value::pid(17)),
    |node| node.flight[15].signals[14][3] = Signal::message(Value::pid(17)),
    |node| node.flight[15].signals[14][3] = Signal::down(Value::pid(17)),
    |node| node.flight[15].signals[15][3] = Signal::MONITOR,
    |node| node.flight[15].signals[15][3] = Signal::DEMONITOR,
    |node| node.flight[15].counts[14] = 5,
];

/// What leaves it sound.
const HARMLESS: [fn(&mut Node); 7] = [
    |node| node.flight[15].signals[15][3] = Signal::down(Value::NORMAL),
    |node| node.flight[15].signals[14][3] = Signal::MONITOR,
    |node| (node.processes[15].stage, node.processes[15].watches) = (Stage::Closing, 1 << 15),
    |node| (node.processes[15].stage, node.processes[15].watchers) = (Stage::Gone, 1 << 15),
    wait,
    |node| wait_with(node, 30, Op::After(28)),
    |node| wait_with(node, 30, Op::After(32)),
];

/// The tuned test of soundness sees a damage of each kind, and none in what a stage does not hold; the second interpreter has no such test.
fn damages() {
    let node = Loaded::new(&inputs::full()).reached();
    assert!(node.is_sound() && node.processes[15].stage == Stage::Live, "the node is sound");
    for (k, damage) in DAMAGES.iter().enumerate() {
        let mut damaged = node.clone();
        damage(&mut damaged);
        assert!(!damaged.is_sound(), "damage {k} is not seen");
        assert_eq!(damaged.play(&[Step::Run(1)]), (0, 31), "a damaged node is not played on");
    }
    for (k, change) in HARMLESS.iter().enumerate() {
        let mut changed = node.clone();
        change(&mut changed);
        assert!(changed.is_sound(), "change {k} is no damage");
    }
}
