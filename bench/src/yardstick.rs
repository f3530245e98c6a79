//! The tuned Rust's calls, a number of times each, as the calls of `proved` do theirs.

use crate::mixes::Case;
use crate::tuned::listing::{self, LONGEST};
use crate::tuned::program;
use crate::tuned::step::Step;
use crate::tuned::steps::MOST_STEPS;
use crate::tuned::{plan, steps, Node};
use std::hint::black_box;

pub fn load(text: &[u8], rounds: usize) {
    let mut node = Node::EMPTY;
    for _ in 0..rounds {
        let _ = black_box(plan::load(black_box(text), &mut node));
        black_box(&node);
    }
}

pub fn read(text: &[u8], rounds: usize) {
    let mut row = [Step::Run(0); MOST_STEPS];
    for _ in 0..rounds {
        let _ = black_box(steps::read(black_box(text), &mut row));
        black_box(&row);
    }
}

pub fn simulate(case: &Case, rounds: usize) {
    let mut out = [0; LONGEST];
    for _ in 0..rounds {
        black_box(program::simulate(black_box(&case.plan), &case.steps, &mut out));
        black_box(&out);
    }
}

/// A loaded node and the steps that were read.
pub struct Loaded {
    node: Node,
    steps: Vec<Step>,
}

impl Loaded {
    /// The texts are accepted ones.
    pub fn new(case: &Case) -> Loaded {
        let mut node = Node::EMPTY;
        plan::load(&case.plan, &mut node).expect("an accepted plan");
        let mut row = [Step::Run(0); MOST_STEPS];
        let count = steps::read(&case.steps, &mut row).expect("accepted steps");
        Loaded { node, steps: row[..count].to_vec() }
    }

    /// The node behind the steps.
    pub fn reached(&self) -> Node {
        let mut node = self.node.clone();
        node.play(&self.steps);
        node
    }

    /// Each round plays on a copy of the node, since the proved call takes its node by value; answers how many steps were accepted.
    pub fn play(&self, rounds: usize) -> usize {
        let mut last = 0;
        for _ in 0..rounds {
            let mut node = black_box(&self.node).clone();
            last = node.play(&self.steps).0;
            black_box(&node);
        }
        last
    }

    /// Each round takes the steps one by one, on a copy of the node; answers how many were accepted.
    pub fn step(&self, rounds: usize) -> usize {
        let mut last = 0;
        for _ in 0..rounds {
            let mut node = black_box(&self.node).clone();
            last = self.steps.iter().filter(|step| node.step(**step) == 0).count();
            black_box(&node);
        }
        last
    }
}

pub fn sound(node: &Node, rounds: usize) {
    for _ in 0..rounds {
        black_box(black_box(node).is_sound());
    }
}

pub fn list(node: &Node, out: &mut [u8], rounds: usize) {
    for _ in 0..rounds {
        let _ = black_box(listing::list(black_box(node), out));
        black_box(&out);
    }
}
