//! All that is timed, each piece of work by its name: the proved call and the tuned Rust's, on the same bytes.

use crate::check;
use crate::inputs;
use crate::measure::{rounds, Call};
use crate::mixes::{links, ring, watch, Case, MIXES};
use crate::proved;
use crate::yardstick::{self, Loaded};
use std::collections::BTreeMap;
use std::hint::black_box;
use std::rc::Rc;

pub const SIZES: [usize; 3] = [64, 512, 4096];

/// The nanoseconds of a round; some work has no counterpart in the tuned Rust.
#[derive(Clone, Copy)]
pub struct Time {
    pub proved: f64,
    pub tuned: Option<f64>,
}

pub type Times = BTreeMap<String, Time>;

struct Work {
    name: String,
    proved: Call<'static>,
    tuned: Option<Call<'static>>,
}

/// The inputs of `load`, by what the tables call them.
pub fn plans() -> Vec<(&'static str, Vec<u8>)> {
    vec![
        ("one op", inputs::small().plan),
        ("4 behaviours of 16 ops", inputs::middle_plan(4, 16)),
        ("8 behaviours of 32 ops, short operands", inputs::middle_plan(8, 32)),
        ("longest plan", inputs::longest(0).plan),
        ("the same up to 16,384 bytes by its last number, refused", inputs::refused_plan()),
    ]
}

/// The nodes that `sound` and `list` look at, by the texts that lead to them.
pub fn nodes() -> Vec<(&'static str, Case)> {
    vec![
        ("small", inputs::small()),
        ("ring", ring(512)),
        ("links", links(512)),
        ("watch", watch(512)),
        ("longest plan", inputs::longest(512)),
        ("nearly full", inputs::full()),
    ]
}

/// What single steps are taken of, with the count of steps.
pub fn rows() -> Vec<(&'static str, usize, Case)> {
    let mut rows: Vec<_> = MIXES.iter().map(|mix| (mix.name, 4096, (mix.case)(4096))).collect();
    rows.push(("longest plan", 4096, inputs::longest(4096)));
    rows.push(("filling", inputs::FILLING, inputs::full()));
    rows
}

/// The inputs of `simulate`.
pub fn simulations() -> Vec<(String, Case)> {
    let mut cases = vec![("one process, no steps".to_string(), inputs::small())];
    for mix in MIXES {
        cases.push((format!("{}, 4,096 steps", mix.name), (mix.case)(4096)));
    }
    cases.push(("longest plan, 512 steps".to_string(), inputs::longest(512)));
    cases.push(("longest plan, 4,096 steps".to_string(), inputs::longest(4096)));
    cases.push((format!("nearly full node, {} steps", inputs::FILLING), inputs::full()));
    cases
}

/// A call of the proved library on two texts.
fn proved_call(call: fn(&Case, usize) -> usize, case: &Rc<Case>) -> Call<'static> {
    let case = case.clone();
    Box::new(move |rounds| {
        black_box(call(&case, rounds));
    })
}

fn play_work(work: &mut Vec<Work>) {
    for mix in MIXES {
        for count in SIZES {
            let case = Rc::new((mix.case)(count));
            check::accepted(&case);
            let loaded = Loaded::new(&case);
            work.push(Work {
                name: format!("play {} {count}", mix.name),
                proved: proved_call(proved::play, &case),
                tuned: Some(Box::new(move |rounds| {
                    black_box(loaded.play(rounds));
                })),
            });
        }
    }
}

fn step_work(work: &mut Vec<Work>) {
    for (name, _, case) in rows() {
        check::accepted(&case);
        let case = Rc::new(case);
        let loaded = Loaded::new(&case);
        work.push(Work { name: format!("play_steps {name}"), proved: proved_call(proved::play_steps, &case), tuned: None });
        work.push(Work {
            name: format!("step {name}"),
            proved: proved_call(proved::step, &case),
            tuned: Some(Box::new(move |rounds| {
                black_box(loaded.step(rounds));
            })),
        });
    }
    let case = Rc::new(inputs::stuck());
    check::stuck(&case);
    work.push(Work { name: "suggest".to_string(), proved: proved_call(proved::suggest, &case), tuned: None });
}

/// A call on one text and its counterpart.
fn text_work(name: String, text: Vec<u8>, proved: fn(&[u8], usize) -> usize, tuned: fn(&[u8], usize)) -> Work {
    let text = Rc::new(text);
    let same = text.clone();
    Work {
        name,
        proved: Box::new(move |rounds| {
            black_box(proved(&text, rounds));
        }),
        tuned: Some(Box::new(move |rounds| tuned(&same, rounds))),
    }
}

fn texts_work(work: &mut Vec<Work>) {
    for (name, plan) in plans() {
        check::loaded(&plan);
        work.push(text_work(format!("load {name}"), plan, proved::load, yardstick::load));
    }
    for count in SIZES {
        let steps = inputs::lines(count);
        check::read(&steps);
        work.push(text_work(format!("read {count}"), steps, proved::read, yardstick::read));
    }
}

fn node_work(work: &mut Vec<Work>) {
    for (name, case) in nodes() {
        check::accepted(&case);
        let case = Rc::new(case);
        let node = Loaded::new(&case).reached();
        let same = node.clone();
        work.push(Work {
            name: format!("sound {name}"),
            proved: proved_call(proved::sound, &case),
            tuned: Some(Box::new(move |rounds| yardstick::sound(&node, rounds))),
        });
        let mut out = vec![0; open_controller::OUTPUT];
        let mut other = out.clone();
        work.push(Work {
            name: format!("list {name}"),
            proved: Box::new(move |rounds| {
                black_box(proved::list(&case, &mut out, rounds));
            }),
            tuned: Some(Box::new(move |rounds| yardstick::list(&same, &mut other, rounds))),
        });
    }
}

fn simulate_work(work: &mut Vec<Work>) {
    for (name, case) in simulations() {
        check::printed(&case);
        let case = Rc::new(case);
        let same = case.clone();
        let mut out = vec![0; open_controller::OUTPUT];
        work.push(Work {
            name: format!("simulate {name}"),
            proved: Box::new(move |rounds| {
                black_box(proved::simulate(&case, &mut out, rounds));
            }),
            tuned: Some(Box::new(move |rounds| yardstick::simulate(&same, rounds))),
        });
    }
}

/// Checks all inputs, then times all work, the proved calls and the tuned ones in turn.
pub fn times() -> Times {
    let mut work = Vec::new();
    play_work(&mut work);
    step_work(&mut work);
    texts_work(&mut work);
    node_work(&mut work);
    simulate_work(&mut work);
    let mut heads = Vec::new();
    let mut calls = Vec::new();
    for Work { name, proved, tuned } in work {
        heads.push((name, tuned.is_some()));
        calls.push(proved);
        calls.extend(tuned);
    }
    let mut timed = rounds(calls).into_iter();
    let mut next = || timed.next().expect("a time of each call");
    heads.into_iter().map(|(name, tuned)| (name, Time { proved: next(), tuned: tuned.then(&mut next) })).collect()
}
