//! Memory and stack, each measured in a process of its own: `bench memory CALL` and `bench stack CALL KILOBYTES`.

use crate::bars::Bars;
use crate::inputs;
use crate::proved;
use open_controller::Step;
use std::env;
use std::fs;
use std::process::{Command, Output};
use std::thread;

/// Stack sizes are told to this many kilobytes.
const GRAIN: usize = 16;

/// The thread of a trial has at most so many kilobytes of stack.
const MOST: usize = 4096;

const CALLS: [&str; 6] = ["simulate", "suggest", "consulted", "play", "play_steps", "step"];

/// One call on the longest plan and 4,096 steps, or on processes that wait; tells whether its answer is right.
fn call(name: &str) -> bool {
    let case = inputs::longest(4096);
    let mut out = vec![0; open_controller::OUTPUT];
    match name {
        "simulate" => {
            let length = proved::simulate(&case, &mut out, 1);
            out[..length].starts_with(b"accepted=4096\nrefused=0\n")
        }
        // Process 1 circles in three ops, each of which is always accepted.
        "suggest" => open_controller::suggest(&case.plan, &case.steps) == Ok(Some(Step::Run { owner: 1 })),
        "consulted" => open_controller::consulted(&inputs::stuck().plan, &case.steps, 1) == Some(0),
        "play" => proved::play(&case, 1) == 4096,
        "play_steps" => proved::play_steps(&case, 1) == 4096,
        "step" => proved::step(&case, 1) == 4096,
        "none" => true,
        _ => false,
    }
}

/// The child's part: the call in a thread with so little stack.
pub fn stack_child(name: String, kilobytes: usize) -> bool {
    let thread = thread::Builder::new().stack_size(kilobytes * 1024).spawn(move || call(&name));
    thread.expect("a thread starts").join().expect("the thread ends")
}

/// The child's part: the call, then the most memory that the process had, in kilobytes.
pub fn memory_child(name: &str) -> bool {
    let right = call(name);
    let status = fs::read_to_string("/proc/self/status").expect("Linux tells a process's status");
    let line = status.lines().find(|line| line.starts_with("VmHWM:")).expect("the most memory is told");
    println!("{}", line.split_whitespace().nth(1).expect("a number"));
    right
}

fn child(words: &[&str]) -> Output {
    let program = env::current_exe().expect("the program knows its own file");
    Command::new(program).args(words).output().expect("a child starts")
}

fn survives(name: &str, kilobytes: usize) -> bool {
    child(&["stack", name, &kilobytes.to_string()]).status.success()
}

/// The least stack in which the call gives its answer, in kilobytes.
fn least_stack(name: &str) -> usize {
    assert!(survives(name, MOST), "{name} fails with {MOST} KB of stack");
    let (mut fails, mut works) = (0, MOST / GRAIN);
    while works - fails > 1 {
        let middle = (fails + works) / 2;
        if survives(name, middle * GRAIN) {
            works = middle;
        } else {
            fails = middle;
        }
    }
    works * GRAIN
}

fn most_memory(name: &str) -> usize {
    let answer = child(&["memory", name]);
    assert!(answer.status.success(), "{name} fails");
    String::from_utf8_lossy(&answer.stdout).trim().parse().expect("a number of kilobytes")
}

pub fn tables(bars: &mut Bars) {
    println!("## Memory and stack\n");
    println!("On the longest plan and 4,096 steps; `consulted` on processes that wait, since those of the longest plan do not. The memory is the most");
    println!("that a process had (VmHWM) that makes one call; `none` makes no call. The stack is the least of a thread, to {GRAIN} KB, in which the call");
    println!("gives its answer, with what the thread itself needs.\n");
    println!("| call | most memory, KB | least stack, KB |");
    println!("|---|---|---|");
    for name in ["none"].into_iter().chain(CALLS) {
        let stack = least_stack(name);
        println!("| {name} | {} | {stack} |", most_memory(name));
        if name != "none" {
            bars.add(format!("stack of {name}"), stack as f64, 512.0, " KB");
        }
    }
    println!();
}
