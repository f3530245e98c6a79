//! The same work timed in several processes, each with an environment of another size: by that the stack lies elsewhere, and with it the time of
//! one and the same build moves. Of each call the shortest time counts.

use crate::work::{self, Time, Times};
use std::env;
use std::process::{Command, Stdio};

/// A variable of so many bytes is added to the environment of each process.
const PADS: [usize; 5] = [0, 848, 1696, 2544, 3392];

pub const COUNT: usize = PADS.len();

/// The child's part: a line for each piece of work.
pub fn child() {
    for (name, time) in work::times() {
        println!("{name}\t{}\t{}", time.proved, time.tuned.unwrap_or(0.0));
    }
}

fn timed(pad: usize) -> Times {
    let program = env::current_exe().expect("the program knows its own file");
    let output = Command::new(program)
        .arg("times")
        .env("BENCH_PAD", "x".repeat(pad))
        .stderr(Stdio::inherit())
        .output()
        .expect("a child starts");
    assert!(output.status.success(), "a process that times fails");
    let text = String::from_utf8(output.stdout).expect("lines of text");
    text.lines().map(entry).collect()
}

fn entry(line: &str) -> (String, Time) {
    let words: Vec<&str> = line.split('\t').collect();
    let number = |word: &str| word.parse::<f64>().expect("a number of nanoseconds");
    let tuned = Some(number(words[2])).filter(|tuned| *tuned > 0.0);
    (words[0].to_string(), Time { proved: number(words[1]), tuned })
}

/// The shortest times of all processes, and those of each.
pub fn times() -> (Times, Vec<Times>) {
    let each: Vec<Times> = PADS.iter().map(|pad| timed(*pad)).collect();
    let mut best = each[0].clone();
    for times in &each {
        for (name, time) in times {
            let shortest = best.get_mut(name).expect("the same work in each process");
            shortest.proved = shortest.proved.min(time.proved);
            shortest.tuned = shortest.tuned.zip(time.tuned).map(|(one, other)| one.min(other));
        }
    }
    (best, each)
}
