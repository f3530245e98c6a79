//! Measures the proved library beside plain Rust that is written for speed (`tuned`).
//!   bench                             prints tables as Markdown
//!   bench times                       the times of all work in this process; see processes.rs
//!   bench one WHAT MIX STEPS ROUNDS   one call of a play, `proved` or `tuned`, for a tool that counts instructions
//!   bench stack CALL KILOBYTES        a trial of limits.rs
//!   bench memory CALL                 a trial of limits.rs

mod bars;
mod check;
mod inputs;
mod limits;
mod measure;
mod mixes;
mod processes;
mod proved;
mod tables;
mod tuned;
mod work;
mod yardstick;

use bars::Bars;
use mixes::MIXES;
use std::env;
use std::process::exit;

fn report() {
    check::random();
    let (times, each) = processes::times();
    let mut bars = Bars::default();
    tables::method();
    tables::bars(&times);
    tables::plays(&times, &each, &mut bars);
    tables::steps(&times, &mut bars);
    tables::texts(&times, &mut bars);
    tables::reached(&times);
    tables::simulated(&times, &mut bars);
    limits::tables(&mut bars);
    bars.print();
}

/// One call of a play; tells whether the words name one, and all steps are accepted.
fn one(what: &str, mix: &str, count: usize, rounds: usize) -> bool {
    let Some(mix) = MIXES.iter().find(|known| known.name == mix) else {
        return false;
    };
    let case = (mix.case)(count);
    match what {
        "proved" => proved::play(&case, rounds) == count,
        "tuned" => yardstick::Loaded::new(&case).play(rounds) == count,
        _ => false,
    }
}

fn number(word: &str) -> usize {
    word.parse().unwrap_or_else(|_| {
        eprintln!("bench: {word} is no number");
        exit(2)
    })
}

fn main() {
    let words: Vec<String> = env::args().skip(1).collect();
    let words: Vec<&str> = words.iter().map(String::as_str).collect();
    let good = match words[..] {
        [] => {
            report();
            true
        }
        ["times"] => {
            processes::child();
            true
        }
        ["one", what, mix, count, rounds] => one(what, mix, number(count), number(rounds)),
        ["stack", call, kilobytes] => limits::stack_child(call.to_string(), number(kilobytes)),
        ["memory", call] => limits::memory_child(call),
        _ => false,
    };
    if !good {
        eprintln!("bench: no such call, or a wrong answer: {}", words.join(" "));
        exit(1);
    }
}
