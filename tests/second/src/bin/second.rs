//! The program of document 01: reads plan.txt and steps.txt in the current folder and prints what
//! the second interpreter says. `second suggest` prints the number of the first acceptable step,
//! `second consulted PROCESS...` for each process a line with the number of clauses consulted.

use second::{consult, offer};
use std::fs::File;
use std::io::{Read, Write};

fn main() {
    let words: Vec<String> = std::env::args().skip(1).collect();
    let words: Vec<&str> = words.iter().map(String::as_str).collect();
    let plan = read_up_to("plan.txt", second::plan::BYTE_LIMIT);
    let steps = read_up_to("steps.txt", second::steps::BYTE_LIMIT);
    let Some(answer) = answer(&words, &plan, &steps) else {
        eprintln!("usage: second [suggest | consulted PROCESS...]");
        std::process::exit(2);
    };
    if let Err(error) = std::io::stdout().write_all(&answer) {
        eprintln!("second: cannot write: {error}");
        std::process::exit(1);
    }
}

/// What is printed for these words and texts; None where the words are no command.
fn answer(words: &[&str], plan: &[u8], steps: &[u8]) -> Option<Vec<u8>> {
    match words {
        [] => Some(second::simulate(plan, steps)),
        ["suggest"] => Some(line(offer::number(second::suggest(plan, steps)))),
        ["consulted", processes @ ..] if !processes.is_empty() => {
            let mut lines = Vec::new();
            for process in processes {
                let consulted = second::consulted(plan, steps, process.parse().ok()?);
                lines.extend(line(consult::number(consulted)));
            }
            Some(lines)
        }
        _ => None,
    }
}

/// A line with a number that the library answers a C caller.
fn line(number: usize) -> Vec<u8> {
    format!("{number}\n").into_bytes()
}

/// "each up to one byte past its limit; a file that can't be opened counts as empty"; so does one
/// that cannot be read.
fn read_up_to(path: &str, limit: usize) -> Vec<u8> {
    let mut bytes = Vec::new();
    let Ok(file) = File::open(path) else {
        return bytes;
    };
    let most = limit as u64 + 1;
    if file.take(most).read_to_end(&mut bytes).is_err() {
        bytes.clear();
    }
    bytes
}
