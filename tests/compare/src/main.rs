//! Compares the bytes of the proved library, plans written back among them, and of the built program, the first acceptable step and the numbers of
//! clauses consulted that the library tells, with those of the second interpreter: `compare PROGRAM SEED LIBRARY_CASES PROGRAM_CASES`. Prints what
//! the cases reached, and fails at the first difference or where something that documents 01 and 02 name was reached by no case.

mod consulting;
mod suggesting;
mod writing;

use consulting::Consulting;
use second::Coverage;
use std::fs::{self, File as Open};
use std::io::Write;
use std::path::{Path, PathBuf};
use std::process::{exit, Command, Output};
use std::thread;
use std::time::Duration;
use suggesting::Suggesting;
use writing::{comes_back, Writing};

fn library(plan: &[u8], steps: &[u8]) -> Vec<u8> {
    let mut out = vec![0xA5; open_controller::OUTPUT];
    let length = open_controller::simulate(plan, steps, &mut out).expect("the buffer holds every answer");
    if out[length..].iter().any(|byte| *byte != 0xA5) {
        println!("the bytes behind the answer changed");
        exit(1);
    }
    out.truncate(length);
    out
}

/// A buffer that is one byte too short is left as it was, and one of the exact length is enough.
fn check_room(plan: &[u8], steps: &[u8], expected: &[u8]) {
    let mut exact = vec![0xA5; expected.len()];
    assert_eq!(open_controller::simulate(plan, steps, &mut exact), Ok(expected.len()));
    assert_eq!(exact, expected);
    let mut short = vec![0xA5; expected.len() - 1];
    assert_eq!(open_controller::simulate(plan, steps, &mut short), Err(open_controller::Short));
    assert!(short.iter().all(|byte| *byte == 0xA5));
}

fn differ(what: &str, plan: &[u8], steps: &[u8], expected: &[u8], found: &[u8]) -> ! {
    println!("{what} differs from the second interpreter");
    for (name, bytes) in [("plan", plan), ("steps", steps), ("second interpreter", expected), (what, found)] {
        println!("---- {name}\n{}", String::from_utf8_lossy(bytes));
    }
    exit(1);
}

/// What a file of the program is: bytes, a pipe that gives its bytes in pieces, a folder, or not there.
enum File {
    Bytes(Vec<u8>),
    Pieces(Vec<u8>),
    Folder,
    Absent,
}

fn put(path: &Path, file: &File) {
    let _ = fs::remove_file(path);
    let _ = fs::remove_dir(path);
    match file {
        File::Bytes(bytes) => fs::write(path, bytes).unwrap(),
        File::Pieces(bytes) => write_in_pieces(path.to_path_buf(), bytes.clone()),
        File::Folder => fs::create_dir(path).unwrap(),
        File::Absent => {}
    }
}

/// A pipe by name whose bytes come in pieces, with pauses, while the program reads.
fn write_in_pieces(path: PathBuf, bytes: Vec<u8>) {
    assert!(Command::new("mkfifo").arg(&path).status().expect("mkfifo starts").success());
    thread::spawn(move || {
        let mut pipe = Open::options().write(true).open(path).unwrap();
        for piece in bytes.chunks(bytes.len() / 5 + 1) {
            // A program that stops reading early closes the pipe; what it prints then tells.
            if pipe.write_all(piece).is_err() {
                return;
            }
            thread::sleep(Duration::from_millis(20));
        }
    });
}

/// What the file counts as; the program reads at most one byte past the limit.
fn text(file: &File, limit: usize) -> &[u8] {
    match file {
        File::Bytes(bytes) | File::Pieces(bytes) => &bytes[..bytes.len().min(limit + 1)],
        File::Folder | File::Absent => b"",
    }
}

/// Starts the program with these files and answers what it prints, which is what the second interpreter says.
fn run_program(command: &mut Command, folder: &Path, plan: &File, steps: &File) -> Vec<u8> {
    put(&folder.join("plan.txt"), plan);
    put(&folder.join("steps.txt"), steps);
    let answer = command.current_dir(folder).output().expect("the program starts");
    let (plan, steps) = (text(plan, 16_384), text(steps, 61_440));
    let expected = second::simulate(plan, steps);
    if answer.stdout != expected || !answer.status.success() || !answer.stderr.is_empty() {
        differ("the program", plan, steps, &expected, &answer.stdout);
    }
    answer.stdout
}

/// The program with its standard input closed, so that the first file that it opens has number 0.
fn with_closed_input(program: &Path) -> Command {
    let mut command = Command::new("sh");
    command.args(["-c", "exec \"$0\" <&-"]).arg(program);
    command
}

/// An answer that cannot be written is told on standard error.
fn check_full_output(program: &Path, folder: &Path) {
    put(&folder.join("plan.txt"), &File::Bytes(ENDLESS.to_vec()));
    put(&folder.join("steps.txt"), &File::Absent);
    let full = Open::options().write(true).open("/dev/full").expect("/dev/full is there");
    let answer: Output = Command::new(program).current_dir(folder).stdout(full).output().expect("the program starts");
    assert!(!answer.stderr.is_empty(), "an answer that could not be written was dropped in silence");
}

/// A plan that accepts any number of runs of process 1.
const ENDLESS: &[u8] = b"plan=1\nbehaviours=1\ncode=1\nop=jump,0\nstarts=1\nstart=1,1\n";

/// A plan text of 16,384 bytes and `more`, by a number with many digits: 12, and 10 above the limit.
fn long_plan(more: usize) -> Vec<u8> {
    let mut plan = b"plan=1\nbehaviours=1\ncode=1\nop=set,0,i".to_vec();
    let tail = b"\nstarts=1\nstart=1,1\n";
    plan.resize(16_384 + more - tail.len(), b'9');
    plan.extend_from_slice(tail);
    plan
}

/// Steps text of a length: whole lines of one step, and empty lines where no other fits.
fn long_steps(length: usize) -> Vec<u8> {
    let mut steps = b"arrive=255,255\n".repeat(length / 15);
    steps.resize(length, b'\n');
    steps
}

/// Each kind of plan file with each kind of steps file.
fn special_files(program: &Path, folder: &Path) -> usize {
    let runs = b"run=1\n".repeat(4096);
    let plans = [
        File::Bytes(ENDLESS.to_vec()),
        File::Pieces(ENDLESS.to_vec()),
        File::Bytes(Vec::new()),
        File::Absent,
        File::Folder,
        File::Bytes(long_plan(0)),
        File::Bytes(long_plan(1)),
        File::Bytes(long_plan(5000)),
    ];
    // With a plan that is accepted the first seven of these are played.
    let schedules = [
        File::Bytes(runs.clone()),
        File::Pieces(runs),
        File::Bytes(b"run=1\n".to_vec()),
        File::Bytes(Vec::new()),
        File::Absent,
        File::Folder,
        File::Bytes(long_steps(61_440)),
        File::Bytes(long_steps(61_441)),
        File::Bytes(b"run=1\n".repeat(4097)),
        File::Bytes(b"\n".repeat(61_440)),
    ];
    for (p, plan) in plans.iter().enumerate() {
        for (s, steps) in schedules.iter().enumerate() {
            for mut command in [Command::new(program), with_closed_input(program)] {
                let answer = run_program(&mut command, folder, plan, steps);
                assert_eq!(answer.starts_with(b"accepted="), p < 2 && s < 7, "files {p} and {s}");
            }
        }
    }
    plans.len() * schedules.len()
}

/// How many nearly full nodes are listed.
const FULL_CASES: u64 = 20;

/// What is counted of the cases that the library is given.
struct Counts {
    coverage: Coverage,
    writing: Writing,
    suggesting: Suggesting,
    consulting: Consulting,
}

/// The cases of the generator, played, written back and asked for their first acceptable step and for the clauses that searches consult by the
/// library.
fn compare_library(seed: u64, cases: u64, counts: &mut Counts) {
    for k in 0..cases {
        let (plan, steps) = second::case(seed, k);
        let expected = second::simulate_counted(&plan, &steps, &mut counts.coverage);
        let found = library(&plan, &steps);
        if found != expected {
            differ("the library", &plan, &steps, &expected, &found);
        }
        if k % 64 == 0 {
            check_room(&plan, &steps, &expected);
        }
        counts.writing.compare(k, &plan, !expected.starts_with(b"load="));
        counts.suggesting.compare(k, &plan, &steps);
        counts.consulting.compare(k, &plan, &steps);
    }
    comes_back(&second::longest(), true);
}

/// Nearly full nodes, listed by the library and the program, their plans written back, their first acceptable steps and the clauses that their
/// searches consult asked for; answers the length of the longest answer.
fn compare_full(seed: u64, program: &Path, folder: &Path) -> usize {
    let mut longest = 0;
    for k in 0..FULL_CASES {
        let (plan, steps) = second::full(seed, k);
        let expected = second::simulate(&plan, &steps);
        let found = library(&plan, &steps);
        if found != expected {
            differ("the library", &plan, &steps, &expected, &found);
        }
        check_room(&plan, &steps, &expected);
        comes_back(&plan, true);
        suggesting::check(&plan, &steps, Ok(second::suggest(&plan, &steps).expect("two accepted texts")));
        consulting::check_all(&plan, &steps);
        longest = longest.max(run_program(&mut Command::new(program), folder, &File::Bytes(plan), &File::Bytes(steps)).len());
    }
    assert!(longest >= 30_000, "the longest answer of the program has {longest} bytes");
    longest
}

fn main() {
    let words: Vec<String> = std::env::args().skip(1).collect();
    let [program, seed, library_cases, program_cases] = &words[..] else {
        eprintln!("usage: compare PROGRAM SEED LIBRARY_CASES PROGRAM_CASES");
        exit(2);
    };
    let program = PathBuf::from(program).canonicalize().expect("the program is there");
    let seed: u64 = seed.parse().expect("a number");
    let library_cases: u64 = library_cases.parse().expect("a number");
    let program_cases: u64 = program_cases.parse().expect("a number");

    let mut counts = Counts { coverage: Coverage::new(), writing: Writing::default(), suggesting: Suggesting::new(), consulting: Consulting::new() };
    compare_library(seed, library_cases, &mut counts);
    let folder = std::env::temp_dir().join(format!("open_controller-{}", std::process::id()));
    fs::create_dir_all(&folder).unwrap();
    for k in 0..program_cases {
        let (plan, steps) = second::case(seed + 1, k);
        run_program(&mut Command::new(&program), &folder, &File::Bytes(plan), &File::Bytes(steps));
    }
    let longest = compare_full(seed, &program, &folder);
    check_full_output(&program, &folder);
    let files = special_files(&program, &folder);
    fs::remove_dir_all(&folder).unwrap();
    let Counts { coverage, writing, suggesting, consulting } = counts;
    print!("{coverage}{writing}{suggesting}{consulting}");
    println!(
        "seed {seed}: the library agrees on {library_cases} cases, the program on {program_cases} cases and {files} pairs of files, \
         both on {FULL_CASES} nearly full nodes (at most {longest} bytes)"
    );
    let missing = [coverage.rarer_than(1), writing.missing(), suggesting.missing(), consulting.missing()].concat();
    if !missing.is_empty() {
        println!("reached by no case: {}", missing.join("; "));
        exit(1);
    }
}
