//! The tables of times.

use crate::bars::{self, ratio, ratio_row, time_row, Bars, MICROSECONDS, NANOSECONDS};
use crate::check;
use crate::mixes::MIXES;
use crate::processes;
use crate::work::{nodes, plans, rows, simulations, Time, Times, SIZES};

/// How the figures were made.
pub fn method() {
    println!("The proved library beside plain Rust that is written for speed (`bench/src/tuned`), in one run and on the same bytes. Before anything is");
    println!("timed, both print what the second interpreter (`tests/second`) prints, on every input and on {} random ones; a difference", check::RANDOM);
    println!("ends the run. The tuned Rust searches a mailbox as document 01 says, messages in order and, for each, clauses in order; M-106's search is");
    println!("not in it.\n");
    println!("The calls are timed in turn, proved, tuned, proved and so on, again and again, in {} processes with environments of different", processes::COUNT);
    println!("sizes, since the time of one build moves with where the stack lies. Of each call the shortest time of all processes counts. Each function");
    println!("of both starts a cache line of 64 bytes, since the time moves with where the linker puts it, too.\n");
}

fn time(times: &Times, name: &str) -> Time {
    *times.get(name).unwrap_or_else(|| panic!("{name} was not timed"))
}

/// The time of one more step of a mix, from one count of steps to another.
fn further_between(times: &Times, mix: &str, few: usize, many: usize) -> Time {
    let (few_time, many_time) = (time(times, &format!("play {mix} {few}")), time(times, &format!("play {mix} {many}")));
    let share = |few_time, many_time| (many_time - few_time) / (many - few) as f64;
    Time {
        proved: share(few_time.proved, many_time.proved),
        tuned: few_time.tuned.zip(many_time.tuned).map(|(few_time, many_time)| share(few_time, many_time)),
    }
}

/// A further step: the difference between the two longest plays.
fn further(times: &Times, mix: &str) -> Time {
    further_between(times, mix, SIZES[1], SIZES[2])
}

/// A time times a number.
fn scaled(time: Time, by: f64) -> Time {
    Time { proved: time.proved * by, tuned: time.tuned.map(|tuned| tuned * by) }
}

/// The steps of one message in the ring: it is sent, arrives and is received.
const MESSAGE: f64 = 3.0;

pub fn bars(times: &Times) {
    println!("## Bars\n");
    println!("Ratios are to the tuned Rust in one run; a bar with a unit is held against the proved time. A further step of `play` is the difference");
    println!("between plays of 4,096 and 512 steps, by the number of steps between. A message is sent, arrives and is received: three further steps of");
    println!("the ring. Erlang's own machine was measured at 371 ns and more for one.\n");
    bars::heads();
    for mix in ["ring", "links", "watch", "mail-first", "local"] {
        ratio_row(&format!("`play`, {mix}, a further step"), &NANOSECONDS, further(times, mix), 1.6, "1.25");
    }
    ratio_row("`play`, mail-last, a further step", &NANOSECONDS, further(times, "mail-last"), 0.5, "0.35");
    for node in ["small", "ring", "longest plan", "nearly full"] {
        ratio_row(&format!("`sound`, {node}"), &MICROSECONDS, time(times, &format!("sound {node}")), 2.5, "1.5");
    }
    ratio_row("`list`, ring", &MICROSECONDS, time(times, "list ring"), 4.0, "2");
    ratio_row("`list`, nearly full", &MICROSECONDS, time(times, "list nearly full"), 2.5, "2");
    ratio_row("`load`, longest plan", &MICROSECONDS, time(times, "load longest plan"), 2.5, "2");
    time_row("`suggest`, nothing acceptable", &MICROSECONDS, time(times, "suggest"), 20.0, "5 µs");
    let step = scaled(time(times, "step longest plan"), 1.0 / 4096.0);
    time_row("`step`, longest plan", &MICROSECONDS, step, 3.0, "what the copies cost");
    time_row("a message (Erlang's own machine: 371 ns and more)", &NANOSECONDS, scaled(further(times, "ring"), MESSAGE), 50.0, "");
    println!();
}

pub fn plays(times: &Times, each: &[Times], bars: &mut Bars) {
    println!("## play: time a step\n");
    println!("`engine::play` on a loaded node, by the mix and the count of steps, all of which are accepted. A play looks at the soundness");
    println!("of its node once and copies it; the tuned Rust does so too.\n");
    println!("| mix | steps | proved, ns a step | tuned Rust, ns a step | ratio |");
    println!("|---|---|---|---|---|");
    for mix in MIXES {
        for count in SIZES {
            let time = time(times, &format!("play {} {count}", mix.name));
            let share = |time: f64| time / count as f64;
            println!("| {} | {count} | {} |", mix.name, three(time, share, 1));
        }
    }
    println!("\nA further step, its ratio in each of the {} processes, and what a play of 64 steps takes beyond 64 further steps.\n", processes::COUNT);
    println!("| mix | proved, ns | tuned Rust, ns | ratio | least ratio | largest ratio | fixed cost, proved, µs | tuned Rust, µs |");
    println!("|---|---|---|---|---|---|---|---|");
    for mix in MIXES {
        let late = further(times, mix.name);
        let short = time(times, &format!("play {} {}", mix.name, SIZES[0]));
        let fixed = |short: f64, late: f64| (short - late * SIZES[0] as f64) / 1e3;
        let tuned = short.tuned.zip(late.tuned).map_or(0.0, |(short, late)| fixed(short, late));
        let (least, largest) = span(each.iter().filter_map(|times| ratio(further(times, mix.name))));
        let costs = format!("{:.2} | {tuned:.2}", fixed(short.proved, late.proved));
        println!("| {} | {} | {least:.2} | {largest:.2} | {costs} |", mix.name, three(late, |time| time, 1));
        let early = further_between(times, mix.name, SIZES[0], SIZES[1]).proved;
        bars.add(format!("play, {}: a step of 512 to 4,096, by one of 64 to 512", mix.name), late.proved / early, 1.25, "");
    }
    println!();
}

/// The least and the largest of some figures.
fn span(figures: impl Iterator<Item = f64>) -> (f64, f64) {
    figures.fold((f64::MAX, 0.0), |(least, largest), figure| (least.min(figure), largest.max(figure)))
}

/// The cells of proved, tuned and ratio, each time shared out.
fn three(time: Time, share: impl Fn(f64) -> f64, digits: usize) -> String {
    let tuned = time.tuned.map_or(String::new(), |tuned| format!("{:.digits$}", share(tuned)));
    let ratio = ratio(time).map_or(String::new(), |ratio| format!("{ratio:.2}"));
    format!("{:.digits$} | {tuned} | {ratio}", share(time.proved))
}

pub fn steps(times: &Times, bars: &mut Bars) {
    println!("## play_steps and single steps: time a step\n");
    println!("`steps::play_lent` makes step records of the numbers and lends them to `play_steps`, which hands each to `engine::step`; it has no");
    println!("bar. A single step is `engine::step`, which looks at soundness and copies the node each time; the tuned Rust looks at soundness");
    println!("and takes the step in place. Behind the mixes stand the longest plan, and steps that fill mailboxes and pairs, up to a nearly full");
    println!("node.\n");
    println!("| call | mix | steps | proved, ns a step | tuned Rust, ns a step | ratio |");
    println!("|---|---|---|---|---|---|");
    for call in ["play_steps", "step"] {
        for (name, count, _) in rows() {
            let share = |time: f64| time / count as f64;
            println!("| {call} | {name} | {count} | {} |", three(time(times, &format!("{call} {name}")), share, 1));
        }
    }
    for (name, count, _) in rows() {
        let step = time(times, &format!("step {name}")).proved / count as f64;
        bars.add(format!("step, {name}: time a step"), step / 1e3, 4.0, " µs");
    }
    println!();
}

fn heads() {
    println!("| call | input | bytes | proved, µs | tuned Rust, µs | ratio |");
    println!("|---|---|---|---|---|---|");
}

fn row(times: &Times, call: &str, input: &str, bytes: usize) -> f64 {
    let time = time(times, &format!("{call} {input}"));
    println!("| {call} | {input} | {bytes} | {} |", three(time, |time| time / 1e3, 2));
    time.proved
}

pub fn texts(times: &Times, bars: &mut Bars) {
    println!("## load and read: time a text\n");
    println!("The longest plan has 8 behaviours of 32 ops with the longest operands and 16 starts; the lines of steps are the longest.\n");
    heads();
    let slowest = plans().iter().map(|(name, plan)| row(times, "load", name, plan.len())).fold(0.0, f64::max);
    bars.add("load, the slowest of the table".to_string(), slowest / 1e6, 1.0, " ms");
    for count in SIZES {
        row(times, "read", &count.to_string(), crate::inputs::lines(count).len());
    }
    println!();
}

pub fn reached(times: &Times) {
    println!("## sound and list: time a node\n");
    println!("The bytes are those of the node's listing. Small is one process; ring, links, watch and the longest plan are behind 512 steps; nearly");
    println!("full are 15 mailboxes of 16 messages and 240 pairs of 4 signals. A listing looks at soundness first, the tuned Rust's too.\n");
    heads();
    for (name, case) in nodes() {
        let mut out = vec![0; open_controller::OUTPUT];
        let length = crate::proved::list(&case, &mut out, 1);
        row(times, "sound", name, length);
        row(times, "list", name, length);
    }
    println!();
}

pub fn simulated(times: &Times, bars: &mut Bars) {
    println!("## simulate: time a call\n");
    println!("The bytes are those of both texts.\n");
    heads();
    let mut slowest: f64 = 0.0;
    for (name, case) in simulations() {
        slowest = slowest.max(row(times, "simulate", &name, case.plan.len() + case.steps.len()));
    }
    bars.add("simulate, the slowest of the table".to_string(), slowest / 1e6, 10.0, " ms");
    println!();
}
