//! The bars, each with what was measured: ratios to the tuned Rust, and figures of their own.

use crate::work::Time;

/// A unit, how many nanoseconds it is, and the digits behind the point.
pub struct Unit(pub &'static str, pub f64, pub usize);

pub const NANOSECONDS: Unit = Unit("ns", 1.0, 1);
pub const MICROSECONDS: Unit = Unit("µs", 1e3, 2);

impl Unit {
    pub fn show(&self, nanoseconds: f64) -> String {
        format!("{:.*} {}", self.2, nanoseconds / self.1, self.0)
    }
}

/// The ratio of a time to that of the tuned Rust.
pub fn ratio(time: Time) -> Option<f64> {
    time.tuned.map(|tuned| time.proved / tuned)
}

pub fn heads() {
    println!("| what | proved | tuned Rust | ratio | bar | aim | met |");
    println!("|---|---|---|---|---|---|---|");
}

/// A row whose ratio is to be at most so much.
pub fn ratio_row(what: &str, unit: &Unit, time: Time, most: f64, aim: &str) {
    let (Some(tuned), Some(ratio)) = (time.tuned, ratio(time)) else {
        panic!("{what} has no counterpart");
    };
    let (proved, tuned) = (unit.show(time.proved), unit.show(tuned));
    println!("| {what} | {proved} | {tuned} | {ratio:.2} | {most} | {aim} | {} |", met(ratio, most));
}

/// A row whose own time is to be at most so much.
pub fn time_row(what: &str, unit: &Unit, time: Time, most: f64, aim: &str) {
    let name = unit.0;
    let tuned = time.tuned.map_or(String::new(), |tuned| unit.show(tuned));
    let ratio = ratio(time).map_or(String::new(), |ratio| format!("{ratio:.2}"));
    println!("| {what} | {} | {tuned} | {ratio} | {most} {name} | {aim} | {} |", unit.show(time.proved), met(time.proved / unit.1, most));
}

fn met(figure: f64, most: f64) -> &'static str {
    if figure <= most {
        "yes"
    } else {
        "no"
    }
}

struct Bar {
    what: String,
    figure: f64,
    most: f64,
    /// With the space in front of it; a ratio has none.
    unit: &'static str,
}

/// The bars that stood before those of ratios.
#[derive(Default)]
pub struct Bars {
    bars: Vec<Bar>,
}

impl Bars {
    /// A figure that is to be at most so much.
    pub fn add(&mut self, what: String, figure: f64, most: f64, unit: &'static str) {
        self.bars.push(Bar { what, figure, most, unit });
    }

    pub fn print(&self) {
        println!("## Other bars\n");
        println!("| what | figure | at most | met |");
        println!("|---|---|---|---|");
        for bar in &self.bars {
            println!("| {} | {:.2}{unit} | {}{unit} | {} |", bar.what, bar.figure, bar.most, met(bar.figure, bar.most), unit = bar.unit);
        }
        println!();
    }
}
