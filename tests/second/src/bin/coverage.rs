//! Prints the coverage table of the first COUNT cases of a seed: `coverage SEED COUNT`.

use second::Coverage;
use std::time::Instant;

fn main() {
    let (seed, count) = second::arguments::seed_and_count("coverage");
    let begin = Instant::now();
    let mut coverage = Coverage::new();
    for k in 0..count {
        let (plan, steps) = second::case(seed, k);
        second::simulate_counted(&plan, &steps, &mut coverage);
    }
    print!("{coverage}");
    println!("seconds: {:.2}", begin.elapsed().as_secs_f64());
    let rare = coverage.rarer_than(24);
    println!("rarer than 24: {}", rare.join("; "));
}
