//! Runs the first COUNT checks of demand 3 of a seed: `reorder SEED COUNT`.

use second::reorder;

fn main() {
    let (seed, count) = second::arguments::seed_and_count("reorder");
    let (mut steps, mut timeouts, mut differs, mut skipped) = (0, 0, 0, 0);
    for k in 0..count {
        match reorder::check(seed, k) {
            Ok(report) => {
                steps += report.steps;
                timeouts += report.timeouts;
                differs += usize::from(report.differs);
                skipped += report.skipped;
            }
            Err(error) => {
                println!("check {k} of seed {seed} failed: {error}");
                std::process::exit(1);
            }
        }
    }
    println!(
        "checks {count}, in another order {differs}, steps {steps}, of which timeouts {timeouts}, refused steps skipped {skipped}"
    );
}
