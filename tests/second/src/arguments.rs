//! The arguments of the commands that go through the first COUNT cases of a seed.

/// SEED and COUNT; without two numbers the command says how it is used, and ends.
pub fn seed_and_count(command: &str) -> (u64, u64) {
    let words: Vec<String> = std::env::args().skip(1).collect();
    let numbers: Result<Vec<u64>, _> = words.iter().map(|word| word.parse()).collect();
    match numbers.as_deref() {
        Ok([seed, count]) => (*seed, *count),
        _ => {
            eprintln!("usage: {command} SEED COUNT");
            std::process::exit(2);
        }
    }
}
