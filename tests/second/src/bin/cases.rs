//! Writes case number K of seed S as plan.txt and steps.txt into a folder: `cases S K FOLDER`; a nearly full node: `cases full S K FOLDER`; a process
//! with mail that waits: `cases mail S K FOLDER`.

use std::path::Path;

fn main() {
    let arguments: Vec<String> = std::env::args().skip(1).collect();
    if let Err(error) = write_case(&arguments) {
        eprintln!("cases: {error}");
        std::process::exit(1);
    }
}

fn write_case(arguments: &[String]) -> Result<(), String> {
    let (make, arguments): (fn(u64, u64) -> (Vec<u8>, Vec<u8>), _) = match arguments.split_first() {
        Some((word, rest)) if word == "full" => (second::full, rest),
        Some((word, rest)) if word == "mail" => (second::mail, rest),
        _ => (second::case, arguments),
    };
    let [seed, k, folder] = arguments else {
        return Err("usage: cases [full | mail] SEED NUMBER FOLDER".to_string());
    };
    let seed: u64 = seed.parse().map_err(|_| format!("no seed: {seed}"))?;
    let k: u64 = k.parse().map_err(|_| format!("no case number: {k}"))?;
    let (plan, steps) = make(seed, k);
    let folder = Path::new(folder);
    std::fs::create_dir_all(folder).map_err(|error| error.to_string())?;
    std::fs::write(folder.join("plan.txt"), plan).map_err(|error| error.to_string())?;
    std::fs::write(folder.join("steps.txt"), steps).map_err(|error| error.to_string())
}
