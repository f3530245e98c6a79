//! The cases that stand as folders, of which the proved program plays the same: `tests/cases` and
//! `examples`. Their outputs were worked out by hand, but for `longer`.

use second::plan;
use second::writer::{write_plan, Outcome};
use std::fs;
use std::path::{Path, PathBuf};

/// The folders below this one that have a plan.
fn cases(folder: &Path, found: &mut Vec<PathBuf>) {
    for entry in fs::read_dir(folder).expect("a folder that can be read") {
        let path = entry.expect("an entry that can be read").path();
        if path.is_dir() {
            cases(&path, found);
        } else if path.ends_with("plan.txt") {
            found.push(folder.to_path_buf());
        }
    }
}

fn all_cases() -> Vec<PathBuf> {
    let root = Path::new(env!("CARGO_MANIFEST_DIR")).join("../..");
    let mut found = Vec::new();
    cases(&root.join("tests/cases"), &mut found);
    cases(&root.join("examples"), &mut found);
    assert!(found.len() > 100, "only {} cases were found", found.len());
    found
}

#[test]
fn folders_have_the_outputs_that_stand_in_them() {
    for folder in all_cases() {
        let file = |name: &str| fs::read(folder.join(name)).expect("a case has three files");
        let out = second::simulate(&file("plan.txt"), &file("steps.txt"));
        let (out, expected) = (
            String::from_utf8(out),
            String::from_utf8(file("output.txt")),
        );
        assert_eq!(out, expected, "{}", folder.display());
    }
}

#[test]
fn plans_that_are_accepted_are_written_back() {
    let mut accepted = 0;
    for folder in all_cases() {
        let text = fs::read(folder.join("plan.txt")).expect("a case has a plan");
        let expected = match plan::load(&text) {
            Ok(_) => Outcome::Written(text.clone()),
            Err(_) => Outcome::Refused,
        };
        accepted += u32::from(expected != Outcome::Refused);
        let found = write_plan(&text, &text, plan::BYTE_LIMIT);
        assert_eq!(found, expected, "{}", folder.display());
    }
    assert!(accepted > 100, "only {accepted} plans were accepted");
}
