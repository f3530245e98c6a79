//! A second interpreter of document 01 (the open garage node) and of requests M-100 to M-106 of
//! document 02, with a seeded generator of cases. It shares no code and no tables with the proved
//! crates, so that the two can be compared.

pub mod arguments;
pub mod cases;
pub mod consult;
pub mod coverage;
pub mod listing;
pub mod node;
pub mod offer;
pub mod plan;
pub mod random;
pub mod reorder;
pub mod step;
pub mod steps;
pub mod text;
pub mod writer;

pub use cases::case;
pub use cases::full::full;
pub use cases::longest::longest;
pub use cases::mail::mail;
pub use consult::consulted;
pub use coverage::Coverage;
pub use offer::suggest;
pub use writer::write_plan;

use node::Node;
use step::Step;

/// The bytes that the program of document 01 prints for these two texts.
pub fn simulate(plan: &[u8], steps: &[u8]) -> Vec<u8> {
    print_program(plan, steps, None)
}

/// The same bytes as `simulate`; what happened on the way is added to `coverage`.
pub fn simulate_counted(plan: &[u8], steps: &[u8], coverage: &mut Coverage) -> Vec<u8> {
    print_program(plan, steps, Some(coverage))
}

fn print_program(plan: &[u8], steps: &[u8], mut coverage: Option<&mut Coverage>) -> Vec<u8> {
    // "It prints only `load=number,line` when the plan is refused,"
    let mut node = match plan::load(plan) {
        Ok(node) => node,
        Err(refused) => {
            if let Some(coverage) = coverage {
                coverage.count_load_refusal(plan, &refused);
            }
            return format!("load={},{}\n", refused.number, refused.line).into_bytes();
        }
    };
    // "else only `steps=number,line` when the steps text is,"
    let schedule = match steps::read(steps) {
        Ok(schedule) => schedule,
        Err(refused) => {
            if let Some(coverage) = coverage {
                coverage.count_steps_refusal(&refused);
            }
            return format!("steps={},{}\n", refused.number, refused.line).into_bytes();
        }
    };
    // "else `accepted=`, `refused=` and the listing"
    let (accepted, refused) = play(&mut node, &schedule, coverage.as_deref_mut());
    if let Some(coverage) = coverage {
        coverage.count_play(&node, schedule.len(), accepted, refused);
    }
    let mut out = format!("accepted={accepted}\nrefused={refused}\n");
    listing::write(&node, &mut out);
    out.into_bytes()
}

/// Plays a schedule on a node: "played until one is refused; the answer is the count accepted,
/// the refusal (0 if none) and the node then".
pub fn play(
    node: &mut Node,
    schedule: &[Step],
    mut coverage: Option<&mut Coverage>,
) -> (usize, u8) {
    for (accepted, &step) in schedule.iter().enumerate() {
        let result = step::take(node, step);
        if let Some(coverage) = coverage.as_deref_mut() {
            coverage.count_step(node, step, &result);
        }
        if let Err(refusal) = result {
            return (accepted, refusal);
        }
    }
    (schedule.len(), 0)
}
