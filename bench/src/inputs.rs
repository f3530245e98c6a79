//! Texts of several sizes for the other calls: plans up to the longest, steps up to the longest, and a node that is nearly full.

use crate::mixes::{ops, plan, run, Case};

/// One process that stands at a stop.
pub fn small() -> Case {
    Case { plan: plan(&[ops(&["stop,0"])], &[1]), steps: Vec::new() }
}

/// Sixteen processes that wait for mail, of which there is none: no step is accepted.
pub fn stuck() -> Case {
    Case { plan: plan(&[ops(&["recv,1", "clause,int,0,0,0"])], &[1; 16]), steps: Vec::new() }
}

/// Eight behaviours of 32 ops with the longest operands, and sixteen processes that each run two ops and then circle in three.
/// The longest plan text that is accepted has 32 bytes more, four for each `set`, and its processes run to their ends.
pub fn longest(count: usize) -> Case {
    let mut code = ops(&["set,3,i-2147483648", "same,3,i-2147483648,29"]);
    for _ in 0..3 {
        code.push("recv,8".to_string());
        code.extend(vec!["clause,i-2147483648,3,3,32".to_string(); 8]);
    }
    code.extend([30, 31, 29].map(|place| format!("same,3,i-2147483648,{place}")));
    let starts: Vec<usize> = (0..16).map(|index| index % 8 + 1).collect();
    let steps = (1..=16).cycle().take(count).map(run).collect::<String>();
    Case { plan: plan(&vec![code; 8], &starts), steps: steps.into_bytes() }
}

/// A plan text of 16,384 bytes, the most that is looked at: that of `longest` with a last number that is refused (12).
pub fn refused_plan() -> Vec<u8> {
    let mut plan = longest(0).plan;
    plan.pop();
    plan.resize(16_383, b'8');
    plan.push(b'\n');
    plan
}

/// A plan of some behaviours of some ops each.
pub fn middle_plan(behaviours: usize, size: usize) -> Vec<u8> {
    plan(&vec![vec!["add,0,1".to_string(); size]; behaviours], &vec![1; behaviours])
}

/// Steps text of the longest lines there are; 4,096 of them are 61,440 bytes, the most that is looked at.
pub fn lines(count: usize) -> Vec<u8> {
    b"arrive=255,255\n".repeat(count)
}

/// The steps of `full`: sixteen runs, then five turns of 31 runs of each process, and 240 arrivals behind the first of them.
pub const FILLING: usize = 16 + 5 * 16 * 31 + 240;

/// All places of all behaviours are in use, and each of sixteen processes has sent to fifteen: first one message, which has arrived, then
/// four that are in flight. A code of 32 places has no room for the sixteenth.
pub fn full() -> Case {
    let mut code = ops(&["set,3,i-2147483648"]);
    for to in 2..=16 {
        code.extend([format!("set,1,p{to}"), "send,1,3".to_string()]);
    }
    code.push("jump,1".to_string());
    let starts: Vec<usize> = (0..16).map(|index| index % 8 + 1).collect();
    let mut steps: String = (1..=16).map(run).collect();
    let turns = || (1..=16).flat_map(|process| vec![run(process); 31]);
    steps.extend(turns());
    for to in 2..=16 {
        steps.extend((1..=16).map(|from| format!("arrive={to},{from}\n")));
    }
    for _ in 0..4 {
        steps.extend(turns());
    }
    Case { plan: plan(&vec![code; 8], &starts), steps: steps.into_bytes() }
}
