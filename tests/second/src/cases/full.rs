//! Nearly full nodes: every mailbox has 16 notes, most pairs have signals in flight, and there are
//! links and watchers, so the listing is 30 KB and more.

use crate::node::PROCESSES;
use crate::plan;
use crate::random::Random;
use crate::step::{self, Step};
use crate::steps::{schedule_text, LINE_LIMIT};

/// How many processes each behaviour sends to: two ops for each, five before them and a jump fill a
/// code of 32.
const TARGETS: usize = 13;
/// The ops that a behaviour does once, the set of the first target among them.
const ONCE: usize = 5;
/// The ops from the first exit to the last one.
const ROUND: usize = 2 * TARGETS - 1;

/// Case number k of a seed: plan text and steps text, the same on every call.
pub fn full(seed: u64, k: u64) -> (Vec<u8>, Vec<u8>) {
    let mut random = Random::new(seed, k);
    let plan = plan_text(&mut random);
    let mut node = plan::load(plan.as_bytes()).expect("the plan keeps the form");
    let mut schedule = Vec::new();
    let mut take = |step| {
        let fits = schedule.len() < LINE_LIMIT && step::take(&mut node, step).is_ok();
        if fits {
            schedule.push(step);
        }
        fits
    };
    // An exit signal to each target, and all that is in flight arrives; once more, so that every
    // mailbox is full.
    for runs in [ONCE + ROUND, 2 + ROUND] {
        for process in 1..=PROCESSES {
            for _ in 0..runs {
                take(Step::Run(process));
            }
        }
        for to in 1..=PROCESSES {
            let first = random.below(usize::from(PROCESSES)) as u8;
            for k in 0..4 * PROCESSES {
                take(Step::Arrive {
                    to,
                    from: (first + k) % PROCESSES + 1,
                });
            }
        }
    }
    // Then each process sends until a pair is full.
    for process in 1..=PROCESSES {
        while take(Step::Run(process)) {}
    }
    if random.chance(50) {
        schedule.push(Step::Run(random.between(1, 17) as u8));
        schedule.truncate(LINE_LIMIT);
    }
    (plan.into_bytes(), schedule_text(&schedule))
}

/// Eight behaviours for sixteen processes; each traps exits, watches and links its first target, and
/// sends a long value to its targets over and over. The first targets lie two apart, so every
/// process is a target of six behaviours or more.
fn plan_text(random: &mut Random) -> String {
    let mut text = String::from("plan=1\nbehaviours=8\n");
    let shift = random.below(usize::from(PROCESSES));
    for behaviour in 0..8 {
        let value = random.between(1_000_000_000, 2_147_483_647);
        let target = |k: usize| (shift + 2 * behaviour + k) % usize::from(PROCESSES) + 1;
        text += &format!("code={}\nop=trap,1\nop=set,1,i-{value}\n", ONCE + ROUND + 2);
        text += &format!(
            "op=set,0,p{}\nop=monitor,0\nop=link,0\nop=exit,0,1\n",
            target(0)
        );
        for k in 1..TARGETS {
            text += &format!("op=set,0,p{}\nop=exit,0,1\n", target(k));
        }
        text += &format!("op=set,0,p{}\nop=jump,{ONCE}\n", target(0));
    }
    text += "starts=16\n";
    for process in 1..=PROCESSES {
        text += &format!("start={process},{}\n", (process - 1) / 2 + 1);
    }
    text
}
