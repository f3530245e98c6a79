//! The seeded generator: case number k of a seed is a plan text and a steps text.

pub mod damage;
pub mod full;
pub mod longest;
pub mod mail;
pub mod plans;
pub mod schedules;

use crate::random::Random;
use plans::{Theme, Tie};
use schedules::{Goal, Obstacle};

/// Case number k of a seed: plan text and steps text, the same on every call.
pub fn case(seed: u64, k: u64) -> (Vec<u8>, Vec<u8>) {
    let mut random = Random::new(seed, k);
    match random.weighted(&[57, 5, 21, 9, 3, 5]) {
        0 => played(&mut random),
        1 => mail::drawn(&mut random),
        2 => with_bad_plan(&mut random),
        3 => with_bad_steps(&mut random),
        4 => at_a_limit(&mut random),
        _ => with_changed_bytes(&mut random),
    }
}

/// A valid plan and a schedule that is mostly accepted and may end with a chosen refusal.
fn played(random: &mut Random) -> (Vec<u8>, Vec<u8>) {
    let goal = schedules::any_goal(random);
    let theme = theme_for(random, goal);
    let draft = plans::draft(random, theme);
    let schedule = schedules::schedule(random, &draft, goal);
    (draft.text(), crate::steps::schedule_text(&schedule))
}

/// The theme under which a goal is met often.
fn theme_for(random: &mut Random, goal: Goal) -> Theme {
    match goal {
        Goal::MailboxFull if random.chance(20) => Theme::FullRace(Tie::Watch),
        Goal::MailboxFull if random.chance(80) => Theme::Flood,
        Goal::PairFull => match random.weighted(&[9, 1, 10]) {
            0 => Theme::Flood,
            1 => Theme::Links,
            _ => Theme::Signs,
        },
        Goal::NotUnborn if random.chance(60) => Theme::Spawns,
        Goal::NoTimeout(Obstacle::Closing) if random.chance(60) => Theme::Links,
        Goal::NoTimeout(_) if random.chance(80) => Theme::Silence,
        _ => plans::any_theme(random),
    }
}

/// A plan with one or two mistakes; the steps text may be bad too, which then is not told.
fn with_bad_plan(random: &mut Random) -> (Vec<u8>, Vec<u8>) {
    let theme = plans::any_theme(random);
    let draft = plans::draft(random, theme);
    let plan = damage::bad_plan(random, &draft).text;
    let steps = if random.chance(20) {
        damage::bad_steps(random, &[]).text
    } else {
        b"run=1\n".to_vec()
    };
    (plan, steps)
}

fn with_bad_steps(random: &mut Random) -> (Vec<u8>, Vec<u8>) {
    let theme = plans::any_theme(random);
    let draft = plans::draft(random, theme);
    let schedule = schedules::short_schedule(random, &draft);
    let steps = damage::bad_steps(random, &schedule).text;
    (draft.text(), steps)
}

/// Texts whose bytes or lines are at a limit, one below it or one above it.
fn at_a_limit(random: &mut Random) -> (Vec<u8>, Vec<u8>) {
    if random.chance(30) {
        let theme = plans::any_theme(random);
        let draft = plans::draft(random, theme);
        return (damage::long_plan(random, &draft), b"run=1\n".to_vec());
    }
    let draft = plans::endless_draft(random);
    (draft.text(), damage::long_steps(random))
}

/// A valid plan and schedule of which some bytes are changed, whatever that gives.
fn with_changed_bytes(random: &mut Random) -> (Vec<u8>, Vec<u8>) {
    let (mut plan, mut steps) = played(random);
    if random.chance(70) {
        damage::change_bytes(random, &mut plan);
    } else {
        damage::change_bytes(random, &mut steps);
    }
    (plan, steps)
}
