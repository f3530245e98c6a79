//! Safe wrappers of the calls that libbench_c.a exports: each does its work `rounds` times and tells the last answer.

use crate::mixes::Case;
use std::hint::black_box;

mod exported {
    extern "C" {
        pub fn bench_load(plan: *const u8, plan_length: usize, rounds: usize) -> usize;
        pub fn bench_read(steps: *const u8, steps_length: usize, rounds: usize) -> usize;
        pub fn bench_sound(plan: *const u8, plan_length: usize, steps: *const u8, steps_length: usize, rounds: usize) -> usize;
        pub fn bench_play(plan: *const u8, plan_length: usize, steps: *const u8, steps_length: usize, rounds: usize) -> usize;
        pub fn bench_play_steps(plan: *const u8, plan_length: usize, steps: *const u8, steps_length: usize, rounds: usize) -> usize;
        pub fn bench_step(plan: *const u8, plan_length: usize, steps: *const u8, steps_length: usize, rounds: usize) -> usize;
        pub fn bench_suggest(plan: *const u8, plan_length: usize, steps: *const u8, steps_length: usize, rounds: usize) -> usize;
        pub fn bench_list(
            plan: *const u8,
            plan_length: usize,
            steps: *const u8,
            steps_length: usize,
            out: *mut u8,
            out_length: usize,
            rounds: usize,
        ) -> usize;
    }
}

type OnTexts = unsafe extern "C" fn(*const u8, usize, *const u8, usize, usize) -> usize;

// A slice's pointer is valid for its length and never null, and `out` is borrowed alone.

fn on_texts(call: OnTexts, case: &Case, rounds: usize) -> usize {
    unsafe { call(case.plan.as_ptr(), case.plan.len(), case.steps.as_ptr(), case.steps.len(), rounds) }
}

pub fn load(plan: &[u8], rounds: usize) -> usize {
    unsafe { exported::bench_load(plan.as_ptr(), plan.len(), rounds) }
}

pub fn read(steps: &[u8], rounds: usize) -> usize {
    unsafe { exported::bench_read(steps.as_ptr(), steps.len(), rounds) }
}

pub fn sound(case: &Case, rounds: usize) -> usize {
    on_texts(exported::bench_sound, case, rounds)
}

pub fn play(case: &Case, rounds: usize) -> usize {
    on_texts(exported::bench_play, case, rounds)
}

pub fn play_steps(case: &Case, rounds: usize) -> usize {
    on_texts(exported::bench_play_steps, case, rounds)
}

pub fn step(case: &Case, rounds: usize) -> usize {
    on_texts(exported::bench_step, case, rounds)
}

/// How many rounds are told that no step would be accepted.
pub fn suggest(case: &Case, rounds: usize) -> usize {
    on_texts(exported::bench_suggest, case, rounds)
}

pub fn list(case: &Case, out: &mut [u8], rounds: usize) -> usize {
    unsafe {
        exported::bench_list(
            case.plan.as_ptr(),
            case.plan.len(),
            case.steps.as_ptr(),
            case.steps.len(),
            out.as_mut_ptr(),
            out.len(),
            rounds,
        )
    }
}

/// What the program prints; the buffer holds every answer.
pub fn simulate(case: &Case, out: &mut [u8], rounds: usize) -> usize {
    let mut length = 0;
    for _ in 0..rounds {
        length = open_controller::simulate(black_box(&case.plan), &case.steps, out).expect("the buffer holds every answer");
        black_box(&out);
    }
    length
}
