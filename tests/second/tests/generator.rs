//! The generator and the checks that run on its cases.

use second::cases::{damage, plans, schedules};
use second::node::{MAILBOX_LIMIT, PROCESSES};
use second::plan::{self, OPERANDS};
use second::random::Random;
use second::{case, full, mail, reorder, simulate, simulate_counted, steps, Coverage};

fn drafted(k: u64) -> (Random, plans::Draft) {
    let mut random = Random::new(77, k);
    let theme = plans::any_theme(&mut random);
    let draft = plans::draft(&mut random, theme);
    (random, draft)
}

#[test]
fn operand_counts_are_those_of_the_document() {
    let counts: Vec<usize> = OPERANDS
        .iter()
        .map(|(_, operands)| operands.len())
        .collect();
    let document_01 = [2, 2, 1, 2, 2, 2, 1, 1, 1, 3, 1, 4, 1, 3, 3, 1];
    let (monitor_and_demonitor, after) = ([1, 1], [1]);
    let document = [&document_01[..], &monitor_and_demonitor, &after].concat();
    assert_eq!(counts, document);
}

#[test]
fn cases_are_the_same_on_every_call() {
    for k in 0..300 {
        assert_eq!(case(5, k), case(5, k));
    }
    assert_ne!(case(5, 0), case(6, 0));
}

#[test]
fn drafted_plans_are_loaded_as_drafted() {
    for k in 0..1_000 {
        let (_, draft) = drafted(k);
        assert_eq!(schedules::node_of(&draft).behaviours, draft.behaviours);
    }
}

#[test]
fn damaged_plans_are_refused_as_the_damage_says() {
    let mut known = 0;
    for k in 0..4_000 {
        let (mut random, draft) = drafted(k);
        let damaged = damage::bad_plan(&mut random, &draft);
        let refused = plan::load(&damaged.text).err();
        if let Some(expected) = damaged.expected {
            known += 1;
            let text = String::from_utf8_lossy(&damaged.text);
            assert_eq!(refused, Some(expected), "case {k}:\n{text}");
        }
    }
    assert!(known > 3_000);
}

#[test]
fn damaged_steps_are_refused_as_the_damage_says() {
    for k in 0..4_000 {
        let (mut random, draft) = drafted(k);
        let schedule = schedules::short_schedule(&mut random, &draft);
        let damaged = damage::bad_steps(&mut random, &schedule);
        let refused = steps::read(&damaged.text).err();
        let text = String::from_utf8_lossy(&damaged.text);
        assert_eq!(refused, damaged.expected, "case {k}:\n{text}");
    }
}

#[test]
fn counting_does_not_change_the_answer() {
    let mut coverage = Coverage::new();
    for k in 0..500 {
        let (plan, steps) = case(9, k);
        let counted = simulate_counted(&plan, &steps, &mut coverage);
        assert_eq!(counted, simulate(&plan, &steps));
    }
    assert_eq!(coverage.cases, 500);
}

#[test]
fn a_small_batch_reaches_every_counter() {
    let mut coverage = Coverage::new();
    for k in 0..10_000 {
        let (plan, steps) = case(1, k);
        simulate_counted(&plan, &steps, &mut coverage);
    }
    assert_eq!(coverage.rarer_than(1), Vec::<String>::new());
}

#[test]
fn reordered_steps_give_equal_nodes() {
    let mut lists_with_timeouts = 0;
    for k in 0..500 {
        match reorder::check(3, k) {
            Ok(report) => lists_with_timeouts += u32::from(report.timeouts > 0 && report.differs),
            Err(error) => panic!("check {k}: {error}"),
        }
    }
    assert!(lists_with_timeouts > 100, "only {lists_with_timeouts}");
}

#[test]
fn full_nodes_have_long_listings() {
    for k in 0..20 {
        let (plan, steps) = full(9, k);
        let out = String::from_utf8(simulate(&plan, &steps)).expect("the program prints ASCII");
        assert!(out.len() >= 30_000, "case {k}: {} bytes", out.len());
        assert_eq!(out.matches("mail=16\n").count(), 16);
        assert!(out.matches("flight=").count() >= 200);
        for empty in ["links=\n", "watches=\n", "watchers=\n"] {
            assert!(out.matches(empty).count() <= 8, "case {k}: {empty}");
        }
    }
}

#[test]
fn mail_waits_at_a_recv() {
    let (mut waiting, mut full) = (0, 0);
    for k in 0..400 {
        let (plan, steps) = mail(21, k);
        let mut node = plan::load(&plan).expect("an accepted plan");
        let schedule = steps::read(&steps).expect("accepted steps");
        second::play(&mut node, &schedule, None);
        let waits = |process: &u8| second::step::awaited(&node, *process).is_some();
        if let Some(listener) = (1..=PROCESSES).find(waits) {
            waiting += 1;
            full += u32::from(node.live(listener).mailbox.len() == MAILBOX_LIMIT);
        }
    }
    assert!(waiting > 250, "only {waiting}");
    assert!(full > 75, "only {full}");
}
