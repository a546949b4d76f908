//! Request 2 of document 02, more phases unless told otherwise.

use crate::busy::{busy_script, settle};
use crate::call::Call;
use crate::coin;
use crate::memories::{Memories, IDLE, VOTE};
use crate::numbers::{Numbers, LARGEST};
use crate::refusal::Refusal;
use crate::rules;
use crate::step_file::report;

fn plan(phases: usize) -> Numbers {
    Numbers { n: 3, f: 1, slots: 2, phases, room: 4 }
}

#[test]
fn a_limit_of_0_stands_for_16_in_an_opening() {
    let mut memories = Memories::of_run(&LARGEST);
    for (asked, opened) in [(0, 16), (1, 1), (16, 16), (17, 17), (32, 32)] {
        assert_eq!(rules::open(&plan(asked), 0, &mut memories), Ok(plan(opened)));
    }
    assert_eq!(rules::open(&plan(33), 0, &mut memories), Err(Refusal::BadPlan));
}

#[test]
fn and_only_there() {
    let mut memories = Memories::of_run(&LARGEST);
    assert_eq!(rules::open(&plan(0), 0, &mut memories), Ok(plan(16)));
    assert_eq!(rules::submit(&plan(0), 0, 5, &mut memories), Err(Refusal::SpoiledRecord));
    assert_eq!(coin::fill_strip(2, 0, 0, &mut memories.strip), Err(Refusal::BadPlan));
}

#[test]
fn the_rehearsal_program_refuses_with_2_above_16() {
    let output = |phases| String::from_utf8(report(&[0, 3, 1, 2, phases, 4, 0, 0, 0])).expect("text");
    for phases in 17..=32 {
        assert_eq!(output(phases), "refused 1 2\n");
    }
    assert_eq!(output(33), "refused 1 1\n");
    for phases in 0..=16 {
        assert_eq!(output(phases), "controllers 3 spare 1\nbench 0 lit 0\nbench 1 lit 0\nbench 2 lit 0\n");
    }
}

/// From every start of the coin: nothing is decided in 16 phases.
#[test]
fn a_busy_day_comes_to_phase_16() {
    for start in 0..511 {
        let mut script = busy_script(&plan(0), start, 15);
        assert_eq!(script.refused, None);
        script = busy_script(&plan(0), start, 16);
        assert_eq!(script.refused, Some(Call::Advance { who: 0 }));
        for who in 0..3 {
            let record = script.memories.record(who).expect("a record of the run");
            assert_eq!((record.round, record.phase), (VOTE, 16));
            let refused = rules::advance(&script.numbers, who, &mut script.memories);
            assert_eq!(refused, Err(Refusal::PhasesUsedUp));
        }
    }
}

#[test]
fn a_busy_day_ends_where_all_are_heard() {
    for start in 0..511 {
        let mut script = busy_script(&plan(0), start, 9);
        settle(&mut script, 10);
        assert_eq!(script.refused, None);
        assert!((0..3).any(|who| script.memories.record(who).is_some_and(|record| record.round == IDLE)));
    }
}
