//! Scripted runs of request 8's cases, each with the counts that its replicas end with.

use crate::busy::{busy_script, settle};
use crate::call::Call;
use crate::filled::{by_rank, everyone, fill, Known};
use crate::memories::{Memories, Record, EXCHANGE, FIND, IDLE, STATE, VOTE};
use crate::numbers::{Numbers, Sort, MOST_ROOM, MOST_SLOTS, ROUNDS};
use crate::script::{order, Script};

pub const RACK: Numbers = Numbers { n: 3, f: 1, slots: 3, phases: 4, room: 8 };

pub struct Counted {
    pub name: &'static str,
    pub script: Script,
    /// The empty and the fast count of each replica.
    pub counts: Vec<(u16, u16)>,
}

fn counted<const N: usize>(name: &'static str, script: Script, counts: [(u16, u16); N]) -> Counted {
    Counted { name, script, counts: counts.to_vec() }
}

/// From an opening each.
pub fn runs() -> Vec<Counted> {
    let ways = [closed_by_all(), found(), kept(), left_idle()].into_iter().flatten();
    ways.chain([IDLE, EXCHANGE, STATE, VOTE].map(left_empty))
        .chain([EXCHANGE, STATE, VOTE, FIND].map(left_full))
        .collect()
}

/// All three close slot 0 together.
fn together(share: impl FnOnce(&mut Script)) -> Script {
    let mut script = Script::open(&RACK);
    share(&mut script);
    close_together(&mut script);
    script
}

fn close_together(script: &mut Script) {
    script.begin(0..3);
    script.go_on(0..3, &ROUNDS);
}

fn closed_by_all() -> Vec<Counted> {
    let mut by_conductor = Script::open(&RACK);
    by_conductor.share(7, [2]);
    by_conductor.conduct();
    vec![
        counted("an order in phase 1", together(|script| script.share(7, 0..3)), [(0, 1); 3]),
        counted("an empty slot in phase 1", together(Script::share_apart), [(1, 1); 3]),
        counted("an order by the conductor", by_conductor, [(0, 1); 3]),
        counted("an empty slot in phase 2", in_phase_2(0), [(1, 0); 3]),
    ]
}

/// Coins of 1 from start 0 lead to outcome 0 in phase 2, coins of 0 from start 9 to outcome 1.
fn in_phase_2(start: usize) -> Script {
    let mut script = busy_script(&RACK, start, 1);
    settle(&mut script, 2);
    script
}

/// The third has the outcome of phase 1 or 2, and of the proposals too few; the others close.
fn found() -> Vec<Counted> {
    let mut first = Script::open(&RACK);
    first.share_in_camps([1, 2]);
    first.leave_in(FIND);
    first.go_on(first.camp(), &[Sort::Vote]);
    first.hear(2, [0], Sort::Proposal);
    first.run_on([2]);
    let mut later = in_phase_2(9);
    later.hear(2, [1], Sort::Proposal);
    later.advance([2]);
    let mut noticed = in_phase_2(9);
    noticed.hear(2, [1], Sort::Notice);
    noticed.advance([2]);
    vec![
        counted("find with an outcome of phase 1", first, [(0, 1); 3]),
        counted("find with an outcome of phase 2", later, [(0, 0); 3]),
        counted("find with an outcome of phase 2, by notice", noticed, [(0, 0); 3]),
    ]
}

/// By a crash, and what an opening does.
fn kept() -> Vec<Counted> {
    let mut crashed = together(Script::share_apart);
    crashed.crash([1]);
    let mut reopened = together(Script::share_apart);
    reopened.reopen();
    vec![
        counted("a crash keeps them", crashed, [(1, 1); 3]),
        counted("an opening sets them to 0", reopened, [(0, 0); 3]),
    ]
}

/// The third is idle in slot 1, with phase 1 of slot 0 in its record, and hears of the entry.
fn left_idle() -> Vec<Counted> {
    let mut full = together(|script| script.share(7, 0..3));
    full.share(8, [0, 1]);
    let mut empty = together(Script::share_apart);
    for script in [&mut full, &mut empty] {
        script.begin([0, 1]);
        script.go_on([0, 1], &ROUNDS);
        script.hear(2, [0], Sort::Notice);
        script.run_on([2]);
    }
    vec![
        counted("an order by notice, idle behind phase 1", full, [(0, 2), (0, 2), (0, 1)]),
        counted("an empty slot by notice, idle behind phase 1", empty, [(2, 2), (2, 2), (2, 1)]),
    ]
}

/// The third comes to this round of an empty slot and closes it by a notice; in the vote round it has heard the outcome too.
fn left_empty(round: u16) -> Counted {
    let mut script = Script::open(&RACK);
    script.share_apart();
    script.begin([0, 1]);
    if round >= EXCHANGE {
        script.begin([2]);
    }
    for (next, sort) in [(STATE, Sort::Proposal), (VOTE, Sort::State)] {
        script.go_on([0, 1], &[sort]);
        if round >= next {
            script.hear(2, [1], sort);
            script.advance([2]);
        }
    }
    close_by_notice(&mut script, round);
    counted("an empty slot by notice", script, [(1, 1), (1, 1), (1, 0)])
}

/// As `left_empty`, for a slot with an order.
fn left_full(round: u16) -> Counted {
    let mut script = Script::open(&RACK);
    script.share_in_camps([1, 2]);
    script.leave_in(round);
    close_by_notice(&mut script, round);
    counted("an order by notice", script, [(0, 1), (0, 1), (0, 0)])
}

fn close_by_notice(script: &mut Script, round: u16) {
    script.go_on([0, 1], &[Sort::Vote]);
    if round == VOTE {
        script.hear(2, [0, 1], Sort::Vote);
    }
    script.hear(2, [1], Sort::Notice);
    script.advance([2]);
}

const LONGEST: Numbers = Numbers { n: 2, f: 0, slots: MOST_SLOTS, phases: 1, room: MOST_ROOM };

/// The longest run of two, all slots but the last closed: each empty, or none. The counts are those after `close_last`.
pub fn last_slots() -> Vec<Counted> {
    let last = MOST_SLOTS as u16;
    let mut empty = Script::open(&LONGEST);
    empty.share_apart();
    for _ in 1..MOST_SLOTS {
        empty.begin(0..2);
        empty.go_on(0..2, &ROUNDS);
    }
    let mut full = Script::open(&LONGEST);
    let known: Vec<Known> = (1..=MOST_ROOM).map(|second| (order(second), everyone(&LONGEST))).collect();
    fill(&LONGEST, &known, &by_rank(&known, MOST_SLOTS - 1), &mut full.memories);
    let [empty, full] = [empty, full].map(|script| Script::going_on(&LONGEST, script.memories));
    vec![
        counted("1,024 empty slots", empty, [(last, last); 2]),
        counted("1,024 orders", full, [(0, last); 2]),
    ]
}

/// Closes the last slot.
pub fn close_last(script: &mut Script) {
    script.begin(0..2);
    script.go_on(0..2, &ROUNDS);
}

/// A run in which all have closed slot 0, but the counts of one replica are these.
pub fn recounted(who: usize, empty: u16, fast: u16) -> Memories {
    let Script { mut memories, .. } = together(|script| script.share(7, 0..3));
    let record = memories.record(who).unwrap_or_default();
    memories.set_record(who, Record { empty, fast, ..record });
    memories
}

/// Each kind of call but an opening, acting on replica 0.
pub fn calls() -> [Call; 8] {
    let (who, tag) = (0, 7);
    [
        Call::Submit { who, tag },
        Call::Relay { who, tag },
        Call::Begin { who },
        Call::Hear { receiver: who, sender: 1, sort: Sort::Notice as usize, slot: 0, phase: 0 },
        Call::Advance { who },
        Call::RunOn { who },
        Call::Conduct,
        Call::Crash { who },
    ]
}

#[cfg(test)]
mod tests {
    use super::*;

    #[test]
    fn runs_end_with_their_counts() {
        assert_eq!(runs().len(), 19);
        for Counted { name, script, counts } in runs() {
            let of = |who| script.memories.record(who).map(|record| (record.empty, record.fast));
            let left: Vec<_> = (0..counts.len()).filter_map(of).collect();
            assert_eq!((script.refused, left), (None, counts), "{name}");
        }
    }
}
