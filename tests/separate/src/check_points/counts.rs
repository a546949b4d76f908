//! Request 8 of document 02, counts on the controller's card.

use super::{heard_ballots, opened, PROPOSALS};
use crate::call::{Call, Done};
use crate::counted::{calls, close_last, last_slots, recounted, Counted, RACK};
use crate::long_runs::{go_through, CatchUp};
use crate::memories::{bit, Memories, Record, EXCHANGE, FIND, IDLE, ONE, STATE, UNDECIDED, VOTE, ZERO};
use crate::numbers::{Message, Numbers, Sort, ROUNDS};
use crate::refusal::Refusal;
use crate::rules::{self, Advanced, Ran, Stop};
use crate::script::Script;

const NUMBERS: Numbers = Numbers { n: 3, f: 1, slots: 2, phases: 4, room: 4 };

fn counts(memories: &Memories, who: usize) -> (u16, u16) {
    memories.record(who).map(|record| (record.empty, record.fast)).expect("a record of the run")
}

/// Changes the record of a replica as no run does.
fn set(memories: &mut Memories, who: usize, change: impl Fn(Record) -> Record) {
    memories.set_record(who, change(memories.record(who).expect("a record of the run")));
}

/// Replica 0 hears that this one has proposed tag 5.
fn propose_5(memories: &mut Memories, sender: usize) {
    memories.send_proposal(&NUMBERS, 0, sender, 5);
    memories.words[NUMBERS.heard_cell(PROPOSALS, sender)] |= bit(0);
}

/// Replica 0 has heard two such votes of this phase, and proposals of one tag, a majority of them or one less.
fn before_a_close(phase: usize, word: u8, proposals: usize) -> Memories {
    let votes = Message { sort: Sort::Vote, slot: 0, phase };
    let mut memories = heard_ballots(&NUMBERS, votes, &[word, word]);
    (0..proposals).for_each(|sender| propose_5(&mut memories, sender));
    memories
}

/// Replica 1 has closed slot 0 with this entry, and replica 0 has heard so.
fn notify(memories: &mut Memories, entry: u64) {
    memories.send_notice(&NUMBERS, 0, 1, entry);
    set(memories, 1, |record| Record { slot: 1, ..record });
    assert_eq!(rules::hear(&NUMBERS, 0, 1, 4, 0, 0, memories), Ok(()));
}

#[test]
fn a_close_by_the_votes() {
    for (phase, word, raised) in
        [(1, ZERO, (1, 1)), (2, ZERO, (1, 0)), (4, ZERO, (1, 0)), (1, ONE, (0, 1)), (2, ONE, (0, 0))]
    {
        let mut memories = before_a_close(phase, word, 2);
        assert!(rules::advance(&NUMBERS, 0, &mut memories).is_ok_and(Advanced::closes));
        assert_eq!(counts(&memories, 0), raised);
        assert_eq!(counts(&memories, 1), (0, 0));
    }
}

/// "Both are raised when the slot closes.": not when the outcome comes.
#[test]
fn a_close_out_of_the_find_round() {
    for (phase, raised) in [(1, (0, 1)), (2, (0, 0)), (4, (0, 0))] {
        let mut memories = before_a_close(phase, ONE, 1);
        assert_eq!(rules::advance(&NUMBERS, 0, &mut memories), Ok(Advanced::EnteredFind));
        assert_eq!(rules::advance(&NUMBERS, 0, &mut memories), Err(Refusal::TooFewHeard));
        assert_eq!(counts(&memories, 0), (0, 0));
        propose_5(&mut memories, 2);
        assert_eq!(rules::advance(&NUMBERS, 0, &mut memories), Ok(Advanced::Found(5)));
        assert_eq!(counts(&memories, 0), raised);
    }
}

/// As damaged memories have it: the record says in which phase the outcome came.
#[test]
fn a_find_round_goes_by_its_record() {
    for (phase, raised) in
        [(0, (3, 4)), (1, (3, 5)), (2, (3, 4)), (5, (3, 4)), (257, (3, 4)), (65_535, (3, 4))]
    {
        let numbers = Numbers { slots: 6, ..NUMBERS };
        let mut memories = Memories::of_run(&numbers);
        for sender in 0..2 {
            memories.send_proposal(&numbers, 4, sender, 5);
        }
        memories.words[numbers.heard_cell(Message { slot: 4, ..PROPOSALS }, 1)] |= bit(0);
        memories.set_record(0, Record { crashed: 0, round: FIND, slot: 4, phase, empty: 3, fast: 4 });
        assert_eq!(rules::advance(&numbers, 0, &mut memories), Ok(Advanced::Found(5)));
        assert_eq!(counts(&memories, 0), raised);
    }
}

/// "(a slot closed by notice isn't one)", in any round of phase 1, and idle with the phase of the slot before.
#[test]
fn a_close_by_notice() {
    for (entry, raised) in [(0, (1, 0)), (7, (0, 0))] {
        for round in [IDLE, EXCHANGE, STATE, VOTE, FIND] {
            let (_, mut memories) = opened(3, 1);
            set(&mut memories, 0, |record| Record { round, phase: 1, ..record });
            notify(&mut memories, entry);
            let by_notice = Advanced::ByNotice { round, entry };
            assert_eq!(rules::advance(&NUMBERS, 0, &mut memories), Ok(by_notice));
            assert_eq!(counts(&memories, 0), raised);
        }
    }
}

/// The votes of phase 1 have an outcome, and the notice comes ahead of it: "Such a close completes no round".
#[test]
fn a_notice_ahead_of_an_outcome_of_phase_1() {
    for (word, entry, raised) in [(ZERO, 0, (1, 0)), (ONE, 5, (0, 0))] {
        let mut memories = before_a_close(1, word, 2);
        notify(&mut memories, entry);
        let stop = Stop::Closed(Advanced::ByNotice { round: VOTE, entry });
        assert_eq!(rules::run_on(&NUMBERS, 0, &mut memories), Ok(Ran { advances: 1, stop }));
        assert_eq!(counts(&memories, 0), raised);
    }
}

/// Of the six words: crashed, round, slot, phase, empty, fast.
#[test]
fn where_the_counts_stand() {
    let mut memories = before_a_close(2, ZERO, 0);
    assert_eq!(rules::advance(&NUMBERS, 0, &mut memories), Ok(Advanced::ClosedEmpty));
    assert_eq!(memories.words[..8], [0, 0, 0, 1, 2, 1, 0, 0]);
    let mut memories = before_a_close(1, ONE, 2);
    set(&mut memories, 2, |record| Record { slot: 2, empty: 1, fast: 2, ..record });
    assert_eq!(rules::advance(&NUMBERS, 0, &mut memories), Ok(Advanced::ClosedWith(5)));
    assert_eq!(memories.words[..7], [0, 0, 0, 1, 1, 0, 1]);
    assert_eq!(memories.words[13..19], [0, 0, 2, 0, 1, 2]);
}

/// By a run on and by the conductor as by their advances.
#[test]
fn calls_built_of_calls() {
    let mut script = Script::open(&Numbers { n: 1, f: 0, slots: 2, phases: 1, room: 2 });
    script.share(7, [0]);
    script.begin([0]);
    script.run_on([0]);
    assert_eq!(counts(&script.memories, 0), (0, 1));
    let mut script = Script::open(&Numbers { slots: 4, ..NUMBERS });
    script.share_apart();
    script.begin(0..3);
    script.go_on(0..3, &ROUNDS);
    (0..2).for_each(|_| script.conduct());
    assert_eq!(script.refused, None);
    assert_eq!([0, 1, 2].map(|who| counts(&script.memories, who)), [(1, 3); 3]);
}

/// Replicas 0 and 1 reach each outcome in phase 1, and all slots but one are empty; 2 closes each by a notice.
#[test]
fn of_three_where_one_hears_notices_only() {
    let mut script = Script::open(&Numbers { slots: 20, room: 16, ..NUMBERS });
    go_through(&mut script, 0..20, CatchUp::Advance);
    assert_eq!(script.refused, None);
    assert_eq!([0, 1, 2].map(|who| counts(&script.memories, who)), [(19, 20), (19, 20), (19, 0)]);
}

/// "3 also when either count exceeds the closed slots.": of any of the n, crashed or not, but a crash reads one record.
#[test]
fn three_where_a_count_exceeds_the_closed_slots() {
    for (who, crashed) in [(0, 0), (1, 0), (2, 0), (2, 1)] {
        for (empty, fast) in [(2, 0), (0, 2), (2, 2), (257, 0), (0, 256), (65_535, 1), (1, 65_535)] {
            let mut memories = recounted(who, empty, fast);
            set(&mut memories, who, |record| Record { crashed, ..record });
            let before = memories.clone();
            for call in calls().into_iter().take(if who == 0 { 8 } else { 7 }) {
                assert_eq!(call.make(&RACK, &mut memories), Err(Refusal::SpoiledRecord), "{call:?}");
                assert_eq!(memories, before);
            }
        }
    }
}

/// As many as the closed slots are not too many: every step comes to what it comes to without counts.
#[test]
fn counts_up_to_the_closed_slots() {
    for (who, call) in (0..3).flat_map(|who| calls().map(|call| (who, call))) {
        let answer = call.make(&RACK, &mut recounted(who, 0, 0));
        assert_ne!(answer, Err(Refusal::SpoiledRecord));
        for (empty, fast) in [(1, 0), (0, 1), (1, 1)] {
            assert_eq!(call.make(&RACK, &mut recounted(who, empty, fast)), answer, "{call:?}");
        }
    }
}

/// A crash reads its own record alone.
#[test]
fn a_crash_beside_a_spoiled_record() {
    let mut memories = recounted(1, 2, 0);
    assert_eq!(Call::Crash { who: 0 }.make(&RACK, &mut memories), Ok(Done::Crashed));
    assert_eq!(Call::Crash { who: 1 }.make(&RACK, &mut memories), Err(Refusal::SpoiledRecord));
}

/// 3 before 5; 4 whatever the record. Crashed becomes 1, and nothing else changes.
#[test]
fn a_crash_is_lent_one_record() {
    let lent = |crashed, empty, fast| Record { crashed, slot: 1, phase: 1, empty, fast, ..Record::default() };
    let answer = |who, mut record: Record| (rules::crash(&RACK, who, &mut record), record);
    for (empty, fast) in [(0, 0), (1, 0), (0, 1), (1, 1)] {
        assert_eq!(answer(2, lent(0, empty, fast)), (Ok(()), lent(1, empty, fast)));
        assert_eq!(answer(2, lent(7, empty, fast)), (Err(Refusal::Dark), lent(7, empty, fast)));
    }
    for (empty, fast) in [(2, 0), (0, 2), (2, 1), (1, 2), (65_535, 0), (0, 257)] {
        for crashed in [0, 1] {
            let record = lent(crashed, empty, fast);
            assert_eq!(answer(2, record), (Err(Refusal::SpoiledRecord), record));
            assert_eq!(answer(3, record), (Err(Refusal::NoSuchBench), record));
        }
    }
}

/// A record is there if all its six words are; then it is judged before 2.
#[test]
fn counts_in_short_words() {
    let whole = recounted(0, 0, 0);
    let answer = |words: &[u16]| {
        let mut memories = Memories { words: words.to_vec(), ..whole.clone() };
        rules::begin(&RACK, 0, &mut memories)
    };
    assert_eq!(answer(&[0, 0, 0, 0, 0, 1]), Err(Refusal::ShortTable));
    assert_eq!(answer(&[0, 0, 0, 0, 0, 1, 0]), Err(Refusal::SpoiledRecord));
    assert_eq!(answer(&[0, 0, 0, 0, 0, 0, 1]), Err(Refusal::SpoiledRecord));
    assert_eq!(answer(&[0, 0, 0, 1, 0, 1, 1]), Err(Refusal::ShortTable));
    assert_eq!(answer(&[0, 0, 0, 1, 0, 1, 1, 0, 0, 0, 0, 1]), Err(Refusal::ShortTable));
    assert_eq!(answer(&[0, 0, 0, 1, 0, 1, 1, 0, 0, 0, 0, 1, 0]), Err(Refusal::SpoiledRecord));
}

/// "An opening sets both to 0."
#[test]
fn an_opening_sets_both_to_0() {
    let mut memories = recounted(1, 1, 1);
    set(&mut memories, 2, |record| Record { empty: 65_535, fast: 65_535, ..record });
    assert_eq!(rules::open(&RACK, 0, &mut memories), Ok(RACK));
    assert_eq!([0, 1, 2].map(|who| counts(&memories, who)), [(0, 0); 3]);
}

/// Nothing but a close raises a count, and nothing but an opening takes it back.
#[test]
fn other_steps_leave_them() {
    let numbers = Numbers { slots: 3, ..NUMBERS };
    let mut script = Script::open(&numbers);
    script.share_apart();
    script.begin(0..3);
    script.go_on(0..3, &ROUNDS);
    let votes = Message { sort: Sort::Vote, slot: 1, phase: 1 };
    script.share(8, [0, 1]);
    script.begin(0..3);
    script.go_on(0..3, &ROUNDS[..2]);
    script.all_hear(Sort::Vote);
    (0..3).for_each(|sender| script.memories.ballots[numbers.ballot_cell(votes, sender)] = UNDECIDED);
    script.advance([0]);
    (1..3).for_each(|sender| script.memories.ballots[numbers.ballot_cell(votes, sender)] = ONE);
    script.advance([1]);
    script.crash([2]);
    let rounds = [0, 1, 2].map(|who| script.memories.record(who).map(|record| (record.round, record.phase)));
    assert_eq!((script.refused, rounds), (None, [(STATE, 2), (FIND, 1), (VOTE, 1)].map(Some)));
    assert_eq!([0, 1, 2].map(|who| counts(&script.memories, who)), [(1, 1); 3]);
}

/// All 1,024 slots closed, all of them empty, and none: each count comes to the slot count and is not too many.
#[test]
fn both_counts_at_the_slot_limit() {
    for Counted { mut script, counts: right, .. } in last_slots() {
        close_last(&mut script);
        let Script { numbers, mut memories, refused, .. } = script;
        assert_eq!((refused, vec![counts(&memories, 0), counts(&memories, 1)]), (None, right));
        assert_eq!(rules::begin(&numbers, 0, &mut memories), Err(Refusal::LogFull));
        set(&mut memories, 0, |record| Record { fast: 1025, ..record });
        assert_eq!(rules::begin(&numbers, 1, &mut memories), Err(Refusal::SpoiledRecord));
    }
}
