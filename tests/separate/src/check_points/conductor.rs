//! Request 3 of document 02, the conductor.

use crate::conductor::{conduct, Conducted};
use crate::memories::{Record, EXCHANGE, IDLE, ONE, UNDECIDED};
use crate::numbers::{Message, Numbers, Sort, ROUNDS};
use crate::rank::URGENT;
use crate::refusal::Refusal;
use crate::script::Script;

/// A run of three slots with these tags, each submitted at one replica.
fn run_of(n: usize, f: usize, tags: &[(u64, usize)]) -> Script {
    let mut script = Script::open(&Numbers { n, f, slots: 3, phases: 4, room: 8 });
    tags.iter().for_each(|&(tag, who)| script.share(tag, [who]));
    script
}

fn conducted(script: &mut Script) -> Result<Conducted, Refusal> {
    conduct(&script.numbers, &mut script.memories)
}

fn counts(steps: usize, relays: usize) -> Result<Conducted, Refusal> {
    Ok(Conducted { steps, relays })
}

fn log(script: &Script, who: usize) -> &[u64] {
    script.memories.log(&script.numbers, who, script.slot(who))
}

/// "A refusal returns its number and changes nothing at all."
#[track_caller]
fn assert_refused(script: &mut Script, refusal: Refusal) {
    let before = script.memories.clone();
    assert_eq!(conducted(script), Err(refusal));
    assert_eq!(script.memories, before);
}

/// Writes a record as no run leaves it behind.
fn set(script: &mut Script, who: usize, record: Record) {
    script.memories.set_record(who, record);
}

#[test]
fn thirty_for_three_lit() {
    let mut script = run_of(3, 1, &[(7, 0)]);
    assert_eq!(conducted(&mut script), counts(30, 2));
    for who in 0..3 {
        let record = Record { round: IDLE, slot: 1, phase: 1, fast: 1, ..Record::default() };
        assert_eq!((log(&script, who), script.memories.record(who)), (&[7][..], Some(record)));
    }
}

#[test]
fn two_lit_of_three() {
    let mut script = run_of(3, 1, &[(7, 2)]);
    script.crash([1]);
    assert_eq!(conducted(&mut script), counts(14, 1));
    assert_eq!([0, 1, 2].map(|who| log(&script, who)), [&[7][..], &[], &[7]]);
}

#[test]
fn one_alone() {
    let mut script = run_of(1, 0, &[(7, 0)]);
    assert_eq!(conducted(&mut script), counts(4, 0));
    assert_eq!(log(&script, 0), [7]);
}

/// "exactly 3L² + L of the rules' steps besides at most L − 1 relays", for every rack and every quorum.
#[test]
fn every_rack_and_every_number_of_lit_ones() {
    let racks = (1..=15).flat_map(|n| (0..=(n - 1) / 2).map(move |f| (n, f)));
    for (n, f, lit) in racks.flat_map(|(n, f)| (n - f..=n).map(move |lit| (n, f, lit))) {
        let mut script = run_of(n, f, &[(7, n - lit)]);
        script.crash(0..n - lit);
        assert_eq!(conducted(&mut script), counts(3 * lit * lit + lit, lit - 1));
        assert!(script.lit().iter().all(|&who| log(&script, who) == [7]));
    }
}

#[test]
fn five_with_one_dark_through_three_slots() {
    let mut script = run_of(5, 2, &[(9, 0), (7, 4), (8, 2)]);
    script.crash([3]);
    let dark = script.memories.record(3);
    for _ in 0..3 {
        assert_eq!(conducted(&mut script), counts(52, 3));
    }
    assert_refused(&mut script, Refusal::LogFull);
    for who in [0, 1, 2, 4] {
        assert_eq!(log(&script, who), [7, 8, 9]);
    }
    assert_eq!(script.memories.record(3), dark);
}

/// Nothing else than these steps, one by one: every cell is the same.
#[test]
fn the_same_cells_as_the_steps() {
    let mut script = run_of(5, 2, &[(7, 1)]);
    script.crash([2]);
    let mut stepped = run_of(5, 2, &[(7, 1)]);
    stepped.crash([2]);
    assert_eq!(conducted(&mut script), counts(52, 3));
    let lit = [0, 1, 3, 4];
    stepped.share(7, [1, 0, 3, 4]);
    stepped.begin(lit);
    stepped.go_on(lit, &ROUNDS);
    assert_eq!(script.memories, stepped.memories);
}

#[test]
fn the_first_ranked_tag_pending_at_any_lit_one() {
    let mut script = run_of(3, 0, &[(9, 0), (6, 1), (5, 2), (8, 1)]);
    assert_eq!(conducted(&mut script), counts(30, 2));
    assert_eq!(log(&script, 0), [5]);
    let mut script = run_of(3, 1, &[(9, 0), (6, 1), (5, 2)]);
    script.crash([2]);
    assert_eq!(conducted(&mut script), counts(14, 1));
    assert_eq!(log(&script, 0), [6]);
}

/// One lit replica alone has an urgent tag, and others have smaller numbers; then the urgent ones are a crashed one's.
#[test]
fn an_urgent_tag_of_one_lit_one_and_of_a_crashed_one() {
    let mut script = run_of(3, 1, &[(1, 0), (URGENT + 9, 1), (2, 2), (URGENT + 8, 2), (URGENT, 2)]);
    script.crash([2]);
    assert_eq!([(); 2].map(|()| conducted(&mut script)), [counts(14, 1); 2]);
    assert_eq!((log(&script, 0), log(&script, 1)), (&[URGENT + 9, 1][..], &[URGENT + 9, 1][..]));
    assert_refused(&mut script, Refusal::NothingPending);
}

/// Not one that is in the log already; and those who hold it need no relay.
#[test]
fn pending_and_lacking() {
    let mut script = run_of(3, 1, &[(5, 0)]);
    script.share(9, [1, 2]);
    assert_eq!(conducted(&mut script), counts(30, 2));
    assert_eq!(conducted(&mut script), counts(30, 1));
    assert_eq!(log(&script, 0), [5, 9]);
    assert_refused(&mut script, Refusal::NothingPending);
    script.share(7, 0..3);
    assert_eq!(conducted(&mut script), counts(30, 0));
}

/// "23 "too few lit" below the quota", before 22: where nobody is lit, and where those lit are not level.
#[test]
fn too_few_lit() {
    let mut script = run_of(5, 1, &[(5, 0)]);
    script.crash([4]);
    assert_eq!(conducted(&mut script), counts(52, 3));
    script.crash([3]);
    assert_refused(&mut script, Refusal::TooFewLit);
    script.share(7, [0]);
    script.begin([0]);
    assert_refused(&mut script, Refusal::TooFewLit);
    script.crash(0..3);
    assert_refused(&mut script, Refusal::TooFewLit);
}

/// "all idle".
#[test]
fn one_in_a_round_is_not_level() {
    let mut script = run_of(3, 1, &[(5, 0), (6, 1), (7, 2)]);
    script.begin([1]);
    assert_refused(&mut script, Refusal::NotLevel);
    script.crash([1]);
    assert_refused(&mut script, Refusal::NotLevel);
}

/// "at the same slot": two of three close slot 0, and the third comes to it by a notice.
#[test]
fn one_left_behind_is_not_level() {
    let mut script = run_of(3, 1, &[(5, 0), (6, 2)]);
    script.share(5, [0, 1]);
    script.begin(0..2);
    script.go_on(0..2, &ROUNDS);
    assert_refused(&mut script, Refusal::NotLevel);
    script.hear(2, [1], Sort::Notice);
    script.run_on([2]);
    assert_eq!(conducted(&mut script), counts(30, 2));
    assert_eq!(log(&script, 2), [5, 6]);
}

/// "where nobody, dark or lit, has sent a message of that slot": any message, of any phase.
#[test]
fn a_single_message_of_the_slot() {
    for message in run_of(3, 1, &[]).numbers.messages(0) {
        for crashed in [0, 1] {
            assert_refused(&mut sent_by_2(message, crashed), Refusal::NotLevel);
        }
    }
}

/// Who has closed slot 1 has closed slot 0 too.
#[test]
fn a_single_message_of_another_slot() {
    for message in run_of(3, 1, &[]).numbers.messages(1) {
        let mut script = sent_by_2(message, 1);
        if message.sort == Sort::Notice {
            assert_refused(&mut script, Refusal::NotLevel);
        } else {
            assert_eq!(conducted(&mut script), counts(14, 1));
        }
    }
}

/// A level rack, but replica 2, lit or crashed, has sent this.
fn sent_by_2(message: Message, crashed: u16) -> Script {
    let mut script = run_of(3, 1, &[(7, 0)]);
    set(&mut script, 2, Record { crashed, ..Record::default() });
    let Script { numbers, memories, .. } = &mut script;
    match message.sort {
        Sort::Proposal => memories.send_proposal(numbers, message.slot, 2, 9),
        Sort::State => memories.send_ballot(numbers, message, 2, ONE),
        Sort::Vote => memories.send_ballot(numbers, message, 2, UNDECIDED),
        Sort::Notice => {
            let slot = message.slot as u16 + 1;
            memories.set_record(2, Record { crashed, slot, ..Record::default() });
        }
    }
    script
}

/// A byte that is no state or vote is not sent, a state that says `?` is none, and marks are passed over.
#[test]
fn what_was_not_sent_does_not_count() {
    let mut script = run_of(3, 1, &[(7, 0)]);
    let numbers = script.numbers;
    for message in numbers.messages(0) {
        script.memories.words[numbers.heard_cell(message, 2)] = u16::MAX;
        if message.sort.has_phases() {
            let junk = if message.sort == Sort::State { UNDECIDED } else { 4 };
            script.memories.ballots[numbers.ballot_cell(message, 2)] = junk;
        }
    }
    assert_eq!(conducted(&mut script), counts(30, 2));
    assert!((0..3).all(|who| log(&script, who) == [7]));
}

/// All lit ones have closed all slots: 11, with or without an order. One that has not: 22.
#[test]
fn full_logs() {
    let mut script = run_of(3, 1, &[(5, 0), (6, 0), (7, 0)]);
    assert_eq!([(); 3].map(|()| conducted(&mut script)), [counts(30, 2); 3]);
    assert_refused(&mut script, Refusal::LogFull);
    script.share(8, [1]);
    assert_refused(&mut script, Refusal::LogFull);
    set(&mut script, 2, Record { slot: 2, ..Record::default() });
    assert_refused(&mut script, Refusal::NotLevel);
    script.crash([2]);
    assert_refused(&mut script, Refusal::LogFull);
    script.crash([1]);
    assert_refused(&mut script, Refusal::TooFewLit);
}

/// 22 before 12, 11 before 12, and 12 by the lit ones' orders alone.
#[test]
fn nothing_pending() {
    let mut script = run_of(3, 1, &[(5, 2)]);
    script.crash([2]);
    assert_refused(&mut script, Refusal::NothingPending);
    set(&mut script, 1, Record { slot: 1, ..Record::default() });
    assert_refused(&mut script, Refusal::NotLevel);
}

/// "3, 2, 23": a spoiled record of a crashed one too, then each memory and the strip one short.
#[test]
fn three_and_two_come_first() {
    let mut script = run_of(3, 1, &[(5, 0)]);
    script.crash(0..3);
    let mut short = [(); 4].map(|()| script.memories.clone());
    short[0].words.pop();
    short[1].orders.pop();
    short[2].ballots.pop();
    short[3].strip.pop();
    for memories in short {
        script.memories = memories;
        assert_refused(&mut script, Refusal::ShortTable);
    }
    set(&mut script, 2, Record { crashed: 1, round: 5, ..Record::default() });
    assert_refused(&mut script, Refusal::SpoiledRecord);
    script.numbers.phases = 0;
    assert_refused(&mut script, Refusal::SpoiledRecord);
}

/// What it plans before the first step it does not plan again. Replica 1 has the tag in its log: it begins with
/// another, or not at all, and what it is refused is passed over.
#[test]
fn refused_inner_steps_are_passed_over() {
    let logged = |n, f, others: &[(u64, usize)]| {
        let mut script = run_of(n, f, others);
        script.share(7, [0]);
        (0..n).for_each(|who| set(&mut script, who, Record { slot: 1, ..Record::default() }));
        script.memories.orders[script.numbers.log_cell(1, 0)] = 7;
        script
    };
    // Two of three begin and close: 2 begins, 2 hears and 2 advances a round, and a third that hears both.
    let mut script = logged(3, 1, &[]);
    assert_eq!(conducted(&mut script), counts(2 + 3 * (2 + 2 + 2), 2));
    assert_eq!((log(&script, 0), script.slot(1), log(&script, 2)), (&[0, 7][..], 1, &[0, 7][..]));
    // Without a spare two are too few, and stay in the exchange.
    let mut script = logged(3, 0, &[]);
    assert_eq!(conducted(&mut script), counts(2 + 4, 2));
    let rounds = [0, 1, 2].map(|who| script.memories.record(who).map(|record| record.round));
    assert_eq!(rounds, [EXCHANGE, IDLE, EXCHANGE].map(Some));
    // Two of two have no majority: all steps are accepted, and the slot closes empty.
    let mut script = logged(2, 0, &[(9, 1)]);
    assert_eq!(conducted(&mut script), counts(14, 1));
    assert_eq!((log(&script, 0), log(&script, 1)), (&[0, 0][..], &[7, 0][..]));
}

/// "in phase 1's state and vote rounds": one phase is enough, and the coin is never asked.
#[test]
fn one_phase_and_any_strip() {
    let mut script = Script::open(&Numbers { n: 4, f: 1, slots: 1, phases: 1, room: 1 });
    script.share(7, [3]);
    for coin in [0, 1] {
        let mut memories = script.memories.clone();
        memories.strip.fill(coin);
        assert_eq!(conduct(&script.numbers, &mut memories), counts(52, 3));
    }
}

/// "It hears no notices."
#[test]
fn no_notice_is_heard() {
    let mut script = run_of(3, 1, &[(7, 0)]);
    assert_eq!(conducted(&mut script), counts(30, 2));
    let notice = Message { sort: Sort::Notice, slot: 0, phase: 0 };
    let Script { numbers, memories, .. } = &script;
    for (receiver, sender) in [(0, 1), (1, 0), (2, 0)] {
        assert!(!memories.was_heard(numbers, notice, sender, receiver));
    }
}
