//! Request 1 of document 02, controllers left behind.

use super::{heard_ballots, heard_proposals, opened, worked_session, WORKED_OUTPUT};
use crate::call::Call;
use crate::memories::{bit, Memories, Record, EXCHANGE, FIND, IDLE, ONE, STATE, UNDECIDED, VOTE, ZERO};
use crate::numbers::{Message, Numbers, Sort};
use crate::refusal::Refusal;
use crate::rules::{self, Advanced, Ran, Stop};
use crate::step_file::{report, write_record, Form};

const NOTICE: usize = 4;

fn accept(numbers: &Numbers, memories: &mut Memories, calls: &[Call]) {
    for call in calls {
        assert!(call.make(numbers, memories).is_ok(), "{call:?}");
    }
}

/// Of slot 0; states and votes of phase 1.
fn hear(receiver: usize, sender: usize, sort: usize) -> Call {
    let phase = if sort == 2 || sort == 3 { 1 } else { 0 };
    Call::Hear { receiver, sender, sort, slot: 0, phase }
}

fn advance(who: usize) -> Call {
    Call::Advance { who }
}

/// n 3, f 1: replicas 0 and 1 close slot 0 with 5 in phase 1, while 2 goes on to phase 2 by a single vote for 1.
fn left_in_phase_2() -> (Numbers, Memories) {
    let (numbers, mut memories) = opened(3, 1);
    let tags =
        [Call::Submit { who: 0, tag: 5 }, Call::Relay { who: 1, tag: 5 }, Call::Submit { who: 2, tag: 9 }];
    accept(&numbers, &mut memories, &tags);
    accept(&numbers, &mut memories, &[0, 1, 2].map(|who| Call::Begin { who }));
    for sort in 1..=3 {
        accept(&numbers, &mut memories, &[hear(0, 1, sort), hear(1, 0, sort), hear(2, 0, sort)]);
        accept(&numbers, &mut memories, &[0, 1, 2].map(advance));
    }
    (numbers, memories)
}

/// A run in which the first replicas have closed slot 0 with these entries, and the last one is idle in it.
fn closed_with(entries: &[u64]) -> (Numbers, Memories) {
    let (numbers, mut memories) = opened(entries.len() + 1, 0);
    for (replica, &entry) in entries.iter().enumerate() {
        memories.send_notice(&numbers, 0, replica, entry);
        memories.set_record(replica, Record { slot: 1, ..Record::default() });
    }
    (numbers, memories)
}

fn hear_notice(
    numbers: &Numbers,
    memories: &mut Memories,
    receiver: usize,
    sender: usize,
) -> Result<(), Refusal> {
    rules::hear(numbers, receiver, sender, NOTICE, 0, 0, memories)
}

/// "two can close in phase 1 while the third waits in phase 2 for ever": until it hears a notice.
#[test]
fn the_third_of_three_is_not_left_behind() {
    let (numbers, mut memories) = left_in_phase_2();
    let record = Record { round: STATE, phase: 2, ..Record::default() };
    assert_eq!(memories.record(2), Some(record));
    accept(&numbers, &mut memories, &[hear(2, 1, 1), hear(2, 1, 2), hear(2, 1, 3)]);
    assert_eq!(rules::advance(&numbers, 2, &mut memories), Err(Refusal::TooFewHeard));
    assert_eq!(rules::run_on(&numbers, 2, &mut memories), Err(Refusal::TooFewHeard));
    assert_eq!(hear_notice(&numbers, &mut memories, 2, 1), Ok(()));
    assert_eq!(rules::advance(&numbers, 2, &mut memories), Ok(Advanced::ByNotice { round: STATE, entry: 5 }));
    assert_eq!((memories.log(&numbers, 2, 1), memories.log(&numbers, 0, 1)), (&[5][..], &[5][..]));
    assert_eq!(memories.record(2), Some(Record { round: IDLE, slot: 1, ..record }));
}

/// "13 only while idle with no notice heard for the next slot".
#[test]
fn idle_before_the_slot() {
    let (numbers, mut memories) = closed_with(&[7, 7]);
    assert_eq!(rules::advance(&numbers, 2, &mut memories), Err(Refusal::Idle));
    assert_eq!(hear_notice(&numbers, &mut memories, 2, 0), Ok(()));
    assert_eq!(rules::advance(&numbers, 2, &mut memories), Ok(Advanced::ByNotice { round: IDLE, entry: 7 }));
    assert_eq!(rules::advance(&numbers, 2, &mut memories), Err(Refusal::Idle));
}

/// Entries that differ stand in damaged memories only; they show whose notice counts.
#[test]
fn of_several_notices_the_lowest_senders() {
    for (senders, entry) in [(vec![0, 1, 2], 7), (vec![2, 1], 8), (vec![2], 9)] {
        let (numbers, mut memories) = closed_with(&[7, 8, 9]);
        for sender in senders {
            assert_eq!(hear_notice(&numbers, &mut memories, 3, sender), Ok(()));
        }
        assert_eq!(rules::advance(&numbers, 3, &mut memories), Ok(Advanced::ByNotice { round: IDLE, entry }));
    }
}

#[test]
fn a_notice_of_an_empty_slot() {
    let (numbers, mut memories) = closed_with(&[0, 7]);
    for sender in 0..2 {
        assert_eq!(hear_notice(&numbers, &mut memories, 2, sender), Ok(()));
    }
    assert_eq!(rules::advance(&numbers, 2, &mut memories), Ok(Advanced::ByNotice { round: IDLE, entry: 0 }));
    assert_eq!(memories.log(&numbers, 2, 1), [0]);
}

/// "16 now lets sort 4 through", with phase 0 alone and slots of the run.
#[test]
fn no_such_notice() {
    let (numbers, mut memories) = closed_with(&[7, 7]);
    let mut answer = |sort, slot, phase| rules::hear(&numbers, 2, 0, sort, slot, phase, &mut memories);
    assert_eq!(answer(4, 0, 1), Err(Refusal::NoSuchMessage));
    assert_eq!(answer(4, 2, 0), Err(Refusal::NoSuchMessage));
    assert_eq!(answer(5, 0, 0), Err(Refusal::NoSuchMessage));
    assert_eq!(answer(5, 0, 1), Err(Refusal::NoSuchMessage));
    assert_eq!(answer(4, 1, 0), Err(Refusal::Unsent));
    assert_eq!(answer(4, 0, 0), Ok(()));
}

/// "17 if the sender hasn't closed that slot", whatever its log holds; 18 once heard, and for oneself.
#[test]
fn unsent_and_heard_notices() {
    let (numbers, mut memories) = closed_with(&[7, 0]);
    memories.orders[numbers.log_cell(1, 1)] = 6;
    assert_eq!(rules::hear(&numbers, 2, 1, NOTICE, 1, 0, &mut memories), Err(Refusal::Unsent));
    assert_eq!(hear_notice(&numbers, &mut memories, 2, 2), Err(Refusal::Unsent));
    assert_eq!(hear_notice(&numbers, &mut memories, 0, 0), Err(Refusal::Heard));
    memories.words[numbers.heard_cell(Message { sort: Sort::Notice, slot: 0, phase: 0 }, 0)] = 0;
    assert_eq!(hear_notice(&numbers, &mut memories, 0, 0), Err(Refusal::Heard));
    assert_eq!(hear_notice(&numbers, &mut memories, 2, 0), Ok(()));
    assert_eq!(hear_notice(&numbers, &mut memories, 2, 0), Err(Refusal::Heard));
    assert_eq!(hear_notice(&numbers, &mut memories, 2, 1), Ok(()));
    assert_eq!(hear_notice(&numbers, &mut memories, 0, 1), Ok(()));
}

/// "Sent messages can be heard later, also from a dark sender."
#[test]
fn a_notice_from_a_crashed_sender() {
    let (numbers, mut memories) = closed_with(&[7, 7]);
    accept(&numbers, &mut memories, &[Call::Crash { who: 0 }, hear(2, 0, NOTICE), advance(2)]);
    assert_eq!(memories.log(&numbers, 2, 1), [7]);
}

/// A run on stops since a slot is closed, though it could go on: the next slot's notice is heard too.
#[test]
fn run_on_by_a_notice_counts_1() {
    let (numbers, mut memories) = closed_with(&[7, 7]);
    memories.send_notice(&numbers, 1, 0, 6);
    memories.set_record(0, Record { slot: 2, ..Record::default() });
    assert_eq!(rules::run_on(&numbers, 2, &mut memories), Err(Refusal::Idle));
    assert_eq!(rules::hear(&numbers, 2, 0, NOTICE, 1, 0, &mut memories), Ok(()));
    assert_eq!(rules::run_on(&numbers, 2, &mut memories), Err(Refusal::Idle));
    assert_eq!(hear_notice(&numbers, &mut memories, 2, 0), Ok(()));
    for entry in [7, 6] {
        let stop = Stop::Closed(Advanced::ByNotice { round: IDLE, entry });
        assert_eq!(rules::run_on(&numbers, 2, &mut memories), Ok(Ran { advances: 1, stop }));
    }
}

/// An idle replica that has closed all slots has no next one.
#[test]
fn a_full_log_is_idle() {
    let (numbers, mut memories) = closed_with(&[7, 7]);
    memories.words[numbers.heard_start()..].fill(u16::MAX);
    for replica in 0..3 {
        memories.set_record(replica, Record { slot: 2, ..Record::default() });
    }
    assert_eq!(rules::advance(&numbers, 2, &mut memories), Err(Refusal::Idle));
    assert_eq!(rules::run_on(&numbers, 2, &mut memories), Err(Refusal::Idle));
}

#[test]
fn begin_looks_at_no_notice() {
    let (numbers, mut memories) = closed_with(&[7, 7]);
    accept(&numbers, &mut memories, &[hear(2, 0, NOTICE), Call::Submit { who: 2, tag: 9 }]);
    assert_eq!(rules::begin(&numbers, 2, &mut memories), Ok(9));
    let by_notice = Advanced::ByNotice { round: EXCHANGE, entry: 7 };
    assert_eq!(rules::advance(&numbers, 2, &mut memories), Ok(by_notice));
}

/// Replica 1 closes slot 0 with this entry, and replica 0 hears of it.
fn notify(numbers: &Numbers, memories: &mut Memories, entry: u64) {
    memories.send_notice(numbers, 0, 1, entry);
    memories.set_record(1, Record { slot: 1, ..Record::default() });
    assert_eq!(hear_notice(numbers, memories, 0, 1), Ok(()));
}

/// "ahead of every other rule": rounds that would go on, and one that is refused with 15.
#[test]
fn ahead_of_every_round() {
    let (numbers, exchange) = heard_proposals(3, 1, &[5, 5]);
    let states = Message { sort: Sort::State, slot: 0, phase: 1 };
    let votes = Message { sort: Sort::Vote, slot: 0, phase: numbers.phases };
    let state = heard_ballots(&numbers, states, &[ONE, ONE]);
    let used_up = heard_ballots(&numbers, votes, &[UNDECIDED, UNDECIDED]);
    assert_eq!(rules::advance(&numbers, 0, &mut used_up.clone()), Err(Refusal::PhasesUsedUp));
    let mut find = exchange.clone();
    find.set_record(0, Record { round: FIND, ..Record::default() });
    assert_eq!(rules::advance(&numbers, 0, &mut find.clone()), Ok(Advanced::Found(5)));
    for (round, mut memories) in [(EXCHANGE, exchange), (STATE, state), (VOTE, used_up), (FIND, find)] {
        notify(&numbers, &mut memories, 7);
        let by_notice = Advanced::ByNotice { round, entry: 7 };
        assert_eq!(rules::advance(&numbers, 0, &mut memories), Ok(by_notice));
    }
}

/// "Such a close completes no round": no state or vote is sent, and the closer's own notice is marked by it alone.
#[test]
fn what_a_close_by_notice_stores() {
    let (numbers, mut before) = left_in_phase_2();
    let own = numbers.heard_cell(Message { sort: Sort::Notice, slot: 0, phase: 0 }, 2);
    before.words[own] = u16::MAX;
    assert_eq!(hear_notice(&numbers, &mut before, 2, 0), Ok(()));
    let mut after = before.clone();
    let by_notice = Advanced::ByNotice { round: STATE, entry: 5 };
    assert_eq!(rules::advance(&numbers, 2, &mut after), Ok(by_notice));
    before.words[own] = bit(2);
    before.orders[numbers.log_cell(2, 0)] = 5;
    before.set_record(2, Record { round: IDLE, slot: 1, phase: 2, ..Record::default() });
    assert_eq!(before, after);
}

/// So does a close by votes.
#[test]
fn old_marks_of_a_notice_are_gone() {
    let numbers = Numbers { n: 3, f: 1, slots: 2, phases: 4, room: 4 };
    let votes = Message { sort: Sort::Vote, slot: 0, phase: 1 };
    let mut memories = heard_ballots(&numbers, votes, &[ZERO; 2]);
    let own = numbers.heard_cell(Message { sort: Sort::Notice, slot: 0, phase: 0 }, 0);
    memories.words[own] = u16::MAX;
    assert_eq!(rules::advance(&numbers, 0, &mut memories), Ok(Advanced::ClosedEmpty));
    assert_eq!(memories.words[own], bit(0));
    assert_eq!(hear_notice(&numbers, &mut memories, 1, 0), Ok(()));
}

/// Marks on notices that were not sent, and notices of other slots.
#[test]
fn notices_that_do_not_count() {
    let (numbers, mut memories) = left_in_phase_2();
    memories.words[numbers.heard_cell(Message { sort: Sort::Notice, slot: 1, phase: 0 }, 0)] = u16::MAX;
    assert_eq!(rules::advance(&numbers, 0, &mut memories), Err(Refusal::Idle));
    assert_eq!(rules::advance(&numbers, 1, &mut memories), Err(Refusal::Idle));
    assert_eq!(hear_notice(&numbers, &mut memories, 0, 1), Ok(()));
    assert_eq!(rules::advance(&numbers, 0, &mut memories), Err(Refusal::Idle));
    memories.set_record(0, Record { slot: 2, ..Record::default() });
    assert_eq!(rules::advance(&numbers, 2, &mut memories), Err(Refusal::TooFewHeard));
}

/// Document 01's session goes on: 2, in its exchange, hears 0's notice and closes.
#[test]
fn a_notice_in_a_step_file() {
    let mut file = Vec::new();
    let more = [hear(2, 0, NOTICE), advance(2), hear(2, 0, NOTICE), hear(2, 1, NOTICE)];
    for call in worked_session().iter().chain(&more) {
        write_record(&mut file, call, Form::Old);
    }
    let output = WORKED_OUTPUT
        .replace("bench 0", "refused 25 18\nrefused 26 17\nbench 0")
        .replace("bench 2 lit 0", "bench 2 lit 1 5");
    assert_eq!(String::from_utf8(report(&file)), Ok(output));
}
