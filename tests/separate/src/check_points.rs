//! Document 01's check points C1 to C10, "Further" and its worked session, and refusals 3 and 2 of short memories; C11
//! stands beside the coin table. Those of document 02 stand in a file for each request.

mod archive;
mod bands;
mod conductor;
mod counts;
mod notices;
mod phases;
mod urgent;

use crate::call::{Call, Done};
use crate::memories::{bit, Memories, Record, EXCHANGE, IDLE, ONE, STATE, UNDECIDED, VOTE, ZERO};
use crate::numbers::{Message, Numbers, Sort, LARGEST};
use crate::refusal::Refusal;
use crate::rules::{self, Advanced, Ran, Stop};
use crate::step_file::{report, write_record, Form};

const PROPOSALS: Message = Message { sort: Sort::Proposal, slot: 0, phase: 0 };

fn opened(n: usize, f: usize) -> (Numbers, Memories) {
    let numbers = Numbers { n, f, slots: 2, phases: 4, room: 4 };
    let mut memories = Memories::of_run(&numbers);
    assert_eq!(rules::open(&numbers, 0, &mut memories), Ok(numbers));
    (numbers, memories)
}

/// A run in which replica 0 is in the exchange of slot 0 and has heard these proposals.
fn heard_proposals(n: usize, f: usize, tags: &[u64]) -> (Numbers, Memories) {
    let (numbers, mut memories) = opened(n, f);
    for (sender, &tag) in tags.iter().enumerate() {
        memories.send_proposal(&numbers, 0, sender, tag);
        memories.words[numbers.heard_cell(PROPOSALS, sender)] |= bit(0);
    }
    memories.set_record(0, Record { round: EXCHANGE, ..Record::default() });
    (numbers, memories)
}

/// A run in which replica 0 has heard these states or votes of phase 1 and is in that round of the slot.
fn heard_ballots(numbers: &Numbers, message: Message, words: &[u8]) -> Memories {
    let mut memories = Memories::of_run(numbers);
    assert_eq!(rules::open(numbers, 0, &mut memories), Ok(*numbers));
    for (sender, &word) in words.iter().enumerate() {
        memories.send_ballot(numbers, message, sender, word);
        memories.words[numbers.heard_cell(message, sender)] |= bit(0);
    }
    let round = if message.sort == Sort::State { STATE } else { VOTE };
    let (slot, phase) = (message.slot as u16, message.phase as u16);
    memories.set_record(0, Record { round, slot, phase, ..Record::default() });
    memories
}

fn advance_on_votes(n: usize, f: usize, slot: usize, words: &[u8]) -> Result<Advanced, Refusal> {
    let numbers = Numbers { n, f, slots: 2, phases: 4, room: 4 };
    let mut memories = heard_ballots(&numbers, Message { sort: Sort::Vote, slot, phase: 1 }, words);
    rules::advance(&numbers, 0, &mut memories)
}

#[test]
fn c1_one_replica_closes() {
    let (numbers, mut memories) = opened(1, 0);
    assert_eq!(rules::submit(&numbers, 0, 7, &mut memories), Ok(rules::Submitted::New));
    assert_eq!(rules::begin(&numbers, 0, &mut memories), Ok(7));
    assert_eq!(rules::advance(&numbers, 0, &mut memories), Ok(Advanced::Exchanged(ONE)));
    assert_eq!(rules::advance(&numbers, 0, &mut memories), Ok(Advanced::Voted(ONE)));
    assert_eq!(rules::advance(&numbers, 0, &mut memories), Ok(Advanced::ClosedWith(7)));
    assert_eq!(
        (memories.log(&numbers, 0, 1), memories.record(0)),
        (&[7][..], Some(Record { round: IDLE, slot: 1, phase: 1, fast: 1, ..Record::default() }))
    );
}

#[test]
fn c1_by_run_on() {
    let (numbers, mut memories) = opened(1, 0);
    assert_eq!(rules::submit(&numbers, 0, 7, &mut memories), Ok(rules::Submitted::New));
    assert_eq!(rules::begin(&numbers, 0, &mut memories), Ok(7));
    assert_eq!(
        rules::run_on(&numbers, 0, &mut memories),
        Ok(Ran { advances: 3, stop: Stop::Closed(Advanced::ClosedWith(7)) })
    );
}

#[test]
fn c2_c3_c4_states_of_the_exchange() {
    for (n, tags, state) in [(3, vec![5, 5], ONE), (3, vec![5, 9], ZERO), (4, vec![5, 5, 9], ZERO)] {
        let (numbers, mut memories) = heard_proposals(n, 1, &tags);
        assert_eq!(rules::advance(&numbers, 0, &mut memories), Ok(Advanced::Exchanged(state)));
    }
}

#[test]
fn c5_no_majority_of_states() {
    let numbers = Numbers { n: 4, f: 1, slots: 2, phases: 4, room: 4 };
    let states = Message { sort: Sort::State, slot: 0, phase: 1 };
    let mut memories = heard_ballots(&numbers, states, &[ONE, ONE, ZERO]);
    assert_eq!(rules::advance(&numbers, 0, &mut memories), Ok(Advanced::Voted(UNDECIDED)));
}

/// No proposal is heard here, so the outcome 1 of C6 shows as the find round.
#[test]
fn c6_c7_votes() {
    assert_eq!(advance_on_votes(5, 1, 0, &[ONE, ONE, UNDECIDED, UNDECIDED]), Ok(Advanced::EnteredFind));
    assert_eq!(advance_on_votes(5, 2, 0, &[ONE, ONE, UNDECIDED]), Ok(Advanced::NextByVote(ONE)));
}

/// C8 speaks of entry 32, so of the coin table: slot 1, phase 1.
#[test]
fn c8_coin() {
    assert_eq!(crate::coin::pattern()[32], 0);
    assert_eq!(advance_on_votes(3, 1, 1, &[UNDECIDED, UNDECIDED]), Ok(Advanced::NextByCoin(ZERO)));
}

#[test]
fn c9_find() {
    let (numbers, mut memories) = heard_proposals(3, 1, &[5, 9, 5]);
    memories.words[numbers.heard_cell(PROPOSALS, 2)] = bit(2);
    let votes = Message { sort: Sort::Vote, slot: 0, phase: 1 };
    for sender in 0..2 {
        memories.send_ballot(&numbers, votes, sender, ONE);
        memories.words[numbers.heard_cell(votes, sender)] |= bit(0);
    }
    memories.set_record(0, Record { round: VOTE, phase: 1, ..Record::default() });
    assert_eq!(rules::advance(&numbers, 0, &mut memories), Ok(Advanced::EnteredFind));
    assert_eq!(rules::advance(&numbers, 0, &mut memories), Err(Refusal::TooFewHeard));
    assert_eq!(rules::hear(&numbers, 0, 2, 1, 0, 0, &mut memories), Ok(()));
    assert_eq!(rules::advance(&numbers, 0, &mut memories), Ok(Advanced::Found(5)));
    assert_eq!(memories.log(&numbers, 0, 1), [5]);
}

/// "Case C10 is unchanged; add pending 5 and 2^63 + 9, which proposes 2^63 + 9."
#[test]
fn c10_first_ranked_pending() {
    for (tags, first) in [([9, 5], 5), ([5, 9_223_372_036_854_775_817], 9_223_372_036_854_775_817)] {
        let (numbers, mut memories) = opened(3, 1);
        for tag in tags {
            assert_eq!(rules::submit(&numbers, 0, tag, &mut memories), Ok(rules::Submitted::New));
        }
        assert_eq!(rules::begin(&numbers, 0, &mut memories), Ok(first));
    }
}

#[test]
fn further_openings() {
    let mut memories = Memories::of_run(&LARGEST);
    let mut answer = |n, f, slots, start| {
        rules::open(&Numbers { n, f, slots, phases: 0, room: 256 }, start, &mut memories)
            .map(|numbers| numbers.phases)
    };
    assert_eq!(answer(4, 2, 1, 0), Err(Refusal::BadPlan));
    assert_eq!(answer(5, 2, 1, 0), Ok(16));
    assert_eq!(answer(5, 2, 64, 510), Ok(16));
    // document 01 refuses it, document 02 does not
    assert_eq!(answer(5, 2, 65, 0), Ok(16));
    assert_eq!(answer(5, 2, 64, 511), Err(Refusal::BadPlan));
}

#[test]
fn further_hearing_oneself() {
    let (numbers, mut memories) = heard_proposals(3, 1, &[5]);
    assert_eq!(rules::hear(&numbers, 0, 0, 1, 0, 0, &mut memories), Err(Refusal::Heard));
    assert_eq!(rules::hear(&numbers, 0, 0, 2, 0, 1, &mut memories), Err(Refusal::Unsent));
}

/// The mark of one's own proposal is missing: it is heard all the same.
#[test]
fn ones_own_counts_without_its_mark() {
    let (numbers, mut memories) = heard_proposals(3, 1, &[5, 5]);
    memories.words[numbers.heard_cell(PROPOSALS, 0)] = 0;
    assert_eq!(rules::hear(&numbers, 0, 0, 1, 0, 0, &mut memories), Err(Refusal::Heard));
    assert_eq!(rules::advance(&numbers, 0, &mut memories), Ok(Advanced::Exchanged(ONE)));
}

/// Refusal 3 before 2, for as much of the words as is there: no word at all, a count, records whole and in part.
#[test]
fn short_words_are_judged_as_far_as_they_go() {
    let (numbers, whole) = opened(3, 1);
    let answer = |words: &[u16]| {
        let mut memories = Memories { words: words.to_vec(), ..whole.clone() };
        rules::begin(&numbers, 0, &mut memories)
    };
    assert_eq!(answer(&[]), Err(Refusal::ShortTable));
    assert_eq!(answer(&[4]), Err(Refusal::ShortTable));
    assert_eq!(answer(&[5]), Err(Refusal::SpoiledRecord));
    assert_eq!(answer(&[0, 0, 9, 0, 0, 0]), Err(Refusal::ShortTable));
    assert_eq!(answer(&[0, 0, 9, 0, 0, 0, 0]), Err(Refusal::SpoiledRecord));
    assert_eq!(answer(&[0, 0, 0, 0, 0, 0, 0, 0, 9, 0, 0, 0]), Err(Refusal::ShortTable));
    assert_eq!(answer(&[0, 0, 0, 0, 0, 0, 0, 0, 9, 0, 0, 0, 0]), Err(Refusal::SpoiledRecord));
}

/// Behind the records of three replicas stand the holders, which five replicas' numbers take for records.
#[test]
fn records_are_there_by_the_numbers_of_the_call() {
    let (numbers, mut memories) = opened(3, 1);
    memories.words[19 + 1] = 9;
    assert_eq!(rules::begin(&numbers, 0, &mut memories), Err(Refusal::NothingPending));
    let more = Numbers { n: 5, ..numbers };
    assert_eq!(rules::begin(&more, 0, &mut memories), Err(Refusal::SpoiledRecord));
    memories.words[19 + 1] = 0;
    assert_eq!(rules::begin(&more, 0, &mut memories), Err(Refusal::ShortTable));
}

#[test]
fn a_crash_of_a_record_that_is_not_there() {
    let (numbers, mut memories) = opened(3, 1);
    memories.words.truncate(12);
    let mut answer = |who| Call::Crash { who }.make(&numbers, &mut memories);
    assert_eq!(answer(1), Err(Refusal::ShortTable));
    assert_eq!(answer(3), Err(Refusal::NoSuchBench));
    assert_eq!(answer(0), Ok(Done::Crashed));
    assert_eq!(answer(0), Err(Refusal::Dark));
    let beyond = Numbers { n: 16, ..numbers };
    assert_eq!(Call::Crash { who: 1 }.make(&beyond, &mut memories), Err(Refusal::SpoiledRecord));
}

/// The calls of the document's input: slot 0, phase 1 throughout.
fn worked_session() -> Vec<Call> {
    let hear = |receiver, sender, sort| {
        let phase = if sort == 1 { 0 } else { 1 };
        Call::Hear { receiver, sender, sort, slot: 0, phase }
    };
    let advance = |who| Call::Advance { who };
    let begin = |who| Call::Begin { who };
    let plan = Numbers { n: 3, f: 1, slots: 2, phases: 4, room: 4 };
    let mut calls = vec![Call::Open { plan, start: 0 }];
    calls.extend([Call::Submit { who: 0, tag: 5 }, Call::Relay { who: 1, tag: 5 }]);
    calls.extend([Call::Submit { who: 2, tag: 9 }, begin(0), begin(1), begin(2)]);
    calls.extend([hear(0, 1, 1), advance(0), hear(1, 0, 1), advance(1)]);
    calls.extend([hear(0, 1, 2), advance(0), hear(1, 0, 2), advance(1)]);
    calls.extend([hear(0, 1, 3), advance(0), advance(0), hear(2, 0, 3), advance(2)]);
    calls.extend([Call::Crash { who: 1 }, hear(0, 1, 3)]);
    calls
}

const WORKED_INPUT: &str = "00 03 01 02 04 04 00 00 00  01 00 05 00 00 00 00 00 00 00  02 01 05 00 00 00 00 00 00 00 \
     01 02 09 00 00 00 00 00 00 00  03 00  03 01  03 02  04 00 01 01 00 00  05 00  04 01 00 01 00 00  05 01 \
     04 00 01 02 00 01  05 00  04 01 00 02 00 01  05 01  04 00 01 03 00 01  05 00  05 00  04 02 00 03 00 01  05 02 \
     06 01  04 00 01 03 00 01";

const WORKED_OUTPUT: &str = "controllers 3 spare 1
refused 18 13
refused 20 14
refused 22 18
bench 0 lit 1 5
bench 1 dark 0
bench 2 lit 0
";

#[test]
fn worked_session_byte_for_byte() {
    let mut written = Vec::new();
    for call in worked_session() {
        write_record(&mut written, &call, Form::Old);
    }
    let input: Result<Vec<u8>, _> =
        WORKED_INPUT.split_whitespace().map(|byte| u8::from_str_radix(byte, 16)).collect();
    assert_eq!(input, Ok(written.clone()));
    assert_eq!(String::from_utf8(report(&written)).as_deref(), Ok(WORKED_OUTPUT));
}

#[test]
fn empty_input_gives_empty_output() {
    assert!(report(&[]).is_empty());
}

#[test]
fn reading_stops_at_19_and_20_and_the_benches_follow() {
    let opening = [0, 1, 0, 1, 1, 1, 0, 0, 0];
    let benches = "bench 0 lit 0\n";
    let output = |tail: &[u8]| String::from_utf8(report(&[&opening, tail].concat())).expect("text");
    assert_eq!(output(&[10, 3, 0]), format!("controllers 1 spare 0\nrefused 2 19\n{benches}"));
    assert_eq!(output(&[0, 1, 0]), format!("controllers 1 spare 0\nrefused 2 20\n{benches}"));
    assert_eq!(output(&opening), format!("controllers 1 spare 0\nrefused 2 21\n{benches}"));
    assert_eq!(report(&[3, 0, 3]), b"refused 1 21\nrefused 2 20\n");
}

#[test]
fn larger_openings_are_short_after_1_and_21() {
    assert_eq!(report(&[0, 8, 0, 1, 1, 1, 0, 0, 0]), b"refused 1 2\n");
    assert_eq!(report(&[0, 1, 0, 1, 17, 1, 0, 0, 0]), b"refused 1 2\n");
    assert_eq!(report(&[0, 8, 4, 1, 1, 1, 0, 0, 0]), b"refused 1 1\n");
}

/// A record that ends at byte 65,536 is whole, one that goes on is cut, and what follows is not read.
#[test]
fn first_65536_bytes_only() {
    let opening = [0, 1, 0, 1, 1, 1, 0, 0, 0];
    let crash = [6, 0];
    let whole = [&opening[..], &opening[..], &crash.repeat(32_759)].concat();
    assert_eq!(whole.len(), 65_536);
    let ends = |input: &[u8], end: &str| {
        String::from_utf8_lossy(&report(input)).ends_with(&format!("{end}\nbench 0 dark 0\n"))
    };
    assert!(ends(&whole, "refused 32761 5"));
    assert!(ends(&[&whole[..], &[6, 0]].concat(), "refused 32761 5"));
    // One opening more, and the last crash stands across the end.
    assert!(ends(&[&opening[..], &whole].concat(), "refused 32758 20"));
}
