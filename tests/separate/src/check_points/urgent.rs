//! Request 5 of document 02, urgent orders first. The conductor's stand beside it.

use super::{heard_proposals, opened};
use crate::memories::{Memories, ONE, ZERO};
use crate::numbers::Numbers;
use crate::rank::{first_ranked, RANKED, URGENT};
use crate::refusal::Refusal;
use crate::rules::{self, Advanced, Submitted};
use crate::script::Script;

/// A run in which replica 0 has submitted these, in this order.
fn with_pending(tags: &[u64]) -> (Numbers, Memories) {
    let (numbers, mut memories) = opened(3, 1);
    for &tag in tags {
        assert_eq!(rules::submit(&numbers, 0, tag, &mut memories), Ok(Submitted::New));
    }
    (numbers, memories)
}

fn proposed(tags: &[u64]) -> Result<u64, Refusal> {
    let (numbers, mut memories) = with_pending(tags);
    rules::begin(&numbers, 0, &mut memories)
}

#[test]
fn of_two_pending_tags_the_first_ranked_is_proposed() {
    for (first, other) in RANKED {
        assert_eq!(proposed(&[first, other]), Ok(first));
        assert_eq!(proposed(&[other, first]), Ok(first));
    }
}

/// From the first to the last, taken away one by one.
#[test]
fn all_ranks_in_a_row() {
    let row = [URGENT, URGENT + 1, URGENT + 9, u64::MAX - 1, u64::MAX, 1, 9, 1 << 31, 1 << 62, URGENT - 1];
    for start in 0..row.len() {
        assert_eq!(first_ranked(row[start..].iter().copied()), Some(row[start]));
        assert_eq!(first_ranked(row[start..].iter().rev().copied()), Some(row[start]));
    }
    assert_eq!(first_ranked([].into_iter()), None);
}

/// "Turned away: as before.": 2^63 is a tag, and x + 2^63 another one than x.
#[test]
fn refusals_go_by_the_whole_number() {
    let (numbers, mut memories) = with_pending(&[URGENT, 5]);
    let mut relay = |who, tag| rules::relay(&numbers, who, tag, &mut memories);
    assert_eq!(relay(1, URGENT + 5), Err(Refusal::UnknownTag));
    assert_eq!(relay(1, 0), Err(Refusal::BlankTag));
    assert_eq!((relay(1, URGENT), relay(1, URGENT)), (Ok(()), Err(Refusal::Held)));
    let mut submit = |tag| rules::submit(&numbers, 0, tag, &mut memories);
    assert_eq!(submit(URGENT + 5), Ok(Submitted::New));
    assert_eq!((submit(5), submit(URGENT + 5)), (Err(Refusal::Held), Err(Refusal::Held)));
    assert_eq!((submit(9), submit(URGENT + 9)), (Ok(Submitted::New), Err(Refusal::TagRoomFull)));
}

/// x + 2^63 in the log leaves x pending, and proposals of both have no majority.
#[test]
fn logs_and_majorities_go_by_the_whole_number() {
    let mut script = Script::open(&Numbers { n: 1, f: 0, slots: 3, phases: 1, room: 2 });
    [5, URGENT + 5].into_iter().for_each(|tag| script.share(tag, [0]));
    for _ in 0..3 {
        script.begin([0]);
        script.run_on([0]);
    }
    assert_eq!(script.memories.log(&script.numbers, 0, script.slot(0)), [URGENT + 5, 5]);
    for (tags, state) in [([5, 5], ONE), ([5, URGENT + 5], ZERO)] {
        let (numbers, mut memories) = heard_proposals(3, 1, &tags);
        assert_eq!(rules::advance(&numbers, 0, &mut memories), Ok(Advanced::Exchanged(state)));
    }
}
