//! Logs laid out for the archive, and back.

use rushhopper::archive::{entries, planes, to_entries, to_planes, MOST_ENTRIES, MOST_STORED};
use rushhopper::{Message, Numbers, Phase, Plan, Rack, Refusal, Replica, Slot, URGENT};

/// What an output is filled with first, to see what a call has touched.
const UNTOUCHED: u8 = 165;
const UNTOUCHED_ENTRY: u64 = u64::from_ne_bytes([UNTOUCHED; 8]);

/// Numbers of no order.
fn log(count: usize) -> Vec<u64> {
    (1..=count as u64).map(|number| number.wrapping_mul(0x9e37_79b9_7f4a_7c15)).collect()
}

/// So many bytes of no order.
fn bytes(count: usize) -> Vec<u8> {
    log(count).into_iter().map(|number| number.to_le_bytes()[3]).collect()
}

/// As the request's text has it: plane by plane, the highest first, and in each the byte of every entry.
fn laid_out(entries: &[u64]) -> Vec<u8> {
    (0..8).flat_map(|plane| entries.iter().map(move |entry| entry.to_be_bytes()[plane])).collect()
}

fn sorted(mut bytes: Vec<u8>) -> Vec<u8> {
    bytes.sort_unstable();
    bytes
}

#[test]
fn the_highest_bytes_come_first() {
    let log = [0x0102_0304_0506_0708, URGENT + 9, 0];
    let stored = vec![1, 128, 0, 2, 0, 0, 3, 0, 0, 4, 0, 0, 5, 0, 0, 6, 0, 0, 7, 0, 0, 8, 9, 0];
    assert_eq!(entries(&stored), Ok(log.to_vec()));
    assert_eq!(planes(&log), Ok(stored));
}

/// Doing both, from either side, returns the start; the bytes are the same, each as often.
#[test]
fn both_ways() {
    for count in (0..=20).chain([255, 256, 257, 1000, 1023, 1024]) {
        let log = log(count);
        let stored = planes(&log).expect("as many as are taken");
        let own = log.iter().flat_map(|entry| entry.to_ne_bytes()).collect();
        assert_eq!(entries(&stored), Ok(log));
        assert_eq!(sorted(stored), sorted(own));
        let stored = bytes(8 * count);
        let log = entries(&stored).expect("as many as are taken");
        assert_eq!(planes(&log), Ok(stored));
    }
}

#[test]
fn what_is_past_the_result_is_not_touched() {
    for count in [0, 1, 2, 255, 256, 1023, 1024] {
        let log = log(count);
        let mut stored = vec![UNTOUCHED; MOST_STORED + 9];
        assert_eq!(to_planes(&log, &mut stored), Ok(()));
        assert_eq!(stored[..8 * count], laid_out(&log));
        assert_eq!(stored[8 * count..], vec![UNTOUCHED; MOST_STORED + 9 - 8 * count]);
        let mut back = vec![UNTOUCHED_ENTRY; MOST_ENTRIES + 2];
        assert_eq!(to_entries(&stored[..8 * count], &mut back), Ok(()));
        assert_eq!(back[..count], log);
        assert_eq!(back[count..], vec![UNTOUCHED_ENTRY; MOST_ENTRIES + 2 - count]);
    }
}

/// Each while the later refusal is due too, and the lengths on both sides of it.
#[test]
fn refusals_of_entries() {
    for (count, room, answer) in [
        (0, 0, Ok(())),
        (1, 8, Ok(())),
        (1024, 8192, Ok(())),
        (1025, 8200, Err(Refusal::BadPlan)),
        (1025, 8199, Err(Refusal::BadPlan)),
        (1025, 0, Err(Refusal::BadPlan)),
        (100_000, 800_000, Err(Refusal::BadPlan)),
        (1024, 8191, Err(Refusal::ShortTable)),
        (2, 15, Err(Refusal::ShortTable)),
        (1, 7, Err(Refusal::ShortTable)),
        (1, 0, Err(Refusal::ShortTable)),
    ] {
        let mut stored = vec![UNTOUCHED; room];
        assert_eq!(to_planes(&log(count), &mut stored), answer, "{count} entries to {room} bytes");
        assert!(answer.is_ok() || stored == vec![UNTOUCHED; room]);
    }
    assert_eq!(planes(&log(1025)), Err(Refusal::BadPlan));
    assert_eq!((MOST_ENTRIES, Numbers::LARGEST.slots), (1024, 1024));
}

#[test]
fn refusals_of_stored_bytes() {
    for (count, room, answer) in [
        (0, 0, Ok(())),
        (8, 1, Ok(())),
        (8192, 1024, Ok(())),
        (8200, 1025, Err(Refusal::BadPlan)),
        (8193, 1025, Err(Refusal::BadPlan)),
        (8193, 0, Err(Refusal::BadPlan)),
        (800_000, 100_000, Err(Refusal::BadPlan)),
        (8191, 1024, Err(Refusal::OddLength)),
        (8191, 0, Err(Refusal::OddLength)),
        (12, 2, Err(Refusal::OddLength)),
        (9, 2, Err(Refusal::OddLength)),
        (9, 0, Err(Refusal::OddLength)),
        (7, 1, Err(Refusal::OddLength)),
        (1, 0, Err(Refusal::OddLength)),
        (8192, 1023, Err(Refusal::ShortTable)),
        (16, 1, Err(Refusal::ShortTable)),
        (8, 0, Err(Refusal::ShortTable)),
    ] {
        let mut log = vec![UNTOUCHED_ENTRY; room];
        assert_eq!(to_entries(&bytes(count), &mut log), answer, "{count} bytes to {room} entries");
        assert!(answer.is_ok() || log == vec![UNTOUCHED_ENTRY; room]);
    }
    for (count, refusal) in [(8193, Refusal::BadPlan), (8200, Refusal::BadPlan), (9, Refusal::OddLength)] {
        assert_eq!(entries(&bytes(count)), Err(refusal));
    }
    assert_eq!((MOST_STORED, Refusal::OddLength.number()), (8192, 24));
}

/// Replicas 0 and 1 close slot 0 as empty, since they propose different orders; replica 2 hears of it and orders something.
#[test]
fn a_log_with_an_empty_slot() -> Result<(), Refusal> {
    let numbers = Numbers { n: 3, f: 1, slots: 2, phases: 0, room: 4 };
    let mut rack = Rack::open(Plan { numbers, start: 0 })?;
    let (zero, one, two, slot, phase) = (Replica(0), Replica(1), Replica(2), Slot(0), Phase(1));
    assert_eq!(planes(rack.log(zero)), Ok(vec![]));
    for (who, tag) in [(zero, 7), (one, 9)] {
        rack.submit(who, tag)?;
        rack.begin(who)?;
    }
    for message in [Message::Proposal(slot), Message::State(slot, phase), Message::Vote(slot, phase)] {
        rack.hear(zero, one, message)?;
        rack.hear(one, zero, message)?;
        rack.advance(zero)?;
        rack.advance(one)?;
    }
    rack.hear(two, zero, Message::Notice(slot))?;
    rack.advance(two)?;
    rack.submit(two, URGENT + 5)?;
    rack.conduct()?;
    for who in rack.replicas() {
        let stored = planes(rack.log(who))?;
        assert_eq!(stored, [0, 128, 0, 0, 0, 0, 0, 0, 0, 0, 0, 0, 0, 0, 0, 5]);
        assert_eq!(entries(&stored)?, rack.log(who));
    }
    assert_eq!(planes(rack.log(Replica(3))), Ok(vec![]));
    Ok(())
}
