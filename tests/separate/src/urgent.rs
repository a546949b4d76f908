//! What calls meet of urgent tags, told by the memories after them. The comparison programs count it; what the conductor meets
//! stands in `conducted`.

use crate::call::{Call, Done};
use crate::memories::Memories;
use crate::numbers::Numbers;
use crate::rank::{is_urgent, URGENT};
use crate::refusal::Refusal;
use crate::rules::{Advanced, Ran, Stop};
use crate::tally::{occurred, Facts};

pub const EVENTS: [&str; 12] = [
    "proposed an urgent tag, a smaller one waits",
    "proposed the smaller of two urgent tags",
    "proposed the smaller of two that are not urgent",
    "proposed 2^63, another waits",
    "proposed 2^64 - 1, another waits",
    "proposed x + 2^63, x waits",
    "proposed while an urgent tag waits at others only",
    "exchange with x and x + 2^63 heard",
    "closed with an urgent tag",
    "find closed with an urgent tag",
    "closed by notice with an urgent tag",
    "run on closed with an urgent tag",
];

/// The events of a call by these numbers.
pub fn met(
    call: &Call,
    numbers: &Numbers,
    result: &Result<Done, Refusal>,
    memories: &Memories,
) -> Vec<&'static str> {
    let Ok(done) = *result else { return Vec::new() };
    occurred(match (*call, done) {
        (Call::Begin { who }, Done::Begun(tag)) => begun(numbers, who, tag, memories),
        (Call::Advance { who }, Done::Advanced(Advanced::Exchanged(_))) => exchanged(numbers, who, memories),
        (_, Done::Advanced(Advanced::ClosedWith(tag))) => vec![("closed with an urgent tag", is_urgent(tag))],
        (_, Done::Advanced(Advanced::Found(tag))) => vec![("find closed with an urgent tag", is_urgent(tag))],
        (_, Done::Advanced(Advanced::ByNotice { entry, .. })) => {
            vec![("closed by notice with an urgent tag", is_urgent(entry))]
        }
        (_, Done::RanOn(Ran { stop: Stop::Closed(Advanced::ClosedWith(tag)), .. })) => {
            vec![("run on closed with an urgent tag", is_urgent(tag))]
        }
        _ => Vec::new(),
    })
}

/// The proposed tag is pending until the slot is closed.
fn begun(numbers: &Numbers, who: usize, tag: u64, memories: &Memories) -> Facts {
    let others: Vec<u64> = memories.pending(numbers, who).filter(|&other| other != tag).collect();
    let (urgent, waits) = (is_urgent(tag), !others.is_empty());
    let has_urgent = |replica: usize| memories.pending(numbers, replica).any(is_urgent);
    vec![
        ("proposed an urgent tag, a smaller one waits", urgent && others.iter().any(|&other| other < tag)),
        ("proposed the smaller of two urgent tags", urgent && others.iter().any(|&other| is_urgent(other))),
        ("proposed the smaller of two that are not urgent", !urgent && waits),
        ("proposed 2^63, another waits", tag == URGENT && waits),
        ("proposed 2^64 - 1, another waits", tag == u64::MAX && waits),
        ("proposed x + 2^63, x waits", urgent && others.contains(&(tag ^ URGENT))),
        ("proposed while an urgent tag waits at others only", !urgent && (0..numbers.n).any(has_urgent)),
    ]
}

fn exchanged(numbers: &Numbers, who: usize, memories: &Memories) -> Facts {
    let heard = memories.heard_proposals(numbers, memories.slot(who), who);
    let both = heard.clone().any(|tag| heard.clone().any(|other| other == tag ^ URGENT));
    vec![("exchange with x and x + 2^63 heard", both)]
}
