//! What calls meet of the phase limit of 16 and of long slots, told by the memories after them. The comparison programs
//! count it.

use crate::call::{Call, Done};
use crate::memories::Memories;
use crate::numbers::{Numbers, Sort};
use crate::refusal::Refusal;
use crate::rules::Advanced;
use crate::tally::occurred;

pub const EVENTS: [&str; 8] = [
    "opened with phases 0",
    "opened with 16 phases",
    "went on to a phase above 8",
    "went on to phase 16",
    "closed in a phase above 8",
    "refused 15 in phase 16",
    "refused 16 for phase 17 of 16",
    "refused 17 for phase 16 of 16",
];

/// The events of a call by these numbers.
pub fn met(
    call: &Call,
    numbers: &Numbers,
    result: &Result<Done, Refusal>,
    memories: &Memories,
) -> Vec<&'static str> {
    let in_phase = |who| memories.record(who).map_or(0, |record| usize::from(record.phase));
    occurred(match (*call, *result) {
        (Call::Open { plan, .. }, Ok(_)) => {
            vec![("opened with phases 0", plan.phases == 0), ("opened with 16 phases", plan.phases == 16)]
        }
        (Call::Advance { who }, Ok(Done::Advanced(Advanced::NextByVote(_) | Advanced::NextByCoin(_)))) => {
            let phase = in_phase(who);
            vec![("went on to a phase above 8", phase > 8), ("went on to phase 16", phase == 16)]
        }
        (Call::Advance { who }, Ok(Done::Advanced(Advanced::ClosedEmpty | Advanced::ClosedWith(_)))) => {
            vec![("closed in a phase above 8", in_phase(who) > 8)]
        }
        (Call::Advance { who }, Err(Refusal::PhasesUsedUp)) => {
            vec![("refused 15 in phase 16", in_phase(who) == 16)]
        }
        (Call::Hear { sort, slot, phase, .. }, Err(refusal)) if numbers.phases == 16 => {
            let ranged = Sort::numbered(sort).is_some_and(Sort::has_phases) && slot < numbers.slots;
            let beyond = ranged && phase == 17 && refusal == Refusal::NoSuchMessage;
            let last = ranged && phase == 16 && refusal == Refusal::Unsent;
            vec![("refused 16 for phase 17 of 16", beyond), ("refused 17 for phase 16 of 16", last)]
        }
        _ => Vec::new(),
    })
}
