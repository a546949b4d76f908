//! Request 3 of document 02: the conductor takes the lit replicas, those that have not crashed, through a slot.
//! What it does is settled before its first step, and each of its steps is a call like any other.

use crate::call::Call;
use crate::memories::{Memories, Record, IDLE};
use crate::numbers::{Numbers, Sort, ROUNDS};
use crate::rank::first_ranked;
use crate::refusal::Refusal;
use crate::rules;

/// "It answers both counts": of the accepted steps besides relays, and of the accepted relays.
#[derive(Clone, Copy, Debug, Default, PartialEq, Eq)]
pub struct Conducted {
    pub steps: usize,
    pub relays: usize,
}

/// What the conductor will do. It is not looked at again, whatever its steps come to in a damaged rack.
pub struct Plan {
    lit: Vec<usize>,
    lacking: Vec<usize>,
    slot: usize,
    tag: u64,
}

/// "a refused inner step in a spoiled rack is passed over uncounted."
pub fn conduct(numbers: &Numbers, memories: &mut Memories) -> Result<Conducted, Refusal> {
    let plan = Plan::of(numbers, memories)?;
    let mut is_accepted = |call: &Call| call.make(numbers, memories).is_ok();
    let relays = plan.relays().filter(&mut is_accepted).count();
    let steps = plan.steps().filter(&mut is_accepted).count();
    Ok(Conducted { steps, relays })
}

impl Plan {
    /// "Turned away: 3, 2, 23 "too few lit" below the quota, 22 "not level" if the starting condition fails, 11,
    /// 12, in this order."
    pub fn of(numbers: &Numbers, memories: &Memories) -> Result<Plan, Refusal> {
        rules::admit_rack(numbers, memories)?;
        let lit = memories.lit(numbers);
        if lit.len() < numbers.quorum() {
            return Err(Refusal::TooFewLit);
        }
        let slot = level_slot(numbers, &lit, memories).ok_or(Refusal::NotLevel)?;
        if slot == numbers.slots {
            return Err(Refusal::LogFull);
        }
        let pending = lit.iter().filter_map(|&who| memories.first_pending(numbers, who));
        let tag = first_ranked(pending).ok_or(Refusal::NothingPending)?;
        let lacks = |who: &usize| !memories.holds(numbers, *who, tag);
        let lacking = lit.iter().copied().filter(lacks).collect();
        Ok(Plan { lit, lacking, slot, tag })
    }

    /// "It relays" the first-ranked "tag pending at any lit controller to the lit ones that lack it".
    pub fn relays(&self) -> impl Iterator<Item = Call> + '_ {
        self.lacking.iter().map(|&who| Call::Relay { who, tag: self.tag })
    }

    /// "then begins all; in the exchange and in phase 1's state and vote rounds, and no further".
    pub fn steps(&self) -> impl Iterator<Item = Call> + '_ {
        let begins = self.lit.iter().map(|&who| Call::Begin { who });
        begins.chain(ROUNDS.into_iter().flat_map(|sort| self.round(sort)))
    }

    /// "each lit one hears each other, then each advances, all in number order."
    fn round(&self, sort: Sort) -> impl Iterator<Item = Call> + '_ {
        let hears = self.lit.iter().flat_map(move |&receiver| self.hears(receiver, sort));
        let advances = self.lit.iter().map(|&who| Call::Advance { who });
        hears.chain(advances)
    }

    fn hears(&self, receiver: usize, sort: Sort) -> impl Iterator<Item = Call> + '_ {
        let (slot, phase) = (self.slot, usize::from(sort.has_phases()));
        let others = self.lit.iter().copied().filter(move |&sender| sender != receiver);
        others.map(move |sender| Call::Hear { receiver, sender, sort: sort as usize, slot, phase })
    }
}

/// "a rack whose L lit controllers are all idle at the same slot, where nobody, dark or lit, has sent a message of
/// that slot." Who has closed the slot has sent one: its notice. Of the slot behind the last one there are none.
fn level_slot(numbers: &Numbers, lit: &[usize], memories: &Memories) -> Option<usize> {
    let records: Vec<Record> = lit.iter().filter_map(|&who| memories.record(who)).collect();
    let slot = usize::from(records.first()?.slot);
    let level = |record: &Record| record.round == IDLE && usize::from(record.slot) == slot;
    let mut sent = numbers
        .messages(slot)
        .filter(|&message| (0..numbers.n).any(|sender| memories.was_sent(numbers, message, sender)));
    (records.iter().all(level) && sent.next().is_none()).then_some(slot)
}
