//! What calls meet of notices, told by the memories after them. The comparison programs count it.

use crate::call::{Call, Done};
use crate::memories::{Memories, EXCHANGE, FIND, IDLE, STATE, VOTE};
use crate::numbers::{Message, Numbers, Sort};
use crate::refusal::Refusal;
use crate::rules::{Advanced, Ran, Stop};
use crate::tally::{occurred, Facts};

/// What a run can meet.
pub const EVENTS: [&str; 17] = [
    "heard notice",
    "heard notice of an empty slot",
    "heard notice for another slot",
    "heard notice from a crashed sender",
    "proposed with a notice heard",
    "closed by notice when idle",
    "closed by notice in the exchange",
    "closed by notice in a state round",
    "closed by notice in a vote round",
    "closed by notice in the find round",
    "closed by notice, empty",
    "closed by notice, several heard",
    "run on of 1 by notice when idle",
    "run on of 1 by notice in a round",
    "run on by notice, the next slot's heard too",
    "refused 13 with a later slot's notice heard",
    "refused 18 for its own notice",
];

/// What only damaged memories can meet.
pub const EVENTS_OF_DAMAGE: [&str; 4] = [
    "closed by notice, several heard that differ",
    "refused 17 for a notice with an entry in the log",
    "refused 18 for its own notice without the mark",
    "mark on an unsent notice passed over",
];

const NOTICE: usize = Sort::Notice as usize;

/// The events of a call by these numbers. Only calls that found the memories whole are looked at, since only then the
/// cells are there.
pub fn met(
    call: &Call,
    numbers: &Numbers,
    result: &Result<Done, Refusal>,
    memories: &Memories,
) -> Vec<&'static str> {
    let scene = Scene { numbers, memories };
    occurred(match (*call, *result) {
        (Call::Hear { receiver, sender, sort: NOTICE, slot, .. }, Ok(_)) => {
            scene.heard(receiver, sender, slot)
        }
        (Call::Hear { sender, sort: NOTICE, slot, .. }, Err(Refusal::Unsent)) => scene.unsent(sender, slot),
        (Call::Hear { receiver, sender, sort: NOTICE, slot, .. }, Err(Refusal::Heard)) => {
            scene.heard_before(receiver, sender, slot)
        }
        (Call::Begin { who }, Ok(_)) => scene.begun(who),
        (Call::Advance { who }, Ok(Done::Advanced(advanced))) => scene.advanced(who, advanced),
        (Call::Advance { who }, Err(refusal)) => scene.not_advanced(who, refusal),
        (Call::RunOn { who }, Ok(Done::RanOn(ran))) => scene.ran_on(who, ran),
        _ => Vec::new(),
    })
}

/// The memories after a call.
struct Scene<'a> {
    numbers: &'a Numbers,
    memories: &'a Memories,
}

fn notice(slot: usize) -> Message {
    Message { sort: Sort::Notice, slot, phase: 0 }
}

impl Scene<'_> {
    fn slot(&self, replica: usize) -> usize {
        self.memories.slot(replica)
    }

    fn entry(&self, replica: usize, slot: usize) -> u64 {
        self.memories.orders[self.numbers.log_cell(replica, slot)]
    }

    /// Whether a replica has heard a notice of this slot.
    fn noticed(&self, receiver: usize, slot: usize) -> bool {
        self.memories.heard_notices(self.numbers, slot, receiver).next().is_some()
    }

    fn heard(&self, receiver: usize, sender: usize, slot: usize) -> Facts {
        let crashed = self.memories.record(sender).is_some_and(|record| record.crashed != 0);
        vec![
            ("heard notice of an empty slot", self.entry(sender, slot) == 0),
            ("heard notice for another slot", self.slot(receiver) != slot),
            ("heard notice from a crashed sender", crashed),
        ]
    }

    fn unsent(&self, sender: usize, slot: usize) -> Facts {
        vec![("refused 17 for a notice with an entry in the log", self.entry(sender, slot) != 0)]
    }

    fn heard_before(&self, receiver: usize, sender: usize, slot: usize) -> Facts {
        let own = receiver == sender;
        let marked = self.memories.is_marked(self.numbers, notice(slot), sender, receiver);
        vec![
            ("refused 18 for its own notice", own),
            ("refused 18 for its own notice without the mark", own && !marked),
        ]
    }

    fn begun(&self, who: usize) -> Facts {
        vec![("proposed with a notice heard", self.noticed(who, self.slot(who)))]
    }

    fn advanced(&self, who: usize, advanced: Advanced) -> Facts {
        match advanced {
            Advanced::ByNotice { round, entry } => self.closed(who, round, entry),
            other => vec![("mark on an unsent notice passed over", !other.closes() && self.is_fooled(who))],
        }
    }

    /// The closer's own notice is there by now, and is heard.
    fn closed(&self, who: usize, round: u16, entry: u64) -> Facts {
        let heard = self.memories.heard_notices(self.numbers, self.slot(who) - 1, who);
        let several = heard.clone().count() > 2;
        vec![
            ("closed by notice when idle", round == IDLE),
            ("closed by notice in the exchange", round == EXCHANGE),
            ("closed by notice in a state round", round == STATE),
            ("closed by notice in a vote round", round == VOTE),
            ("closed by notice in the find round", round == FIND),
            ("closed by notice, empty", entry == 0),
            ("closed by notice, several heard", several),
            ("closed by notice, several heard that differ", heard.clone().any(|other| other != entry)),
        ]
    }

    fn not_advanced(&self, who: usize, refusal: Refusal) -> Facts {
        let by_rule = matches!(refusal, Refusal::Idle | Refusal::TooFewHeard | Refusal::PhasesUsedUp);
        let mut later = self.slot(who) + 1..self.numbers.slots;
        let early = refusal == Refusal::Idle && later.any(|slot| self.noticed(who, slot));
        vec![
            ("mark on an unsent notice passed over", by_rule && self.is_fooled(who)),
            ("refused 13 with a later slot's notice heard", early),
        ]
    }

    fn ran_on(&self, who: usize, ran: Ran) -> Facts {
        let Stop::Closed(Advanced::ByNotice { round, .. }) = ran.stop else { return Vec::new() };
        vec![
            ("run on of 1 by notice when idle", ran.advances == 1 && round == IDLE),
            ("run on of 1 by notice in a round", ran.advances == 1 && round != IDLE),
            ("run on by notice, the next slot's heard too", self.noticed(who, self.slot(who))),
        ]
    }

    /// Whether a notice of the replica's slot is marked as heard that was not sent.
    fn is_fooled(&self, who: usize) -> bool {
        let message = notice(self.slot(who));
        let fools = |sender: usize| {
            !self.memories.was_sent(self.numbers, message, sender)
                && self.memories.is_marked(self.numbers, message, sender, who)
        };
        message.slot < self.numbers.slots && (0..self.numbers.n).filter(|&sender| sender != who).any(fools)
    }
}
