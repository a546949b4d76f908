//! A run and its memories.

use crate::numbers::{Conducted, Numbers, Phase, Plan, Replica, Slot};
use crate::raw::{Memories, Sent};
use crate::refusal::Refusal;

/// A run of replicas, with the memories that it lives in.
#[derive(Clone, Debug, PartialEq, Eq)]
pub struct Rack {
    numbers: Numbers,
    memories: Memories,
}

/// What a message is about; with its sender it is a single one. A notice says the entry of a slot that its sender has
/// closed; closing sends it.
#[derive(Clone, Copy, Debug, PartialEq, Eq, Hash)]
pub enum Message {
    Proposal(Slot),
    State(Slot, Phase),
    Vote(Slot, Phase),
    Notice(Slot),
}

/// The round that a replica is in, and the phase where it counts.
#[derive(Clone, Copy, Debug, PartialEq, Eq, Hash)]
pub enum Round {
    Idle,
    Exchange,
    State(Phase),
    Vote(Phase),
    Find,
}

/// How a replica stands. Both counts are raised when a slot closes.
#[derive(Clone, Copy, Debug, PartialEq, Eq, Hash)]
pub struct Record {
    pub crashed: bool,
    pub round: Round,
    /// The current slot: the number of slots that the replica has closed.
    pub slot: Slot,
    /// How many of them are empty: wasted slots.
    pub empty: usize,
    /// Of how many of them it reached the outcome in phase 1 itself, with a find round after it or without. A slot closed by a
    /// notice is not among them.
    pub fast: usize,
}

impl Rack {
    /// Opens a run on memories of its own: all replicas running and idle at slot 0, their counts 0.
    ///
    /// # Panics
    ///
    /// If the program was linked with a library of another layout than this wrapper's.
    pub fn open(plan: Plan) -> Result<Rack, Refusal> {
        let mut memories = Memories::for_runs_of(plan.numbers);
        let numbers = memories.open(plan)?;
        Ok(Rack { numbers, memories })
    }

    /// The numbers of the run, in which a phase limit of 0 has become 16.
    pub fn numbers(&self) -> Numbers {
        self.numbers
    }

    /// Fills the strip anew with the coins from another entry of the coin table.
    pub fn fill_strip(&mut self, start: usize) -> Result<(), Refusal> {
        self.memories.fill_strip(self.numbers, start)
    }

    /// The tag becomes known, if it wasn't, and the replica holds it.
    pub fn submit(&mut self, who: Replica, tag: u64) -> Result<(), Refusal> {
        self.memories.submit(self.numbers, who, tag)
    }

    /// A known tag is held by one more replica.
    pub fn relay(&mut self, who: Replica, tag: u64) -> Result<(), Refusal> {
        self.memories.relay(self.numbers, who, tag)
    }

    /// An idle replica proposes its first-ranked pending tag (see [`URGENT`](crate::URGENT)) and enters the exchange.
    pub fn begin(&mut self, who: Replica) -> Result<(), Refusal> {
        self.memories.begin(self.numbers, who)
    }

    /// The receiver hears what the sender has sent; of any slot and phase, and from a crashed sender too.
    pub fn hear(&mut self, receiver: Replica, sender: Replica, message: Message) -> Result<(), Refusal> {
        self.memories.hear(self.numbers, receiver, message.sent_by(sender))
    }

    /// A replica that has heard a notice of its current slot, idle or in any round, closes the slot with that entry; of
    /// several notices the lowest sender's counts. Else one step by the round that it is in: it sends its next message,
    /// closes the slot or enters the find round.
    pub fn advance(&mut self, who: Replica) -> Result<(), Refusal> {
        self.memories.advance(self.numbers, who)
    }

    /// Advances until a slot is closed or the next advance is refused; answers the count of accepted ones.
    pub fn run_on(&mut self, who: Replica) -> Result<usize, Refusal> {
        self.memories.run_on(self.numbers, who)
    }

    /// Takes all running replicas through their next slot, with no hearing named: the first-ranked tag that is pending at any
    /// of them is relayed to those that do not hold it, and each begins; in the exchange, and in the state and vote rounds of
    /// phase 1, each hears each other, and then each advances. That closes the slot with that tag at all of them.
    ///
    /// Refused with
    /// - [`Refusal::TooFewRunning`] if the running replicas are fewer than the quorum, n - f;
    /// - [`Refusal::NotLevel`] if they are not all idle at the same slot, or if any replica, a crashed one too, has sent a
    ///   message of that slot (one that was left behind draws level when it hears a notice and advances);
    /// - [`Refusal::LogFull`] if all slots are closed;
    /// - [`Refusal::NothingPending`] if no running replica has a pending tag.
    ///
    /// It hears no notices.
    pub fn conduct(&mut self) -> Result<Conducted, Refusal> {
        self.memories.conduct(self.numbers)
    }

    /// The replica stops for good. What it has sent can still be heard, and its record keeps its counts.
    pub fn crash(&mut self, who: Replica) -> Result<(), Refusal> {
        self.memories.crash(self.numbers, who)
    }

    /// The entries of a replica's closed slots; 0 is an empty one. None for a replica that the rack does not have.
    pub fn log(&self, replica: Replica) -> &[u64] {
        match self.record(replica) {
            Some(record) => &self.memories.log(self.numbers, replica)[..record.slot.0],
            None => &[],
        }
    }

    /// The entry of a closed slot in a replica's log; 0 is an empty one. None for a slot that the replica has not closed,
    /// or a replica that the rack does not have.
    pub fn entry(&self, replica: Replica, slot: Slot) -> Option<u64> {
        self.log(replica).get(slot.0).copied()
    }

    /// How many tags are known.
    pub fn known(&self) -> usize {
        self.memories.known()
    }

    /// How a replica stands, if the rack has it.
    pub fn record(&self, replica: Replica) -> Option<Record> {
        let words = self.memories.record(self.numbers, replica)?;
        let phase = Phase(words.phase.into());
        let round = match words.round {
            0 => Round::Idle,
            1 => Round::Exchange,
            2 => Round::State(phase),
            3 => Round::Vote(phase),
            4 => Round::Find,
            _ => unreachable!("the library stores no other rounds"),
        };
        Some(Record {
            crashed: words.crashed != 0,
            round,
            slot: Slot(words.slot.into()),
            empty: words.empty.into(),
            fast: words.fast.into(),
        })
    }

    /// The replicas of the run, in their order.
    pub fn replicas(&self) -> impl Iterator<Item = Replica> {
        (0..self.numbers.n).map(Replica)
    }
}

impl Message {
    /// As the library takes it; the phase of a proposal or notice is 0.
    fn sent_by(self, sender: Replica) -> Sent {
        let (sort, slot, phase) = match self {
            Message::Proposal(slot) => (1, slot, Phase(0)),
            Message::State(slot, phase) => (2, slot, phase),
            Message::Vote(slot, phase) => (3, slot, phase),
            Message::Notice(slot) => (4, slot, Phase(0)),
        };
        Sent { sort, slot, phase, sender }
    }
}
