//! The lent memories, in the layout of docs/TABLES.md, and how the rules read them.

use crate::numbers::{Message, Numbers, Sort, RECORDS, RECORD_WORDS};
use crate::rank::first_ranked;

pub const IDLE: u16 = 0;
pub const EXCHANGE: u16 = 1;
pub const STATE: u16 = 2;
pub const VOTE: u16 = 3;
pub const FIND: u16 = 4;

/// A ballot that says 0, one that says 1, and a vote that says `?`.
pub const ZERO: u8 = 1;
pub const ONE: u8 = 2;
pub const UNDECIDED: u8 = 3;

/// Three memories by the width of their elements, and the strip.
#[derive(Clone, Debug, Default, PartialEq, Eq)]
pub struct Memories {
    /// The count of known tags, the records, the holders of each tag, the heard masks.
    pub words: Vec<u16>,
    /// The known tags, the proposals, the logs.
    pub orders: Vec<u64>,
    pub ballots: Vec<u8>,
    pub strip: Vec<u8>,
}

/// Six of the words; laid out as the header's `rushhopper_record`.
#[repr(C)]
#[derive(Clone, Copy, Debug, Default, PartialEq, Eq)]
pub struct Record {
    pub crashed: u16,
    pub round: u16,
    pub slot: u16,
    pub phase: u16,
    /// "empty slots closed"
    pub empty: u16,
    /// "closed slots whose outcome it reached in phase 1 itself"
    pub fast: u16,
}

/// How many states or votes of each word a replica has heard.
pub struct Count {
    pub zeros: usize,
    pub ones: usize,
    pub undecided: usize,
}

pub fn bit(replica: usize) -> u16 {
    1 << replica
}

impl From<[u16; RECORD_WORDS]> for Record {
    fn from([crashed, round, slot, phase, empty, fast]: [u16; RECORD_WORDS]) -> Record {
        Record { crashed, round, slot, phase, empty, fast }
    }
}

impl Record {
    pub fn is_spoiled(&self, numbers: &Numbers) -> bool {
        let slot = usize::from(self.slot);
        let phase = usize::from(self.phase);
        self.round > FIND
            || slot > numbers.slots
            || (slot == numbers.slots && self.round != IDLE)
            || (matches!(self.round, STATE | VOTE) && !(1..=numbers.phases).contains(&phase))
            || self.counts_exceed()
    }

    /// "3 also when either count exceeds the closed slots."
    pub fn counts_exceed(&self) -> bool {
        self.empty > self.slot || self.fast > self.slot
    }

    /// The messages that its round waits for; proposals also when idle.
    pub fn awaited(&self) -> Message {
        let (slot, phase) = (usize::from(self.slot), usize::from(self.phase));
        match self.round {
            STATE => Message { sort: Sort::State, slot, phase },
            VOTE => Message { sort: Sort::Vote, slot, phase },
            _ => Message { sort: Sort::Proposal, slot, phase: 0 },
        }
    }
}

impl Memories {
    /// Memories of exactly the lengths that a run needs, all cells 0.
    pub fn of_run(numbers: &Numbers) -> Memories {
        let needs = numbers.lengths();
        Memories {
            words: vec![0; needs.words],
            orders: vec![0; needs.orders],
            ballots: vec![0; needs.ballots],
            strip: vec![0; needs.strip],
        }
    }

    pub fn fit(&self, numbers: &Numbers) -> bool {
        let needs = numbers.lengths();
        self.words.len() >= needs.words
            && self.orders.len() >= needs.orders
            && self.ballots.len() >= needs.ballots
            && self.strip.len() >= needs.strip
    }

    /// The part of refusal 3 that the memories decide. A record is there if all its six words are, so that records
    /// are judged in a short memory too.
    pub fn are_spoiled(&self, numbers: &Numbers) -> bool {
        let mut records = self.records().iter().take(numbers.n);
        self.known() > numbers.room || records.any(|&words| Record::from(words).is_spoiled(numbers))
    }

    /// "clears the part of each table that the run needs"; the strip is filled, not cleared.
    pub fn clear(&mut self, numbers: &Numbers) {
        let needs = numbers.lengths();
        self.words[..needs.words].fill(0);
        self.orders[..needs.orders].fill(0);
        self.ballots[..needs.ballots].fill(0);
    }

    /// How many tags are known; none where there is no word to say it.
    pub fn known(&self) -> usize {
        self.words.first().map_or(0, |&count| usize::from(count))
    }

    /// As many as the words have room for, whatever the run's numbers: behind the run's own they are other cells.
    fn records(&self) -> &[[u16; RECORD_WORDS]] {
        self.words.get(RECORDS..).unwrap_or_default().as_chunks().0
    }

    /// The record of a replica, if all its words are there.
    pub fn record(&self, replica: usize) -> Option<Record> {
        self.records().get(replica).map(|&words| Record::from(words))
    }

    /// The slots that a replica has closed, and so its current slot.
    pub fn slot(&self, replica: usize) -> usize {
        self.record(replica).map_or(0, |record| usize::from(record.slot))
    }

    /// Those of the run's replicas that have not crashed.
    pub fn lit(&self, numbers: &Numbers) -> Vec<usize> {
        let runs = |replica: &usize| self.record(*replica).is_some_and(|record| record.crashed == 0);
        (0..numbers.n).filter(runs).collect()
    }

    pub fn set_record(&mut self, replica: usize, record: Record) {
        let words = [record.crashed, record.round, record.slot, record.phase, record.empty, record.fast];
        self.words[RECORDS + RECORD_WORDS * replica..][..RECORD_WORDS].copy_from_slice(&words);
    }

    fn known_tags(&self) -> &[u64] {
        &self.orders[..self.known()]
    }

    /// The known tags, each with its holders.
    fn known_places(&self, numbers: &Numbers) -> impl Iterator<Item = (u64, u16)> + '_ {
        let holders = &self.words[numbers.holders_start()..];
        self.known_tags().iter().copied().zip(holders.iter().copied())
    }

    /// The first place of a known tag.
    pub fn place(&self, tag: u64) -> Option<usize> {
        self.known_tags().iter().position(|&other| other == tag)
    }

    /// A damaged memory may have a tag twice; any of its places counts.
    pub fn holds(&self, numbers: &Numbers, replica: usize, tag: u64) -> bool {
        self.known_places(numbers).any(|(other, holders)| other == tag && holders & bit(replica) != 0)
    }

    pub fn hold(&mut self, numbers: &Numbers, place: usize, holder: usize) {
        self.words[numbers.holder_cell(place)] |= bit(holder);
    }

    pub fn add_tag(&mut self, numbers: &Numbers, tag: u64, holder: usize) {
        let place = self.known();
        self.orders[place] = tag;
        self.words[numbers.holder_cell(place)] = bit(holder);
        self.words[0] += 1;
    }

    /// The entries of a replica's closed slots.
    pub fn log(&self, numbers: &Numbers, replica: usize, closed: usize) -> &[u64] {
        &self.orders[numbers.log_cell(replica, 0)..][..closed]
    }

    /// Pending: "tags that the controller holds and that are in none of its closed slots." Tags of 0 are passed over.
    pub fn pending(&self, numbers: &Numbers, replica: usize) -> impl Iterator<Item = u64> + '_ {
        let log = self.log(numbers, replica, self.slot(replica));
        let held = self.known_places(numbers).filter(move |&(_, holders)| holders & bit(replica) != 0);
        held.map(|(tag, _)| tag).filter(move |tag| *tag != 0 && !log.contains(tag))
    }

    /// "Begin and the conductor now take the first-ranked tag".
    pub fn first_pending(&self, numbers: &Numbers, replica: usize) -> Option<u64> {
        first_ranked(self.pending(numbers, replica))
    }

    pub fn was_sent(&self, numbers: &Numbers, message: Message, sender: usize) -> bool {
        match message.sort {
            Sort::Proposal => self.orders[numbers.proposal_cell(message.slot, sender)] != 0,
            Sort::State => matches!(self.ballots[numbers.ballot_cell(message, sender)], ZERO | ONE),
            Sort::Vote => {
                matches!(self.ballots[numbers.ballot_cell(message, sender)], ZERO | ONE | UNDECIDED)
            }
            Sort::Notice => self.record(sender).is_some_and(|record| usize::from(record.slot) > message.slot),
        }
    }

    /// Of a sent message. "its own counts as heard when sent", whatever the mark says.
    pub fn was_heard(&self, numbers: &Numbers, message: Message, sender: usize, receiver: usize) -> bool {
        sender == receiver || self.is_marked(numbers, message, sender, receiver)
    }

    pub fn is_marked(&self, numbers: &Numbers, message: Message, sender: usize, receiver: usize) -> bool {
        self.words[numbers.heard_cell(message, sender)] & bit(receiver) != 0
    }

    /// Marked as heard by its sender alone: old marks of a message that was not sent must not come alive.
    pub fn send_proposal(&mut self, numbers: &Numbers, slot: usize, sender: usize, tag: u64) {
        let message = Message { sort: Sort::Proposal, slot, phase: 0 };
        self.orders[numbers.proposal_cell(slot, sender)] = tag;
        self.words[numbers.heard_cell(message, sender)] = bit(sender);
    }

    /// As `send_proposal`, for a state or vote.
    pub fn send_ballot(&mut self, numbers: &Numbers, message: Message, sender: usize, word: u8) {
        self.ballots[numbers.ballot_cell(message, sender)] = word;
        self.words[numbers.heard_cell(message, sender)] = bit(sender);
    }

    /// As `send_proposal`, for a notice. It says the entry of the log, and its sender's record tells that it was sent: by a
    /// slot above this one.
    pub fn send_notice(&mut self, numbers: &Numbers, slot: usize, sender: usize, entry: u64) {
        let message = Message { sort: Sort::Notice, slot, phase: 0 };
        self.orders[numbers.log_cell(sender, slot)] = entry;
        self.words[numbers.heard_cell(message, sender)] = bit(sender);
    }

    /// The entries of the notices of a slot that a replica has heard, the lowest sender's first; a mark on a notice that
    /// was not sent is passed over. No record lies above the last slot, so none is found for what comes behind it.
    pub fn heard_notices<'a>(
        &'a self,
        numbers: &'a Numbers,
        slot: usize,
        receiver: usize,
    ) -> impl Iterator<Item = u64> + Clone + 'a {
        let message = Message { sort: Sort::Notice, slot, phase: 0 };
        (0..numbers.n)
            .filter(move |&sender| self.was_sent(numbers, message, sender))
            .filter(move |&sender| self.was_heard(numbers, message, sender, receiver))
            .map(move |sender| self.orders[numbers.log_cell(sender, slot)])
    }

    /// The tags of the proposals of a slot that a replica has heard, also those that came late.
    pub fn heard_proposals<'a>(
        &'a self,
        numbers: &'a Numbers,
        slot: usize,
        receiver: usize,
    ) -> impl Iterator<Item = u64> + Clone + 'a {
        let message = Message { sort: Sort::Proposal, slot, phase: 0 };
        (0..numbers.n)
            .filter(move |&sender| self.was_heard(numbers, message, sender, receiver))
            .map(move |sender| self.orders[numbers.proposal_cell(slot, sender)])
            .filter(|&tag| tag != 0)
    }

    /// The states or votes that a replica has heard; a mark on a message that was not sent is passed over.
    pub fn count(&self, numbers: &Numbers, message: Message, receiver: usize) -> Count {
        let mut words = [0; 4];
        for sender in 0..numbers.n {
            if self.was_sent(numbers, message, sender) && self.was_heard(numbers, message, sender, receiver) {
                words[usize::from(self.ballots[numbers.ballot_cell(message, sender)])] += 1;
            }
        }
        let [_, zeros, ones, undecided] = words;
        Count { zeros, ones, undecided }
    }
}

impl Count {
    pub fn total(&self) -> usize {
        self.zeros + self.ones + self.undecided
    }

    /// A 0 or a 1 that was heard; "0 is looked for first".
    pub fn any_value(&self) -> Option<u8> {
        if self.zeros > 0 {
            Some(ZERO)
        } else {
            (self.ones > 0).then_some(ONE)
        }
    }
}
