//! The numbers of a run, their limits, and where its cells stand in the lent memories.

/// "Controllers n: 1 to 15, numbered from 0."
pub const MOST_REPLICAS: usize = 15;
/// "Slots: 1 to 64, numbered from 0."; "The slot limit becomes 1,024".
pub const MOST_SLOTS: usize = 1024;
/// "Phases: 1 to 32, numbered from 1".
pub const MOST_PHASES: usize = 32;
/// "Labs leave an opening's phase limit at 0 ... There 0 now stands for 16.", "and only there."
pub const USUAL_PHASES: usize = 16;
/// "Tag room: 1 to 256 known orders."; "the tag room may be up to 1,024 as well".
pub const MOST_ROOM: usize = 1024;

/// Laid out as the header's `rushhopper_numbers`, so that it crosses the boundary as it stands.
#[repr(C)]
#[derive(Clone, Copy, Debug, Default, PartialEq, Eq)]
pub struct Numbers {
    pub n: usize,
    pub f: usize,
    pub slots: usize,
    pub phases: usize,
    pub room: usize,
}

/// The largest run within the limits.
pub const LARGEST: Numbers =
    Numbers { n: MOST_REPLICAS, f: 7, slots: MOST_SLOTS, phases: MOST_PHASES, room: MOST_ROOM };

/// Where the records start in the words: cell 0 is the count of known tags.
pub const RECORDS: usize = 1;
/// How many words a record has.
pub const RECORD_WORDS: usize = 6;

/// How many elements of each memory, and of the strip, a run needs.
pub struct Lengths {
    pub words: usize,
    pub orders: usize,
    pub ballots: usize,
    pub strip: usize,
}

/// The sorts of messages. By a notice a replica tells the entry of a slot that it has closed.
#[derive(Clone, Copy, Debug, PartialEq, Eq)]
pub enum Sort {
    Proposal = 1,
    State,
    Vote,
    Notice,
}

/// What the rounds of a slot that closes in phase 1 wait for.
pub const ROUNDS: [Sort; 3] = [Sort::Proposal, Sort::State, Sort::Vote];

/// What a message is about; with its sender it is a single one. A proposal's and a notice's phase is 0.
#[derive(Clone, Copy, PartialEq, Eq)]
pub struct Message {
    pub sort: Sort,
    pub slot: usize,
    pub phase: usize,
}

impl Numbers {
    pub fn within_limits(&self) -> bool {
        (1..=MOST_REPLICAS).contains(&self.n)
            // "2f + 1 at most n", in a form that does not wrap
            && self.f <= (self.n - 1) / 2
            && (1..=MOST_SLOTS).contains(&self.slots)
            && (1..=MOST_PHASES).contains(&self.phases)
            && (1..=MOST_ROOM).contains(&self.room)
    }

    /// The document's quota: "n − f".
    pub fn quorum(&self) -> usize {
        self.n - self.f
    }

    /// "floor(n/2) + 1, counted of all n and never of those heard."
    pub fn majority(&self) -> usize {
        self.n / 2 + 1
    }

    /// Only for numbers within the limits; larger ones could wrap.
    pub fn lengths(&self) -> Lengths {
        Lengths {
            words: self.heard_start() + self.slots * (2 * self.phases + 2) * self.n,
            orders: self.logs_start() + self.n * self.slots,
            ballots: self.slots * 2 * self.phases * self.n,
            strip: self.slots * self.phases,
        }
    }

    /// In the words, behind the records.
    pub fn holders_start(&self) -> usize {
        RECORDS + RECORD_WORDS * self.n
    }

    /// In the words, behind the holders.
    pub fn heard_start(&self) -> usize {
        self.holders_start() + self.room
    }

    /// In the orders, behind the tags.
    pub fn proposals_start(&self) -> usize {
        self.room
    }

    /// In the orders, behind the proposals.
    pub fn logs_start(&self) -> usize {
        self.proposals_start() + self.slots * self.n
    }

    /// In the words: the mask of those who hold the tag at this place.
    pub fn holder_cell(&self, place: usize) -> usize {
        self.holders_start() + place
    }

    /// In the words: the mask of those who have heard the message.
    pub fn heard_cell(&self, message: Message, sender: usize) -> usize {
        self.heard_start() + (message.slot * (2 * self.phases + 2) + message.row()) * self.n + sender
    }

    /// In the orders.
    pub fn proposal_cell(&self, slot: usize, sender: usize) -> usize {
        self.proposals_start() + slot * self.n + sender
    }

    /// In the orders.
    pub fn log_cell(&self, replica: usize, slot: usize) -> usize {
        self.logs_start() + replica * self.slots + slot
    }

    /// Of a state or vote. Proposals and notices stand elsewhere, so the rows start two lower than those of the heard masks.
    pub fn ballot_cell(&self, message: Message, sender: usize) -> usize {
        (message.slot * 2 * self.phases + message.row() - 2) * self.n + sender
    }

    pub fn coin_cell(&self, slot: usize, phase: usize) -> usize {
        slot * self.phases + phase - 1
    }

    /// Every message of a slot; behind the last slot there is none.
    pub fn messages(&self, slot: usize) -> impl Iterator<Item = Message> {
        let Numbers { slots, phases, .. } = *self;
        let ballots = (1..=phases).flat_map(|phase| [(Sort::State, phase), (Sort::Vote, phase)]);
        let kinds = ballots.chain([(Sort::Proposal, 0), (Sort::Notice, 0)]);
        kinds.filter(move |_| slot < slots).map(move |(sort, phase)| Message { sort, slot, phase })
    }
}

impl Sort {
    /// The sort that a hear names by a number.
    pub fn numbered(number: usize) -> Option<Sort> {
        match number {
            1 => Some(Sort::Proposal),
            2 => Some(Sort::State),
            3 => Some(Sort::Vote),
            4 => Some(Sort::Notice),
            _ => None,
        }
    }

    /// Whether its messages belong to a phase, from 1 on. There is one proposal and one notice for a whole slot.
    pub fn has_phases(self) -> bool {
        matches!(self, Sort::State | Sort::Vote)
    }
}

impl Message {
    /// The row of a slot's heard masks.
    fn row(&self) -> usize {
        match self.sort {
            Sort::Proposal => 0,
            Sort::Notice => 1,
            Sort::State => 2 * self.phase,
            Sort::Vote => 2 * self.phase + 1,
        }
    }
}

#[cfg(test)]
mod tests {
    use super::*;

    const NUMBERS: Numbers = Numbers { n: 3, f: 1, slots: 2, phases: 4, room: 5 };

    /// Counted out by hand: 1 + 18 + 5 + 60 words, 5 + 6 + 6 orders, 48 ballots, 8 coins.
    #[test]
    fn lengths_of_a_small_run() {
        let Lengths { words, orders, ballots, strip } = NUMBERS.lengths();
        assert_eq!((words, orders, ballots, strip), (84, 17, 48, 8));
    }

    #[test]
    fn sections_stand_one_behind_the_other() {
        let message = |sort, slot, phase| Message { sort, slot, phase };
        let (state, vote) = (message(Sort::State, 0, 1), message(Sort::Vote, 1, 4));
        assert_eq!((NUMBERS.holder_cell(0), NUMBERS.holder_cell(4)), (19, 23));
        assert_eq!(NUMBERS.heard_cell(message(Sort::Proposal, 0, 0), 0), 24);
        assert_eq!(NUMBERS.heard_cell(message(Sort::Notice, 0, 0), 0), 27);
        assert_eq!(NUMBERS.heard_cell(message(Sort::Notice, 1, 0), 2), 59);
        assert_eq!((NUMBERS.heard_cell(state, 0), NUMBERS.ballot_cell(state, 0)), (30, 0));
        assert_eq!((NUMBERS.heard_cell(vote, 2), NUMBERS.ballot_cell(vote, 2)), (83, 47));
        assert_eq!((NUMBERS.proposal_cell(0, 0), NUMBERS.proposal_cell(1, 2)), (5, 10));
        assert_eq!((NUMBERS.log_cell(0, 0), NUMBERS.log_cell(2, 1)), (11, 16));
        assert_eq!((NUMBERS.coin_cell(0, 1), NUMBERS.coin_cell(1, 4)), (0, 7));
    }

    /// Four states, four votes, a proposal and a notice.
    #[test]
    fn messages_of_a_slot() {
        assert_eq!([0, 1, 2, 3].map(|slot| NUMBERS.messages(slot).count()), [10, 10, 0, 0]);
    }
}
