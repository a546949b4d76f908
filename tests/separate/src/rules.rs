//! The calls of document 01 over lent memories, with requests 1, 2 and 8 of document 02; `conductor` has request 3's, and `rank`
//! says which tag request 5 takes. A refused call changes nothing.

use crate::coin::{self, PATTERN};
use crate::memories::{bit, Memories, Record, EXCHANGE, FIND, IDLE, ONE, STATE, UNDECIDED, VOTE, ZERO};
use crate::numbers::{Message, Numbers, Sort, USUAL_PHASES};
use crate::refusal::Refusal;

/// What an accepted submit found.
#[derive(Clone, Copy, Debug, PartialEq, Eq)]
pub enum Submitted {
    New,
    Known,
}

/// What an accepted advance did.
#[derive(Clone, Copy, Debug, PartialEq, Eq)]
pub enum Advanced {
    /// The exchange gave this state.
    Exchanged(u8),
    Voted(u8),
    /// On to the next phase with a state that was voted for.
    NextByVote(u8),
    NextByCoin(u8),
    ClosedEmpty,
    ClosedWith(u64),
    EnteredFind,
    /// Closed out of the find round.
    Found(u64),
    /// Closed out of this round with the entry of a notice.
    ByNotice {
        round: u16,
        entry: u64,
    },
}

/// Why a run on stopped.
#[derive(Clone, Copy, Debug, PartialEq, Eq)]
pub enum Stop {
    /// By this advance.
    Closed(Advanced),
    Refused(Refusal),
}

#[derive(Clone, Copy, Debug, PartialEq, Eq)]
pub struct Ran {
    pub advances: usize,
    pub stop: Stop,
}

/// "Opening: 1, 2." Answers the numbers of the run, in which a phase limit of 0 has become 16.
pub fn open(plan: &Numbers, start: usize, memories: &mut Memories) -> Result<Numbers, Refusal> {
    let numbers = planned(plan, start)?;
    if !memories.fit(&numbers) {
        return Err(Refusal::ShortTable);
    }
    memories.clear(&numbers);
    coin::fill(numbers.slots, numbers.phases, start, &mut memories.strip);
    Ok(numbers)
}

/// The numbers that an opening stands for, or refusal 1.
pub fn planned(plan: &Numbers, start: usize) -> Result<Numbers, Refusal> {
    let phases = if plan.phases == 0 { USUAL_PHASES } else { plan.phases };
    let numbers = Numbers { phases, ..*plan };
    if numbers.within_limits() && start < PATTERN {
        Ok(numbers)
    } else {
        Err(Refusal::BadPlan)
    }
}

/// "3, 2": what is asked before any rule, of a call that names no replica too.
pub fn admit_rack(numbers: &Numbers, memories: &Memories) -> Result<(), Refusal> {
    if !numbers.within_limits() || memories.are_spoiled(numbers) {
        return Err(Refusal::SpoiledRecord);
    }
    if !memories.fit(numbers) {
        return Err(Refusal::ShortTable);
    }
    Ok(())
}

/// "Steps: 3, 2, 4, 5". The first of the replicas named is the acting one; its record is the answer.
fn admit(numbers: &Numbers, named: &[usize], memories: &Memories) -> Result<Record, Refusal> {
    admit_rack(numbers, memories)?;
    if named.iter().any(|&replica| replica >= numbers.n) {
        return Err(Refusal::NoSuchBench);
    }
    match memories.record(named[0]) {
        Some(record) if record.crashed == 0 => Ok(record),
        _ => Err(Refusal::Dark),
    }
}

/// "the tag becomes known, if it wasn't, and this controller holds it."
pub fn submit(
    numbers: &Numbers,
    who: usize,
    tag: u64,
    memories: &mut Memories,
) -> Result<Submitted, Refusal> {
    admit(numbers, &[who], memories)?;
    if tag == 0 {
        return Err(Refusal::BlankTag);
    }
    if memories.holds(numbers, who, tag) {
        return Err(Refusal::Held);
    }
    match memories.place(tag) {
        Some(place) => {
            memories.hold(numbers, place, who);
            Ok(Submitted::Known)
        }
        None if memories.known() == numbers.room => Err(Refusal::TagRoomFull),
        None => {
            memories.add_tag(numbers, tag, who);
            Ok(Submitted::New)
        }
    }
}

/// "a known tag is held by one more controller."
pub fn relay(numbers: &Numbers, who: usize, tag: u64, memories: &mut Memories) -> Result<(), Refusal> {
    admit(numbers, &[who], memories)?;
    if tag == 0 {
        return Err(Refusal::BlankTag);
    }
    let place = memories.place(tag).ok_or(Refusal::UnknownTag)?;
    if memories.holds(numbers, who, tag) {
        return Err(Refusal::Held);
    }
    memories.hold(numbers, place, who);
    Ok(())
}

/// "an idle controller proposes" the first-ranked pending tag "and enters the exchange." Answers that tag.
pub fn begin(numbers: &Numbers, who: usize, memories: &mut Memories) -> Result<u64, Refusal> {
    let record = admit(numbers, &[who], memories)?;
    if record.round != IDLE {
        return Err(Refusal::Busy);
    }
    let slot = usize::from(record.slot);
    if slot == numbers.slots {
        return Err(Refusal::LogFull);
    }
    let tag = memories.first_pending(numbers, who).ok_or(Refusal::NothingPending)?;
    memories.send_proposal(numbers, slot, who, tag);
    memories.set_record(who, Record { round: EXCHANGE, phase: 0, ..record });
    Ok(tag)
}

/// The receiver acts. Messages of any slot and phase may be heard, also those of a crashed sender.
pub fn hear(
    numbers: &Numbers,
    receiver: usize,
    sender: usize,
    sort: usize,
    slot: usize,
    phase: usize,
    memories: &mut Memories,
) -> Result<(), Refusal> {
    admit(numbers, &[receiver, sender], memories)?;
    let message = message(numbers, sort, slot, phase).ok_or(Refusal::NoSuchMessage)?;
    if !memories.was_sent(numbers, message, sender) {
        return Err(Refusal::Unsent);
    }
    if memories.was_heard(numbers, message, sender, receiver) {
        return Err(Refusal::Heard);
    }
    memories.words[numbers.heard_cell(message, sender)] |= bit(receiver);
    Ok(())
}

/// The message that the numbers of a hear name: "sort (1 proposal, 2 state, 3 vote), slot, phase (0 for a proposal)", and
/// "sort 4, phase 0".
fn message(numbers: &Numbers, sort: usize, slot: usize, phase: usize) -> Option<Message> {
    let sort = Sort::numbered(sort)?;
    let phases = if sort.has_phases() { 1..=numbers.phases } else { 0..=0 };
    (slot < numbers.slots && phases.contains(&phase)).then_some(Message { sort, slot, phase })
}

/// One step by a notice, else by the round that the replica is in.
pub fn advance(numbers: &Numbers, who: usize, memories: &mut Memories) -> Result<Advanced, Refusal> {
    let record = admit(numbers, &[who], memories)?;
    advance_from(numbers, who, record, memories)
}

/// "advance repeatedly until a slot is closed or the next advance is refused". No accepted advance spoils a record
/// or crashes a replica, so only the first needs to be admitted.
pub fn run_on(numbers: &Numbers, who: usize, memories: &mut Memories) -> Result<Ran, Refusal> {
    let record = admit(numbers, &[who], memories)?;
    let mut last = advance_from(numbers, who, record, memories)?;
    let mut advances = 1;
    while !last.closes() {
        let record = memories.record(who).unwrap_or_default();
        match advance_from(numbers, who, record, memories) {
            Ok(next) => last = next,
            Err(refusal) => return Ok(Ran { advances, stop: Stop::Refused(refusal) }),
        }
        advances += 1;
    }
    Ok(Ran { advances, stop: Stop::Closed(last) })
}

impl Advanced {
    pub fn closes(self) -> bool {
        matches!(
            self,
            Advanced::ClosedEmpty | Advanced::ClosedWith(_) | Advanced::Found(_) | Advanced::ByNotice { .. }
        )
    }
}

/// "A controller in that slot, or idle before it, that has heard such a notice closes with that entry at its next advance,
/// ahead of every other rule; of several notices the lowest sender's counts."
fn advance_from(
    numbers: &Numbers,
    who: usize,
    record: Record,
    memories: &mut Memories,
) -> Result<Advanced, Refusal> {
    let noticed = memories.heard_notices(numbers, usize::from(record.slot), who).next();
    if let Some(entry) = noticed {
        close(numbers, who, record, entry, memories);
        return Ok(Advanced::ByNotice { round: record.round, entry });
    }
    advance_by_round(numbers, who, record, memories)
}

fn advance_by_round(
    numbers: &Numbers,
    who: usize,
    record: Record,
    memories: &mut Memories,
) -> Result<Advanced, Refusal> {
    match record.round {
        EXCHANGE => exchange(numbers, who, record, memories),
        STATE => vote(numbers, who, record, memories),
        VOTE => count_votes(numbers, who, record, memories),
        FIND => find(numbers, who, record, memories),
        _ => Err(Refusal::Idle),
    }
}

/// "its state is 1 if one tag has a majority among them, else 0."
fn exchange(
    numbers: &Numbers,
    who: usize,
    record: Record,
    memories: &mut Memories,
) -> Result<Advanced, Refusal> {
    let slot = usize::from(record.slot);
    if memories.heard_proposals(numbers, slot, who).count() < numbers.quorum() {
        return Err(Refusal::TooFewHeard);
    }
    let state = if majority_tag(numbers, who, slot, memories).is_some() { ONE } else { ZERO };
    send_state(numbers, who, Record { phase: 1, ..record }, state, memories);
    Ok(Advanced::Exchanged(state))
}

/// "it votes for the value with a majority, else `?`."
fn vote(numbers: &Numbers, who: usize, record: Record, memories: &mut Memories) -> Result<Advanced, Refusal> {
    let (slot, phase) = (usize::from(record.slot), usize::from(record.phase));
    let states = memories.count(numbers, Message { sort: Sort::State, slot, phase }, who);
    if states.total() < numbers.quorum() {
        return Err(Refusal::TooFewHeard);
    }
    let vote = if states.zeros >= numbers.majority() {
        ZERO
    } else if states.ones >= numbers.majority() {
        ONE
    } else {
        UNDECIDED
    };
    memories.send_ballot(numbers, Message { sort: Sort::Vote, slot, phase }, who, vote);
    memories.set_record(who, Record { round: VOTE, ..record });
    Ok(Advanced::Voted(vote))
}

/// "a value with at least f + 1 votes is the outcome. Else, if a 0 or a 1 was heard, that is its state; else the
/// coin of this slot and phase." 15 is for a round that would go on, so an outcome comes before it.
fn count_votes(
    numbers: &Numbers,
    who: usize,
    record: Record,
    memories: &mut Memories,
) -> Result<Advanced, Refusal> {
    let (slot, phase) = (usize::from(record.slot), usize::from(record.phase));
    let votes = memories.count(numbers, Message { sort: Sort::Vote, slot, phase }, who);
    if votes.total() < numbers.quorum() {
        return Err(Refusal::TooFewHeard);
    }
    if votes.zeros > numbers.f {
        close_by_outcome(numbers, who, record, 0, memories);
        return Ok(Advanced::ClosedEmpty);
    }
    if votes.ones > numbers.f {
        return Ok(close_with_majority(numbers, who, record, memories));
    }
    if phase == numbers.phases {
        return Err(Refusal::PhasesUsedUp);
    }
    let voted = votes.any_value();
    let state = voted.unwrap_or_else(|| coin(numbers, slot, phase, memories));
    send_state(numbers, who, Record { phase: record.phase + 1, ..record }, state, memories);
    Ok(if voted.is_some() { Advanced::NextByVote(state) } else { Advanced::NextByCoin(state) })
}

/// "where none has, the controller enters the find round, and later advances try again."
fn find(numbers: &Numbers, who: usize, record: Record, memories: &mut Memories) -> Result<Advanced, Refusal> {
    let slot = usize::from(record.slot);
    let tag = majority_tag(numbers, who, slot, memories).ok_or(Refusal::TooFewHeard)?;
    close_by_outcome(numbers, who, record, tag, memories);
    Ok(Advanced::Found(tag))
}

/// "Outcome 1 closes it with the tag that has a majority among the proposals heard".
fn close_with_majority(numbers: &Numbers, who: usize, record: Record, memories: &mut Memories) -> Advanced {
    match majority_tag(numbers, who, usize::from(record.slot), memories) {
        Some(tag) => {
            close_by_outcome(numbers, who, record, tag, memories);
            Advanced::ClosedWith(tag)
        }
        None => {
            memories.set_record(who, Record { round: FIND, ..record });
            Advanced::EnteredFind
        }
    }
}

fn majority_tag(numbers: &Numbers, who: usize, slot: usize, memories: &Memories) -> Option<u64> {
    let heard = memories.heard_proposals(numbers, slot, who);
    heard.clone().find(|&tag| heard.clone().filter(|&other| other == tag).count() >= numbers.majority())
}

/// "even is 0, odd is 1."
fn coin(numbers: &Numbers, slot: usize, phase: usize, memories: &Memories) -> u8 {
    match memories.strip[numbers.coin_cell(slot, phase)] % 2 {
        0 => ZERO,
        _ => ONE,
    }
}

/// Sends the state of the record's slot and phase.
fn send_state(numbers: &Numbers, who: usize, record: Record, state: u8, memories: &mut Memories) {
    let (slot, phase) = (usize::from(record.slot), usize::from(record.phase));
    memories.send_ballot(numbers, Message { sort: Sort::State, slot, phase }, who, state);
    memories.set_record(who, Record { round: STATE, ..record });
}

/// Counts a slot "whose outcome it reached in phase 1 itself (a slot closed by notice isn't one)". The find round keeps the
/// phase in which the outcome came.
fn close_by_outcome(numbers: &Numbers, who: usize, record: Record, entry: u64, memories: &mut Memories) {
    let fast = record.fast + u16::from(record.phase == 1);
    close(numbers, who, Record { fast, ..record }, entry, memories);
}

/// "A controller that closes a slot now sends its entry", and counts an empty one. The phase stays in the record.
fn close(numbers: &Numbers, who: usize, record: Record, entry: u64, memories: &mut Memories) {
    let empty = record.empty + u16::from(entry == 0);
    memories.send_notice(numbers, usize::from(record.slot), who, entry);
    memories.set_record(who, Record { round: IDLE, slot: record.slot + 1, empty, ..record });
}

/// "A crash step is lent one controller's record and darkens it there." One of a number n or more may be lent any
/// record, so 4 comes before the record is judged.
pub fn crash(numbers: &Numbers, who: usize, record: &mut Record) -> Result<(), Refusal> {
    if !numbers.within_limits() {
        return Err(Refusal::SpoiledRecord);
    }
    if who >= numbers.n {
        return Err(Refusal::NoSuchBench);
    }
    if record.is_spoiled(numbers) {
        return Err(Refusal::SpoiledRecord);
    }
    if record.crashed != 0 {
        return Err(Refusal::Dark);
    }
    record.crashed = 1;
    Ok(())
}
