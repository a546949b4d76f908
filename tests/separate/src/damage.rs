//! Memories that no run leaves behind: junk, bits of replicas that are not there, spoiled records, memories that are short.

use crate::memories::{bit, Memories, Record, EXCHANGE, FIND, IDLE, ONE, STATE, UNDECIDED, VOTE, ZERO};
use crate::numbers::{Message, Numbers, Sort, MOST_PHASES, MOST_SLOTS, RECORDS, RECORD_WORDS};
use crate::orders::Orders;
use crate::random::Random;
use crate::rank::{first_ranked, URGENT};

pub type Damage = fn(&mut Random, &Numbers, &mut Memories);

pub const DAMAGES: [(&str, Damage); 48] = [
    ("mask bits of n and above, holders", |random, numbers, memories| {
        holders(numbers, memories).iter_mut().for_each(|mask| *mask |= bits_above(random, numbers));
    }),
    ("mask bits of n and above, heard", |random, numbers, memories| {
        heard(numbers, memories).iter_mut().for_each(|mask| *mask |= bits_above(random, numbers));
    }),
    ("junk in holders", |random, numbers, memories| {
        scatter(random, holders(numbers, memories), |random| random.word() as u16);
    }),
    ("junk in heard", |random, numbers, memories| {
        scatter(random, heard(numbers, memories), |random| random.word() as u16);
    }),
    ("own heard marks taken away", |_, numbers, memories| {
        let cells = heard(numbers, memories).iter_mut().enumerate();
        cells.for_each(|(cell, mask)| *mask &= !bit(cell % numbers.n));
    }),
    ("junk in ballots", |random, _, memories| {
        scatter(random, &mut memories.ballots, |random| random.word() as u8)
    }),
    ("states that say ?", |random, _, memories| scatter(random, &mut memories.ballots, |_| UNDECIDED)),
    ("any small ballots", |random, _, memories| {
        scatter(random, &mut memories.ballots, |random| random.below(5) as u8);
    }),
    ("heard marks on what was not sent", |random, numbers, memories| {
        heard(numbers, memories).fill(u16::MAX);
        scatter(random, &mut memories.ballots, |random| random.pick(&[0, 4, 128, u8::MAX]));
        scatter(random, proposals(numbers, memories), |_| 0);
    }),
    ("junk in the marks of notices", |random, numbers, memories| {
        mark_notices(numbers, memories, || random.word() as u16);
    }),
    ("heard marks on notices that were not sent", |_, numbers, memories| {
        mark_notices(numbers, memories, || u16::MAX);
    }),
    ("notices that differ", |random, numbers, memories| {
        mark_notices(numbers, memories, || random.word() as u16 | random.word() as u16);
        scatter(random, logs(numbers, memories), |random| small_tag(random, 4));
        for _ in 0..numbers.n.div_ceil(2) {
            let slot = random.between(1, numbers.slots) as u16;
            spoil(random, numbers, memories, |record| Record { round: IDLE, ..moved(record, slot) });
        }
    }),
    ("a replica far ahead", |random, numbers, memories| {
        mark_notices(numbers, memories, || random.word() as u16);
        scatter(random, logs(numbers, memories), Random::word);
        let slot = numbers.slots as u16;
        spoil(random, numbers, memories, |record| Record { round: IDLE, slot, ..record });
    }),
    ("closed slots taken back", |random, numbers, memories| {
        scatter(random, logs(numbers, memories), |random| small_tag(random, 8));
        spoil(random, numbers, memories, |record| moved(record, 0));
    }),
    ("proposals taken back", |random, numbers, memories| {
        scatter(random, proposals(numbers, memories), |_| 0);
    }),
    ("other proposals", |random, numbers, memories| {
        scatter(random, proposals(numbers, memories), |random| small_tag(random, 4));
    }),
    ("junk in logs", |random, numbers, memories| {
        scatter(random, logs(numbers, memories), |random| small_tag(random, 8));
    }),
    ("junk in the strip", |random, _, memories| {
        scatter(random, &mut memories.strip, |random| random.word() as u8)
    }),
    ("tags of 0", |random, numbers, memories| scatter(random, tags(numbers, memories), |_| 0)),
    ("tags known twice", |random, numbers, memories| {
        scatter(random, tags(numbers, memories), |random| 1 + random.below(2) as u64);
    }),
    ("tags urgent that were not, and the other way", |random, numbers, memories| {
        tags(numbers, memories).iter_mut().filter(|_| random.one_in(2)).for_each(|tag| *tag ^= URGENT);
    }),
    ("another count of known tags", |random, numbers, memories| {
        set_known(memories, random.below(numbers.room + 1));
    }),
    ("known above room", |random, numbers, memories| {
        set_known(memories, above_room(random, numbers));
    }),
    ("known above room in short words", |random, numbers, memories| {
        set_known(memories, above_room(random, numbers));
        memories.words.truncate(random.between(1, numbers.lengths().words - 1));
    }),
    ("any whole record", |random, numbers, memories| {
        let slot = random.below(numbers.slots) as u16;
        let (round, phase) = (random.below(5) as u16, random.between(1, numbers.phases) as u16);
        spoil(random, numbers, memories, |record| Record { round, phase, ..moved(record, slot) });
    }),
    ("those in the exchange moved to the find round", |random, numbers, memories| {
        for replica in 0..numbers.n {
            let record = memories.record(replica).unwrap_or_default();
            if record.round == EXCHANGE {
                let phase = random.pick(&[0, 1, 1, 2, 257]);
                memories.set_record(replica, Record { round: FIND, phase, ..record });
            }
        }
    }),
    ("crashed by another word than 1", |random, numbers, memories| {
        let crashed = random.pick(&[2, 256, u16::MAX]);
        spoil(random, numbers, memories, |record| Record { crashed, ..record });
    }),
    ("a round that is none of the five", |random, numbers, memories| {
        let round = random.pick(&[5, 6, u16::MAX]);
        spoil(random, numbers, memories, |record| Record { round, ..record });
    }),
    ("a slot above the slot count", |random, numbers, memories| {
        let slot = random.pick(&[numbers.slots as u16 + 1, u16::MAX]);
        spoil(random, numbers, memories, |record| Record { round: IDLE, slot, ..record });
    }),
    ("the slot count in a round", |random, numbers, memories| {
        let (round, slot) = (random.between(1, 4) as u16, numbers.slots as u16);
        spoil(random, numbers, memories, |record| Record { round, slot, phase: 1, ..record });
    }),
    ("the slot count when idle", |random, numbers, memories| {
        let (slot, phase) = (numbers.slots as u16, random.word() as u16);
        spoil(random, numbers, memories, |record| Record { round: IDLE, slot, phase, ..record });
    }),
    ("a phase out of range, state", |random, numbers, memories| {
        let phase = random.pick(&[0, numbers.phases as u16 + 1, u16::MAX]);
        spoil(random, numbers, memories, |record| Record { round: STATE, phase, ..moved(record, 0) });
    }),
    ("a phase out of range, vote", |random, numbers, memories| {
        let phase = random.pick(&[0, numbers.phases as u16 + 1, u16::MAX]);
        spoil(random, numbers, memories, |record| Record { round: VOTE, phase, ..moved(record, 0) });
    }),
    ("a phase out of range in another round", |random, numbers, memories| {
        let (round, phase) =
            (random.pick(&[0, 1, 4]), random.pick(&[0, numbers.phases as u16 + 1, 257, u16::MAX]));
        spoil(random, numbers, memories, |record| Record { round, phase, ..moved(record, 0) });
    }),
    ("a count at the closed slots", |random, numbers, memories| {
        recount(random, numbers, memories, 0);
    }),
    ("a count one above the closed slots", |random, numbers, memories| {
        recount(random, numbers, memories, 1);
    }),
    ("a count far above the closed slots", |random, numbers, memories| {
        let above = random.pick(&[2, 255, 256, u16::MAX]);
        recount(random, numbers, memories, above);
    }),
    ("other counts, none above the closed slots", |random, numbers, memories| {
        for replica in 0..numbers.n {
            let Some(record) = memories.record(replica) else { continue };
            let [empty, fast] = [(); 2].map(|()| random.between(0, record.slot.into()) as u16);
            memories.set_record(replica, Record { empty, fast, ..record });
        }
    }),
    ("a count above the closed slots in short words", |random, numbers, memories| {
        let replica = recount(random, numbers, memories, 1);
        // the record is there, or but for a word or two
        memories.words.truncate(RECORDS + RECORD_WORDS * (replica + 1) - random.below(3));
    }),
    ("a spoiled record in short words", |random, numbers, memories| {
        let whole = (numbers.n - 1).min(random.below(4));
        memories.words.resize(RECORDS + RECORD_WORDS * whole + random.between(0, RECORD_WORDS), 0);
        memories.words[RECORDS..].fill_with(|| random.below(7) as u16);
    }),
    ("a spoiled record of no replica", |_, numbers, memories| {
        let behind = numbers.holders_start();
        section(&mut memories.words, behind, behind + RECORD_WORDS).fill(u16::MAX);
    }),
    ("junk in all memories", |random, _, memories| junk(random, memories)),
    ("short words", |random, numbers, memories| {
        memories.words.truncate(shorter(random, numbers.lengths().words));
    }),
    ("short words, records missing", |random, numbers, memories| {
        memories.words.truncate(RECORDS + random.below(RECORD_WORDS * numbers.n));
    }),
    ("short words, none at all", |_, _, memories| memories.words.clear()),
    ("short orders", |random, numbers, memories| {
        memories.orders.truncate(shorter(random, numbers.lengths().orders));
    }),
    ("short ballots", |random, numbers, memories| {
        memories.ballots.truncate(shorter(random, numbers.lengths().ballots));
    }),
    ("short strip", |random, numbers, memories| {
        memories.strip.truncate(shorter(random, numbers.lengths().strip));
    }),
];

/// Damages of level racks, which fit their numbers: what the conductor must see, and what it must pass over.
pub const LEVEL_DAMAGES: [(&str, Damage); 15] = [
    ("a message of the level slot", |random, numbers, memories| {
        send_one(random, numbers, memories, level_slot(numbers, memories));
    }),
    ("a crashed one's message of the level slot", |random, numbers, memories| {
        let slot = level_slot(numbers, memories);
        spoil(random, numbers, memories, |record| Record { crashed: 1, ..record });
        send_one(random, numbers, memories, slot);
    }),
    ("a message of the slot behind", |random, numbers, memories| {
        send_one(random, numbers, memories, level_slot(numbers, memories) + 1);
    }),
    ("marks on the messages of the level slot", |random, numbers, memories| {
        for message in numbers.messages(level_slot(numbers, memories)) {
            let first = numbers.heard_cell(message, 0);
            memories.words[first..][..numbers.n].fill_with(|| random.word() as u16);
        }
    }),
    ("ballots of the level slot that are none", |random, numbers, memories| {
        for message in numbers.messages(level_slot(numbers, memories)).filter(|sent| sent.sort.has_phases()) {
            let junk = if message.sort == Sort::State { UNDECIDED } else { 4 };
            let first = numbers.ballot_cell(message, 0);
            memories.ballots[first..][..numbers.n].fill_with(|| random.pick(&[0, junk, u8::MAX]));
        }
    }),
    ("one ahead", |random, numbers, memories| {
        let slot = random.between(level_slot(numbers, memories), numbers.slots) as u16;
        spoil(random, numbers, memories, |record| Record { round: IDLE, ..moved(record, slot) });
    }),
    ("a crashed one ahead", |random, numbers, memories| {
        let slot = random.between(level_slot(numbers, memories), numbers.slots) as u16;
        spoil(random, numbers, memories, |record| Record { crashed: 1, round: IDLE, ..moved(record, slot) });
    }),
    ("one behind", |random, numbers, memories| {
        let slot = level_slot(numbers, memories).saturating_sub(1) as u16;
        spoil(random, numbers, memories, |record| moved(record, slot));
    }),
    ("all at the slot count", |_, numbers, memories| {
        for replica in 0..numbers.n {
            let record = memories.record(replica).unwrap_or_default();
            memories.set_record(replica, Record { round: IDLE, slot: numbers.slots as u16, ..record });
        }
    }),
    ("any phase when idle", |random, numbers, memories| {
        let phase = random.word() as u16;
        spoil(random, numbers, memories, |record| Record { round: IDLE, phase, ..record });
    }),
    ("the conductor's tag in some logs", |random, numbers, memories| {
        let (lit, slot) = (memories.lit(numbers), level_slot(numbers, memories).max(1));
        let pending = lit.iter().filter_map(|&who| memories.first_pending(numbers, who));
        let tag = first_ranked(pending).unwrap_or(1);
        for who in lit {
            memories.set_record(who, Record { slot: slot as u16, ..Record::default() });
            if random.one_in(3) {
                memories.orders[numbers.log_cell(who, random.below(slot))] = tag;
            }
        }
    }),
    ("a count above the closed slots, level", |random, numbers, memories| {
        recount(random, numbers, memories, 1);
    }),
    ("all counts at the closed slots", |_, numbers, memories| {
        for replica in 0..numbers.n {
            let record = memories.record(replica).unwrap_or_default();
            memories.set_record(replica, Record { empty: record.slot, fast: record.slot, ..record });
        }
    }),
    ("each tag held by one", |random, numbers, memories| {
        holders(numbers, memories).fill_with(|| bit(random.below(numbers.n)));
    }),
    ("all tags known twice", |random, numbers, memories| {
        let known = memories.known() / 2;
        memories.orders.copy_within(..known, known);
        holders(numbers, memories).fill_with(|| random.word() as u16);
    }),
];

/// Memories for a run, filled with junk: of exactly the lengths needed, or longer.
pub fn lent(random: &mut Random, numbers: &Numbers) -> Memories {
    let mut memories = Memories::of_run(numbers);
    if random.one_in(2) {
        memories.words.resize(memories.words.len() + random.below(20), 0);
        memories.orders.resize(memories.orders.len() + random.below(9), 0);
        memories.ballots.resize(memories.ballots.len() + random.below(20), 0);
        memories.strip.resize(memories.strip.len() + random.below(9), 0);
    }
    junk(random, &mut memories);
    memories
}

fn junk(random: &mut Random, memories: &mut Memories) {
    memories.words.fill_with(|| random.word() as u16);
    memories.orders.fill_with(|| random.word());
    memories.ballots.fill_with(|| random.word() as u8);
    memories.strip.fill_with(|| random.word() as u8);
}

/// The cells of a section that are there; in a short memory it may be cut, or gone.
fn section<T>(memory: &mut [T], start: usize, end: usize) -> &mut [T] {
    let length = memory.len();
    &mut memory[start.min(length)..end.min(length)]
}

fn holders<'a>(numbers: &Numbers, memories: &'a mut Memories) -> &'a mut [u16] {
    section(&mut memories.words, numbers.holders_start(), numbers.heard_start())
}

/// With the words behind the run's part, if there are any.
fn heard<'a>(numbers: &Numbers, memories: &'a mut Memories) -> &'a mut [u16] {
    section(&mut memories.words, numbers.heard_start(), usize::MAX)
}

/// Draws the marks anew of every notice that the words have room for.
fn mark_notices(numbers: &Numbers, memories: &mut Memories, mut draw: impl FnMut() -> u16) {
    for slot in 0..numbers.slots {
        let first = numbers.heard_cell(Message { sort: Sort::Notice, slot, phase: 0 }, 0);
        section(&mut memories.words, first, first + numbers.n).fill_with(&mut draw);
    }
}

fn tags<'a>(numbers: &Numbers, memories: &'a mut Memories) -> &'a mut [u64] {
    section(&mut memories.orders, 0, numbers.proposals_start())
}

fn proposals<'a>(numbers: &Numbers, memories: &'a mut Memories) -> &'a mut [u64] {
    section(&mut memories.orders, numbers.proposals_start(), numbers.logs_start())
}

/// With the orders behind the run's part, if there are any.
fn logs<'a>(numbers: &Numbers, memories: &'a mut Memories) -> &'a mut [u64] {
    section(&mut memories.orders, numbers.logs_start(), usize::MAX)
}

fn set_known(memories: &mut Memories, known: usize) {
    memories.words.iter_mut().take(RECORDS).for_each(|count| *count = known as u16);
}

fn above_room(random: &mut Random, numbers: &Numbers) -> usize {
    random.pick(&[numbers.room + 1, usize::from(u16::MAX)])
}

/// A record of which each word is within its range, at its end or beyond it.
pub fn any_record(random: &mut Random, numbers: &Numbers) -> Record {
    let slots = numbers.slots.min(MOST_SLOTS);
    let phases = numbers.phases.min(MOST_PHASES);
    let slot = random.pick(&[0, slots.saturating_sub(1), slots, slots + 1]) as u16;
    Record {
        crashed: random.pick(&[0, 0, 0, 1, 2, u16::MAX]),
        round: random.below(6) as u16,
        slot,
        phase: random.pick(&[0, 1, phases, phases + 1]) as u16,
        empty: any_count(random, slot),
        fast: any_count(random, slot),
    }
}

/// Mostly none above the closed slots.
fn any_count(random: &mut Random, slot: u16) -> u16 {
    if random.one_in(5) {
        random.pick(&[slot + 1, slot + 1, slot + 256, u16::MAX])
    } else {
        random.pick(&[0, slot / 2, slot, slot])
    }
}

/// The record in another slot, with counts that are not above it.
fn moved(record: Record, slot: u16) -> Record {
    Record { slot, empty: record.empty.min(slot), fast: record.fast.min(slot), ..record }
}

/// Sets one of the counts of one replica, or both, so far above its closed slots. Answers which replica.
fn recount(random: &mut Random, numbers: &Numbers, memories: &mut Memories, above: u16) -> usize {
    let counts = random.pick(&[[true, false], [false, true], [true, true]]);
    spoil(random, numbers, memories, |record| {
        let count = record.slot.saturating_add(above);
        let [empty, fast] = counts.map(|is_set| is_set.then_some(count));
        Record { empty: empty.unwrap_or(record.empty), fast: fast.unwrap_or(record.fast), ..record }
    })
}

fn bits_above(random: &mut Random, numbers: &Numbers) -> u16 {
    random.word() as u16 & (u16::MAX << numbers.n)
}

/// The slot of the lowest lit replica.
fn level_slot(numbers: &Numbers, memories: &Memories) -> usize {
    let lowest = memories.lit(numbers).first().and_then(|&who| memories.record(who));
    lowest.map_or(0, |record| usize::from(record.slot))
}

/// Any message of the slot, which now was sent by any replica.
fn send_one(random: &mut Random, numbers: &Numbers, memories: &mut Memories, slot: usize) {
    let messages: Vec<Message> = numbers.messages(slot).collect();
    if messages.is_empty() {
        return;
    }
    let (message, sender) = (random.pick(&messages), random.below(numbers.n));
    match message.sort {
        Sort::Proposal => memories.orders[numbers.proposal_cell(slot, sender)] = 1 + random.below(4) as u64,
        Sort::State => memories.ballots[numbers.ballot_cell(message, sender)] = random.pick(&[ZERO, ONE]),
        Sort::Vote => {
            memories.ballots[numbers.ballot_cell(message, sender)] = random.pick(&[ZERO, ONE, UNDECIDED]);
        }
        Sort::Notice => {
            let record = memories.record(sender).unwrap_or_default();
            memories.set_record(sender, Record { round: IDLE, ..moved(record, slot as u16 + 1) });
        }
    }
}

/// A tag of a low number, urgent or not, or none.
fn small_tag(random: &mut Random, end: usize) -> u64 {
    let number = random.below(end);
    Orders::SMALL.tag(random, number)
}

/// Draws some of the cells anew.
fn scatter<T>(random: &mut Random, cells: &mut [T], draw: fn(&mut Random) -> T) {
    let odds = random.pick(&[1, 3, 10]);
    for cell in cells {
        if random.one_in(odds) {
            *cell = draw(random);
        }
    }
}

/// Changes the record of one replica, if it is there. Answers which replica.
fn spoil(
    random: &mut Random,
    numbers: &Numbers,
    memories: &mut Memories,
    change: impl Fn(Record) -> Record,
) -> usize {
    let replica = random.below(numbers.n);
    if let Some(record) = memories.record(replica) {
        memories.set_record(replica, change(record));
    }
    replica
}

/// A length below the one needed, mostly by 1.
fn shorter(random: &mut Random, needed: usize) -> usize {
    if random.one_in(4) {
        random.below(needed)
    } else {
        needed - 1
    }
}
