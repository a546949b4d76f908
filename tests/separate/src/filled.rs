//! Long runs, written cell by cell as their steps would leave them: a thousand slots would take long to step through.

use crate::memories::{Memories, Record, IDLE, ONE};
use crate::numbers::{Message, Numbers, Sort, ROUNDS};
use crate::rank::rank;

/// A known tag, and the mask of those who hold it.
pub type Known = (u64, u16);

/// All n replicas.
pub fn everyone(numbers: &Numbers) -> u16 {
    (1 << numbers.n) - 1
}

/// The entries of so many slots where all tags were known before the first: the first-ranked ones.
pub fn by_rank(known: &[Known], closed: usize) -> Vec<u64> {
    let mut entries: Vec<u64> = known.iter().map(|&(tag, _)| tag).collect();
    entries.sort_by_key(|&tag| rank(tag));
    entries.truncate(closed);
    entries
}

/// The entries where each slot was closed before the next tag was submitted: the oldest ones.
pub fn by_age(known: &[Known], closed: usize) -> Vec<u64> {
    known[..closed].iter().map(|&(tag, _)| tag).collect()
}

/// On the memories of a run that has just been opened: these tags become known, in this order, and slots are closed with these
/// entries, each by all replicas in phase 1. Everyone holds what is logged.
pub fn fill(numbers: &Numbers, known: &[Known], entries: &[u64], memories: &mut Memories) {
    let everyone = everyone(numbers);
    for (place, &(tag, holders)) in known.iter().enumerate() {
        memories.orders[place] = tag;
        memories.words[numbers.holder_cell(place)] = if entries.contains(&tag) { everyone } else { holders };
    }
    memories.words[0] = known.len() as u16;
    for (slot, &entry) in entries.iter().enumerate() {
        close(numbers, slot, entry, memories);
    }
    let (slot, phase) = (entries.len() as u16, u16::from(!entries.is_empty()));
    let record = Record { round: IDLE, slot, phase, fast: slot, ..Record::default() };
    (0..numbers.n).for_each(|who| memories.set_record(who, record));
}

/// All have proposed the entry, had the state 1, voted for it and heard each other; nobody has heard another's notice.
fn close(numbers: &Numbers, slot: usize, entry: u64, memories: &mut Memories) {
    for sender in 0..numbers.n {
        for sort in ROUNDS {
            let message = Message { sort, slot, phase: usize::from(sort.has_phases()) };
            match sort {
                Sort::Proposal => memories.send_proposal(numbers, slot, sender, entry),
                _ => memories.send_ballot(numbers, message, sender, ONE),
            }
            memories.words[numbers.heard_cell(message, sender)] = everyone(numbers);
        }
        memories.send_notice(numbers, slot, sender, entry);
    }
}

#[cfg(test)]
mod tests {
    use super::*;
    use crate::rank::URGENT;
    use crate::script::Script;

    const NUMBERS: Numbers = Numbers { n: 3, f: 1, slots: 6, phases: 3, room: 7 };
    const KNOWN: [Known; 6] =
        [(7, 0b111), (URGENT + 9, 0b111), (5, 0b111), (u64::MAX, 0b111), (12, 0b101), (11, 0b010)];

    fn share(script: &mut Script, (tag, holders): Known) {
        script.share(tag, (0..3).filter(|who| holders >> who & 1 != 0));
    }

    #[track_caller]
    fn assert_left(script: Script, entries: &[u64]) {
        let mut memories = Script::open(&NUMBERS).memories;
        fill(&NUMBERS, &KNOWN, entries, &mut memories);
        assert_eq!((script.refused, script.memories), (None, memories));
    }

    /// Every cell is as the conductor leaves it.
    #[test]
    fn is_what_the_steps_leave() {
        for closed in 0..=4 {
            let mut script = Script::open(&NUMBERS);
            KNOWN.into_iter().for_each(|known| share(&mut script, known));
            (0..closed).for_each(|_| script.conduct());
            assert_left(script, &by_rank(&KNOWN, closed));
        }
    }

    #[test]
    fn is_what_steps_leave_that_close_each_tag_at_once() {
        for closed in 0..=4 {
            let mut script = Script::open(&NUMBERS);
            for (place, known) in KNOWN.into_iter().enumerate() {
                share(&mut script, known);
                if place < closed {
                    script.conduct();
                }
            }
            assert_left(script, &by_age(&KNOWN, closed));
        }
    }
}
