//! What calls meet of the counts in the records, told by the memories after them, and what document 02 claims of the counts in a
//! run. The comparison programs count the one; that of direct calls asks for the other.

use crate::call::{Call, Done};
use crate::memories::{Memories, Record, FIND, IDLE, VOTE};
use crate::numbers::{Message, Numbers, Sort, RECORDS, RECORD_WORDS};
use crate::outcomes::Outcomes;
use crate::refusal::Refusal;
use crate::rules::{Advanced, Ran, Stop};
use crate::tally::{occurred, Facts};

/// What a run can meet.
pub const EVENTS: [&str; 41] = [
    "counts: closed empty in phase 1, both",
    "counts: closed empty in a later phase, empty alone",
    "counts: closed with an order in phase 1, fast alone",
    "counts: closed with an order in a later phase, neither",
    "counts: find closed, outcome of phase 1",
    "counts: find closed, outcome of a later phase",
    "counts: run on closed, outcome of phase 1",
    "counts: run on closed, outcome of a later phase",
    "counts: run on closed empty",
    "counts: run on closed by notice, empty",
    "counts: by notice, empty, when idle",
    "counts: by notice, empty, in a round of phase 1",
    "counts: by notice, an order, in a round of phase 1",
    "counts: by notice in a round of a later phase",
    "counts: by notice when idle, phase 1 of the slot before",
    "counts: by notice in the find round of phase 1",
    "counts: by notice in the find round of a later phase",
    "counts: by notice in spite of an outcome of phase 1",
    "counts: empty is the closed slots",
    "counts: fast is the closed slots",
    "counts: both are the closed slots",
    "counts: more empty than fast",
    "counts: more fast than empty",
    "counts: empty above 255",
    "counts: empty above 255, by notices alone",
    "counts: fast above 255",
    "counts: find entered in phase 1",
    "counts: find entered in a later phase",
    "counts above 0: submit",
    "counts above 0: relay",
    "counts above 0: begin",
    "counts above 0: hear",
    "counts above 0: exchange",
    "counts above 0: state round",
    "counts above 0: next phase",
    "counts above 0: find entered",
    "counts above 0: closed by votes",
    "counts above 0: closed by notice",
    "counts above 0: run on",
    "counts above 0: crash",
    "accepted with another's counts at its closed slots",
];

/// What only direct calls meet: of the conductor, of damaged memories, and of records that are lent to a crash.
pub const EVENTS_OF_CALLS: [&str; 46] = [
    "counts above 0: conduct",
    "counts: empty is 1,024",
    "counts: fast is 1,024",
    "opened over a run's counts",
    "a run's counts: slots that it closed neither empty nor fast",
    "a run's counts: above 255",
    "submit, refused 3: empty count alone",
    "submit, refused 3: fast count alone",
    "relay, refused 3: empty count alone",
    "relay, refused 3: fast count alone",
    "begin, refused 3: empty count alone",
    "begin, refused 3: fast count alone",
    "hear, refused 3: empty count alone",
    "hear, refused 3: fast count alone",
    "advance, refused 3: empty count alone",
    "advance, refused 3: fast count alone",
    "run on, refused 3: empty count alone",
    "run on, refused 3: fast count alone",
    "conduct, refused 3: empty count alone",
    "conduct, refused 3: fast count alone",
    "crash, refused 3: empty count alone",
    "crash, refused 3: fast count alone",
    "refused 3: a count one above, the acting one's",
    "refused 3: a count one above, another's",
    "refused 3: a count one above, a crashed one's",
    "refused 3: a count one above, the last replica's",
    "refused 3: a count one above with all slots closed",
    "refused 3: a count 256 above",
    "refused 3: a count of 65,535",
    "refused 3: a count above in short words",
    "refused 2: a spoiled record but for its counts",
    "refused 2: an empty count above, but for the last word",
    "crashed beside another's count above",
    "accepted with an empty count that the log belies",
    "closed with an empty count that the log belies",
    "find closed, a phase out of range in the record",
    "find closed, phase 1 in the record and no vote sent",
    "find closed with fewer than a quorum heard",
    "lent to a crash: counts at the closed slots",
    "lent to a crash: counts below the closed slots",
    "lent to a crash, refused 3: empty count one above alone",
    "lent to a crash, refused 3: fast count one above alone",
    "lent to a crash, refused 3: a count of 65,535 alone",
    "lent to a crash, refused 3: a count above, crashed too",
    "lent to a crash, refused 4: a count above alone",
    "lent to a crash, refused 5: counts at the closed slots",
];

/// Kinds of calls, each with its refusals 3 for the empty count alone and for the fast count alone.
const SPOILED: [(&str, [&str; 2]); 8] = [
    ("submit", ["submit, refused 3: empty count alone", "submit, refused 3: fast count alone"]),
    ("relay", ["relay, refused 3: empty count alone", "relay, refused 3: fast count alone"]),
    ("begin", ["begin, refused 3: empty count alone", "begin, refused 3: fast count alone"]),
    ("hear", ["hear, refused 3: empty count alone", "hear, refused 3: fast count alone"]),
    ("advance", ["advance, refused 3: empty count alone", "advance, refused 3: fast count alone"]),
    ("run on", ["run on, refused 3: empty count alone", "run on, refused 3: fast count alone"]),
    ("conduct", ["conduct, refused 3: empty count alone", "conduct, refused 3: fast count alone"]),
    ("crash", ["crash, refused 3: empty count alone", "crash, refused 3: fast count alone"]),
];

/// "In a run the first equals the number of empty entries in its log; the second equals what the run's accepted steps say."
/// Answers what is not so.
pub fn claim(numbers: &Numbers, memories: &Memories, outcomes: &Outcomes) -> Result<(), String> {
    for who in 0..numbers.n {
        let record = memories.record(who).unwrap_or_default();
        let counts = (usize::from(record.empty), usize::from(record.fast));
        let right = (empties(numbers, memories, who), outcomes.fast(who));
        if counts != right {
            return Err(format!("replica {who} has {counts:?} and not {right:?}"));
        }
    }
    Ok(())
}

/// The empty entries of a replica's log.
fn empties(numbers: &Numbers, memories: &Memories, who: usize) -> usize {
    memories.log(numbers, who, memories.slot(who)).iter().filter(|&&entry| entry == 0).count()
}

/// What a replica has come to where a trial ends in a run.
pub fn met_in_run(memories: &Memories, who: usize) -> Vec<&'static str> {
    let Record { slot, empty, fast, .. } = memories.record(who).unwrap_or_default();
    occurred([
        ("a run's counts: slots that it closed neither empty nor fast", empty.max(fast) < slot),
        ("a run's counts: above 255", empty.max(fast) > 255),
    ])
}

/// Whether an opening sets a count to 0 that was not.
pub fn are_counted(numbers: &Numbers, memories: &Memories) -> bool {
    (0..numbers.n).filter_map(|who| memories.record(who)).any(|record| record.empty > 0 || record.fast > 0)
}

/// The events of a call by these numbers.
pub fn met(
    call: &Call,
    numbers: &Numbers,
    result: &Result<Done, Refusal>,
    memories: &Memories,
) -> Vec<&'static str> {
    let scene = Scene { numbers, memories };
    occurred(match (*result, acting(call)) {
        (Ok(Done::Opened(_)), _) => Vec::new(),
        (Ok(Done::Crashed), Some(who)) => scene.crashed(who),
        (Ok(Done::Conducted(_)), _) => scene.conducted(),
        (Ok(done), Some(who)) => [scene.done(who, done), scene.accepted(who, done)].concat(),
        (Err(Refusal::SpoiledRecord), who) if numbers.within_limits() => scene.spoiled(call, who),
        (Err(Refusal::ShortTable), Some(_)) => scene.short(),
        _ => Vec::new(),
    })
}

/// The acting replica; the conductor names none, nor does an opening.
fn acting(call: &Call) -> Option<usize> {
    match *call {
        Call::Open { .. } | Call::Conduct => None,
        Call::Hear { receiver: who, .. }
        | Call::Submit { who, .. }
        | Call::Relay { who, .. }
        | Call::Begin { who }
        | Call::Advance { who }
        | Call::Crash { who }
        | Call::RunOn { who } => Some(who),
    }
}

/// The memories after a call.
struct Scene<'a> {
    numbers: &'a Numbers,
    memories: &'a Memories,
}

impl Scene<'_> {
    fn record(&self, who: usize) -> Record {
        self.memories.record(who).unwrap_or_default()
    }

    /// The records that are there, each with its replica.
    fn records(&self) -> impl Iterator<Item = (usize, Record)> + '_ {
        (0..self.numbers.n).filter_map(|who| Some((who, self.memories.record(who)?)))
    }

    /// What an accepted step of the replica did.
    fn done(&self, who: usize, done: Done) -> Facts {
        let record = self.record(who);
        let kept = |name| vec![(name, record.empty > 0 && record.fast > 0)];
        match done {
            Done::Submitted(_) => kept("counts above 0: submit"),
            Done::Relayed => kept("counts above 0: relay"),
            Done::Begun(_) => kept("counts above 0: begin"),
            Done::Heard => kept("counts above 0: hear"),
            Done::Advanced(advanced) => [self.advanced(who, advanced), kept(round_left(advanced))].concat(),
            Done::RanOn(ran) => [ran_on(record, ran), kept("counts above 0: run on")].concat(),
            _ => Vec::new(),
        }
    }

    /// What holds of any accepted step.
    fn accepted(&self, who: usize, done: Done) -> Facts {
        let is_full = |record: Record| record.slot > 0 && [record.empty, record.fast] == [record.slot; 2];
        let anothers = self.records().any(|(other, record)| other != who && is_full(record));
        let belied = empties(self.numbers, self.memories, who) != usize::from(self.record(who).empty);
        let closes = matches!(done, Done::Advanced(advanced) if advanced.closes());
        vec![
            ("accepted with another's counts at its closed slots", anothers),
            ("accepted with an empty count that the log belies", belied),
            ("closed with an empty count that the log belies", belied && closes),
        ]
    }

    fn advanced(&self, who: usize, advanced: Advanced) -> Facts {
        let record = self.record(who);
        let (first, later) = (record.phase == 1, self.is_later(record));
        let close = match advanced {
            Advanced::ClosedEmpty => vec![
                ("counts: closed empty in phase 1, both", first),
                ("counts: closed empty in a later phase, empty alone", later),
            ],
            Advanced::ClosedWith(_) => vec![
                ("counts: closed with an order in phase 1, fast alone", first),
                ("counts: closed with an order in a later phase, neither", later),
            ],
            Advanced::Found(_) => self.found(who, record),
            Advanced::ByNotice { round, entry } => self.by_notice(who, round, entry),
            Advanced::EnteredFind => {
                return vec![
                    ("counts: find entered in phase 1", first),
                    ("counts: find entered in a later phase", later),
                ]
            }
            _ => return Vec::new(),
        };
        [close, levels(record)].concat()
    }

    /// A run comes to the find round by a vote, with a quorum of proposals heard.
    fn found(&self, who: usize, record: Record) -> Facts {
        let (first, later) = (record.phase == 1, self.is_later(record));
        let slot = usize::from(record.slot) - 1;
        let voted = self.memories.was_sent(self.numbers, Message { sort: Sort::Vote, slot, phase: 1 }, who);
        let heard = self.memories.heard_proposals(self.numbers, slot, who).count();
        vec![
            ("counts: find closed, outcome of phase 1", first),
            ("counts: find closed, outcome of a later phase", later),
            ("find closed, a phase out of range in the record", !first && !later),
            ("find closed, phase 1 in the record and no vote sent", first && !voted),
            ("find closed with fewer than a quorum heard", heard < self.numbers.quorum()),
        ]
    }

    /// Whether the phase is one of the run's, behind the first.
    fn is_later(&self, record: Record) -> bool {
        (2..=self.numbers.phases).contains(&usize::from(record.phase))
    }

    fn by_notice(&self, who: usize, round: u16, entry: u64) -> Facts {
        let record = self.record(who);
        let (idle, empty, find) = (round == IDLE, entry == 0, round == FIND);
        let (first, later) = (record.phase == 1, self.is_later(record));
        vec![
            ("counts: by notice, empty, when idle", idle && empty),
            ("counts: by notice, empty, in a round of phase 1", !idle && first && empty),
            ("counts: by notice, an order, in a round of phase 1", !idle && first && !empty),
            ("counts: by notice in a round of a later phase", !idle && later),
            ("counts: by notice when idle, phase 1 of the slot before", idle && first && record.slot > 1),
            ("counts: by notice in the find round of phase 1", find && first),
            ("counts: by notice in the find round of a later phase", find && later),
            (
                "counts: by notice in spite of an outcome of phase 1",
                round == VOTE && first && self.has_outcome(who, record),
            ),
        ]
    }

    /// Whether the votes of the slot that was closed would have closed it, or led to the find round.
    fn has_outcome(&self, who: usize, record: Record) -> bool {
        let slot = usize::from(record.slot) - 1;
        let votes = self.memories.count(self.numbers, Message { sort: Sort::Vote, slot, phase: 1 }, who);
        votes.total() >= self.numbers.quorum() && votes.zeros.max(votes.ones) > self.numbers.f
    }

    fn crashed(&self, who: usize) -> Facts {
        let record = self.record(who);
        let beside = self.records().any(|(other, record)| other != who && record.counts_exceed());
        vec![
            ("counts above 0: crash", record.empty > 0 && record.fast > 0),
            ("crashed beside another's count above", beside),
        ]
    }

    /// The conductor has raised the fast count of each lit one that it closed for.
    fn conducted(&self) -> Facts {
        let counted = |record: Record| record.crashed == 0 && record.empty > 0 && record.fast > 1;
        vec![("counts above 0: conduct", self.records().any(|(_, record)| counted(record)))]
    }

    /// The records that refusal 3 goes by, if nothing but their counts is the matter. A crash reads its own alone.
    fn spoiled(&self, call: &Call, who: Option<usize>) -> Facts {
        let is_read = |other: usize| !matches!(call, Call::Crash { .. }) || who == Some(other);
        let read: Vec<(usize, Record)> = self.records().filter(|&(other, _)| is_read(other)).collect();
        let uncounted = |record: Record| Record { empty: 0, fast: 0, ..record };
        let otherwise = read.iter().any(|(_, record)| uncounted(*record).is_spoiled(self.numbers));
        if otherwise || self.memories.known() > self.numbers.room {
            return Vec::new();
        }
        let above: Vec<(usize, Record)> =
            read.into_iter().filter(|(_, record)| record.counts_exceed()).collect();
        let Some((_, [empty, fast])) = SPOILED.into_iter().find(|(name, _)| *name == call.name()) else {
            return Vec::new();
        };
        let mut facts = vec![
            (empty, above.iter().all(|(_, record)| record.fast <= record.slot)),
            (fast, above.iter().all(|(_, record)| record.empty <= record.slot)),
        ];
        if let [(other, record)] = above[..] {
            facts.extend(self.spoiler(other, who, record));
        }
        facts
    }

    /// Of the one record that has a count above its closed slots.
    fn spoiler(&self, other: usize, who: Option<usize>, record: Record) -> Facts {
        let (slot, most) = (usize::from(record.slot), usize::from(record.empty.max(record.fast)));
        let one = most == slot + 1;
        let last = other > 0 && other + 1 == self.numbers.n;
        vec![
            ("refused 3: a count one above, the acting one's", one && who == Some(other)),
            ("refused 3: a count one above, another's", one && who != Some(other)),
            ("refused 3: a count one above, a crashed one's", one && record.crashed != 0),
            ("refused 3: a count one above, the last replica's", one && last),
            ("refused 3: a count one above with all slots closed", one && slot == self.numbers.slots),
            ("refused 3: a count 256 above", most == slot + 256),
            ("refused 3: a count of 65,535", most == 65_535),
            ("refused 3: a count above in short words", !self.memories.fit(self.numbers)),
        ]
    }

    /// Of a record of the run that is there in part.
    fn short(&self) -> Facts {
        let words = self.memories.words.get(RECORDS..).unwrap_or_default();
        let (whole, part) = words.as_chunks::<RECORD_WORDS>();
        let mut record = [0; RECORD_WORDS];
        record[..part.len()].copy_from_slice(part);
        let (record, is_runs) = (Record::from(record), whole.len() < self.numbers.n);
        let but_counts = part.len() == 4 && record.is_spoiled(self.numbers);
        let but_last = part.len() == 5 && record.counts_exceed();
        vec![
            ("refused 2: a spoiled record but for its counts", is_runs && but_counts),
            ("refused 2: an empty count above, but for the last word", is_runs && but_last),
        ]
    }
}

/// What the counts of a replica are after a close.
fn levels(record: Record) -> Facts {
    let Record { slot, empty, fast, .. } = record;
    vec![
        ("counts: empty is the closed slots", empty == slot && fast < slot),
        ("counts: fast is the closed slots", fast == slot && empty < slot),
        ("counts: both are the closed slots", empty == slot && fast == slot),
        ("counts: more empty than fast", empty > fast),
        ("counts: more fast than empty", fast > empty),
        ("counts: empty above 255", empty > 255),
        ("counts: empty above 255, by notices alone", empty > 255 && fast == 0),
        ("counts: fast above 255", fast > 255),
        ("counts: empty is 1,024", empty == 1024),
        ("counts: fast is 1,024", fast == 1024),
    ]
}

/// Which event an advance with counts above 0 is.
fn round_left(advanced: Advanced) -> &'static str {
    match advanced {
        Advanced::Exchanged(_) => "counts above 0: exchange",
        Advanced::Voted(_) => "counts above 0: state round",
        Advanced::NextByVote(_) | Advanced::NextByCoin(_) => "counts above 0: next phase",
        Advanced::EnteredFind => "counts above 0: find entered",
        Advanced::ClosedEmpty | Advanced::ClosedWith(_) | Advanced::Found(_) => {
            "counts above 0: closed by votes"
        }
        Advanced::ByNotice { .. } => "counts above 0: closed by notice",
    }
}

fn ran_on(record: Record, ran: Ran) -> Facts {
    let Stop::Closed(closed) = ran.stop else { return Vec::new() };
    match closed {
        Advanced::ByNotice { entry, .. } => vec![("counts: run on closed by notice, empty", entry == 0)],
        _ => vec![
            ("counts: run on closed, outcome of phase 1", record.phase == 1),
            ("counts: run on closed, outcome of a later phase", record.phase > 1),
            ("counts: run on closed empty", closed == Advanced::ClosedEmpty),
        ],
    }
}

/// The events of a crash that is lent this record. "Alone" is where nothing but a count refuses it.
pub fn met_by_crash(numbers: &Numbers, lent: Record, result: Result<(), Refusal>) -> Vec<&'static str> {
    let Record { slot, empty, fast, .. } = lent;
    let alone = !Record { empty: 0, fast: 0, ..lent }.is_spoiled(numbers);
    let (full, exceeds) = (slot > 0 && [empty, fast] == [slot; 2], lent.counts_exceed());
    occurred(match result {
        Ok(()) => vec![
            ("lent to a crash: counts at the closed slots", full),
            ("lent to a crash: counts below the closed slots", empty < slot && fast < slot),
        ],
        Err(Refusal::SpoiledRecord) if numbers.within_limits() && alone => vec![
            ("lent to a crash, refused 3: empty count one above alone", empty == slot + 1 && fast <= slot),
            ("lent to a crash, refused 3: fast count one above alone", fast == slot + 1 && empty <= slot),
            ("lent to a crash, refused 3: a count of 65,535 alone", empty.max(fast) == 65_535),
            ("lent to a crash, refused 3: a count above, crashed too", lent.crashed != 0),
        ],
        Err(Refusal::NoSuchBench) => {
            vec![("lent to a crash, refused 4: a count above alone", alone && exceeds)]
        }
        Err(Refusal::Dark) => vec![("lent to a crash, refused 5: counts at the closed slots", full)],
        _ => Vec::new(),
    })
}

#[cfg(test)]
mod tests {
    use super::*;
    use crate::counted::{recounted, RACK};

    fn refused(call: Call, memories: &Memories) -> Vec<&'static str> {
        met(&call, &RACK, &Err(Refusal::SpoiledRecord), memories)
    }

    /// One above, of another; of itself, with both counts; far above. Where a round is spoiled too nothing is told.
    #[test]
    fn tells_which_count_spoils() {
        let one = ["begin, refused 3: fast count alone", "refused 3: a count one above, another's"];
        assert_eq!(refused(Call::Begin { who: 0 }, &recounted(1, 1, 2)), one);
        let own = [
            "refused 3: a count one above, the acting one's",
            "refused 3: a count one above, the last replica's",
        ];
        assert_eq!(refused(Call::Begin { who: 2 }, &recounted(2, 2, 2)), own);
        let far = ["conduct, refused 3: empty count alone", "refused 3: a count of 65,535"];
        assert_eq!(refused(Call::Conduct, &recounted(0, 65_535, 1)), far);
        let mut spoiled = recounted(0, 2, 0);
        spoiled.set_record(1, Record { round: 5, ..Record::default() });
        assert!(refused(Call::Begin { who: 0 }, &spoiled).is_empty());
        let crash = ["crash, refused 3: empty count alone", "refused 3: a count one above, the acting one's"];
        assert_eq!(refused(Call::Crash { who: 0 }, &spoiled), crash);
    }

    /// Replica 1's words end behind its phase, or behind its empty count.
    #[test]
    fn tells_records_in_part() {
        let short = |words: &[u16]| {
            let memories = Memories { words: words.to_vec(), ..Memories::default() };
            met(&Call::Begin { who: 0 }, &RACK, &Err(Refusal::ShortTable), &memories)
        };
        assert_eq!(
            short(&[0, 0, 0, 0, 0, 0, 0, 0, 5, 0, 0]),
            ["refused 2: a spoiled record but for its counts"]
        );
        let but_last = ["refused 2: an empty count above, but for the last word"];
        assert_eq!(short(&[0, 0, 0, 0, 0, 0, 0, 0, 0, 0, 0, 1]), but_last);
        assert!(short(&[0, 0, 0, 0, 0, 0, 0, 0, 0, 1, 0, 1]).is_empty());
    }
}
