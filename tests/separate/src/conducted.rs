//! What calls of the conductor meet, told by the memories before them, and what document 02 claims of it in a run.
//! The comparison program of direct calls counts the one and asks for the other.

use crate::call::Done;
use crate::conductor::Conducted;
use crate::memories::{Memories, Record, IDLE};
use crate::numbers::{Message, Numbers, Sort, MOST_REPLICAS, MOST_SLOTS};
use crate::rank::{first_ranked, is_urgent, rank};
use crate::refusal::Refusal;
use crate::tally::{occurred, Facts};

/// What a run can meet.
pub const EVENTS: [&str; 34] = [
    "conducted without a relay",
    "conducted with L - 1 relays",
    "conducted with fewer relays than L - 1",
    "conducted one lit replica",
    "conducted exactly a quorum, fewer than n",
    "conducted all n",
    "conducted 15 lit replicas",
    "conducted with f 0",
    "conducted with one phase",
    "conducted in the last slot",
    "conducted in a slot above 63",
    "conducted in a slot above 255",
    "conducted in slot 1,023",
    "conducted with a crashed one in an earlier slot",
    "conducted with a crashed one in a round",
    "conducted a tag that is not the oldest known",
    "conducted a tag that the lowest lit one lacked",
    "conducted while a crashed one's tag ranks before",
    "conducted an urgent tag, a smaller one waits",
    "conducted the smaller of two urgent tags",
    "conducted the smaller of two that are not urgent",
    "conducted an urgent tag that one lit one alone held",
    "conducted while an urgent tag waits at a crashed one only",
    "conduct, refused 23: one below the quorum",
    "conduct, refused 23: a majority lit",
    "conduct, refused 23: nobody lit",
    "conduct, refused 23: not level either",
    "conduct, refused 22: not idle",
    "conduct, refused 22: idle at other slots",
    "conduct, refused 22: one has closed all slots",
    "conduct, refused 22: a crashed one's proposal alone",
    "conduct, refused 22: nothing pending either",
    "conduct, refused 11: nothing pending either",
    "conduct, refused 11: 1,024 slots closed",
];

/// What only damaged memories can meet. In a run a lit one that is idle at a slot has sent nothing of it, and one
/// that has closed a slot leaves no quorum idle at it.
pub const EVENTS_OF_DAMAGE: [&str; 16] = [
    "conduct, refused 2: the strip alone short",
    "conduct, refused 2: too few lit either",
    "conduct, refused 22: a lit one's message",
    "conduct, refused 22: a crashed one's state alone",
    "conduct, refused 22: a crashed one's vote alone",
    "conduct, refused 22: a crashed one's notice alone",
    "conduct, refused 22: messages of later phases alone",
    "conduct, refused 22: messages of the last phase alone",
    "conducted in spite of marks on unsent messages",
    "conducted in spite of messages of the next slot",
    "conducted from a phase out of range",
    "conducted a tag that some lit ones have logged",
    "conducted a tag that is known twice",
    "passed over a begin, others went on",
    "passed over a begin, nobody went on",
    "passed over nothing, but closed empty",
];

/// The events of a conductor's call by these numbers. A scene is made of whole memories only, where the cells are there.
pub fn met(
    numbers: &Numbers,
    result: &Result<Done, Refusal>,
    before: &Memories,
    after: &Memories,
) -> Vec<&'static str> {
    occurred(match *result {
        Ok(Done::Conducted(conducted)) => {
            let scene = Scene::of(numbers, before);
            let rack = [scene.size(conducted), scene.rack(), scene.damage()].concat();
            let tag = scene.tag.map(|tag| [scene.taken(tag), scene.waiting(tag)].concat());
            [rack, tag.unwrap_or_default(), scene.passed_over(conducted, after)].concat()
        }
        Err(Refusal::ShortTable) => short(numbers, before),
        Err(Refusal::TooFewLit) => Scene::of(numbers, before).too_few(),
        Err(Refusal::NotLevel) => Scene::of(numbers, before).not_level(),
        Err(Refusal::LogFull) => vec![
            ("conduct, refused 11: nothing pending either", Scene::of(numbers, before).tag.is_none()),
            ("conduct, refused 11: 1,024 slots closed", numbers.slots == MOST_SLOTS),
        ],
        _ => Vec::new(),
    })
}

fn short(numbers: &Numbers, before: &Memories) -> Facts {
    let mut long = before.clone();
    long.strip.resize(numbers.lengths().strip.max(before.strip.len()), 0);
    vec![
        ("conduct, refused 2: the strip alone short", long.fit(numbers)),
        ("conduct, refused 2: too few lit either", before.lit(numbers).len() < numbers.quorum()),
    ]
}

/// "In a run from an accepted opening it closes the slot with that tag at all lit controllers in exactly 3L² + L of
/// the rules' steps besides at most L − 1 relays", that tag being the first-ranked one. Answers what is not so.
pub fn claim(
    numbers: &Numbers,
    before: &Memories,
    after: &Memories,
    conducted: Conducted,
) -> Result<(), String> {
    let Scene { lit, slot, tag, .. } = Scene::of(numbers, before);
    let (count, tag) = (lit.len(), tag.ok_or("conducted with nothing pending")?);
    let lacking = lit.iter().filter(|&&who| !before.holds(numbers, who, tag)).count();
    let Conducted { steps, relays } = conducted;
    if steps != 3 * count * count + count || relays != lacking || relays >= count {
        return Err(format!(
            "{steps} steps and {relays} relays for {count} lit, {lacking} of which lack {tag}"
        ));
    }
    for who in 0..numbers.n {
        let record = before.record(who).unwrap_or_default();
        let closed = Record { slot: slot as u16 + 1, phase: 1, fast: record.fast + 1, ..record };
        let right = if lit.contains(&who) { closed } else { record };
        let log = after.log(numbers, who, right.slot.into());
        let logged = !lit.contains(&who) || log.last() == Some(&tag);
        if after.record(who) != Some(right) || !logged {
            return Err(format!(
                "replica {who} has {:?}, {log:?} and not {right:?}, {tag}",
                after.record(who)
            ));
        }
    }
    Ok(())
}

/// The memories before a call, with what the conductor looks at. The slot is the lowest lit one's.
struct Scene<'a> {
    numbers: &'a Numbers,
    memories: &'a Memories,
    lit: Vec<usize>,
    slot: usize,
    tag: Option<u64>,
}

impl Scene<'_> {
    fn of<'a>(numbers: &'a Numbers, memories: &'a Memories) -> Scene<'a> {
        let lit = memories.lit(numbers);
        let tag = first_ranked(lit.iter().flat_map(|&who| memories.pending(numbers, who)));
        Scene { numbers, memories, slot: lit.first().map_or(0, |&who| memories.slot(who)), lit, tag }
    }

    fn records(&self) -> impl Iterator<Item = Record> + Clone + '_ {
        (0..self.numbers.n).filter_map(|who| self.memories.record(who))
    }

    fn lit_records(&self) -> impl Iterator<Item = Record> + Clone + '_ {
        self.records().filter(|record| record.crashed == 0)
    }

    fn are_idle(&self) -> bool {
        self.lit_records().all(|record| record.round == IDLE)
    }

    fn are_abreast(&self) -> bool {
        self.lit_records().all(|record| usize::from(record.slot) == self.slot)
    }

    /// The messages of a slot that were sent, each with its sender.
    fn sent(&self, slot: usize) -> Vec<(Message, usize)> {
        let by_all = |message| (0..self.numbers.n).map(move |sender| (message, sender));
        let all = self.numbers.messages(slot).flat_map(by_all);
        all.filter(|&(message, sender)| self.memories.was_sent(self.numbers, message, sender)).collect()
    }

    fn size(&self, conducted: Conducted) -> Facts {
        let (Numbers { n, f, .. }, count) = (*self.numbers, self.lit.len());
        let Conducted { relays, .. } = conducted;
        vec![
            ("conducted without a relay", relays == 0),
            ("conducted with L - 1 relays", relays > 0 && relays + 1 == count),
            ("conducted with fewer relays than L - 1", relays > 0 && relays + 1 < count),
            ("conducted one lit replica", count == 1),
            ("conducted exactly a quorum, fewer than n", count == self.numbers.quorum() && count < n),
            ("conducted all n", count == n && n > 1),
            ("conducted 15 lit replicas", count == MOST_REPLICAS),
            ("conducted with f 0", f == 0 && n > 1),
        ]
    }

    fn rack(&self) -> Facts {
        let mut crashed = self.records().filter(|record| record.crashed != 0);
        let behind = crashed.clone().any(|record| usize::from(record.slot) < self.slot);
        vec![
            ("conducted with one phase", self.numbers.phases == 1),
            ("conducted in the last slot", self.slot + 1 == self.numbers.slots && self.slot > 0),
            ("conducted in a slot above 63", self.slot > 63),
            ("conducted in a slot above 255", self.slot > 255),
            ("conducted in slot 1,023", self.slot + 1 == MOST_SLOTS),
            ("conducted with a crashed one in an earlier slot", behind),
            ("conducted with a crashed one in a round", crashed.any(|record| record.round != IDLE)),
        ]
    }

    fn taken(&self, tag: u64) -> Facts {
        let lowest_lacks = self.lit.first().is_some_and(|&who| !self.memories.holds(self.numbers, who, tag));
        let logged = |who: &usize| self.memories.log(self.numbers, *who, self.slot).contains(&tag);
        let known = &self.memories.orders[..self.memories.known()];
        vec![
            ("conducted a tag that is not the oldest known", self.memories.place(tag) > Some(0)),
            ("conducted a tag that the lowest lit one lacked", lowest_lacks),
            ("conducted a tag that some lit ones have logged", self.lit.iter().any(logged)),
            ("conducted a tag that is known twice", known.iter().filter(|&&other| other == tag).count() > 1),
        ]
    }

    /// What is pending beside the conductor's tag.
    fn waiting(&self, tag: u64) -> Facts {
        let (lit, crashed) = (self.others(tag, true), self.others(tag, false));
        let holders = self.lit.iter().filter(|&&who| self.memories.holds(self.numbers, who, tag)).count();
        let (urgent, alone) = (is_urgent(tag), holders == 1 && self.lit.len() > 1);
        let before = crashed.iter().any(|&other| rank(other) < rank(tag));
        let crashed_only = !urgent && crashed.iter().any(|&other| is_urgent(other));
        vec![
            ("conducted while a crashed one's tag ranks before", before),
            ("conducted an urgent tag, a smaller one waits", urgent && lit.iter().any(|&other| other < tag)),
            ("conducted the smaller of two urgent tags", urgent && lit.iter().any(|&other| is_urgent(other))),
            ("conducted the smaller of two that are not urgent", !urgent && !lit.is_empty()),
            ("conducted an urgent tag that one lit one alone held", urgent && alone),
            ("conducted while an urgent tag waits at a crashed one only", crashed_only),
        ]
    }

    /// The tags beside this one that are pending at lit replicas, or at crashed ones.
    fn others(&self, tag: u64, are_lit: bool) -> Vec<u64> {
        let replicas = (0..self.numbers.n).filter(|who| self.lit.contains(who) == are_lit);
        let pending = replicas.flat_map(|who| self.memories.pending(self.numbers, who));
        pending.filter(|&other| other != tag).collect()
    }

    fn damage(&self) -> Facts {
        let mut messages = self.numbers.messages(self.slot);
        let is_marked = |sender: usize, message: Message| {
            self.memories.words[self.numbers.heard_cell(message, sender)] != 0
        };
        let out_of_range = |record: Record| usize::from(record.phase) > self.numbers.phases;
        let marked = messages.any(|message| (0..self.numbers.n).any(|sender| is_marked(sender, message)));
        vec![
            ("conducted in spite of marks on unsent messages", marked),
            ("conducted in spite of messages of the next slot", !self.sent(self.slot + 1).is_empty()),
            ("conducted from a phase out of range", self.lit_records().any(out_of_range)),
        ]
    }

    fn passed_over(&self, conducted: Conducted, after: &Memories) -> Facts {
        let count = self.lit.len();
        let passed = conducted.steps < 3 * count * count + count;
        let closed =
            |who: &&usize| after.record(**who).is_some_and(|record| usize::from(record.slot) > self.slot);
        let closed: Vec<usize> = self.lit.iter().filter(closed).copied().collect();
        let is_empty = |&who: &usize| after.log(self.numbers, who, self.slot + 1).last() == Some(&0);
        vec![
            ("passed over a begin, others went on", passed && !closed.is_empty()),
            ("passed over a begin, nobody went on", passed && closed.is_empty()),
            ("passed over nothing, but closed empty", !passed && closed.iter().any(is_empty)),
        ]
    }

    fn too_few(&self) -> Facts {
        let count = self.lit.len();
        let level = self.are_idle() && self.are_abreast();
        vec![
            ("conduct, refused 23: one below the quorum", count + 1 == self.numbers.quorum() && count > 0),
            ("conduct, refused 23: a majority lit", count >= self.numbers.majority()),
            ("conduct, refused 23: nobody lit", count == 0),
            ("conduct, refused 23: not level either", !level),
        ]
    }

    fn not_level(&self) -> Facts {
        let (idle, abreast) = (self.are_idle(), self.are_abreast());
        let full = self.lit_records().any(|record| usize::from(record.slot) == self.numbers.slots);
        let mut facts = vec![
            ("conduct, refused 22: not idle", !idle && abreast),
            ("conduct, refused 22: idle at other slots", idle && !abreast),
            ("conduct, refused 22: one has closed all slots", full),
            ("conduct, refused 22: nothing pending either", self.tag.is_none()),
        ];
        if idle && abreast {
            facts.extend(self.spoken_of());
        }
        facts
    }

    /// Of lit ones that are idle at one slot: who has sent what.
    fn spoken_of(&self) -> Facts {
        let sent = self.sent(self.slot);
        let is_lit = |sender: &usize| self.lit.contains(sender);
        let crashed_ones = !sent.iter().any(|(_, sender)| is_lit(sender));
        let alone = |sort| crashed_ones && sent.iter().all(|(message, _)| message.sort == sort);
        let from = |phase| sent.iter().all(|(message, _)| message.phase >= phase);
        let phases = self.numbers.phases;
        vec![
            ("conduct, refused 22: a lit one's message", sent.iter().all(|(_, sender)| is_lit(sender))),
            ("conduct, refused 22: a crashed one's proposal alone", alone(Sort::Proposal)),
            ("conduct, refused 22: a crashed one's state alone", alone(Sort::State)),
            ("conduct, refused 22: a crashed one's vote alone", alone(Sort::Vote)),
            ("conduct, refused 22: a crashed one's notice alone", alone(Sort::Notice)),
            ("conduct, refused 22: messages of later phases alone", from(2)),
            ("conduct, refused 22: messages of the last phase alone", phases > 1 && from(phases)),
        ]
    }
}
