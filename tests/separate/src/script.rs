//! Scripted runs, for the benchmark and for step files: the same calls every time, kept as memories and as calls.

use crate::call::Call;
use crate::memories::{Memories, EXCHANGE, FIND, STATE, VOTE};
use crate::numbers::{Numbers, Sort, ROUNDS};
use crate::rules;
use crate::step_file::{write_record, Form};
use std::ops::Range;

/// How far a run has come when a call is measured.
#[derive(Clone, Copy, Debug, PartialEq, Eq)]
pub struct Fill {
    pub known: usize,
    pub closed: usize,
}

pub struct Script {
    pub numbers: Numbers,
    pub memories: Memories,
    pub calls: Vec<Call>,
    /// The first call that was refused: it left the script in another state than its name says.
    pub refused: Option<Call>,
}

/// "time times 2^32 plus order number", an order a second.
pub fn order(second: usize) -> u64 {
    ((second as u64) << 32) + second as u64
}

impl Script {
    pub fn open(numbers: &Numbers) -> Script {
        Script::opened(numbers, 0)
    }

    /// By a plan within the limits.
    pub fn opened(plan: &Numbers, start: usize) -> Script {
        let numbers = rules::planned(plan, start).expect("a plan within the limits");
        let mut script = Script::going_on(&numbers, Memories::of_run(&numbers));
        script.step(Call::Open { plan: *plan, start });
        script
    }

    /// Opens the run anew.
    pub fn reopen(&mut self) {
        self.step(Call::Open { plan: self.numbers, start: 0 });
    }

    /// Goes on with a run, wherever it stands.
    pub fn going_on(numbers: &Numbers, memories: Memories) -> Script {
        Script { numbers: *numbers, memories, calls: Vec::new(), refused: None }
    }

    /// All replicas hold all known tags, and the oldest of these stand in the closed slots.
    pub fn filled(numbers: &Numbers, fill: Fill) -> Script {
        let mut script = Script::open(numbers);
        for second in 1..=fill.known {
            script.share(order(second), 0..numbers.n);
        }
        for _ in 0..fill.closed {
            script.begin(0..numbers.n);
            script.go_on(0..numbers.n, &ROUNDS);
        }
        script
    }

    /// As `filled`, but the newest tag has not been relayed: replica 0 alone holds it.
    pub fn unrelayed(numbers: &Numbers, fill: Fill) -> Script {
        let mut script = Script::filled(numbers, Fill { known: fill.known - 1, ..fill });
        script.step(Call::Submit { who: 0, tag: order(fill.known) });
        script
    }

    fn step(&mut self, call: Call) {
        if call.make(&self.numbers, &mut self.memories).is_err() {
            self.refused.get_or_insert(call);
        }
        self.calls.push(call);
    }

    /// Each record has the form that is chosen for it, where it has several.
    pub fn file(&self, mut form: impl FnMut() -> Form) -> Vec<u8> {
        let mut file = Vec::new();
        self.calls.iter().for_each(|call| write_record(&mut file, call, form()));
        file
    }

    pub fn lit(&self) -> Vec<usize> {
        self.memories.lit(&self.numbers)
    }

    pub fn slot(&self, who: usize) -> usize {
        self.memories.slot(who)
    }

    /// Submitted at the first of these replicas and relayed to the others.
    pub fn share(&mut self, tag: u64, holders: impl IntoIterator<Item = usize>) {
        let mut holders = holders.into_iter();
        holders.by_ref().take(1).for_each(|who| self.step(Call::Submit { who, tag }));
        holders.for_each(|who| self.step(Call::Relay { who, tag }));
    }

    /// A bare majority proposes one tag and the others another, if both rank before any other tag.
    pub fn share_in_camps(&mut self, tags: [u64; 2]) {
        let Range { start, end } = self.camp();
        self.share(tags[0], start..end);
        self.share(tags[1], end..self.numbers.n);
    }

    /// Each replica proposes another tag.
    pub fn share_apart(&mut self) {
        (0..self.numbers.n).for_each(|who| self.share(1 + who as u64, [who]));
    }

    pub fn begin(&mut self, replicas: impl IntoIterator<Item = usize>) {
        replicas.into_iter().for_each(|who| self.step(Call::Begin { who }));
    }

    pub fn crash(&mut self, replicas: impl IntoIterator<Item = usize>) {
        replicas.into_iter().for_each(|who| self.step(Call::Crash { who }));
    }

    pub fn run_on(&mut self, replicas: impl IntoIterator<Item = usize>) {
        replicas.into_iter().for_each(|who| self.step(Call::RunOn { who }));
    }

    pub fn conduct(&mut self) {
        self.step(Call::Conduct);
    }

    pub fn advance(&mut self, replicas: impl IntoIterator<Item = usize>) {
        replicas.into_iter().for_each(|who| self.step(Call::Advance { who }));
    }

    /// Messages of phase 1 of the receiver's slot; its own it has heard.
    pub fn hear(&mut self, receiver: usize, senders: impl IntoIterator<Item = usize>, sort: Sort) {
        for sender in senders.into_iter().filter(|&sender| sender != receiver) {
            self.step(self.hearing(receiver, sender, sort));
        }
    }

    pub fn hearing(&self, receiver: usize, sender: usize, sort: Sort) -> Call {
        let phase = usize::from(sort.has_phases());
        Call::Hear { receiver, sender, sort: sort as usize, slot: self.slot(receiver), phase }
    }

    /// One message of this phase of the receiver's slot.
    pub fn hear_in(&mut self, phase: usize, receiver: usize, sender: usize, sort: Sort) {
        self.hear_of(self.slot(receiver), phase, receiver, sender, sort);
    }

    /// One message of any slot and phase.
    pub fn hear_of(&mut self, slot: usize, phase: usize, receiver: usize, sender: usize, sort: Sort) {
        self.step(Call::Hear { receiver, sender, sort: sort as usize, slot, phase });
    }

    pub fn all_hear(&mut self, sort: Sort) {
        let Numbers { n, .. } = self.numbers;
        (0..n).for_each(|receiver| self.hear(receiver, 0..n, sort));
    }

    /// For each of the sorts, these replicas hear each other and then advance.
    pub fn go_on(&mut self, replicas: impl IntoIterator<Item = usize> + Clone, sorts: &[Sort]) {
        for &sort in sorts {
            let receivers = replicas.clone().into_iter();
            receivers.for_each(|receiver| self.hear(receiver, replicas.clone(), sort));
            self.advance(replicas.clone());
        }
    }

    /// The larger camp of those in `share_in_camps`: as many as a quorum where f is the most that n allows.
    pub fn camp(&self) -> Range<usize> {
        0..self.numbers.majority()
    }

    /// The larger camp goes ahead until all of it has voted for 1. The last replica, of the other camp, comes to this round
    /// and no further: to the find round since it has not heard of the tag often enough.
    pub fn leave_in(&mut self, round: u16) {
        let (Numbers { n, .. }, camp, last) = (self.numbers, self.camp(), self.numbers.n - 1);
        self.begin(0..last);
        self.go_on(camp.clone(), &[Sort::Proposal]);
        if round >= EXCHANGE {
            self.begin(last..n);
        }
        if round >= STATE {
            self.hear(last, n - self.numbers.quorum()..last, Sort::Proposal);
            self.advance([last]);
        }
        self.go_on(camp.clone(), &[Sort::State]);
        for (later, sort) in [(VOTE, Sort::State), (FIND, Sort::Vote)] {
            if round >= later {
                self.hear(last, camp.clone(), sort);
                self.advance([last]);
            }
        }
    }

    /// All replicas begin a slot and go on until they have sent this sort; all hear everything before it.
    pub fn send_up_to(&mut self, sort: Sort) {
        let Numbers { n, .. } = self.numbers;
        self.begin(0..n);
        self.go_on(0..n, &ROUNDS[..sort as usize - 1]);
    }
}
