//! Counts what the generated inputs met, so that a comparison which never met something says so.

use crate::bands;
use crate::call::{Call, Done};
use crate::counts;
use crate::memories::{Memories, ONE, UNDECIDED, ZERO};
use crate::notices;
use crate::numbers::{Numbers, Sort};
use crate::phases;
use crate::refusal::Refusal;
use crate::rules::{Advanced, Ran, Stop, Submitted};
use crate::urgent;
use std::collections::BTreeMap;
use std::process::ExitCode;

/// What a run can meet beside refusals, notices, long slots, urgent tags, longer bands and counts.
pub const EVENTS: [&str; 33] = [
    "opened",
    "submitted new",
    "submitted known",
    "relayed",
    "proposed",
    "heard proposal",
    "heard state",
    "heard vote",
    "heard from a crashed sender",
    "heard for another slot",
    "heard for another phase",
    "exchange gave 0",
    "exchange gave 1",
    "voted 0",
    "voted 1",
    "voted ?",
    "closed empty",
    "closed with an order",
    "next phase by vote 0",
    "next phase by vote 1",
    "next phase by coin 0",
    "next phase by coin 1",
    "find entered",
    "find closed",
    "crashed",
    "run on of 1",
    "run on of 2",
    "run on of 3",
    "run on of 4",
    "run on of 5 or more",
    "run on stopped at a closed slot",
    "run on stopped at 14",
    "run on stopped at 15",
];

/// Events, each with whether it occurred.
pub type Facts = Vec<(&'static str, bool)>;

pub fn occurred(facts: impl IntoIterator<Item = (&'static str, bool)>) -> Vec<&'static str> {
    facts.into_iter().filter(|(_, holds)| *holds).map(|(event, _)| event).collect()
}

/// The name of a call's answer, 0 or the refusal's number.
pub fn answer_name(call: &str, answer: usize) -> String {
    match answer {
        0 => format!("{call}, accepted"),
        refusal => format!("{call}, refused {refusal}"),
    }
}

/// How often each thing occurred, under its name.
pub struct Tally {
    counts: BTreeMap<String, u64>,
}

impl Tally {
    /// Starts with all that is expected to occur.
    pub fn expecting(names: impl IntoIterator<Item = String>) -> Tally {
        Tally { counts: names.into_iter().map(|name| (name, 0)).collect() }
    }

    pub fn note(&mut self, name: &str) {
        match self.counts.get_mut(name) {
            Some(count) => *count += 1,
            None => drop(self.counts.insert(name.to_string(), 1)),
        }
    }

    /// Prints the counts, and names what was expected and never occurred.
    pub fn verdict(&self) -> ExitCode {
        for (name, count) in &self.counts {
            println!("{count:>10}  {name}");
        }
        let mut code = ExitCode::SUCCESS;
        for (name, _) in self.counts.iter().filter(|(_, count)| **count == 0) {
            println!("never occurred: {name}");
            code = ExitCode::FAILURE;
        }
        code
    }

    /// Notes the events of a call by these numbers; `memories` are those after it.
    pub fn note_events(
        &mut self,
        call: &Call,
        numbers: &Numbers,
        result: &Result<Done, Refusal>,
        memories: &Memories,
    ) {
        for met in [notices::met, phases::met, urgent::met, bands::met, counts::met] {
            met(call, numbers, result, memories).into_iter().for_each(|event| self.note(event));
        }
        if let Ok(done) = result {
            self.note_done(call, done, memories);
        }
    }

    fn note_done(&mut self, call: &Call, done: &Done, memories: &Memories) {
        match *done {
            Done::Opened(_) => self.note("opened"),
            Done::Submitted(Submitted::New) => self.note("submitted new"),
            Done::Submitted(Submitted::Known) => self.note("submitted known"),
            Done::Relayed => self.note("relayed"),
            Done::Begun(_) => self.note("proposed"),
            Done::Heard => self.note_hear(call, memories),
            Done::Advanced(advanced) => {
                advance_event(advanced).into_iter().for_each(|event| self.note(event))
            }
            Done::Crashed => self.note("crashed"),
            Done::RanOn(ran) => self.note_run_on(ran),
            // told by the memories before it, in `conducted`
            Done::Conducted(_) => {}
        }
    }

    fn note_run_on(&mut self, ran: Ran) {
        let lengths = ["run on of 1", "run on of 2", "run on of 3", "run on of 4", "run on of 5 or more"];
        self.note(lengths[ran.advances.min(5) - 1]);
        match ran.stop {
            Stop::Closed(_) => self.note("run on stopped at a closed slot"),
            Stop::Refused(Refusal::PhasesUsedUp) => self.note("run on stopped at 15"),
            Stop::Refused(_) => self.note("run on stopped at 14"),
        }
    }

    fn note_hear(&mut self, call: &Call, memories: &Memories) {
        let Call::Hear { receiver, sender, sort, slot, phase } = *call else { return };
        let Some(sort) = Sort::numbered(sort) else { return };
        self.note(["heard proposal", "heard state", "heard vote", "heard notice"][sort as usize - 1]);
        let record = |replica| memories.record(replica).unwrap_or_default();
        if record(sender).crashed != 0 {
            self.note("heard from a crashed sender");
        }
        if usize::from(record(receiver).slot) != slot {
            self.note("heard for another slot");
        } else if sort.has_phases() && usize::from(record(receiver).phase) != phase {
            self.note("heard for another phase");
        }
    }
}

/// Of an advance by a round; a notice has its own events.
fn advance_event(advanced: Advanced) -> Option<&'static str> {
    Some(match advanced {
        Advanced::Exchanged(ONE) => "exchange gave 1",
        Advanced::Exchanged(_) => "exchange gave 0",
        Advanced::Voted(UNDECIDED) => "voted ?",
        Advanced::Voted(ZERO) => "voted 0",
        Advanced::Voted(_) => "voted 1",
        Advanced::NextByVote(ZERO) => "next phase by vote 0",
        Advanced::NextByVote(_) => "next phase by vote 1",
        Advanced::NextByCoin(ZERO) => "next phase by coin 0",
        Advanced::NextByCoin(_) => "next phase by coin 1",
        Advanced::ClosedEmpty => "closed empty",
        Advanced::ClosedWith(_) => "closed with an order",
        Advanced::EnteredFind => "find entered",
        Advanced::Found(_) => "find closed",
        Advanced::ByNotice { .. } => return None,
    })
}
