//! A call with its arguments, as a value: a record of a step file counts as one, and the comparison programs make the
//! same one of both implementations.

use crate::conductor::{self, Conducted};
use crate::memories::Memories;
use crate::numbers::Numbers;
use crate::refusal::Refusal;
use crate::rules::{self, Advanced, Ran, Submitted};

#[derive(Clone, Copy, Debug, PartialEq, Eq)]
pub enum Call {
    Open { plan: Numbers, start: usize },
    Submit { who: usize, tag: u64 },
    Relay { who: usize, tag: u64 },
    Begin { who: usize },
    Hear { receiver: usize, sender: usize, sort: usize, slot: usize, phase: usize },
    Advance { who: usize },
    Crash { who: usize },
    RunOn { who: usize },
    Conduct,
}

/// What an accepted call did.
#[derive(Clone, Copy, Debug, PartialEq, Eq)]
pub enum Done {
    Opened(Numbers),
    Submitted(Submitted),
    Relayed,
    Begun(u64),
    Heard,
    Advanced(Advanced),
    Crashed,
    RanOn(Ran),
    Conducted(Conducted),
}

/// What crosses the boundary: the refusal (0: accepted) and the values, 0 where the call has none.
#[derive(Clone, Copy, Debug, Default, PartialEq, Eq)]
pub struct Answer {
    pub refusal: usize,
    pub numbers: Numbers,
    pub advances: usize,
    pub conducted: Conducted,
}

impl Call {
    pub fn name(&self) -> &'static str {
        match self {
            Call::Open { .. } => "open",
            Call::Submit { .. } => "submit",
            Call::Relay { .. } => "relay",
            Call::Begin { .. } => "begin",
            Call::Hear { .. } => "hear",
            Call::Advance { .. } => "advance",
            Call::Crash { .. } => "crash",
            Call::RunOn { .. } => "run on",
            Call::Conduct => "conduct",
        }
    }

    /// Makes the call on the memories of a run; an opening does not look at the run's numbers.
    pub fn make(&self, numbers: &Numbers, memories: &mut Memories) -> Result<Done, Refusal> {
        match *self {
            Call::Open { plan, start } => rules::open(&plan, start, memories).map(Done::Opened),
            Call::Submit { who, tag } => rules::submit(numbers, who, tag, memories).map(Done::Submitted),
            Call::Relay { who, tag } => rules::relay(numbers, who, tag, memories).map(|()| Done::Relayed),
            Call::Begin { who } => rules::begin(numbers, who, memories).map(Done::Begun),
            Call::Hear { receiver, sender, sort, slot, phase } => {
                rules::hear(numbers, receiver, sender, sort, slot, phase, memories).map(|()| Done::Heard)
            }
            Call::Advance { who } => rules::advance(numbers, who, memories).map(Done::Advanced),
            Call::Crash { who } => crash_in(numbers, who, memories).map(|()| Done::Crashed),
            Call::RunOn { who } => rules::run_on(numbers, who, memories).map(Done::RanOn),
            Call::Conduct => conductor::conduct(numbers, memories).map(Done::Conducted),
        }
    }
}

/// Lends a crash the record that the memories have of the replica it names. Where they have none, a blank one is lent,
/// and one that would be marked gets 2.
fn crash_in(numbers: &Numbers, who: usize, memories: &mut Memories) -> Result<(), Refusal> {
    let lent = memories.record(who);
    let mut record = lent.unwrap_or_default();
    rules::crash(numbers, who, &mut record)?;
    if lent.is_none() {
        return Err(Refusal::ShortTable);
    }
    memories.set_record(who, record);
    Ok(())
}

impl From<&Result<Done, Refusal>> for Answer {
    fn from(result: &Result<Done, Refusal>) -> Answer {
        match *result {
            Err(refusal) => Answer { refusal: refusal.number(), ..Answer::default() },
            Ok(Done::Opened(numbers)) => Answer { numbers, ..Answer::default() },
            Ok(Done::RanOn(ran)) => Answer { advances: ran.advances, ..Answer::default() },
            Ok(Done::Conducted(conducted)) => Answer { conducted, ..Answer::default() },
            Ok(_) => Answer::default(),
        }
    }
}
