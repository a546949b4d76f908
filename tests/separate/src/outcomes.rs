//! How many slots of a run each replica closed by an outcome that it reached in phase 1: told by the accepted advances alone,
//! beside the memories and never by a record.

use crate::call::{Call, Done};
use crate::conductor::Plan;
use crate::memories::Memories;
use crate::numbers::Numbers;
use crate::rules::Advanced;

/// An accepted advance of a replica.
pub type Taken = (usize, Advanced);

/// Of each replica of a run.
pub struct Outcomes {
    replicas: Vec<Progress>,
}

#[derive(Clone, Default)]
struct Progress {
    /// Of its state or vote round.
    phase: usize,
    /// The phase of an outcome with which the slot is not closed yet.
    reached: Option<usize>,
    fast: usize,
}

impl Outcomes {
    /// Of a run in which all have closed so many slots, each by an outcome of phase 1.
    pub fn after(closed: usize, numbers: &Numbers) -> Outcomes {
        Outcomes { replicas: vec![Progress { fast: closed, ..Progress::default() }; numbers.n] }
    }

    pub fn note(&mut self, (who, advanced): Taken) {
        self.replicas[who].note(advanced);
    }

    pub fn fast(&self, who: usize) -> usize {
        self.replicas[who].fast
    }
}

impl Progress {
    /// "Outcome reached: the 0 or 1 with at least f + 1 votes at such an advance", one by the vote rule. A notice reaches none.
    fn note(&mut self, advanced: Advanced) {
        match advanced {
            Advanced::Exchanged(_) => self.phase = 1,
            Advanced::Voted(_) => {}
            Advanced::NextByVote(_) | Advanced::NextByCoin(_) => self.phase += 1,
            Advanced::EnteredFind => self.reached = Some(self.phase),
            Advanced::ClosedEmpty | Advanced::ClosedWith(_) => self.close(Some(self.phase)),
            Advanced::Found(_) => self.close(self.reached),
            Advanced::ByNotice { .. } => self.close(None),
        }
    }

    fn close(&mut self, reached: Option<usize>) {
        self.fast += usize::from(reached == Some(1));
        self.reached = None;
    }
}

/// The advances of a call that these memories accept: "a call built of steps, as run on, counts as those accepted in it, in
/// order."
pub fn advances(call: &Call, numbers: &Numbers, memories: &Memories) -> Vec<Taken> {
    match *call {
        Call::Advance { who } => {
            take(call, numbers, &mut memories.clone()).map(|done| (who, done)).into_iter().collect()
        }
        Call::RunOn { who } => advances_of_run_on(who, numbers, memories.clone()),
        Call::Conduct => advances_of_conductor(numbers, memories.clone()),
        _ => Vec::new(),
    }
}

fn take(call: &Call, numbers: &Numbers, memories: &mut Memories) -> Option<Advanced> {
    match call.make(numbers, memories) {
        Ok(Done::Advanced(advanced)) => Some(advanced),
        _ => None,
    }
}

fn advances_of_run_on(who: usize, numbers: &Numbers, mut memories: Memories) -> Vec<Taken> {
    let mut taken = Vec::new();
    while let Some(advanced) = take(&Call::Advance { who }, numbers, &mut memories) {
        taken.push((who, advanced));
        if advanced.closes() {
            break;
        }
    }
    taken
}

fn advances_of_conductor(numbers: &Numbers, mut memories: Memories) -> Vec<Taken> {
    let Ok(plan) = Plan::of(numbers, &memories) else { return Vec::new() };
    let mut taken = Vec::new();
    for call in plan.relays().chain(plan.steps()) {
        let advanced = take(&call, numbers, &mut memories);
        if let (Call::Advance { who }, Some(advanced)) = (call, advanced) {
            taken.push((who, advanced));
        }
    }
    taken
}

#[cfg(test)]
mod tests {
    use super::*;
    use crate::counted::{self, Counted};
    use crate::counts::claim;
    use crate::memories::{Record, ONE, STATE, ZERO};

    const NUMBERS: Numbers = Numbers { n: 3, f: 1, slots: 4, phases: 2, room: 4 };

    fn fast(advances: &[Advanced]) -> usize {
        let mut outcomes = Outcomes::after(0, &NUMBERS);
        advances.iter().for_each(|&advanced| outcomes.note((1, advanced)));
        assert_eq!((outcomes.fast(0), outcomes.fast(2)), (0, 0));
        outcomes.fast(1)
    }

    #[test]
    fn tells_the_phase_of_an_outcome() {
        let [state, vote, next] =
            [Advanced::Exchanged(ONE), Advanced::Voted(ONE), Advanced::NextByCoin(ZERO)];
        let [find, found, with] = [Advanced::EnteredFind, Advanced::Found(7), Advanced::ClosedWith(7)];
        let notice = Advanced::ByNotice { round: STATE, entry: 7 };
        assert_eq!(fast(&[state, vote]), 0);
        assert_eq!(fast(&[state, vote, with]), 1);
        assert_eq!(fast(&[state, vote, next, vote, with]), 0);
        assert_eq!(fast(&[state, vote, find]), 0);
        assert_eq!(fast(&[state, vote, find, found]), 1);
        assert_eq!(fast(&[state, vote, find, notice, notice]), 0);
        assert_eq!(fast(&[state, vote, next, vote, find, found, state, vote, with]), 1);
        assert_eq!(fast(&[state, vote, Advanced::ClosedEmpty, notice, state, vote, with]), 2);
    }
    /// By single advances, run on and the conductor; a count that is another is told.
    #[test]
    fn tells_the_counts_of_scripted_runs() {
        for Counted { name, script, counts } in counted::runs() {
            let (numbers, mut memories) = (script.numbers, Memories::of_run(&script.numbers));
            let mut outcomes = Outcomes::after(0, &numbers);
            for call in &script.calls {
                advances(call, &numbers, &memories).into_iter().for_each(|taken| outcomes.note(taken));
                if let Ok(Done::Opened(_)) = call.make(&numbers, &mut memories) {
                    outcomes = Outcomes::after(0, &numbers);
                }
            }
            let fast: Vec<usize> = (0..counts.len()).map(|who| outcomes.fast(who)).collect();
            let right: Vec<usize> = counts.into_iter().map(|(_, fast)| fast.into()).collect();
            assert_eq!((claim(&numbers, &memories, &outcomes), fast), (Ok(()), right), "{name}");
            let record = memories.record(2).unwrap_or_default();
            for other in
                [Record { empty: record.empty + 1, ..record }, Record { fast: record.fast + 1, ..record }]
            {
                memories.set_record(2, other);
                assert!(claim(&numbers, &memories, &outcomes).is_err());
            }
        }
    }
}
