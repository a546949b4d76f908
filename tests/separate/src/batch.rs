//! A case in copies that are measured together, since one call is too short for the clock. Both sides use the same
//! copies; what a call changed is put back in between, outside the measured time.

use crate::archive::{self, MOST_ENTRIES, MOST_STORED};
use crate::call::Call;
use crate::cases::{Case, Work};
use crate::coin;
use crate::compare::{compare_play, Difference, Pair};
use crate::library;
use crate::long_runs::is_long;
use crate::memories::{Memories, Record};
use crate::numbers::Numbers;
use crate::refusal::Refusal;
use crate::rules;
use crate::step_file;
use std::hint::black_box;
use std::time::{Duration, Instant};

/// Longer than any report of the cases.
const REPORT: usize = 1 << 16;

#[derive(Clone, Copy)]
pub enum Side {
    Library,
    Separate,
}

/// What one call is lent.
#[derive(Clone)]
struct Lent {
    memories: Memories,
    record: Record,
    report: Vec<u8>,
}

pub struct Batch {
    case: Case,
    /// Before the call, and after it with all put back.
    before: Lent,
    undo: Undo,
    copies: Vec<Lent>,
}

impl Case {
    /// Makes the call of both sides; the answers and every cell must be equal, and the call do what it should.
    pub fn check(&self) -> Result<(), Difference> {
        let memories = self.memories.clone();
        match &self.work {
            Work::Call(call) => {
                let result = Pair::of(memories).call(call, &self.numbers)?;
                (self.does)(&result).then_some(()).ok_or(format!("did {result:?}"))
            }
            Work::Steps(calls) => self.check_steps(calls),
            Work::Play { file } => compare_play(&self.numbers, file, REPORT, memories),
            Work::FillStrip { .. } | Work::Crash { .. } | Work::ToPlanes { .. } | Work::ToEntries { .. } => {
                self.check_small()
            }
        }
    }

    /// Both sides must accept every step.
    fn check_steps(&self, calls: &[Call]) -> Result<(), Difference> {
        let mut pair = Pair::of(self.memories.clone());
        for call in calls {
            pair.call(call, &self.numbers)?.map_err(|refusal| format!("{call:?} got {refusal:?}"))?;
        }
        Ok(())
    }

    /// The calls that are not lent all the memories; both sides must accept them.
    fn check_small(&self) -> Result<(), Difference> {
        let [library, separate] = [Side::Library, Side::Separate].map(|side| {
            let mut lent = self.lent();
            (self.make(side, &mut lent), lent.memories, lent.record)
        });
        let right = library == separate && library.0 == 0;
        right.then_some(()).ok_or(format!("answers {} and {}", separate.0, library.0))
    }

    fn lent(&self) -> Lent {
        let (record, report) = match self.work {
            Work::Crash { who } => (self.memories.record(who).unwrap_or_default(), Vec::new()),
            Work::Play { .. } => (Record::default(), vec![0; REPORT]),
            _ => (Record::default(), Vec::new()),
        };
        Lent { memories: self.memories.clone(), record, report }
    }

    /// So many that the clock's steps do not show, so few that the cells in use stay in the first cache.
    fn copies(&self) -> usize {
        match &self.work {
            Work::Play { .. } | Work::Call(Call::Open { .. } | Call::Conduct) | Work::Steps(_) => 1,
            Work::Crash { .. } => 128,
            Work::ToPlanes { entries } => MOST_ENTRIES / entries.len(),
            Work::ToEntries { stored } => MOST_STORED / stored.len(),
            _ if is_long(&self.numbers) => 4,
            _ => 16,
        }
    }

    /// Whether the call does no more than write its output over: there is nothing to put back.
    fn writes_over(&self) -> bool {
        matches!(self.work, Work::ToPlanes { .. } | Work::ToEntries { .. })
    }

    /// Each side is given what the compiler cannot know, and its answer is used.
    fn make(&self, side: Side, lent: &mut Lent) -> usize {
        let (work, numbers, lent) = (black_box(&self.work), black_box(&self.numbers), black_box(lent));
        match side {
            Side::Library => make_library(work, numbers, lent),
            Side::Separate => make_separate(work, numbers, lent),
        }
    }
}

fn make_library(work: &Work, numbers: &Numbers, lent: &mut Lent) -> usize {
    let Lent { memories, record, report } = lent;
    match work {
        Work::Call(call) => black_box(&library::make(call, numbers, memories)).refusal,
        Work::Steps(calls) => {
            calls.iter().map(|call| black_box(&library::make(call, numbers, memories)).refusal).sum()
        }
        Work::FillStrip { start } => {
            library::fill_strip(numbers.slots, numbers.phases, *start, &mut memories.strip)
        }
        Work::Crash { who } => library::crash(numbers, *who, record),
        Work::ToPlanes { entries } => library::to_planes(entries, &mut memories.ballots),
        Work::ToEntries { stored } => library::to_entries(stored, &mut memories.orders),
        Work::Play { file } => black_box(&library::play(numbers, file, report, memories)).written,
    }
}

fn make_separate(work: &Work, numbers: &Numbers, lent: &mut Lent) -> usize {
    let Lent { memories, record, .. } = lent;
    match work {
        Work::Call(call) => refusal(black_box(&call.make(numbers, memories))),
        Work::Steps(calls) => {
            calls.iter().map(|call| refusal(black_box(&call.make(numbers, memories)))).sum()
        }
        Work::FillStrip { start } => {
            refusal(&coin::fill_strip(numbers.slots, numbers.phases, *start, &mut memories.strip))
        }
        Work::Crash { who } => refusal(&rules::crash(numbers, *who, record)),
        Work::ToPlanes { entries } => refusal(&archive::to_planes(entries, &mut memories.ballots)),
        Work::ToEntries { stored } => refusal(&archive::to_entries(stored, &mut memories.orders)),
        Work::Play { file } => black_box(&step_file::play(numbers, file, memories)).report.len(),
    }
}

fn refusal<T>(result: &Result<T, Refusal>) -> usize {
    result.as_ref().err().map_or(0, |refusal| refusal.number())
}

impl Batch {
    pub fn of(case: Case) -> Batch {
        let mut after = case.lent();
        case.make(Side::Separate, &mut after);
        let before = if case.writes_over() { after.clone() } else { case.lent() };
        let undo = Undo::between(&before.memories, &after.memories);
        let copies = vec![before.clone(); case.copies()];
        Batch { case, before, undo, copies }
    }

    pub fn name(&self) -> &str {
        &self.case.name
    }

    /// Nanoseconds of one call; `clock` is what the clock itself takes.
    pub fn measure(&mut self, side: Side, clock: Duration) -> f64 {
        let start = Instant::now();
        self.make(side);
        let spent = start.elapsed();
        self.restore();
        spent.saturating_sub(clock).as_nanos() as f64 / self.copies.len() as f64
    }

    /// As `measure`, without the clock. Answers how many calls were made.
    pub fn repeat(&mut self, side: Side) -> usize {
        self.make(side);
        self.restore();
        self.copies.len()
    }

    fn make(&mut self, side: Side) {
        let answers: usize = self.copies.iter_mut().map(|lent| self.case.make(side, lent)).sum();
        black_box(answers);
    }

    fn restore(&mut self) {
        for lent in &mut self.copies {
            self.undo.put_back(&mut lent.memories);
            lent.record = self.before.record;
        }
    }

    /// Whether all was put back; else later calls were others than the first.
    pub fn is_restored(&self) -> bool {
        self.copies
            .iter()
            .all(|lent| lent.memories == self.before.memories && lent.record == self.before.record)
    }
}

/// The median of what two looks at the clock measure when nothing is between them.
pub fn clock() -> Duration {
    let mut spans: Vec<Duration> = (0..999).map(|_| Instant::now().elapsed()).collect();
    spans.sort();
    spans[spans.len() / 2]
}

/// The cells that a call changes, as they were. Few as a rule: whole copies would sweep the caches.
struct Undo {
    words: Vec<(usize, u16)>,
    orders: Vec<(usize, u64)>,
    ballots: Vec<(usize, u8)>,
    strip: Vec<(usize, u8)>,
}

impl Undo {
    fn between(before: &Memories, after: &Memories) -> Undo {
        Undo {
            words: changed(&before.words, &after.words),
            orders: changed(&before.orders, &after.orders),
            ballots: changed(&before.ballots, &after.ballots),
            strip: changed(&before.strip, &after.strip),
        }
    }

    fn put_back(&self, memories: &mut Memories) {
        put(&self.words, &mut memories.words);
        put(&self.orders, &mut memories.orders);
        put(&self.ballots, &mut memories.ballots);
        put(&self.strip, &mut memories.strip);
    }
}

fn changed<T: Copy + PartialEq>(before: &[T], after: &[T]) -> Vec<(usize, T)> {
    let cells = before.iter().copied().enumerate().zip(after);
    cells.filter(|((_, old), new)| old != *new).map(|(cell, _)| cell).collect()
}

fn put<T: Copy>(cells: &[(usize, T)], memory: &mut [T]) {
    for &(place, value) in cells {
        memory[place] = value;
    }
}
