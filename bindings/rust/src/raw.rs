//! The library's functions as `include/rushhopper.h` declares them, and the memories that are lent to them. All that is
//! unsafe is here.

use crate::numbers::{Conducted, Numbers, Phase, Plan, Replica, Slot};
use crate::refusal::{accepted, Refusal};

#[repr(C)]
struct Opened {
    refusal: usize,
    numbers: Numbers,
}

#[repr(C)]
struct Ran {
    refusal: usize,
    advances: usize,
}

/// The three numbers of the header's `rushhopper_conducted`, in its order.
#[repr(C)]
struct Conduct {
    refusal: usize,
    conducted: Conducted,
}

/// The report itself says what the last two say.
#[repr(C)]
struct Played {
    written: usize,
    _opened: usize,
    _numbers: Numbers,
}

/// A message, its sort by number.
#[derive(Clone, Copy)]
pub struct Sent {
    pub sort: usize,
    pub slot: Slot,
    pub phase: Phase,
    pub sender: Replica,
}

/// A replica's record.
#[repr(C)]
#[derive(Clone, Copy, Default)]
pub struct Words {
    pub crashed: u16,
    pub round: u16,
    pub slot: u16,
    pub phase: u16,
    pub empty: u16,
    pub fast: u16,
}

/// The lent memories and the strip, in the layout of docs/TABLES.md.
#[derive(Clone, Debug, PartialEq, Eq)]
pub struct Memories {
    words: Vec<u16>,
    orders: Vec<u64>,
    ballots: Vec<u8>,
    strip: Vec<u8>,
}

/// The layout of the structs here and of the memories, as `RUSHHOPPER_LAYOUT` of the header. It rises with every request
/// that moves one of them.
const LAYOUT: u32 = 1;

/// How many words stand before the records; the first of them is the count of known tags.
const HEADER_LENGTH: usize = 1;

/// How many words a record has: those of `Words`, in its order.
const RECORD_LENGTH: usize = 6;

/// Declares functions that are lent the memories: the arguments before them, and the kind of strip.
macro_rules! declare {
    ($(fn $name:ident($($argument:ident: $kind:ty),*; $strip:ty) -> $answer:ty;)*) => {
        extern "C" {
            $(fn $name(
                $($argument: $kind,)*
                words: *mut u16, words_length: usize,
                orders: *mut u64, orders_length: usize,
                ballots: *mut u8, ballots_length: usize,
                strip: $strip, strip_length: usize,
            ) -> $answer;)*
        }
    };
}

declare! {
    fn rushhopper_open(numbers: Numbers, start: usize; *mut u8) -> Opened;
    fn rushhopper_submit(numbers: Numbers, who: Replica, tag: u64; *const u8) -> usize;
    fn rushhopper_relay(numbers: Numbers, who: Replica, tag: u64; *const u8) -> usize;
    fn rushhopper_begin(numbers: Numbers, who: Replica; *const u8) -> usize;
    fn rushhopper_hear(
        numbers: Numbers, receiver: Replica, sender: Replica, sort: usize, slot: Slot, phase: Phase; *const u8
    ) -> usize;
    fn rushhopper_advance(numbers: Numbers, who: Replica; *const u8) -> usize;
    fn rushhopper_run_on(numbers: Numbers, who: Replica; *const u8) -> Ran;
    fn rushhopper_conduct(numbers: Numbers; *const u8) -> Conduct;
    fn rushhopper_play(
        most: Numbers, file: *const u8, file_length: usize, report: *mut u8, report_length: usize; *mut u8
    ) -> Played;
}

extern "C" {
    fn rushhopper_layout() -> u32;
    fn rushhopper_fill_strip(
        slots: usize,
        phases: usize,
        start: usize,
        strip: *mut u8,
        strip_length: usize,
    ) -> usize;
    fn rushhopper_crash(numbers: Numbers, who: Replica, record: *mut Words) -> usize;
    fn rushhopper_to_planes(
        entries: *const u64,
        entries_length: usize,
        stored: *mut u8,
        stored_length: usize,
    ) -> usize;
    fn rushhopper_to_entries(
        stored: *const u8,
        stored_length: usize,
        entries: *mut u64,
        entries_length: usize,
    ) -> usize;
}

/// Panics where the library has another layout than this wrapper. It is no refusal: those are for what is handed in, and
/// here the program was linked with the library of another version, which no caller can mend. Every opening tells, the
/// first one in any test, and so does play, which has no refusals.
fn expect_layout(library: u32) {
    assert!(
        library == LAYOUT,
        "linked with a librushhopper.a of layout {library}, but the wrapper is for layout {LAYOUT}"
    );
}

pub fn to_planes(entries: &[u64], stored: &mut [u8]) -> Result<(), Refusal> {
    // Sound: both are lent with their lengths, and what is borrowed to be changed overlaps nothing.
    accepted(unsafe {
        rushhopper_to_planes(entries.as_ptr(), entries.len(), stored.as_mut_ptr(), stored.len())
    })
}

pub fn to_entries(stored: &[u8], entries: &mut [u64]) -> Result<(), Refusal> {
    // Sound: as above.
    accepted(unsafe {
        rushhopper_to_entries(stored.as_ptr(), stored.len(), entries.as_mut_ptr(), entries.len())
    })
}

/// Calls a function with its arguments and the memories.
///
/// Sound: every memory is lent with its own length, no two overlap, and the library keeps none after the call.
macro_rules! lend {
    ($memories:expr, $strip:ident, $name:ident($($argument:expr),*)) => {{
        let memories: &mut Memories = $memories;
        unsafe {
            $name(
                $($argument,)*
                memories.words.as_mut_ptr(), memories.words.len(),
                memories.orders.as_mut_ptr(), memories.orders.len(),
                memories.ballots.as_mut_ptr(), memories.ballots.len(),
                memories.strip.$strip(), memories.strip.len(),
            )
        }
    }};
}

impl Memories {
    /// Memories for runs of at most these numbers. Panics where the library has another layout: whoever lends memories
    /// makes them here first.
    pub fn for_runs_of(most: Numbers) -> Memories {
        // Sound: it is lent nothing.
        expect_layout(unsafe { rushhopper_layout() });
        let numbers @ Numbers { n, slots, phases, .. } = most.of_memories();
        Memories {
            words: vec![0; HEADER_LENGTH + RECORD_LENGTH * n + numbers.room + slots * (2 * phases + 2) * n],
            orders: vec![0; numbers.logs_start() + n * slots],
            ballots: vec![0; slots * 2 * phases * n],
            strip: vec![0; slots * phases],
        }
    }

    /// Answers the numbers of the run.
    pub fn open(&mut self, plan: Plan) -> Result<Numbers, Refusal> {
        let opened = lend!(self, as_mut_ptr, rushhopper_open(plan.numbers, plan.start));
        accepted(opened.refusal).map(|()| opened.numbers)
    }

    pub fn fill_strip(&mut self, numbers: Numbers, start: usize) -> Result<(), Refusal> {
        let strip = &mut self.strip;
        // Sound: the strip is lent with its length.
        accepted(unsafe {
            rushhopper_fill_strip(numbers.slots, numbers.phases, start, strip.as_mut_ptr(), strip.len())
        })
    }

    pub fn submit(&mut self, numbers: Numbers, who: Replica, tag: u64) -> Result<(), Refusal> {
        accepted(lend!(self, as_ptr, rushhopper_submit(numbers, who, tag)))
    }

    pub fn relay(&mut self, numbers: Numbers, who: Replica, tag: u64) -> Result<(), Refusal> {
        accepted(lend!(self, as_ptr, rushhopper_relay(numbers, who, tag)))
    }

    pub fn begin(&mut self, numbers: Numbers, who: Replica) -> Result<(), Refusal> {
        accepted(lend!(self, as_ptr, rushhopper_begin(numbers, who)))
    }

    pub fn hear(&mut self, numbers: Numbers, receiver: Replica, message: Sent) -> Result<(), Refusal> {
        let Sent { sort, slot, phase, sender } = message;
        accepted(lend!(self, as_ptr, rushhopper_hear(numbers, receiver, sender, sort, slot, phase)))
    }

    pub fn advance(&mut self, numbers: Numbers, who: Replica) -> Result<(), Refusal> {
        accepted(lend!(self, as_ptr, rushhopper_advance(numbers, who)))
    }

    /// Answers the count of accepted advances.
    pub fn run_on(&mut self, numbers: Numbers, who: Replica) -> Result<usize, Refusal> {
        let ran = lend!(self, as_ptr, rushhopper_run_on(numbers, who));
        accepted(ran.refusal).map(|()| ran.advances)
    }

    pub fn conduct(&mut self, numbers: Numbers) -> Result<Conducted, Refusal> {
        let conduct = lend!(self, as_ptr, rushhopper_conduct(numbers));
        accepted(conduct.refusal).map(|()| conduct.conducted)
    }

    /// Lends the record in the memory itself. A replica that is not of the run has none there, and the call looks at no
    /// record for it; it is lent a blank one.
    pub fn crash(&mut self, numbers: Numbers, who: Replica) -> Result<(), Refusal> {
        let mut blank = Words::default();
        let mut records = self.words[HEADER_LENGTH..].chunks_exact_mut(RECORD_LENGTH).take(numbers.n);
        let record = match records.nth(who.0) {
            Some(words) => words.as_mut_ptr().cast(),
            None => &mut blank,
        };
        // Sound: `record` points to the words of one record, as `Words` lays them out.
        accepted(unsafe { rushhopper_crash(numbers, who, record) })
    }

    /// Answers how many bytes of the report were written.
    pub fn play(&mut self, most: Numbers, file: &[u8], report: &mut [u8]) -> usize {
        let (page, page_length) = (report.as_mut_ptr(), report.len());
        // Sound: file and report are lent with their lengths, too.
        lend!(self, as_mut_ptr, rushhopper_play(most, file.as_ptr(), file.len(), page, page_length)).written
    }

    pub fn known(&self) -> usize {
        self.words[0].into()
    }

    /// The record of a replica of a run of these numbers.
    pub fn record(&self, numbers: Numbers, replica: Replica) -> Option<Words> {
        let words = self.words[HEADER_LENGTH..].chunks_exact(RECORD_LENGTH).take(numbers.n).nth(replica.0)?;
        Some(Words {
            crashed: words[0],
            round: words[1],
            slot: words[2],
            phase: words[3],
            empty: words[4],
            fast: words[5],
        })
    }

    /// The row of a replica's log, closed slots and others; for a replica of a run of these numbers.
    pub fn log(&self, numbers: Numbers, replica: Replica) -> &[u64] {
        &self.orders[numbers.logs_start() + replica.0 * numbers.slots..][..numbers.slots]
    }
}

#[cfg(test)]
mod tests {
    use super::*;

    #[test]
    fn the_layout_is_the_librarys() {
        assert_eq!(unsafe { rushhopper_layout() }, LAYOUT);
        expect_layout(LAYOUT);
    }

    #[test]
    #[should_panic(expected = "linked with a librushhopper.a of layout")]
    fn another_layout() {
        expect_layout(LAYOUT + 1);
    }
}
