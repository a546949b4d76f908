//! The library's calls, as its C header declares them, and safe wrappers over our own memories.

use crate::call::{Answer, Call};
use crate::conductor;
use crate::memories::{Memories, Record};
use crate::numbers::Numbers;
use crate::refusal::Refusal;

#[repr(C)]
#[derive(Clone, Copy)]
struct Replica {
    number: usize,
}

#[repr(C)]
struct Slot {
    index: usize,
}

#[repr(C)]
struct Phase {
    index: usize,
}

#[repr(C)]
struct Opened {
    refusal: usize,
    numbers: Numbers,
}

#[repr(C)]
struct Ran {
    refusal: usize,
    advances: usize,
}

#[repr(C)]
struct Conducted {
    refusal: usize,
    steps: usize,
    relays: usize,
}

/// The answer of a play: the bytes of the report that stand in the buffer, whether a run was opened, its numbers.
#[repr(C)]
#[derive(Clone, Copy, Debug, PartialEq, Eq)]
pub struct Played {
    pub written: usize,
    pub opened: usize,
    pub numbers: Numbers,
}

/// Declares a function of the header that is lent the memories: its arguments before them, and the kind of strip.
macro_rules! lent {
    ($(fn $name:ident($($argument:ident: $kind:ty),*; $strip:ty) -> $answer:ty;)*) => {
        extern "C" {
            $(fn $name(
                $($argument: $kind,)*
                words: *mut u16, words_length: usize,
                orders: *mut u64, orders_length: usize,
                ballots: *mut u8, ballots_length: usize,
                strip: $strip, strip_length: usize,
            ) -> $answer;)*
        }
    };
}

lent! {
    fn rushhopper_open(numbers: Numbers, start: usize; *mut u8) -> Opened;
    fn rushhopper_submit(numbers: Numbers, who: Replica, tag: u64; *const u8) -> usize;
    fn rushhopper_relay(numbers: Numbers, who: Replica, tag: u64; *const u8) -> usize;
    fn rushhopper_begin(numbers: Numbers, who: Replica; *const u8) -> usize;
    fn rushhopper_hear(
        numbers: Numbers, receiver: Replica, sender: Replica, sort: usize, slot: Slot, phase: Phase; *const u8
    ) -> usize;
    fn rushhopper_advance(numbers: Numbers, who: Replica; *const u8) -> usize;
    fn rushhopper_run_on(numbers: Numbers, who: Replica; *const u8) -> Ran;
    fn rushhopper_conduct(numbers: Numbers; *const u8) -> Conducted;
    fn rushhopper_play(
        most: Numbers, file: *const u8, file_length: usize, report: *mut u8, report_length: usize; *mut u8
    ) -> Played;
}

extern "C" {
    fn rushhopper_fill_strip(
        slots: usize,
        phases: usize,
        start: usize,
        strip: *mut u8,
        strip_length: usize,
    ) -> usize;
    fn rushhopper_crash(numbers: Numbers, who: Replica, record: *mut Record) -> usize;
    fn rushhopper_to_planes(
        entries: *const u64,
        entries_length: usize,
        stored: *mut u8,
        stored_length: usize,
    ) -> usize;
    fn rushhopper_to_entries(
        stored: *const u8,
        stored_length: usize,
        entries: *mut u64,
        entries_length: usize,
    ) -> usize;
}

/// Calls a function of the header with the arguments and the memories.
///
/// Sound: each memory is lent as its own pointer and length, none overlaps another, and none is kept by the library.
macro_rules! lend {
    ($name:ident($($argument:expr),*), $memories:expr, $strip:ident) => {{
        let memories: &mut Memories = $memories;
        unsafe {
            $name(
                $($argument,)*
                memories.words.as_mut_ptr(), memories.words.len(),
                memories.orders.as_mut_ptr(), memories.orders.len(),
                memories.ballots.as_mut_ptr(), memories.ballots.len(),
                memories.strip.$strip(), memories.strip.len(),
            )
        }
    }};
}

pub fn fill_strip(slots: usize, phases: usize, start: usize, strip: &mut [u8]) -> usize {
    unsafe { rushhopper_fill_strip(slots, phases, start, strip.as_mut_ptr(), strip.len()) }
}

pub fn crash(numbers: &Numbers, who: usize, record: &mut Record) -> usize {
    unsafe { rushhopper_crash(*numbers, Replica { number: who }, record) }
}

pub fn to_planes(entries: &[u64], stored: &mut [u8]) -> usize {
    unsafe { rushhopper_to_planes(entries.as_ptr(), entries.len(), stored.as_mut_ptr(), stored.len()) }
}

pub fn to_entries(stored: &[u8], entries: &mut [u64]) -> usize {
    unsafe { rushhopper_to_entries(stored.as_ptr(), stored.len(), entries.as_mut_ptr(), entries.len()) }
}

/// Makes the call of the library; the counterpart of `Call::make`.
pub fn make(call: &Call, numbers: &Numbers, memories: &mut Memories) -> Answer {
    let numbers = *numbers;
    let refusal = match *call {
        Call::Open { plan, start } => return open(plan, start, memories),
        Call::RunOn { who } => return run_on(numbers, who, memories),
        Call::Conduct => return conduct(numbers, memories),
        Call::Submit { who, tag } => {
            lend!(rushhopper_submit(numbers, Replica { number: who }, tag), memories, as_ptr)
        }
        Call::Relay { who, tag } => {
            lend!(rushhopper_relay(numbers, Replica { number: who }, tag), memories, as_ptr)
        }
        Call::Begin { who } => lend!(rushhopper_begin(numbers, Replica { number: who }), memories, as_ptr),
        Call::Advance { who } => {
            lend!(rushhopper_advance(numbers, Replica { number: who }), memories, as_ptr)
        }
        Call::Hear { receiver, sender, sort, slot, phase } => {
            let (receiver, sender) = (Replica { number: receiver }, Replica { number: sender });
            let (slot, phase) = (Slot { index: slot }, Phase { index: phase });
            lend!(rushhopper_hear(numbers, receiver, sender, sort, slot, phase), memories, as_ptr)
        }
        Call::Crash { who } => crash_in(&numbers, who, memories),
    };
    Answer { refusal, ..Answer::default() }
}

fn open(plan: Numbers, start: usize, memories: &mut Memories) -> Answer {
    let opened = lend!(rushhopper_open(plan, start), memories, as_mut_ptr);
    Answer { refusal: opened.refusal, numbers: opened.numbers, ..Answer::default() }
}

fn run_on(numbers: Numbers, who: usize, memories: &mut Memories) -> Answer {
    let ran = lend!(rushhopper_run_on(numbers, Replica { number: who }), memories, as_ptr);
    Answer { refusal: ran.refusal, advances: ran.advances, ..Answer::default() }
}

fn conduct(numbers: Numbers, memories: &mut Memories) -> Answer {
    let Conducted { refusal, steps, relays } = lend!(rushhopper_conduct(numbers), memories, as_ptr);
    Answer { refusal, conducted: conductor::Conducted { steps, relays }, ..Answer::default() }
}

/// As the header's `rushhopper_crash_in`, and what becomes of the record goes back also after a refusal.
fn crash_in(numbers: &Numbers, who: usize, memories: &mut Memories) -> usize {
    let lent = memories.record(who);
    let mut record = lent.unwrap_or_default();
    let refusal = crash(numbers, who, &mut record);
    match lent {
        Some(_) => memories.set_record(who, record),
        None if refusal == 0 => return Refusal::ShortTable.number(),
        None => {}
    }
    refusal
}

pub fn play(most: &Numbers, file: &[u8], report: &mut [u8], memories: &mut Memories) -> Played {
    lend!(
        rushhopper_play(*most, file.as_ptr(), file.len(), report.as_mut_ptr(), report.len()),
        memories,
        as_mut_ptr
    )
}
